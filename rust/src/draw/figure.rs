//! A panel's shapes, placed by themselves.

use super::panel::{Arrow, Sight, Spot, View};
use super::svg::{Shapes, text_width};

const TITLE: f64 = 18.0;
const LABEL: f64 = 15.0;

/// A panel drawn from (0, 0) on.
pub struct Figure {
    pub width: f64,
    pub height: f64,
    pub shapes: Shapes,
}

/// Sizes that depend on how many points there are.
struct Scale {
    cell: f64,
    radius: f64,
    number: f64,
    flat: bool,
}

/// A bounding box.
#[derive(Clone, Copy)]
struct Bounds {
    left: f64,
    top: f64,
    right: f64,
    bottom: f64,
}

struct Curve {
    start: (f64, f64),
    control: (f64, f64),
    end: (f64, f64),
}

impl Bounds {
    fn include(&mut self, (x, y): (f64, f64), around: f64) {
        self.left = self.left.min(x - around);
        self.top = self.top.min(y - around);
        self.right = self.right.max(x + around);
        self.bottom = self.bottom.max(y + around);
    }
}

impl Scale {
    fn of(view: &View) -> Scale {
        let most = view.rows.values.clone().count().max(view.columns.values.clone().count());
        let flat = view.row_name.is_none();
        if most <= 10 {
            Scale {
                cell: 58.0,
                radius: 15.0,
                number: 14.0,
                flat,
            }
        } else {
            Scale {
                cell: 46.0,
                radius: 13.0,
                number: 11.0,
                flat,
            }
        }
    }

    /// The curve of an arrow between two centres. It bends to the left of its direction, so that arrows forth and back are parted; one that
    /// runs down, or down to the left, bends to the right, away from those that leave the point it reaches.
    fn curve(&self, from: (f64, f64), to: (f64, f64)) -> Curve {
        let (dx, dy) = (to.0 - from.0, to.1 - from.1);
        let length = dx.hypot(dy);
        let side = if dx == 0.0 || (dx < 0.0 && dy > 0.0) { -1.0 } else { 1.0 };
        let bend = side * if self.flat { self.arc(length) } else { (0.27 * length).max(18.0) };
        let control = (
            (from.0 + to.0) / 2.0 + dy / length * bend,
            (from.1 + to.1) / 2.0 - dx / length * bend,
        );
        Curve {
            start: towards(from, control, self.radius + 1.0),
            control,
            end: towards(to, control, self.radius + 2.0),
        }
    }

    /// The bend in one row: longer arrows rise more steeply, so that those which meet fan out.
    fn arc(&self, length: f64) -> f64 {
        let steepness = (0.46 + 0.06 * length / self.cell).min(0.9);
        steepness * length
    }
}

impl Curve {
    fn middle(&self) -> (f64, f64) {
        let mean = |a: f64, b: f64, c: f64| 0.25 * a + 0.5 * b + 0.25 * c;
        (
            mean(self.start.0, self.control.0, self.end.0),
            mean(self.start.1, self.control.1, self.end.1),
        )
    }
}

fn towards(from: (f64, f64), to: (f64, f64), distance: f64) -> (f64, f64) {
    let (dx, dy) = (to.0 - from.0, to.1 - from.1);
    let length = dx.hypot(dy).max(1.0);
    (from.0 + dx / length * distance, from.1 + dy / length * distance)
}

impl Figure {
    pub fn of(view: &View) -> Figure {
        let mut shapes = Shapes::default();
        shapes.bold(0.0, TITLE, TITLE, &view.title);
        let title = text_width(&view.title, TITLE) * 1.08;
        if view.spots.is_empty() {
            shapes.text(0.0, 60.0, LABEL, "start", "no iterations");
            return Figure {
                width: title.max(160.0),
                height: 80.0,
                shapes,
            };
        }
        let layout = Layout {
            view,
            scale: Scale::of(view),
        };
        let curves = layout.curves();
        let bounds = layout.bounds(&curves);
        let (x, y) = (layout.row_labels() - bounds.left, TITLE + 62.0 - bounds.top);
        shapes.open_group(x, y);
        layout.axes(&mut shapes, bounds);
        layout.order(&mut shapes);
        arrows(&mut shapes, &curves);
        layout.points(&mut shapes);
        shapes.close_group();
        Figure {
            width: title.max(x + bounds.right + 30.0),
            height: y + bounds.bottom + 6.0,
            shapes,
        }
    }
}

/// A panel and its sizes. Centres are counted from that of the first row and column.
struct Layout<'a> {
    view: &'a View,
    scale: Scale,
}

impl Layout<'_> {
    fn centre(&self, spot: Spot) -> (f64, f64) {
        let (row, column) = (spot.0 - self.view.rows.values.start(), spot.1 - self.view.columns.values.start());
        (column as f64 * self.scale.cell, row as f64 * self.scale.cell)
    }

    fn curves(&self) -> Vec<(Curve, Arrow)> {
        let curve = |arrow: &Arrow| (self.scale.curve(self.centre(arrow.from), self.centre(arrow.to)), *arrow);
        self.view.arrows.iter().map(curve).collect()
    }

    fn bounds(&self, curves: &[(Curve, Arrow)]) -> Bounds {
        let radius = self.scale.radius;
        let corner = self.centre((*self.view.rows.values.end(), *self.view.columns.values.end()));
        let mut bounds = Bounds {
            left: -radius,
            top: -radius,
            right: corner.0 + radius,
            bottom: corner.1 + radius,
        };
        curves.iter().for_each(|(curve, _)| bounds.include(curve.middle(), 6.0));
        bounds
    }

    /// The width of what stands at the left of the rows.
    fn row_labels(&self) -> f64 {
        let rows = &self.view.rows;
        let widest = rows
            .values
            .clone()
            .map(|row| text_width(&label(row, rows), LABEL))
            .fold(34.0, f64::max);
        if self.scale.flat { 0.0 } else { widest + 14.0 }
    }

    /// The indices' names and values: columns above, rows at the left.
    fn axes(&self, shapes: &mut Shapes, bounds: Bounds) {
        let (rows, columns) = (&self.view.rows, &self.view.columns);
        let longest = columns
            .values
            .clone()
            .map(|column| text_width(&label(column, columns), LABEL))
            .fold(0.0, f64::max);
        let size = (LABEL * (self.scale.cell - 4.0) / longest).min(LABEL);
        for column in columns.values.clone() {
            let (x, _) = self.centre((*rows.values.start(), column));
            shapes.text(x, bounds.top - 10.0, size, "middle", &label(column, columns));
        }
        let above = bounds.top - 33.0;
        shapes.italic(-self.scale.radius, above, LABEL, "start", &format!("{} →", self.view.column_name));
        let Some(name) = &self.view.row_name else { return };
        for row in rows.values.clone() {
            let (_, y) = self.centre((row, *columns.values.start()));
            shapes.text(bounds.left - 12.0, y + 5.0, LABEL, "end", &label(row, rows));
        }
        shapes.italic(bounds.left - 12.0, above, LABEL, "end", &format!("{name} ↓"));
    }

    /// The order of execution: along a row, and on to the next row.
    fn order(&self, shapes: &mut Shapes) {
        let radius = self.scale.radius;
        for pair in self.view.spots.windows(2) {
            let (from, to) = (pair[0].0, pair[1].0);
            let (start, end) = (self.centre(from), self.centre(to));
            shapes.order(towards(start, end, radius + 1.0), towards(end, start, radius + 2.0), from.0 != to.0);
        }
    }

    fn points(&self, shapes: &mut Shapes) {
        for (spot, number) in &self.view.spots {
            let (x, y) = self.centre(*spot);
            shapes.point(x, y, self.scale.radius);
            if let Some(number) = number {
                let size = if *number > 999 {
                    self.scale.number - 3.0
                } else {
                    self.scale.number
                };
                shapes.text(x, y + size * 0.36, size, "middle", &number.to_string());
            }
        }
    }
}

/// A value of an index; dots where values beyond it are out of sight.
fn label(value: i64, sight: &Sight) -> String {
    let before = if sight.below && value == *sight.values.start() { "…" } else { "" };
    let after = if sight.above && value == *sight.values.end() { "…" } else { "" };
    format!("{before}{value}{after}")
}

/// Those that trade places are drawn over the others.
fn arrows(shapes: &mut Shapes, curves: &[(Curve, Arrow)]) {
    for keeps in [true, false] {
        for (curve, _) in curves.iter().filter(|(_, arrow)| arrow.keeps == keeps) {
            shapes.arrow(curve.start, curve.control, curve.end, keeps);
        }
    }
}

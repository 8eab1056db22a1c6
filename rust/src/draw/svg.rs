//! Shapes as SVG, and the document around the panels.

use super::figure::Figure;
use super::panel::View;
use std::fmt::Write;

const INK: &str = "#1d2329";
const ORDER: &str = "#98a2ad";
const KEPT: &str = "#1b5faa";
const TRADED: &str = "#c8102e";
const PAPER: &str = "#fcfcfa";

const MARGIN: f64 = 28.0;
const GAP: f64 = 64.0;
/// Panels stand side by side up to this width, else below one another.
const WIDEST: f64 = 1200.0;
const NARROWEST: f64 = 800.0;
const ANSWER: f64 = 20.0;
const SENTENCE: f64 = 16.0;
const LEGEND: f64 = 14.0;

/// A bound on the width of a text in the usual fonts.
pub fn text_width(text: &str, size: f64) -> f64 {
    text.chars().count() as f64 * size * 0.6
}

/// Shapes, one on each line.
#[derive(Default)]
pub struct Shapes {
    out: String,
}

impl Shapes {
    fn line(&mut self, args: std::fmt::Arguments<'_>) {
        self.out
            .write_fmt(args)
            .and_then(|()| self.out.write_char('\n'))
            .expect("a string takes all");
    }

    pub fn open_group(&mut self, x: f64, y: f64) {
        self.line(format_args!("<g transform=\"translate({x:.1} {y:.1})\">"));
    }

    pub fn close_group(&mut self) {
        self.line(format_args!("</g>"));
    }

    fn styled(&mut self, x: f64, y: f64, size: f64, style: &str, text: &str) {
        let text = escaped(text);
        self.line(format_args!(
            "<text x=\"{x:.1}\" y=\"{y:.1}\" font-size=\"{size:.0}\"{style}>{text}</text>"
        ));
    }

    pub fn text(&mut self, x: f64, y: f64, size: f64, anchor: &str, text: &str) {
        self.styled(x, y, size, &format!(" text-anchor=\"{anchor}\""), text);
    }

    pub fn italic(&mut self, x: f64, y: f64, size: f64, anchor: &str, text: &str) {
        self.styled(x, y, size, &format!(" text-anchor=\"{anchor}\" font-style=\"italic\""), text);
    }

    pub fn bold(&mut self, x: f64, y: f64, size: f64, text: &str) {
        self.styled(x, y, size, " font-weight=\"bold\"", text);
    }

    pub fn point(&mut self, x: f64, y: f64, radius: f64) {
        self.line(format_args!(
            "<circle cx=\"{x:.1}\" cy=\"{y:.1}\" r=\"{radius:.1}\" fill=\"#ffffff\" stroke=\"{INK}\" stroke-width=\"1.4\"/>"
        ));
    }

    /// A part of the order of execution; dashed where a new row begins.
    pub fn order(&mut self, from: (f64, f64), to: (f64, f64), dashed: bool) {
        let dashes = if dashed { " stroke-dasharray=\"5 4\"" } else { "" };
        self.line(format_args!(
            "<path d=\"M{:.1} {:.1} L{:.1} {:.1}\" fill=\"none\" stroke=\"{ORDER}\" stroke-width=\"2\"{dashes} marker-end=\"url(#order)\"/>",
            from.0, from.1, to.0, to.1
        ));
    }

    pub fn arrow(&mut self, from: (f64, f64), control: (f64, f64), to: (f64, f64), keeps: bool) {
        let (colour, width, head) = if keeps { (KEPT, 1.8, "kept") } else { (TRADED, 2.8, "traded") };
        self.line(format_args!(
            "<path d=\"M{:.1} {:.1} Q{:.1} {:.1} {:.1} {:.1}\" fill=\"none\" stroke=\"{colour}\" stroke-width=\"{width}\" marker-end=\"url(#{head})\"/>",
            from.0, from.1, control.0, control.1, to.0, to.1
        ));
    }

    fn append(&mut self, other: &Shapes) {
        self.out.push_str(&other.out);
    }

    /// Sentences below one another, wrapped; answers where they end.
    fn sentences(&mut self, mut y: f64, width: f64, lines: &[String]) -> f64 {
        for (number, line) in lines.iter().enumerate() {
            let size = if number == 0 { ANSWER } else { SENTENCE };
            for part in wrapped(line, (width / size / 0.58) as usize) {
                y += size * 1.45;
                if number == 0 {
                    self.bold(MARGIN, y, size, &part)
                } else {
                    self.text(MARGIN, y, size, "start", &part)
                }
            }
        }
        y
    }

    /// What the shapes mean, in columns; answers where it ends.
    fn legend(&mut self, y: f64, width: f64, projected: bool) -> f64 {
        let point = if projected {
            "iterations with these two indices"
        } else {
            "iteration, by its number in the old order"
        };
        let meanings = [
            point,
            "order of execution",
            "conflict, from the earlier to the later",
            "conflict that trades places",
        ];
        let column = 58.0 + meanings.iter().map(|meaning| text_width(meaning, LEGEND)).fold(0.0, f64::max);
        let columns = if 4.0 * column <= width { 4 } else { 2 };
        for (n, meaning) in meanings.iter().enumerate() {
            self.open_group(MARGIN + (n % columns) as f64 * column, y + 36.0 + (n / columns) as f64 * 26.0);
            match n {
                0 => self.point(18.0, -5.0, 9.0),
                1 => self.order((0.0, -5.0), (36.0, -5.0), false),
                _ => self.arrow((0.0, -3.0), (18.0, -14.0), (36.0, -3.0), n == 2),
            }
            self.text(46.0, 0.0, LEGEND, "start", meaning);
            self.close_group();
        }
        y + 36.0 + ((meanings.len() - 1) / columns) as f64 * 26.0
    }
}

fn escaped(text: &str) -> String {
    text.replace('&', "&amp;").replace('<', "&lt;").replace('>', "&gt;")
}

fn wrapped(line: &str, columns: usize) -> Vec<String> {
    let mut parts: Vec<String> = Vec::new();
    for word in line.split(' ') {
        match parts.last_mut() {
            Some(part) if part.chars().count() + 1 + word.chars().count() <= columns => {
                part.push(' ');
                part.push_str(word);
            }
            _ => parts.push(word.to_string()),
        }
    }
    parts
}

/// The whole picture: panels, caption, legend.
pub fn document(views: &[View], caption: &[String]) -> String {
    let figures: Vec<Figure> = views.iter().map(Figure::of).collect();
    let across = figures.iter().map(|figure| figure.width).sum::<f64>() + GAP * (figures.len().saturating_sub(1)) as f64;
    let beside = across <= WIDEST;
    let widest = figures.iter().map(|figure| figure.width).fold(0.0, f64::max);
    let width = if beside { across } else { widest }.max(NARROWEST);
    let mut shapes = Shapes::default();
    let (mut x, mut y) = (MARGIN, MARGIN);
    for figure in &figures {
        shapes.open_group(x, y);
        shapes.append(&figure.shapes);
        shapes.close_group();
        if beside {
            x += figure.width + GAP
        } else {
            y += figure.height + GAP / 2.0
        }
    }
    if beside {
        y += figures.iter().map(|figure| figure.height).fold(0.0, f64::max) + GAP / 4.0;
    }
    let y = shapes.sentences(y, width, caption);
    let projected = views.iter().flat_map(|view| &view.spots).any(|(_, number)| number.is_none());
    let height = shapes.legend(y, width, projected) + MARGIN;
    framed(width + 2.0 * MARGIN, height, caption, &shapes.out)
}

fn framed(width: f64, height: f64, caption: &[String], shapes: &str) -> String {
    let head = |name: &str, colour: &str, size: f64| {
        format!(
            "<marker id=\"{name}\" markerUnits=\"userSpaceOnUse\" markerWidth=\"{size}\" markerHeight=\"{size}\" viewBox=\"0 0 10 10\" refX=\"9\" refY=\"5\" orient=\"auto\"><path d=\"M0 0.8 L10 5 L0 9.2 z\" fill=\"{colour}\"/></marker>\n"
        )
    };
    let heads = [head("order", ORDER, 9.0), head("kept", KEPT, 11.0), head("traded", TRADED, 13.0)].concat();
    let title = escaped(caption.first().map_or("", String::as_str));
    let description = escaped(&caption.get(1..).unwrap_or(&[]).join(" "));
    format!(
        "<svg xmlns=\"http://www.w3.org/2000/svg\" width=\"{width:.0}\" height=\"{height:.0}\" viewBox=\"0 0 {width:.0} {height:.0}\" \
         font-family=\"DejaVu Sans, Verdana, Helvetica, Arial, sans-serif\" fill=\"{INK}\">\n<title>{title}</title>\n<desc>{description}</desc>\n<defs>\n{heads}</defs>\n\
         <rect width=\"100%\" height=\"100%\" fill=\"{PAPER}\"/>\n{shapes}</svg>\n"
    )
}

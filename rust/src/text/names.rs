//! Names of indices and arrays.

use crate::nest::{Nest, Step};

/// The names that a text gives to the indices, outermost first, and to the arrays.
#[derive(Clone, PartialEq, Eq, Debug, Default)]
pub struct Names {
    /// The indices' names.
    pub indices: Vec<String>,
    /// The arrays' names.
    pub arrays: Vec<String>,
}

impl Names {
    /// Names where none are given: indices i, j, k and so on, arrays A, B, C and so on.
    pub fn of(nest: &Nest) -> Names {
        Names {
            indices: letters('i', 'n', nest.loops.len()),
            arrays: letters('A', 'Z', nest.arrays.len()),
        }
    }

    /// The names of the loops after steps: exchanged loops trade names, a section has S outside E, a moved loop takes its name along. A step off the
    /// nest changes nothing.
    pub fn after(&self, steps: &[Step]) -> Names {
        let mut names = self.clone();
        let place = |number: i16| usize::try_from(number).ok().and_then(|n| n.checked_sub(1));
        for step in steps {
            match *step {
                Step::Exchange { outer, inner } => {
                    if let (Some(a), Some(b)) = (place(outer), place(inner))
                        && a.max(b) < names.indices.len()
                    {
                        names.indices.swap(a, b);
                    }
                }
                Step::Section { at, .. } => {
                    if let Some(a) = place(at).filter(|&a| a < names.indices.len()) {
                        let (outer, inner) = names.section();
                        names.indices.splice(a..=a, [outer, inner]);
                    }
                }
                Step::Move { from, to } => {
                    if let (Some(a), Some(b)) = (place(from), place(to))
                        && a.max(b) < names.indices.len()
                    {
                        let moved = names.indices.remove(a);
                        names.indices.insert(b, moved);
                    }
                }
                Step::Reverse { .. } | Step::Skew { .. } => {}
            }
        }
        names
    }

    /// S and E, or the first S2 and E2 and so on that are free.
    fn section(&self) -> (String, String) {
        let free = |name: &String| !self.indices.contains(name) && !self.arrays.contains(name);
        let pair = |n: usize| {
            if n == 1 {
                ("S".to_string(), "E".to_string())
            } else {
                (format!("S{n}"), format!("E{n}"))
            }
        };
        let mut n = 1;
        loop {
            let (outer, inner) = pair(n);
            if free(&outer) && free(&inner) {
                return (outer, inner);
            }
            n += 1;
        }
    }
}

/// The first names from a run of letters; numbered ones after it.
fn letters(first: char, last: char, count: usize) -> Vec<String> {
    let numbered = (1..).map(|n: usize| format!("{first}{n}"));
    (first..=last).map(String::from).chain(numbered).take(count).collect()
}

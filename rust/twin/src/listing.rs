//! The text of a listing.

use crate::dependence::Lines;
use crate::directions::sign_at;
use crate::{Outcome, Refusal, SHORT_BUFFER};

const KINDS: [u8; 3] = *b"FAO";

fn digits(number: usize) -> usize {
    1 + (number >= 10) as usize + (number >= 100) as usize + (number >= 1000) as usize
}

/// Writes a number and the byte after it; what is left of the buffer.
fn field(number: usize, end: u8, out: &mut [u8]) -> &mut [u8] {
    let (field, rest) = out.split_at_mut(digits(number) + 1);
    let mut left = number;
    for place in field.iter_mut().rev().skip(1) {
        *place = b'0' + (left % 10) as u8;
        left /= 10;
    }
    field[digits(number)] = end;
    rest
}

fn line(lines: &Lines, block: usize, vector: usize, out: &mut [u8]) {
    let (source, sink) = (block / 3 / lines.statements, block / 3 % lines.statements);
    out[..6].copy_from_slice(&[KINDS[block % 3], b' ', b'1' + source as u8, b' ', b'1' + sink as u8, b' ']);
    for k in 0..lines.depth {
        out[6 + k] = b'<' + sign_at(vector, lines.depth, k) as u8;
    }
    out[6 + lines.depth] = b'\n';
}

/// Writes the listing; how many bytes it has.
pub fn write(lines: &Lines, points: usize, out: &mut [u8]) -> Outcome<usize> {
    let count = lines.marks.iter().filter(|mark| **mark).count();
    let (width, head) = (lines.depth + 7, [lines.depth, points, count]);
    let size = head.iter().map(|number| digits(*number) + 1).sum::<usize>() + count * width;
    let out = out.get_mut(..size).ok_or(Refusal::new(SHORT_BUFFER, 0))?;
    let out = head.iter().zip(*b"  \n").fold(out, |out, (number, end)| field(*number, end, out));
    let mut rows = out.chunks_exact_mut(width);
    for (block, marks) in lines.marks.chunks_exact(lines.vectors()).enumerate() {
        for (vector, _) in marks.iter().enumerate().filter(|(_, mark)| **mark) {
            if let Some(row) = rows.next() {
                line(lines, block, vector, row);
            }
        }
    }
    Ok(size)
}

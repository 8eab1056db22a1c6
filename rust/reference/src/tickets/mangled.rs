//! Damage to a ticket's bytes.

use super::random::Random;
use crate::ticket::Step;

const EDGES: [i16; 22] = [
    -32_768, -32_767, -256, -5, -2, -1, 0, 1, 2, 3, 4, 5, 6, 7, 8, 9, 255, 256, 257, 4096, 4097, 32_767,
];

fn put(bytes: &mut [u8], word: usize, value: i16) {
    bytes[2 * word..2 * word + 2].copy_from_slice(&value.to_le_bytes());
}

fn word(bytes: &[u8], word: usize) -> i16 {
    i16::from_le_bytes([bytes[2 * word], bytes[2 * word + 1]])
}

/// One of the words from `from` on takes a value at an edge of some range, or one beside its own.
fn edge(random: &mut Random, bytes: &mut [u8], from: usize) {
    let words = bytes.len() / 2;
    if from >= words {
        return;
    }
    let at = from + random.below(words - from);
    let value = if random.percent(70) {
        random.pick(&EDGES)
    } else {
        word(bytes, at).wrapping_add(random.pick(&[-1, 1]))
    };
    put(bytes, at, value);
}

fn add(random: &mut Random, bytes: &mut Vec<u8>) {
    let at = if random.percent(60) {
        bytes.len()
    } else {
        random.below(bytes.len() + 1)
    };
    for _ in 0..random.pick(&[1, 1, 2, 2, 3, 8]) {
        let any = random.bits() as u8;
        bytes.insert(at, random.pick(&[0, 1, 0xff, any]));
    }
}

fn swap(random: &mut Random, bytes: &mut [u8]) {
    if random.percent(50) {
        let (one, other) = (random.below(bytes.len()), random.below(bytes.len()));
        bytes.swap(one, other);
    } else if bytes.len() >= 2 {
        let (one, other) = (random.below(bytes.len() / 2), random.below(bytes.len() / 2));
        let (left, right) = (word(bytes, one), word(bytes, other));
        put(bytes, one, right);
        put(bytes, other, left);
    }
}

fn once(random: &mut Random, bytes: &mut Vec<u8>, steps: usize) {
    if bytes.is_empty() {
        bytes.push(random.bits() as u8);
        return;
    }
    let step_words = (bytes.len() / 2).saturating_sub(4 * steps + 1);
    match random.weighted(&[18, 10, 8, 8, 30, 26]) {
        0 => bytes.truncate(random.below(bytes.len())),
        1 => add(random, bytes),
        2 => {
            let at = random.below(bytes.len());
            bytes[at] ^= random.between(1, 255) as u8;
        }
        3 => swap(random, bytes),
        4 => edge(random, bytes, 0),
        _ => edge(random, bytes, step_words),
    }
}

/// A ticket of that many steps, damaged once or a few times.
pub fn mangled(random: &mut Random, mut bytes: Vec<u8>, steps: usize) -> Vec<u8> {
    for _ in 0..random.pick(&[1, 1, 1, 1, 2, 3]) {
        once(random, &mut bytes, steps);
    }
    bytes
}

/// Words that no circulation of a nest of 2 to 6 loops has in the place of a or b, or only some have.
const OFF_THE_NEST: [i16; 11] = [-32_768, -32_767, -2, -1, 0, 4, 5, 6, 7, 8, 32_767];

/// A ticket of these steps, a word of one of its circulations wrong: b is a, or a or b is not in the nest, or c is not 0, or the kind is none.
/// Perhaps the ticket ends after that word.
pub fn misnamed(random: &mut Random, mut bytes: Vec<u8>, steps: &[Step]) -> Vec<u8> {
    let circulations: Vec<usize> = (0..steps.len())
        .filter(|place| matches!(steps[*place], Step::Circulation { .. }))
        .collect();
    if circulations.is_empty() {
        return bytes;
    }
    let kind = bytes.len() / 2 - 4 * (steps.len() - random.pick(&circulations));
    let (at, value) = match random.below(6) {
        0 | 1 => (kind + 2, word(&bytes, kind + 1)),
        2 => (kind + 2, random.pick(&OFF_THE_NEST)),
        3 => (kind + 1, random.pick(&OFF_THE_NEST)),
        4 => (kind + 3, random.pick(&[-32_768, -1, 1, 2])),
        _ => (kind, random.pick(&[6, 6, 7, 0, -1, -32_768])),
    };
    put(&mut bytes, at, value);
    if random.percent(25) {
        bytes.truncate(2 * at + 2);
    }
    bytes
}

/// Bytes of no ticket; often a few small words, which get further than any byte would.
pub fn noise(random: &mut Random) -> Vec<u8> {
    let length = random.below(90);
    if random.percent(50) {
        return (0..length).map(|_| random.bits() as u8).collect();
    }
    (0..length).flat_map(|_| (random.between(-1, 4) as i16).to_le_bytes()).collect()
}

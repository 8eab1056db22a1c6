//! `run`.

use super::input::{Input, bytes_of};
use super::options::Options;
use super::output::{print, refused, with_progress};
use super::{Ended, Failure};
use hurkeztor::Nest;
use hurkeztor::text::Names;

/// No ticket that is run has more elements.
const MOST_ELEMENTS: usize = 16_384;

pub fn run(options: &Options) -> Ended {
    let input = Input::read(options)?;
    let nest = input.ticket.nest().unwrap_or_default();
    let mut store = match (&options.store, options.fill) {
        (Some(file), _) => read_store(file)?,
        (None, Some(seed)) => filled(nest.elements().min(MOST_ELEMENTS), seed),
        (None, None) => vec![0; nest.elements().min(MOST_ELEMENTS)],
    };
    let before = store.clone();
    let judgement = match with_progress("running", || hurkeztor::run(&input.ticket, &mut store)) {
        Ok(judgement) => judgement,
        Err(refusal) => return refused(&input, &refusal),
    };
    let names = input.names(&nest);
    let mut out = format!("{judgement}\n");
    if options.before {
        out.push_str(&format!("before\n{}after\n", arrays(&nest, &names, &before)));
    }
    out.push_str(&arrays(&nest, &names, &store));
    print(&out)
}

fn read_store(file: &str) -> Result<Vec<u32>, Failure> {
    let (name, bytes) = bytes_of(Some(file))?;
    let text = String::from_utf8_lossy(&bytes);
    let mut store = Vec::new();
    for (number, line) in text.lines().enumerate() {
        for word in line.split('#').next().unwrap_or("").split_whitespace() {
            let wrong = |_| {
                let message = format!(
                    "{name}:{}: '{word}' is no word of a store: numbers from 0 to {} are\n",
                    number + 1,
                    u32::MAX
                );
                Failure::Input(message)
            };
            store.push(word.parse().map_err(wrong)?);
        }
    }
    Ok(store)
}

/// Words that look random and are the same for one seed (the generator splitmix64, upper half).
fn filled(count: usize, seed: u64) -> Vec<u32> {
    let mut state = seed;
    let mut next = || {
        state = state.wrapping_add(0x9e37_79b9_7f4a_7c15);
        let mixed = (state ^ state >> 30).wrapping_mul(0xbf58_476d_1ce4_e5b9);
        let mixed = (mixed ^ mixed >> 27).wrapping_mul(0x94d0_49bb_1331_11eb);
        ((mixed ^ mixed >> 31) >> 32) as u32
    };
    (0..count).map(|_| next()).collect()
}

/// The store as arrays: the last dimension across, the one before it down, planes below one another.
fn arrays(nest: &Nest, names: &Names, store: &[u32]) -> String {
    let mut out = String::new();
    let mut rest = store;
    for (array, name) in nest.arrays.iter().zip(&names.arrays) {
        let (part, after) = rest.split_at(array.elements().min(rest.len()));
        rest = after;
        let extents: Vec<usize> = array
            .extents
            .iter()
            .map(|&extent| usize::try_from(extent).unwrap_or(0).max(1))
            .collect();
        let row = extents.last().copied().unwrap_or(1);
        let width = part.iter().map(|word| word.to_string().len()).max().unwrap_or(1);
        if extents.len() < 3 {
            out.push_str(&format!("{name}\n"));
        }
        for (number, words) in part.chunks(row).enumerate() {
            if extents.len() == 3 && number % extents[1] == 0 {
                out.push_str(&format!("{name}({}, , )\n", number / extents[1]));
            }
            let printed: Vec<String> = words.iter().map(|word| format!("{word:>width$}")).collect();
            out.push_str(&format!("  {}\n", printed.join(" ")));
        }
    }
    out
}

//! `judge` and `quick`.

use super::explaining::note;
use super::input::Input;
use super::options::Options;
use super::output::{print, refusal_text, refused, with_progress};
use super::{Ended, Outcome};
use hurkeztor::text::print_access;
use hurkeztor::{Independence, Place};

pub fn judge(options: &Options) -> Ended {
    let input = Input::read(options)?;
    match with_progress("judging", || hurkeztor::judge(&input.ticket)) {
        Ok(judgement) => print(&format!("{judgement}\n")),
        Err(refusal) if refusal.number == 10 => {
            print(&format!("{}{}", refusal_text(&input, &refusal), note(&input)))?;
            Ok(Outcome::Refused)
        }
        Err(refusal) => refused(&input, &refusal),
    }
}

pub fn quick(options: &Options) -> Ended {
    let input = Input::read(options)?;
    let [first, second] = [options.numbers[0], options.numbers[1]];
    match hurkeztor::quick(&input.ticket, first, second) {
        Ok(independence) => print(&sentence(&input, [first, second], independence)),
        Err(refusal) => {
            refused(&input, &refusal)?;
            if refusal.number == 4 && refusal.place == Place::None {
                let count = input.ticket.nest().map_or(0, |nest| nest.accesses().count());
                print(&format!(
                    "accesses are numbered from 1 to {count}: each statement's write, then its reads\n"
                ))?;
            }
            Ok(Outcome::Refused)
        }
    }
}

fn sentence(input: &Input, numbers: [u64; 2], independence: Independence) -> String {
    let nest = input.ticket.nest().unwrap_or_default();
    let names = input.names(&nest);
    let [first, second] = numbers.map(|number| {
        let place = usize::try_from(number).ok().and_then(|n| n.checked_sub(1));
        let access = place.and_then(|place| nest.accesses().nth(place));
        access.map_or(format!("access {number}"), |access| {
            format!("access {number}, {},", print_access(access, &names))
        })
    });
    match independence {
        Independence::Apart => format!("apart: {first} and {second} never name one element\n"),
        Independence::Perhaps => format!("perhaps: {first} and {second} may name one element\n"),
    }
}

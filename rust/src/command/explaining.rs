//! `why`, and the note that `judge` adds to a refusal with 10.

use super::input::Input;
use super::listing::several;
use super::options::Options;
use super::output::{print, refusal_text, with_progress};
use super::{Ended, Outcome};
use hurkeztor::text::print_pair;
use hurkeztor::{Pair, Reason, Sign};

/// The pairs that are printed where no other count is asked for.
const MOST: usize = 20;
const TABLE_ALONE: &str = "by the table alone: no pair trades places";

pub fn why(options: &Options) -> Ended {
    let input = Input::read(options)?;
    let most = options.most.unwrap_or(MOST);
    let reason = with_progress("looking for pairs", || hurkeztor::why(&input.ticket, most));
    let refusal = match reason.judgement() {
        Ok(judgement) => return print(&format!("{judgement}\n")),
        Err(refusal) => refusal,
    };
    let below = match &reason {
        Reason::Judged(_) => String::new(),
        Reason::TableAlone { .. } => format!("{TABLE_ALONE}\n"),
        Reason::Pairs { count, pairs, .. } => listed(&input, *count as usize, pairs),
    };
    print(&format!("{}{below}", refusal_text(&input, &refusal)))?;
    Ok(Outcome::Refused)
}

/// How many pairs there are, and those that were asked for.
fn listed(input: &Input, count: usize, pairs: &[Pair]) -> String {
    let verb = if count == 1 { "trades" } else { "trade" };
    let mut out = format!("{} {verb} places\n", several(count, "pair"));
    let nest = input.ticket.nest().unwrap_or_default();
    let names = input.names(&nest);
    for pair in pairs {
        out.push_str(&format!("  {}\n", print_pair(pair, &nest, &names)));
    }
    let left_out = count - pairs.len();
    if left_out > 0 && !pairs.is_empty() {
        out.push_str(&format!("  (+{left_out} more)\n"));
    }
    out
}

/// The first pair that trades places, with its vector before the refused step and after it.
pub fn note(input: &Input) -> String {
    match with_progress("looking for a pair", || hurkeztor::why(&input.ticket, 1)) {
        Reason::Judged(_) => String::new(),
        Reason::TableAlone { .. } => format!("note: {TABLE_ALONE}\n"),
        Reason::Pairs { step, pairs, .. } => {
            let nest = input.ticket.nest().unwrap_or_default();
            let names = input.names(&nest);
            let step = step as usize;
            let told = pairs.iter().map(|pair| {
                let vector = |steps| pair.vector(&nest.steps[..steps]).iter().map(Sign::to_string).collect::<String>();
                format!(
                    "note: {}: {} before the step, {} after it\n",
                    print_pair(pair, &nest, &names),
                    vector(step - 1),
                    vector(step)
                )
            });
            told.collect()
        }
    }
}

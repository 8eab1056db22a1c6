//! `draw`.

use super::input::Input;
use super::options::Options;
use super::output::{hand_over, refusal_text, refused_instead, with_progress};
use super::{Ended, Failure, Outcome};
use hurkeztor::draw::{NoPicture, picture};

pub fn draw(options: &Options) -> Ended {
    let input = Input::read(options)?;
    let file = options.out.as_deref();
    let names = input.names(&input.ticket.nest().unwrap_or_default());
    let drawn = match with_progress("drawing", || picture(&input.ticket, &names)) {
        Ok(drawn) => drawn,
        Err(NoPicture::Refused(refusal)) => return refused_instead(&input, &refusal, file),
        Err(error @ NoPicture::Differs) => return Err(Failure::Input(format!("hurkeztor draw: {error}\n"))),
    };
    let (answer, outcome) = match drawn.answer {
        Ok(judgement) => (format!("{judgement}\n"), Outcome::Accepted),
        Err(refusal) => (refusal_text(&input, &refusal), Outcome::Refused),
    };
    hand_over(drawn.svg.as_bytes(), file, &answer)?;
    Ok(outcome)
}

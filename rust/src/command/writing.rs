//! `write`, `pack` and `unpack`: nests in the three forms.

use super::input::{Form, Input};
use super::options::Options;
use super::output::{hand_over, refused_instead, to_terminal, with_progress};
use super::{Ended, Failure, Outcome};
use hurkeztor::Ticket;
use hurkeztor::text::{Names, print};

pub fn write(options: &Options) -> Ended {
    let input = Input::read(options)?;
    let file = options.out.as_deref();
    let new = match with_progress("judging", || hurkeztor::write(&input.ticket)) {
        Ok(new) => new,
        Err(refusal) => return refused_instead(&input, &refusal, file),
    };
    let form = match options.out_form {
        Some(form) => form,
        None if input.form == Form::Binary && to_terminal(file) => Form::Text,
        None => input.form,
    };
    no_binary_on_terminal(form, file)?;
    let names = match input.ticket.nest() {
        Ok(nest) => input.names(&nest).after(&nest.steps),
        Err(_) => Names::default(),
    };
    let answer = format!("accepted: a new nest of {} bytes\n", new.as_bytes().len());
    hand_over(&formed(&new, form, &names)?, file, &answer)?;
    Ok(Outcome::Accepted)
}

pub fn pack(options: &Options) -> Ended {
    let input = Input::read(options)?;
    let file = options.out.as_deref();
    no_binary_on_terminal(Form::Binary, file)?;
    let answer = format!("packed: {} bytes\n", input.ticket.as_bytes().len());
    hand_over(input.ticket.as_bytes(), file, if file.is_some() { &answer } else { "" })?;
    Ok(Outcome::Accepted)
}

pub fn unpack(options: &Options) -> Ended {
    let input = Input::read(options)?;
    let file = options.out.as_deref();
    let form = options.out_form.unwrap_or(Form::Text);
    let names = match (form, input.ticket.nest()) {
        (Form::Text, Err(_)) => return no_text(&input, file),
        (_, nest) => input.names(&nest.unwrap_or_default()),
    };
    let answer = format!("unpacked: {} words\n", input.ticket.words().len());
    hand_over(
        &formed(&input.ticket, form, &names)?,
        file,
        if file.is_some() { &answer } else { "" },
    )?;
    Ok(Outcome::Accepted)
}

/// A ticket that describes no nest has no text form; the judge says why.
fn no_text(input: &Input, file: Option<&str>) -> Ended {
    match hurkeztor::judge(&input.ticket) {
        Err(refusal) => refused_instead(input, &refusal, file),
        Ok(_) => Err(Failure::Input(format!(
            "{}: an accepted ticket that has no text form: a defect of this command\n",
            input.name
        ))),
    }
}

fn no_binary_on_terminal(form: Form, file: Option<&str>) -> Result<(), Failure> {
    if form == Form::Binary && to_terminal(file) {
        return Err(Failure::Usage(
            "a binary ticket does not go to a terminal: give '-o FILE', or redirect the output".into(),
        ));
    }
    Ok(())
}

/// A ticket in one of the forms.
fn formed(ticket: &Ticket, form: Form, names: &Names) -> Result<Vec<u8>, Failure> {
    match form {
        Form::Binary => Ok(ticket.as_bytes().to_vec()),
        Form::Words => {
            let words: Vec<String> = ticket.words().iter().map(i16::to_string).collect();
            Ok(format!("{}\n", words.join(" ")).into_bytes())
        }
        Form::Text => match ticket.nest() {
            Ok(nest) => Ok(print(&nest, names).into_bytes()),
            Err(error) => Err(Failure::Input(format!("hurkeztor: the ticket has no text form: {error}\n"))),
        },
    }
}

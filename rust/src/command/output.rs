//! What the command prints: answers, files, progress.

use super::input::Input;
use super::{Ended, Failure, Outcome};
use hurkeztor::Refusal;
use hurkeztor::text::excerpt;
use std::io::{self, ErrorKind, IsTerminal, Write};
use std::sync::mpsc::{RecvTimeoutError, channel};
use std::thread;
use std::time::{Duration, Instant};

/// Prints to standard output.
pub fn print(text: &str) -> Ended {
    to_output(text.as_bytes())?;
    Ok(Outcome::Accepted)
}

/// Prints to standard error. Where that cannot be, there is nobody to tell.
pub fn complain(text: &str) {
    let _ = io::stderr().write_all(text.as_bytes());
}

fn to_output(bytes: &[u8]) -> Result<(), Failure> {
    let mut output = io::stdout().lock();
    match output.write_all(bytes).and_then(|()| output.flush()) {
        Ok(()) => Ok(()),
        Err(error) if error.kind() == ErrorKind::BrokenPipe => Err(Failure::Closed),
        Err(error) => Err(Failure::Input(format!("hurkeztor: the output cannot be written: {error}\n"))),
    }
}

/// The refusal in one plain line; below it what it means, in the user's own text where there is one.
pub fn refusal_text(input: &Input, refusal: &Refusal) -> String {
    let meaning = refusal.meaning();
    let place = input
        .source
        .as_ref()
        .and_then(|(source, places)| Some((source, places.find(refusal)?)));
    match place {
        Some((source, span)) => {
            format!(
                "{refusal}\n{}:{}:{}: {meaning}\n{}",
                input.name,
                span.line,
                span.column,
                excerpt(source, span)
            )
        }
        None => format!("{refusal}\n{meaning}\n"),
    }
}

/// Prints a refusal as the answer.
pub fn refused(input: &Input, refusal: &Refusal) -> Ended {
    to_output(refusal_text(input, refusal).as_bytes())?;
    Ok(Outcome::Refused)
}

/// Hands over a nest or a picture: to a file, with the answer on standard output, or to standard output, with the answer on standard error.
pub fn hand_over(bytes: &[u8], file: Option<&str>, answer: &str) -> Result<(), Failure> {
    match file {
        None | Some("-") => {
            to_output(bytes)?;
            complain(answer);
            Ok(())
        }
        Some(path) => {
            std::fs::write(path, bytes).map_err(|error| Failure::Input(format!("{path}: cannot be written: {error}\n")))?;
            to_output(answer.as_bytes())
        }
    }
}

/// Where no output can be handed over, the refusal takes the place where the answer would stand.
pub fn refused_instead(input: &Input, refusal: &Refusal, file: Option<&str>) -> Ended {
    let text = refusal_text(input, refusal);
    match file {
        None | Some("-") => complain(&text),
        Some(_) => to_output(text.as_bytes())?,
    }
    Ok(Outcome::Refused)
}

/// Whether standard output, if it is what takes the output, is a terminal.
pub fn to_terminal(file: Option<&str>) -> bool {
    matches!(file, None | Some("-")) && io::stdout().is_terminal()
}

/// Does some work. On a terminal, a line on standard error tells the seconds once the first has passed.
pub fn with_progress<T>(what: &str, work: impl FnOnce() -> T) -> T {
    if !io::stderr().is_terminal() {
        return work();
    }
    let (done, wait) = channel::<()>();
    thread::scope(|scope| {
        scope.spawn(move || {
            let start = Instant::now();
            let mut turn = 0;
            let mut pause = Duration::from_secs(1);
            while wait.recv_timeout(pause) == Err(RecvTimeoutError::Timeout) {
                let sign = ['|', '/', '-', '\\'][turn % 4];
                complain(&format!("\r{sign} {what}, {} s ", start.elapsed().as_secs()));
                turn += 1;
                pause = Duration::from_millis(250);
            }
            if turn > 0 {
                complain("\r\x1b[K");
            }
        });
        let result = work();
        drop(done);
        result
    })
}

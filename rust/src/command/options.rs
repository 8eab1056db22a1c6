//! The words of a command line.

use super::input::Form;
use super::{Failure, Verb};

/// What the command line says after the verb.
#[derive(Default)]
pub struct Options {
    /// The file, or standard input.
    pub file: Option<String>,
    /// The numbers before the file.
    pub numbers: Vec<u64>,
    /// The form of the input; found out where it is not told.
    pub form: Option<Form>,
    /// The file to write; standard output where there is none.
    pub out: Option<String>,
    /// The form of the output.
    pub out_form: Option<Form>,
    pub explain: bool,
    /// The most pairs to be printed.
    pub most: Option<usize>,
    pub before: bool,
    /// The file with the store.
    pub store: Option<String>,
    /// The seed of a filled store.
    pub fill: Option<u64>,
}

impl Options {
    pub fn read(verb: &Verb, words: &[String]) -> Result<Options, Failure> {
        let mut options = Options::default();
        let mut words = words.iter();
        let mut plain = false;
        while let Some(word) = words.next() {
            if plain || word == "-" || !word.starts_with('-') {
                options.positional(verb, word)?;
            } else if word == "--" {
                plain = true;
            } else {
                let (flag, joined) = match word.split_once('=') {
                    Some((flag, value)) => (flag, Some(value.to_string())),
                    None => (word.as_str(), None),
                };
                let flag = if flag == "--output" { "-o" } else { flag };
                if !verb.flags.contains(&flag) {
                    return usage(format!("'{word}' is no option of this verb"));
                }
                let mut value = || match joined.clone().or_else(|| words.next().cloned()) {
                    Some(value) => Ok(value),
                    None => usage(format!("{flag} needs a value")),
                };
                options.flag(flag, &mut value)?;
            }
        }
        if options.numbers.len() < verb.numbers {
            return usage("the numbers of two accesses are needed, as in 'quick 1 2'");
        }
        if options.store.is_some() && options.fill.is_some() {
            return usage("--store and --fill exclude each other");
        }
        Ok(options)
    }

    fn positional(&mut self, verb: &Verb, word: &str) -> Result<(), Failure> {
        if self.numbers.len() < verb.numbers {
            let number = word
                .parse()
                .or_else(|_| usage(format!("'{word}' is no access number: a whole number from 1 on is needed")))?;
            self.numbers.push(number);
        } else if self.file.is_some() {
            return usage(format!("one file is judged at a time: '{word}' is one too many"));
        } else {
            self.file = Some(word.to_string());
        }
        Ok(())
    }

    fn flag(&mut self, flag: &str, value: &mut dyn FnMut() -> Result<String, Failure>) -> Result<(), Failure> {
        match flag {
            "--as" => self.form = Some(form(&value()?)?),
            "-o" => self.out = Some(value()?),
            "--as-text" => self.out_form = Some(Form::Text),
            "--as-words" => self.out_form = Some(Form::Words),
            "--as-binary" => self.out_form = Some(Form::Binary),
            "--explain" => self.explain = true,
            "--most" => self.most = Some(whole(&value()?, "count of pairs")?),
            "--before" => self.before = true,
            "--store" => self.store = Some(value()?),
            "--fill" => self.fill = Some(whole(&value()?, "seed")?),
            _ => return usage(format!("'{flag}' is no option of this verb")),
        }
        Ok(())
    }
}

fn form(word: &str) -> Result<Form, Failure> {
    match word {
        "binary" => Ok(Form::Binary),
        "words" => Ok(Form::Words),
        "text" => Ok(Form::Text),
        _ => usage(format!("'{word}' is no form: forms are binary, words and text")),
    }
}

fn whole<T: std::str::FromStr>(word: &str, what: &str) -> Result<T, Failure> {
    word.parse()
        .or_else(|_| usage(format!("'{word}' is no {what}: a whole number is needed")))
}

fn usage<T>(message: impl Into<String>) -> Result<T, Failure> {
    Err(Failure::Usage(message.into()))
}

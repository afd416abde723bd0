//! The command line.

use crate::lent::Surroundings;
use std::time::{SystemTime, UNIX_EPOCH};

pub const USAGE: &str = "\
options:
  --seed N        make the cases of this seed (default: from the clock)
  --cases N       stop after so many cases
  --seconds S     stop after so many seconds (default 60, unless --cases is given)
  --case K        one case only, with its inputs printed
  --no-sweep      random cases only
  --subject NAME  library (default), c, rust, or a wrong engine by its name
  --exact         buffers without guard bytes, each in an allocation of its own
  --list          name the wrong engines";

pub struct Options {
    pub seed: u64,
    pub cases: Option<u64>,
    pub seconds: Option<u64>,
    pub case: Option<u64>,
    pub sweep: bool,
    pub subject: String,
    pub surroundings: Surroundings,
    pub list: bool,
}

impl Options {
    fn defaults() -> Options {
        let since = SystemTime::now().duration_since(UNIX_EPOCH);
        Options {
            seed: since.map_or(1, |time| time.as_millis() as u64),
            cases: None,
            seconds: None,
            case: None,
            sweep: true,
            subject: "library".to_string(),
            surroundings: Surroundings::Guarded,
            list: false,
        }
    }

    pub fn parse(mut words: impl Iterator<Item = String>) -> Result<Options, String> {
        let mut options = Options::defaults();
        while let Some(word) = words.next() {
            match word.as_str() {
                "--no-sweep" => options.sweep = false,
                "--exact" => options.surroundings = Surroundings::Exact,
                "--list" => options.list = true,
                "--subject" => options.subject = value(&word, words.next())?,
                "--seed" => options.seed = number(&word, words.next())?,
                "--cases" => options.cases = Some(number(&word, words.next())?),
                "--seconds" => options.seconds = Some(number(&word, words.next())?),
                "--case" => options.case = Some(number(&word, words.next())?),
                _ => return Err(format!("no such option: {word}")),
            }
        }
        if options.cases.is_none() && options.seconds.is_none() {
            options.seconds = Some(60);
        }
        Ok(options)
    }
}

fn value(option: &str, word: Option<String>) -> Result<String, String> {
    word.ok_or_else(|| format!("{option} wants a value"))
}

fn number(option: &str, word: Option<String>) -> Result<u64, String> {
    let word = value(option, word)?;
    word.parse()
        .map_err(|_| format!("{option} wants a number, not {word}"))
}

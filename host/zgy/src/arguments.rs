//! The command line: words in order, and options that start with a dash.

use crate::failure::Failure;
use std::collections::VecDeque;
use std::path::PathBuf;
use std::str::FromStr;

/// Options that take no value.
const FLAGS: [&str; 3] = ["--brief", "--own-range", "--stored"];

pub struct Arguments {
    words: VecDeque<String>,
    options: Vec<(String, String)>,
}

impl Arguments {
    pub fn new(mut given: impl Iterator<Item = String>) -> Result<Self, Failure> {
        let mut words = VecDeque::new();
        let mut options = Vec::new();
        while let Some(word) = given.next() {
            if FLAGS.contains(&word.as_str()) || word == "--help" || word == "-h" {
                options.push((word, String::new()));
            } else if word.starts_with("--") || word == "-o" {
                let value = given.next().ok_or_else(|| Failure::usage(format!("{word} needs a value")))?;
                options.push((word, value));
            } else {
                words.push_back(word);
            }
        }
        if options.iter().any(|(name, _)| name == "--help" || name == "-h") {
            words.push_front("help".into());
            options.clear();
        }
        Ok(Arguments { words, options })
    }

    /// The next word.
    pub fn next(&mut self) -> Result<String, Failure> {
        self.words.pop_front().ok_or_else(|| Failure::usage("something is missing: see `zgy help`".into()))
    }

    pub fn path(&mut self) -> Result<PathBuf, Failure> {
        Ok(self.next()?.into())
    }

    pub fn number(&mut self) -> Result<u32, Failure> {
        let word = self.next()?;
        parsed(&word, "a number from 0 to 4,294,967,295")
    }

    /// Whether a flag is given.
    pub fn flag(&mut self, name: &str) -> bool {
        self.take(name).is_some()
    }

    /// The value of an option, where it is given.
    pub fn take(&mut self, name: &str) -> Option<String> {
        let at = self.options.iter().position(|(option, _)| option == name)?;
        Some(self.options.remove(at).1)
    }

    pub fn option<T: FromStr>(&mut self, name: &str, what: &str) -> Result<Option<T>, Failure> {
        self.take(name).map(|value| parsed(&value, what).map_err(|failure| at_option(name, failure))).transpose()
    }

    /// N values with commas between them.
    pub fn list<T: FromStr + Copy, const N: usize>(&mut self, name: &str, what: &str) -> Result<Option<[T; N]>, Failure> {
        let Some(value) = self.take(name) else { return Ok(None) };
        let items: Result<Vec<T>, Failure> = value.split(',').map(|item| parsed(item, what)).collect();
        let items = items.map_err(|failure| at_option(name, failure))?;
        let count = items.len();
        let array = items.try_into().map_err(|_| Failure::usage(format!("{name}: {N} values are needed, {count} are given")))?;
        Ok(Some(array))
    }

    /// Nothing may be left over.
    pub fn finish(self) -> Result<(), Failure> {
        let left = self.words.into_iter().chain(self.options.into_iter().map(|(name, _)| name)).next();
        match left {
            None => Ok(()),
            Some(word) => Err(Failure::usage(format!("'{word}' does not belong here: see `zgy help`"))),
        }
    }
}

fn parsed<T: FromStr>(word: &str, what: &str) -> Result<T, Failure> {
    word.trim().parse().map_err(|_| Failure::usage(format!("'{word}' is not {what}")))
}

fn at_option(name: &str, failure: Failure) -> Failure {
    Failure::usage(format!("{name}: {failure}"))
}

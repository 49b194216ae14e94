//! The words after a command.

use std::ffi::{OsStr, OsString};
use std::path::Path;

use crate::bench::Stop;

/// An option of a command: a word, and whether a value follows it.
pub struct Opt {
    pub word: &'static str,
    pub value: bool,
}

/// Where a command writes to.
pub const OUT: Opt = Opt { word: "-o", value: true };
/// The supervisor in the guard's place.
pub const SUPERVISOR: Opt = Opt { word: "--supervisor", value: false };

/// What was asked of a command.
#[derive(Clone, Debug, Default, PartialEq, Eq)]
pub struct Arguments {
    files: Vec<OsString>,
    options: Vec<(&'static str, OsString)>,
}

impl Arguments {
    /// Reads as many files as a command has, and its options. After `--` every word is a file; one that
    /// begins with `-` and is no option is a file if there is such a file.
    pub fn read(words: &[OsString], files: usize, options: &[Opt]) -> Result<Arguments, Stop> {
        let mut found = Arguments::default();
        let mut words = words.iter();
        while let Some(word) = words.next() {
            if word == "--" {
                found.files.extend(words.by_ref().cloned());
            } else if let Some(option) = options.iter().find(|option| word == option.word) {
                found.take(option, &mut words)?;
            } else if is_option(word) {
                let what = format!("there is no option {} here", word.to_string_lossy());
                return Err(Stop::Use(what));
            } else {
                found.files.push(word.clone());
            }
        }
        match found.files.get(files) {
            Some(more) => Err(Stop::Use(format!("one file too many: {}", more.to_string_lossy()))),
            None if found.files.len() < files => Err(Stop::Use("a file is missing".into())),
            None if found.files.iter().any(|file| file.is_empty()) => {
                Err(Stop::Use("a file without a name".into()))
            }
            None => Ok(found),
        }
    }

    /// Takes an option, with its value where it has one.
    fn take<'a>(
        &mut self,
        option: &Opt,
        words: &mut impl Iterator<Item = &'a OsString>,
    ) -> Result<(), Stop> {
        let Opt { word, value } = option;
        let value = match value {
            true => words.next().filter(|value| !value.is_empty()).cloned(),
            false => Some(OsString::new()),
        };
        let value = value.ok_or_else(|| Stop::Use(format!("{word} without its value")))?;
        if self.options.iter().any(|(earlier, _)| earlier == word) {
            return Err(Stop::Use(format!("{word} stands twice")));
        }
        self.options.push((word, value));
        Ok(())
    }

    /// The file; a command of several has them by number.
    pub fn file(&self, number: usize) -> &OsStr {
        self.files.get(number).map_or(OsStr::new(""), OsString::as_os_str)
    }

    /// The value of an option that was given.
    pub fn value(&self, option: &Opt) -> Option<&OsStr> {
        let found = self.options.iter().find(|(word, _)| *word == option.word);
        found.map(|(_, value)| value.as_os_str())
    }

    /// Whether an option was given.
    pub fn has(&self, option: &Opt) -> bool {
        self.value(option).is_some()
    }
}

/// Whether a word that a command does not know is meant as an option.
fn is_option(word: &OsStr) -> bool {
    let text = word.to_string_lossy();
    text.starts_with('-') && text != "-" && !Path::new(word).exists()
}

//! The arguments of a subcommand, told apart into options, flags, operands and words.

use std::ffi::{OsStr, OsString};
use std::fmt::Display;
use std::ops::RangeInclusive;
use std::path::Path;
use std::str::FromStr;
use std::vec::IntoIter;

use crate::ending::Failure;

/// What a subcommand takes.
pub struct Shape {
    /// The options that have a value.
    pub options: &'static [&'static str],
    /// The options that have none.
    pub flags: &'static [&'static str],
    /// The names of the operands, in their order.
    pub operands: &'static [&'static str],
    /// How many of the operands have to be there.
    pub needed: usize,
    /// Whether words follow the operands, which are taken as they are.
    pub words: bool,
}

impl Shape {
    /// The shape of a subcommand that takes an image and nothing else.
    pub const IMAGE: Shape = Shape {
        options: &[],
        flags: &[],
        operands: &["IMAGE"],
        needed: 1,
        words: false,
    };
}

/// The arguments of a call.
#[derive(Debug, Default)]
pub struct Arguments {
    /// Whether the help is asked for.
    pub help: bool,
    /// The words behind the operands.
    pub words: Vec<OsString>,
    operands: Vec<OsString>,
    options: Vec<(&'static str, OsString)>,
    flags: Vec<&'static str>,
}

impl Arguments {
    /// Reads the arguments of a subcommand by its shape, or says what is wrong with them.
    pub fn read(shape: &Shape, words: IntoIter<OsString>) -> Result<Arguments, String> {
        let mut arguments = Arguments::default();
        let mut rest = words;
        let mut operands_only = false;
        while let Some(word) = rest.next() {
            if shape.words && arguments.operands.len() == shape.operands.len() {
                arguments.words.push(word);
            } else if operands_only || !is_option(&word) {
                arguments.operands.push(word);
            } else if word == "--" {
                operands_only = true;
            } else {
                arguments.take_option(shape, &word, &mut rest)?;
            }
        }
        arguments.judge_operands(shape)?;
        Ok(arguments)
    }

    /// Gives an operand by its number, if it is there.
    pub fn operand(&self, number: usize) -> Option<&Path> {
        self.operands.get(number).map(Path::new)
    }

    /// Gives the path of an operand that has to be there, as the shape says.
    pub fn needed_operand(&self, number: usize) -> &Path {
        self.operand(number)
            .expect("an operand that is needed was looked for when the arguments were read")
    }

    /// Says whether a flag is there.
    pub fn has(&self, flag: &str) -> bool {
        self.flags.contains(&flag)
    }

    /// Gives the value of an option, if it is there.
    pub fn value(&self, option: &str) -> Option<&OsStr> {
        let mut options = self.options.iter();
        let found = options.find(|(name, _)| *name == option);
        found.map(|(_, value)| value.as_os_str())
    }

    /// Gives the value of an option as a number of some range, if it is there.
    pub fn number<N>(&self, option: &str, range: RangeInclusive<N>) -> Result<Option<N>, Failure>
    where
        N: Display + FromStr + PartialOrd,
    {
        let Some(value) = self.value(option) else {
            return Ok(None);
        };
        let number = value.to_str().and_then(|text| text.parse().ok());
        match number.filter(|number| range.contains(number)) {
            Some(number) => Ok(Some(number)),
            None => Err(Failure::Unable(format!(
                "{option} takes a whole number from {} to {}, and not '{}'",
                range.start(),
                range.end(),
                value.to_string_lossy()
            ))),
        }
    }

    /// Takes an option or a flag, the value of an option from behind `=` or from the next word.
    fn take_option(
        &mut self,
        shape: &Shape,
        word: &OsStr,
        rest: &mut IntoIter<OsString>,
    ) -> Result<(), String> {
        let text = word.to_string_lossy();
        let (name, joined) = match text.split_once('=') {
            Some((name, value)) => (name, Some(OsString::from(value))),
            None => (&*text, None),
        };
        if let Some(option) = find(shape.options, name) {
            let value = joined.or_else(|| rest.next());
            let value = value.ok_or_else(|| format!("{option} has no value behind it"))?;
            if self.value(option).is_some() {
                return Err(format!("{option} is there twice"));
            }
            self.options.push((option, value));
        } else if let (Some(flag), None) = (find(shape.flags, name), &joined) {
            self.flags.push(flag);
        } else if matches!(&*text, "--help" | "-h") {
            self.help = true;
        } else {
            return Err(format!("there is no option {text}"));
        }
        Ok(())
    }

    /// Refuses operands that are missing or too many.
    fn judge_operands(&self, shape: &Shape) -> Result<(), String> {
        let given = self.operands.len();
        if self.help {
            Ok(())
        } else if given < shape.needed {
            Err(format!("{} is missing", shape.operands[given]))
        } else if let Some(extra) = self.operands.get(shape.operands.len()) {
            Err(format!(
                "'{}' is one argument too many",
                extra.to_string_lossy()
            ))
        } else {
            Ok(())
        }
    }
}

/// Says whether a word is an option: it begins with a hyphen and has more than that.
fn is_option(word: &OsStr) -> bool {
    word.len() > 1 && word.as_encoded_bytes()[0] == b'-'
}

/// Gives a name as it stands in a list of names, if it is there.
fn find(names: &[&'static str], name: &str) -> Option<&'static str> {
    names.iter().copied().find(|known| *known == name)
}

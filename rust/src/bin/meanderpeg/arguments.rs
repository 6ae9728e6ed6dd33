//! The words after a subcommand's name: options as its row declares them, and the operands between.

use crate::failure::Failure;
use meanderpeg::{Guid, GuidTextFault};
use std::ffi::{OsStr, OsString};
use std::ops::RangeInclusive;
use std::path::Path;

/// An option that a subcommand takes.
pub struct Choice {
    /// With its two dashes.
    pub name: &'static str,
    /// What follows it, as usage names it; none for a switch.
    pub value: Option<&'static str>,
}

/// The words of one run.
pub struct Arguments {
    operands: Vec<OsString>,
    options: Vec<(&'static str, OsString)>,
}

impl Arguments {
    /// A word that begins with two dashes is an option, unless `--` stood before it.
    pub fn parse(words: &[OsString], choices: &'static [Choice]) -> Result<Arguments, Failure> {
        let mut found = Arguments { operands: vec![], options: vec![] };
        let mut rest = words.iter();
        while let Some(word) = rest.next() {
            if word == "--" {
                found.operands.extend(rest.cloned());
                break;
            }
            if !word.as_encoded_bytes().starts_with(b"--") {
                found.operands.push(word.clone());
                continue;
            }
            let choice = choices.iter().find(|choice| word == choice.name);
            let choice = choice.ok_or_else(|| Failure::Usage(format!("no option {}", word.display())))?;
            let value = match choice.value {
                None => OsString::new(),
                Some(value) => rest.next().cloned().ok_or_else(|| missing(choice.name, value))?,
            };
            found.options.push((choice.name, value));
        }
        Ok(found)
    }

    /// How many operands there are.
    pub fn count(&self) -> usize {
        self.operands.len()
    }

    /// The operand of that number. How many there are has been tested by the row, so an empty word stands for none.
    pub fn operand(&self, at: usize) -> &OsStr {
        self.operands.get(at).map_or(OsStr::new(""), |word| word)
    }

    pub fn path(&self, at: usize) -> &Path {
        Path::new(self.operand(at))
    }

    /// The operands from that number on.
    pub fn rest(&self, from: usize) -> &[OsString] {
        self.operands.get(from..).unwrap_or(&[])
    }

    pub fn switch(&self, name: &str) -> bool {
        self.options.iter().any(|(option, _)| *option == name)
    }

    /// All options with their values, in the order given.
    pub fn options(&self) -> impl Iterator<Item = (&'static str, &OsStr)> {
        self.options.iter().map(|(option, value)| (*option, value.as_os_str()))
    }

    /// The option's values, in the order given.
    pub fn values(&self, name: &'static str) -> impl Iterator<Item = &OsStr> {
        self.options.iter().filter(move |(option, _)| *option == name).map(|(_, value)| value.as_os_str())
    }

    /// The value of an option that may be given once at most.
    pub fn value(&self, name: &'static str) -> Result<Option<&OsStr>, Failure> {
        match self.values(name).collect::<Vec<_>>()[..] {
            [] => Ok(None),
            [value] => Ok(Some(value)),
            _ => Err(Failure::Usage(format!("{name} is given more than once"))),
        }
    }
}

fn missing(name: &str, value: &str) -> Failure {
    Failure::Usage(format!("{name} wants {value} behind it"))
}

/// A number in decimal, or in hexadecimal behind 0x, in the range.
pub fn number(word: &OsStr, what: &str, range: RangeInclusive<u64>) -> Result<u64, Failure> {
    let (start, end) = (range.start(), range.end());
    match word.to_str().and_then(number_of) {
        Some(value) if range.contains(&value) => Ok(value),
        _ => Err(Failure::Usage(format!("{what} is a number from {start} to {end}, not {}", word.display()))),
    }
}

/// Digits alone, and no number past 64 bits.
pub fn number_of(text: &str) -> Option<u64> {
    let (digits, base) = match text.strip_prefix("0x") {
        Some(digits) => (digits, 16),
        None => (text, 10),
    };
    let sign = digits.starts_with(['+', '-']);
    u64::from_str_radix(digits, base).ok().filter(|_| !sign)
}

/// A GUID in UEFI's form of text.
pub fn guid(word: &OsStr) -> Result<Guid, Failure> {
    let read = word.to_str().unwrap_or("").parse();
    read.map_err(|fault: GuidTextFault| Failure::Usage(format!("{}: {fault}", word.display())))
}

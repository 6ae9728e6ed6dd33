//! What a row of the table of subcommands holds, and its help.

use crate::arguments::{Arguments, Choice};
use crate::failure::Failure;
use std::ffi::OsString;
use std::ops::RangeInclusive;

/// One subcommand.
pub struct Command {
    /// Its words, as `capsule list`.
    pub name: &'static str,
    /// What stands behind them.
    pub usage: &'static str,
    /// One line, for the list of all.
    pub summary: &'static str,
    /// What `--help` says beside usage and summary; ends with a line feed.
    pub help: &'static str,
    /// How many operands it takes.
    pub operands: RangeInclusive<usize>,
    pub options: &'static [Choice],
    /// Does it. What it says goes into the text, which is printed also where it fails.
    pub run: fn(&Arguments, &mut String) -> Result<(), Failure>,
}

impl Command {
    /// The words behind this subcommand's name, if they begin with it.
    pub fn behind_name<'w>(&self, words: &'w [OsString]) -> Option<&'w [OsString]> {
        self.name.split(' ').try_fold(words, |words, name| match words {
            [first, rest @ ..] if first == name => Some(rest),
            _ => None,
        })
    }

    /// The first word of its name.
    pub fn group(&self) -> &'static str {
        self.name.split(' ').next().unwrap_or(self.name)
    }

    pub fn usage_text(&self) -> String {
        format!("usage: meanderpeg {} {}\n", self.name, self.usage)
    }

    pub fn help_text(&self) -> String {
        format!("{}{}.\n\n{}", self.usage_text(), self.summary, self.help)
    }

    /// Reads the words behind its name, tests how many operands there are and runs.
    pub fn run_with(&self, words: &[OsString], output: &mut String) -> Result<(), Failure> {
        let arguments = Arguments::parse(words, self.options)?;
        if !self.operands.contains(&arguments.count()) {
            return Err(Failure::Usage(self.count_fault(arguments.count())));
        }
        (self.run)(&arguments, output)
    }

    fn count_fault(&self, found: usize) -> String {
        let few = found < *self.operands.start();
        format!("{}: too {} arguments ({found})", self.name, if few { "few" } else { "many" })
    }
}

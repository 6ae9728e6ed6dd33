//! `meanderpeg`: the library for people, on files. A capsule is listed, taken apart and packed; a capsule is gathered
//! from a memory window; an area's record is shown, made, and updated store by store, with a power cut wherever one is
//! wanted; an image directory is written and shown.
//!
//! A subcommand is one module and one row below. No input and no file makes the program panic. The rules are in
//! docs/RULES.md; R1, P2 and so on are their numbers.
#![deny(
    unsafe_code,
    clippy::expect_used,
    clippy::indexing_slicing,
    clippy::panic,
    clippy::print_stdout,
    clippy::print_stderr,
    clippy::string_slice,
    clippy::unwrap_used
)]

mod arguments;
mod call;
mod capsule_extract;
mod capsule_list;
mod capsule_pack;
mod command;
mod directory_show;
mod directory_write;
mod failure;
mod files;
mod gather;
mod layout;
mod packed_files;
mod packing_words;
mod record_fields;
mod record_make;
mod record_report;
mod record_show;
mod record_update;
mod session_file;
mod stores;
mod text;
mod words_file;

use command::Command;
use failure::Failure;
use std::ffi::OsString;
use std::io::{self, Write};
use std::path::Path;
use std::process::ExitCode;

const COMMANDS: [&Command; 10] = [
    &capsule_list::COMMAND,
    &capsule_extract::COMMAND,
    &capsule_pack::COMMAND,
    &gather::COMMAND,
    &record_show::COMMAND,
    &record_update::COMMAND,
    &record_report::COMMAND,
    &record_make::COMMAND,
    &directory_write::COMMAND,
    &directory_show::COMMAND,
];

const STATUS_HELP: &str = "\
`meanderpeg SUBCOMMAND --help` says more of each.
Exit status: 0 done, 1 refused by the library, 2 wrong usage, 3 a file at fault, 4 stopped by --stores.
";

fn main() -> ExitCode {
    let words: Vec<OsString> = std::env::args_os().skip(1).collect();
    let mut output = String::new();
    let outcome = run(&words, &mut output);
    // The output comes first, also where the run failed; a fault in printing it counts where there is no other.
    let outcome = match (outcome, print(&output)) {
        (Ok(()), Err(why)) => Err(Failure::file(Path::new("standard output"), why)),
        (outcome, _) => outcome,
    };
    match outcome {
        Ok(()) => ExitCode::SUCCESS,
        Err(failure) => {
            let _ = write!(io::stderr(), "{failure}\n{}", hint(&failure, &words));
            ExitCode::from(failure.status())
        }
    }
}

fn print(output: &str) -> io::Result<()> {
    io::stdout().write_all(output.as_bytes())?;
    io::stdout().flush()
}

/// The subcommand that the words name, and the words behind its name.
fn command_of(words: &[OsString]) -> Option<(&'static Command, &[OsString])> {
    COMMANDS.into_iter().find_map(|command| Some((command, command.behind_name(words)?)))
}

/// Does what the words say: help, the version, or a subcommand.
fn run(words: &[OsString], output: &mut String) -> Result<(), Failure> {
    let help = words.iter().take_while(|word| *word != "--").any(|word| word == "--help");
    match (command_of(words), words) {
        (Some((command, _)), _) if help => output.push_str(&command.help_text()),
        (Some((command, rest)), _) => return command.run_with(rest, output),
        (None, _) if help => output.push_str(&list_of(words)),
        (None, [word]) if word == "--version" => {
            output.push_str(concat!("meanderpeg ", env!("CARGO_PKG_VERSION"), "\n"));
        }
        (None, []) => return Err(Failure::Usage("no subcommand".to_string())),
        (None, _) => return Err(Failure::Usage(format!("no subcommand {}", first_two(words)))),
    }
    Ok(())
}

/// Enough of the words to tell which are wrong.
fn first_two(words: &[OsString]) -> String {
    let words: Vec<String> = words.iter().take(2).map(|word| word.display().to_string()).collect();
    words.join(" ")
}

/// The subcommands whose first word is the first given; all of them where none is.
fn list_of(words: &[OsString]) -> String {
    let meant = |command: &&Command| words.first().is_some_and(|word| word == command.group());
    let meant: Vec<&Command> = COMMANDS.into_iter().filter(meant).collect();
    let shown = if meant.is_empty() { COMMANDS.to_vec() } else { meant };
    let mut list = String::from("usage: meanderpeg SUBCOMMAND ..\n       meanderpeg --help | --version\n\n");
    for command in shown {
        list += &format!("  {} {}\n      {}.\n", command.name, command.usage, command.summary);
    }
    list + "\n" + STATUS_HELP
}

/// Behind a fault of usage: how it should be.
fn hint(failure: &Failure, words: &[OsString]) -> String {
    match (failure, command_of(words)) {
        (Failure::Usage(_), Some((command, _))) => command.usage_text(),
        (Failure::Usage(_), None) => list_of(words),
        _ => String::new(),
    }
}

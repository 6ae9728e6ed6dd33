//! `directory show`: an image directory's header and its entries.

use crate::arguments::Arguments;
use crate::command::Command;
use crate::failure::Failure;
use crate::files;
use crate::text::{either, pair, table};
use meanderpeg::{Directory, Entry, Permissions};

pub const COMMAND: Command = Command {
    name: "directory show",
    usage: "FILE",
    summary: "Shows an image directory, or why it is refused",
    help: "\
FILE holds a directory and nothing else. correct_boot is `no` where another bank than the active one booted;
versions and accepted flags are those of the bank that booted. Permissions are write, read and activate-first
(the image must be activated before it can be accepted), or none. Refusals 43 to 46.
",
    operands: 1..=1,
    options: &[],
    run,
};

const HEAD: [&str; 7] = ["entry", "type-GUID", "permissions", "maximum-size", "lowest-accepted", "version", "accepted"];
const PERMISSIONS: [(Permissions, &str); 3] =
    [(Permissions::WRITE, "write"), (Permissions::READ, "read"), (Permissions::ACTIVATE_FIRST, "activate-first")];

fn run(arguments: &Arguments, output: &mut String) -> Result<(), Failure> {
    let bytes = files::read_directory(arguments.path(0))?;
    let directory = Directory::read(&bytes)?;
    show_header(&directory, output);
    let mut rows = vec![HEAD.map(String::from).to_vec()];
    rows.extend(directory.entries().map(|entry| row(&entry)));
    output.push('\n');
    table(output, &rows);
    Ok(())
}

pub fn show_header(directory: &Directory, output: &mut String) {
    pair(output, "correct_boot", either(directory.correct_boot(), "yes", "no"));
    pair(output, "images", directory.images());
}

fn row(entry: &Entry) -> Vec<String> {
    vec![
        entry.number().to_string(),
        entry.type_guid().to_string(),
        in_words(entry.permissions()),
        entry.maximum_size().to_string(),
        entry.lowest_accepted_version().to_string(),
        entry.version().to_string(),
        either(entry.accepted(), "yes", "no").to_string(),
    ]
}

fn in_words(permissions: Permissions) -> String {
    let names = PERMISSIONS.iter().filter(|(bit, _)| permissions.contains(*bit)).map(|(_, name)| *name);
    let names: Vec<&str> = names.collect();
    if names.is_empty() {
        "none".to_string()
    } else {
        names.join(" ")
    }
}

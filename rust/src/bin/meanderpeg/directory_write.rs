//! `directory write`: the image directory of what is installed, from an area and the caller's words (rules I).

use crate::arguments::{number, Arguments};
use crate::command::Command;
use crate::directory_show::show_header;
use crate::failure::Failure;
use crate::files;
use crate::text::pair;
use crate::words_file;
use meanderpeg::{write_directory, BankIndex, Directory, DIRECTORY_BYTES};

pub const COMMAND: Command = Command {
    name: "directory write",
    usage: "AREA BOOTED WORDS OUT",
    summary: "Writes the image directory of what is installed into the file OUT",
    help: "\
AREA holds an area, of which the record read is taken, and BOOTED is the number of the bank that booted.
WORDS is a text with a line for each image, in the record's order, of four numbers in decimal or behind 0x:
  permissions               1 write, 2 read, 4 to be activated before it can be accepted, added up
  maximum size              how many bytes an image that is installed can have
  lowest accepted version   no lower one may run
  version                   the one in the bank that booted
What is behind # and blank lines are passed over; lines past the last image are read and not used. Accepted
flags are those of the bank that booted. correct_boot is `no` exactly where start-up gives Fallback.
OUT is written whole or not at all; a plain file that is there is replaced. Refusals 20, 21, 28, 40, 41.
",
    operands: 4..=4,
    options: &[],
    run,
};

fn run(arguments: &Arguments, output: &mut String) -> Result<(), Failure> {
    let booted = BankIndex::new(number(arguments.operand(1), "BOOTED", 0..=u32::MAX.into())? as u32);
    let area = files::read_area(arguments.path(0))?;
    let words = words_file::read(arguments.path(2))?;
    let mut room = [0; DIRECTORY_BYTES];
    let written = write_directory(&area, booted, &words, &mut room)?;
    files::replace(arguments.path(3), written)?;
    show_header(&Directory::read(written)?, output);
    pair(output, "size", written.len());
    pair(output, "written to", arguments.path(3).display());
    Ok(())
}

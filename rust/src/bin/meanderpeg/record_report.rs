//! `record report`: the report of an area (rules T), as the library prints it.

use crate::arguments::Arguments;
use crate::command::Command;
use crate::failure::Failure;
use crate::files;
use crate::record_fields::copy_read;
use meanderpeg::{Refusal, REPORT_BYTES};

pub const COMMAND: Command = Command {
    name: "record report",
    usage: "FILE",
    summary: "Prints the report of an area: lines parted by tabs, for programs",
    help: "\
Lines: record (copy, size), active, previous, bank (number, state), image (number, bank, accepted). A refused
area has the line `refused` with the number; the status is 1 then, and standard error says it in words.
",
    operands: 1..=1,
    options: &[],
    run,
};

fn run(arguments: &Arguments, output: &mut String) -> Result<(), Failure> {
    let area = files::read_area(arguments.path(0))?;
    let mut text = [0; REPORT_BYTES];
    output.push_str(meanderpeg::report(&area, &mut text).unwrap_or(""));
    copy_read(meanderpeg::soundness(&area)?).ok_or(Refusal::NoSoundCopy)?;
    Ok(())
}

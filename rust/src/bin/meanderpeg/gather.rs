//! `gather`: a scattered capsule, gathered from a file that holds a memory window (rules G).

use crate::arguments::{number, Arguments};
use crate::command::Command;
use crate::failure::Failure;
use crate::files;
use crate::text::pair;

pub const COMMAND: Command = Command {
    name: "gather",
    usage: "WINDOW BASE FIRST [OUT]",
    summary: "Gathers the blocks of a scattered list from a memory window",
    help: "\
WINDOW holds the window's bytes; BASE is the address of its first byte, FIRST that of the first descriptor,
both in decimal or behind 0x. A descriptor is 16 bytes at a multiple of 8: length, then address, 64 bits each.
Length above 0: a block of data. Length 0 and an address: the list goes on there. Both 0: its end.
Prints the place chosen, its offset in the window and how many bytes were gathered, and writes those into OUT.
WINDOW itself stays as it is. Refusals 1 to 7.
",
    operands: 3..=4,
    options: &[],
    run,
};

fn run(arguments: &Arguments, output: &mut String) -> Result<(), Failure> {
    let base = number(arguments.operand(1), "BASE", 0..=u64::MAX)?;
    let first = number(arguments.operand(2), "FIRST", 0..=u64::MAX)?;
    let mut window = files::read_window(arguments.path(0))?;
    let gathered = meanderpeg::gather(&mut window, base, first)?;
    pair(output, "place", format!("{:#x}", gathered.address()));
    pair(output, "offset in window", gathered.range().start);
    pair(output, "total", gathered.bytes().len());
    if arguments.count() == 4 {
        files::write(arguments.path(3), gathered.bytes())?;
        pair(output, "written to", arguments.path(3).display());
    }
    Ok(())
}

//! `capsule extract`: an item's image or vendor code into a file.

use crate::arguments::{number, Arguments, Choice};
use crate::command::Command;
use crate::failure::Failure;
use crate::files;
use crate::text::{either, pair};
use meanderpeg::Capsule;

pub const COMMAND: Command = Command {
    name: "capsule extract",
    usage: "FILE ITEM [--vendor-code] OUT",
    summary: "Writes an item's image, or its vendor code, into the file OUT",
    help: "\
Items are numbered from 0, drivers first, as `capsule list` shows them. A driver's image is the whole item.
OUT is written anew. Refusals 10 to 16; with a refusal OUT is not touched.
",
    operands: 3..=3,
    options: &[Choice { name: "--vendor-code", value: None }],
    run,
};

fn run(arguments: &Arguments, output: &mut String) -> Result<(), Failure> {
    let number = number(arguments.operand(1), "ITEM", 0..=u64::MAX)?;
    let bytes = files::read_capsule(arguments.path(0))?;
    let item = Capsule::check(&bytes)?.item(usize::try_from(number).unwrap_or(usize::MAX))?;
    let code = arguments.switch("--vendor-code");
    let part = if code { item.vendor_code() } else { item.image() };
    files::write(arguments.path(2), part)?;
    pair(output, "item", number);
    pair(output, "part", either(code, "vendor code", "image"));
    pair(output, "size", part.len());
    pair(output, "written to", arguments.path(2).display());
    Ok(())
}

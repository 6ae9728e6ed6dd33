//! `capsule list`: a capsule's header and its items.

use crate::arguments::Arguments;
use crate::command::Command;
use crate::failure::Failure;
use crate::files;
use crate::layout::{guid_at, number_at};
use crate::text::{either, pair, table};
use meanderpeg::{Capsule, CapsuleFlags, Item, ItemKind};

pub const COMMAND: Command = Command {
    name: "capsule list",
    usage: "FILE",
    summary: "Shows a capsule's header and its items, or why it is refused",
    help: "\
FILE holds a capsule and nothing else. Starts are offsets in FILE, sizes are in bytes. A driver is an item
without a header: its image is the whole item, and it has no index, instance or GUID.
The header's fields are shown of a refused capsule too, where 28 bytes are there; then refusals 10 to 15.
",
    operands: 1..=1,
    options: &[],
    run,
};

/// GUID, HeaderSize, Flags and CapsuleImageSize (C1).
const HEADER_BYTES: usize = 28;
/// The flags of UEFI 2.10, 8.5.3, by their names.
pub const FLAGS: [(CapsuleFlags, &str); 3] =
    [(CapsuleFlags::PERSIST, "persist"), (CapsuleFlags::POPULATE, "populate"), (CapsuleFlags::RESET, "reset")];
const HEAD: [&str; 11] =
    ["item", "kind", "start", "size", "image", "image-size", "code", "code-size", "index", "instance", "type-GUID"];

fn run(arguments: &Arguments, output: &mut String) -> Result<(), Failure> {
    let bytes = files::read_capsule(arguments.path(0))?;
    show_header(&bytes, output);
    let capsule = Capsule::check(&bytes)?;
    pair(output, "drivers", capsule.drivers());
    pair(output, "payloads", capsule.payloads());
    let mut rows = vec![HEAD.map(String::from).to_vec()];
    for item in capsule.items() {
        rows.push(row(&bytes, &item?));
    }
    if rows.len() > 1 {
        output.push('\n');
        table(output, &rows);
    }
    Ok(())
}

fn show_header(capsule: &[u8], output: &mut String) {
    if capsule.len() < HEADER_BYTES {
        return;
    }
    pair(output, "GUID", guid_at(capsule, 0));
    pair(output, "header size", number_at(capsule, 16, 4));
    pair(output, "flags", in_words(CapsuleFlags::from_bits(number_at(capsule, 20, 4) as u32)));
    pair(output, "capsule image size", number_at(capsule, 24, 4));
}

/// Flags as a number, and those that have names.
pub fn in_words(flags: CapsuleFlags) -> String {
    let names = FLAGS.iter().filter(|(bit, _)| flags.contains(*bit)).map(|(_, name)| format!(" {name}"));
    format!("{:#010x}{}", flags.bits(), names.collect::<String>())
}

fn row(capsule: &[u8], item: &Item) -> Vec<String> {
    let driver = item.kind() == ItemKind::Driver;
    let mut row = vec![item.number().to_string(), either(driver, "driver", "payload").to_string()];
    for part in [item.bytes(), item.image(), item.vendor_code()] {
        row.extend([start_of(capsule, part), part.len().to_string()]);
    }
    if driver {
        row.extend(["-", "-", "-"].map(String::from));
    } else {
        row.push(item.image_index().to_string());
        row.push(format!("{:#x}", item.hardware_instance()));
        row.push(item.type_guid().to_string());
    }
    row
}

/// Where a part that the library handed out starts in the capsule.
fn start_of(capsule: &[u8], part: &[u8]) -> String {
    (part.as_ptr() as usize).wrapping_sub(capsule.as_ptr() as usize).to_string()
}

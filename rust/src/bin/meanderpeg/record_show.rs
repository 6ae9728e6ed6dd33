//! `record show`: both copies of an area, and the record that is read.

use crate::arguments::Arguments;
use crate::command::Command;
use crate::failure::Failure;
use crate::files;
use crate::record_fields::{copy_read, state_in_words, Record};
use crate::text::{either, pair};
use meanderpeg::Refusal;

pub const COMMAND: Command = Command {
    name: "record show",
    usage: "FILE",
    summary: "Shows both copies of an area, which is read, and the record's fields",
    help: "\
FILE is an area of 16,384 bytes: copy 0 at 0, copy 1 at 8,192. Copy 0 is read if it is sound, else copy 1.
`copies equal` says yes where both are sound and their records are the same bytes. Refusals 20 and 21.
",
    operands: 1..=1,
    options: &[],
    run,
};

fn run(arguments: &Arguments, output: &mut String) -> Result<(), Failure> {
    let area = files::read_area(arguments.path(0))?;
    let copy = show_copies(&area, output)?.ok_or(Refusal::NoSoundCopy)?;
    let record = Record::in_copy(&area, copy);
    show_header(&record, output);
    for image in 0..record.images() {
        show_image(&record, image, output);
    }
    Ok(())
}

/// Which copies are sound, whether they are equal and which is read.
pub fn show_copies(area: &[u8], output: &mut String) -> Result<Option<usize>, Failure> {
    let found = meanderpeg::soundness(area)?;
    let read = copy_read(found);
    pair(output, "copy 0", either(found.copy_0, "sound", "not sound"));
    pair(output, "copy 1", either(found.copy_1, "sound", "not sound"));
    pair(output, "copies equal", either(found.equal, "yes", "no"));
    pair(output, "read", read.map_or("none".to_string(), |copy| format!("copy {copy}")));
    Ok(read)
}

fn show_header(record: &Record, output: &mut String) {
    pair(output, "crc_32", format!("{:#010x}", record.crc()));
    pair(output, "version", record.version());
    pair(output, "size", record.size());
    pair(output, "active", format!("bank {}", record.active()));
    pair(output, "previous", format!("bank {}", record.previous()));
    pair(output, "banks", record.banks());
    for bank in 0..record.banks() {
        pair(output, format!("bank {bank}"), state_in_words(record.state(bank)));
    }
    pair(output, "images", record.images());
}

fn show_image(record: &Record, image: usize, output: &mut String) {
    pair(output, format!("image {image} type"), record.type_guid(image));
    pair(output, format!("image {image} location"), record.location_guid(image));
    for bank in 0..record.banks() {
        let accepted = either(record.accepted(image, bank), "accepted", "unaccepted");
        pair(
            output,
            format!("image {image} bank {bank}"),
            format!("{accepted:<10}  image GUID {}", record.image_guid(image, bank)),
        );
    }
}

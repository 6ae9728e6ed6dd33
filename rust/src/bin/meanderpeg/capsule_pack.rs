//! `capsule pack`: files packed into a capsule (rules C26 to C34).

use crate::arguments::{Arguments, Choice};
use crate::capsule_list::in_words;
use crate::command::Command;
use crate::failure::Failure;
use crate::files;
use crate::layout::number_at;
use crate::packed_files::PackedFiles;
use crate::packing_words::PackingWords;
use crate::text::pair;
use meanderpeg::{Capsule, DriverEntry, Item, Packing, PayloadEntry, Refusal};

pub const COMMAND: Command = Command {
    name: "capsule pack",
    usage: "OUT [--flags FLAGS] [--driver FILE] .. [--payload GUID --image FILE ..] ..",
    summary: "Packs drivers and payloads from files into a capsule, the file OUT",
    help: "\
What is packed:
  --flags FLAGS          persist, populate, reset or a number, or some of these with commas between; none by
                         default. reset needs persist
  --driver FILE          a driver: all of FILE, which is not empty
  --payload GUID         a payload for the image of this type GUID. Behind it, up to the next --payload:
    --image FILE         its image: all of FILE
    --vendor-code FILE   its vendor code; by default it is empty
    --index N            its image index, 0 to 255; 1 by default
    --instance N         its hardware instance, 64 bits; 0 by default, and with version 1 no other
    --version N          the version of its header, 1 or 2; 2 by default

Numbers are in decimal or behind 0x. The drivers come first, then the payloads, each in the order given, 64 at
most together; the header has 28 bytes, and there are no spare ones.
Before OUT is written, the library's reader takes the capsule, and every part and number that it shows must be
as given here. OUT is written whole or not at all: into a file beside it that is on disk before it takes OUT's
place. So a plain file that is there is replaced only by a whole one, and with a refusal or a fault it stays.
Refusals 50 and 52 to 56, with the driver or payload at fault.
",
    operands: 1..=1,
    options: &[
        Choice { name: "--flags", value: Some("FLAGS") },
        Choice { name: "--driver", value: Some("FILE") },
        Choice { name: "--payload", value: Some("GUID") },
        Choice { name: "--image", value: Some("FILE") },
        Choice { name: "--vendor-code", value: Some("FILE") },
        Choice { name: "--index", value: Some("N") },
        Choice { name: "--instance", value: Some("N") },
        Choice { name: "--version", value: Some("N") },
    ],
    run,
};

fn run(arguments: &Arguments, output: &mut String) -> Result<(), Failure> {
    let (words, path) = (PackingWords::of(arguments)?, arguments.path(0));
    let files = Files::read(&words)?;
    let (driver_table, payload_table) = (files.driver_table(), files.payload_table(&words));
    let packing = Packing {
        flags: words.flags,
        drivers: files.drivers.bytes(),
        driver_table: &driver_table,
        images: files.images.bytes(),
        vendor_codes: files.vendor_codes.bytes(),
        payload_table: &payload_table,
    };
    let size = packing.size().map_err(|refusal| refused(refusal, &packing, &words))?;
    let mut room = vec![0; size];
    let packed = packing.pack(&mut room)?;
    if !shows(packed, &packing, &files) {
        return Err(Failure::file(path, "not written: the library's reader doesn't show what was given"));
    }
    files::replace(path, packed)?;
    pair(output, "flags", in_words(words.flags));
    pair(output, "drivers", driver_table.len());
    pair(output, "payloads", payload_table.len());
    pair(output, "size", packed.len());
    pair(output, "written to", path.display());
    Ok(())
}

/// Where a capsule's header has its flags (C1).
const FLAGS_AT: usize = 20;
/// One byte more than a capsule can have (N56). Of files that are longer together no more is read, but for a byte of
/// each, so that the library refuses them as it would refuse all of them.
const MOST_BYTES: u64 = 1 << 32;

/// What the files hold; an image and a vendor code for each payload.
#[derive(Default)]
struct Files {
    drivers: PackedFiles,
    images: PackedFiles,
    vendor_codes: PackedFiles,
}

impl Files {
    fn read(words: &PackingWords) -> Result<Files, Failure> {
        let mut files = Files::default();
        for driver in &words.drivers {
            files.drivers.put(driver, files.left())?;
        }
        for payload in &words.payloads {
            files.images.put(payload.image(), files.left())?;
            match payload.vendor_code() {
                Some(file) => files.vendor_codes.put(file, files.left())?,
                None => files.vendor_codes.put_nothing(),
            }
        }
        Ok(files)
    }

    fn left(&self) -> u64 {
        let read = [&self.drivers, &self.images, &self.vendor_codes].map(|files| files.bytes().len() as u64);
        MOST_BYTES.saturating_sub(read.iter().sum()).max(1)
    }

    fn driver_table(&self) -> Vec<DriverEntry> {
        self.drivers.places().map(|(start, length)| DriverEntry { start, length }).collect()
    }

    fn payload_table(&self, words: &PackingWords) -> Vec<PayloadEntry> {
        let parts = self.images.places().zip(self.vendor_codes.places());
        words.payloads.iter().zip(parts).map(|(payload, (image, code))| payload.entry(image, code)).collect()
    }
}

/// Whether the reader takes the capsule and shows everything as it was given.
fn shows(packed: &[u8], packing: &Packing, files: &Files) -> bool {
    let Ok(capsule) = Capsule::check(packed) else { return false };
    let Ok(items) = capsule.items().collect::<Result<Vec<Item>, Refusal>>() else { return false };
    let (drivers, payloads) = items.split_at(capsule.drivers().min(items.len()));
    let counts = (packing.driver_table.len(), packing.payload_table.len());
    let entries = packing.payload_table.iter().zip(files.images.parts().zip(files.vendor_codes.parts()));
    number_at(packed, FLAGS_AT, 4) as u32 == packing.flags.bits()
        && (drivers.len(), payloads.len()) == counts
        && drivers.iter().zip(files.drivers.parts()).all(|(item, driver)| item.image() == driver)
        && payloads.iter().zip(entries).all(|(item, (entry, parts))| {
            number_at(item.bytes(), 0, 4) as u32 == entry.version
                && item.type_guid().to_bytes() == entry.type_guid
                && (item.image_index(), item.hardware_instance()) == (entry.image_index, entry.hardware_instance)
                && (item.image(), item.vendor_code()) == parts
        })
}

/// The refusal, and what it is for.
fn refused(refusal: Refusal, packing: &Packing, words: &PackingWords) -> Failure {
    let counts = format!("{} drivers and {} payloads", packing.driver_table.len(), packing.payload_table.len());
    let what = match refusal {
        Refusal::PackItems => counts,
        Refusal::PackFlags => in_words(packing.flags),
        Refusal::PackSize => format!("{counts}, whose parts have {} bytes or more", bytes_of(packing)),
        _ => at_fault(refusal, packing, words).join("; "),
    };
    Failure::RefusedFor(refusal, what)
}

/// How many bytes all parts have together.
fn bytes_of(packing: &Packing) -> u64 {
    let drivers = packing.driver_table.iter().map(|driver| driver.length);
    let payloads = packing.payload_table.iter().map(|payload| payload.image_length + payload.vendor_code_length);
    drivers.chain(payloads).sum()
}

/// The drivers and payloads that are refused by this number. Which they are is the library's to say: it is asked about
/// each alone.
fn at_fault(refusal: Refusal, packing: &Packing, words: &PackingWords) -> Vec<String> {
    let none = Packing { driver_table: &[], payload_table: &[], ..*packing };
    let by_driver = |entry: &DriverEntry| Packing { driver_table: std::slice::from_ref(entry), ..none }.size();
    let by_payload = |entry: &PayloadEntry| Packing { payload_table: std::slice::from_ref(entry), ..none }.size();
    let drivers = packing.driver_table.iter().zip(&words.drivers).enumerate();
    let drivers = drivers.filter(|(_, (entry, _))| by_driver(entry) == Err(refusal));
    let payloads = packing.payload_table.iter().enumerate();
    let payloads = payloads.filter(|(_, entry)| by_payload(entry) == Err(refusal));
    let drivers = drivers.map(|(at, (_, file))| format!("driver {at} ({})", file.display()));
    drivers.chain(payloads.filter_map(|(at, _)| Some(words.payloads.get(at)?.name(at)))).collect()
}

//! Packing a capsule (C26 to C36, refusals 50 to 57), and packing again what the reader shows of one.

use crate::bytes::{guid, number, put};
use crate::capsule::*;

/// Bytes of a driver's entry and of a payload's in their tables (C27).
pub const DRIVER_ENTRY: u128 = 16;
pub const PAYLOAD_ENTRY: u128 = 64;
/// Bytes of the capsule's header, and of the body before the list of offsets.
const HEADER: u128 = 28;
const COUNTS: u128 = 8;
/// The largest CapsuleImageSize.
const MOST_BYTES: u128 = 4_294_967_295;

/// All that a capsule is packed from: the flags, three slices and two tables.
#[derive(Clone, Copy, Debug)]
pub struct Lent<'a> {
    pub flags: u32,
    pub drivers: &'a [u8],
    pub driver_table: &'a [u8],
    pub images: &'a [u8],
    pub vendor_codes: &'a [u8],
    pub payload_table: &'a [u8],
}

/// A part as its entry tells it, whether or not it lies in its slice.
struct Part<'a> {
    slice: &'a [u8],
    start: u128,
    length: u128,
}

impl<'a> Part<'a> {
    /// The part whose start and length stand at `at` in a table.
    fn told(table: &[u8], at: u128, slice: &'a [u8]) -> Part<'a> {
        Part { slice, start: number(table, at, 8), length: number(table, at + 8, 8) }
    }

    /// N51.
    fn lies(&self) -> bool {
        self.start + self.length <= self.slice.len() as u128
    }

    /// The bytes of a part that lies in its slice.
    fn bytes(&self) -> &'a [u8] {
        &self.slice[self.start as usize..(self.start + self.length) as usize]
    }
}

struct Payload<'a> {
    version: u128,
    type_guid: [u8; 16],
    index: u128,
    instance: u128,
    image: Part<'a>,
    vendor_code: Part<'a>,
}

/// C27: as many entries as fit.
fn driver_count(lent: &Lent) -> u128 {
    lent.driver_table.len() as u128 / DRIVER_ENTRY
}

fn payload_count(lent: &Lent) -> u128 {
    lent.payload_table.len() as u128 / PAYLOAD_ENTRY
}

fn drivers<'a>(lent: &Lent<'a>) -> Vec<Part<'a>> {
    (0..driver_count(lent)).map(|i| Part::told(lent.driver_table, DRIVER_ENTRY * i, lent.drivers)).collect()
}

fn payloads<'a>(lent: &Lent<'a>) -> Vec<Payload<'a>> {
    let table = lent.payload_table;
    let payload = |i: u128| {
        let at = PAYLOAD_ENTRY * i;
        Payload {
            version: number(table, at, 4),
            type_guid: guid(table, at + 4),
            index: number(table, at + 20, 1),
            instance: number(table, at + 24, 8),
            image: Part::told(table, at + 32, lent.images),
            vendor_code: Part::told(table, at + 48, lent.vendor_codes),
        }
    };
    (0..payload_count(lent)).map(payload).collect()
}

/// The size that the capsule would have (C31), or the refusal, 50 to 56: the lowest that applies, over all items
/// (N109).
pub fn packed_size(lent: &Lent) -> Result<u64, u32> {
    let count = driver_count(lent) + payload_count(lent);
    if count > MOST_ITEMS {
        return Err(50);
    }
    let (drivers, payloads) = (drivers(lent), payloads(lent));
    if !drivers.iter().all(|d| d.lies()) || !payloads.iter().all(|p| p.image.lies() && p.vendor_code.lies()) {
        return Err(51);
    }
    if drivers.iter().any(|d| d.length == 0) {
        return Err(52);
    }
    if payloads.iter().any(|p| payload_header(p.version).is_none()) {
        return Err(53);
    }
    if payloads.iter().any(|p| p.version == 1 && p.instance != 0) {
        return Err(54);
    }
    if !flags_good(lent.flags as u128) {
        return Err(55);
    }
    let mut size = HEADER + COUNTS + 8 * count;
    for d in &drivers {
        size += d.length;
    }
    for p in &payloads {
        size += payload_header(p.version).expect("a good version") + p.image.length + p.vendor_code.length;
    }
    if size > MOST_BYTES {
        return Err(56);
    }
    Ok(size as u64)
}

/// Puts the capsule at the front of the output and answers its length (C32). With a refusal the output stays.
pub fn pack(lent: &Lent, output: &mut [u8]) -> Result<u64, u32> {
    let size = packed_size(lent)?;
    if (output.len() as u64) < size {
        return Err(57);
    }
    let capsule = capsule_bytes(lent);
    assert_eq!(capsule.len() as u64, size);
    output[..capsule.len()].copy_from_slice(&capsule);
    Ok(size)
}

/// C30.
fn payload_bytes(payload: &Payload) -> Vec<u8> {
    let mut item = vec![0u8; payload_header(payload.version).expect("a good version") as usize];
    put(&mut item, 0, 4, payload.version);
    item[4..20].copy_from_slice(&payload.type_guid);
    put(&mut item, 20, 1, payload.index);
    put(&mut item, 24, 4, payload.image.length);
    put(&mut item, 28, 4, payload.vendor_code.length);
    if payload.version == 2 {
        put(&mut item, 32, 8, payload.instance);
    }
    item.extend(payload.image.bytes());
    item.extend(payload.vendor_code.bytes());
    item
}

/// C28, C29, for what is not refused.
fn capsule_bytes(lent: &Lent) -> Vec<u8> {
    let mut items: Vec<Vec<u8>> = drivers(lent).iter().map(|d| d.bytes().to_vec()).collect();
    items.extend(payloads(lent).iter().map(payload_bytes));

    let mut body = vec![0u8; (COUNTS + 8 * items.len() as u128) as usize];
    put(&mut body, 0, 4, 1);
    put(&mut body, 4, 2, driver_count(lent));
    put(&mut body, 6, 2, payload_count(lent));
    for (i, item) in items.iter().enumerate() {
        let offset = body.len() as u128;
        put(&mut body, 8 + 8 * i, 8, offset);
        body.extend(item);
    }

    let mut capsule = vec![0u8; HEADER as usize];
    capsule[..16].copy_from_slice(&FMP_GUID);
    put(&mut capsule, 16, 4, HEADER);
    put(&mut capsule, 20, 4, lent.flags as u128);
    put(&mut capsule, 24, 4, HEADER + body.len() as u128);
    capsule.extend(body);
    capsule
}

/// The flags of a capsule and tables of what is shown of it; the slices are the capsule itself (C36).
#[derive(Clone, Debug)]
pub struct Shown {
    pub flags: u32,
    pub driver_table: Vec<u8>,
    pub payload_table: Vec<u8>,
}

impl Shown {
    pub fn lent<'a>(&'a self, capsule: &'a [u8]) -> Lent<'a> {
        Lent {
            flags: self.flags,
            drivers: capsule,
            driver_table: &self.driver_table,
            images: capsule,
            vendor_codes: capsule,
            payload_table: &self.payload_table,
        }
    }
}

/// Puts a part into an entry.
fn put_part(entry: &mut [u8], at: usize, (start, length): (u64, u64)) {
    put(entry, at, 8, start as u128);
    put(entry, at + 8, 8, length as u128);
}

/// What is needed to pack a capsule again, or why the reader refuses it, 10 to 15.
pub fn shown_of(capsule: &[u8]) -> Result<Shown, u32> {
    let refusal = capsule_refusal(capsule);
    if refusal != 0 {
        return Err(refusal);
    }
    let (drivers, payloads) = counts(capsule);
    let (mut driver_table, mut payload_table) = (Vec::new(), Vec::new());
    for i in 0..drivers as u64 {
        let mut entry = [0u8; DRIVER_ENTRY as usize];
        put_part(&mut entry, 0, image(capsule, i));
        driver_table.extend(entry);
    }
    for i in drivers as u64..drivers as u64 + payloads as u64 {
        let (type_guid, index, instance) = shown(capsule, i);
        let mut entry = [0u8; PAYLOAD_ENTRY as usize];
        // No entry shows the version: it is taken from the item (D135).
        put(&mut entry, 0, 4, number(capsule, item(capsule, i).0 as u128, 4));
        entry[4..20].copy_from_slice(&type_guid);
        put(&mut entry, 20, 1, index as u128);
        put(&mut entry, 24, 8, instance as u128);
        put_part(&mut entry, 32, image(capsule, i));
        put_part(&mut entry, 48, vendor_code(capsule, i));
        payload_table.extend(entry);
    }
    Ok(Shown { flags: flags(capsule) as u32, driver_table, payload_table })
}

/// C33. A capsule that is refused is of no form.
pub fn tight(capsule: &[u8]) -> bool {
    if capsule_refusal(capsule) != 0 || header_size(capsule) != HEADER {
        return false;
    }
    let (drivers, payloads) = counts(capsule);
    let count = drivers as u64 + payloads as u64;
    let list_end = (HEADER + COUNTS) as u64 + 8 * count;
    let first = if count == 0 { capsule.len() as u64 } else { item(capsule, 0).0 };
    let payload_tight = |i: u64| {
        let (start, length) = item(capsule, i);
        let (code, code_length) = vendor_code(capsule, i);
        code + code_length == start + length && number(capsule, start as u128 + 21, 3) == 0
    };
    first == list_end && (drivers as u64..count).all(payload_tight)
}

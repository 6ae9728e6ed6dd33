//! Helpers that build sound records, areas and faultless capsules, for tests and for the inputs of `inputs`.

use crate::bytes::put;
use crate::capsule::FMP_GUID;
use crate::record::{crc32, with_crc, AREA, COPY};

/// What a record says. Bit i of `accepted[b]` is the accepted field of image i in bank b.
#[derive(Clone, Debug, PartialEq, Eq)]
pub struct RecordPlan {
    pub banks: usize,
    pub images: usize,
    pub active: u32,
    pub previous: u32,
    pub states: [u8; 4],
    pub accepted: [u32; 4],
    /// The byte, 0 to 15, in which the type GUIDs differ.
    pub guid_place: usize,
}

/// Image i's type GUID: byte j is 160 + j, but byte `place` is i. So two of them differ in one byte.
pub fn type_guid_for(image: usize, place: usize) -> [u8; 16] {
    let mut guid = [0u8; 16];
    for j in 0..16 {
        guid[j] = 160 + j as u8;
    }
    guid[place] = image as u8;
    guid
}

/// The record of a plan, with its CRC. Sound where the plan keeps the rules. A plan may pass the limits by one: in a
/// fifth bank no image is accepted, a 33rd image is accepted where image 0 is. Location GUID of image i: byte j is (16
/// i + j) mod 256. Image GUID of image i in bank b: byte j is (4 i + b + 17 j) mod 256.
pub fn record_bytes(plan: &RecordPlan) -> Vec<u8> {
    with_crc(laid_out(plan, 32 + 24 * plan.banks, 24))
}

/// The record of a plan without its CRC, laid out with these sizes of an image's entry and of a bank's: all is put in
/// ascending order, whole, and bytes that nothing covers are 0. With smaller sizes the last entry may pass the size.
pub fn laid_out(plan: &RecordPlan, entry_size: usize, bank_size: usize) -> Vec<u8> {
    let size = 40 + plan.images * entry_size;
    let mut r = vec![0u8; size + 24];
    let mut end = size;
    put(&mut r, 4, 4, 2);
    put(&mut r, 8, 4, plan.active as u128);
    put(&mut r, 12, 4, plan.previous as u128);
    put(&mut r, 16, 4, size as u128);
    put(&mut r, 20, 2, 32);
    for bank in 0..4 {
        r[24 + bank] = plan.states[bank];
    }
    r[32] = plan.banks as u8;
    put(&mut r, 34, 2, plan.images as u128);
    put(&mut r, 36, 2, entry_size as u128);
    put(&mut r, 38, 2, bank_size as u128);
    for i in 0..plan.images {
        let at = 40 + i * entry_size;
        r[at..at + 16].copy_from_slice(&type_guid_for(i, plan.guid_place));
        for j in 0..16 {
            r[at + 16 + j] = ((16 * i + j) % 256) as u8;
        }
        for b in 0..plan.banks {
            let bank_at = at + 32 + bank_size * b;
            end = end.max(bank_at + 24);
            for j in 0..16 {
                r[bank_at + j] = ((4 * i + b + 17 * j) % 256) as u8;
            }
            let accepted = if b < 4 { (plan.accepted[b] >> (i % 32)) & 1 } else { 0 };
            put(&mut r, bank_at + 16, 8, accepted as u128);
        }
    }
    r.truncate(end);
    r
}

/// All images' bits.
pub fn full_set(images: usize) -> u32 {
    ((1u64 << images) - 1) as u32
}

/// A plan with every bank 252 and every image accepted, active 0, previous 1.
pub fn plan(banks: usize, images: usize) -> RecordPlan {
    let mut states = [255u8; 4];
    let mut accepted = [0u32; 4];
    for bank in 0..banks.min(4) {
        states[bank] = 252;
        accepted[bank] = full_set(images.min(32));
    }
    RecordPlan { banks, images, active: 0, previous: 1, states, accepted, guid_place: 15 }
}

/// A sound record with every bank accepted.
pub fn make_record(banks: usize, images: usize, active: u32, previous: u32) -> Vec<u8> {
    record_bytes(&RecordPlan { active, previous, ..plan(banks, images) })
}

/// The filler of byte i: (7 i + 13 (i / 256) + tint) mod 256.
pub fn filler(i: usize, tint: usize) -> u8 {
    ((7 * i + 13 * (i / 256) + tint) % 256) as u8
}

/// An area of filler that holds these two records.
pub fn make_area(zero: &[u8], one: &[u8], tint: usize) -> Vec<u8> {
    let mut area: Vec<u8> = (0..AREA).map(|i| filler(i, tint)).collect();
    area[..zero.len()].copy_from_slice(zero);
    area[COPY..COPY + one.len()].copy_from_slice(one);
    area
}

/// Works the CRC of a copy anew over bytes 4 to n, n being the lower 16 bits of its size field, where n is 40 to 8,192;
/// else leaves it.
pub fn renew_crc(copy: &mut [u8]) {
    let size = crate::bytes::number(copy, 16, 2);
    if (40..=8192).contains(&size) {
        let crc = crc32(&copy[4..size as usize]);
        put(copy, 0, 4, crc as u128);
    }
}

#[derive(Clone, Debug)]
pub struct PayloadPlan {
    pub version: u32,
    pub guid: [u8; 16],
    pub index: u8,
    pub reserved: [u8; 3],
    pub instance: u64,
    pub image: Vec<u8>,
    pub vendor: Vec<u8>,
    /// Bytes behind the vendor code.
    pub spare: usize,
}

#[derive(Clone, Debug)]
pub struct CapsulePlan {
    pub header: usize,
    pub flags: u32,
    /// Bytes between the list's end and the first item.
    pub gap: usize,
    pub drivers: Vec<Vec<u8>>,
    pub payloads: Vec<PayloadPlan>,
    /// Bytes behind the list in a body without items.
    pub tail: usize,
}

/// A payload with a version 1 or 2 header, no spare bytes.
pub fn payload(version: u32, image: &[u8], vendor: &[u8]) -> PayloadPlan {
    PayloadPlan {
        version,
        guid: *b"payload type 123",
        index: 7,
        reserved: [9, 8, 7],
        instance: 0x1122_3344_5566_7788,
        image: image.to_vec(),
        vendor: vendor.to_vec(),
        spare: 0,
    }
}

/// A faultless capsule: header, body header, list, gap, items. Bytes that no field holds are 0xE7.
pub fn make_capsule(plan: &CapsulePlan) -> Vec<u8> {
    let count = plan.drivers.len() + plan.payloads.len();
    let mut body: Vec<u8> = vec![0xE7; 8 + 8 * count + plan.gap];
    put(&mut body, 0, 4, 1);
    put(&mut body, 4, 2, plan.drivers.len() as u128);
    put(&mut body, 6, 2, plan.payloads.len() as u128);
    let mut item = 0;
    for driver in &plan.drivers {
        let at = body.len();
        put(&mut body, 8 + 8 * item, 8, at as u128);
        body.extend_from_slice(driver);
        item += 1;
    }
    for p in &plan.payloads {
        let at = body.len();
        put(&mut body, 8 + 8 * item, 8, at as u128);
        let header = if p.version == 1 { 32 } else { 40 };
        let mut bytes = vec![0u8; header];
        put(&mut bytes, 0, 4, p.version as u128);
        bytes[4..20].copy_from_slice(&p.guid);
        bytes[20] = p.index;
        bytes[21..24].copy_from_slice(&p.reserved);
        put(&mut bytes, 24, 4, p.image.len() as u128);
        put(&mut bytes, 28, 4, p.vendor.len() as u128);
        if header == 40 {
            put(&mut bytes, 32, 8, p.instance as u128);
        }
        body.extend_from_slice(&bytes);
        body.extend_from_slice(&p.image);
        body.extend_from_slice(&p.vendor);
        body.extend(std::iter::repeat(0xE7).take(p.spare));
        item += 1;
    }
    if count == 0 {
        body.extend(std::iter::repeat(0xE7).take(plan.tail));
    }
    let mut capsule = vec![0xE7; plan.header];
    capsule[..16].copy_from_slice(&FMP_GUID);
    put(&mut capsule, 16, 4, plan.header as u128);
    put(&mut capsule, 20, 4, plan.flags as u128);
    put(&mut capsule, 24, 4, (plan.header + body.len()) as u128);
    capsule.extend_from_slice(&body);
    capsule
}

/// Sets CapsuleImageSize to the slice's length.
pub fn fit_size(capsule: &mut [u8]) {
    let length = capsule.len();
    put(capsule, 24, 4, length as u128);
}

/// Writes a descriptor at an offset of a window.
pub fn put_descriptor(window: &mut [u8], at: usize, length: u64, address: u64) {
    put(window, at, 8, length as u128);
    put(window, at + 8, 8, address as u128);
}

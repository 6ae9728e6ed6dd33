//! Packing: a capsule from drivers, images and vendor codes (rules C26 to C37).

#[cfg(feature = "alloc")]
use crate::Guid;
use crate::{raw, DriverEntry, PayloadEntry, Refusal};
#[cfg(feature = "alloc")]
use alloc::vec::Vec;
use core::fmt;
use core::ops::BitOr;

/// The flags of a capsule: bits, which `|` adds up. Three have names, by UEFI; a capsule carries all of them as they
/// are.
///
/// ```
/// use meanderpeg::CapsuleFlags;
///
/// let flags = CapsuleFlags::PERSIST | CapsuleFlags::RESET;
/// assert!(flags.contains(CapsuleFlags::RESET) && !flags.contains(CapsuleFlags::POPULATE));
/// assert_eq!(flags.bits(), 0x0005_0000);
/// ```
#[derive(Clone, Copy, PartialEq, Eq, Hash, Debug, Default)]
pub struct CapsuleFlags(u32);

impl CapsuleFlags {
    /// No bit.
    pub const NONE: CapsuleFlags = CapsuleFlags(0);
    /// The capsule is kept over a restart.
    pub const PERSIST: CapsuleFlags = CapsuleFlags(0x0001_0000);
    /// The capsule is shown in the system table after it.
    pub const POPULATE: CapsuleFlags = CapsuleFlags(0x0002_0000);
    /// The restart comes at once. This needs [`PERSIST`](CapsuleFlags::PERSIST) (C4).
    pub const RESET: CapsuleFlags = CapsuleFlags(0x0004_0000);

    /// The flags of a number. Whether they go together is seen where they are used: packing refuses others by 55.
    pub const fn from_bits(bits: u32) -> CapsuleFlags {
        CapsuleFlags(bits)
    }

    /// The number.
    pub const fn bits(self) -> u32 {
        self.0
    }

    /// Whether all bits of the other are among these.
    pub const fn contains(self, other: CapsuleFlags) -> bool {
        self.0 & other.0 == other.0
    }
}

impl BitOr for CapsuleFlags {
    type Output = CapsuleFlags;

    fn bitor(self, other: CapsuleFlags) -> CapsuleFlags {
        CapsuleFlags(self.0 | other.0)
    }
}

/// What a capsule is packed from: three slices that hold drivers, images and vendor codes, with any bytes besides, and
/// two tables that say which bytes of them are meant (C26, C27). One slice may be all three, and parts may share bytes.
///
/// The items are the drivers, then the payloads, each in its table's order; the first stands right behind the list of
/// offsets and each other one right behind the one before, with no spare bytes (C28 to C30).
/// [`Capsule::check`](crate::Capsule::check) takes what is packed and shows every part and number as it was given
/// (C34).
///
/// ```
/// use meanderpeg::{Capsule, CapsuleFlags, DriverEntry, Guid, Packing, PayloadEntry};
///
/// // A driver of 6 bytes, and a payload with an image of 5 and no vendor code: parts of one and the same slice.
/// let bytes = b"driver image";
/// let guid: Guid = "a0a1a2a3-a4a5-a6a7-a8a9-aaabacadaeaf".parse()?;
/// let payload = PayloadEntry {
///     version: 2,
///     type_guid: guid.to_bytes(),
///     image_index: 1,
///     hardware_instance: 7,
///     image_start: 7,
///     image_length: 5,
///     ..PayloadEntry::default()
/// };
/// let packing = Packing {
///     flags: CapsuleFlags::PERSIST | CapsuleFlags::RESET,
///     drivers: bytes,
///     driver_table: &[DriverEntry { start: 0, length: 6 }],
///     images: bytes,
///     payload_table: &[payload],
///     ..Packing::default()
/// };
///
/// let mut room = [0; 200];
/// assert_eq!(packing.size()?, 103);
/// let capsule = Capsule::check(packing.pack(&mut room)?)?;
/// assert_eq!((capsule.drivers(), capsule.payloads()), (1, 1));
/// assert_eq!((capsule.item(0)?.image(), capsule.item(1)?.image()), (&b"driver"[..], &b"image"[..]));
/// assert_eq!((capsule.item(1)?.type_guid(), capsule.item(1)?.hardware_instance()), (guid, 7));
/// # Ok::<(), Box<dyn std::error::Error>>(())
/// ```
#[derive(Clone, Copy, PartialEq, Eq, Default)]
pub struct Packing<'a> {
    /// The flags.
    pub flags: CapsuleFlags,
    /// The bytes that drivers are parts of.
    pub drivers: &'a [u8],
    /// The drivers.
    pub driver_table: &'a [DriverEntry],
    /// The bytes that images are parts of.
    pub images: &'a [u8],
    /// The bytes that vendor codes are parts of.
    pub vendor_codes: &'a [u8],
    /// The payloads.
    pub payload_table: &'a [PayloadEntry],
}

impl Packing<'_> {
    /// How many bytes the capsule will have: so much room [`pack`](Packing::pack) wants. What it costs does not grow
    /// with the parts' lengths (C31).
    ///
    /// Refusals 50 to 56, the lowest that applies to any item: 50 for more than 64 items, 51 for a part that runs past
    /// its slice (an empty one may stand at its end), 52 for an empty driver, 53 for a payload's version but 1 and 2,
    /// 54 for a hardware instance but 0 with version 1, 55 for flags that the reader refuses, 56 for a size past 32
    /// bits.
    pub fn size(&self) -> Result<usize, Refusal> {
        let mut size = 0;
        Refusal::of(raw::capsule_packed_size(&self.lent(), &mut size), 0)?;
        Ok(size)
    }

    /// Packs the capsule at the front of `room`, and hands out the bytes written. Every byte of `room` past them stays
    /// (C32). Refusals 50 to 56 as of [`size`](Packing::size), then 57 for too short a room.
    pub fn pack<'r>(&self, room: &'r mut [u8]) -> Result<&'r [u8], Refusal> {
        let mut length = 0;
        Refusal::of(raw::capsule_pack(&self.lent(), room, &mut length), 0)?;
        room.get(..length).ok_or(Refusal::Unknown(0))
    }

    fn lent(&self) -> Lent<'_> {
        Lent {
            flags: self.flags.bits(),
            drivers: self.drivers,
            driver_table: raw::driver_table_of(self.driver_table),
            images: self.images,
            vendor_codes: self.vendor_codes,
            payload_table: raw::payload_table_of(self.payload_table),
        }
    }
}

/// What the library is lent: as [`Packing`], with the tables by their bytes.
pub struct Lent<'a> {
    pub flags: u32,
    pub drivers: &'a [u8],
    pub driver_table: &'a [u8],
    pub images: &'a [u8],
    pub vendor_codes: &'a [u8],
    pub payload_table: &'a [u8],
}

/// Lengths in place of bytes, of which there may be millions.
impl fmt::Debug for Packing<'_> {
    fn fmt(&self, f: &mut fmt::Formatter<'_>) -> fmt::Result {
        let mut shown = f.debug_struct("Packing");
        shown.field("flags", &self.flags);
        shown.field("drivers_length", &self.drivers.len());
        shown.field("driver_table", &self.driver_table);
        shown.field("images_length", &self.images.len());
        shown.field("vendor_codes_length", &self.vendor_codes.len());
        shown.field("payload_table", &self.payload_table);
        shown.finish_non_exhaustive()
    }
}

/// A payload to be packed by [`pack_parts`], its image and vendor code wherever they lie. There is a default, all
/// zeros and empty, for the fields that are not of interest; its version is none.
#[cfg(feature = "alloc")]
#[derive(Clone, Copy, PartialEq, Eq, Default)]
pub struct Payload<'a> {
    /// The version of its header: 1, or 2, which has the hardware instance.
    pub version: u32,
    /// Which image it is for.
    pub type_guid: Guid,
    /// Its image index.
    pub image_index: u8,
    /// Its hardware instance: 0 with version 1.
    pub hardware_instance: u64,
    /// Its image, which may be empty.
    pub image: &'a [u8],
    /// Its vendor code, which may be empty.
    pub vendor_code: &'a [u8],
}

/// Packs drivers and payloads whose parts are slices of their own. They are copied together first, so while this runs
/// there is memory for the parts three times: as given, together, and in the capsule. Where parts already lie together,
/// [`Packing::pack`] needs no copy and allocates nothing.
///
/// Refusals 50 and 52 to 56 as of [`Packing::size`], before anything is copied; 51 and 57 can't be.
///
/// ```
/// use meanderpeg::{pack_parts, Capsule, CapsuleFlags, Payload, Refusal};
///
/// let payload = Payload { version: 1, image: b"image", vendor_code: b"code", ..Payload::default() };
/// let packed = pack_parts(CapsuleFlags::NONE, &[b"driver", b"another"], &[payload])?;
/// let capsule = Capsule::check(&packed)?;
/// assert_eq!((capsule.item(1)?.image(), capsule.item(2)?.vendor_code()), (&b"another"[..], &b"code"[..]));
/// assert_eq!(pack_parts(CapsuleFlags::NONE, &[b"driver", b""], &[]), Err(Refusal::PackEmptyDriver));
/// # Ok::<(), Refusal>(())
/// ```
#[cfg(feature = "alloc")]
pub fn pack_parts(flags: CapsuleFlags, drivers: &[&[u8]], payloads: &[Payload]) -> Result<Vec<u8>, Refusal> {
    let mut driver_table: Vec<_> =
        drivers.iter().map(|driver| DriverEntry { start: 0, length: count(driver) }).collect();
    let mut payload_table: Vec<_> = payloads.iter().map(Payload::entry).collect();
    // The size goes by the lengths alone, so it is asked with each part at the start of the longest of its kind. With a
    // size of 32 bits the lengths together are no longer than that either.
    let asked = Packing {
        flags,
        drivers: longest(drivers.iter().copied()),
        driver_table: &driver_table,
        images: longest(payloads.iter().map(|payload| payload.image)),
        vendor_codes: longest(payloads.iter().map(|payload| payload.vendor_code)),
        payload_table: &payload_table,
    };
    let mut room = alloc::vec![0; asked.size()?];
    let [mut all_drivers, mut images, mut vendor_codes] = [const { Vec::new() }; 3];
    for (entry, driver) in driver_table.iter_mut().zip(drivers) {
        entry.start = append(&mut all_drivers, driver);
    }
    for (entry, payload) in payload_table.iter_mut().zip(payloads) {
        entry.image_start = append(&mut images, payload.image);
        entry.vendor_code_start = append(&mut vendor_codes, payload.vendor_code);
    }
    let (drivers, images, vendor_codes) = (&all_drivers[..], &images[..], &vendor_codes[..]);
    let (driver_table, payload_table) = (&driver_table[..], &payload_table[..]);
    Packing { flags, drivers, driver_table, images, vendor_codes, payload_table }.pack(&mut room)?;
    Ok(room)
}

#[cfg(feature = "alloc")]
impl Payload<'_> {
    /// Its entry, with its parts at the start of their slices.
    fn entry(&self) -> PayloadEntry {
        PayloadEntry {
            version: self.version,
            type_guid: self.type_guid.to_bytes(),
            image_index: self.image_index,
            hardware_instance: self.hardware_instance,
            image_length: count(self.image),
            vendor_code_length: count(self.vendor_code),
            ..PayloadEntry::default()
        }
    }
}

/// How many bytes there are, as tables tell it.
#[cfg(feature = "alloc")]
fn count(bytes: &[u8]) -> u64 {
    bytes.len() as u64
}

#[cfg(feature = "alloc")]
fn longest<'a>(parts: impl Iterator<Item = &'a [u8]>) -> &'a [u8] {
    parts.max_by_key(|part| part.len()).unwrap_or_default()
}

/// Copies a part behind the others, and answers where it starts.
#[cfg(feature = "alloc")]
fn append(parts: &mut Vec<u8>, part: &[u8]) -> u64 {
    let start = count(parts);
    parts.extend_from_slice(part);
    start
}

/// Lengths in place of bytes.
#[cfg(feature = "alloc")]
impl fmt::Debug for Payload<'_> {
    fn fmt(&self, f: &mut fmt::Formatter<'_>) -> fmt::Result {
        let mut shown = f.debug_struct("Payload");
        shown.field("version", &self.version);
        shown.field("type_guid", &self.type_guid);
        shown.field("image_index", &self.image_index);
        shown.field("hardware_instance", &self.hardware_instance);
        shown.field("image_length", &self.image.len());
        shown.field("vendor_code_length", &self.vendor_code.len());
        shown.finish_non_exhaustive()
    }
}

#[cfg(test)]
mod tests {
    use super::*;
    use crate::header;
    use crate::{DRIVER_ENTRY_BYTES, PAYLOAD_ENTRY_BYTES};
    use std::string::ToString;
    use std::vec::Vec;

    /// Each flag has the bit that the header names.
    #[test]
    fn flags_are_those_of_the_header() {
        let named = |name: &str, flags: CapsuleFlags| (name.to_string(), flags.bits());
        let persist = named("MEANDERPEG_FLAG_PERSIST", CapsuleFlags::PERSIST);
        let populate = named("MEANDERPEG_FLAG_POPULATE", CapsuleFlags::POPULATE);
        let reset = named("MEANDERPEG_FLAG_RESET", CapsuleFlags::RESET);
        assert_eq!(header::enumerators("meanderpeg_capsule_flag"), [persist, populate, reset]);
        assert_eq!(CapsuleFlags::NONE, CapsuleFlags::default());
    }

    /// The tables by their bytes have each field at the place that C27 tells.
    #[test]
    fn entries_by_their_bytes() {
        let numbers = |range: core::ops::Range<u8>| u64::from_le_bytes(range.collect::<Vec<_>>().try_into().unwrap());
        let driver = DriverEntry { start: numbers(0..8), length: numbers(8..16) };
        assert_eq!(raw::driver_table_of(&[driver]), (0..DRIVER_ENTRY_BYTES as u8).collect::<Vec<_>>());
        assert_eq!(raw::driver_table_of(&[driver; 3]).len(), 3 * DRIVER_ENTRY_BYTES);
        let payload = PayloadEntry {
            version: u32::from_le_bytes([0, 1, 2, 3]),
            type_guid: core::array::from_fn(|i| 4 + i as u8),
            image_index: 20,
            unused: [21, 22, 23],
            hardware_instance: numbers(24..32),
            image_start: numbers(32..40),
            image_length: numbers(40..48),
            vendor_code_start: numbers(48..56),
            vendor_code_length: numbers(56..64),
        };
        assert_eq!(raw::payload_table_of(&[payload]), (0..PAYLOAD_ENTRY_BYTES as u8).collect::<Vec<_>>());
        assert_eq!(raw::payload_table_of(&[payload; 3]).len(), 3 * PAYLOAD_ENTRY_BYTES);
        assert!(raw::driver_table_of(&[]).is_empty() && raw::payload_table_of(&[]).is_empty());
    }
}

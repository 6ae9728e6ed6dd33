//! Capsules: the check of a whole capsule, and its parts (rules C).

use crate::{raw, Guid, Refusal};
use core::fmt;

/// A capsule that has been checked whole, and whose items can be had (C22).
///
/// Its bytes are lent, so nobody alters them meanwhile, and every item of it is there.
#[derive(Clone, Copy, PartialEq, Eq)]
pub struct Capsule<'a> {
    bytes: &'a [u8],
    drivers: usize,
    payloads: usize,
}

/// Whether an item is a driver or a payload.
#[derive(Clone, Copy, PartialEq, Eq, Hash, Debug)]
pub enum ItemKind {
    /// A driver: its image is the whole item, its vendor code is empty, and type GUID, image index and hardware
    /// instance are 0 (C19 to C21).
    Driver,
    /// A payload: an image for a piece of the firmware, with what tells which one.
    Payload,
}

/// One item of a capsule, a driver or a payload. Its parts are those of the capsule itself; nothing is copied (C17).
#[derive(Clone, Copy, PartialEq, Eq)]
pub struct Item<'a> {
    number: usize,
    kind: ItemKind,
    bytes: &'a [u8],
    image: &'a [u8],
    vendor_code: &'a [u8],
    type_guid: Guid,
    image_index: u8,
    hardware_instance: u64,
}

impl<'a> Capsule<'a> {
    /// Checks a whole capsule: header, body and every item (C1 to C16). Refusals 10 to 15, the lowest that applies.
    /// What it costs does not grow with the images' size.
    ///
    /// It looks at the form alone: a signature is for the caller to verify, before
    /// [`Session::commit`](crate::Session::commit).
    ///
    /// ```
    /// use meanderpeg::{Capsule, Guid, Refusal};
    ///
    /// // A header of 28 bytes, a body of 16 with one offset, and one payload: 32 bytes and its image.
    /// let guid: Guid = "6dcbd5ed-e82d-4c44-bda1-7194199ad92a".parse()?;
    /// let mut bytes = [0; 28 + 16 + 32 + 5];
    /// bytes[..16].copy_from_slice(guid.as_bytes());
    /// for (at, number) in [(16, 28u32), (24, 81), (28, 1), (32, 1 << 16), (36, 16), (44, 1), (68, 5)] {
    ///     bytes[at..at + 4].copy_from_slice(&number.to_le_bytes());
    /// }
    /// bytes[76..].copy_from_slice(b"image");
    ///
    /// let capsule = Capsule::check(&bytes)?;
    /// assert_eq!((capsule.drivers(), capsule.payloads()), (0, 1));
    /// assert_eq!(capsule.item(0)?.image(), b"image");
    /// assert_eq!(capsule.item(1), Err(Refusal::NoItem));
    /// assert_eq!(Capsule::check(&bytes[..80]), Err(Refusal::CapsuleSizes));
    /// # Ok::<(), Box<dyn std::error::Error>>(())
    /// ```
    pub fn check(bytes: &'a [u8]) -> Result<Capsule<'a>, Refusal> {
        let mut counts = raw::Counts { drivers: 0, payloads: 0 };
        Refusal::of(raw::capsule_check(bytes, &mut counts), 0)?;
        Ok(Capsule { bytes, drivers: counts.drivers, payloads: counts.payloads })
    }

    /// The bytes of the whole capsule, as they were given.
    pub fn bytes(&self) -> &'a [u8] {
        self.bytes
    }

    /// How many drivers there are: the items 0 and on.
    pub fn drivers(&self) -> usize {
        self.drivers
    }

    /// How many payloads there are: the items behind the drivers.
    pub fn payloads(&self) -> usize {
        self.payloads
    }

    /// How many items there are, drivers and payloads: 0 to 64 (C9).
    pub fn count(&self) -> usize {
        self.drivers.saturating_add(self.payloads)
    }

    /// The item of that number, counted from 0, drivers first (C13). Refusal 16.
    pub fn item(&self, number: usize) -> Result<Item<'a>, Refusal> {
        let kind = if number < self.drivers { ItemKind::Driver } else { ItemKind::Payload };
        let (mut guid, mut image_index, mut hardware_instance) = ([0; 16], 0, 0);
        let item = self.part(number, raw::capsule_item)?;
        let image = self.part(number, raw::capsule_image)?;
        let vendor_code = self.part(number, raw::capsule_vendor_code)?;
        Refusal::of(raw::capsule_type_guid(self.bytes, number, &mut guid), 0)?;
        Refusal::of(raw::capsule_image_index(self.bytes, number, &mut image_index), 0)?;
        Refusal::of(raw::capsule_hardware_instance(self.bytes, number, &mut hardware_instance), 0)?;
        let type_guid = Guid::from_bytes(guid);
        Ok(Item { number, kind, bytes: item, image, vendor_code, type_guid, image_index, hardware_instance })
    }

    /// All items in order. Each is `Ok`, since the capsule has been checked.
    pub fn items(&self) -> impl Iterator<Item = Result<Item<'a>, Refusal>> + use<'a> {
        let capsule = *self;
        (0..capsule.count()).map(move |number| capsule.item(number))
    }

    /// The bytes of a part that one of the library's functions tells the place of.
    fn part(&self, number: usize, place: fn(&[u8], usize, &mut raw::Part) -> u32) -> Result<&'a [u8], Refusal> {
        let mut part = raw::Part { start: 0, length: 0 };
        Refusal::of(place(self.bytes, number, &mut part), 0)?;
        let end = part.start.checked_add(part.length).ok_or(Refusal::Unknown(0))?;
        self.bytes.get(part.start..end).ok_or(Refusal::Unknown(0))
    }
}

impl<'a> Item<'a> {
    /// The item's number in its capsule, counted from 0.
    pub fn number(&self) -> usize {
        self.number
    }

    /// Driver or payload.
    pub fn kind(&self) -> ItemKind {
        self.kind
    }

    /// The whole item, with its header if it is a payload (C18).
    pub fn bytes(&self) -> &'a [u8] {
        self.bytes
    }

    /// A payload's image; a driver's is its whole item (C19).
    pub fn image(&self) -> &'a [u8] {
        self.image
    }

    /// A payload's vendor code, which may be empty; a driver's is the empty part at its item's end (C20).
    pub fn vendor_code(&self) -> &'a [u8] {
        self.vendor_code
    }

    /// A payload's type GUID, which tells what piece of firmware the image is for; zeros for a driver (C21).
    pub fn type_guid(&self) -> Guid {
        self.type_guid
    }

    /// A payload's image index; 0 for a driver (C21).
    pub fn image_index(&self) -> u8 {
        self.image_index
    }

    /// A payload's hardware instance; 0 for a driver and for a payload of version 1, which has none (C21).
    pub fn hardware_instance(&self) -> u64 {
        self.hardware_instance
    }
}

/// Lengths in place of bytes, of which there may be millions.
impl fmt::Debug for Capsule<'_> {
    fn fmt(&self, f: &mut fmt::Formatter<'_>) -> fmt::Result {
        let mut shown = f.debug_struct("Capsule");
        shown.field("length", &self.bytes.len());
        shown.field("drivers", &self.drivers);
        shown.field("payloads", &self.payloads);
        shown.finish_non_exhaustive()
    }
}

/// Lengths in place of bytes.
impl fmt::Debug for Item<'_> {
    fn fmt(&self, f: &mut fmt::Formatter<'_>) -> fmt::Result {
        let mut shown = f.debug_struct("Item");
        shown.field("number", &self.number);
        shown.field("kind", &self.kind);
        shown.field("length", &self.bytes.len());
        shown.field("image_length", &self.image.len());
        shown.field("vendor_code_length", &self.vendor_code.len());
        shown.field("type_guid", &self.type_guid);
        shown.field("image_index", &self.image_index);
        shown.field("hardware_instance", &self.hardware_instance);
        shown.finish_non_exhaustive()
    }
}

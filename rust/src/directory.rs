//! The image directory: what is installed, written for a client and read by one (rules I).

use crate::{raw, BankIndex, Guid, Refusal};
use core::fmt;
use core::ops::BitOr;

/// What a client may do with an image: bits, which `|` adds up. Bits 31 to 3 mean nothing and must be zero (I4).
///
/// ```
/// use meanderpeg::Permissions;
///
/// let permissions = Permissions::WRITE | Permissions::ACTIVATE_FIRST;
/// assert!(permissions.contains(Permissions::WRITE) && !permissions.contains(Permissions::READ));
/// assert_eq!(permissions.bits(), 5);
/// ```
#[derive(Clone, Copy, PartialEq, Eq, Hash, Debug, Default)]
#[repr(transparent)]
pub struct Permissions(u32);

impl Permissions {
    /// No bit: the client may neither write nor read the image, and it can be accepted at any point of the trial.
    pub const NONE: Permissions = Permissions(0);
    /// Bit 0: the client may write the image.
    pub const WRITE: Permissions = Permissions(1);
    /// Bit 1: the client may read the image.
    pub const READ: Permissions = Permissions(2);
    /// Bit 2: the image must be activated before it can be accepted.
    pub const ACTIVATE_FIRST: Permissions = Permissions(4);

    /// The permissions of a number. Whether its bits 31 to 3 are zero is seen where it is used: the writer refuses
    /// others by 41.
    pub const fn from_bits(bits: u32) -> Permissions {
        Permissions(bits)
    }

    /// The number.
    pub const fn bits(self) -> u32 {
        self.0
    }

    /// Whether all bits of the other are among these.
    pub const fn contains(self, other: Permissions) -> bool {
        self.0 & other.0 == other.0
    }
}

impl BitOr for Permissions {
    type Output = Permissions;

    fn bitor(self, other: Permissions) -> Permissions {
        Permissions(self.0 | other.0)
    }
}

/// What the record does not tell of an image, and the caller of [`write_directory`] does: four words, in the order in
/// which an entry has them (I6).
#[derive(Clone, Copy, PartialEq, Eq, Hash, Debug, Default)]
#[repr(C)]
pub struct ImageWords {
    /// What the client may do with it.
    pub permissions: Permissions,
    /// How many bytes an image that is installed can have.
    pub maximum_size: u32,
    /// The lowest version that may run on the device.
    pub lowest_accepted_version: u32,
    /// Its version in the bank that booted.
    pub version: u32,
}

/// Writes the directory of what is installed at the front of `room`, and hands out the bytes written, 24 and 40 for
/// each image. Every byte of `room` past them stays (I8). [`DIRECTORY_BYTES`](crate::DIRECTORY_BYTES) are always
/// enough.
///
/// It tells of the images of the record read, in the record's order, `words` being those of image 0 and on; words past
/// the last image's are not looked at. Accepted flags are those of the bank that booted, and
/// [`correct_boot`](Directory::correct_boot) is false exactly where [`start_up`](crate::start_up) gives Fallback (I5 to
/// I7). It needs one sound copy of the record, and what it writes is for the record as it is now.
///
/// Refusals 20, 21 and 28 as start-up gives them, then 40 for too few words, 41 for permissions with another bit than
/// the three, 42 for too short a room.
///
/// ```
/// use meanderpeg::{write_directory, BankIndex, Directory, ImageWords, Permissions, DIRECTORY_BYTES};
/// # fn f(area: &[u8], booted: BankIndex) -> Result<(), meanderpeg::Refusal> {
///
/// // The one image of a device: its client may write and read it, in at most 1 MiB; version 5, and none below 2.
/// let permissions = Permissions::WRITE | Permissions::READ;
/// let words = ImageWords { permissions, maximum_size: 1 << 20, lowest_accepted_version: 2, version: 5 };
/// let mut room = [0; DIRECTORY_BYTES];
/// let written = write_directory(area, booted, &[words], &mut room)?;
///
/// // And at the client, who got these bytes and no others:
/// let directory = Directory::read(written)?;
/// assert_eq!(directory.images(), 1);
/// assert_eq!(directory.entry(0).map(|entry| entry.version()), Some(5));
/// # Ok(()) }
/// # let crc = [(0, 0x0e), (1, 0x56), (2, 0x9a), (3, 0xc2)];
/// # let header = [(4, 2), (12, 1), (16, 120), (20, 32), (24, 252), (25, 252), (26, 255), (27, 255)];
/// # let images = [(32, 2), (34, 1), (36, 80), (38, 24), (88, 1), (112, 1)];
/// # let guid: meanderpeg::Guid = "a0a1a2a3-a4a5-a6a7-a8a9-aaabacadaeaf".parse().unwrap();
/// # let mut area = [0; meanderpeg::AREA_BYTES];
/// # crc.iter().chain(&header).chain(&images).for_each(|&(at, byte)| area[at] = byte);
/// # area[40..56].copy_from_slice(guid.as_bytes());
/// # f(&area, BankIndex::new(0)).unwrap();
/// ```
pub fn write_directory<'r>(
    area: &[u8],
    booted: BankIndex,
    words: &[ImageWords],
    room: &'r mut [u8],
) -> Result<&'r [u8], Refusal> {
    let mut length = 0;
    let number = raw::directory_write(area, booted.number(), raw::words_of(words), room, &mut length);
    Refusal::of(number, 0)?;
    room.get(..length).ok_or(Refusal::Unknown(0))
}

/// A directory that has been read whole, and whose entries can be had (I10).
///
/// Its bytes are lent, so nobody alters them meanwhile, and every entry of it is there.
#[derive(Clone, Copy, PartialEq, Eq)]
pub struct Directory<'a> {
    bytes: &'a [u8],
    images: usize,
    correct_boot: bool,
}

/// One entry of a directory: an image of the device, as it is in the bank that booted.
#[derive(Clone, Copy, PartialEq, Eq, Debug)]
pub struct Entry<'a> {
    number: usize,
    guid_bytes: &'a [u8; 16],
    words: ImageWords,
    accepted: bool,
}

impl<'a> Directory<'a> {
    /// Reads a whole directory: header, length and every entry (I9). `bytes` are those that were written and no more:
    /// a longer slice is refused by 45. Refusals 43 to 46, the first that applies.
    pub fn read(bytes: &'a [u8]) -> Result<Directory<'a>, Refusal> {
        let mut shown = raw::Directory { images: 0, correct_boot: 0 };
        Refusal::of(raw::directory_check(bytes, &mut shown), 0)?;
        let images = usize::try_from(shown.images).map_err(|_| Refusal::Unknown(0))?;
        Ok(Directory { bytes, images, correct_boot: shown.correct_boot == 1 })
    }

    /// The bytes of the whole directory, as they were given.
    pub fn bytes(&self) -> &'a [u8] {
        self.bytes
    }

    /// How many images it tells of, each in an entry: 1 to 32.
    pub fn images(&self) -> usize {
        self.images
    }

    /// Whether the device booted with the active bank. If not, the directory tells of the bank that it fell back to.
    pub fn correct_boot(&self) -> bool {
        self.correct_boot
    }

    /// The entry of that number, counted from 0; none at or past the image count.
    pub fn entry(&self, number: usize) -> Option<Entry<'a>> {
        if number >= self.images {
            return None;
        }
        let mut part = raw::Part { start: 0, length: 0 };
        let mut numbers = raw::DirectoryEntry {
            permissions: 0,
            maximum_size: 0,
            lowest_accepted_version: 0,
            version: 0,
            accepted: 0,
        };
        Refusal::of(raw::directory_type_guid(self.bytes, number, &mut part), 0).ok()?;
        Refusal::of(raw::directory_numbers(self.bytes, number, &mut numbers), 0).ok()?;
        let guid_bytes = self.bytes.get(part.start..part.start.checked_add(part.length)?)?.try_into().ok()?;
        let words = ImageWords {
            permissions: Permissions(numbers.permissions),
            maximum_size: numbers.maximum_size,
            lowest_accepted_version: numbers.lowest_accepted_version,
            version: numbers.version,
        };
        Some(Entry { number, guid_bytes, words, accepted: numbers.accepted == 1 })
    }

    /// All entries in order, as many as [`images`](Directory::images) tells.
    pub fn entries(&self) -> impl Iterator<Item = Entry<'a>> + use<'a> {
        let directory = *self;
        (0..directory.images).filter_map(move |number| directory.entry(number))
    }
}

impl<'a> Entry<'a> {
    /// The entry's number in its directory, counted from 0: that of the image in the record.
    pub fn number(&self) -> usize {
        self.number
    }

    /// Which image it is: the type GUID that [`Session::commit`](crate::Session::commit) takes.
    pub fn type_guid(&self) -> Guid {
        Guid::from_bytes(*self.guid_bytes)
    }

    /// The type GUID where it lies in the directory; nothing is copied.
    pub fn type_guid_bytes(&self) -> &'a [u8; 16] {
        self.guid_bytes
    }

    /// The four words that the writer's caller gave for this image.
    pub fn words(&self) -> ImageWords {
        self.words
    }

    /// What the client may do with it; no other bit than the three of [`Permissions`] is set.
    pub fn permissions(&self) -> Permissions {
        self.words.permissions
    }

    /// How many bytes an image that is installed can have.
    pub fn maximum_size(&self) -> u32 {
        self.words.maximum_size
    }

    /// The lowest version that may run on the device.
    pub fn lowest_accepted_version(&self) -> u32 {
        self.words.lowest_accepted_version
    }

    /// Its version in the bank that booted.
    pub fn version(&self) -> u32 {
        self.words.version
    }

    /// Whether it is accepted in the bank that booted.
    pub fn accepted(&self) -> bool {
        self.accepted
    }
}

/// The length in place of the bytes.
impl fmt::Debug for Directory<'_> {
    fn fmt(&self, f: &mut fmt::Formatter<'_>) -> fmt::Result {
        let mut shown = f.debug_struct("Directory");
        shown.field("length", &self.bytes.len());
        shown.field("images", &self.images);
        shown.field("correct_boot", &self.correct_boot);
        shown.finish_non_exhaustive()
    }
}

#[cfg(test)]
mod tests {
    use super::*;
    use crate::header;
    use std::string::ToString;

    /// Each permission has the bit that the header names.
    #[test]
    fn permissions_are_those_of_the_header() {
        let named = |name: &str, permissions: Permissions| (name.to_string(), permissions.bits());
        let write = named("MEANDERPEG_PERMISSION_WRITE", Permissions::WRITE);
        let read = named("MEANDERPEG_PERMISSION_READ", Permissions::READ);
        let first = named("MEANDERPEG_PERMISSION_ACTIVATE_FIRST", Permissions::ACTIVATE_FIRST);
        assert_eq!(header::enumerators("meanderpeg_permission"), [write, read, first]);
        assert_eq!(Permissions::NONE, Permissions::default());
    }

    /// The words of images are their numbers in order.
    #[test]
    fn words_in_a_slice() {
        let image = |first| ImageWords {
            permissions: Permissions::from_bits(first),
            maximum_size: first + 1,
            lowest_accepted_version: first + 2,
            version: first + 3,
        };
        assert_eq!(raw::words_of(&[]), []);
        assert_eq!(raw::words_of(&[image(1), image(5)]), [1, 2, 3, 4, 5, 6, 7, 8]);
    }
}

//! Every refusal with its number and its words.

use core::fmt;

/// Why a call was refused. It altered nothing that was lent to it (N105).
///
/// Each case starts with its number; the rule of docs/RULES.md is N and the same number. Later versions add cases, so a
/// `match` needs a last arm for all others.
#[derive(Clone, Copy, PartialEq, Eq, Hash, Debug)]
#[non_exhaustive]
pub enum Refusal {
    /// 1: the window would end above 2^64.
    WindowEnd,
    /// 2: the list has a 257th descriptor.
    DescriptorCount,
    /// 3: a descriptor's address is no multiple of 8, or not all its 16 bytes lie in the window.
    DescriptorAddress,
    /// 4: a block does not lie wholly in the window.
    BlockOutside,
    /// 5: the blocks have more than 16,777,216 bytes together.
    TotalLength,
    /// 6: the blocks have no byte.
    TotalZero,
    /// 7: no place of the window is free for the blocks together.
    NoPlace,
    /// 10: the capsule has less than 28 bytes.
    CapsuleShort,
    /// 11: the header's size or the capsule's, as the header tells them, can't be.
    CapsuleSizes,
    /// 12: the flag for a reset stands without the one for persistence.
    CapsuleFlags,
    /// 13: the capsule's GUID isn't that of firmware management.
    CapsuleGuid,
    /// 14: the body is below 8 bytes, or its version, its counts or an offset can't be.
    CapsuleBody,
    /// 15: a payload has another version than 1 and 2, or doesn't fit in its item.
    CapsulePayload,
    /// 16: the capsule has no item of that number.
    NoItem,
    /// 20: the area isn't 16,384 bytes long.
    AreaLength,
    /// 21: neither copy of the record is sound.
    NoSoundCopy,
    /// 22: the copies aren't both sound and equal. [`repair`](crate::repair) makes them so. If all stores of all calls
    /// so far were done, the session handed back still holds; if one was not, it may be older than the record, and
    /// [`start_up`](crate::start_up) gives the one to go on with.
    NotSoundAndEqual,
    /// 23: the slice for stores has less than 4,200 numbers.
    StoreSlice,
    /// 24: a Staging session names another bank than the update bank, or one that isn't invalid, or an image that isn't
    /// there.
    StagingFault,
    /// 25: the call isn't for a session in this state, or the previous bank isn't accepted.
    SessionState,
    /// 26: no image has that type GUID.
    NoImage,
    /// 27: so many images have not been committed.
    ImagesMissing(u32),
    /// 28: the record has no bank of the booted one's number.
    BootedBank,
    /// 40: the record has more images than there are [`ImageWords`](crate::ImageWords).
    DirectoryWords,
    /// 41: the permissions given for one of the record's images have one of bits 31 to 3.
    DirectoryPermissions,
    /// 42: the room has less bytes than the directory, 24 and 40 for each image.
    DirectoryRoom,
    /// 43: the directory has less than 24 bytes.
    DirectoryShort,
    /// 44: the header isn't that of a directory of version 2 with 1 to 32 images.
    DirectoryHeader,
    /// 45: the directory's length isn't that of its header and entries: also where there is a byte more.
    DirectoryLength,
    /// 46: an entry's permissions, accepted flag or reserved field can't be, or two entries have the same type GUID.
    DirectoryEntries,
    /// 50: there are more than 64 drivers and payloads to pack.
    PackItems,
    /// 51: a part to pack runs past the end of its slice.
    PackPart,
    /// 52: a driver to pack is empty.
    PackEmptyDriver,
    /// 53: the version of a payload to pack is neither 1 nor 2.
    PackVersion,
    /// 54: a payload to pack has version 1, which has no hardware instance, and one that isn't 0.
    PackInstance,
    /// 55: the flags to pack are such as the reader refuses by 12.
    PackFlags,
    /// 56: the capsule to pack would have more than 4,294,967,295 bytes.
    PackSize,
    /// 57: the room has less bytes than the capsule to pack.
    PackRoom,
    /// A number that has no name in this version of the package, as an archive of another version may answer; 0 if that
    /// archive refused nothing, but what it answered can't be.
    Unknown(u32),
}

/// Each number with its case and its words, which are those of `meanderpeg_refusal_text` in C. 27's count is put in by
/// `of`.
const TABLE: [(u32, Refusal, &str); 38] = [
    (1, Refusal::WindowEnd, "the window ends above 2^64"),
    (2, Refusal::DescriptorCount, "the list has more than 256 descriptors"),
    (3, Refusal::DescriptorAddress, "a descriptor is not at a multiple of 8 or not wholly in the window"),
    (4, Refusal::BlockOutside, "a block is not wholly in the window"),
    (5, Refusal::TotalLength, "the blocks have more than 16,777,216 bytes in all"),
    (6, Refusal::TotalZero, "the list has no block"),
    (7, Refusal::NoPlace, "the window has no free place for the bytes of all blocks"),
    (10, Refusal::CapsuleShort, "the capsule is shorter than 28 bytes"),
    (11, Refusal::CapsuleSizes, "the capsule's HeaderSize or CapsuleImageSize is at fault"),
    (12, Refusal::CapsuleFlags, "the capsule's flags ask for a reset but not to persist across it"),
    (13, Refusal::CapsuleGuid, "the capsule's GUID is not that of a firmware management capsule"),
    (14, Refusal::CapsuleBody, "the capsule's body is at fault: its length, version, counts or offsets"),
    (15, Refusal::CapsulePayload, "a payload of the capsule is at fault: its version or sizes"),
    (16, Refusal::NoItem, "the capsule has no item of that number"),
    (20, Refusal::AreaLength, "the area is not 16,384 bytes long"),
    (21, Refusal::NoSoundCopy, "no copy of the record is sound"),
    (22, Refusal::NotSoundAndEqual, "the copies of the record are not both sound and equal: repair first"),
    (23, Refusal::StoreSlice, "the slice for stores is shorter than 4,200 numbers"),
    (24, Refusal::StagingFault, "the Staging session does not fit the record"),
    (25, Refusal::SessionState, "the call is not for this session, or the previous bank is not accepted"),
    (26, Refusal::NoImage, "the record has no image of that type GUID"),
    (27, Refusal::ImagesMissing(0), "not every image has been committed"),
    (28, Refusal::BootedBank, "the record has no bank of the number that was started"),
    (40, Refusal::DirectoryWords, "there are fewer than four words for each image of the record"),
    (41, Refusal::DirectoryPermissions, "permissions of an image have one of bits 31 to 3"),
    (42, Refusal::DirectoryRoom, "the room is too short for the directory"),
    (43, Refusal::DirectoryShort, "the directory is shorter than 24 bytes"),
    (44, Refusal::DirectoryHeader, "a field of the directory's header is at fault"),
    (45, Refusal::DirectoryLength, "the directory's length is not that of its header and entries"),
    (46, Refusal::DirectoryEntries, "an entry of the directory is at fault, or two have one type GUID"),
    (50, Refusal::PackItems, "there are more than 64 drivers and payloads to pack"),
    (51, Refusal::PackPart, "a part to pack runs past the end of its slice"),
    (52, Refusal::PackEmptyDriver, "a driver to pack is empty"),
    (53, Refusal::PackVersion, "the version of a payload to pack is neither 1 nor 2"),
    (54, Refusal::PackInstance, "a payload to pack has version 1 and a hardware instance other than 0"),
    (55, Refusal::PackFlags, "the flags to pack ask for a reset but not to persist across it"),
    (56, Refusal::PackSize, "the capsule to pack would have more than 4,294,967,295 bytes"),
    (57, Refusal::PackRoom, "the room is too short for the capsule to pack"),
];

impl Refusal {
    /// The number, as the rules and C have it (N104).
    pub fn number(self) -> u32 {
        match self {
            Refusal::Unknown(number) => number,
            named => named.entry().map_or(0, |entry| entry.0),
        }
    }

    /// The refusal in words: what `meanderpeg_refusal_text` says in C.
    pub fn text(self) -> &'static str {
        self.entry().map_or("no such refusal", |entry| entry.2)
    }

    fn entry(self) -> Option<&'static (u32, Refusal, &'static str)> {
        let without_count = match self {
            Refusal::ImagesMissing(_) => Refusal::ImagesMissing(0),
            other => other,
        };
        TABLE.iter().find(|entry| entry.1 == without_count)
    }

    /// Takes what the library answered, `told` being what it told beside the number; `Ok` for 0.
    pub(crate) fn of(number: u32, told: u32) -> Result<(), Refusal> {
        if number == 0 {
            return Ok(());
        }
        Err(match TABLE.iter().find(|entry| entry.0 == number) {
            None => Refusal::Unknown(number),
            Some((_, Refusal::ImagesMissing(_), _)) => Refusal::ImagesMissing(told),
            Some((_, refusal, _)) => *refusal,
        })
    }
}

impl fmt::Display for Refusal {
    fn fmt(&self, f: &mut fmt::Formatter<'_>) -> fmt::Result {
        match self {
            Refusal::ImagesMissing(count) => write!(f, "{} ({count} missing)", self.text()),
            Refusal::Unknown(number) => write!(f, "{} ({number})", self.text()),
            _ => f.write_str(self.text()),
        }
    }
}

impl core::error::Error for Refusal {}

#[cfg(test)]
mod tests {
    use super::*;
    use crate::header;
    use std::format;
    use std::string::{String, ToString};

    /// The name of a case as C has it: `WindowEnd` is `MEANDERPEG_WINDOW_END`.
    fn c_name(refusal: Refusal) -> String {
        let name = format!("{refusal:?}");
        let letters = name.split('(').next().unwrap().chars();
        letters.fold("MEANDERPEG".to_string(), |name, letter| match letter.is_uppercase() {
            true => name + "_" + &letter.to_string(),
            false => name + &letter.to_uppercase().to_string(),
        })
    }

    /// Every number, name and text of the header, and no other.
    #[test]
    fn the_table_is_the_headers() {
        let cases: std::vec::Vec<_> = header::enumerators("meanderpeg_refusal").into_iter().skip(1).collect();
        let ours = TABLE.iter().map(|&(number, refusal, _)| (c_name(refusal), number));
        assert_eq!(ours.collect::<std::vec::Vec<_>>(), cases);
        let text = |name: &str| header::after(&format!("case {name}: return \"")).split('"').next().unwrap();
        for (_, refusal, words) in TABLE {
            assert_eq!(text(&c_name(refusal)), words);
        }
        let default = header::after("default: return \"").split('"').next().unwrap();
        assert_eq!(Refusal::Unknown(9).text(), default);
    }

    /// From number to case and back, for every number up to 100, and what is told is carried by 27 alone.
    #[test]
    fn numbers_and_cases() {
        for number in 0..100 {
            let refusal = Refusal::of(number, 5);
            assert_eq!(refusal.err().map_or(0, Refusal::number), number);
            let known = TABLE.iter().any(|entry| entry.0 == number);
            assert_eq!(matches!(refusal, Err(Refusal::Unknown(_))), number != 0 && !known, "{number}");
            assert_eq!(refusal == Err(Refusal::ImagesMissing(5)), number == 27);
        }
        assert_eq!(Refusal::of(u32::MAX, 0), Err(Refusal::Unknown(u32::MAX)));
        assert_eq!(Refusal::NoPlace.to_string(), Refusal::NoPlace.text());
        assert_eq!(Refusal::ImagesMissing(3).to_string(), "not every image has been committed (3 missing)");
        assert_eq!(Refusal::Unknown(99).to_string(), "no such refusal (99)");
    }
}

//! GUIDs: 16 bytes, and their text.

use core::fmt;
use core::str::FromStr;

/// A GUID as it lies in memory; two are the same if their 16 bytes are (N101).
///
/// As text it has UEFI's form, in which the first three groups are little-endian numbers:
///
/// ```
/// use meanderpeg::Guid;
///
/// let guid: Guid = "6dcbd5ed-e82d-4c44-bda1-7194199ad92a".parse()?;
/// assert_eq!(guid.to_bytes()[..4], [0xed, 0xd5, 0xcb, 0x6d]);
/// assert_eq!(guid.to_string(), "6dcbd5ed-e82d-4c44-bda1-7194199ad92a");
/// # Ok::<(), meanderpeg::GuidTextFault>(())
/// ```
#[derive(Clone, Copy, PartialEq, Eq, PartialOrd, Ord, Hash, Default)]
pub struct Guid([u8; 16]);

/// A text is no GUID: not 32 hexadecimal digits in groups of 8, 4, 4, 4 and 12 with a hyphen between each two.
#[derive(Clone, Copy, PartialEq, Eq, Debug)]
pub struct GuidTextFault(());

/// Which byte the digits of each place in the text belong to.
const PLACES: [usize; 16] = [3, 2, 1, 0, 5, 4, 7, 6, 8, 9, 10, 11, 12, 13, 14, 15];

impl Guid {
    /// The GUID of 16 bytes in the order in which they lie in memory.
    pub const fn from_bytes(bytes: [u8; 16]) -> Guid {
        Guid(bytes)
    }

    /// The GUID of the four fields that UEFI's `EFI_GUID` has.
    pub const fn from_fields(data_1: u32, data_2: u16, data_3: u16, data_4: [u8; 8]) -> Guid {
        let ([a, b, c, d], [e, f], [g, h]) = (data_1.to_le_bytes(), data_2.to_le_bytes(), data_3.to_le_bytes());
        let [i, j, k, l, m, n, o, p] = data_4;
        Guid([a, b, c, d, e, f, g, h, i, j, k, l, m, n, o, p])
    }

    /// The 16 bytes in the order in which they lie in memory.
    pub const fn to_bytes(self) -> [u8; 16] {
        self.0
    }

    /// The 16 bytes in the order in which they lie in memory.
    pub const fn as_bytes(&self) -> &[u8; 16] {
        &self.0
    }
}

impl From<[u8; 16]> for Guid {
    fn from(bytes: [u8; 16]) -> Guid {
        Guid(bytes)
    }
}

impl From<Guid> for [u8; 16] {
    fn from(guid: Guid) -> [u8; 16] {
        guid.0
    }
}

impl fmt::Display for Guid {
    fn fmt(&self, f: &mut fmt::Formatter<'_>) -> fmt::Result {
        for (place, &byte) in PLACES.iter().enumerate() {
            if matches!(place, 4 | 6 | 8 | 10) {
                f.write_str("-")?;
            }
            let byte = self.0.get(byte).copied().unwrap_or_default();
            write!(f, "{byte:02x}")?;
        }
        Ok(())
    }
}

impl fmt::Debug for Guid {
    fn fmt(&self, f: &mut fmt::Formatter<'_>) -> fmt::Result {
        write!(f, "Guid({self})")
    }
}

impl FromStr for Guid {
    type Err = GuidTextFault;

    /// Digits of either case; no braces and no spaces.
    fn from_str(text: &str) -> Result<Guid, GuidTextFault> {
        let mut characters = text.bytes();
        let mut guid = [0; 16];
        for (place, &at) in PLACES.iter().enumerate() {
            if matches!(place, 4 | 6 | 8 | 10) && characters.next() != Some(b'-') {
                return Err(GuidTextFault(()));
            }
            let byte = guid.get_mut(at).ok_or(GuidTextFault(()))?;
            *byte = (digit(characters.next())? << 4) | digit(characters.next())?;
        }
        match characters.next() {
            None => Ok(Guid(guid)),
            Some(_) => Err(GuidTextFault(())),
        }
    }
}

/// The value of a hexadecimal digit.
fn digit(character: Option<u8>) -> Result<u8, GuidTextFault> {
    let value = character.and_then(|byte| char::from(byte).to_digit(16));
    value.and_then(|value| u8::try_from(value).ok()).ok_or(GuidTextFault(()))
}

impl fmt::Display for GuidTextFault {
    fn fmt(&self, f: &mut fmt::Formatter<'_>) -> fmt::Result {
        f.write_str("no GUID: 32 hexadecimal digits in groups of 8, 4, 4, 4 and 12 are wanted, parted by hyphens")
    }
}

impl core::error::Error for GuidTextFault {}

#[cfg(test)]
mod tests {
    use super::*;
    use std::string::ToString;

    const TEXT: &str = "6dcbd5ed-e82d-4c44-bda1-7194199ad92a";
    const BYTES: [u8; 16] =
        [0xed, 0xd5, 0xcb, 0x6d, 0x2d, 0xe8, 0x44, 0x4c, 0xbd, 0xa1, 0x71, 0x94, 0x19, 0x9a, 0xd9, 0x2a];

    #[test]
    fn text_and_back() {
        assert_eq!(TEXT.parse(), Ok(Guid(BYTES)));
        assert_eq!(TEXT.to_uppercase().parse(), Ok(Guid(BYTES)));
        assert_eq!(Guid(BYTES).to_string(), TEXT);
        let fields = Guid::from_fields(0x6dcbd5ed, 0xe82d, 0x4c44, [0xbd, 0xa1, 0x71, 0x94, 0x19, 0x9a, 0xd9, 0x2a]);
        assert_eq!(fields, Guid(BYTES));
        for i in 0..16 {
            let mut bytes = [0; 16];
            bytes[i] = 0xa7;
            assert_eq!(Guid(bytes).to_string().parse(), Ok(Guid(bytes)), "byte {i}");
        }
    }

    /// Each text one character away from a GUID's: shorter, longer, or another character at any place.
    #[test]
    fn no_guids() {
        let parse = |text: &str| text.parse::<Guid>();
        for i in 0..TEXT.len() {
            assert!(parse(&[&TEXT[..i], &TEXT[i + 1..]].concat()).is_err(), "without {i}");
            assert!(parse(&[&TEXT[..i], "0", &TEXT[i..]].concat()).is_err(), "one more at {i}");
            for other in ["g", "-", " ", "+", "é", "\0"] {
                let changed = [&TEXT[..i], other, &TEXT[i + 1..]].concat();
                assert_eq!(parse(&changed).is_ok(), changed == TEXT, "{changed}");
            }
        }
        assert!(
            parse("").is_err() && parse(&[TEXT, "0"].concat()).is_err() && parse(&["{", TEXT, "}"].concat()).is_err()
        );
    }
}

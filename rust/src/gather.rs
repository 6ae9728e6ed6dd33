//! Gathering: the blocks of a scattered list, put together in one place of the window (rules G).

use crate::{raw, Refusal};
use core::fmt;
use core::ops::Range;

/// Where the blocks now stand together, and their bytes, lent from the window (G15).
#[derive(Clone, Copy, PartialEq, Eq)]
pub struct Gathered<'w> {
    address: u64,
    start: usize,
    bytes: &'w [u8],
}

impl<'w> Gathered<'w> {
    /// The address of the first gathered byte, where the window's first byte has the base address given to [`gather`].
    pub fn address(&self) -> u64 {
        self.address
    }

    /// The gathered bytes: all blocks in list order, at any alignment.
    pub fn bytes(&self) -> &'w [u8] {
        self.bytes
    }

    /// Where they stand in the window: for a caller who must give back the window before the bytes are used.
    pub fn range(&self) -> Range<usize> {
        self.start..self.start.saturating_add(self.bytes.len())
    }
}

/// The place, and not the bytes, of which there may be millions.
impl fmt::Debug for Gathered<'_> {
    fn fmt(&self, f: &mut fmt::Formatter<'_>) -> fmt::Result {
        let mut shown = f.debug_struct("Gathered");
        shown.field("address", &self.address);
        shown.field("range", &self.range());
        shown.finish_non_exhaustive()
    }
}

/// Reads the list of descriptors that starts at the address `first` of the window, whose first byte has the address
/// `base`, and copies its blocks together in list order.
///
/// A descriptor is 16 bytes, two little-endian numbers of 64 bits: length and address. A length above 0 is a block; 0
/// with an address above 0 goes on at that address; both 0 end the list (G2 to G6). Each stands at a multiple of 8. At
/// most 256 are read, jumps and the end among them, and the blocks have at most 16,777,216 bytes together (G7 to G10).
/// The place is the lowest one in the window that shares no byte with a block or a descriptor read (G12), and every
/// other byte of the window stays (G14). Refusals 1 to 7, in the order of N108.
///
/// ```
/// // At address 4096: two blocks, "me" at 4160 and "ander" at 4200, and the end of the list.
/// let mut window = [0; 256];
/// for (i, number) in [2u64, 4160, 5, 4200, 0, 0].into_iter().enumerate() {
///     window[8 * i..8 * i + 8].copy_from_slice(&number.to_le_bytes());
/// }
/// window[64..66].copy_from_slice(b"me");
/// window[104..109].copy_from_slice(b"ander");
///
/// let gathered = meanderpeg::gather(&mut window, 4096, 4096)?;
/// assert_eq!((gathered.address(), gathered.bytes()), (4096 + 48, &b"meander"[..]));
/// # Ok::<(), meanderpeg::Refusal>(())
/// ```
pub fn gather(window: &mut [u8], base: u64, first: u64) -> Result<Gathered<'_>, Refusal> {
    let mut place = raw::Gathered { address: 0, total: 0 };
    Refusal::of(raw::gather(window, base, first, &mut place), 0)?;
    let range = range_of(base, &place).ok_or(Refusal::Unknown(0))?;
    let start = range.start;
    let bytes = window.get(range).ok_or(Refusal::Unknown(0))?;
    Ok(Gathered { address: place.address, start, bytes })
}

/// Where the place lies in a window with that base, if such a range of `usize` there is.
fn range_of(base: u64, place: &raw::Gathered) -> Option<Range<usize>> {
    let start = usize::try_from(place.address.checked_sub(base)?).ok()?;
    let end = start.checked_add(usize::try_from(place.total).ok()?)?;
    Some(start..end)
}

#[cfg(test)]
mod tests {
    use super::*;

    /// A place that no window with that base has is none, and never other bytes.
    #[test]
    fn ranges() {
        let range = |base, address, total| range_of(base, &raw::Gathered { address, total });
        assert_eq!(range(4_096, 4_100, 3), Some(4..7));
        assert_eq!(range(0, 0, 0), Some(0..0));
        assert_eq!(range(u64::MAX - 4, 0, 3), None);
        assert_eq!(range(4_096, 4_095, 1), None);
        assert_eq!(range(0, u64::MAX, 1), None);
        assert_eq!(range(1, u64::MAX, 2), None);
        assert_eq!(range(1, u64::MAX, 1), Some(usize::MAX - 1..usize::MAX));
    }

    #[test]
    fn refusals() {
        let mut window = [0; 32];
        assert_eq!(gather(&mut window, 4_096, 4_096), Err(Refusal::TotalZero));
        window[..8].copy_from_slice(&2u64.to_le_bytes());
        window[8..16].copy_from_slice(&4_096u64.to_le_bytes());
        assert_eq!(gather(&mut window, 4_096, 4_096), Err(Refusal::NoPlace));
        assert_eq!(gather(&mut window[..0], 0, 0), Err(Refusal::DescriptorAddress));
        assert_eq!(gather(&mut window, u64::MAX - 30, u64::MAX - 7), Err(Refusal::WindowEnd));
    }

    /// The window's last byte has the highest address, and the bytes gathered are its last.
    #[test]
    fn at_the_end_of_all_addresses() {
        let mut window = [0; 72];
        let base = u64::MAX - 71;
        for (at, number) in [(0, 8), (8, base + 48), (16, 16), (24, base + 32), (32, 0), (40, 0), (48, 7)] {
            window[at..at + 8].copy_from_slice(&u64::to_le_bytes(number));
        }
        assert_eq!(gather(&mut window, base, base), Err(Refusal::NoPlace));
        window[16..32].fill(0);
        let gathered = gather(&mut window, base, base).expect("a place");
        assert_eq!((gathered.address(), gathered.range()), (base + 32, 32..40));
        assert_eq!(gathered.bytes(), 7u64.to_le_bytes());
    }
}

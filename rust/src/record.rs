//! What an area holds: the soundness of both copies (rules R), and the report (rules T).

use crate::{raw, Refusal};

/// Which copies of the record are sound, and whether both are and are equal.
#[derive(Clone, Copy, PartialEq, Eq, Hash, Debug)]
#[non_exhaustive]
pub struct Soundness {
    /// Copy 0 is sound.
    pub copy_0: bool,
    /// Copy 1 is sound.
    pub copy_1: bool,
    /// Both are, and their records are equal, byte for byte (R21): what each of the six calls needs.
    pub equal: bool,
}

/// Asks of both copies of the area whether they meet the rules of a sound record (R5 to R19). Refusal 20.
pub fn soundness(area: &[u8]) -> Result<Soundness, Refusal> {
    let mut copies = 0;
    Refusal::of(raw::soundness(area, &mut copies), 0)?;
    Ok(Soundness { copy_0: copies & 1 == 1, copy_1: copies & 2 == 2, equal: copies & 4 == 4 })
}

/// The report of an area as text, at the front of `text`, of which every byte past it stays: tab-parted lines that tell
/// which copy is read, the active and the previous bank, each bank's state and which images are accepted (T1 to T6).
///
/// A refused area has a report too: `refused`, a tab and the number (20 or 21). None, with `text` as it was, if `text`
/// has less than [`REPORT_BYTES`](crate::REPORT_BYTES) (T7).
pub fn report<'t>(area: &[u8], text: &'t mut [u8]) -> Option<&'t str> {
    let length = raw::report(area, text);
    if length == 0 {
        return None;
    }
    core::str::from_utf8(text.get(..length)?).ok()
}

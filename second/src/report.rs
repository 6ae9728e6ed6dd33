//! The report (rules T).

use crate::record::*;

/// The text for an input of any length. Every line ends in a line feed; bank lines stand for existing banks only. The
/// report needs one sound copy, so it is refused by 20 or 21 alone.
pub fn report(input: &[u8]) -> String {
    if input.len() != AREA {
        return "refused\t20\n".to_string();
    }
    let (copy, record) = match record_read(input) {
        None => return "refused\t21\n".to_string(),
        Some(read) => read,
    };
    let mut text = String::new();
    text += &format!("record\t{}\t{}\n", copy, size(&record));
    text += &format!("active\t{}\n", active(&record));
    text += &format!("previous\t{}\n", previous(&record));
    for bank in 0..banks(&record) {
        text += &format!("bank\t{}\t{}\n", bank, state(&record, bank));
    }
    // T5: images ascending, banks within.
    for image in 0..images(&record) {
        for bank in 0..banks(&record) {
            text += &format!("image\t{}\t{}\t{}\n", image, bank, accepted(&record, image, bank));
        }
    }
    text
}

/// A slice for a report must hold so many bytes, whatever the report's length.
pub const REPORT_BYTES: usize = 4_096;

/// The report in a lent slice: the text at its start, the rest as it was, and the text's length. A slice that is too
/// short stays as it was, and the answer is 0.
pub fn report_in(input: &[u8], slice: &mut [u8]) -> usize {
    if slice.len() < REPORT_BYTES {
        return 0;
    }
    let text = report(input);
    slice[..text.len()].copy_from_slice(text.as_bytes());
    text.len()
}

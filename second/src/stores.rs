//! Power cuts (rules P), and the rules on lists of stores (R22 to R27). No list is made here; these
//! functions do and judge a list that was made elsewhere.

use crate::bytes::put;
use crate::record::*;

/// Does the stores, in list order (R22). The offsets must be multiples
/// of 4 in the area.
pub fn apply(area: &[u8], pairs: &[(u32, u32)]) -> Vec<u8> {
    let mut after = area.to_vec();
    for &(offset, word) in pairs {
        assert!(offset % 4 == 0 && offset as usize + 4 <= after.len(), "a store at {offset}");
        put(&mut after, offset as usize, 4, word as u128);
    }
    after
}

/// R25: whether each offset is a multiple of 4 in one of the two record ranges, for an old
/// and a new record of these sizes, and whether the list has at most 2,100 pairs.
pub fn offsets_good(pairs: &[(u32, u32)], old_size: usize, new_size: usize) -> bool {
    let reach = old_size.max(new_size);
    let inside = |offset: usize, start: usize| start <= offset && offset + 4 <= start + reach;
    pairs.len() <= 2_100
        && pairs.iter().all(|&(offset, _)| {
            offset % 4 == 0 && (inside(offset as usize, 0) || inside(offset as usize, COPY))
        })
}

/// One accepted change, cut after any number of its stores (P4 to P6). Answers the first cut that fails, if one does.
pub fn bad_cut(area: &[u8], pairs: &[(u32, u32)], old: &[u8], new: &[u8]) -> Option<usize> {
    let mut new_seen = false;
    for n in 0..=pairs.len() {
        let read = match record_read(&apply(area, &pairs[..n])) {
            None => return Some(n),
            Some((_, record)) => record,
        };
        let first_good = n > 0 || read == old;
        let last_good = n < pairs.len() || read == new;
        let one_of_two = read == old || read == new;
        let stays_new = !new_seen || read == new;
        if !(first_good && last_good && one_of_two && stays_new) {
            return Some(n);
        }
        new_seen = new_seen || read == new;
    }
    None
}

/// One repair, cut after any number of its stores (P10, P11): start-up reads the same record at every cut, and both
/// copies are sound and equal after all. Answers the first cut that fails, if one does.
pub fn bad_repair_cut(area: &[u8], pairs: &[(u32, u32)]) -> Option<usize> {
    let before = record_read(area).map(|(_, record)| record);
    for n in 0..=pairs.len() {
        let left = apply(area, &pairs[..n]);
        let same = record_read(&left).map(|(_, record)| record) == before;
        let finished = n < pairs.len() || both_sound_and_equal(&left);
        if !same || !finished {
            return Some(n);
        }
    }
    None
}

//! Power cuts (rules P): the judges of lists, tried with one plain list and with bad ones.

use second::bytes::number;
use second::make::*;
use second::record::*;
use second::session::*;
use second::stores::*;

/// Writes one copy: version 0 first, every other word, the version last.
fn write_copy(start: usize, new: &[u8]) -> Vec<(u32, u32)> {
    let mut pairs = vec![(start as u32 + 4, 0)];
    for at in (0..new.len()).step_by(4) {
        if at != 4 {
            pairs.push(((start + at) as u32, number(new, at as u128, 4) as u32));
        }
    }
    pairs.push((start as u32 + 4, 2));
    pairs
}

#[test]
fn a_plain_list_survives_every_cut() {
    let old = make_record(2, 3, 0, 1);
    let area = make_area(&old, &old, 5);
    let a = begin(Session::Regular, &area, 4_200);
    let new = a.record.clone().unwrap();
    let mut pairs = write_copy(0, &new);
    pairs.extend(write_copy(COPY, &new));
    assert!(offsets_good(&pairs, old.len(), new.len()));
    assert_eq!(apply(&area, &pairs), a.area);
    assert_eq!(bad_cut(&area, &pairs, &old, &new), None);
    for n in 0..=pairs.len() {
        let left = apply(&area, &pairs[..n]);
        let read = record_read(&left).unwrap();
        let repaired = repair(&left, 4_200);
        assert_eq!(record_read(&repaired.area).unwrap().1, read.1);
        assert!(both_sound_and_equal(&repaired.area));
        let stores = write_copy(COPY * (1 - read.0) as usize, &read.1);
        assert_eq!(bad_repair_cut(&left, &stores), None);
        if !both_sound_and_equal(&left) {
            assert_eq!(apply(&left, &stores), repaired.area);
        }
    }
}

#[test]
fn bad_lists_are_seen() {
    let old = make_record(2, 3, 0, 1);
    let area = make_area(&old, &old, 5);
    let new = begin(Session::Regular, &area, 4_200).record.unwrap();
    // Nothing listed: the old record after all.
    assert_eq!(bad_cut(&area, &[], &old, &new), Some(0));
    // Both copies spoilt at once: no record read.
    let mut pairs = vec![(4, 0), (COPY as u32 + 4, 0)];
    assert_eq!(bad_cut(&area, &pairs, &old, &new), Some(2));
    // Copy 0 new, spoilt again: the old record comes back.
    pairs = write_copy(0, &new);
    pairs.extend(write_copy(0, &new));
    pairs.extend(write_copy(COPY, &new));
    assert!(bad_cut(&area, &pairs, &old, &new).is_some());
    assert!(!offsets_good(&[(2, 0)], 280, 280));
    assert!(!offsets_good(&[(280, 0)], 280, 280));
    assert!(offsets_good(&[(276, 0)], 280, 280));
    assert!(!offsets_good(&[(8_188, 0)], 280, 280));
    assert!(offsets_good(&[(8_192 + 276, 0)], 280, 280));
    assert!(!offsets_good(&[(8_192 + 280, 0)], 280, 280));
}

/// Changes of every kind that the recipes make on small records, each cut after any number of the plain list's stores.
#[test]
fn plain_lists_of_random_changes_survive_every_cut() {
    let mut tried = 0;
    for call in 2..8 {
        for k in 0..600 {
            let input = second::inputs::call_input(call, 7, k);
            let answer = second::answers::call_answer(call, &input);
            let new = match answer.record {
                Some(new) if new.len() <= 300 => new,
                _ => continue,
            };
            let old = record_read(&input.area).unwrap().1;
            let mut pairs = write_copy(0, &new);
            pairs.extend(write_copy(COPY, &new));
            assert_eq!(apply(&input.area, &pairs), answer.area);
            assert!(offsets_good(&pairs, old.len(), new.len()));
            // A rewrite of an unchanged record survives as well: the old and the new are one.
            assert_eq!(bad_cut(&input.area, &pairs, &old, &new), None);
            tried += 1;
            if tried % 40 == 0 {
                break;
            }
        }
    }
    assert!(tried >= 200);
}

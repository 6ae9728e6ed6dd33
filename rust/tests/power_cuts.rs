//! The power-cut rules (P1 to P12) on samples: an accepted change cut after any number of its stores, or any other area
//! with a sound copy, then a list of start-ups and repairs, refused ones included, each repair cut at any store.
//! `examples/power_cuts.rs` cuts by killing a process.

mod compare;

use meanderpeg::BankIndex;
use second::answers::call_answer;
use second::inputs::{call_input, sound_plan, Draw, SAME_CRC};
use second::make::{make_area, record_bytes};
use second::record::{banks, both_sound_and_equal, record_read, sound};
use second::session as plain;
use second::stores::{apply, bad_repair_cut};

const SEED: u64 = 3;

fn read(area: &[u8]) -> Vec<u8> {
    record_read(area).expect("a sound copy").1
}

/// Start-up answers for the record read what the rules give for it (S2, P3), with every booted bank and with none.
fn starts_up(area: &[u8], name: &str) {
    for booted in (0..=banks(&read(area)) as u32).chain([u32::MAX]) {
        let wanted = plain::start_up(area, booted);
        match meanderpeg::start_up(area, BankIndex::new(booted)) {
            Ok(session) => {
                assert_eq!((0, compare::state_of(wanted.session)), (wanted.refusal, session.state()), "{name}");
            }
            Err(refusal) => assert_eq!(refusal.number(), wanted.refusal, "{name}"),
        }
    }
}

fn repair_list(area: &[u8], numbers: usize) -> Option<Vec<(u32, u32)>> {
    let mut slice = vec![0; numbers];
    meanderpeg::repair(area, &mut slice).ok().map(|repair| compare::pairs_of(repair.stores()))
}

/// Every cut of a change, and from each the whole repair with each of its own cuts.
#[test]
fn every_cut_and_every_cut_of_its_repair() {
    let (mut changes, mut cuts, mut repair_cuts) = (0, 0, 0);
    for k in 0..900 {
        let call = [2, 3, 4, 6, 7][k as usize % 5];
        let input = call_input(call, SEED, k);
        let answer = call_answer(call, &input);
        if answer.refusal > 0 || answer.area == input.area {
            continue;
        }
        let mut numbers = [0; meanderpeg::STORE_NUMBERS];
        let pairs = compare::listed(call, &input, &mut numbers);
        changes += 1;
        for n in 0..=pairs.len() {
            let name = format!("call {call}, input {k}, cut after {n}");
            let left = apply(&input.area, &pairs[..n]);
            starts_up(&left, &name);
            let repair = repair_list(&left, meanderpeg::STORE_NUMBERS).expect("a sound copy");
            assert_eq!(bad_repair_cut(&left, &repair), None, "{name}");
            let whole = if read(&left) == read(&input.area) { &input.area } else { &answer.area };
            assert!(apply(&left, &repair) == *whole, "{name}: the area after a repair");
            cuts += 1;
            repair_cuts += repair.len() + 1;
        }
    }
    println!("{changes} changes, {cuts} cuts, {repair_cuts} cuts of repairs");
    assert!(changes >= 100 && cuts >= 2_000);
}

/// One start-up or repair of a list. Answers the area that it leaves, and whether a repair finished.
fn step(area: Vec<u8>, draw: &mut Draw, name: &str) -> (Vec<u8>, bool) {
    if draw.below(3) == 0 {
        starts_up(&area, name);
        return (area, false);
    }
    let numbers = [0, 4_199, 4_200, 4_200, 4_200, 4_201][draw.below(6) as usize];
    let Some(pairs) = repair_list(&area, numbers) else {
        assert!(numbers < 4_200, "{name}: a repair is refused");
        return (area, false);
    };
    assert!(numbers >= 4_200, "{name}: a repair in too few numbers");
    let n = if draw.below(3) == 0 { pairs.len() } else { draw.below(pairs.len() as u64 + 1) as usize };
    (apply(&area, &pairs[..n]), n == pairs.len())
}

/// Random lists from cuts of changes and from other areas with a sound copy.
#[test]
fn lists_of_start_ups_and_repairs() {
    let (mut lists, mut finished_lists) = (0, 0);
    for k in 0..6_000 {
        let mut draw = Draw::start(21, SEED, k);
        let call = 1 + k % 7;
        let input = call_input(call, SEED, k);
        let mut numbers = [0; meanderpeg::STORE_NUMBERS];
        let pairs = match call {
            1 => vec![],
            _ => compare::listed(call, &input, &mut numbers),
        };
        let mut area = apply(&input.area, &pairs[..draw.below(pairs.len() as u64 + 1) as usize]);
        let Some((_, first)) = record_read(&area) else { continue };
        let mut finished = false;
        for at in 0..1 + draw.below(6) {
            let name = format!("call {call}, input {k}, step {at}");
            let (left, done) = step(area, &mut draw, &name);
            area = left;
            finished = finished || done;
            assert!(read(&area) == first, "{name}: another record is read");
            assert!(!finished || both_sound_and_equal(&area), "{name}: the copies after a finished repair");
        }
        lists += 1;
        finished_lists += finished as u64;
    }
    println!("{lists} lists, {finished_lists} of them with a finished repair");
    assert!(lists >= 4_000 && finished_lists >= 1_000 && finished_lists < lists);
}

/// Nothing rests on a checksum being unlikely to match (P12): copy 0 is not sound, yet holds another record with the
/// same CRC as copy 1's, but for its version or for the CRC field, so that one store could make it sound. A repair must
/// not read it meanwhile.
#[test]
fn another_record_with_the_same_checksum() {
    for k in 0..2_000 {
        let mut draw = Draw::start(22, SEED, k);
        let plan = sound_plan(&mut draw);
        let (tint, image, at) = (draw.below(256), draw.below(plan.images as u64), draw.below(12));
        let record = record_bytes(&plan);
        let mut other = record.clone();
        let from = 40 + image as usize * (32 + 24 * plan.banks) + 16 + at as usize;
        other[from..from + 5].iter_mut().zip(SAME_CRC).for_each(|(byte, bits)| *byte ^= bits);
        assert!(sound(&other) && other[..4] == record[..4], "input {k}: one checksum for both");
        other[if k % 2 == 0 { 4 } else { draw.below(4) as usize }] ^= 1;
        let area = make_area(&other, &record, tint as usize);
        let pairs = repair_list(&area, meanderpeg::STORE_NUMBERS).expect("a sound copy");
        assert_eq!(bad_repair_cut(&area, &pairs), None, "input {k}");
        assert!(apply(&area, &pairs) == make_area(&record, &record, tint as usize), "input {k}: the area");
    }
}

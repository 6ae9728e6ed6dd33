//! Sessions and calls (rules S), refusals (rules N), samples 13 and 14.

use second::make::*;
use second::record::*;
use second::session::*;

const SLICE: u64 = 4_200;

fn both(plan: &RecordPlan) -> Vec<u8> {
    let r = record_bytes(plan);
    make_area(&r, &r, 17)
}

type Call = fn(Session, &[u8], u64) -> Answer;

fn commit_0(session: Session, area: &[u8], slice: u64) -> Answer {
    commit(session, area, slice, &type_guid_for(0, 15), 0)
}
fn accept_0(session: Session, area: &[u8], slice: u64) -> Answer {
    accept(session, area, slice, &type_guid_for(0, 15))
}

const CALLS: [Call; 6] = [begin, commit_0, end, cancel, accept_0, select_previous];

fn refused(answer: Answer, session: Session, area: &[u8], number: u32) {
    assert_eq!(answer.refusal, number);
    assert_eq!(answer.session, session);
    assert_eq!(answer.area, area);
    assert_eq!(answer.record, None);
    if number != 27 {
        assert_eq!(answer.missing, 0);
    }
}

/// An accepted call: the plan's record is the new one, in both copies, and every other byte is as before.
fn accepted_as(answer: Answer, session: Session, before: &[u8], plan: &RecordPlan) {
    assert_eq!(answer.refusal, 0);
    assert_eq!(answer.session, session);
    let record = record_bytes(plan);
    assert_eq!(answer.record.as_deref(), Some(&record[..]));
    let mut want = before.to_vec();
    want[..record.len()].copy_from_slice(&record);
    want[COPY..COPY + record.len()].copy_from_slice(&record);
    assert_eq!(answer.area, want);
    assert!(both_sound_and_equal(&answer.area));
}

#[test]
fn a_whole_update() {
    for banks in 2..=4usize {
        for images in [1usize, 3, 32] {
            let mut p = plan(banks, images);
            p.active = banks as u32 - 1;
            p.previous = 0;
            let mut area = both(&p);
            let a = begin(Session::Regular, &area, SLICE);
            p.states[0] = 255;
            p.accepted[0] = 0;
            let mut session = Session::Staging { bank: 0, set: 0 };
            accepted_as(a.clone(), session, &area, &p);
            area = a.area;
            let mut set = 0;
            for i in 0..images {
                let request = if i == 0 { 0x8000_0000 } else { 0 };
                let a = end(session, &area, SLICE);
                assert_eq!(a.missing, (images - i) as u32);
                refused(a, session, &area, 27);
                let a = commit(session, &area, SLICE, &type_guid_for(i, 15), request);
                set |= 1 << i;
                if request == 0 {
                    p.accepted[0] |= 1 << i;
                }
                session = Session::Staging { bank: 0, set };
                accepted_as(a.clone(), session, &area, &p);
                area = a.area;
            }
            // A repeat: the later stands.
            for request in [0, 1] {
                let a = commit(session, &area, SLICE, &type_guid_for(0, 15), request);
                p.accepted[0] = if request == 0 { full_set(images) } else { full_set(images) & !1 };
                accepted_as(a.clone(), session, &area, &p);
                area = a.area;
            }
            let a = end(session, &area, SLICE);
            p.states[0] = 254;
            p.previous = banks as u32 - 1;
            p.active = 0;
            accepted_as(a.clone(), Session::Restart, &area, &p);
            area = a.area;
            assert_eq!(start_up(&area, 0).session, Session::Trial);
            assert_eq!(start_up(&area, 1).session, Session::Fallback);
            if images > 1 {
                // Accepting an accepted image changes nothing.
                let a = accept(Session::Trial, &area, SLICE, &type_guid_for(1, 15));
                accepted_as(a, Session::Trial, &area, &p);
            }
            let a = select_previous(Session::Fallback, &area, SLICE);
            let back = RecordPlan { active: p.previous, previous: p.active, ..p.clone() };
            accepted_as(a, Session::Restart, &area, &back);
            let a = accept(Session::Trial, &area, SLICE, &type_guid_for(0, 15));
            p.accepted[0] = full_set(images);
            p.states[0] = 252;
            accepted_as(a.clone(), Session::Regular, &area, &p);
            area = a.area;
            assert_eq!(start_up(&area, 0).session, Session::Regular);
            // Accept in a Trial whose active bank is 252.
            let a = accept(Session::Trial, &area, SLICE, &type_guid_for(0, 15));
            accepted_as(a, Session::Regular, &area, &p);
        }
    }
}

#[test]
fn end_with_all_accepted_is_252() {
    let mut p = plan(2, 3);
    p.states[1] = 255;
    let area = both(&p);
    let a = end(Session::Staging { bank: 1, set: 7 }, &area, SLICE);
    p.states[1] = 252;
    p.active = 1;
    p.previous = 0;
    accepted_as(a, Session::Restart, &area, &p);
}

#[test]
fn accept_one_of_two() {
    let mut p = plan(2, 2);
    p.states[0] = 254;
    p.accepted[0] = 0;
    let area = both(&p);
    let a = accept(Session::Trial, &area, SLICE, &type_guid_for(1, 15));
    p.accepted[0] = 2;
    accepted_as(a, Session::Trial, &area, &p);
}

#[test]
fn begin_again_while_staging() {
    let mut p = plan(3, 2);
    p.states[1] = 255;
    let area = both(&p);
    let a = begin(Session::Staging { bank: 1, set: 3 }, &area, SLICE);
    p.accepted[1] = 0;
    accepted_as(a, Session::Staging { bank: 1, set: 0 }, &area, &p);
}

#[test]
fn cancel_changes_nothing() {
    let mut p = plan(3, 2);
    p.states[1] = 255;
    let area = both(&p);
    accepted_as(cancel(Session::Staging { bank: 1, set: 1 }, &area, SLICE), Session::Regular, &area, &p);
}

#[test]
fn select_previous_wants_252() {
    for session in [Session::Trial, Session::Fallback] {
        let mut p = plan(3, 2);
        p.states[0] = 254;
        p.accepted[0] = 1;
        p.previous = 2;
        let area = both(&p);
        let swapped = RecordPlan { active: 2, previous: 0, ..p.clone() };
        accepted_as(select_previous(session, &area, SLICE), Session::Restart, &area, &swapped);
        for (state, accepted) in [(255u8, 3u32), (254, 1)] {
            let mut q = p.clone();
            q.states[2] = state;
            q.accepted[2] = accepted;
            let area = both(&q);
            refused(select_previous(session, &area, SLICE), session, &area, 25);
        }
        // Previous equal to active: 25 with 254, unchanged with 252.
        let q = RecordPlan { previous: 0, ..p.clone() };
        let area = both(&q);
        refused(select_previous(session, &area, SLICE), session, &area, 25);
        let q = RecordPlan { previous: 0, ..plan(3, 2) };
        let area = both(&q);
        accepted_as(select_previous(session, &area, SLICE), Session::Restart, &area, &q);
    }
}

#[test]
fn refusal_25_sessions() {
    let mut p = plan(2, 1);
    p.states[1] = 255;
    let area = both(&p);
    let staging = Session::Staging { bank: 1, set: 1 };
    let all = [Session::Regular, staging, Session::Trial, Session::Fallback, Session::Restart];
    let named: [&[usize]; 6] = [&[0, 1], &[1], &[1], &[1], &[2], &[]];
    for (c, call) in CALLS.iter().enumerate() {
        for (s, &session) in all.iter().enumerate() {
            let a = call(session, &area, SLICE);
            if named[c].contains(&s) {
                assert_eq!(a.refusal, 0, "call {c} session {s}");
            } else {
                refused(a, session, &area, 25);
            }
        }
    }
    let area = both(&plan(2, 1));
    for session in all {
        let want = match session {
            Session::Trial | Session::Fallback => 0,
            Session::Staging { .. } => 24,
            _ => 25,
        };
        assert_eq!(select_previous(session, &area, SLICE).refusal, want);
    }
}

#[test]
fn refusal_24_comes_before_25() {
    let mut p = plan(3, 2);
    p.active = 1;
    p.states[2] = 255;
    let area = both(&p);
    let sound_area = both(&RecordPlan { active: 1, ..plan(3, 2) });
    for call in CALLS {
        for (bank, set, faulty) in [
            (2u32, 0u32, false),
            (2, 3, false),
            (2, 4, true),
            (2, 7, true),
            (2, 0x8000_0000, true),
            (1, 0, true),
            (0, 0, true),
            (3, 0, true),
            (u32::MAX, 0, true),
        ] {
            let session = Session::Staging { bank, set };
            let a = call(session, &area, SLICE);
            assert_eq!(a.refusal == 24, faulty, "bank {bank} set {set}");
            if faulty {
                refused(a, session, &area, 24);
            }
        }
        // The update bank, but it isn't 255.
        let session = Session::Staging { bank: 2, set: 0 };
        refused(call(session, &sound_area, SLICE), session, &sound_area, 24);
    }
    // 32 images: every bit is an image's.
    let mut p = plan(2, 32);
    p.states[1] = 255;
    let area = both(&p);
    assert_eq!(end(Session::Staging { bank: 1, set: u32::MAX }, &area, SLICE).refusal, 0);
    let mut p = plan(2, 31);
    p.states[1] = 255;
    let area = both(&p);
    assert_eq!(end(Session::Staging { bank: 1, set: u32::MAX }, &area, SLICE).refusal, 24);
    assert_eq!(end(Session::Staging { bank: 1, set: u32::MAX >> 1 }, &area, SLICE).refusal, 0);
}

#[test]
fn refusal_26_every_guid_byte() {
    let mut p = plan(2, 3);
    p.states = [254, 255, 255, 255];
    p.accepted[0] = 0;
    for place in 0..16 {
        p.guid_place = place;
        let area = both(&p);
        let staging = Session::Staging { bank: 1, set: 0 };
        for byte in 0..16 {
            let mut guid = type_guid_for(1, place);
            guid[byte] ^= 0x20;
            refused(commit(staging, &area, SLICE, &guid, 0), staging, &area, 26);
            refused(accept(Session::Trial, &area, SLICE, &guid), Session::Trial, &area, 26);
        }
        assert_eq!(commit(staging, &area, SLICE, &type_guid_for(2, place), 0).refusal, 0);
        refused(commit(staging, &area, SLICE, &type_guid_for(3, place), 0), staging, &area, 26);
    }
    // 25 comes before 26.
    let area = both(&p);
    refused(commit(Session::Regular, &area, SLICE, &[0; 16], 0), Session::Regular, &area, 25);
}

#[test]
fn sample_13_store_slice() {
    let mut p = plan(2, 1);
    p.states[1] = 255;
    let area = both(&p);
    let staging = Session::Staging { bank: 1, set: 1 };
    let fitting = [Session::Regular, staging, staging, staging, Session::Trial];
    for (call, session) in CALLS.iter().zip(fitting) {
        refused(call(session, &area, 4_199), session, &area, 23);
        refused(call(session, &area, 0), session, &area, 23);
        assert_eq!(call(session, &area, 4_200).refusal, 0);
        assert_eq!(call(session, &area, 4_201).refusal, 0);
    }
    let area = both(&plan(2, 1));
    refused(select_previous(Session::Trial, &area, 4_199), Session::Trial, &area, 23);
    assert_eq!(select_previous(Session::Trial, &area, 4_200).refusal, 0);
    refused(repair(&area, 4_199), Session::Restart, &area, 23);
    assert_eq!(repair(&area, 4_200).refusal, 0);
}

#[test]
fn sample_14_booted_bank() {
    let area = both(&plan(2, 1));
    refused(start_up(&area, 2), Session::Restart, &area, 28);
    refused(start_up(&area, u32::MAX), Session::Restart, &area, 28);
    assert_eq!(start_up(&area, 1).session, Session::Fallback);
    assert_eq!(start_up(&area, 0).session, Session::Regular);
    let area = both(&plan(4, 1));
    assert_eq!(start_up(&area, 3).refusal, 0);
    assert_eq!(start_up(&area, 4).refusal, 28);
    // 21 comes before 28.
    let mut bad = area.clone();
    bad[0] ^= 1;
    assert_eq!(start_up(&bad, 4).refusal, 28);
    bad[COPY] ^= 1;
    refused(start_up(&bad, 4), Session::Restart, &bad, 21);
}

#[test]
fn orders_20_23_21_22_24() {
    let r = make_record(2, 1, 0, 1);
    let other = make_record(2, 1, 1, 1);
    let mut broken = r.clone();
    broken[3] ^= 1;
    let faulty = Session::Staging { bank: 0, set: 0 };
    let none = make_area(&broken, &broken, 0);
    let first = make_area(&broken, &r, 0);
    let second = make_area(&r, &broken, 0);
    let unequal = make_area(&r, &other, 0);
    let good = make_area(&r, &r, 0);
    for call in CALLS {
        for length in [0usize, 8_192, 16_383, 16_385] {
            let mut area = none.clone();
            area.resize(length, 0);
            refused(call(faulty, &area, 0), faulty, &area, 20);
            let mut area = good.clone();
            area.resize(length, 0);
            refused(call(faulty, &area, SLICE), faulty, &area, 20);
        }
        refused(call(faulty, &none, 4_199), faulty, &none, 23);
        refused(call(faulty, &none, 4_200), faulty, &none, 21);
        refused(call(faulty, &first, 4_199), faulty, &first, 23);
        refused(call(faulty, &first, 4_200), faulty, &first, 22);
        refused(call(faulty, &second, 4_200), faulty, &second, 22);
        refused(call(faulty, &unequal, 4_200), faulty, &unequal, 22);
        refused(call(faulty, &good, 4_200), faulty, &good, 24);
    }
    refused(repair(&none[..16_383], 0), Session::Restart, &none[..16_383], 20);
    refused(repair(&none, 4_199), Session::Restart, &none, 23);
    refused(repair(&none, 4_200), Session::Restart, &none, 21);
    refused(start_up(&none[..16_383], 0), Session::Restart, &none[..16_383], 20);
    refused(start_up(&none, 0), Session::Restart, &none, 21);
}

#[test]
fn repair_writes_the_other_copy() {
    let long = make_record(4, 32, 0, 1);
    let short = make_record(2, 1, 1, 1);
    let mut broken = long.clone();
    broken[4] = 0;
    // (copy 0, copy 1, which copy is read, its record)
    for (zero, one, from, record) in [
        (&short, &long, 0, &short),
        (&long, &short, 0, &long),
        (&broken, &short, 1, &short),
        (&short, &broken, 0, &short),
        (&short, &short, 0, &short),
    ] {
        let area = make_area(zero, one, 9);
        let a = repair(&area, SLICE);
        assert_eq!(a.refusal, 0);
        let mut want = area.clone();
        let to = COPY * (1 - from);
        want[to..to + record.len()].copy_from_slice(record);
        assert_eq!(a.area, want);
        assert!(both_sound_and_equal(&a.area));
        assert_eq!(record_read(&a.area).unwrap().1, *record);
        assert_eq!(a.session, Session::Restart);
    }
}

#[test]
fn tails_of_the_copies_stay() {
    // The copies are equal though the bytes behind their records differ, and those bytes stay.
    let r = make_record(2, 1, 0, 1);
    let mut area = make_area(&r, &r, 1);
    area[120] = 1;
    area[COPY + 120] = 2;
    let a = begin(Session::Regular, &area, SLICE);
    assert_eq!(a.refusal, 0);
    assert_eq!(a.area[120..COPY], area[120..COPY]);
    assert_eq!(a.area[COPY + 120..], area[COPY + 120..]);
}

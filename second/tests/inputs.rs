//! The recipes of GENERATORS.md: what they reach, what holds of every answer, and the digests as they stand.

use second::answers::*;
use second::capsule;
use second::gather;
use second::inputs::*;
use second::record::*;
use second::make::laid_out;
use second::session::{session_of_words, session_words, Session};

/// Every refusal that an entry can give, and every other outcome told for it, is met in 1,500 inputs, and none besides.
#[test]
fn every_outcome_is_met() {
    for entry in ENTRIES {
        let mut account = Account::default();
        for k in 0..1_500 {
            answer(entry, 1, k, &mut account);
        }
        let told = outcomes(entry);
        for outcome in &told {
            assert!(account.tally.of(outcome) > 0, "{entry}: {outcome}");
        }
        assert_eq!(account.tally.counts.len(), told.len(), "{entry}: {:?}", account.tally.counts);
    }
}

#[test]
fn plans_are_sound_and_one_rule_breaks_at_a_time() {
    for call in 0..8 {
        for k in 0..1_500u64 {
            let input = call_input(call, 3, k);
            match k % CALL_CASES {
                // Both sound, one CRC, not equal.
                6 => {
                    assert!(sound(copy_of(&input.area, 0)) && sound(copy_of(&input.area, 1)));
                    assert_eq!(input.area[..4], input.area[COPY..COPY + 4]);
                    assert!(!both_sound_and_equal(&input.area));
                }
                4 | 5 => {}
                0..=12 => assert!(both_sound_and_equal(&input.area)),
                14 | 15 => {
                    let rule = 1 + (k / CALL_CASES) % BROKEN_RULES;
                    let broken = if k % CALL_CASES == 14 { 0 } else { 1 };
                    let copy = copy_of(&input.area, broken);
                    assert!(sound(copy_of(&input.area, 1 - broken)));
                    let want = match rule {
                        11 if images(copy) == 1 => 0,
                        15 | 16 => 2,
                        17 | 18 => 3,
                        19 => 5,
                        20 => 4,
                        _ => rule,
                    };
                    assert_eq!(first_failing_rule(copy) as u64, want, "call {call} input {k}");
                    // With the counts out of the limits all else holds.
                    if (15..19).contains(&rule) {
                        let others = RULES.iter().enumerate().filter(|&(place, _)| place as u64 + 1 != want);
                        assert!(others.into_iter().all(|(_, rule)| rule(copy)), "call {call} input {k}");
                    }
                }
                _ => {}
            }
        }
    }
}

/// What the rules say of every answer (N105, N106, R26, S19): a refusal leaves session and area; an accepted call
/// leaves two sound and equal copies that hold the new record, and every byte behind them as it was; its session fits
/// the record.
#[test]
fn every_call_keeps_the_general_rules() {
    for call in 0..8 {
        for k in 0..1_500 {
            let input = call_input(call, 4, k);
            let answer = call_answer(call, &input);
            if answer.refusal != 0 {
                assert_eq!(answer.area, input.area);
                assert_eq!(answer.record, None);
                assert_eq!(answer.missing > 0, answer.refusal == 27);
                assert_eq!(answer.session, if call < 2 { Session::Restart } else { input.session });
                assert_eq!(raw_after(&input, &answer), input.raw);
                continue;
            }
            let record = answer.record.clone().unwrap();
            assert!(sound(&record) && record.len() as u128 == size(&record));
            assert_eq!(record_read(&answer.area).unwrap().1, record);
            if call == 0 {
                assert_eq!(answer.area, input.area);
                continue;
            }
            assert!(both_sound_and_equal(&answer.area));
            for at in 0..AREA {
                if at % COPY >= record.len() {
                    assert_eq!(answer.area[at], input.area[at]);
                }
            }
            if call == 1 {
                assert_eq!(record_read(&input.area).unwrap().1, record);
                continue;
            }
            // The session that a call answers meets no 24 with the area that it leaves.
            assert_ne!(second::session::begin(answer.session, &answer.area, 4_200).refusal, 24);
        }
    }
}

/// The three numbers mean the session. Start-up and repair have Restart's. Only cases 5, 7 and 20 have others than a
/// session has: kinds above 4, bank and set beside another kind than Staging.
#[test]
fn raw_sessions() {
    for call in 0..8 {
        let mut kinds = std::collections::BTreeSet::new();
        let mut beside = 0;
        for k in 0..3_000 {
            let input = call_input(call, 7, k);
            assert_eq!(input.session, session_of_words(input.raw));
            if call < 2 {
                assert_eq!(input.raw, (4, 0, 0));
            }
            if ![5, 7, 20].contains(&(k % CALL_CASES)) {
                assert_eq!(input.raw, session_words(input.session));
            } else {
                kinds.insert(input.raw.0);
                beside += (input.raw.0 != 1 && (input.raw.1, input.raw.2) != (0, 0)) as u32;
            }
        }
        let high = 2_147_483_648;
        let fitting: &[u32] = [&[0, 1][..], &[1], &[1], &[1], &[2], &[2, 3]][call.max(2) as usize - 2];
        let mut all = vec![4];
        if call >= 2 {
            all = vec![0, 1, 2, 3, 4, 5, u32::MAX];
            all.extend(fitting.iter().map(|kind| high + kind));
            all.sort();
        }
        assert_eq!(kinds.into_iter().collect::<Vec<_>>(), all);
        assert_eq!(beside > 20, call >= 2, "call {call}");
    }
}

/// Records laid out with other sizes: they fit a copy, fields and CRC go by the size told, and but for the two rules on
/// entry sizes the header keeps its own.
#[test]
fn other_entry_sizes() {
    for k in 0..400 {
        let mut d = Draw::start(23, 1, k);
        let plan = sound_plan(&mut d);
        let es = 32 + 24 * plan.banks;
        for v in 0..4 {
            let sizes = [
                (19, [es - 1, es + 1, es + 4, es + 24][v], 24, 5),
                (20, 32 + [20, 23, 25, 28][v] * plan.banks, [20, 23, 25, 28][v], 4),
            ];
            for (rule, image_size, bank_size, failing) in sizes {
                let record = laid_out(&plan, image_size, bank_size);
                assert!(record.len() <= COPY);
                let mut copy = vec![0xAB; COPY];
                copy[..record.len()].copy_from_slice(&record);
                let mut broken = vec![0xAB; COPY];
                break_rule(&mut broken, &plan, rule, v, 0, 0);
                assert_eq!(broken[4..], copy[4..]);
                assert_eq!(size(&broken), (40 + plan.images * image_size) as u128);
                assert_eq!((image_entry_size(&broken), bank_entry_size(&broken)), (image_size as u128, bank_size as u128));
                assert_eq!(first_failing_rule(&broken), failing);
                assert!(RULES[0](&broken) && RULES[1](&broken) && RULES[2](&broken));
                assert!(RULES[5](&broken) && RULES[6](&broken) && RULES[8](&broken) && RULES[13](&broken));
                // With one image nothing meets another's bytes: the entry's size is all that is wrong.
                if rule == 19 && plan.images == 1 {
                    let others = RULES.iter().enumerate().filter(|&(place, _)| place != 4);
                    assert!(others.into_iter().all(|(_, rule)| rule(&broken)));
                }
            }
        }
    }
}

/// Limits of areas and calls, at their value and one to either side.
#[test]
fn limits_of_calls_are_met() {
    use std::collections::BTreeSet;
    let (mut lengths, mut slices, mut booted, mut bits) =
        (BTreeSet::new(), BTreeSet::new(), BTreeSet::new(), BTreeSet::new());
    let (mut guid_pairs, mut past_count) = (BTreeSet::new(), BTreeSet::new());
    for k in 0..6_000 {
        let input = call_input([0, 2, 4][k as usize % 3], 1, k / 3);
        lengths.insert(input.area.len());
        slices.insert(input.slice_len);
        if input.area.len() != AREA {
            continue;
        }
        if let Some((_, record)) = record_read(&input.area) {
            booted.insert((input.booted as i64 - banks(&record) as i64).clamp(-2, 2));
            if let Session::Staging { set, .. } = input.session {
                bits.insert((31 - (set | 1).leading_zeros() as i64 - images(&record) as i64).clamp(-2, 1));
            }
        }
        for copy in [copy_of(&input.area, 0), copy_of(&input.area, 1)] {
            match first_failing_rule(copy) {
                11 => {
                    let same = |i: u128, j: u128| type_guid(copy, i) == type_guid(copy, j);
                    let last = images(copy) - 1;
                    guid_pairs.extend((0..last).filter(|&i| same(i, i + 1)).map(|_| 1));
                    guid_pairs.extend((last > 1 && same(0, last)).then_some(last));
                }
                12 => past_count.extend((banks(copy)..4).filter(|&b| state(copy, b) != 255).map(|b| (banks(copy), b))),
                _ => {}
            }
        }
    }
    assert_eq!(lengths.into_iter().collect::<Vec<_>>(), [0, 8_192, 16_383, 16_384, 16_385]);
    assert_eq!(slices.into_iter().collect::<Vec<_>>(), [0, 4_198, 4_199, 4_200, 4_201]);
    assert_eq!(booted.into_iter().collect::<Vec<_>>(), [-2, -1, 0, 1, 2]);
    assert_eq!(bits.into_iter().collect::<Vec<_>>(), [-2, -1, 0, 1]);
    assert!(guid_pairs.contains(&1) && guid_pairs.contains(&31));
    assert_eq!(past_count.into_iter().collect::<Vec<_>>(), [(2, 2), (2, 3), (3, 3)]);
}

#[test]
fn report_slices() {
    let mut lengths = std::collections::BTreeMap::new();
    for k in 0..2_000 {
        let input = report_input(1, k);
        assert_eq!(input.area, call_input(0, 1, k).area);
        *lengths.entry(input.slice_len).or_insert(0) += 1;
    }
    assert_eq!(lengths.keys().copied().collect::<Vec<_>>(), [0, 4_095, 4_096, 4_097, 4_200]);
    assert!(lengths.values().all(|&count| count > 100));
}

#[test]
fn capsule_parts_lie_in_their_items() {
    for k in 0..3_000 {
        let input = capsule_input(5, k);
        let (drivers, payloads) = capsule::counts(&input.capsule);
        let mut before = 0;
        for i in 0..drivers as u64 + payloads as u64 {
            let (start, length) = capsule::item(&input.capsule, i);
            assert!(start >= before && length > 0 && start + length <= input.capsule.len() as u64);
            before = start + length;
            let (image, image_length) = capsule::image(&input.capsule, i);
            let (vendor, vendor_length) = capsule::vendor_code(&input.capsule, i);
            assert!(start <= image && image + image_length == vendor && vendor + vendor_length <= start + length);
        }
        if drivers as u64 + payloads as u64 > 0 {
            assert_eq!(before, input.capsule.len() as u64);
        }
    }
}

/// The place against its rule (G12), start by start, in windows that are small enough for it.
#[test]
fn the_place_is_the_lowest() {
    for k in 0..3_000 {
        let mut input = gather_input(6, k);
        if input.window.len() > 600 {
            continue;
        }
        let before = input.window.clone();
        let answer = gather::gather(&mut input.window, input.base, input.first);
        let listed = match gather::read_list(&before, input.base, input.first) {
            Err(number) => {
                assert_eq!(answer, Err(number));
                assert_eq!(input.window, before);
                continue;
            }
            Ok(listed) => listed,
        };
        if listed.total == 0 {
            assert_eq!(answer, Err(6));
            continue;
        }
        let apart = |start: u128, at: u128, length: u128| start + listed.total <= at || at + length <= start;
        let low = input.base as u128;
        let high = low + before.len() as u128;
        let mut lowest = None;
        let mut start = low;
        while start + listed.total <= high && lowest.is_none() {
            if listed.blocks.iter().all(|&(a, l)| apart(start, a, l))
                && listed.descriptors.iter().all(|&a| apart(start, a, 16))
            {
                lowest = Some(start);
            }
            start += 1;
        }
        match lowest {
            None => assert_eq!(answer, Err(7)),
            Some(place) => assert_eq!(answer, Ok((place as u64, listed.total as u64))),
        }
    }
}

/// The digests after 1,000 inputs of seed 1. They move only with a recipe or with a rule.
#[test]
fn digests_as_they_stand() {
    let stand: [(&str, u64, u64); 18] = [
        ("gather", 0x2dac9d04, 0xd57fdcb2),
        ("capsule", 0x70f6ca52, 0xd3e7b734),
        ("start_up", 0x95a0993a, 0xeb2d5c2b),
        ("repair", 0x0466726f, 0x1d2902f1),
        ("begin", 0x04b153a8, 0x2a511e2b),
        ("commit", 0xb075e7ca, 0x17ad6216),
        ("end", 0x1d2741e4, 0x60f8810a),
        ("cancel", 0x7755b884, 0xbf2f2521),
        ("accept", 0x86f05853, 0xff60abe1),
        ("select_previous", 0x0cce8511, 0x9d6a203b),
        ("report", 0x26331f3a, 0xac6f1373),
        ("soundness", 0x31a34d57, 0x2afe5ca3),
        ("directory_write", 0xbcd8b569, 0x927fcca1),
        ("directory_read", 0xca18159e, 0x963921a1),
        ("crc", 0x881a35cd, 0x8f2bcfbf),
        ("pack", 0x55cc3e4c, 0x883210b5),
        ("pack_again", 0xaf4a89cd, 0x245a8ba6),
        ("rules", 0x31a34d57, 0x0eb5fde7),
    ];
    for (entry, inputs, answers) in stand {
        let mut account = Account::default();
        for k in 0..1_000 {
            answer(entry, 1, k, &mut account);
        }
        assert_eq!((account.inputs.value, account.answers.value), (inputs, answers), "{entry}");
    }
}

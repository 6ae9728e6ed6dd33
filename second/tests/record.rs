//! The record (rules R), and samples 9 to 11.

use second::bytes::put;
use second::make::*;
use second::record::*;
use second::session::update_bank;

fn copy_with(plan: &RecordPlan) -> Vec<u8> {
    let mut copy = vec![0xAB; COPY];
    let record = record_bytes(plan);
    copy[..record.len()].copy_from_slice(&record);
    copy
}

fn changed(plan: &RecordPlan, at: usize, width: usize, value: u128) -> u32 {
    let mut copy = copy_with(plan);
    put(&mut copy, at, width, value);
    renew_crc(&mut copy);
    first_failing_rule(&copy)
}

#[test]
fn sample_9_crc() {
    assert_eq!(crc32(b"123456789"), 0xCBF4_3926);
    assert_eq!(crc32(b""), 0);
}

#[test]
fn sample_10_sizes() {
    for (banks, images, want) in [(2, 1, 120), (2, 3, 280), (4, 32, 4_136)] {
        let copy = copy_with(&plan(banks, images));
        assert_eq!(first_failing_rule(&copy), 0);
        assert_eq!(size(&copy), want);
        assert_eq!(record_of(&copy).len() as u128, want);
    }
}

#[test]
fn sample_11_update_bank() {
    assert_eq!(update_bank(0, 2), 1);
    assert_eq!(update_bank(2, 3), 0);
}

#[test]
fn every_count_of_banks_and_images() {
    for banks in 2..=4 {
        for images in 1..=32 {
            assert_eq!(first_failing_rule(&copy_with(&plan(banks, images))), 0);
        }
    }
    for (banks, images, want) in [(1, 1, 2), (5, 1, 2), (0, 1, 2), (2, 0, 3), (2, 33, 3), (4, 33, 3)] {
        let mut copy = copy_with(&plan(2, 1));
        let entry = 32 + 24 * banks;
        copy[32] = banks as u8;
        put(&mut copy, 34, 2, images as u128);
        put(&mut copy, 36, 2, entry as u128);
        put(&mut copy, 16, 4, (40 + images * entry) as u128);
        renew_crc(&mut copy);
        assert_eq!(first_failing_rule(&copy), want);
    }
}

#[test]
fn rules_1_to_7() {
    let p = plan(3, 2);
    let size = 40 + 2 * 104;
    for (at, width, value, want) in [
        (4usize, 4usize, 2u128, 0u32),
        (4, 4, 1, 1),
        (4, 4, 3, 1),
        (4, 4, 0, 1),
        (4, 4, 0x0002_0002, 1),
        (32, 1, 1, 2),
        (32, 1, 5, 2),
        (32, 1, 2, 5),
        (32, 1, 4, 5),
        (34, 2, 0, 3),
        (34, 2, 33, 3),
        (34, 2, 0x0102, 3),
        (34, 2, 1, 6),
        (34, 2, 3, 6),
        (34, 2, 32, 6),
        (38, 2, 23, 4),
        (38, 2, 25, 4),
        (38, 2, 0x0118, 4),
        (36, 2, 103, 5),
        (36, 2, 105, 5),
        (36, 2, 80, 5),
        (16, 4, size - 1, 6),
        (16, 4, size + 1, 6),
        (16, 4, size + 104, 6),
        (16, 4, 8_193, 6),
        (16, 4, 0xFFFF_FFFF, 6),
        (16, 4, 0, 6),
        (20, 2, 31, 7),
        (20, 2, 33, 7),
        (20, 2, 0, 7),
        (20, 2, 0x2020, 7),
    ] {
        assert_eq!(changed(&p, at, width, value), want, "at {at} value {value}");
    }
}

#[test]
fn rule_8_every_reserved_byte() {
    for (banks, images) in [(2usize, 3usize), (4, 32)] {
        let p = plan(banks, images);
        let mut places = vec![22, 23, 28, 29, 30, 31, 33];
        for i in 0..images {
            for b in 0..banks {
                let at = 40 + i * (32 + 24 * banks) + 32 + 24 * b + 20;
                places.extend([at, at + 3]);
            }
        }
        for at in places {
            assert_eq!(changed(&p, at, 1, 0x40), 8, "at {at}");
        }
    }
}

#[test]
fn rule_9_active_and_previous() {
    for banks in 2..=4u128 {
        let p = plan(banks as usize, 2);
        for at in [8, 12] {
            assert_eq!(changed(&p, at, 4, banks - 1), 0);
            assert_eq!(changed(&p, at, 4, banks), 9);
            assert_eq!(changed(&p, at, 4, 0xFFFF_FFFF), 9);
            assert_eq!(changed(&p, at, 4, 0x0100_0000), 9);
        }
    }
    // Previous may equal active.
    assert_eq!(changed(&plan(2, 1), 12, 4, 0), 0);
}

#[test]
fn rule_10_accepted_fields() {
    let mut p = plan(3, 4);
    p.states[2] = 255;
    p.accepted[2] = 0b0101;
    for i in 0..4 {
        for b in 0..3 {
            let at = 40 + i * 104 + 32 + 24 * b + 16;
            for value in [2u128, 3, 0x0100, 0x8000_0001, 0xFFFF_FFFF] {
                assert_eq!(changed(&p, at, 4, value), 10);
            }
            // A 255 bank may have any accepted flags; a 252 bank not.
            assert_eq!(changed(&p, at, 4, 0), if b == 2 { 0 } else { 13 });
        }
    }
}

#[test]
fn rule_11_type_guids() {
    for place in 0..16 {
        let p = RecordPlan { guid_place: place, ..plan(2, 32) };
        assert_eq!(first_failing_rule(&copy_with(&p)), 0);
        for (i, j) in [(0usize, 1u8), (0, 31), (31, 0), (30, 31), (7, 12)] {
            assert_eq!(changed(&p, 40 + i * 80 + place, 1, j as u128), 11);
        }
    }
    // Location and image GUIDs may be equal.
    let mut copy = copy_with(&plan(2, 2));
    for i in 0..2 {
        copy[40 + i * 80 + 16..40 + i * 80 + 48].fill(5);
    }
    renew_crc(&mut copy);
    assert_eq!(first_failing_rule(&copy), 0);
}

#[test]
fn rule_12_states() {
    for banks in 2..=4usize {
        let p = plan(banks, 2);
        for bank in 0..4 {
            for value in 0..=255u128 {
                let want = match (bank < banks, value) {
                    (true, 252) | (false, 255) => 0,
                    (true, 254) => 13,
                    (true, 255) => {
                        if bank == 0 {
                            13
                        } else {
                            0
                        }
                    }
                    _ => 12,
                };
                assert_eq!(changed(&p, 24 + bank, 1, value), want, "bank {bank} of {banks}, state {value}");
            }
        }
    }
}

#[test]
fn rule_13_states_fit() {
    for images in [1usize, 2, 32] {
        for banks in 2..=4 {
            for bank in 0..banks {
                let mut p = plan(banks, images);
                p.states[bank] = 254;
                assert_eq!(first_failing_rule(&copy_with(&p)), 13);
                for i in 0..images {
                    p.accepted[bank] = full_set(images) & !(1 << i);
                    p.states[bank] = 254;
                    assert_eq!(first_failing_rule(&copy_with(&p)), 0);
                    p.states[bank] = 252;
                    assert_eq!(first_failing_rule(&copy_with(&p)), 13);
                    p.states[bank] = 255;
                    assert_eq!(first_failing_rule(&copy_with(&p)), if bank == 0 { 13 } else { 0 });
                }
            }
        }
    }
}

#[test]
fn rule_14_every_bit() {
    let good = copy_with(&plan(2, 1));
    for byte in 0..4 {
        for bit in 0..8 {
            let mut copy = good.clone();
            copy[byte] ^= 1 << bit;
            assert_eq!(first_failing_rule(&copy), 14);
        }
    }
    // A GUID byte that no other rule judges.
    let mut copy = good.clone();
    copy[40 + 16] ^= 1;
    assert_eq!(first_failing_rule(&copy), 14);
    // Bytes behind the record are free.
    for at in [120, 121, 8_191] {
        let mut copy = good.clone();
        copy[at] ^= 0xFF;
        assert_eq!(first_failing_rule(&copy), 0);
    }
}

#[test]
fn the_first_rule_counts() {
    let mut copy = copy_with(&plan(2, 2));
    let mut expect = |at: usize, value: u8, want: u32| {
        copy[at] = value;
        assert_eq!(first_failing_rule(&copy), want);
    };
    expect(0, 1, 14);
    expect(24, 255, 13);
    expect(27, 254, 12);
    expect(40 + 80 + 15, 0, 11);
    expect(40 + 32 + 16, 2, 10);
    expect(12, 2, 9);
    expect(33, 1, 8);
    expect(20, 0, 7);
    expect(16, 0, 6);
    expect(36, 0, 5);
    expect(38, 0, 4);
    expect(34, 0, 3);
    expect(32, 0, 2);
    expect(4, 1, 1);
}

#[test]
fn the_record_read() {
    let a = make_record(2, 1, 0, 1);
    let b = make_record(4, 3, 2, 3);
    let bad = {
        let mut r = a.clone();
        r[0] ^= 1;
        r
    };
    assert_eq!(record_read(&make_area(&a, &b, 0)), Some((0, a.clone())));
    assert_eq!(record_read(&make_area(&bad, &b, 0)), Some((1, b.clone())));
    assert_eq!(record_read(&make_area(&a, &bad, 0)), Some((0, a.clone())));
    assert_eq!(record_read(&make_area(&bad, &bad, 0)), None);
    assert!(both_sound_and_equal(&make_area(&a, &a, 0)));
    assert!(!both_sound_and_equal(&make_area(&a, &b, 0)));
    assert!(!both_sound_and_equal(&make_area(&bad, &bad, 0)));
    // Bytes behind the records don't count.
    let mut area = make_area(&a, &a, 0);
    area[120] ^= 1;
    assert!(both_sound_and_equal(&area));
}

#[test]
fn equal_crcs_are_not_equal_records() {
    // Two sound records whose image GUIDs differ by a multiple of the CRC's divisor have one CRC and are not equal.
    let a = make_record(2, 1, 0, 1);
    let mut b = a.clone();
    // The divisor, 33 coefficients from the highest on, one per bit in reflected order.
    let divisor: u64 = 1 | ((0xEDB8_8320u64) << 1);
    for i in 0..33 {
        if (divisor >> i) & 1 == 1 {
            b[56 + i / 8] ^= 1 << (i % 8);
        }
    }
    assert_ne!(a, b);
    assert_eq!(a[..4], b[..4]);
    let area = make_area(&a, &b, 0);
    assert!(sound(copy_of(&area, 0)) && sound(copy_of(&area, 1)));
    assert!(!both_sound_and_equal(&area));
}

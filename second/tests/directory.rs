//! The image directory (DEN0118, tables 3.2 and 3.3): writer, reader, and one after the other.

use second::bytes::{number, put};
use second::directory::*;
use second::inputs::*;
use second::make::*;
use second::record::*;

fn both(plan: &RecordPlan) -> Vec<u8> {
    let r = record_bytes(plan);
    make_area(&r, &r, 17)
}

/// Four words for each image, all of them different, permissions 7.
fn words_for(images: usize) -> Vec<u32> {
    (0..4 * images as u32).map(|q| if q % 4 == 0 { 7 } else { 0xF000_0000 + 1_000 * q }).collect()
}

/// What the writer leaves in a room of so many bytes that all held 7, with its answer.
fn written(area: &[u8], booted: u32, words: &[u32], room: usize) -> (Result<u64, u32>, Vec<u8>) {
    let mut bytes = vec![7; room];
    let answer = directory_write(area, booted, words, &mut bytes);
    (answer, bytes)
}

fn refused(area: &[u8], booted: u32, words: &[u32], room: usize, want: u32) {
    assert_eq!(written(area, booted, words, room), (Err(want), vec![7; room]));
}

/// The directory of the plan's record, in exactly its room.
fn directory_of(plan: &RecordPlan, booted: u32) -> Vec<u8> {
    let (answer, bytes) = written(&both(plan), booted, &words_for(plan.images), 24 + 40 * plan.images);
    assert_eq!(answer, Ok(bytes.len() as u64));
    bytes
}

#[test]
fn one_image_byte_for_byte() {
    let p = RecordPlan { guid_place: 0, ..plan(2, 1) };
    let words = [5, 0x0403_0201, 0x8070_6050, 0xFFFF_FFFF];
    let (answer, bytes) = written(&both(&p), 0, &words, 66);
    assert_eq!(answer, Ok(64));
    let want = [
        2, 0, 0, 0, 24, 0, 0, 0, 1, 0, 0, 0, 1, 0, 0, 0, 40, 0, 0, 0, 0, 0, 0, 0, //
        0, 161, 162, 163, 164, 165, 166, 167, 168, 169, 170, 171, 172, 173, 174, 175, //
        5, 0, 0, 0, 1, 2, 3, 4, 0x50, 0x60, 0x70, 0x80, 255, 255, 255, 255, 1, 0, 0, 0, 0, 0, 0, 0, //
        7, 7,
    ];
    assert_eq!(bytes, want);
    assert_eq!(directory_check(&bytes[..64]), Ok((1, 1)));
    assert_eq!(directory_type_guid(&bytes[..64], 0), Ok((24, 16)));
    assert_eq!(directory_numbers(&bytes[..64], 0), Ok([5, 0x0403_0201, 0x8070_6050, 0xFFFF_FFFF, 1]));
}

#[test]
fn every_count_of_banks_and_images() {
    for banks in 2..=4 {
        for images in 1..=32 {
            let d = directory_of(&plan(banks, images), 0);
            assert_eq!(d.len(), 24 + 40 * images);
            assert_eq!(directory_check(&d), Ok((images as u32, 1)));
        }
    }
}

/// 20, 21 and 28 come before the writer's own, 40 before 41 before 42.
#[test]
fn order_of_the_writer() {
    let p = plan(3, 2);
    let mut area = both(&p);
    let bad = [8u32; 8];
    refused(&area[1..], 9, &bad[1..], 0, 20);
    refused(&[], 9, &bad[1..], 0, 20);
    area.push(0);
    refused(&area, 9, &bad[1..], 0, 20);
    area.truncate(AREA);
    area[4] = 0;
    refused(&area, 3, &bad[1..], 0, 28);
    area[COPY + 4] = 0;
    refused(&area, 3, &bad[1..], 0, 21);
    let area = both(&p);
    for booted in [3, 4, 0x8000_0000, u32::MAX] {
        refused(&area, booted, &bad[1..], 0, 28);
        refused(&area, booted, &words_for(2), 104, 28);
    }
    refused(&area, 2, &bad[1..], 0, 40);
    refused(&area, 2, &bad[1..], 104, 40);
    refused(&area, 2, &bad, 0, 41);
    refused(&area, 2, &bad, 103, 41);
    refused(&area, 2, &words_for(2), 103, 42);
}

#[test]
fn words_and_room_at_their_limits() {
    for images in [1, 2, 31, 32] {
        let area = both(&plan(2, images));
        let (words, size) = (words_for(images), 24 + 40 * images);
        let want = directory_of(&plan(2, images), 0);
        for n in [0, 1, 4 * images - 4, 4 * images - 1] {
            refused(&area, 0, &words[..n], size, 40);
        }
        for n in [4 * images, 4 * images + 1, 4 * images + 4, 300] {
            // What stands past the record's images is not looked at.
            let mut longer = words.clone();
            longer.resize(n, u32::MAX);
            assert_eq!(written(&area, 0, &longer, size), (Ok(size as u64), want.clone()));
        }
        for room in [0, 1, 23, 24, size - 40, size - 1] {
            refused(&area, 0, &words, room, 42);
        }
        for room in [size, size + 1, size + 40, 2_700] {
            let mut bytes = want.clone();
            bytes.resize(room, 7);
            assert_eq!(written(&area, 0, &words, room), (Ok(size as u64), bytes));
        }
    }
}

#[test]
fn permissions_of_the_writer() {
    for images in [1usize, 2, 32] {
        let area = both(&plan(2, images));
        let size = 24 + 40 * images;
        for image in 0..images {
            for value in 0..8 {
                let mut words = words_for(images);
                words[4 * image] = value;
                let (answer, bytes) = written(&area, 0, &words, size);
                assert_eq!(answer, Ok(size as u64));
                assert_eq!(directory_numbers(&bytes, image as u64).unwrap()[0], value);
            }
            for value in (3..32).map(|bit| 1 << bit).chain([0x8000_0007, u32::MAX]) {
                let mut words = words_for(images);
                words[4 * image] = value;
                refused(&area, 0, &words, size, 41);
                // The same in any other word is no fault.
                for other in 1..4 {
                    let mut words = words_for(images);
                    words[4 * image + other] = value;
                    assert_eq!(written(&area, 0, &words, size).0, Ok(size as u64));
                }
            }
        }
    }
}

/// The flags are those of the booted bank; correct_boot is 0 in Fallback alone.
#[test]
fn booted_banks() {
    let p = RecordPlan {
        active: 1,
        previous: 0,
        states: [252, 254, 255, 254],
        accepted: [0b111, 0b101, 0b110, 0b000],
        ..plan(4, 3)
    };
    for booted in 0..4u32 {
        let d = directory_of(&p, booted);
        assert_eq!(directory_check(&d), Ok((3, if booted == 1 { 1 } else { 0 })));
        for image in 0..3 {
            let flag = (p.accepted[booted as usize] >> image) & 1;
            assert_eq!(directory_numbers(&d, image).unwrap()[4], flag, "bank {booted}, image {image}");
        }
    }
    // Regular.
    let d = directory_of(&RecordPlan { active: 0, ..p }, 0);
    assert_eq!(directory_check(&d), Ok((3, 1)));
}

/// The record read is copy 0's if it is sound, else copy 1's; copies that differ are no reason to refuse.
#[test]
fn which_copy() {
    let (one, two) = (plan(2, 1), RecordPlan { active: 1, ..plan(3, 2) });
    let (zero, other) = (record_bytes(&one), record_bytes(&two));
    let mut area = make_area(&zero, &other, 3);
    assert_eq!(written(&area, 0, &words_for(1), 64), (Ok(64), directory_of(&one, 0)));
    refused(&area, 2, &words_for(2), 104, 28);
    area[4] = 0;
    refused(&area, 0, &words_for(1), 64, 40);
    assert_eq!(written(&area, 1, &words_for(2), 104), (Ok(104), directory_of(&two, 1)));
    assert_eq!(written(&area, 2, &words_for(2), 104), (Ok(104), directory_of(&two, 2)));
}

/// Nothing of a refused directory is shown.
fn not_taken(d: &[u8], want: u32) {
    assert_eq!(directory_refusal(d), want);
    assert_eq!(directory_check(d), Err(want));
    assert_eq!(directory_type_guid(d, 0), Err(want));
    assert_eq!(directory_numbers(d, u64::MAX), Err(want));
}

fn with(d: &[u8], at: usize, value: u128) -> Vec<u8> {
    let mut changed = d.to_vec();
    put(&mut changed, at, 4, value);
    changed
}

#[test]
fn lengths_of_the_reader() {
    for images in [1, 2, 31, 32] {
        let d = directory_of(&plan(2, images), 0);
        let size = d.len();
        assert_eq!(directory_refusal(&d), 0);
        for length in [0, 1, 22, 23] {
            not_taken(&d[..length], 43);
        }
        for length in [24, 25, 63, size - 40, size - 1].into_iter().filter(|&length| length < size) {
            not_taken(&d[..length], 45);
        }
        for length in [size + 1, size + 40] {
            let mut longer = d.clone();
            longer.resize(length, 0);
            not_taken(&longer, 45);
        }
    }
}

/// A directory of any number of images, all else right.
fn directory_with(images: usize) -> Vec<u8> {
    let mut d = directory_of(&plan(2, 1), 0);
    put(&mut d, 8, 4, images as u128);
    d.truncate(24);
    for image in 0..images {
        d.extend_from_slice(&type_guid_for(image, 15));
        d.extend_from_slice(&[0; 24]);
    }
    d
}

#[test]
fn image_counts() {
    for images in 1..=32 {
        assert_eq!(directory_check(&directory_with(images)), Ok((images as u32, 1)));
    }
    for images in [0, 33, 34, 64] {
        not_taken(&directory_with(images), 44);
    }
    let d = directory_with(3);
    for count in [1, 2, 4, 32] {
        not_taken(&with(&d, 8, count), 45);
    }
    for count in [0, 33, 256 + 3, 65_536 + 3, 0x2000_0003, 0x8000_0003, 0xFFFF_FFFF] {
        not_taken(&with(&d, 8, count), 44);
    }
}

#[test]
fn fields_of_the_header() {
    let d = directory_of(&plan(2, 3), 0);
    for (at, good, bad) in [
        (0, &[2u128][..], &[0u128, 1, 3, 258, 0x8000_0002][..]),
        (4, &[24], &[0, 23, 25, 280, 0x8000_0018]),
        (12, &[0, 1], &[2, 3, 256, 257, 0x8000_0000, 0x8000_0001, 0xFFFF_FFFF]),
        (16, &[40], &[0, 39, 41, 296, 0x8000_0028]),
        (20, &[0], &[1, 2, 256, 0x8000_0000]),
    ] {
        for &value in good {
            assert_eq!(directory_refusal(&with(&d, at, value)), 0, "{value} at {at}");
        }
        for &value in bad {
            not_taken(&with(&d, at, value), 44);
        }
    }
    assert_eq!(directory_check(&with(&d, 12, 0)), Ok((3, 0)));
}

#[test]
fn fields_of_entries() {
    for images in [1, 2, 32] {
        let d = directory_of(&plan(2, images), 0);
        for image in 0..images {
            let at = 24 + 40 * image;
            for value in 0..8 {
                assert_eq!(directory_refusal(&with(&d, at + 16, value)), 0);
            }
            for bit in 3..32 {
                not_taken(&with(&d, at + 16, 1 << bit), 46);
                not_taken(&with(&d, at + 16, 7 + (1 << bit)), 46);
            }
            for value in [0, 1] {
                let changed = with(&d, at + 32, value);
                assert_eq!(directory_numbers(&changed, image as u64).unwrap()[4] as u128, value);
            }
            for value in [2, 3, 256, 257, 65_537, 0x8000_0000, 0x8000_0001, 0xFFFF_FFFF] {
                not_taken(&with(&d, at + 32, value), 46);
            }
            for bit in 0..32 {
                not_taken(&with(&d, at + 36, 1 << bit), 46);
            }
            // Sizes and versions are free.
            for place in [20, 24, 28] {
                for value in [0, 1, 0x8000_0000, 0xFFFF_FFFF] {
                    assert_eq!(directory_refusal(&with(&d, at + place, value)), 0);
                }
            }
        }
    }
}

#[test]
fn type_guids_that_are_repeated() {
    for images in [2, 3, 32] {
        for place in [0, 1, 14, 15] {
            let d = directory_of(&RecordPlan { guid_place: place, ..plan(2, images) }, 0);
            assert_eq!(directory_refusal(&d), 0);
            for from in 0..images {
                for to in (0..images).filter(|&to| to != from) {
                    let mut changed = d.clone();
                    changed[24 + 40 * to + place] = from as u8;
                    not_taken(&changed, 46);
                }
            }
        }
    }
}

#[test]
fn order_of_the_reader() {
    let mut d = directory_of(&plan(2, 2), 0);
    d[24 + 40 + 15] = 0;
    not_taken(&d, 46);
    d.push(0);
    not_taken(&d, 45);
    not_taken(&d[..103], 45);
    not_taken(&d[..24], 45);
    d[20] = 1;
    not_taken(&d, 44);
    not_taken(&d[..103], 44);
    not_taken(&d[..24], 44);
    not_taken(&d[..23], 43);
}

#[test]
fn entries_that_are_asked_for() {
    for images in [1, 2, 32] {
        let d = directory_of(&plan(2, images as usize), 0);
        let words = words_for(images as usize);
        for entry in 0..images {
            let at = 4 * entry as usize;
            assert_eq!(directory_type_guid(&d, entry), Ok((24 + 40 * entry, 16)));
            let numbers = [words[at], words[at + 1], words[at + 2], words[at + 3], 1];
            assert_eq!(directory_numbers(&d, entry), Ok(numbers));
        }
        for entry in [images, images + 1, 33, 1 << 29, 1 << 32, (1 << 32) + 1, 1 << 61, 1 << 63, u64::MAX] {
            assert_eq!(directory_type_guid(&d, entry), Ok((0, 0)));
            assert_eq!(directory_numbers(&d, entry), Ok([0; 5]));
        }
    }
}

/// What is written is taken, and shows what record, booted bank and words say.
#[test]
fn written_then_read() {
    let mut accepted_ones = 0;
    for k in 0..3_000 {
        let input = directory_write_input(8, k);
        let (answer, bytes) = written(&input.area, input.booted, &input.words, input.room);
        let length = match answer {
            Err(_) => {
                assert_eq!(bytes, vec![7; input.room]);
                continue;
            }
            Ok(length) => length as usize,
        };
        accepted_ones += 1;
        assert!(bytes[length..].iter().all(|&byte| byte == 7));
        let d = &bytes[..length];
        let (_, record) = record_read(&input.area).unwrap();
        let correct = (input.booted as u128 == active(&record)) as u32;
        assert_eq!(directory_check(d), Ok((images(&record) as u32, correct)));
        for image in 0..images(&record) {
            let (start, size) = directory_type_guid(d, image as u64).unwrap();
            assert_eq!(d[start as usize..(start + size) as usize], type_guid(&record, image));
            let numbers = directory_numbers(d, image as u64).unwrap();
            assert_eq!(numbers[..4], input.words[4 * image as usize..4 * image as usize + 4]);
            assert_eq!(numbers[4] as u128, accepted(&record, image, input.booted as u128));
        }
    }
    assert!(accepted_ones > 500);
}

/// An area, a booted bank and words that show what the directory does, of so many banks. With correct_boot 0 the
/// active bank is the one behind the booted one.
fn shown_by(d: &[u8], banks: usize, booted: usize, tint: usize) -> (Vec<u8>, Vec<u32>) {
    let (images, correct_boot) = directory_check(d).unwrap();
    let images = images as usize;
    let mut p = plan(banks, images);
    let mut words = Vec::new();
    p.accepted[booted] = 0;
    for image in 0..images {
        let numbers = directory_numbers(d, image as u64).unwrap();
        words.extend_from_slice(&numbers[..4]);
        p.accepted[booted] |= numbers[4] << image;
    }
    p.states[booted] = if p.accepted[booted] == full_set(images) { 252 } else { 254 };
    p.active = ((booted + 1 - correct_boot as usize) % banks) as u32;
    let mut record = record_bytes(&p);
    for image in 0..images {
        let (start, length) = directory_type_guid(d, image as u64).unwrap();
        let at = entry(&record, image as u128) as usize;
        record[at..at + 16].copy_from_slice(&d[start as usize..(start + length) as usize]);
    }
    let record = with_crc(record);
    assert!(sound(&record));
    (make_area(&record, &record, tint), words)
}

/// What the reader takes is what the writer makes of areas, booted banks and words that show it.
#[test]
fn read_then_written() {
    let mut taken = 0;
    for k in 0..3_000 {
        let d = directory_read_input(9, k).directory;
        if directory_refusal(&d) != 0 {
            continue;
        }
        taken += 1;
        let (banks, booted) = [(2, 0), (2, 1), (3, 2), (4, 1), (4, 3)][k as usize % 5];
        let (area, words) = shown_by(&d, banks, booted, k as usize % 256);
        assert_eq!(written(&area, booted as u32, &words, d.len()), (Ok(d.len() as u64), d));
    }
    assert!(taken > 500);
}

/// The recipes reach the limits of words, room, counts, lengths and entries, and every bank as the booted one.
#[test]
fn limits_of_directories_are_met() {
    use std::collections::BTreeSet;
    let (mut ns, mut rooms, mut booted) = (BTreeSet::new(), BTreeSet::new(), BTreeSet::new());
    let (mut past, mut lengths, mut entries) = (0, BTreeSet::new(), BTreeSet::new());
    for k in 0..6_000 {
        let input = directory_write_input(1, k);
        let (n, need) = (input.words.len(), 4 * input.plan.images);
        assert!(n <= 300 && input.room <= 2_700);
        ns.insert((n as i64 - need as i64).clamp(-5, 5));
        rooms.insert((input.room as i64 - 24 - 40 * input.plan.images as i64).clamp(-41, 41));
        booted.insert((input.plan.banks, input.plan.active, input.booted));
        past += (n > need && input.words[need] > 7) as u32;
        let input = directory_read_input(1, k);
        let count = number(&input.directory, 8, 4) as i64;
        if (0..34).contains(&count) {
            lengths.insert((input.directory.len() as i64 - 24 - 40 * count).clamp(-41, 41));
            entries.insert((input.entry as i128 - count as i128).clamp(-2, 2));
        }
    }
    assert!([-4, -1, 0, 1, 4].iter().all(|n| ns.contains(n)));
    assert!([-41, -40, -1, 0, 1, 40, 41].iter().all(|room| rooms.contains(room)));
    assert!((2..5).all(|b| (0..b as u32).all(|a| (0..b as u32 + 2).all(|o| booted.contains(&(b, a, o))))));
    assert!(past > 50);
    assert!([-41, -40, -1, 0, 1, 40].iter().all(|length| lengths.contains(length)));
    assert_eq!(entries.into_iter().collect::<Vec<_>>(), [-2, -1, 0, 1, 2]);
}

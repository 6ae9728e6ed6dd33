//! A directory written for a client and read by it, and every refusal of both.

use meanderpeg::{
    start_up, write_directory, BankIndex, Directory, Guid, ImageWords, Permissions, Refusal, SessionState,
    DIRECTORY_BYTES, DIRECTORY_ENTRY_BYTES, DIRECTORY_HEADER_BYTES,
};
use second::make::{make_area, plan, record_bytes, type_guid_for, RecordPlan};

const IMAGES: usize = 3;

/// Bank 0 accepted; bank 1 active and on trial, with image 1 not yet accepted.
fn sample_area() -> Vec<u8> {
    let trial = RecordPlan {
        states: [252, 254, 255, 255],
        accepted: [0b111, 0b101, 0, 0],
        active: 1,
        previous: 0,
        ..plan(2, IMAGES)
    };
    let record = record_bytes(&trial);
    make_area(&record, &record, 9)
}

fn words() -> Vec<ImageWords> {
    let permissions = [Permissions::NONE, Permissions::WRITE | Permissions::READ, Permissions::ACTIVATE_FIRST];
    let image = |(i, permissions)| ImageWords {
        permissions,
        maximum_size: u32::MAX - i,
        lowest_accepted_version: 10 + i,
        version: 20 + i,
    };
    (0..).zip(permissions).map(image).collect()
}

#[test]
fn written_and_read() -> Result<(), Refusal> {
    let (area, words) = (sample_area(), words());
    let mut room = [0xEE; DIRECTORY_BYTES];
    for (booted, state) in [(0, SessionState::Fallback), (1, SessionState::Trial)] {
        let booted = BankIndex::new(booted);
        assert_eq!(start_up(&area, booted)?.state(), state);
        let written = write_directory(&area, booted, &words, &mut room)?;
        assert_eq!(written.len(), DIRECTORY_HEADER_BYTES + IMAGES * DIRECTORY_ENTRY_BYTES);
        let directory = Directory::read(written)?;
        assert_eq!((directory.images(), directory.bytes()), (IMAGES, written));
        assert_eq!(directory.correct_boot(), state != SessionState::Fallback);
        for (i, given) in words.iter().enumerate() {
            let entry = directory.entry(i).expect("an entry");
            assert_eq!((entry.number(), entry.words()), (i, *given));
            assert_eq!((entry.permissions(), entry.version()), (given.permissions, given.version));
            assert_eq!(entry.maximum_size(), given.maximum_size);
            assert_eq!(entry.lowest_accepted_version(), given.lowest_accepted_version);
            assert_eq!(entry.accepted(), i != 1 || state == SessionState::Fallback);
            assert_eq!(entry.type_guid(), Guid::from_bytes(type_guid_for(i, 15)));
            let start = DIRECTORY_HEADER_BYTES + i * DIRECTORY_ENTRY_BYTES;
            assert!(std::ptr::eq(entry.type_guid_bytes().as_slice(), &written[start..start + 16]));
        }
        let entries: Vec<_> = directory.entries().collect();
        assert_eq!(entries, (0..IMAGES).filter_map(|i| directory.entry(i)).collect::<Vec<_>>());
        for past in [IMAGES, IMAGES + 1, 32, 1 << 61, usize::MAX] {
            assert_eq!(directory.entry(past), None);
        }
        // Whoever reads and writes again, from the same record, makes the same bytes.
        let (again, mut other) = (entries.iter().map(|entry| entry.words()), [0; DIRECTORY_BYTES]);
        assert_eq!(write_directory(&area, booted, &again.collect::<Vec<_>>(), &mut other)?, written);
        assert!(room[DIRECTORY_HEADER_BYTES + IMAGES * DIRECTORY_ENTRY_BYTES..].iter().all(|&byte| byte == 0xEE));
    }
    Ok(())
}

/// The longest directory fills the room that is always enough.
#[test]
fn of_32_images() -> Result<(), Refusal> {
    let record = record_bytes(&plan(4, 32));
    let area = make_area(&record, &record, 9);
    let mut room = [0; DIRECTORY_BYTES];
    let written = write_directory(&area, BankIndex::new(3), &[ImageWords::default(); 32], &mut room)?;
    assert_eq!((written.len(), Directory::read(written)?.entries().count()), (DIRECTORY_BYTES, 32));
    Ok(())
}

/// Each refusal of the writer, in its order: what is refused first has all later faults as well. The room stays.
#[test]
fn refused_by_the_writer() {
    let (area, words) = (sample_area(), words());
    let mut spoilt = area.clone();
    (spoilt[4], spoilt[8_192 + 4]) = (0, 0);
    let mut other_bit = words.clone();
    other_bit[IMAGES - 1].permissions = Permissions::READ | Permissions::from_bits(8);
    let size = DIRECTORY_HEADER_BYTES + IMAGES * DIRECTORY_ENTRY_BYTES;
    let cases = [
        (Refusal::AreaLength, &area[1..], 2, &other_bit[1..], size - 1),
        (Refusal::NoSoundCopy, &spoilt[..], 2, &other_bit[1..], size - 1),
        (Refusal::BootedBank, &area[..], 2, &other_bit[1..], size - 1),
        (Refusal::DirectoryWords, &area[..], 1, &other_bit[1..], size - 1),
        (Refusal::DirectoryPermissions, &area[..], 1, &other_bit[..], size - 1),
        (Refusal::DirectoryRoom, &area[..], 1, &words[..], size - 1),
    ];
    for (refusal, area, booted, words, length) in cases {
        let mut room = vec![0xEE; length];
        assert_eq!(write_directory(area, BankIndex::new(booted), words, &mut room), Err(refusal));
        assert!(room.iter().all(|&byte| byte == 0xEE), "{refusal}");
    }
    // The same bit behind the record's images is not looked at, and one sound copy is enough.
    let more = [&words[..], &other_bit[..]].concat();
    spoilt[4] = 2;
    assert_eq!(write_directory(&spoilt, BankIndex::new(1), &more, &mut vec![0; size]).map(<[_]>::len), Ok(size));
}

/// Each refusal of the reader, in its order; and each field at fault by itself.
#[test]
fn refused_by_the_reader() -> Result<(), Refusal> {
    let mut room = [0; DIRECTORY_BYTES];
    let written = write_directory(&sample_area(), BankIndex::new(1), &words(), &mut room)?;
    let size = written.len();
    let read = |faults: &[(usize, u8)], length: usize| {
        let mut bytes = room;
        faults.iter().for_each(|&(at, byte)| bytes[at] = byte);
        Directory::read(&bytes[..length]).map(|directory| directory.images())
    };
    assert_eq!(read(&[], size), Ok(IMAGES));
    assert_eq!(read(&[(0, 3), (40, 8)], 23), Err(Refusal::DirectoryShort));
    assert_eq!(read(&[(0, 3), (40, 8)], size - 1), Err(Refusal::DirectoryHeader));
    assert_eq!(read(&[(40, 8)], size - 1), Err(Refusal::DirectoryLength));
    assert_eq!(read(&[(40, 8)], size), Err(Refusal::DirectoryEntries));
    for length in [24, size - 40, size + 1, size + 40, DIRECTORY_BYTES] {
        assert_eq!(read(&[], length), Err(Refusal::DirectoryLength), "{length}");
    }
    // Version, array offset, images, correct_boot, entry size, reserved.
    for fault in [(0, 1), (4, 25), (8, 0), (8, 33), (9, 1), (12, 2), (16, 41), (20, 1), (23, 1)] {
        assert_eq!(read(&[fault], size), Err(Refusal::DirectoryHeader), "{fault:?}");
    }
    // Of the last entry: permissions, accepted, reserved; and a type GUID that another has.
    for fault in [(120, 8), (123, 128), (136, 2), (139, 1), (140, 1), (119, 0)] {
        assert_eq!(read(&[fault], size), Err(Refusal::DirectoryEntries), "{fault:?}");
    }
    Ok(())
}

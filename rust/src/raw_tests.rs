//! What the types of this package don't let a caller see or give: the numbers behind pointers after a refusal, sessions
//! that are none, requests above 1, words that are not four for an image, entries past a directory's count, and tables
//! with a rest that is no entry. Each of the library's functions against the second implementation, on inputs of
//! another seed than those of tests/against_second.rs.

use crate::packing::Lent;
use crate::raw;
use crate::{DRIVER_ENTRY_BYTES, PAYLOAD_ENTRY_BYTES, STORE_NUMBERS};
use second::answers::call_answer;
use second::capsule as plain_capsule;
use second::directory as plain_directory;
use second::inputs::{
    call_input, capsule_input, directory_read_input, directory_write_input, gather_input, pack_input, CallInput,
};
use second::packing as plain_packing;
use second::session::{self as plain, session_words};
use second::stores::apply;
use std::vec;
use std::vec::Vec;

const SEED: u64 = 2;
const INPUTS: u64 = 10_000;

#[test]
fn gather() {
    for k in 0..INPUTS {
        let mut input = gather_input(SEED, k);
        let mut window = input.window.clone();
        let mut gathered = raw::Gathered { address: 77, total: 88 };
        let number = raw::gather(&mut window, input.base, input.first, &mut gathered);
        let wanted = second::gather::gather(&mut input.window, input.base, input.first);
        let (address, total) = wanted.unwrap_or((77, 88));
        assert_eq!((number, gathered), (wanted.err().unwrap_or(0), raw::Gathered { address, total }), "input {k}");
        assert!(window == input.window, "input {k}");
    }
}

#[test]
fn capsule() {
    for k in 0..INPUTS {
        let input = capsule_input(SEED, k);
        let (capsule, item) = (&input.capsule[..], input.item as usize);
        let number = plain_capsule::refusal(capsule, input.item);
        let mut counts = raw::Counts { drivers: 77, payloads: 88 };
        let of_capsule = raw::capsule_check(capsule, &mut counts);
        let (drivers, payloads) = plain_capsule::counts(capsule);
        let wanted = if number < 10 || number == 16 { (0, drivers.into(), payloads.into()) } else { (number, 77, 88) };
        assert_eq!((of_capsule, counts.drivers, counts.payloads), wanted, "input {k}");
        type Place = fn(&[u8], usize, &mut raw::Part) -> u32;
        let parts: [(Place, (u64, u64)); 3] = [
            (raw::capsule_item, plain_capsule::item(capsule, input.item)),
            (raw::capsule_image, plain_capsule::image(capsule, input.item)),
            (raw::capsule_vendor_code, plain_capsule::vendor_code(capsule, input.item)),
        ];
        for (place, (start, length)) in parts {
            let mut part = raw::Part { start: 77, length: 88 };
            let found = (place(capsule, item, &mut part), part.start as u64, part.length as u64);
            assert_eq!(found, if number == 0 { (0, start, length) } else { (number, 77, 88) }, "input {k}");
        }
        shown(capsule, item, number, k);
    }
}

/// Type GUID, index and instance.
fn shown(capsule: &[u8], item: usize, number: u32, k: u64) {
    let (mut guid, mut index, mut instance) = ([5; 16], 66, 77);
    let numbers = [
        raw::capsule_type_guid(capsule, item, &mut guid),
        raw::capsule_image_index(capsule, item, &mut index),
        raw::capsule_hardware_instance(capsule, item, &mut instance),
    ];
    let wanted = if number == 0 { plain_capsule::shown(capsule, item as u64) } else { ([5; 16], 66, 77) };
    assert_eq!((numbers, (guid, index, instance)), ([number; 3], wanted), "input {k}");
}

#[test]
fn soundness_and_start_up() {
    let none = raw::Session { kind: 0, bank: 0, set: 0 };
    for k in 0..INPUTS {
        let input = call_input(0, SEED, k);
        let mut copies = 66;
        let number = raw::soundness(&input.area, &mut copies);
        let long = input.area.len() == crate::AREA_BYTES;
        assert_eq!((number, copies == 66), if long { (0, false) } else { (20, true) }, "input {k}");
        let wanted = plain::start_up(&input.area, input.booted);
        let session = if wanted.refusal == 0 { numbers_of(session_words(wanted.session)) } else { none };
        let answer = raw::Answer { refusal: wanted.refusal, told: [0, 0], session, pairs: 0 };
        assert_eq!(raw::start_up(&input.area, input.booted), answer, "input {k}");
    }
}

#[test]
fn repair() {
    let none = raw::Session { kind: 0, bank: 0, set: 0 };
    for k in 0..INPUTS {
        let input = call_input(1, SEED, k);
        let mut numbers = vec![9; input.slice_len as usize];
        let found = raw::repair(&input.area, &mut numbers);
        let wanted = plain::repair(&input.area, input.slice_len);
        assert_eq!((found.refusal, found.told, found.session), (wanted.refusal, [0, 0], none), "input {k}");
        performs(&input, &numbers, found, &wanted, k);
    }
}

/// The second implementation counts kinds from 0; 5 there, which names no session, is taken for C's 0, which names
/// none.
fn numbers_of((kind, bank, set): (u32, u32, u32)) -> raw::Session {
    let kind = match kind {
        0..=4 => kind + 1,
        5 => 0,
        other => other,
    };
    raw::Session { kind, bank, set }
}

fn answer_of(call: u64, input: &CallInput, stores: &mut [u32]) -> raw::Answer {
    let (session, area) = (numbers_of(input.raw), &input.area[..]);
    match call {
        2 => raw::begin(session, area, stores),
        3 => raw::commit(session, area, &input.guid, input.request, stores),
        4 => raw::end(session, area, stores),
        5 => raw::cancel(session, area, stores),
        6 => raw::accept(session, area, &input.guid, stores),
        _ => raw::select_previous(session, area, stores),
    }
}

/// The area after the listed stores, and the numbers past the list: all of them with a refusal.
fn performs(input: &CallInput, numbers: &[u32], found: raw::Answer, wanted: &plain::Answer, k: u64) {
    let stores = raw::stores_of(numbers, found.pairs).expect("a list in the slice");
    let pairs: Vec<_> = stores.iter().map(|store| (store.offset() as u32, store.word())).collect();
    assert!(apply(&input.area, &pairs) == wanted.area, "input {k}");
    assert!(numbers[2 * found.pairs..].iter().all(|&number| number == 9), "input {k}");
    assert!(found.refusal == 0 || found.pairs == 0, "input {k}");
}

fn calls(call: u64) {
    let (mut none, mut above) = (0, 0);
    for k in 0..INPUTS {
        let input = call_input(call, SEED, k);
        let mut numbers = vec![9; input.slice_len as usize];
        let found = answer_of(call, &input, &mut numbers);
        let wanted = call_answer(call, &input);
        // A refusal gives the session as it was, with bank and set that do not count.
        let given = numbers_of(input.raw);
        let session = if wanted.refusal == 0 { numbers_of(session_words(wanted.session)) } else { given };
        let told = [wanted.missing, 0];
        assert_eq!((found.refusal, found.told, found.session), (wanted.refusal, told, session), "input {k}");
        performs(&input, &numbers, found, &wanted, k);
        none += (given.kind == 0) as u64;
        above += (given.kind > 5) as u64;
    }
    assert!(none > 50 && above > 50, "{none} and {above} sessions that are none");
}

#[test]
fn begin() {
    calls(2);
}

#[test]
fn commit() {
    calls(3);
}

#[test]
fn end() {
    calls(4);
}

#[test]
fn cancel() {
    calls(5);
}

#[test]
fn accept() {
    calls(6);
}

#[test]
fn select_previous() {
    calls(7);
}

#[test]
fn directory_write() {
    for k in 0..INPUTS {
        let input = directory_write_input(SEED, k);
        let (mut room, mut wanted_room) = (vec![9; input.room], vec![9; input.room]);
        let mut length = 77;
        let number = raw::directory_write(&input.area, input.booted, &input.words, &mut room, &mut length);
        let wanted = plain_directory::directory_write(&input.area, input.booted, &input.words, &mut wanted_room);
        let wanted_length = wanted.unwrap_or(77) as usize;
        assert_eq!((number, length), (wanted.err().unwrap_or(0), wanted_length), "input {k}");
        assert!(room == wanted_room, "input {k}");
    }
}

#[test]
fn directory_read() {
    let mut past = 0;
    for k in 0..INPUTS {
        let input = directory_read_input(SEED, k);
        let (directory, entry) = (&input.directory[..], input.entry as usize);
        let number = plain_directory::directory_refusal(directory);
        let mut shown = raw::Directory { images: 77, correct_boot: 88 };
        let found = raw::directory_check(directory, &mut shown);
        let (images, correct_boot) = plain_directory::directory_check(directory).unwrap_or((77, 88));
        assert_eq!((found, shown), (number, raw::Directory { images, correct_boot }), "input {k}");
        let mut part = raw::Part { start: 77, length: 88 };
        let found = raw::directory_type_guid(directory, entry, &mut part);
        let place = plain_directory::directory_type_guid(directory, input.entry).unwrap_or((77, 88));
        assert_eq!((found, part.start as u64, part.length as u64), (number, place.0, place.1), "input {k}");
        let of = |five: [u32; 5]| {
            let [permissions, maximum_size, lowest_accepted_version, version, accepted] = five;
            raw::DirectoryEntry { permissions, maximum_size, lowest_accepted_version, version, accepted }
        };
        let mut numbers = of([71, 72, 73, 74, 75]);
        let found = raw::directory_numbers(directory, entry, &mut numbers);
        let wanted = plain_directory::directory_numbers(directory, input.entry).unwrap_or([71, 72, 73, 74, 75]);
        assert_eq!((found, numbers), (number, of(wanted)), "input {k}");
        past += (number == 0 && place == (0, 0)) as u64;
    }
    assert!(past > 50, "{past} entries past the count");
}

#[test]
fn pack() {
    let mut rests = 0;
    for k in 0..INPUTS {
        let input = pack_input(SEED, k);
        let plain = input.lent();
        let lent = Lent {
            flags: plain.flags,
            drivers: plain.drivers,
            driver_table: plain.driver_table,
            images: plain.images,
            vendor_codes: plain.vendor_codes,
            payload_table: plain.payload_table,
        };
        let mut size = 66;
        let number = raw::capsule_packed_size(&lent, &mut size);
        let wanted = plain_packing::packed_size(&plain);
        assert_eq!((number, size as u64), (wanted.err().unwrap_or(0), wanted.unwrap_or(66)), "input {k}");
        let (mut room, mut wanted_room) = (input.output.clone(), input.output.clone());
        let mut length = 77;
        let number = raw::capsule_pack(&lent, &mut room, &mut length);
        let wanted = plain_packing::pack(&plain, &mut wanted_room);
        assert_eq!((number, length as u64), (wanted.err().unwrap_or(0), wanted.unwrap_or(77)), "input {k}");
        assert!(room == wanted_room, "input {k}");
        let rest = lent.driver_table.len() % DRIVER_ENTRY_BYTES + lent.payload_table.len() % PAYLOAD_ENTRY_BYTES;
        rests += (number == 0 && rest > 0) as u64;
    }
    assert!(rests > 50, "{rests} tables with a rest");
}

/// Pairs that a slice does not hold are none, also where their count times two is no number.
#[test]
fn stores_in_a_slice() {
    let numbers = [4, 5, 8, 9, 7];
    assert_eq!(raw::stores_of(&numbers, 0).map(<[_]>::len), Some(0));
    let two = raw::stores_of(&numbers, 2).expect("two pairs");
    assert_eq!((two.len(), two[1].offset(), two[1].word()), (2, 8, 9));
    for pairs in [3, STORE_NUMBERS, usize::MAX / 2, usize::MAX / 2 + 1, usize::MAX] {
        assert_eq!(raw::stores_of(&numbers, pairs), None);
    }
}

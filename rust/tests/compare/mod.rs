//! The library against the second implementation, one input of one entry at a time: the answer, every byte and number
//! lent, and of a list of stores what the rules ask. Whatever differs is a panic that names it. The inputs are the
//! recipes of second/GENERATORS.md.
#![allow(dead_code)]

use meanderpeg::{
    Acceptance, Answer, BankIndex, Capsule, CapsuleFlags, Directory, DriverEntry, Guid, ImageWords, ItemKind, Packing,
    PayloadEntry, Permissions, Refusal, Refused, Session, SessionState, Store,
};
use second::answers::call_answer;
use second::digest::Tally;
use second::directory as plain_directory;
use second::inputs::{
    call_input, capsule_input, directory_read_input, directory_write_input, gather_input, pack_again_input, pack_input,
    CallInput,
};
use second::packing as plain_packing;
use second::record::{self, both_sound_and_equal, record_read};
use second::session as plain;
use second::stores::{apply, bad_cut, bad_repair_cut, offsets_good};
use std::convert::Infallible;

/// The entries, by name.
pub const ENTRIES: [&str; 16] = [
    "gather",
    "capsule",
    "start_up",
    "repair",
    "begin",
    "commit",
    "end",
    "cancel",
    "accept",
    "select_previous",
    "soundness",
    "report",
    "directory_write",
    "directory_read",
    "pack",
    "pack_again",
];

/// Lists of at most so many pairs are cut after every store; of longer ones every 40th.
const SHORT_LIST: usize = 130;

/// Compares input k of the entry and adds its outcome to the tally.
pub fn compare(entry: &str, seed: u64, k: u64, tally: &mut Tally) {
    match entry {
        "gather" => compare_gather(seed, k, tally),
        "capsule" => compare_capsule(seed, k, tally),
        "start_up" => compare_start_up(seed, k, tally),
        "repair" => compare_repair(seed, k, tally),
        "soundness" => compare_soundness(seed, k, tally),
        "report" => compare_report(seed, k, tally),
        "directory_write" => compare_directory_write(seed, k, tally),
        "directory_read" => compare_directory_read(seed, k, tally),
        "pack" => compare_pack(seed, k, tally),
        "pack_again" => compare_pack_again(seed, k, tally),
        name => {
            let place = ENTRIES.iter().position(|&e| e == name).expect("an entry's name");
            compare_call(name, place as u64 - 2, seed, k, tally);
        }
    }
}

/// Bytes before and behind a lent window, which must stay.
const MARGIN: usize = 64;

fn compare_gather(seed: u64, k: u64, tally: &mut Tally) {
    let mut input = gather_input(seed, k);
    let length = input.window.len();
    let mut memory = vec![0x5A; length + 2 * MARGIN];
    memory[MARGIN..MARGIN + length].copy_from_slice(&input.window);
    let gathered = meanderpeg::gather(&mut memory[MARGIN..MARGIN + length], input.base, input.first);
    let found = gathered.map(|g| (g.address(), g.bytes().to_vec(), g.range()));
    let wanted = second::gather::gather(&mut input.window, input.base, input.first).map(|(address, total)| {
        let start = (address - input.base) as usize;
        let range = start..start + total as usize;
        (address, input.window[range.clone()].to_vec(), range)
    });
    assert_eq!(found.map_err(Refusal::number), wanted, "gather {seed} {k}");
    assert!(memory[MARGIN..MARGIN + length] == input.window, "gather {seed} {k}: the window");
    let margins = memory[..MARGIN].iter().chain(&memory[MARGIN + length..]);
    assert!(margins.into_iter().all(|&byte| byte == 0x5A), "gather {seed} {k}: bytes around the window");
    match wanted {
        Err(number) => tally.add(&format!("refusal {number}")),
        Ok((place, ..)) if place == input.base => tally.add("accepted, at the window's start"),
        Ok(_) => tally.add("accepted, further up"),
    }
}

/// Where a part starts in the capsule, and its length.
fn place_of(capsule: &[u8], part: &[u8]) -> (u64, u64) {
    (part.as_ptr() as u64 - capsule.as_ptr() as u64, part.len() as u64)
}

fn compare_capsule(seed: u64, k: u64, tally: &mut Tally) {
    let input = capsule_input(seed, k);
    let (given, item) = (&input.capsule[..], input.item as usize);
    let before = input.capsule.clone();
    let name = format!("capsule {seed} {k}");
    let number = second::capsule::refusal(given, input.item);
    let found = Capsule::check(given).map(|capsule| {
        let (drivers, payloads) = second::capsule::counts(given);
        let wanted = (drivers as usize, payloads as usize);
        assert_eq!((capsule.drivers(), capsule.payloads()), wanted, "{name}: the counts");
        assert_eq!((capsule.count(), capsule.bytes()), (wanted.0 + wanted.1, given), "{name}: the capsule");
        capsule.item(item)
    });
    if number != 0 {
        // The capsule's own refusals are the check's, 16 is the item's.
        let refused = if number < 16 { found.err() } else { found.ok().and_then(Result::err) };
        assert_eq!(refused.map(Refusal::number), Some(number), "{name}");
        tally.add(&format!("refusal {number}"));
    } else {
        let found = found.expect("a good capsule").expect("a good item");
        compare_item(given, &found, &name, tally);
    }
    assert!(input.capsule == before, "{name}: the capsule");
}

/// Every part of an item that was not refused.
fn compare_item(given: &[u8], found: &meanderpeg::Item, name: &str, tally: &mut Tally) {
    let item = found.number() as u64;
    let parts = [
        (found.bytes(), second::capsule::item(given, item)),
        (found.image(), second::capsule::image(given, item)),
        (found.vendor_code(), second::capsule::vendor_code(given, item)),
    ];
    for (found, wanted) in parts {
        assert_eq!(place_of(given, found), wanted, "{name}: a part's place");
    }
    let shown = (found.type_guid().to_bytes(), found.image_index(), found.hardware_instance());
    assert_eq!(shown, second::capsule::shown(given, item), "{name}: what is shown");
    let driver = item < second::capsule::counts(given).0 as u64;
    assert_eq!(found.kind() == ItemKind::Driver, driver, "{name}: the kind");
    let head = parts[1].1 .0 - parts[0].1 .0;
    tally.add(match (driver, head) {
        (true, _) => "accepted, driver",
        (false, 32) => "accepted, payload version 1",
        (false, _) => "accepted, payload version 2",
    });
}

/// The second implementation's session as this package has it.
pub fn state_of(session: plain::Session) -> SessionState {
    match session {
        plain::Session::Regular => SessionState::Regular,
        plain::Session::Staging { bank, set } => SessionState::Staging { bank: BankIndex::new(bank), set },
        plain::Session::Trial => SessionState::Trial,
        plain::Session::Fallback => SessionState::Fallback,
        plain::Session::Restart => SessionState::Restart,
    }
}

fn compare_start_up(seed: u64, k: u64, tally: &mut Tally) {
    let input = call_input(0, seed, k);
    let wanted = plain::start_up(&input.area, input.booted);
    let found = meanderpeg::start_up(&input.area, BankIndex::new(input.booted));
    assert!(input.area == wanted.area, "start_up {seed} {k}: the area");
    match found {
        Ok(session) => {
            assert_eq!((0, state_of(wanted.session)), (wanted.refusal, session.state()), "start_up {seed} {k}");
            tally.add(&format!("accepted, {}", session.state()));
        }
        Err(refusal) => {
            assert_eq!(refusal.number(), wanted.refusal, "start_up {seed} {k}");
            tally.add(&format!("refusal {}", refusal.number()));
        }
    }
}

/// A list of stores with what it was listed in, before and afterwards.
struct Lent {
    numbers: Vec<u32>,
    before: Vec<u32>,
    length: usize,
}

impl Lent {
    /// As many numbers as the slice is to have, none of them 0, and some behind it that must stay.
    fn new(length: u64, k: u64) -> Lent {
        let length = length as usize;
        let numbers: Vec<u32> =
            (0..length + MARGIN).map(|i| 0x8000_0001 + (i as u32) * 7 + (k as u32 % 1_000)).collect();
        Lent { before: numbers.clone(), numbers, length }
    }

    fn slice(&mut self) -> &mut [u32] {
        &mut self.numbers[..self.length]
    }

    /// Whether the numbers past the list stayed.
    fn stayed_past(&self, pairs: usize) -> bool {
        self.numbers[2 * pairs..] == self.before[2 * pairs..]
    }
}

pub fn pairs_of(stores: &[Store]) -> Vec<(u32, u32)> {
    stores.iter().map(|store| (store.offset() as u32, store.word())).collect()
}

/// Whether the cuts of this list are all tried.
fn is_cut(pairs: usize, k: u64) -> bool {
    pairs <= SHORT_LIST || k % 40 == 3
}

fn compare_repair(seed: u64, k: u64, tally: &mut Tally) {
    let input = call_input(1, seed, k);
    let before = input.area.clone();
    let wanted = plain::repair(&input.area, input.slice_len);
    let mut lent = Lent::new(input.slice_len, k);
    let found = meanderpeg::repair(&input.area, lent.slice()).map(|repair| {
        let pairs = pairs_of(repair.stores());
        let mut after = input.area.clone();
        repair.perform_in(&mut after).expect("an area of the same length");
        assert!(after == apply(&input.area, &pairs), "repair {seed} {k}: the stores performed");
        pairs
    });
    assert_eq!(found.as_ref().err().map_or(0, |refusal| refusal.number()), wanted.refusal, "repair {seed} {k}");
    let pairs = found.unwrap_or_default();
    assert!(lent.stayed_past(pairs.len()), "repair {seed} {k}: numbers past the list");
    assert!(input.area == before, "repair {seed} {k}: the area");
    judge_repair(&input.area, &pairs, &wanted, &format!("repair {seed} {k}"), is_cut(pairs.len(), k), tally);
}

/// What the rules ask of a repair's list.
fn judge_repair(area: &[u8], pairs: &[(u32, u32)], wanted: &plain::Answer, name: &str, cut: bool, tally: &mut Tally) {
    let Some(read) = &wanted.record else {
        tally.add(&format!("refusal {}", wanted.refusal));
        return;
    };
    assert_eq!(pairs.is_empty(), both_sound_and_equal(area), "{name}: the empty list");
    assert!(offsets_good(pairs, read.len(), read.len()), "{name}: offsets");
    assert!(apply(area, pairs) == wanted.area, "{name}: the area after all stores");
    let copy = record_read(area).expect("a sound copy").0;
    let kind = match (pairs.is_empty(), copy) {
        (true, _) => "accepted, no store",
        (false, 0) => "accepted, copy 1 written",
        (false, _) => "accepted, copy 0 written",
    };
    tally.add(kind);
    if cut {
        assert_eq!(bad_repair_cut(area, pairs), None, "{name}: a cut");
        tally.add("(lists cut after every store)");
    }
}

/// Asks the library what it answers to the call.
pub fn answer_of<'a>(call: u64, input: &CallInput, numbers: &'a mut [u32]) -> Result<Answer<'a>, Refused> {
    let (session, guid) = (Session::resume(state_of(input.session)), Guid::from_bytes(input.guid));
    let acceptance = if input.request == 0 { Acceptance::Accepted } else { Acceptance::Unaccepted };
    match call {
        2 => session.begin(&input.area, numbers),
        3 => session.commit(&input.area, guid, acceptance, numbers),
        4 => session.end(&input.area, numbers),
        5 => session.cancel(&input.area, numbers),
        6 => session.accept(&input.area, guid, numbers),
        7 => session.select_previous(&input.area, numbers),
        other => panic!("call {other}"),
    }
}

/// The stores that a call lists; none if it is refused.
pub fn listed(call: u64, input: &CallInput, numbers: &mut [u32]) -> Vec<(u32, u32)> {
    answer_of(call, input, numbers).map_or(vec![], |answer| pairs_of(answer.stores()))
}

/// Performs the answer's stores in a copy of the area, in one of the three ways, and answers the copy and the next
/// session.
fn performed(answer: Answer, area: &[u8], k: u64) -> (Vec<u8>, Session) {
    let mut after = area.to_vec();
    let mut write = |offset: usize, word: u32| after[offset..offset + 4].copy_from_slice(&word.to_le_bytes());
    let session = match k % 3 {
        0 => answer.perform(write),
        1 => {
            let landed = answer.try_perform(|offset, word| {
                write(offset, word);
                Ok::<(), Infallible>(())
            });
            landed.expect("no failure")
        }
        _ => answer.perform_in(&mut after).expect("an area of the same length"),
    };
    (after, session)
}

fn compare_call(entry: &str, call: u64, seed: u64, k: u64, tally: &mut Tally) {
    let name = format!("{entry} {seed} {k}");
    let input = call_input(call, seed, k);
    let before = input.area.clone();
    let wanted = call_answer(call, &input);
    let mut lent = Lent::new(input.slice_len, k);
    let (refusal, session, pairs) = match answer_of(call, &input, lent.slice()) {
        Err(refused) => (Some(refused.refusal), refused.session, vec![]),
        Ok(answer) => {
            let (pairs, next) = (pairs_of(answer.stores()), answer.next_state());
            let (after, session) = performed(answer, &input.area, k);
            assert!(after == apply(&input.area, &pairs), "{name}: the stores performed");
            assert_eq!(session.state(), next, "{name}: the next session");
            (None, session, pairs)
        }
    };
    let missing = if let Some(Refusal::ImagesMissing(count)) = refusal { count } else { 0 };
    let found = (refusal.map_or(0, Refusal::number), missing, session.state());
    assert_eq!(found, (wanted.refusal, wanted.missing, state_of(wanted.session)), "{name}");
    assert!(lent.stayed_past(pairs.len()), "{name}: numbers past the list");
    assert!(input.area == before, "{name}: the area");
    let Some(new) = &wanted.record else {
        assert!(pairs.is_empty(), "{name}: a list beside a refusal");
        tally.add(&format!("refusal {}", wanted.refusal));
        return;
    };
    judge_change(&input.area, &pairs, &wanted, &name, is_cut(pairs.len(), k), tally);
    let altered = if wanted.area == input.area { "as it was" } else { "altered" };
    tally.add(&format!("accepted, {} to {}, {}", state_of(input.session), session.state(), altered));
    if entry == "cancel" {
        assert!(pairs.is_empty(), "{name}: Cancel lists no store");
    }
    if entry == "end" {
        let bank = record::active(new);
        tally.add(&format!("accepted, the bank becomes {}", record::state(new, bank)));
    }
    if entry == "commit" {
        tally.add(if input.request == 0 { "accepted, request 0" } else { "accepted, request above 0" });
    }
}

/// What the rules ask of a change's list: offsets, the area after all stores and, if it is cut, what every cut leaves.
fn judge_change(area: &[u8], pairs: &[(u32, u32)], wanted: &plain::Answer, name: &str, cut: bool, tally: &mut Tally) {
    let old = record_read(area).expect("a sound copy").1;
    let new = wanted.record.as_ref().expect("the new record");
    assert!(offsets_good(pairs, old.len(), new.len()), "{name}: offsets");
    assert!(apply(area, pairs) == wanted.area, "{name}: the area after all stores");
    if cut {
        assert_eq!(bad_cut(area, pairs, &old, new), None, "{name}: a cut");
        tally.add("(lists cut after every store)");
    }
}

fn compare_soundness(seed: u64, k: u64, tally: &mut Tally) {
    let area = call_input(1, seed, k).area;
    let found = meanderpeg::soundness(&area);
    if area.len() != record::AREA {
        assert_eq!(found, Err(Refusal::AreaLength), "soundness {seed} {k}");
        tally.add("refusal 20");
        return;
    }
    let rules = [0, 1].map(|copy| record::first_failing_rule(record::copy_of(&area, copy)));
    let found = found.expect("an area of that length");
    let wanted = (rules[0] == 0, rules[1] == 0, both_sound_and_equal(&area));
    assert_eq!((found.copy_0, found.copy_1, found.equal), wanted, "soundness {seed} {k}: rules {rules:?}");
    tally.add(&format!("copy 0, rule {:02}", rules[0]));
    tally.add(&format!("copy 1, rule {:02}", rules[1]));
    tally.add(&format!("sound {} {}, equal {}", wanted.0, wanted.1, wanted.2));
}

fn compare_report(seed: u64, k: u64, tally: &mut Tally) {
    let area = call_input(0, seed, k).area;
    let wanted = second::report::report(&area);
    let length = [4_096, 4_097, 4_095, 5_000, 4_096, 0, 4_096, 4_096][(k / 24 % 8) as usize];
    let mut text = vec![0xEE; length + MARGIN];
    let found = meanderpeg::report(&area, &mut text[..length]);
    if length < 4_096 {
        assert_eq!(found, None, "report {seed} {k}");
        assert!(text.iter().all(|&byte| byte == 0xEE), "report {seed} {k}: a slice too short");
        tally.add("slice too short");
        return;
    }
    assert_eq!(found, Some(&wanted[..]), "report {seed} {k}");
    assert!(text[wanted.len()..].iter().all(|&byte| byte == 0xEE), "report {seed} {k}: bytes past the text");
    let first: Vec<&str> = wanted.lines().next().expect("a line").split('\t').collect();
    tally.add(&format!("{} {}", if first[0] == "refused" { "refusal" } else { first[0] }, first[1]));
}

/// The words of images; what is left behind the last four is none's.
fn images_of(words: &[u32]) -> Vec<ImageWords> {
    let image = |four: &[u32]| ImageWords {
        permissions: Permissions::from_bits(four[0]),
        maximum_size: four[1],
        lowest_accepted_version: four[2],
        version: four[3],
    };
    words.chunks_exact(4).map(image).collect()
}

fn compare_directory_write(seed: u64, k: u64, tally: &mut Tally) {
    let input = directory_write_input(seed, k);
    let name = format!("directory_write {seed} {k}");
    let (before, words) = (input.area.clone(), images_of(&input.words));
    let (mut room, mut wanted_room) = (vec![0x5A; input.room + MARGIN], vec![0x5A; input.room + MARGIN]);
    let booted = BankIndex::new(input.booted);
    let found = meanderpeg::write_directory(&input.area, booted, &words, &mut room[..input.room]).map(<[_]>::to_vec);
    let wanted =
        plain_directory::directory_write(&input.area, input.booted, &input.words, &mut wanted_room[..input.room]);
    let written = wanted.map(|length| wanted_room[..length as usize].to_vec());
    assert_eq!(found.map_err(Refusal::number), written, "{name}");
    assert!(room == wanted_room, "{name}: the room");
    assert!(input.area == before, "{name}: the area");
    match wanted {
        Err(number) => tally.add(&format!("refusal {number}")),
        Ok(_) => {
            let copy = record_read(&input.area).expect("a sound copy").0;
            tally.add(&format!("accepted, correct_boot {}, copy {copy} read", room[12]));
        }
    }
}

fn compare_directory_read(seed: u64, k: u64, tally: &mut Tally) {
    let input = directory_read_input(seed, k);
    let name = format!("directory_read {seed} {k}");
    let (given, before) = (&input.directory[..], input.directory.clone());
    let found = Directory::read(given);
    let wanted = plain_directory::directory_check(given);
    let shown = found.map(|directory| (directory.images() as u32, directory.correct_boot() as u32));
    assert_eq!(shown.map_err(Refusal::number), wanted, "{name}");
    match found {
        Err(refusal) => tally.add(&format!("refusal {}", refusal.number())),
        Ok(directory) => {
            let place = compare_entry(&directory, input.entry, &name);
            tally.add(&format!("accepted, correct_boot {}, entry {place} the count", directory.correct_boot() as u32));
            let all: Vec<_> = (0..directory.images()).filter_map(|number| directory.entry(number)).collect();
            assert_eq!(directory.entries().collect::<Vec<_>>(), all, "{name}: the entries");
            assert_eq!((all.len(), directory.bytes()), (directory.images(), given), "{name}: the directory");
        }
    }
    assert!(input.directory == before, "{name}: the directory");
}

/// An entry of a directory that was taken; answers whether it is below the count or past it.
fn compare_entry(directory: &Directory, number: u64, name: &str) -> &'static str {
    let given = directory.bytes();
    let place = plain_directory::directory_type_guid(given, number).expect("a good directory");
    let numbers = plain_directory::directory_numbers(given, number).expect("a good directory");
    let Some(entry) = directory.entry(number as usize) else {
        assert_eq!((place, numbers), ((0, 0), [0; 5]), "{name}: past the count");
        return "past";
    };
    assert_eq!(place_of(given, entry.type_guid_bytes()), place, "{name}: the type GUID's place");
    assert_eq!(&entry.type_guid().to_bytes(), entry.type_guid_bytes(), "{name}: the type GUID");
    assert_eq!(entry.number() as u64, number, "{name}: the number");
    let found = [
        entry.permissions().bits(),
        entry.maximum_size(),
        entry.lowest_accepted_version(),
        entry.version(),
        entry.accepted() as u32,
    ];
    assert_eq!(found, numbers, "{name}: the numbers");
    "below"
}

/// The number of so many bytes at `at`.
fn number_at(bytes: &[u8], at: usize, width: usize) -> u64 {
    bytes[at..at + width].iter().rev().fold(0, |number, byte| number << 8 | u64::from(*byte))
}

/// A table of drivers by its bytes; a rest is none.
fn drivers_of(table: &[u8]) -> Vec<DriverEntry> {
    let entry = |entry: &[u8]| DriverEntry { start: number_at(entry, 0, 8), length: number_at(entry, 8, 8) };
    table.chunks_exact(meanderpeg::DRIVER_ENTRY_BYTES).map(entry).collect()
}

/// The same of payloads.
fn payloads_of(table: &[u8]) -> Vec<PayloadEntry> {
    let entry = |entry: &[u8]| PayloadEntry {
        version: number_at(entry, 0, 4) as u32,
        type_guid: entry[4..20].try_into().expect("16 bytes"),
        image_index: entry[20],
        unused: entry[21..24].try_into().expect("3 bytes"),
        hardware_instance: number_at(entry, 24, 8),
        image_start: number_at(entry, 32, 8),
        image_length: number_at(entry, 40, 8),
        vendor_code_start: number_at(entry, 48, 8),
        vendor_code_length: number_at(entry, 56, 8),
    };
    table.chunks_exact(meanderpeg::PAYLOAD_ENTRY_BYTES).map(entry).collect()
}

/// Both functions against the second implementation's, into the same room; answers what was written.
fn compare_packing(lent: &plain_packing::Lent, output: &[u8], name: &str) -> Result<Vec<u8>, u32> {
    let (driver_table, payload_table) = (drivers_of(lent.driver_table), payloads_of(lent.payload_table));
    let packing = Packing {
        flags: CapsuleFlags::from_bits(lent.flags),
        drivers: lent.drivers,
        driver_table: &driver_table,
        images: lent.images,
        vendor_codes: lent.vendor_codes,
        payload_table: &payload_table,
    };
    let size = packing.size().map(|size| size as u64).map_err(Refusal::number);
    assert_eq!(size, plain_packing::packed_size(lent), "{name}: the size");
    let behind = [0x5A; MARGIN];
    let (mut room, mut wanted_room) = ([output, &behind].concat(), [output, &behind].concat());
    let found = packing.pack(&mut room[..output.len()]).map(<[_]>::to_vec).map_err(Refusal::number);
    let wanted = plain_packing::pack(lent, &mut wanted_room[..output.len()]);
    assert_eq!(found, wanted.map(|length| wanted_room[..length as usize].to_vec()), "{name}");
    assert!(room == wanted_room, "{name}: the room");
    found
}

fn compare_pack(seed: u64, k: u64, tally: &mut Tally) {
    let input = pack_input(seed, k);
    match compare_packing(&input.lent(), &input.output, &format!("pack {seed} {k}")) {
        Err(number) => tally.add(&format!("refusal {number}")),
        Ok(packed) => {
            let capsule = Capsule::check(&packed).expect("the reader takes it");
            tally.add(match (capsule.drivers(), capsule.payloads()) {
                (0, 0) => "accepted, no items",
                (_, 0) => "accepted, drivers alone",
                (0, _) => "accepted, payloads alone",
                _ => "accepted, drivers and payloads",
            });
        }
    }
}

/// A capsule packed again from what is shown of it.
fn compare_pack_again(seed: u64, k: u64, tally: &mut Tally) {
    let input = pack_again_input(seed, k);
    let name = format!("pack_again {seed} {k}");
    let taken = Capsule::check(&input.capsule).map(|_| ()).map_err(Refusal::number);
    let shown = match (plain_packing::shown_of(&input.capsule), taken) {
        (Ok(shown), Ok(())) => shown,
        (wanted, found) => {
            assert_eq!(found.err(), wanted.err(), "{name}: the capsule");
            return tally.add(&format!("refusal {}", found.err().unwrap_or(0)));
        }
    };
    let packed = compare_packing(&shown.lent(&input.capsule), &input.output, &name);
    let same = packed.as_ref() == Ok(&input.capsule);
    assert_eq!(same, plain_packing::tight(&input.capsule), "{name}: the same bytes exactly if it is tight");
    match packed {
        Err(number) => tally.add(&format!("packing's refusal {number}")),
        Ok(_) => tally.add(if same { "accepted, the same bytes" } else { "accepted, tighter" }),
    }
}

/// What the inputs of each entry but soundness must reach: each refusal that it can give, and each accepted case.
const OUTCOMES: [(&str, &str, &[&str]); 15] = [
    ("gather", "1 2 3 4 5 6 7", &["accepted, at the window's start", "accepted, further up"]),
    (
        "capsule",
        "10 11 12 13 14 15 16",
        &["accepted, driver", "accepted, payload version 1", "accepted, payload version 2"],
    ),
    ("start_up", "20 21 28", &["accepted, Regular", "accepted, Trial", "accepted, Fallback"]),
    ("repair", "20 21 23", &["accepted, no store", "accepted, copy 0 written", "accepted, copy 1 written"]),
    (
        "begin",
        "20 21 22 23 24 25",
        &[
            "accepted, Regular to Staging, altered",
            "accepted, Regular to Staging, as it was",
            "accepted, Staging to Staging, altered",
            "accepted, Staging to Staging, as it was",
        ],
    ),
    (
        "commit",
        "20 21 22 23 24 25 26",
        &[
            "accepted, Staging to Staging, altered",
            "accepted, Staging to Staging, as it was",
            "accepted, request 0",
            "accepted, request above 0",
        ],
    ),
    (
        "end",
        "20 21 22 23 24 25 27",
        &["accepted, Staging to Restart, altered", "accepted, the bank becomes 252", "accepted, the bank becomes 254"],
    ),
    ("cancel", "20 21 22 23 24 25", &["accepted, Staging to Regular, as it was"]),
    (
        "accept",
        "20 21 22 23 24 25 26",
        &[
            "accepted, Trial to Trial, altered",
            "accepted, Trial to Trial, as it was",
            "accepted, Trial to Regular, altered",
            "accepted, Trial to Regular, as it was",
        ],
    ),
    (
        "select_previous",
        "20 21 22 23 24 25",
        &[
            "accepted, Trial to Restart, altered",
            "accepted, Trial to Restart, as it was",
            "accepted, Fallback to Restart, altered",
            "accepted, Fallback to Restart, as it was",
        ],
    ),
    ("report", "20 21", &["record 0", "record 1", "slice too short"]),
    (
        "directory_write",
        "20 21 28 40 41 42",
        &[
            "accepted, correct_boot 0, copy 0 read",
            "accepted, correct_boot 0, copy 1 read",
            "accepted, correct_boot 1, copy 0 read",
            "accepted, correct_boot 1, copy 1 read",
        ],
    ),
    (
        "directory_read",
        "43 44 45 46",
        &[
            "accepted, correct_boot 0, entry below the count",
            "accepted, correct_boot 0, entry past the count",
            "accepted, correct_boot 1, entry below the count",
            "accepted, correct_boot 1, entry past the count",
        ],
    ),
    // 56 wants slices that are too long for these inputs: tests/packing.rs.
    (
        "pack",
        "50 51 52 53 54 55 57",
        &[
            "accepted, no items",
            "accepted, drivers alone",
            "accepted, payloads alone",
            "accepted, drivers and payloads",
        ],
    ),
    ("pack_again", "10 11 12 13 14 15", &["accepted, the same bytes", "accepted, tighter"]),
];

/// Every outcome that the inputs of an entry must reach.
fn wanted_outcomes(entry: &str) -> Vec<String> {
    let Some((_, numbers, others)) = OUTCOMES.iter().find(|(name, _, _)| *name == entry) else {
        return wanted_rules();
    };
    let refusals = numbers.split(' ').map(|number| format!("refusal {number}"));
    refusals.chain(others.iter().map(|case| case.to_string())).collect()
}

/// Each rule broken in each copy, and each answer of soundness.
fn wanted_rules() -> Vec<String> {
    let mut outcomes = vec!["refusal 20".to_string()];
    for copy in 0..2 {
        outcomes.extend((0..15).map(|rule| format!("copy {copy}, rule {rule:02}")));
    }
    for sound in ["false false", "true false", "false true", "true true"] {
        outcomes.push(format!("sound {sound}, equal false"));
    }
    outcomes.push("sound true true, equal true".to_string());
    outcomes
}

/// The outcomes that no input reached.
pub fn unreached(entry: &str, tally: &Tally) -> Vec<String> {
    wanted_outcomes(entry).into_iter().filter(|outcome| tally.of(outcome) == 0).collect()
}

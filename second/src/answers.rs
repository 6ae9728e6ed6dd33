//! One input of one entry, answered: its input and its answer go into two digests, its outcome into a tally. The order
//! in which numbers are taken is told in GENERATORS.md, "The digest".

use crate::capsule;
use crate::digest::{Digest, Tally};
use crate::directory::*;
use crate::gather::gather;
use crate::inputs::*;
use crate::packing::{pack, packed_size, shown_of};
use crate::record;
use crate::session::*;
use crate::report::{report, report_in, REPORT_BYTES};

/// The entries, by name, in the order in which they are reported. The last has no place in the comparison with
/// crates/test_random_packing, which asks for soundness instead: the product's interface tells no failing rule's
/// number.
pub const ENTRIES: [&str; 18] = [
    "gather",
    "capsule",
    "start_up",
    "repair",
    "begin",
    "commit",
    "end",
    "cancel",
    "accept",
    "select_previous",
    "report",
    "soundness",
    "directory_write",
    "directory_read",
    "crc",
    "pack",
    "pack_again",
    "rules",
];

/// How many thousands of inputs the comparison with crates/test_random_packing takes of an entry.
pub fn thousands(entry: &str) -> u64 {
    match entry {
        "gather" | "capsule" => 40,
        "crc" => 4,
        "pack" | "pack_again" => 8,
        "rules" => 0,
        _ => 12,
    }
}

/// Every outcome that an entry can have, in the order in which they are reported: refusals by number, then the others.
pub fn outcomes(entry: &str) -> Vec<String> {
    let (refusals, others): (&[u32], &[&str]) = match entry {
        "gather" => (&[1, 2, 3, 4, 5, 6, 7], &["accepted, at the window's start", "accepted, further up"]),
        "capsule" => (
            &[10, 11, 12, 13, 14, 15, 16],
            &["accepted, driver", "accepted, payload version 1", "accepted, payload version 2"],
        ),
        "start_up" => (
            &[20, 21, 28],
            &[
                "accepted, Regular, copy 0 read",
                "accepted, Regular, copy 1 read",
                "accepted, Trial, copy 0 read",
                "accepted, Trial, copy 1 read",
                "accepted, Fallback, copy 0 read",
                "accepted, Fallback, copy 1 read",
            ],
        ),
        "repair" => {
            (&[20, 21, 23], &["accepted, no store", "accepted, copy 0 written", "accepted, copy 1 written"])
        }
        "begin" => (
            &[20, 21, 22, 23, 24, 25],
            &[
                "accepted, from Regular, area as it was",
                "accepted, from Regular, area altered",
                "accepted, from Staging, area as it was",
                "accepted, from Staging, area altered",
                "kind above 4",
            ],
        ),
        "commit" => (
            &[20, 21, 22, 23, 24, 25, 26],
            &[
                "accepted, request 0, area as it was",
                "accepted, request 0, area altered",
                "accepted, request above 0, area as it was",
                "accepted, request above 0, area altered",
                "kind above 4",
            ],
        ),
        "end" => (&[20, 21, 22, 23, 24, 25, 27], &["accepted, to 252", "accepted, to 254", "kind above 4"]),
        "cancel" => (&[20, 21, 22, 23, 24, 25], &["accepted, area as it was", "kind above 4"]),
        "accept" => (
            &[20, 21, 22, 23, 24, 25, 26],
            &[
                "accepted, Regular, area as it was",
                "accepted, Regular, area altered",
                "accepted, Trial, area as it was",
                "accepted, Trial, area altered",
                "kind above 4",
            ],
        ),
        "select_previous" => (
            &[20, 21, 22, 23, 24, 25],
            &[
                "accepted, from Trial, area as it was",
                "accepted, from Trial, area altered",
                "accepted, from Fallback, area as it was",
                "accepted, from Fallback, area altered",
                "kind above 4",
            ],
        ),
        "report" => (&[], &["refused 20", "refused 21", "record 0", "record 1", "slice too short"]),
        "soundness" => (&[20], &SOUNDNESS),
        "directory_write" => (
            &[20, 21, 28, 40, 41, 42],
            &[
                "accepted, correct_boot 0, copy 0 read",
                "accepted, correct_boot 0, copy 1 read",
                "accepted, correct_boot 1, copy 0 read",
                "accepted, correct_boot 1, copy 1 read",
            ],
        ),
        "directory_read" => (
            &[43, 44, 45, 46],
            &[
                "accepted, correct_boot 0, entry below the count",
                "accepted, correct_boot 0, entry past the count",
                "accepted, correct_boot 1, entry below the count",
                "accepted, correct_boot 1, entry past the count",
            ],
        ),
        "crc" => (&[], &["no byte", "1 to 4 bytes", "5 to 249 bytes", "250 bytes or more"]),
        // 56 needs slices that are longer than the recipe's.
        "pack" => (&[50, 51, 52, 53, 54, 55, 57], &PACKED),
        "pack_again" => (&[10, 11, 12, 13, 14, 15], &["the same bytes", "other bytes, as many", "fewer bytes"]),
        _ => (&[], &[]),
    };
    let mut all: Vec<String> = refusals.iter().map(|number| format!("refusal {number}")).collect();
    all.extend(others.iter().map(|other| other.to_string()));
    if entry == "rules" {
        for copy in 0..2 {
            all.extend((0..15).chain([99]).map(|number| format!("copy {copy}, rule {number:02}")));
        }
    }
    all
}

const SOUNDNESS: [&str; 5] = [
    "no copy sound",
    "copy 0 sound",
    "copy 1 sound",
    "both copies sound, not equal",
    "both copies sound and equal",
];

const PACKED: [&str; 4] = [
    "accepted, no item",
    "accepted, drivers alone",
    "accepted, payloads alone",
    "accepted, drivers and payloads",
];

/// The digests of inputs and of answers, and the tally of outcomes.
#[derive(Default)]
pub struct Account {
    pub inputs: Digest,
    pub answers: Digest,
    pub tally: Tally,
}

/// Makes input k of the entry and answers it. The text says what was answered, for a reader.
pub fn answer(entry: &str, seed: u64, k: u64, account: &mut Account) -> String {
    match entry {
        "gather" => answer_gather(seed, k, account),
        "capsule" => answer_capsule(seed, k, account),
        "report" => answer_report(seed, k, account),
        "soundness" => answer_soundness(seed, k, account),
        "directory_write" => answer_directory_write(seed, k, account),
        "directory_read" => answer_directory_read(seed, k, account),
        "crc" => answer_crc(seed, k, account),
        "pack" => answer_pack(seed, k, account),
        "pack_again" => answer_pack_again(seed, k, account),
        "rules" => answer_rules(seed, k, account),
        _ => {
            let place = ENTRIES.iter().position(|&e| e == entry).expect("an entry's name");
            answer_call(place as u64 - 2, seed, k, account)
        }
    }
}

fn answer_gather(seed: u64, k: u64, account: &mut Account) -> String {
    let mut input = gather_input(seed, k);
    account.inputs.long(input.base);
    account.inputs.long(input.first);
    account.inputs.bytes(&input.window);
    let answer = gather(&mut input.window, input.base, input.first);
    let (number, place, total) = match answer {
        Ok((place, total)) => (0, place, total),
        Err(number) => (number, 0, 0),
    };
    account.answers.word(number);
    account.answers.long(place);
    account.answers.long(total);
    account.answers.bytes(&input.window);
    if number > 0 {
        account.tally.add(&format!("refusal {number}"));
    } else if place == input.base {
        account.tally.add("accepted, at the window's start");
    } else {
        account.tally.add("accepted, further up");
    }
    format!(
        "window {} bytes at {:#x}, first {:#x}: {:x?}",
        input.window.len(),
        input.base,
        input.first,
        answer
    )
}

fn answer_capsule(seed: u64, k: u64, account: &mut Account) -> String {
    let input = capsule_input(seed, k);
    let (c, i) = (&input.capsule[..], input.item);
    account.inputs.long(i);
    account.inputs.bytes(c);
    let number = capsule::refusal(c, i);
    let parts = [capsule::item(c, i), capsule::image(c, i), capsule::vendor_code(c, i)];
    let (guid, index, instance) = capsule::shown(c, i);
    let (drivers, payloads) = capsule::counts(c);
    account.answers.word(number);
    for (start, length) in parts {
        account.answers.long(start);
        account.answers.long(length);
    }
    account.answers.bytes(&guid);
    account.answers.word(index as u32);
    account.answers.long(instance);
    account.answers.word(drivers as u32);
    account.answers.word(payloads as u32);
    for (start, length) in parts {
        account.answers.bytes(&c[start as usize..(start + length) as usize]);
    }
    if number > 0 {
        account.tally.add(&format!("refusal {number}"));
    } else if i < drivers as u64 {
        account.tally.add("accepted, driver");
    } else if parts[1].0 - parts[0].0 == 32 {
        account.tally.add("accepted, payload version 1");
    } else {
        account.tally.add("accepted, payload version 2");
    }
    format!(
        "capsule of {} bytes, item {i}: refusal {number}, item, image, vendor code {parts:?}, guid {guid:02x?}, \
index {index}, instance {instance:#x}, counts {drivers} and {payloads}",
        c.len()
    )
}

/// The call's answer: 0 start-up, 1 repair, 2 Begin, 3 Commit, 4 End, 5 Cancel, 6 Accept, 7 Select previous.
pub fn call_answer(call: u64, i: &CallInput) -> Answer {
    match call {
        0 => start_up(&i.area, i.booted),
        1 => repair(&i.area, i.slice_len),
        2 => begin(i.session, &i.area, i.slice_len),
        3 => commit(i.session, &i.area, i.slice_len, &i.guid, i.request),
        4 => end(i.session, &i.area, i.slice_len),
        5 => cancel(i.session, &i.area, i.slice_len),
        6 => accept(i.session, &i.area, i.slice_len, &i.guid),
        _ => select_previous(i.session, &i.area, i.slice_len),
    }
}

fn take_session(digest: &mut Digest, (kind, bank, set): (u32, u32, u32)) {
    digest.word(kind);
    digest.word(bank);
    digest.word(set);
}

/// The session's three numbers after the call: with a refusal as they were (N106), else those of the next one.
pub fn raw_after(input: &CallInput, answer: &Answer) -> (u32, u32, u32) {
    if answer.refusal > 0 {
        input.raw
    } else {
        session_words(answer.session)
    }
}

fn name_of(session: Session) -> &'static str {
    ["Regular", "Staging", "Trial", "Fallback", "Restart"][session_words(session).0 as usize]
}

/// The outcome's name, as `outcomes` tells it.
fn outcome_of(call: u64, input: &CallInput, answer: &Answer) -> String {
    if answer.refusal > 0 {
        return format!("refusal {}", answer.refusal);
    }
    let altered = if answer.area == input.area { "area as it was" } else { "area altered" };
    let copy = record::record_read(&input.area).expect("a sound copy").0;
    let new = answer.record.as_ref().expect("a record");
    match call {
        0 => format!("accepted, {}, copy {copy} read", name_of(answer.session)),
        1 if repair_lists_none(&input.area, input.slice_len) => "accepted, no store".to_string(),
        1 => format!("accepted, copy {} written", 1 - copy),
        3 if input.request == 0 => format!("accepted, request 0, {altered}"),
        3 => format!("accepted, request above 0, {altered}"),
        4 => format!("accepted, to {}", record::state(new, record::active(new))),
        5 => format!("accepted, {altered}"),
        6 => format!("accepted, {}, {altered}", name_of(answer.session)),
        _ => format!("accepted, from {}, {altered}", name_of(input.session)),
    }
}

fn answer_call(call: u64, seed: u64, k: u64, account: &mut Account) -> String {
    let input = call_input(call, seed, k);
    take_session(&mut account.inputs, input.raw);
    account.inputs.long(input.slice_len);
    account.inputs.bytes(&input.guid);
    account.inputs.word(input.request);
    account.inputs.word(input.booted);
    account.inputs.bytes(&input.area);
    let answer = call_answer(call, &input);
    account.answers.word(answer.refusal);
    account.answers.word(answer.missing);
    take_session(&mut account.answers, raw_after(&input, &answer));
    account.answers.bytes(&answer.area);
    if call == 1 {
        account.answers.word(if repair_lists_none(&input.area, input.slice_len) { 1 } else { 0 });
    }
    if call >= 1 {
        // R23: no number past the list is altered.
        account.answers.word(0);
        // R25: no offset lies anywhere else.
        account.answers.word(0);
        // The list has at most 2,100 pairs.
        account.answers.word(0);
    }
    let outcome = outcome_of(call, &input, &answer);
    account.tally.add(&outcome);
    if input.raw.0 > 4 {
        account.tally.add("kind above 4");
    }
    format!(
        "{:?} by {:?}, area of {} bytes, slice {}, guid {:02x?}, request {}, booted {}: {outcome}, missing {}, {:?}",
        input.session,
        input.raw,
        input.area.len(),
        input.slice_len,
        input.guid,
        input.request,
        input.booted,
        answer.missing,
        answer.session
    )
}

/// The buffer whose first bytes are lent for a report, and what each of its bytes holds before.
const REPORT_BUFFER: usize = 4_352;
const REPORT_FILL: u8 = 99;

/// The same for a directory; its bytes hold REPORT_FILL before too.
const DIRECTORY_BUFFER: usize = 2_700;

/// The report of the area that input k of start-up holds, in a lent slice.
fn answer_report(seed: u64, k: u64, account: &mut Account) -> String {
    let input = report_input(seed, k);
    account.inputs.bytes(&input.area);
    account.inputs.word(input.slice_len as u32);
    let mut buffer = [REPORT_FILL; REPORT_BUFFER];
    let count = report_in(&input.area, &mut buffer[..input.slice_len]);
    account.answers.word(count as u32);
    account.answers.bytes(&buffer);
    let text = report(&input.area);
    let first = text.lines().next().unwrap_or("");
    if input.slice_len < REPORT_BYTES {
        account.tally.add("slice too short");
    } else {
        account.tally.add(&first.split('\t').take(2).collect::<Vec<_>>().join(" "));
    }
    format!("slice of {} bytes, {count} answered:\n{text}", input.slice_len)
}

/// The soundness of the area that input k of repair holds: 1 for copy 0, 2 for copy 1, 4 where both are sound and
/// equal, added; 20 and 99 where it isn't 16,384 bytes.
fn answer_soundness(seed: u64, k: u64, account: &mut Account) -> String {
    let area = call_input(1, seed, k).area;
    account.inputs.bytes(&area);
    if area.len() != record::AREA {
        account.answers.word(20);
        account.answers.word(99);
        account.tally.add("refusal 20");
        return "refusal 20".to_string();
    }
    let zero = record::sound(record::copy_of(&area, 0)) as u32;
    let one = record::sound(record::copy_of(&area, 1)) as u32;
    let equal = record::both_sound_and_equal(&area) as u32;
    account.answers.word(0);
    account.answers.word(zero + 2 * one + 4 * equal);
    let outcome = SOUNDNESS[(zero + 2 * one + equal) as usize];
    account.tally.add(outcome);
    outcome.to_string()
}

/// What an answer holds in place of a number that a refused function leaves as it was.
const LEFT: u32 = 99;

fn answer_directory_write(seed: u64, k: u64, account: &mut Account) -> String {
    let input = directory_write_input(seed, k);
    account.inputs.word(input.booted);
    account.inputs.word(input.words.len() as u32);
    for &word in &input.words {
        account.inputs.word(word);
    }
    account.inputs.word(input.room as u32);
    account.inputs.bytes(&input.area);
    let mut buffer = [REPORT_FILL; DIRECTORY_BUFFER];
    let answer = directory_write(&input.area, input.booted, &input.words, &mut buffer[..input.room]);
    account.answers.word(answer.err().unwrap_or(0));
    account.answers.word(answer.map_or(LEFT, |length| length as u32));
    account.answers.bytes(&buffer);
    let outcome = match answer {
        Err(number) => format!("refusal {number}"),
        Ok(_) => {
            let copy = record::record_read(&input.area).expect("a sound copy").0;
            format!("accepted, correct_boot {}, copy {copy} read", buffer[12])
        }
    };
    account.tally.add(&outcome);
    format!(
        "area of {} bytes, booted {}, {} words {:x?}, room {}: {answer:?}, {outcome}, {:02x?}",
        input.area.len(),
        input.booted,
        input.words.len(),
        input.words,
        input.room,
        &buffer[..answer.unwrap_or(0) as usize]
    )
}

fn answer_directory_read(seed: u64, k: u64, account: &mut Account) -> String {
    let input = directory_read_input(seed, k);
    account.inputs.long(input.entry);
    account.inputs.bytes(&input.directory);
    let refusal = directory_refusal(&input.directory);
    let shown = directory_check(&input.directory);
    let part = directory_type_guid(&input.directory, input.entry);
    let numbers = directory_numbers(&input.directory, input.entry);
    let (images, boot) = shown.unwrap_or((LEFT, LEFT));
    let (start, length) = part.unwrap_or((LEFT as u64, LEFT as u64));
    account.answers.word(refusal);
    account.answers.word(images);
    account.answers.word(boot);
    account.answers.long(start);
    account.answers.long(length);
    for number in numbers.unwrap_or([LEFT; 5]) {
        account.answers.word(number);
    }
    let place = if input.entry < images as u64 { "below" } else { "past" };
    let outcome = match refusal {
        0 => format!("accepted, correct_boot {boot}, entry {place} the count"),
        number => format!("refusal {number}"),
    };
    account.tally.add(&outcome);
    format!(
        "directory of {} bytes, entry {}: {outcome}, {shown:?}, type GUID {part:?}, numbers {numbers:x?}",
        input.directory.len(),
        input.entry
    )
}

fn answer_crc(seed: u64, k: u64, account: &mut Account) -> String {
    let bytes = crc_input(seed, k);
    let crc = record::crc32(&bytes);
    account.inputs.bytes(&bytes);
    account.answers.word(crc);
    let outcome = match bytes.len() {
        0 => "no byte",
        1..=4 => "1 to 4 bytes",
        5..=249 => "5 to 249 bytes",
        _ => "250 bytes or more",
    };
    account.tally.add(outcome);
    format!("{} bytes: {crc:08x}", bytes.len())
}

/// A refusal number or 0, then the length, LEFT with a refusal.
fn take_length(digest: &mut Digest, answer: Result<u64, u32>) {
    digest.word(answer.err().unwrap_or(0));
    digest.word(answer.map_or(LEFT, |length| length as u32));
}

fn answer_pack(seed: u64, k: u64, account: &mut Account) -> String {
    let input = pack_input(seed, k);
    let mut output = input.output.clone();
    account.inputs.word(input.flags);
    for bytes in
        [&input.drivers, &input.driver_table, &input.images, &input.vendor_codes, &input.payload_table]
    {
        account.inputs.bytes(bytes);
    }
    account.inputs.word(output.len() as u32);
    let size = packed_size(&input.lent());
    let answer = pack(&input.lent(), &mut output);
    take_length(&mut account.answers, size);
    take_length(&mut account.answers, answer);
    account.answers.bytes(&output);
    let (drivers, payloads) = (input.driver_table.len() / 16, input.payload_table.len() / 64);
    let outcome = match answer {
        Err(number) => format!("refusal {number}"),
        Ok(_) => PACKED[(drivers > 0) as usize + 2 * (payloads > 0) as usize].to_string(),
    };
    account.tally.add(&outcome);
    format!(
        "flags {:#010x}, slices of {}, {}, {} bytes, {drivers} drivers by {} bytes, {payloads} payloads by {} bytes, \
output of {} bytes: size {size:?}, {answer:?}, {outcome}, {:02x?}",
        input.flags,
        input.drivers.len(),
        input.images.len(),
        input.vendor_codes.len(),
        input.driver_table.len(),
        input.payload_table.len(),
        output.len(),
        &output[..answer.unwrap_or(0) as usize]
    )
}

fn answer_pack_again(seed: u64, k: u64, account: &mut Account) -> String {
    let PackAgainInput { capsule, mut output } = pack_again_input(seed, k);
    account.inputs.bytes(&capsule);
    let shown = match shown_of(&capsule) {
        Err(number) => {
            account.answers.word(number);
            account.tally.add(&format!("refusal {number}"));
            return format!("capsule of {} bytes: refusal {number}", capsule.len());
        }
        Ok(shown) => shown,
    };
    let answer = pack(&shown.lent(&capsule), &mut output);
    let same = output[..capsule.len()] == capsule[..];
    account.answers.word(0);
    take_length(&mut account.answers, answer);
    account.answers.bytes(&output);
    account.answers.word(same as u32);
    let outcome = match answer {
        Err(number) => format!("packing again refused, {number}"),
        Ok(_) if same => "the same bytes".to_string(),
        Ok(length) if length == capsule.len() as u64 => "other bytes, as many".to_string(),
        Ok(length) if length < capsule.len() as u64 => "fewer bytes".to_string(),
        // Not told for the entry: what is packed again is never longer.
        Ok(_) => "more bytes".to_string(),
    };
    account.tally.add(&outcome);
    format!("capsule of {} bytes: {answer:?}, {outcome}, {output:02x?}", capsule.len())
}

/// The first failing rule of both copies of the area that input k of repair holds; 99 where it isn't 16,384 bytes.
fn answer_rules(seed: u64, k: u64, account: &mut Account) -> String {
    let area = call_input(1, seed, k).area;
    account.inputs.bytes(&area);
    let mut text = String::new();
    for copy in 0..2 {
        let number = if area.len() == record::AREA {
            record::first_failing_rule(record::copy_of(&area, copy))
        } else {
            99
        };
        account.answers.word(number);
        account.tally.add(&format!("copy {copy}, rule {number:02}"));
        text += &format!("copy {copy}: rule {number} ");
    }
    text
}

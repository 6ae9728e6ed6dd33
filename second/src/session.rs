//! Sessions and calls (rules S) with their refusals (N110). Which stores a call lists was open, so none is listed
//! here: an answer holds the new record and the area after all stores.

use crate::bytes::put;
use crate::record::*;

/// R24.
pub const STORE_NUMBERS: u64 = 4_200;

/// S1.
#[derive(Clone, Copy, PartialEq, Eq, Debug)]
pub enum Session {
    Regular,
    Staging { bank: u32, set: u32 },
    Trial,
    Fallback,
    Restart,
}

/// Kind, bank and set of a session as three numbers; bank and set are 0 but for Staging.
pub fn session_words(session: Session) -> (u32, u32, u32) {
    match session {
        Session::Regular => (0, 0, 0),
        Session::Staging { bank, set } => (1, bank, set),
        Session::Trial => (2, 0, 0),
        Session::Fallback => (3, 0, 0),
        Session::Restart => (4, 0, 0),
    }
}

/// The session that three numbers mean. Bank and set are read with kind 1 alone; a kind above 4 is taken as Restart.
pub fn session_of_words((kind, bank, set): (u32, u32, u32)) -> Session {
    match kind {
        0 => Session::Regular,
        1 => Session::Staging { bank, set },
        2 => Session::Trial,
        3 => Session::Fallback,
        _ => Session::Restart,
    }
}

#[derive(Clone, PartialEq, Eq, Debug)]
pub struct Answer {
    /// The next session; with a refusal the one given. Restart for repair and for a refused start-up, where none was.
    pub session: Session,
    /// 0 for an accepted call.
    pub refusal: u32,
    /// How many images are missing, with refusal 27; else 0.
    pub missing: u32,
    /// The new record of an accepted call; for start-up and repair the record read.
    pub record: Option<Vec<u8>>,
    /// The area after all stores; with a refusal and after start-up as it was.
    pub area: Vec<u8>,
}

/// A refusal: the number, the session as it was, no byte altered.
fn refused(session: Session, area: &[u8], refusal: u32) -> Answer {
    Answer { session, refusal, missing: 0, record: None, area: area.to_vec() }
}

/// R26.
fn passed_change(session: Session, area: &[u8], new: Vec<u8>) -> Answer {
    let mut after = area.to_vec();
    after[..new.len()].copy_from_slice(&new);
    after[COPY..COPY + new.len()].copy_from_slice(&new);
    Answer { session, refusal: 0, missing: 0, record: Some(new), area: after }
}

/// S4.
pub fn update_bank(active: u128, banks: u128) -> u128 {
    (active + 1) % banks
}

/// Start-up (S2). Refusals 20, 21, 28.
pub fn start_up(area: &[u8], booted: u32) -> Answer {
    if area.len() != AREA {
        return refused(Session::Restart, area, 20);
    }
    let record = match record_read(area) {
        None => return refused(Session::Restart, area, 21),
        Some((_, record)) => record,
    };
    if booted as u128 >= banks(&record) {
        return refused(Session::Restart, area, 28);
    }
    let session = if booted as u128 != active(&record) {
        Session::Fallback
    } else if state(&record, active(&record)) == ACCEPTED {
        Session::Regular
    } else {
        Session::Trial
    };
    Answer { session, refusal: 0, missing: 0, record: Some(record), area: area.to_vec() }
}

/// Repair (R27). Refusals 20, 23, 21.
pub fn repair(area: &[u8], slice_len: u64) -> Answer {
    if area.len() != AREA {
        return refused(Session::Restart, area, 20);
    }
    if slice_len < STORE_NUMBERS {
        return refused(Session::Restart, area, 23);
    }
    let (copy, record) = match record_read(area) {
        None => return refused(Session::Restart, area, 21),
        Some(read) => read,
    };
    let mut after = area.to_vec();
    if !both_sound_and_equal(area) {
        let from = COPY * (1 - copy) as usize;
        after[from..from + record.len()].copy_from_slice(&record);
    }
    Answer { session: Session::Restart, refusal: 0, missing: 0, record: Some(record), area: after }
}

/// Whether repair's list is empty (R27). A refused repair has no list at all.
pub fn repair_lists_none(area: &[u8], slice_len: u64) -> bool {
    repair(area, slice_len).refusal == 0 && both_sound_and_equal(area)
}

/// What every call but start-up and repair tests first, in this order: 20, 23, 21, 22, 24. Answers the old record.
fn old_record(session: Session, area: &[u8], slice_len: u64) -> Result<Vec<u8>, u32> {
    if area.len() != AREA {
        return Err(20);
    }
    if slice_len < STORE_NUMBERS {
        return Err(23);
    }
    let record = match record_read(area) {
        None => return Err(21),
        Some((_, record)) => record,
    };
    if !both_sound_and_equal(area) {
        return Err(22);
    }
    // N24.
    if let Session::Staging { bank, set } = session {
        if bank as u128 != update_bank(active(&record), banks(&record)) {
            return Err(24);
        }
        if state(&record, bank as u128) != INVALID {
            return Err(24);
        }
        for image in images(&record)..32 {
            if in_set(set, image) {
                return Err(24);
            }
        }
    }
    Ok(record)
}

fn in_set(set: u32, image: u128) -> bool {
    (set >> image) & 1 == 1
}

/// The image with that type GUID.
fn image_of(record: &[u8], wanted: &[u8; 16]) -> Option<u128> {
    (0..images(record)).find(|&image| type_guid(record, image) == *wanted)
}

fn set_accepted(record: &mut [u8], image: u128, bank: u128, value: u128) {
    let at = accepted_at(record, image, bank) as usize;
    put(record, at, 4, value);
}

fn set_state(record: &mut [u8], bank: u128, value: u8) {
    record[24 + bank as usize] = value;
}

/// Begin (S5, S6).
pub fn begin(session: Session, area: &[u8], slice_len: u64) -> Answer {
    let mut record = match old_record(session, area, slice_len) {
        Err(number) => return refused(session, area, number),
        Ok(record) => record,
    };
    match session {
        Session::Regular | Session::Staging { .. } => {}
        _ => return refused(session, area, 25),
    }
    let bank = update_bank(active(&record), banks(&record));
    set_state(&mut record, bank, INVALID);
    for image in 0..images(&record) {
        set_accepted(&mut record, image, bank, 0);
    }
    passed_change(Session::Staging { bank: bank as u32, set: 0 }, area, with_crc(record))
}

/// Commit (S7, S8).
pub fn commit(session: Session, area: &[u8], slice_len: u64, wanted: &[u8; 16], request: u32) -> Answer {
    let mut record = match old_record(session, area, slice_len) {
        Err(number) => return refused(session, area, number),
        Ok(record) => record,
    };
    let (bank, set) = match session {
        Session::Staging { bank, set } => (bank, set),
        _ => return refused(session, area, 25),
    };
    let image = match image_of(&record, wanted) {
        None => return refused(session, area, 26),
        Some(image) => image,
    };
    set_accepted(&mut record, image, bank as u128, if request == 0 { 1 } else { 0 });
    passed_change(Session::Staging { bank, set: set | (1 << image) }, area, with_crc(record))
}

/// End (S9, S10; DEN0118, A4.1).
pub fn end(session: Session, area: &[u8], slice_len: u64) -> Answer {
    let mut record = match old_record(session, area, slice_len) {
        Err(number) => return refused(session, area, number),
        Ok(record) => record,
    };
    let (bank, set) = match session {
        Session::Staging { bank, set } => (bank as u128, set),
        _ => return refused(session, area, 25),
    };
    let missing = (0..images(&record)).filter(|&image| !in_set(set, image)).count() as u32;
    if missing > 0 {
        return Answer { missing, ..refused(session, area, 27) };
    }
    let state = if all_accepted(&record, bank) { ACCEPTED } else { VALID };
    set_state(&mut record, bank, state);
    let was_active = active(&record);
    put(&mut record, 12, 4, was_active);
    put(&mut record, 8, 4, bank);
    passed_change(Session::Restart, area, with_crc(record))
}

/// Cancel (S11).
pub fn cancel(session: Session, area: &[u8], slice_len: u64) -> Answer {
    let record = match old_record(session, area, slice_len) {
        Err(number) => return refused(session, area, number),
        Ok(record) => record,
    };
    match session {
        Session::Staging { .. } => {}
        _ => return refused(session, area, 25),
    }
    passed_change(Session::Regular, area, record)
}

/// Accept (S12 to S14).
pub fn accept(session: Session, area: &[u8], slice_len: u64, wanted: &[u8; 16]) -> Answer {
    let mut record = match old_record(session, area, slice_len) {
        Err(number) => return refused(session, area, number),
        Ok(record) => record,
    };
    if session != Session::Trial {
        return refused(session, area, 25);
    }
    let image = match image_of(&record, wanted) {
        None => return refused(session, area, 26),
        Some(image) => image,
    };
    let bank = active(&record);
    if accepted(&record, image, bank) == 0 {
        set_accepted(&mut record, image, bank, 1);
        if all_accepted(&record, bank) {
            set_state(&mut record, bank, ACCEPTED);
        }
        record = with_crc(record);
    }
    let next = if all_accepted(&record, bank) { Session::Regular } else { Session::Trial };
    passed_change(next, area, record)
}

/// Select previous (S15, S16).
pub fn select_previous(session: Session, area: &[u8], slice_len: u64) -> Answer {
    let mut record = match old_record(session, area, slice_len) {
        Err(number) => return refused(session, area, number),
        Ok(record) => record,
    };
    match session {
        Session::Trial | Session::Fallback => {}
        _ => return refused(session, area, 25),
    }
    if state(&record, previous(&record)) != ACCEPTED {
        return refused(session, area, 25);
    }
    let (was_active, was_previous) = (active(&record), previous(&record));
    put(&mut record, 8, 4, was_previous);
    put(&mut record, 12, 4, was_active);
    passed_change(Session::Restart, area, with_crc(record))
}

//! `record update`: a call (rules S) done on a file as a device does it on its storage, with power cut at any store
//! (rules P).

use crate::arguments::{number, Arguments, Choice};
use crate::call::{Call, Outcome};
use crate::command::Command;
use crate::failure::Failure;
use crate::files;
use crate::record_fields::{copy_read, field_name, Record, COPY_BYTES};
use crate::record_show::show_copies;
use crate::session_file;
use crate::stores::Storage;
use crate::text::pair;
use meanderpeg::{Session, SessionState, Store, STORE_NUMBERS};
use std::path::Path;

pub const COMMAND: Command = Command {
    name: "record update",
    usage: "FILE CALL [--stores N | --dry-run]",
    summary: "Does a call on an area, store by store, and cuts power after N of them if told so",
    help: "\
CALL is one of
  start-up BANK        the device starts, BANK having booted: makes the session
  repair               writes the record that is read into the other copy where that is not sound and equal
  begin                an update begins: the update bank becomes invalid
  commit GUID accepted|unaccepted
                       the image of this type GUID is in the update bank
  end                  all images are committed: the update bank becomes the active one
  cancel               the update is given up
  accept GUID          on trial, the image of this type GUID is found to be good
  select-previous      active and previous bank are exchanged

Each store is a write of four bytes at its offset in FILE that is on disk before the next one starts.
  --stores N           power is cut after N stores: the session is lost, the status is 4, and what start-up
                       then reads is shown. A call with fewer stores finishes.
  --dry-run            shows the stores and does none

The session stands for the device's RAM and is kept in FILE.session, a text: a line `state` with Regular,
Staging, Trial, Fallback or Restart; with Staging the lines `bank` and `set`, the images committed, bit i for
image i. start-up makes it, a call goes on from it and puts the next one there once its stores are done; it is
not there while they are. Refusals 20 to 28.
",
    operands: 2..=4,
    options: &[Choice { name: "--stores", value: Some("N") }, Choice { name: "--dry-run", value: None }],
    run,
};

fn run(arguments: &Arguments, output: &mut String) -> Result<(), Failure> {
    let call = Call::of_words(arguments.rest(1))?;
    let power = match arguments.value("--stores")? {
        None => None,
        Some(word) => Some(number(word, "--stores", 0..=u32::MAX.into())? as usize),
    };
    if power.is_some() && arguments.switch("--dry-run") {
        return Err(Failure::Usage("--stores and --dry-run don't go together".to_string()));
    }
    let path = arguments.path(0);
    let area = files::read_area(path)?;
    let kept = kept_session(path, &call)?;
    pair(output, "call", &call);
    if let Call::StartUp(_) = call {
        show_copies(&area, output)?;
    } else {
        say_session(output, "session", kept);
    }
    let mut numbers = [0; STORE_NUMBERS];
    // Start-up and repair don't look at the session given.
    let session = Session::resume(kept.unwrap_or(SessionState::Restart));
    let outcome = call.ask(&area, session, &mut numbers)?;
    if arguments.switch("--dry-run") {
        show_stores(output, &area, outcome.stores(), outcome.stores().len());
        pair(output, "stores listed", outcome.stores().len());
        say_session(output, "next session", outcome.next_state().or(kept));
        return Ok(());
    }
    perform(path, &area, outcome, kept, power, output)
}

/// The session that the call goes on from. Start-up doesn't ask what there was; repair leaves what there is.
fn kept_session(path: &Path, call: &Call) -> Result<Option<SessionState>, Failure> {
    if let Call::StartUp(_) = call {
        return Ok(None);
    }
    match session_file::read(path)? {
        None if call.wants_session() => Err(session_file::missing(path)),
        kept => Ok(kept),
    }
}

fn say_session(output: &mut String, name: &str, state: Option<SessionState>) {
    pair(output, name, state.map_or("none".to_string(), session_file::in_words));
}

/// Does the stores in the file, with no session beside it meanwhile, and puts the next session there.
fn perform(
    path: &Path,
    area: &[u8],
    outcome: Outcome,
    kept: Option<SessionState>,
    power: Option<usize>,
    output: &mut String,
) -> Result<(), Failure> {
    let stores = outcome.stores();
    let mut storage = Storage::new(path, stores.len(), power);
    session_file::remove(path)?;
    let performed = outcome.perform(|offset, word| storage.store(offset, word));
    show_stores(output, area, stores, storage.done());
    pair(output, "stores done", format!("{} of {}", storage.done(), stores.len()));
    if storage.cut() {
        show_cut(path, area, stores, output)?;
        return Err(Failure::Cut(storage.done(), stores.len()));
    }
    let next = performed?.map(|session| session.state()).or(kept);
    if let Some(state) = next {
        session_file::write(path, state)?;
    }
    say_session(output, "next session", next);
    Ok(())
}

/// The first stores, each with what its word is in the record.
fn show_stores(output: &mut String, area: &[u8], stores: &[Store], count: usize) {
    let banks = read_in(area).map_or(0, |record| record.banks());
    for (at, store) in stores.iter().take(count).enumerate() {
        let (copy, offset) = (store.offset() / COPY_BYTES, store.offset() % COPY_BYTES);
        let field = field_name(offset, banks);
        let place = format!("{:#06x}  {:#010x}  copy {copy} {field}", store.offset(), store.word());
        pair(output, format!("store {}", at + 1), place);
    }
}

/// What stands in the file after a cut, and whether start-up reads the old record there or the new one (P4).
fn show_cut(path: &Path, area: &[u8], stores: &[Store], output: &mut String) -> Result<(), Failure> {
    pair(output, "power cut", "the session is lost");
    let left = files::read_area(path)?;
    show_copies(&left, output)?;
    let after = done_in_memory(area, stores);
    let record = |area| read_in(area).map(|record| record.bytes());
    let which = match (record(&left), record(area), record(&after)) {
        (None, ..) => "none",
        (read, old, new) if read == old && read == new => "the same as before",
        (read, old, _) if read == old => "the old one",
        (read, _, new) if read == new => "the new one",
        _ => "neither the old nor the new",
    };
    pair(output, "record read", which);
    Ok(())
}

/// The record that start-up reads in an area.
fn read_in(area: &[u8]) -> Option<Record<'_>> {
    let copy = copy_read(meanderpeg::soundness(area).ok()?)?;
    Some(Record::in_copy(area, copy))
}

/// The area as it is after all stores.
fn done_in_memory(area: &[u8], stores: &[Store]) -> Vec<u8> {
    let mut after = area.to_vec();
    for store in stores {
        if let Some(word) = after.get_mut(store.offset()..store.offset() + 4) {
            word.copy_from_slice(&store.word().to_le_bytes());
        }
    }
    after
}

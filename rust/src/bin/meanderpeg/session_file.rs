//! The session between two runs. A device keeps it in RAM; here it stands in a file beside the area, named as the area
//! with `.session` behind. It is gone while a call's stores are done, so that a run that is killed loses it (P14).
//!
//! The file is text. Lines that begin with `#` are passed over; then comes `state` with one of the five names, and with
//! Staging `bank` and `set`, the set's bit i standing for image i:
//!
//! ```text
//! # session of a device, as it is in RAM
//! state Staging
//! bank 1
//! set 0x00000001
//! ```

use crate::arguments::number_of;
use crate::failure::Failure;
use crate::files;
use meanderpeg::{BankIndex, SessionState};
use std::io::ErrorKind;
use std::path::{Path, PathBuf};

const HEAD: &str = "# session of a device, as it is in RAM\n";

/// The file's name beside an area.
fn beside(area: &Path) -> PathBuf {
    let mut name = area.as_os_str().to_os_string();
    name.push(".session");
    PathBuf::from(name)
}

/// The session kept; none where there is no file.
pub fn read(area: &Path) -> Result<Option<SessionState>, Failure> {
    let path = beside(area);
    let Some(bytes) = files::read_if_there(&path)? else { return Ok(None) };
    let state = std::str::from_utf8(&bytes).ok().and_then(state_of);
    match state {
        Some(state) => Ok(Some(state)),
        None => Err(Failure::file(&path, "it holds no session; `record update FILE start-up BANK` writes it anew")),
    }
}

/// As after a power cut: no session.
pub fn remove(area: &Path) -> Result<(), Failure> {
    let path = beside(area);
    match std::fs::remove_file(&path) {
        Err(why) if why.kind() != ErrorKind::NotFound => Err(Failure::file(&path, why)),
        _ => Ok(()),
    }
}

pub fn write(area: &Path, state: SessionState) -> Result<(), Failure> {
    files::write(&beside(area), text_of(state).as_bytes())
}

/// A call was asked for, and there is no session to go on from.
pub fn missing(area: &Path) -> Failure {
    Failure::file(
        &beside(area),
        "it is not there, so there is no session; `record update FILE start-up BANK` makes one",
    )
}

/// An area that is made anew has no session of another beside it.
pub fn must_not_be_there(area: &Path) -> Result<(), Failure> {
    let path = beside(area);
    match path.symlink_metadata() {
        Ok(_) => Err(Failure::file(&path, "the session of another area is there; remove it first")),
        Err(_) => Ok(()),
    }
}

/// A session in words, on one line.
pub fn in_words(state: SessionState) -> String {
    match state {
        SessionState::Staging { bank, set } => format!("Staging, bank {bank}, set {set:#010x}"),
        other => other.to_string(),
    }
}

fn text_of(state: SessionState) -> String {
    match state {
        SessionState::Staging { bank, set } => format!("{HEAD}state Staging\nbank {bank}\nset {set:#010x}\n"),
        other => format!("{HEAD}state {other}\n"),
    }
}

fn state_of(text: &str) -> Option<SessionState> {
    let lines: Option<Vec<(&str, &str)>> =
        text.lines().filter(|line| !line.starts_with('#')).map(|line| line.split_once(' ')).collect();
    match lines?[..] {
        [("state", "Regular")] => Some(SessionState::Regular),
        [("state", "Trial")] => Some(SessionState::Trial),
        [("state", "Fallback")] => Some(SessionState::Fallback),
        [("state", "Restart")] => Some(SessionState::Restart),
        [("state", "Staging"), ("bank", bank), ("set", set)] => {
            Some(SessionState::Staging { bank: BankIndex::new(word_of(bank)?), set: word_of(set)? })
        }
        _ => None,
    }
}

fn word_of(text: &str) -> Option<u32> {
    u32::try_from(number_of(text)?).ok()
}

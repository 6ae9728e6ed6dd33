//! Start-up, repair and the six calls: by their words on the command line, and asked of the library.

use crate::arguments::{guid, number};
use crate::failure::Failure;
use meanderpeg::{repair, start_up, Acceptance, Answer, BankIndex, Guid, Repair, Session, SessionState, Store};
use std::ffi::{OsStr, OsString};
use std::fmt;

pub enum Call {
    StartUp(BankIndex),
    Repair,
    Begin,
    Commit(Guid, Acceptance),
    End,
    Cancel,
    Accept(Guid),
    SelectPrevious,
}

/// What the library answered: stores to be done, and what session comes of it.
pub enum Outcome<'n> {
    Started(Session),
    Repaired(Repair<'n>),
    Called(Answer<'n>),
}

impl Call {
    pub fn of_words(words: &[OsString]) -> Result<Call, Failure> {
        let words: Vec<&str> = words.iter().map(|word| word.to_str().unwrap_or("?")).collect();
        Ok(match words[..] {
            ["start-up", bank] => Call::StartUp(BankIndex::new(bank_number(bank)?)),
            ["repair"] => Call::Repair,
            ["begin"] => Call::Begin,
            ["commit", image, "accepted"] => Call::Commit(guid(OsStr::new(image))?, Acceptance::Accepted),
            ["commit", image, "unaccepted"] => Call::Commit(guid(OsStr::new(image))?, Acceptance::Unaccepted),
            ["end"] => Call::End,
            ["cancel"] => Call::Cancel,
            ["accept", image] => Call::Accept(guid(OsStr::new(image))?),
            ["select-previous"] => Call::SelectPrevious,
            _ => return Err(Failure::Usage(format!("no call: {}", words.join(" ")))),
        })
    }

    /// Whether it goes on from a session; start-up makes one, and repair has none to do with.
    pub fn wants_session(&self) -> bool {
        !matches!(self, Call::StartUp(_) | Call::Repair)
    }

    /// Asks the library, with the session kept if the call wants one.
    pub fn ask<'n>(&self, area: &[u8], session: Session, numbers: &'n mut [u32]) -> Result<Outcome<'n>, Failure> {
        let answer = match *self {
            Call::StartUp(bank) => return Ok(Outcome::Started(start_up(area, bank)?)),
            Call::Repair => return Ok(Outcome::Repaired(repair(area, numbers)?)),
            Call::Begin => session.begin(area, numbers),
            Call::Commit(image, acceptance) => session.commit(area, image, acceptance, numbers),
            Call::End => session.end(area, numbers),
            Call::Cancel => session.cancel(area, numbers),
            Call::Accept(image) => session.accept(area, image, numbers),
            Call::SelectPrevious => session.select_previous(area, numbers),
        };
        Ok(Outcome::Called(answer?))
    }
}

fn bank_number(word: &str) -> Result<u32, Failure> {
    Ok(number(OsStr::new(word), "BANK", 0..=u32::MAX.into())? as u32)
}

impl<'n> Outcome<'n> {
    pub fn stores(&self) -> &'n [Store] {
        match self {
            Outcome::Started(_) => &[],
            Outcome::Repaired(repair) => repair.stores(),
            Outcome::Called(answer) => answer.stores(),
        }
    }

    /// The state of the next session; none of a repair, which leaves it as it was.
    pub fn next_state(&self) -> Option<SessionState> {
        match self {
            Outcome::Started(session) => Some(session.state()),
            Outcome::Repaired(_) => None,
            Outcome::Called(answer) => Some(answer.next_state()),
        }
    }

    /// Does the stores; the first that fails is the last tried.
    pub fn perform<E>(self, write: impl FnMut(usize, u32) -> Result<(), E>) -> Result<Option<Session>, E> {
        match self {
            Outcome::Started(session) => Ok(Some(session)),
            Outcome::Repaired(repair) => repair.try_perform(write).map(|()| None),
            Outcome::Called(answer) => answer.try_perform(write).map(Some),
        }
    }
}

impl fmt::Display for Call {
    fn fmt(&self, f: &mut fmt::Formatter<'_>) -> fmt::Result {
        match self {
            Call::StartUp(bank) => write!(f, "start-up {bank}"),
            Call::Repair => f.write_str("repair"),
            Call::Begin => f.write_str("begin"),
            Call::Commit(image, Acceptance::Accepted) => write!(f, "commit {image} accepted"),
            Call::Commit(image, Acceptance::Unaccepted) => write!(f, "commit {image} unaccepted"),
            Call::End => f.write_str("end"),
            Call::Cancel => f.write_str("cancel"),
            Call::Accept(image) => write!(f, "accept {image}"),
            Call::SelectPrevious => f.write_str("select-previous"),
        }
    }
}

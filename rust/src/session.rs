//! Start-up, repair and the six calls of an update (rules S and P).

use crate::{raw, Guid, Refusal, Store, AREA_BYTES};
use core::fmt;

/// The number of a bank, counted from 0.
#[derive(Clone, Copy, PartialEq, Eq, PartialOrd, Ord, Hash, Debug)]
pub struct BankIndex(u32);

impl BankIndex {
    /// The bank of that number. Whether a record has it is seen where it is used: start-up refuses one too high by 28.
    pub const fn new(number: u32) -> BankIndex {
        BankIndex(number)
    }

    /// Its number.
    pub const fn number(self) -> u32 {
        self.0
    }
}

impl From<u32> for BankIndex {
    fn from(number: u32) -> BankIndex {
        BankIndex(number)
    }
}

impl fmt::Display for BankIndex {
    fn fmt(&self, f: &mut fmt::Formatter<'_>) -> fmt::Result {
        self.0.fmt(f)
    }
}

/// What a committed image is marked as (S8).
#[derive(Clone, Copy, PartialEq, Eq, Hash, Debug)]
pub enum Acceptance {
    /// It counts as good from the start.
    Accepted,
    /// It is on trial until [`Session::accept`] is called for it, after a restart into its bank.
    Unaccepted,
}

impl Acceptance {
    /// The request in C (enum meanderpeg_request): 0 marks an image accepted, any other number unaccepted.
    fn request(self) -> u32 {
        match self {
            Acceptance::Accepted => 0,
            Acceptance::Unaccepted => 1,
        }
    }
}

/// The five states of a session (S1), to look at.
#[derive(Clone, Copy, PartialEq, Eq, Hash, Debug)]
pub enum SessionState {
    /// The active bank booted and is accepted: an update can begin.
    Regular,
    /// An update has begun, and its images are written and committed.
    Staging {
        /// The update bank, where the images go.
        bank: BankIndex,
        /// The images committed so far: bit i stands for image i.
        set: u32,
    },
    /// The active bank booted and is not accepted yet.
    Trial,
    /// Another bank than the active one booted. No update can begin: [`Session::select_previous`] and a restart make
    /// the previous bank the active one. Where that is refused by 25, where a third bank booted, or after a failed
    /// store of [`Session::end`], a restart tries the active bank again.
    Fallback,
    /// The device is to start again. No call is for this state.
    Restart,
}

impl SessionState {
    fn numbers(self) -> raw::Session {
        let (kind, bank, set) = match self {
            SessionState::Regular => (1, 0, 0),
            SessionState::Staging { bank, set } => (2, bank.number(), set),
            SessionState::Trial => (3, 0, 0),
            SessionState::Fallback => (4, 0, 0),
            SessionState::Restart => (5, 0, 0),
        };
        raw::Session { kind, bank, set }
    }

    /// None for numbers that name no session.
    fn of(numbers: raw::Session) -> Option<SessionState> {
        match numbers.kind {
            1 => Some(SessionState::Regular),
            2 => Some(SessionState::Staging { bank: BankIndex(numbers.bank), set: numbers.set }),
            3 => Some(SessionState::Trial),
            4 => Some(SessionState::Fallback),
            5 => Some(SessionState::Restart),
            _ => None,
        }
    }
}

impl fmt::Display for SessionState {
    fn fmt(&self, f: &mut fmt::Formatter<'_>) -> fmt::Result {
        f.write_str(match self {
            SessionState::Regular => "Regular",
            SessionState::Staging { .. } => "Staging",
            SessionState::Trial => "Trial",
            SessionState::Fallback => "Fallback",
            SessionState::Restart => "Restart",
        })
    }
}

/// The session of this boot. It lives in memory alone and is lost with power (P14).
///
/// It comes from [`start_up`] and then from each call's [`Answer`], once the stores are done. A call takes it by value,
/// and it can't be cloned, so that an old session isn't used again:
///
/// ```compile_fail,E0382
/// # fn f(session: meanderpeg::Session, area: &[u8], numbers: &mut [u32]) -> Result<(), meanderpeg::Refusal> {
/// let begun = session.begin(area, numbers)?;
/// let again = session.begin(area, numbers)?; // refused by the compiler: `session` has been used
/// # Ok(()) }
/// ```
#[derive(PartialEq, Eq, Debug)]
pub struct Session {
    state: SessionState,
}

/// Start-up: what session this boot is in, told by the record read and by the bank that booted. Fallback if that isn't
/// the active bank; else Regular if the active bank is accepted, else Trial (S2).
///
/// It needs one sound copy of the record and alters nothing. Refusals 20, 21, 28. A device calls [`repair`] right
/// before or after it, since the six calls need two that are equal.
pub fn start_up(area: &[u8], booted: BankIndex) -> Result<Session, Refusal> {
    let answered = raw::start_up(area, booted.number());
    Refusal::of(answered.refusal, told(&answered))?;
    let state = SessionState::of(answered.session).ok_or(Refusal::Unknown(0))?;
    Ok(Session { state })
}

/// The stores that make both copies sound and equal again after a cut: none if they are, else those that write the
/// record read into the other copy (R27).
///
/// It needs one sound copy and [`STORE_NUMBERS`](crate::STORE_NUMBERS) numbers, and can itself be cut at any store and
/// done again: the same record is read all the while (P10, P11). Refusals 20, 23, 21.
pub fn repair<'n>(area: &[u8], numbers: &'n mut [u32]) -> Result<Repair<'n>, Refusal> {
    let answered = raw::repair(area, numbers);
    Refusal::of(answered.refusal, told(&answered))?;
    let stores = raw::stores_of(numbers, answered.pairs).ok_or(Refusal::Unknown(0))?;
    Ok(Repair { stores })
}

/// The six calls. Each needs two sound and equal copies and [`STORE_NUMBERS`](crate::STORE_NUMBERS) numbers, alters no
/// area, and lists at the front of the numbers the stores that make its change; numbers past the list stay (R23).
/// Wherever the stores are cut, start-up reads the record as it was or as it is to be, whole (P4). Refusals of each:
/// 20, 23, 21, 22, 24, 25, in this order (N110).
impl Session {
    /// The state, to look at.
    pub fn state(&self) -> SessionState {
        self.state
    }

    /// A session that was kept somewhere else, as [`state`](Session::state) told it: by another program of the same
    /// boot, or by code in C.
    ///
    /// Only Staging is compared with the record (24). A call can't tell the last session of this boot from an older one
    /// or from one made up: such a one can begin an update in the middle of a trial, over the bank to fall back to, or
    /// after [`end`](Session::end), over the bank that runs; or name images as committed that are not in the bank. So
    /// this is for what [`state`](Session::state) told last, and for nothing else; after a store that failed, for
    /// nothing at all.
    pub fn resume(state: SessionState) -> Session {
        Session { state }
    }

    /// Begin (Regular, Staging): the bank after the active one, or bank 0 after the last, is the update bank. It
    /// becomes invalid with all its images unaccepted, and nothing is committed (S4 to S6). Next: Staging.
    ///
    /// Its stores are done before a byte of that bank is overwritten (P15; DEN0118, A3.1.1), so that the record calls
    /// no bank good that is half written. With two banks that is the other one: from here to [`end`](Session::end), and
    /// after a [`cancel`](Session::cancel), there is no second bank to fall back to.
    pub fn begin<'n>(self, area: &[u8], numbers: &'n mut [u32]) -> Result<Answer<'n>, Refused> {
        let answered = raw::begin(self.state.numbers(), area, numbers);
        self.answer(answered, numbers)
    }

    /// Commit (Staging): the image with this type GUID is in the update bank for good, its last byte too; it is marked
    /// accepted or unaccepted and counts as committed. Of two commits of one image the later stands (S7, S8). Next:
    /// Staging. Also 26.
    pub fn commit<'n>(
        self,
        area: &[u8],
        type_guid: Guid,
        acceptance: Acceptance,
        numbers: &'n mut [u32],
    ) -> Result<Answer<'n>, Refused> {
        let (session, request) = (self.state.numbers(), acceptance.request());
        let answered = raw::commit(session, area, type_guid.as_bytes(), request, numbers);
        self.answer(answered, numbers)
    }

    /// End (Staging): all images are committed. The update bank becomes accepted if each of its images is, else valid,
    /// and is now the active bank; the one that was active is the previous one (S9, S10). Next: Restart. Also 27, with
    /// how many images are missing.
    pub fn end<'n>(self, area: &[u8], numbers: &'n mut [u32]) -> Result<Answer<'n>, Refused> {
        let answered = raw::end(self.state.numbers(), area, numbers);
        self.answer(answered, numbers)
    }

    /// Cancel (Staging): the update is given up. The update bank stays invalid: no store is listed (S11). Next:
    /// Regular.
    pub fn cancel<'n>(self, area: &[u8], numbers: &'n mut [u32]) -> Result<Answer<'n>, Refused> {
        let answered = raw::cancel(self.state.numbers(), area, numbers);
        self.answer(answered, numbers)
    }

    /// Accept (Trial): the image with this type GUID becomes accepted in the active bank, and with the last one the
    /// bank itself (S12 to S14). Next: Regular if all its images are accepted, else Trial. Also 26.
    pub fn accept<'n>(self, area: &[u8], type_guid: Guid, numbers: &'n mut [u32]) -> Result<Answer<'n>, Refused> {
        let answered = raw::accept(self.state.numbers(), area, type_guid.as_bytes(), numbers);
        self.answer(answered, numbers)
    }

    /// Select previous (Trial, Fallback): active and previous bank are exchanged. The previous one must be accepted,
    /// else 25 (S15, S16). Next: Restart.
    pub fn select_previous<'n>(self, area: &[u8], numbers: &'n mut [u32]) -> Result<Answer<'n>, Refused> {
        let answered = raw::select_previous(self.state.numbers(), area, numbers);
        self.answer(answered, numbers)
    }

    /// Takes what the library answered to a call; a refusal hands the session back.
    fn answer(self, answered: raw::Answer, numbers: &[u32]) -> Result<Answer<'_>, Refused> {
        if let Err(refusal) = Refusal::of(answered.refusal, told(&answered)) {
            return Err(Refused { refusal, session: self });
        }
        match (SessionState::of(answered.session), raw::stores_of(numbers, answered.pairs)) {
            (Some(state), Some(stores)) => Ok(Answer { session: Session { state }, stores }),
            _ => Err(Refused { refusal: Refusal::Unknown(0), session: self }),
        }
    }
}

/// What a refusal tells beside its number.
fn told(answered: &raw::Answer) -> u32 {
    let [told, _] = answered.told;
    told
}

/// A call was refused: why, and the session that it was given, which stands as it was (N106).
///
/// `?` turns it into its [`Refusal`] where that is what a function answers.
#[derive(PartialEq, Eq, Debug)]
#[non_exhaustive]
pub struct Refused {
    /// Why.
    pub refusal: Refusal,
    /// The session as it was.
    pub session: Session,
}

impl From<Refused> for Refusal {
    fn from(refused: Refused) -> Refusal {
        refused.refusal
    }
}

impl fmt::Display for Refused {
    fn fmt(&self, f: &mut fmt::Formatter<'_>) -> fmt::Result {
        self.refusal.fmt(f)
    }
}

impl core::error::Error for Refused {}

/// The answer to a call: the stores that make its change, and the next session, which is had by performing them (S17).
///
/// Dropped, it changes nothing: the area is as it was and the session is gone; [`start_up`] gives another.
///
/// ```compile_fail,E0616
/// # fn f(session: meanderpeg::Session, area: &[u8], numbers: &mut [u32]) -> Result<(), meanderpeg::Refusal> {
/// let answer = session.begin(area, numbers)?;
/// let next = answer.session; // refused by the compiler: `answer.perform(..)` gives it
/// # Ok(()) }
/// ```
#[derive(PartialEq, Eq, Debug)]
#[must_use = "nothing is changed until the stores are performed, and the next session is had by that alone"]
pub struct Answer<'n> {
    session: Session,
    stores: &'n [Store],
}

impl<'n> Answer<'n> {
    /// The stores, to look at.
    pub fn stores(&self) -> &'n [Store] {
        self.stores
    }

    /// The state of the next session, to look at.
    pub fn next_state(&self) -> SessionState {
        self.session.state
    }

    /// Performs the stores: calls `write` with the offset and the word of each, in their order, and answers the next
    /// session.
    ///
    /// `write` puts the word, little-endian, into the four bytes of the area at the offset, which is a multiple of 4,
    /// by one write that lands whole, and returns when it has landed (R22, P2). Byte by byte, or through a cache that
    /// writes back in another order, a power cut can leave anything.
    pub fn perform(self, write: impl FnMut(usize, u32)) -> Session {
        perform(self.stores, write);
        self.session
    }

    /// The same with a `write` that can fail. The first failure ends it, and no session is answered: what stands in the
    /// area is then as after a power cut, so the way on is [`repair`] and [`start_up`].
    pub fn try_perform<E>(self, write: impl FnMut(usize, u32) -> Result<(), E>) -> Result<Session, E> {
        try_perform(self.stores, write)?;
        Ok(self.session)
    }

    /// Performs the stores in an area that is in memory, as tools and tests have it. An area of another length is left
    /// as it was and refused by 20.
    pub fn perform_in(self, area: &mut [u8]) -> Result<Session, Refusal> {
        perform_in(self.stores, area)?;
        Ok(self.session)
    }
}

/// The answer of [`repair`]: the stores that make both copies sound and equal. To be performed as those of an
/// [`Answer`].
#[derive(PartialEq, Eq, Debug)]
#[must_use = "nothing is repaired until the stores are performed"]
pub struct Repair<'n> {
    stores: &'n [Store],
}

impl<'n> Repair<'n> {
    /// The stores, to look at: none if both copies were sound and equal.
    pub fn stores(&self) -> &'n [Store] {
        self.stores
    }

    /// Performs the stores as [`Answer::perform`] does.
    pub fn perform(self, write: impl FnMut(usize, u32)) {
        perform(self.stores, write);
    }

    /// Performs the stores as [`Answer::try_perform`] does. After a failure the repair is done again.
    pub fn try_perform<E>(self, write: impl FnMut(usize, u32) -> Result<(), E>) -> Result<(), E> {
        try_perform(self.stores, write)
    }

    /// Performs the stores in an area that is in memory. An area of another length is left as it was and refused by 20.
    pub fn perform_in(self, area: &mut [u8]) -> Result<(), Refusal> {
        perform_in(self.stores, area)
    }
}

fn perform(stores: &[Store], mut write: impl FnMut(usize, u32)) {
    stores.iter().for_each(|store| write(store.offset(), store.word()));
}

fn try_perform<E>(stores: &[Store], mut write: impl FnMut(usize, u32) -> Result<(), E>) -> Result<(), E> {
    stores.iter().try_for_each(|store| write(store.offset(), store.word()))
}

/// Every store listed lies in an area of the right length.
fn perform_in(stores: &[Store], area: &mut [u8]) -> Result<(), Refusal> {
    if area.len() != AREA_BYTES {
        return Err(Refusal::AreaLength);
    }
    try_perform(stores, |offset, word| {
        let four = offset.checked_add(4).and_then(|end| area.get_mut(offset..end)).ok_or(Refusal::Unknown(0))?;
        four.copy_from_slice(&word.to_le_bytes());
        Ok(())
    })
}

#[cfg(test)]
mod tests {
    use super::*;
    use crate::header;
    use std::string::ToString;

    /// Each kind has the number that the header names, and comes back from it.
    #[test]
    fn kinds_are_those_of_the_header() {
        let kinds = header::enumerators("meanderpeg_session_kind");
        let names: std::vec::Vec<&str> = kinds.iter().map(|kind| &kind.0["MEANDERPEG_".len()..]).collect();
        assert_eq!(names, ["NO_SESSION", "REGULAR", "STAGING", "TRIAL", "FALLBACK", "RESTART"]);
        for (name, kind) in &kinds[1..] {
            let state = SessionState::of(raw::Session { kind: *kind, bank: 3, set: 9 }).expect("a state");
            assert_eq!(*name, ["MEANDERPEG_", &state.to_string().to_uppercase()].concat());
            let carried = if state.to_string() == "Staging" { (3, 9) } else { (0, 0) };
            assert_eq!(state.numbers(), raw::Session { kind: *kind, bank: carried.0, set: carried.1 });
        }
        for kind in [0, 6, 1 << 31, u32::MAX] {
            assert_eq!(SessionState::of(raw::Session { kind, bank: 0, set: 0 }), None);
        }
    }

    /// And each acceptance the number of its request.
    #[test]
    fn requests_are_those_of_the_header() {
        let named = |name: &str, acceptance: Acceptance| (name.to_string(), acceptance.request());
        let accepted = named("MEANDERPEG_IMAGE_ACCEPTED", Acceptance::Accepted);
        let unaccepted = named("MEANDERPEG_IMAGE_UNACCEPTED", Acceptance::Unaccepted);
        assert_eq!(header::enumerators("meanderpeg_request"), [accepted, unaccepted]);
        assert_eq!((Acceptance::Accepted.request(), Acceptance::Unaccepted.request()), (0, 1));
    }

    /// What no proved archive answers: another kind, or more pairs than the slice has. It is refused, and the session
    /// is handed back.
    #[test]
    fn an_answer_that_cannot_be() {
        let regular = raw::Session { kind: 1, bank: 0, set: 0 };
        let answered = |session, pairs| raw::Answer { refusal: 0, told: [0, 0], session, pairs };
        let given = || Session::resume(SessionState::Trial);
        let refused = Err(Refused { refusal: Refusal::Unknown(0), session: given() });
        assert_eq!(given().answer(answered(raw::Session { kind: 6, bank: 0, set: 0 }, 0), &[]), refused);
        assert_eq!(given().answer(answered(regular, 2), &[0; 3]), refused);
        assert!(given().answer(answered(regular, 1), &[0; 3]).is_ok());
    }
}

//! Why a run ends with another status than 0, and what it says on standard error.

use std::fmt;
use std::path::Path;

/// Each case has its own exit status.
pub enum Failure {
    /// The library refused.
    Refused(meanderpeg::Refusal),
    /// The library refused, and it is known what for.
    RefusedFor(meanderpeg::Refusal, String),
    /// The words given fit no subcommand, or not theirs.
    Usage(String),
    /// A file could not be read or written, or does not hold what it should.
    File(String),
    /// `record update --stores N` stopped as a power cut would: stores done, stores listed.
    Cut(usize, usize),
}

impl Failure {
    pub fn status(&self) -> u8 {
        match self {
            Failure::Refused(_) | Failure::RefusedFor(..) => 1,
            Failure::Usage(_) => 2,
            Failure::File(_) => 3,
            Failure::Cut(..) => 4,
        }
    }

    /// What failed with a file, and why.
    pub fn file(path: &Path, why: impl fmt::Display) -> Failure {
        Failure::File(format!("{}: {why}", path.display()))
    }
}

impl From<meanderpeg::Refusal> for Failure {
    fn from(refusal: meanderpeg::Refusal) -> Failure {
        Failure::Refused(refusal)
    }
}

impl From<meanderpeg::Refused> for Failure {
    fn from(refused: meanderpeg::Refused) -> Failure {
        Failure::Refused(refused.refusal)
    }
}

impl fmt::Display for Failure {
    fn fmt(&self, f: &mut fmt::Formatter<'_>) -> fmt::Result {
        match self {
            Failure::Refused(refusal) => write!(f, "refusal {}: {refusal}", refusal.number()),
            Failure::RefusedFor(refusal, what) => write!(f, "refusal {}: {refusal}: {what}", refusal.number()),
            Failure::Usage(what) => write!(f, "meanderpeg: {what}"),
            Failure::File(what) => write!(f, "meanderpeg: {what}"),
            Failure::Cut(done, listed) => write!(f, "power cut after {done} of {listed} stores"),
        }
    }
}

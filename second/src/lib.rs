//! Meanderpeg, second implementation: all rules written a second time, from the papers and docs/DECISIONS.md, without a
//! look at the first.
//!
//! Plain and slow on purpose. The modules are parted as docs/RULES.md is, and comments name the rules that they hold.
//! Whole numbers never wrap: they are `u128` here.

pub mod answers;
pub mod bytes;
pub mod capsule;
pub mod digest;
pub mod directory;
pub mod gather;
pub mod inputs;
pub mod make;
pub mod packing;
pub mod record;
pub mod session;
pub mod report;
pub mod stores;

//! Meanderpeg for Rust: firmware update code that is proved. It gathers a UEFI capsule that lies scattered in memory,
//! checks it, or packs one, and keeps the Arm A/B update record (DEN0118), so that power may fail at any store; and it
//! writes and reads the image directory that tells a client what is installed.
//!
//! What each function of the linked library answers, and every byte that it leaves, is proved for all inputs that
//! Rust's references allow. What this package adds is the change from numbers to types, which its tests compare with a
//! second implementation; that, and the compilers, are proved of nothing. The rules are in docs/RULES.md; G1, C1 and so
//! on are their numbers.
//!
//! No function allocates, keeps memory or panics, whatever it is given (N102). A refusal alters nothing that was lent
//! (N105). With the feature `alloc`, which is off by default, there is one function more, and that one allocates:
//! `pack_parts`.
//!
//! - [`gather`] puts together a capsule that lies scattered in memory.
//! - [`Capsule::check`] checks one whole; its [`Item`]s are the drivers and payloads.
//! - [`Packing::pack`] packs one, from drivers, images and vendor codes.
//! - [`start_up`] and [`repair`] come after every start of the device, and the six calls of [`Session`] make an update.
//!   Each call's [`Answer`] lists stores, and the next session is had by performing them.
//! - [`soundness`] and [`report`] tell what an area holds.
//! - [`write_directory`] writes the image directory of what is installed, and [`Directory::read`] reads one.
//!
//! # An update
//!
//! ```
//! use meanderpeg::{start_up, Acceptance, BankIndex, Guid, SessionState, AREA_BYTES, STORE_NUMBERS};
//!
//! fn main() -> Result<(), Box<dyn std::error::Error>> {
//!     // The area of a new device, all other bytes 0: two copies of a record with two banks and one image.
//!     let guid: Guid = "a0a1a2a3-a4a5-a6a7-a8a9-aaabacadaeaf".parse()?;
//!     let crc = [(0, 0x0e), (1, 0x56), (2, 0x9a), (3, 0xc2)];
//!     let header = [(4, 2), (12, 1), (16, 120), (20, 32), (24, 252), (25, 252), (26, 255), (27, 255)];
//!     let images = [(32, 2), (34, 1), (36, 80), (38, 24), (88, 1), (112, 1)];
//!     let mut area = [0; AREA_BYTES];
//!     for copy in [0, AREA_BYTES / 2] {
//!         crc.iter().chain(&header).chain(&images).for_each(|&(at, byte)| area[copy + at] = byte);
//!         area[copy + 40..copy + 56].copy_from_slice(guid.as_bytes());
//!     }
//!
//!     let mut numbers = [0; STORE_NUMBERS];
//!     meanderpeg::repair(&area, &mut numbers)?.perform_in(&mut area)?;
//!     let session = start_up(&area, BankIndex::new(0))?;
//!     let session = session.begin(&area, &mut numbers)?.perform_in(&mut area)?;
//!     // .. here the image is written into the update bank ..
//!     let session = session.commit(&area, guid, Acceptance::Unaccepted, &mut numbers)?.perform_in(&mut area)?;
//!     let session = session.end(&area, &mut numbers)?.perform_in(&mut area)?;
//!     assert_eq!(session.state(), SessionState::Restart);
//!
//!     // The device starts again, from bank 1, and the new image is found to be good.
//!     let session = start_up(&area, BankIndex::new(1))?;
//!     assert_eq!(session.state(), SessionState::Trial);
//!     let session = session.accept(&area, guid, &mut numbers)?.perform_in(&mut area)?;
//!     assert_eq!(session.state(), SessionState::Regular);
//!     Ok(())
//! }
//! ```
//!
//! A device has its area in storage and writes each word there, in place of `perform_in`:
//!
//! ```
//! # use meanderpeg::{Refusal, Session};
//! # fn f(session: Session, area: &[u8], numbers: &mut [u32], storage: *mut u32) -> Result<(), Refusal> {
//! let session = session.begin(area, numbers)?.perform(|offset, word| {
//!     // one aligned write of a word, and it has landed before the next
//!     unsafe { storage.add(offset / 4).write_volatile(word.to_le()) }
//! });
//! # Ok(()) }
//! ```
//!
//! # What a caller must see to
//!
//! - Each store is one write that lands whole, before the next one starts ([`Answer::perform`]).
//! - The area starts at a multiple of 4 of the storage, and no block of the device has bytes of both copies (DEN0118,
//!   A3.2.1). Where calls are given a copy of it in RAM, `write` stores in the storage first, then in the copy, and
//!   after a failure the copy is read anew.
//! - Between a call and the end of its stores nobody else writes the area.
//! - Each image is authenticated, and its last byte has landed for good, before [`Session::commit`]: the library looks
//!   at form alone, and through a cache or a queue the stores of [`Session::end`] could land before the image.
//! - The boot loader reads the record by the same rule (R20): copy 0 if it is sound, else copy 1; at the least it asks
//!   for version 2 and not for the CRC alone. It starts no invalid bank, and `booted` is the one that it started: that
//!   is believed.
//! - There is enough stack, as include/meanderpeg.h tells for each function, together with what it says of the red zone
//!   and of vector registers.
#![no_std]
#![deny(unsafe_code, missing_docs)]
#![cfg_attr(
    not(test),
    deny(
        clippy::arithmetic_side_effects,
        clippy::expect_used,
        clippy::indexing_slicing,
        clippy::panic,
        clippy::string_slice,
        clippy::todo,
        clippy::unimplemented,
        clippy::unreachable,
        clippy::unwrap_used
    )
)]

#[cfg(feature = "alloc")]
extern crate alloc;
#[cfg(test)]
extern crate std;

mod capsule;
mod directory;
mod gather;
mod guid;
#[cfg(test)]
mod header;
mod packing;
#[allow(unsafe_code)]
mod raw;
#[cfg(test)]
mod raw_tests;
mod record;
mod refusal;
mod session;
mod store;

pub use capsule::{Capsule, Item, ItemKind};
pub use directory::{write_directory, Directory, Entry, ImageWords, Permissions};
pub use gather::{gather, Gathered};
pub use guid::{Guid, GuidTextFault};
#[cfg(feature = "alloc")]
pub use packing::{pack_parts, Payload};
pub use packing::{CapsuleFlags, Packing};
pub use raw::{DriverEntry, PayloadEntry};
pub use record::{report, soundness, Soundness};
pub use refusal::Refusal;
pub use session::{repair, start_up, Acceptance, Answer, BankIndex, Refused, Repair, Session, SessionState};
pub use store::Store;

/// How many bytes an area has: copy 0 of the record starts at 0, copy 1 in the middle.
pub const AREA_BYTES: usize = 16_384;
/// So many numbers hold the longest list of stores: 2,100 pairs.
pub const STORE_NUMBERS: usize = 4_200;
/// So many bytes hold every report.
pub const REPORT_BYTES: usize = 4_096;
/// How many bytes a directory's header has.
pub const DIRECTORY_HEADER_BYTES: usize = 24;
/// How many bytes a directory has for each image.
pub const DIRECTORY_ENTRY_BYTES: usize = 40;
/// So many bytes hold every directory: the header and 32 entries.
pub const DIRECTORY_BYTES: usize = 1_304;
/// So many items a capsule has at most, drivers and payloads together.
pub const CAPSULE_ITEMS: usize = 64;
/// How many bytes a [`DriverEntry`] has.
pub const DRIVER_ENTRY_BYTES: usize = 16;
/// How many bytes a [`PayloadEntry`] has.
pub const PAYLOAD_ENTRY_BYTES: usize = 64;

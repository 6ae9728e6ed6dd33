//! The library's functions as include/meanderpeg.h declares them, and for each a safe one on slices and references. All
//! of this package's unsafe code is here.
//!
//! What the library asks of a caller is what Rust's references grant: a slice's pointer is never null, its bytes are
//! there, and what is lent for writing is lent to nobody else. So each call below is sound for any arguments.

use crate::packing::Lent;
use crate::{ImageWords, Store};
use core::ffi::c_void;

/// `struct meanderpeg_gathered`.
#[derive(Clone, Copy, PartialEq, Eq, Debug)]
#[repr(C)]
pub struct Gathered {
    pub address: u64,
    pub total: u64,
}

/// `struct meanderpeg_counts`.
#[derive(Clone, Copy, PartialEq, Eq, Debug)]
#[repr(C)]
pub struct Counts {
    pub drivers: usize,
    pub payloads: usize,
}

/// `struct meanderpeg_part`.
#[derive(Clone, Copy, PartialEq, Eq, Debug)]
#[repr(C)]
pub struct Part {
    pub start: usize,
    pub length: usize,
}

/// `struct meanderpeg_session`.
#[derive(Clone, Copy, PartialEq, Eq, Debug)]
#[repr(C)]
pub struct Session {
    pub kind: u32,
    pub bank: u32,
    pub set: u32,
}

/// `struct meanderpeg_answer`.
#[derive(Clone, Copy, PartialEq, Eq, Debug)]
#[repr(C)]
pub struct Answer {
    pub refusal: u32,
    pub told: [u32; 2],
    pub session: Session,
    pub pairs: usize,
}

/// `struct meanderpeg_directory`.
#[derive(Clone, Copy, PartialEq, Eq, Debug)]
#[repr(C)]
pub struct Directory {
    pub images: u32,
    pub correct_boot: u32,
}

/// `struct meanderpeg_directory_entry`.
#[derive(Clone, Copy, PartialEq, Eq, Debug)]
#[repr(C)]
pub struct DirectoryEntry {
    pub permissions: u32,
    pub maximum_size: u32,
    pub lowest_accepted_version: u32,
    pub version: u32,
    pub accepted: u32,
}

/// Which part of the slice of drivers is a driver to be packed (C27).
#[derive(Clone, Copy, PartialEq, Eq, Hash, Debug, Default)]
#[repr(C)]
pub struct DriverEntry {
    /// Where in the slice it starts.
    pub start: u64,
    /// How many bytes it has: 1 or more.
    pub length: u64,
}

/// A payload to be packed: what its header tells, and which parts of the slices of images and of vendor codes it has
/// (C27). There is a default, all zeros, for the fields that are not of interest; its version is none.
#[derive(Clone, Copy, PartialEq, Eq, Hash, Debug, Default)]
#[repr(C)]
pub struct PayloadEntry {
    /// The version of its header: 1, or 2, which has the hardware instance.
    pub version: u32,
    /// Which image it is for, as [`Guid::to_bytes`](crate::Guid::to_bytes) gives it.
    pub type_guid: [u8; 16],
    /// Its image index.
    pub image_index: u8,
    /// Not looked at; without them the struct would have a gap, which no slice of bytes may have.
    pub unused: [u8; 3],
    /// Its hardware instance: 0 with version 1.
    pub hardware_instance: u64,
    /// Where in the slice of images its image starts.
    pub image_start: u64,
    /// How many bytes the image has; there may be none.
    pub image_length: u64,
    /// Where in the slice of vendor codes its vendor code starts.
    pub vendor_code_start: u64,
    /// How many bytes the vendor code has; there may be none.
    pub vendor_code_length: u64,
}

/// The library's functions have the convention of the System V ABI. "C" is that on all targets for x86-64 but those
/// whose convention is Microsoft's.
macro_rules! declare {
    ($($declarations:tt)*) => {
        #[cfg(any(target_os = "windows", target_os = "uefi", target_os = "cygwin"))]
        extern "sysv64" { $($declarations)* }
        #[cfg(not(any(target_os = "windows", target_os = "uefi", target_os = "cygwin")))]
        extern "C" { $($declarations)* }
    };
}

mod library {
    use super::{c_void, Answer, Counts, Directory, DirectoryEntry, Gathered, Part, Session};

    declare! {
        pub fn meanderpeg_gather(
            window: *mut u8,
            window_length: usize,
            base: u64,
            first: u64,
            gathered: *mut Gathered,
        ) -> u32;
        pub fn meanderpeg_capsule_check(capsule: *const u8, capsule_length: usize, counts: *mut Counts) -> u32;
        pub fn meanderpeg_capsule_item(
            capsule: *const u8,
            capsule_length: usize,
            item: usize,
            part: *mut Part,
        ) -> u32;
        pub fn meanderpeg_capsule_image(
            capsule: *const u8,
            capsule_length: usize,
            item: usize,
            part: *mut Part,
        ) -> u32;
        pub fn meanderpeg_capsule_vendor_code(
            capsule: *const u8,
            capsule_length: usize,
            item: usize,
            part: *mut Part,
        ) -> u32;
        pub fn meanderpeg_capsule_type_guid(
            capsule: *const u8,
            capsule_length: usize,
            item: usize,
            guid: *mut u8,
        ) -> u32;
        pub fn meanderpeg_capsule_image_index(
            capsule: *const u8,
            capsule_length: usize,
            item: usize,
            index: *mut u8,
        ) -> u32;
        pub fn meanderpeg_capsule_hardware_instance(
            capsule: *const u8,
            capsule_length: usize,
            item: usize,
            instance: *mut u64,
        ) -> u32;

        pub fn meanderpeg_capsule_packed_size(
            flags: u32,
            drivers: *const u8,
            drivers_length: usize,
            driver_table: *const c_void,
            driver_table_bytes: usize,
            images: *const u8,
            images_length: usize,
            vendor_codes: *const u8,
            vendor_codes_length: usize,
            payload_table: *const c_void,
            payload_table_bytes: usize,
            size: *mut usize,
        ) -> u32;
        pub fn meanderpeg_capsule_pack(
            flags: u32,
            drivers: *const u8,
            drivers_length: usize,
            driver_table: *const c_void,
            driver_table_bytes: usize,
            images: *const u8,
            images_length: usize,
            vendor_codes: *const u8,
            vendor_codes_length: usize,
            payload_table: *const c_void,
            payload_table_bytes: usize,
            capsule: *mut u8,
            room: usize,
            length: *mut usize,
        ) -> u32;

        pub fn meanderpeg_soundness(area: *const u8, area_length: usize, copies: *mut u32) -> u32;
        pub fn meanderpeg_report(area: *const u8, area_length: usize, text: *mut u8, text_length: usize) -> usize;

        pub fn meanderpeg_start_up(area: *const u8, area_length: usize, booted: u32) -> Answer;
        pub fn meanderpeg_repair(
            area: *const u8,
            area_length: usize,
            stores: *mut u32,
            stores_length: usize,
        ) -> Answer;
        pub fn meanderpeg_begin(
            session: Session,
            area: *const u8,
            area_length: usize,
            stores: *mut u32,
            stores_length: usize,
        ) -> Answer;
        pub fn meanderpeg_commit(
            session: Session,
            area: *const u8,
            area_length: usize,
            guid: *const u8,
            request: u32,
            stores: *mut u32,
            stores_length: usize,
        ) -> Answer;
        pub fn meanderpeg_end(
            session: Session,
            area: *const u8,
            area_length: usize,
            stores: *mut u32,
            stores_length: usize,
        ) -> Answer;
        pub fn meanderpeg_cancel(
            session: Session,
            area: *const u8,
            area_length: usize,
            stores: *mut u32,
            stores_length: usize,
        ) -> Answer;
        pub fn meanderpeg_accept(
            session: Session,
            area: *const u8,
            area_length: usize,
            guid: *const u8,
            stores: *mut u32,
            stores_length: usize,
        ) -> Answer;
        pub fn meanderpeg_select_previous(
            session: Session,
            area: *const u8,
            area_length: usize,
            stores: *mut u32,
            stores_length: usize,
        ) -> Answer;

        pub fn meanderpeg_directory_write(
            area: *const u8,
            area_length: usize,
            booted: u32,
            words: *const u32,
            words_length: usize,
            directory: *mut u8,
            room: usize,
            length: *mut usize,
        ) -> u32;
        pub fn meanderpeg_directory_check(directory: *const u8, length: usize, shown: *mut Directory) -> u32;
        pub fn meanderpeg_directory_type_guid(
            directory: *const u8,
            length: usize,
            k: usize,
            part: *mut Part,
        ) -> u32;
        pub fn meanderpeg_directory_numbers(
            directory: *const u8,
            length: usize,
            k: usize,
            numbers: *mut DirectoryEntry,
        ) -> u32;
    }
}

/// The first pairs of a slice of numbers, if it holds so many.
pub fn stores_of(numbers: &[u32], pairs: usize) -> Option<&[Store]> {
    let listed = numbers.get(..pairs.checked_mul(2)?)?;
    // Sound: `Store` is two numbers of 32 bits with no gap, so `pairs` of them are these 2 * pairs numbers.
    Some(unsafe { core::slice::from_raw_parts(listed.as_ptr().cast::<Store>(), pairs) })
}

/// The words of images as the numbers that they are.
pub fn words_of(images: &[ImageWords]) -> &[u32] {
    // Sound: `ImageWords` is four numbers of 32 bits with no gap, so its bytes divided by 4 are so many numbers.
    unsafe { core::slice::from_raw_parts(images.as_ptr().cast::<u32>(), core::mem::size_of_val(images) / 4) }
}

/// A table of drivers as the bytes that it is.
pub fn driver_table_of(entries: &[DriverEntry]) -> &[u8] {
    // Sound: `DriverEntry` has no gap, and each of its bytes is a byte of a number.
    unsafe { core::slice::from_raw_parts(entries.as_ptr().cast::<u8>(), core::mem::size_of_val(entries)) }
}

/// A table of payloads as the bytes that it is.
pub fn payload_table_of(entries: &[PayloadEntry]) -> &[u8] {
    // Sound: `PayloadEntry` has no gap, since the bytes of `unused` fill it.
    unsafe { core::slice::from_raw_parts(entries.as_ptr().cast::<u8>(), core::mem::size_of_val(entries)) }
}

pub fn gather(window: &mut [u8], base: u64, first: u64, gathered: &mut Gathered) -> u32 {
    unsafe { library::meanderpeg_gather(window.as_mut_ptr(), window.len(), base, first, gathered) }
}

pub fn capsule_check(capsule: &[u8], counts: &mut Counts) -> u32 {
    unsafe { library::meanderpeg_capsule_check(capsule.as_ptr(), capsule.len(), counts) }
}

pub fn capsule_item(capsule: &[u8], item: usize, part: &mut Part) -> u32 {
    unsafe { library::meanderpeg_capsule_item(capsule.as_ptr(), capsule.len(), item, part) }
}

pub fn capsule_image(capsule: &[u8], item: usize, part: &mut Part) -> u32 {
    unsafe { library::meanderpeg_capsule_image(capsule.as_ptr(), capsule.len(), item, part) }
}

pub fn capsule_vendor_code(capsule: &[u8], item: usize, part: &mut Part) -> u32 {
    unsafe { library::meanderpeg_capsule_vendor_code(capsule.as_ptr(), capsule.len(), item, part) }
}

pub fn capsule_type_guid(capsule: &[u8], item: usize, guid: &mut [u8; 16]) -> u32 {
    unsafe { library::meanderpeg_capsule_type_guid(capsule.as_ptr(), capsule.len(), item, guid.as_mut_ptr()) }
}

pub fn capsule_image_index(capsule: &[u8], item: usize, index: &mut u8) -> u32 {
    unsafe { library::meanderpeg_capsule_image_index(capsule.as_ptr(), capsule.len(), item, index) }
}

pub fn capsule_hardware_instance(capsule: &[u8], item: usize, instance: &mut u64) -> u32 {
    unsafe { library::meanderpeg_capsule_hardware_instance(capsule.as_ptr(), capsule.len(), item, instance) }
}

pub fn capsule_packed_size(lent: &Lent, size: &mut usize) -> u32 {
    unsafe {
        library::meanderpeg_capsule_packed_size(
            lent.flags,
            lent.drivers.as_ptr(),
            lent.drivers.len(),
            lent.driver_table.as_ptr().cast(),
            lent.driver_table.len(),
            lent.images.as_ptr(),
            lent.images.len(),
            lent.vendor_codes.as_ptr(),
            lent.vendor_codes.len(),
            lent.payload_table.as_ptr().cast(),
            lent.payload_table.len(),
            size,
        )
    }
}

pub fn capsule_pack(lent: &Lent, capsule: &mut [u8], length: &mut usize) -> u32 {
    unsafe {
        library::meanderpeg_capsule_pack(
            lent.flags,
            lent.drivers.as_ptr(),
            lent.drivers.len(),
            lent.driver_table.as_ptr().cast(),
            lent.driver_table.len(),
            lent.images.as_ptr(),
            lent.images.len(),
            lent.vendor_codes.as_ptr(),
            lent.vendor_codes.len(),
            lent.payload_table.as_ptr().cast(),
            lent.payload_table.len(),
            capsule.as_mut_ptr(),
            capsule.len(),
            length,
        )
    }
}

pub fn soundness(area: &[u8], copies: &mut u32) -> u32 {
    unsafe { library::meanderpeg_soundness(area.as_ptr(), area.len(), copies) }
}

pub fn report(area: &[u8], text: &mut [u8]) -> usize {
    unsafe { library::meanderpeg_report(area.as_ptr(), area.len(), text.as_mut_ptr(), text.len()) }
}

pub fn start_up(area: &[u8], booted: u32) -> Answer {
    unsafe { library::meanderpeg_start_up(area.as_ptr(), area.len(), booted) }
}

pub fn repair(area: &[u8], stores: &mut [u32]) -> Answer {
    unsafe { library::meanderpeg_repair(area.as_ptr(), area.len(), stores.as_mut_ptr(), stores.len()) }
}

pub fn begin(session: Session, area: &[u8], stores: &mut [u32]) -> Answer {
    let (list, numbers) = (stores.as_mut_ptr(), stores.len());
    unsafe { library::meanderpeg_begin(session, area.as_ptr(), area.len(), list, numbers) }
}

pub fn commit(session: Session, area: &[u8], guid: &[u8; 16], request: u32, stores: &mut [u32]) -> Answer {
    let (list, numbers) = (stores.as_mut_ptr(), stores.len());
    unsafe { library::meanderpeg_commit(session, area.as_ptr(), area.len(), guid.as_ptr(), request, list, numbers) }
}

pub fn end(session: Session, area: &[u8], stores: &mut [u32]) -> Answer {
    let (list, numbers) = (stores.as_mut_ptr(), stores.len());
    unsafe { library::meanderpeg_end(session, area.as_ptr(), area.len(), list, numbers) }
}

pub fn cancel(session: Session, area: &[u8], stores: &mut [u32]) -> Answer {
    let (list, numbers) = (stores.as_mut_ptr(), stores.len());
    unsafe { library::meanderpeg_cancel(session, area.as_ptr(), area.len(), list, numbers) }
}

pub fn accept(session: Session, area: &[u8], guid: &[u8; 16], stores: &mut [u32]) -> Answer {
    let (list, numbers) = (stores.as_mut_ptr(), stores.len());
    unsafe { library::meanderpeg_accept(session, area.as_ptr(), area.len(), guid.as_ptr(), list, numbers) }
}

pub fn select_previous(session: Session, area: &[u8], stores: &mut [u32]) -> Answer {
    let (list, numbers) = (stores.as_mut_ptr(), stores.len());
    unsafe { library::meanderpeg_select_previous(session, area.as_ptr(), area.len(), list, numbers) }
}

pub fn directory_write(area: &[u8], booted: u32, words: &[u32], directory: &mut [u8], length: &mut usize) -> u32 {
    let (given, count, written, room) = (words.as_ptr(), words.len(), directory.as_mut_ptr(), directory.len());
    unsafe {
        library::meanderpeg_directory_write(area.as_ptr(), area.len(), booted, given, count, written, room, length)
    }
}

pub fn directory_check(directory: &[u8], shown: &mut Directory) -> u32 {
    unsafe { library::meanderpeg_directory_check(directory.as_ptr(), directory.len(), shown) }
}

pub fn directory_type_guid(directory: &[u8], k: usize, part: &mut Part) -> u32 {
    unsafe { library::meanderpeg_directory_type_guid(directory.as_ptr(), directory.len(), k, part) }
}

pub fn directory_numbers(directory: &[u8], k: usize, numbers: &mut DirectoryEntry) -> u32 {
    unsafe { library::meanderpeg_directory_numbers(directory.as_ptr(), directory.len(), k, numbers) }
}

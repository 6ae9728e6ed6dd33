//! What `capsule pack` is told on the command line: flags, and files for drivers and payloads.

use crate::arguments::{guid, number, number_of, Arguments};
use crate::capsule_list::FLAGS;
use crate::failure::Failure;
use meanderpeg::{CapsuleFlags, Guid, PayloadEntry};
use std::ffi::{OsStr, OsString};

pub struct PackingWords {
    pub flags: CapsuleFlags,
    pub drivers: Vec<OsString>,
    pub payloads: Vec<PayloadWords>,
}

/// What is told of a payload; what isn't is none.
pub struct PayloadWords {
    type_guid: Guid,
    image: Option<OsString>,
    vendor_code: Option<OsString>,
    image_index: Option<u8>,
    hardware_instance: Option<u64>,
    version: Option<u32>,
}

/// As EDK II counts: the images of a device from 1.
const DEFAULT_INDEX: u8 = 1;
const DEFAULT_INSTANCE: u64 = 0;
const DEFAULT_VERSION: u32 = 2;

impl PackingWords {
    pub fn of(arguments: &Arguments) -> Result<PackingWords, Failure> {
        let flags = arguments.value("--flags")?.map_or(Ok(CapsuleFlags::NONE), flags_of)?;
        let mut words = PackingWords { flags, drivers: vec![], payloads: vec![] };
        for (option, value) in arguments.options().filter(|(option, _)| *option != "--flags") {
            match (option, words.payloads.last_mut()) {
                ("--driver", _) => words.drivers.push(value.to_os_string()),
                ("--payload", _) => words.payloads.push(PayloadWords::new(guid(value)?)),
                (_, Some(payload)) => payload.put(option, value)?,
                (_, None) => return Err(Failure::Usage(format!("{option} stands before any --payload"))),
            }
        }
        match words.payloads.iter().find(|payload| payload.image.is_none()) {
            Some(payload) => Err(Failure::Usage(format!("--payload {} has no --image", payload.type_guid))),
            None => Ok(words),
        }
    }
}

impl PayloadWords {
    fn new(type_guid: Guid) -> PayloadWords {
        let (image, vendor_code, image_index, hardware_instance, version) = (None, None, None, None, None);
        PayloadWords { type_guid, image, vendor_code, image_index, hardware_instance, version }
    }

    fn put(&mut self, option: &'static str, value: &OsStr) -> Result<(), Failure> {
        let number = |most: u64| number(value, option, 0..=most);
        let given = match option {
            "--image" => self.image.replace(value.to_os_string()).is_some(),
            "--vendor-code" => self.vendor_code.replace(value.to_os_string()).is_some(),
            "--index" => self.image_index.replace(number(u8::MAX.into())? as u8).is_some(),
            "--instance" => self.hardware_instance.replace(number(u64::MAX)?).is_some(),
            _ => self.version.replace(number(u32::MAX.into())? as u32).is_some(),
        };
        if given {
            return Err(Failure::Usage(format!("{option} is given more than once for one --payload")));
        }
        Ok(())
    }

    /// By its number among the payloads, for whom it is, and its file.
    pub fn name(&self, number: usize) -> String {
        format!("payload {number} ({}, image {})", self.type_guid, self.image().display())
    }

    /// The image's file.
    pub fn image(&self) -> &OsStr {
        self.image.as_deref().unwrap_or_default()
    }

    /// The vendor code's file, if there is one.
    pub fn vendor_code(&self) -> Option<&OsStr> {
        self.vendor_code.as_deref()
    }

    /// Its entry in the table, with the image and the vendor code there, by start and length.
    pub fn entry(&self, image: (u64, u64), vendor_code: (u64, u64)) -> PayloadEntry {
        PayloadEntry {
            version: self.version.unwrap_or(DEFAULT_VERSION),
            type_guid: self.type_guid.to_bytes(),
            image_index: self.image_index.unwrap_or(DEFAULT_INDEX),
            unused: [0; 3],
            hardware_instance: self.hardware_instance.unwrap_or(DEFAULT_INSTANCE),
            image_start: image.0,
            image_length: image.1,
            vendor_code_start: vendor_code.0,
            vendor_code_length: vendor_code.1,
        }
    }
}

/// Names and numbers with commas between.
fn flags_of(word: &OsStr) -> Result<CapsuleFlags, Failure> {
    let flag = |name: &str| match FLAGS.iter().find(|(_, known)| *known == name) {
        Some((flag, _)) => Some(*flag),
        None => number_of(name).and_then(|bits| u32::try_from(bits).ok()).map(CapsuleFlags::from_bits),
    };
    let flags = word.to_str().unwrap_or("?").split(',').map(flag);
    let all = flags.reduce(|all, flag| Some(all? | flag?)).flatten();
    all.ok_or_else(|| {
        let wanted = "persist, populate, reset or a number of 32 bits, or some of these with commas between";
        Failure::Usage(format!("--flags is {wanted}, not {}", word.display()))
    })
}

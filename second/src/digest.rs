//! A running 32-bit digest of answers, and tallies. See GENERATORS.md, "The digest".

use std::collections::BTreeMap;

/// The largest prime below 2^32.
pub const MODULUS: u64 = 4_294_967_291;

#[derive(Clone, Debug)]
pub struct Digest {
    pub value: u64,
}

impl Digest {
    pub fn new() -> Digest {
        Digest { value: 0 }
    }

    /// Takes one 32-bit number: value = (value * 65,599 + number + 1) mod 4,294,967,291. Nothing passes 2^49.
    pub fn word(&mut self, number: u32) {
        self.value = (self.value * 65_599 + number as u64 + 1) % MODULUS;
    }

    /// Takes a 64-bit number: its lower half, then its upper half.
    pub fn long(&mut self, number: u64) {
        self.word((number % 4_294_967_296) as u32);
        self.word((number / 4_294_967_296) as u32);
    }

    /// Takes bytes: how many they are, then little-endian words of four, missing bytes of the last counting as 0.
    pub fn bytes(&mut self, bytes: &[u8]) {
        self.word(bytes.len() as u32);
        for group in bytes.chunks(4) {
            let mut number: u32 = 0;
            for (i, &byte) in group.iter().enumerate() {
                number += (byte as u32) << (8 * i);
            }
            self.word(number);
        }
    }
}

impl Default for Digest {
    fn default() -> Digest {
        Digest::new()
    }
}

/// How often each outcome was met.
#[derive(Default, Debug)]
pub struct Tally {
    pub counts: BTreeMap<String, u64>,
}

impl Tally {
    pub fn add(&mut self, name: &str) {
        *self.counts.entry(name.to_string()).or_insert(0) += 1;
    }

    pub fn of(&self, name: &str) -> u64 {
        self.counts.get(name).copied().unwrap_or(0)
    }
}

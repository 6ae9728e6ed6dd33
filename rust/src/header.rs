//! For tests: what stands in include/meanderpeg.h.

use std::string::{String, ToString};
use std::vec::Vec;

const HEADER: &str = include_str!("../../include/meanderpeg.h");

/// The text behind the first place where these words stand.
pub fn after(words: &str) -> &'static str {
    HEADER.split_once(words).unwrap_or_else(|| std::panic!("{words} is not in the header")).1
}

/// The names of an enum with their numbers.
pub fn enumerators(name: &str) -> Vec<(String, u32)> {
    let body = after(&std::format!("enum {name} {{")).split('}').next().unwrap();
    let names = body.split_whitespace().collect::<Vec<_>>();
    let number = |text: &str| match text.trim_end_matches(',').split_once("0x") {
        Some((_, digits)) => u32::from_str_radix(digits, 16).unwrap(),
        None => text.trim_end_matches(',').parse().unwrap(),
    };
    let equals = (0..names.len()).filter(|&i| names[i] == "=");
    equals.map(|i| (names[i - 1].to_string(), number(names[i + 1]))).collect()
}

//! Reads an area from standard input and prints its report (T1).

use std::io::{Read, Write};

fn main() {
    let mut input = Vec::new();
    std::io::stdin().read_to_end(&mut input).expect("standard input");
    std::io::stdout().write_all(second::report::report(&input).as_bytes()).expect("standard output");
}

//! Each entry of the library against the second implementation on 10,000 inputs, and that these reach every refusal and
//! every accepted case. `cargo run --release --example compare` prints the tallies, for any seed and number of inputs.

mod compare;

use second::digest::Tally;

const SEED: u64 = 1;
const INPUTS: u64 = 10_000;

fn agrees(entry: &str) {
    let mut tally = Tally::default();
    for k in 0..INPUTS {
        compare::compare(entry, SEED, k, &mut tally);
    }
    for (outcome, count) in &tally.counts {
        println!("{entry}\t{count}\t{outcome}");
    }
    assert_eq!(compare::unreached(entry, &tally), Vec::<String>::new(), "outcomes that {entry}'s inputs never reach");
}

#[test]
fn gather() {
    agrees("gather");
}

#[test]
fn capsule() {
    agrees("capsule");
}

#[test]
fn start_up() {
    agrees("start_up");
}

#[test]
fn repair() {
    agrees("repair");
}

#[test]
fn begin() {
    agrees("begin");
}

#[test]
fn commit() {
    agrees("commit");
}

#[test]
fn end() {
    agrees("end");
}

#[test]
fn cancel() {
    agrees("cancel");
}

#[test]
fn accept() {
    agrees("accept");
}

#[test]
fn select_previous() {
    agrees("select_previous");
}

#[test]
fn soundness() {
    agrees("soundness");
}

#[test]
fn report() {
    agrees("report");
}

#[test]
fn directory_write() {
    agrees("directory_write");
}

#[test]
fn directory_read() {
    agrees("directory_read");
}

#[test]
fn pack() {
    agrees("pack");
}

#[test]
fn pack_again() {
    agrees("pack_again");
}

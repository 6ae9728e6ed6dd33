//! The library against the second implementation, with tallies: how often each refusal and each accepted case was
//! reached. Arguments: the seed (1), the number of inputs for each entry (10,000), an entry's name (all). The last line
//! is the verdict.

#[path = "../tests/compare/mod.rs"]
mod compare;

use second::digest::Tally;
use std::panic::catch_unwind;

/// Compares the inputs of an entry, up to the fifth that differs; answers how many were compared and how many differ.
fn run(entry: &str, seed: u64, inputs: u64) -> (u64, u64) {
    let mut tally = Tally::default();
    let mut differ = 0;
    for k in 0..inputs {
        let outcome = catch_unwind(|| {
            let mut one = Tally::default();
            compare::compare(entry, seed, k, &mut one);
            one
        });
        match outcome {
            Ok(one) => one.counts.into_iter().for_each(|(name, count)| *tally.counts.entry(name).or_insert(0) += count),
            Err(_) => differ += 1,
        }
        if differ == 5 {
            println!("{entry}\tgiven up after five differences, at input {k}");
            return (k + 1, differ);
        }
    }
    for (outcome, count) in &tally.counts {
        println!("{entry}\t{count}\t{outcome}");
    }
    for outcome in compare::unreached(entry, &tally) {
        println!("{entry}\t0\t{outcome}");
    }
    (inputs, differ)
}

fn main() {
    let mut arguments = std::env::args().skip(1);
    let seed = arguments.next().map_or(1, |a| a.parse().expect("a seed"));
    let inputs = arguments.next().map_or(10_000, |a| a.parse().expect("a number of inputs"));
    let wanted = arguments.next();
    let (mut total, mut differ) = (0, 0);
    for entry in compare::ENTRIES {
        if wanted.as_deref().is_none_or(|name| name == entry) {
            let (compared, differing) = run(entry, seed, inputs);
            total += compared;
            differ += differing;
        }
    }
    println!("{total} inputs, {differ} differ");
    if differ > 0 {
        std::process::exit(1);
    }
}

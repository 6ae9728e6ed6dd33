//! For each entry: the running digests of all inputs and of all answers after every 1,000 inputs, and how often each
//! outcome was met; last the number of inputs in all. Without arguments this is what crates/test_random_packing must
//! print. Arguments: the seed (1), the number of thousands (as in the comparison), an entry's name (all of the
//! comparison). Where an outcome was not met, or one that isn't told for the entry was, the exit code is 1.

use second::answers::{answer, outcomes, thousands, Account, ENTRIES};

fn main() {
    let mut arguments = std::env::args().skip(1);
    let seed: u64 = arguments.next().map_or(1, |a| a.parse().expect("a seed"));
    let wanted_thousands: Option<u64> = arguments.next().map(|a| a.parse().expect("a number of thousands"));
    let wanted = arguments.next();
    let mut all = 0;
    let mut good = true;
    for entry in ENTRIES {
        let compared = thousands(entry) > 0;
        if !wanted.as_deref().map_or(compared, |name| name == entry) {
            continue;
        }
        let mut account = Account::default();
        let count = 1_000 * wanted_thousands.unwrap_or(thousands(entry));
        for k in 0..count {
            answer(entry, seed, k, &mut account);
            if (k + 1) % 1_000 == 0 {
                println!(
                    "{entry}: after {} inputs {:08x} answers {:08x}",
                    k + 1,
                    account.inputs.value,
                    account.answers.value
                );
            }
        }
        all += count;
        let told = outcomes(entry);
        for outcome in &told {
            println!("{entry}: {} {outcome}", account.tally.of(outcome));
            good = good && account.tally.of(outcome) > 0;
        }
        good = good && account.tally.counts.len() == told.len();
    }
    println!("inputs in all: {all}");
    if !good {
        eprintln!("an outcome was not met, or one was met that is not told");
        std::process::exit(1);
    }
}

//! Real cuts. A child process does a call's stores in a file that holds the area, one write of four bytes for each
//! store, and is killed by its parent (SIGKILL) at a random moment. Then the file is read as a device reads its area
//! when power returns, and repaired by children that may be killed too. What start-up reads must be the old record or
//! the new, the same after each repair, and after a finished repair the whole area is the one that the rules give for
//! that record (P1 to P11).
//!
//! Arguments: the number of kills to stop at (3,000), the seconds to stop at (60), the seed (1). Exit status 1 if
//! nothing was killed, if no change was cut between two of its stores, or if anything else than the old or the new
//! record was read or left. With `backwards` as a fourth argument the children do a change's stores in the wrong order,
//! to show that this is noticed: the exit status must then be 1.

#[path = "../tests/compare/mod.rs"]
mod compare;

use meanderpeg::BankIndex;
use second::answers::call_answer;
use second::inputs::{call_input, CallInput, Draw};
use second::record::{banks, both_sound_and_equal, record_read};
use second::session as plain;
use second::stores::apply;
use std::fs::{self, OpenOptions};
use std::io::{BufRead, BufReader, Write};
use std::os::unix::fs::FileExt;
use std::os::unix::process::ExitStatusExt;
use std::path::Path;
use std::process::{Child, Command, Stdio};
use std::time::{Duration, Instant};

/// A child's time for one store: a list takes 2 milliseconds or more, so that most kills fall between its first and its
/// last.
fn pace(stores: usize) -> Duration {
    let least = Duration::from_micros(12);
    least.max(Duration::from_millis(2) / stores.max(1) as u32)
}

/// After so many killed repairs one is left to finish.
const MOST_KILLED_REPAIRS: u64 = 3;

#[derive(Default)]
struct Counts {
    changes: u64,
    kills: u64,
    first: u64,
    middle: u64,
    last: u64,
    old: u64,
    new: u64,
    repairs_killed: u64,
    repairs_finished: u64,
    start_ups: u64,
    else_read: u64,
}

/// A child: does the stores of a call (call 2 to 7 with input `seed`, `k`) or of a repair (call 1), told of by the file
/// alone.
fn child(file: &Path, call: u64, seed: u64, k: u64, backwards: bool) {
    let mut input = if call == 1 { call_input(1, 0, 0) } else { call_input(call, seed, k) };
    input.area = fs::read(file).expect("the area's file");
    let mut numbers = [0; meanderpeg::STORE_NUMBERS];
    let stores = match call {
        1 => meanderpeg::repair(&input.area, &mut numbers).expect("a sound copy").stores(),
        _ => compare::answer_of(call, &input, &mut numbers).expect("an accepted call").stores(),
    };
    let area = OpenOptions::new().write(true).open(file).expect("the area's file");
    println!("{}", stores.len());
    std::io::stdout().flush().expect("standard output");
    let start = Instant::now();
    for (i, store) in stores.iter().enumerate() {
        while start.elapsed() < pace(stores.len()) * i as u32 {
            std::hint::spin_loop();
        }
        let store = if backwards { stores[stores.len() - 1 - i] } else { *store };
        area.write_all_at(&store.word().to_le_bytes(), store.offset() as u64).expect("a store");
    }
}

fn spawn(file: &Path, call: u64, seed: u64, k: u64, order: &str) -> Child {
    let program = std::env::current_exe().expect("this program");
    let mut command = Command::new(program);
    command.arg("child").arg(file).args([call, seed, k].map(|n| n.to_string())).arg(order);
    command.stdout(Stdio::piped()).spawn().expect("a child")
}

/// Runs a child and kills it at a moment drawn over the time that its stores take, or lets it finish. Answers whether
/// it was killed before it had finished; none if it failed.
fn run_child(mut child: Child, draw: &mut Draw, kill: bool) -> Option<bool> {
    let mut line = String::new();
    BufReader::new(child.stdout.as_mut().expect("its output")).read_line(&mut line).expect("its count");
    let listed: Result<usize, _> = line.trim().parse();
    if let (true, Ok(stores)) = (kill, listed) {
        let whole = pace(stores) * (stores as u32 + 1);
        let moment = whole * draw.below(10_000) as u32 / 10_000;
        wait(moment);
        child.kill().expect("a kill");
    }
    let status = child.wait().expect("its end");
    (status.success() || status.signal() == Some(9)).then_some(!status.success())
}

/// Sleeps, and spins for the last part, which a sleep would overrun.
fn wait(time: Duration) {
    let (start, slack) = (Instant::now(), Duration::from_micros(150));
    if time > slack {
        std::thread::sleep(time - slack);
    }
    while start.elapsed() < time {
        std::hint::spin_loop();
    }
}

/// Starts up from what the file holds, with every booted bank, and answers the record read.
fn read(file: &Path, counts: &mut Counts) -> Option<(Vec<u8>, Vec<u8>)> {
    let area = fs::read(file).expect("the area's file");
    let record = record_read(&area)?.1;
    for booted in 0..=banks(&record) as u32 {
        let wanted = plain::start_up(&area, booted);
        let good = match meanderpeg::start_up(&area, BankIndex::new(booted)) {
            Ok(session) => wanted.refusal == 0 && session.state() == compare::state_of(wanted.session),
            Err(refusal) => refusal.number() == wanted.refusal,
        };
        counts.start_ups += 1;
        if !good {
            return None;
        }
    }
    Some((area, record))
}

/// Repairs until one repair finished. Answers whether each start-up read `record` and the area left is `wanted`.
fn repair(file: &Path, record: &[u8], wanted: &[u8], draw: &mut Draw, counts: &mut Counts) -> bool {
    let mut killed = 0;
    loop {
        let kill = killed < MOST_KILLED_REPAIRS && draw.below(4) > 0;
        let Some(was_killed) = run_child(spawn(file, 1, 0, 0, "forwards"), draw, kill) else { return false };
        let Some((area, read)) = read(file, counts) else { return false };
        if read != record {
            return false;
        }
        if was_killed {
            killed += 1;
            counts.repairs_killed += 1;
            counts.kills += 1;
            continue;
        }
        counts.repairs_finished += 1;
        let sound = meanderpeg::soundness(&area).is_ok_and(|s| s.copy_0 && s.copy_1 && s.equal);
        return sound && both_sound_and_equal(&area) && area == wanted;
    }
}

/// After which of its stores the change was cut, if the area left is a cut of it at all.
fn cut_of(input: &CallInput, pairs: &[(u32, u32)], left: &[u8]) -> Option<usize> {
    (0..=pairs.len()).rev().find(|&n| apply(&input.area, &pairs[..n]) == left)
}

/// One change, cut and repaired. Answers whether only the old record and the new were read.
fn change(file: &Path, (call, seed, k): (u64, u64, u64), order: &str, draw: &mut Draw, counts: &mut Counts) -> bool {
    let input = call_input(call, seed, k);
    let answer = call_answer(call, &input);
    let mut numbers = [0; meanderpeg::STORE_NUMBERS];
    let mut pairs = compare::listed(call, &input, &mut numbers);
    if order == "backwards" {
        pairs.reverse();
    }
    let (old, new) = (record_read(&input.area).expect("the old record").1, answer.record.expect("the new record"));
    fs::write(file, &input.area).expect("the area's file");
    match run_child(spawn(file, call, seed, k, order), draw, true) {
        None => return false,
        Some(killed) => counts.kills += killed as u64,
    }
    counts.changes += 1;
    let Some((left, record)) = read(file, counts) else { return false };
    match cut_of(&input, &pairs, &left) {
        None => return false,
        Some(0) => counts.first += 1,
        Some(n) if n == pairs.len() => counts.last += 1,
        Some(_) => counts.middle += 1,
    }
    let wanted = if record == new {
        counts.new += 1;
        answer.area
    } else if record == old {
        counts.old += 1;
        input.area
    } else {
        return false;
    };
    repair(file, &record, &wanted, draw, counts)
}

fn parent(kills: u64, seconds: u64, seed: u64, order: &str) -> Counts {
    let file = std::env::temp_dir().join(format!("meanderpeg-area-{}", std::process::id()));
    let (start, mut draw, mut counts) = (Instant::now(), Draw::start(20, seed, 0), Counts::default());
    let mut k = 0;
    while counts.kills < kills && start.elapsed() < Duration::from_secs(seconds) {
        k += 1;
        let call = [2, 3, 4, 6, 7][k as usize % 5];
        let input = call_input(call, seed, k);
        let answer = call_answer(call, &input);
        if answer.refusal > 0 || answer.area == input.area {
            continue;
        }
        if !change(&file, (call, seed, k), order, &mut draw, &mut counts) {
            counts.else_read += 1;
        }
    }
    let _ = fs::remove_file(&file);
    counts
}

fn main() {
    let arguments: Vec<String> = std::env::args().skip(1).collect();
    let number = |i: usize, or: u64| arguments.get(i).map_or(or, |a| a.parse().expect("a number"));
    if arguments.first().is_some_and(|a| a == "child") {
        child(Path::new(&arguments[1]), number(2, 1), number(3, 1), number(4, 0), arguments[5] == "backwards");
        return;
    }
    let order = arguments.get(3).map_or("forwards", |a| a);
    let c = parent(number(0, 3_000), number(1, 60), number(2, 1), order);
    println!(
        "changes {}: cut before the first store {}, in the middle {}, after the last {}",
        c.changes, c.first, c.middle, c.last
    );
    println!(
        "kills {}, of them in repairs {}; repairs finished {}; start-ups {}",
        c.kills, c.repairs_killed, c.repairs_finished, c.start_ups
    );
    println!("read after the change's cut: old {}, new {}; anything else {}", c.old, c.new, c.else_read);
    // A run that killed nothing, or never between two stores, shows nothing.
    if c.else_read > 0 || c.kills == 0 || c.middle == 0 {
        std::process::exit(1);
    }
}

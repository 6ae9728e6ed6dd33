//! How fast the library is, built for release, the best of many runs on one machine: gathering 16 MiB from 255 blocks
//! against a straightforward Rust version (`copy_within`), and start-up, soundness and Begin on the largest record,
//! 4,136 bytes. The windows and the area are warm. `cargo bench --offline`; with `-- calls`, without gathering.

use meanderpeg::{start_up, BankIndex, Session, SessionState, STORE_NUMBERS};
use second::make::{make_area, make_record, put_descriptor};
use std::hint::black_box;
use std::time::Instant;

const TOTAL: usize = 16 << 20;
const BLOCKS: usize = 255;
const BASE: u64 = 0x1_0000;
const FIRST_BLOCK: usize = 8_192;

fn number(window: &[u8], at: usize) -> usize {
    u64::from_le_bytes(window[at..at + 8].try_into().expect("8 bytes")) as usize
}

/// The straightforward version, for the lists made here: they are faultless and have no jump. Answers the place's
/// address and the total.
fn plain(window: &mut [u8], base: u64) -> Option<(u64, usize)> {
    let mut blocks = vec![];
    let mut taken = vec![];
    for at in (0..).step_by(16) {
        taken.push((at, at + 16));
        let (length, address) = (number(window, at), number(window, at + 8));
        if length == 0 {
            break;
        }
        let start = address - base as usize;
        taken.push((start, start + length));
        blocks.push((start, start + length));
    }
    let total: usize = blocks.iter().map(|b| b.1 - b.0).sum();
    let mut starts: Vec<usize> = taken.iter().map(|t| t.1).collect();
    starts.push(0);
    starts.sort_unstable();
    let free = |p: usize| p + total <= window.len() && taken.iter().all(|t| p + total <= t.0 || t.1 <= p);
    let place = starts.into_iter().find(|&p| free(p))?;
    let mut to = place;
    for (start, end) in blocks {
        window.copy_within(start..end, to);
        to += end - start;
    }
    Some((base + place as u64, total))
}

/// A window with its list at the start, `gap` bytes between the blocks, and room for the total behind them.
fn window(gap: usize, order: fn(usize) -> usize) -> Vec<u8> {
    let size = TOTAL / BLOCKS;
    let length = FIRST_BLOCK + BLOCKS * (size + gap) + TOTAL + 4_096;
    let mut window: Vec<u8> = (0..length).map(|i| (i as u32).wrapping_mul(2_654_435_761).to_le_bytes()[3]).collect();
    for i in 0..BLOCKS {
        let extra = if i == BLOCKS - 1 { TOTAL - size * BLOCKS } else { 0 };
        let address = BASE + (FIRST_BLOCK + order(i) * (size + gap)) as u64;
        put_descriptor(&mut window, 16 * i, (size + extra) as u64, address);
    }
    put_descriptor(&mut window, 16 * BLOCKS, 0, 0);
    window
}

/// Both versions in turn, 100 times; the best time of each.
fn gathering(name: &str, gap: usize, order: fn(usize) -> usize) -> f64 {
    let mut one = window(gap, order);
    let mut two = one.clone();
    let mut best = [f64::MAX; 2];
    for _ in 0..100 {
        let start = Instant::now();
        let wanted = plain(&mut one, BASE);
        best[0] = best[0].min(start.elapsed().as_secs_f64());
        let start = Instant::now();
        let found = meanderpeg::gather(&mut two, BASE, BASE);
        best[1] = best[1].min(start.elapsed().as_secs_f64());
        assert_eq!(found.ok().map(|gathered| (gathered.address(), gathered.bytes().len())), wanted);
    }
    assert!(one == two, "{name}: the windows differ");
    let ratio = best[1] / best[0];
    println!("gather, {name}: Rust {:.3} ms, library {:.3} ms, ratio {ratio:.2}", best[0] * 1e3, best[1] * 1e3);
    ratio
}

/// Nanoseconds of one call, the best of 20 runs of 200 calls.
fn call(name: &str, mut one: impl FnMut()) {
    let mut best = f64::MAX;
    for _ in 0..20 {
        let start = Instant::now();
        for _ in 0..200 {
            one();
        }
        best = best.min(start.elapsed().as_secs_f64() / 200.0);
    }
    println!("{name}: {:.0} ns a call", best * 1e9);
}

fn gatherings() {
    let worst = [
        gathering("blocks side by side, in list order", 0, |i| i),
        gathering("blocks side by side, permuted", 0, |i| i * 101 % 255),
        gathering("blocks side by side, reversed", 0, |i| 254 - i),
        gathering("blocks 8 bytes apart, permuted", 8, |i| i * 101 % 255),
    ];
    println!("gather, worst ratio {:.2}", worst.into_iter().fold(0.0, f64::max));
}

fn main() {
    if !std::env::args().any(|argument| argument == "calls") {
        gatherings();
    }
    let record = make_record(4, 32, 0, 1);
    assert_eq!(record.len(), 4_136);
    let area = make_area(&record, &record, 0);
    let mut numbers = [0; STORE_NUMBERS];
    let booted = BankIndex::new(0);
    call("start-up, record of 4,136 bytes", || {
        assert!(start_up(black_box(&area), booted).is_ok_and(|session| session.state() == SessionState::Regular));
    });
    call("soundness of both copies", || assert!(meanderpeg::soundness(black_box(&area)).is_ok_and(|s| s.equal)));
    call("Begin", || {
        let session = Session::resume(SessionState::Regular);
        assert!(session.begin(black_box(&area), &mut numbers).is_ok());
    });
}

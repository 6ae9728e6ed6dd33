// Gathering 16 MiB from 255 blocks: the proved function against a straightforward Rust version (`copy_within`), same
// machine, same run, both built for release. Before timing, both gather the same random small windows, and every answer
// and every byte must agree.
use std::time::Instant;

#[repr(C)]
struct Gathered {
    address: u64,
    total: u64,
}

extern "C" {
    fn meanderpeg_gather(w: *mut u8, len: usize, base: u64, first: u64, gathered: *mut Gathered) -> u32;
}

#[derive(PartialEq, Debug)]
enum Answer {
    Refused(u32),
    Placed(u64, u64),
}

fn proved(w: &mut [u8], base: u64, first: u64) -> Answer {
    let mut gathered = Gathered { address: 0, total: 0 };
    match unsafe { meanderpeg_gather(w.as_mut_ptr(), w.len(), base, first, &mut gathered) } {
        0 => Answer::Placed(gathered.address, gathered.total),
        n => Answer::Refused(n),
    }
}

fn number(w: &[u8], at: usize) -> u128 {
    u64::from_le_bytes(w[at..at + 8].try_into().unwrap()) as u128
}

// The straightforward version: whole numbers in 128 bits, lists in vectors, candidates sorted.
fn plain(w: &mut [u8], base: u64, first: u64) -> Answer {
    let (b, end) = (base as u128, base as u128 + w.len() as u128);
    if end > 1 << 64 {
        return Answer::Refused(1);
    }
    let (mut at, mut total, mut count) = (first as u128, 0u128, 0);
    let (mut taken, mut blocks) = (vec![], vec![]);
    loop {
        if count == 256 {
            return Answer::Refused(2);
        }
        count += 1;
        if at % 8 != 0 || at < b || at + 16 > end {
            return Answer::Refused(3);
        }
        let offset = (at - b) as usize;
        taken.push((offset, 16));
        let (size, address) = (number(w, offset), number(w, offset + 8));
        if size == 0 && address == 0 {
            break;
        }
        if size == 0 {
            at = address;
            continue;
        }
        if address < b || address + size > end {
            return Answer::Refused(4);
        }
        total += size;
        if total > 16_777_216 {
            return Answer::Refused(5);
        }
        blocks.push(((address - b) as usize, size as usize));
        taken.push(((address - b) as usize, size as usize));
        at += 16;
    }
    if total == 0 {
        return Answer::Refused(6);
    }
    let t = total as usize;
    let mut starts: Vec<usize> = taken.iter().map(|e| e.0 + e.1).collect();
    starts.push(0);
    starts.sort();
    for p in starts {
        if p + t <= w.len() && taken.iter().all(|e| p + t <= e.0 || e.0 + e.1 <= p) {
            let mut q = p;
            for (from, n) in &blocks {
                w.copy_within(*from..*from + *n, q);
                q += n;
            }
            return Answer::Placed(base + p as u64, total as u64);
        }
    }
    Answer::Refused(7)
}

struct Random(u64);

impl Random {
    fn next(&mut self) -> u64 {
        self.0 ^= self.0 << 13;
        self.0 ^= self.0 >> 7;
        self.0 ^= self.0 << 17;
        self.0
    }
    fn below(&mut self, n: u64) -> u64 {
        self.next() % n
    }
}

fn put(w: &mut [u8], at: usize, size: u64, address: u64) {
    w[at..at + 8].copy_from_slice(&size.to_le_bytes());
    w[at + 8..at + 16].copy_from_slice(&address.to_le_bytes());
}

// A small window with descriptors that are nearly right.
fn window(r: &mut Random) -> (Vec<u8>, u64, u64) {
    let n = r.below(600) as usize;
    let mut w: Vec<u8> = (0..n).map(|_| r.next() as u8).collect();
    let base = match r.below(6) {
        0 => u64::MAX - r.below(700),
        1 => r.below(64),
        2 => 0u64.wrapping_sub(n as u64),
        3 => 0x1000 + r.below(8),
        _ => 0x1000,
    };
    let skew = (8 - base % 8) % 8;
    for d in 0..4 * r.below(8) {
        let o = if r.below(3) > 0 { skew + 16 * d } else { skew + 8 * r.below(70) } as usize;
        let (size, address) = match r.below(12) {
            0 => (0, 0),
            1 => (0, base.wrapping_add(skew + 8 * r.below(80))),
            2 => (0, r.next()),
            3 => (r.next(), r.next()),
            4 => (16_777_216 - r.below(3), base.wrapping_add(r.below(9))),
            _ => (r.below(30) + (r.below(10) > 0) as u64, base.wrapping_add(r.below(600))),
        };
        if o + 16 <= n {
            put(&mut w, o, size, address);
        }
    }
    let first = match r.below(10) {
        0 => r.next(),
        1 => base.wrapping_sub(8),
        2 => base.wrapping_add(skew + 8 * r.below(60)),
        _ => base.wrapping_add(skew),
    };
    (w, base, first)
}

fn compare(cases: u32) {
    let mut r = Random(88172645463325252);
    let mut seen = [0u32; 8];
    for case in 0..cases {
        let (mut x, base, first) = window(&mut r);
        let mut y = x.clone();
        let (a, b) = (plain(&mut x, base, first), proved(&mut y, base, first));
        assert!(a == b && x == y, "case {case}: {a:?} and {b:?}");
        match a {
            Answer::Refused(n) => seen[n as usize] += 1,
            Answer::Placed(..) => seen[0] += 1,
        }
    }
    println!("{cases} small windows agree: placed {}, refused 1 to 7 {:?}", seen[0], &seen[1..]);
}

fn timed(name: &str, gap: usize, order: fn(usize) -> usize) -> f64 {
    let (total, count, base) = (16usize << 20, 255usize, 0x10000u64);
    let size = total / count;
    let step = size + gap;
    let mut w: Vec<u8> = (0..8192 + count * step + total + 4096).map(|i| (i as u32).wrapping_mul(2654435761).to_le_bytes()[3]).collect();
    for i in 0..count {
        let extra = if i == count - 1 { total - size * count } else { 0 };
        put(&mut w, 16 * i, (size + extra) as u64, base + 8192 + (order(i) * step) as u64);
    }
    put(&mut w, 16 * count, 0, 0);
    let (mut x, mut y) = (w.clone(), w);
    let mut best = [f64::MAX; 2];
    for _ in 0..30 {
        let start = Instant::now();
        let a = plain(&mut x, base, base);
        best[0] = best[0].min(start.elapsed().as_secs_f64());
        let start = Instant::now();
        let b = proved(&mut y, base, base);
        best[1] = best[1].min(start.elapsed().as_secs_f64());
        assert!(a == b && matches!(a, Answer::Placed(_, 16_777_216)));
    }
    assert!(x == y);
    let ratio = best[1] / best[0];
    println!("{name}: Rust {:.3} ms, proved {:.3} ms, ratio {ratio:.2}", best[0] * 1e3, best[1] * 1e3);
    ratio
}

fn main() {
    compare(400_000);
    let worst = [
        timed("blocks side by side, in list order", 0, |i| i),
        timed("blocks side by side, permuted", 0, |i| i * 101 % 255),
        timed("blocks side by side, reversed", 0, |i| 254 - i),
        timed("blocks 8 bytes apart, permuted", 8, |i| i * 101 % 255),
    ]
    .into_iter()
    .fold(0.0, f64::max);
    println!("worst ratio {worst:.2}, at most 1.30 wanted");
    if worst > 1.30 {
        std::process::exit(1);
    }
}

// The report from outside: the sample areas of crates/test_report/data, and a second, independent version of the
// report, with which print_report is compared on many areas. See `run`.
use std::io::Write;
use std::process::{Command, Stdio};

const AREA: usize = 16384;
const COPY: usize = 8192;

struct Random(u64);

impl Random {
    fn below(&mut self, n: u64) -> u64 {
        self.0 ^= self.0 << 13;
        self.0 ^= self.0 >> 7;
        self.0 ^= self.0 << 17;
        self.0 % n
    }
}

fn get(s: &[u8], at: usize, n: usize) -> u64 {
    (0..n).rev().fold(0, |v, k| v * 256 + s[at + k] as u64)
}

fn put(s: &mut [u8], at: usize, n: usize, v: u64) {
    for k in 0..n {
        s[at + k] = (v >> (8 * k)) as u8;
    }
}

fn crc(s: &[u8]) -> u64 {
    let mut c = !0u32;
    for &x in s {
        c ^= x as u32;
        for _ in 0..8 {
            c = if c & 1 == 1 { c >> 1 ^ 0xEDB8_8320 } else { c >> 1 };
        }
    }
    !c as u64
}

// A record: the states of its banks, and for each image its accepted fields, bank by bank.
struct Record {
    active: u64,
    previous: u64,
    states: Vec<u8>,
    images: Vec<Vec<u64>>,
}

impl Record {
    fn bytes(&self) -> Vec<u8> {
        let banks = self.states.len();
        let entry = 32 + 24 * banks;
        let size = 40 + self.images.len() * entry;
        let mut s = vec![0; size];
        put(&mut s, 4, 4, 2);
        put(&mut s, 8, 4, self.active);
        put(&mut s, 12, 4, self.previous);
        put(&mut s, 16, 4, size as u64);
        put(&mut s, 20, 2, 32);
        for b in 0..4 {
            s[24 + b] = *self.states.get(b).unwrap_or(&255);
        }
        s[32] = banks as u8;
        put(&mut s, 34, 2, self.images.len() as u64);
        put(&mut s, 36, 2, entry as u64);
        put(&mut s, 38, 2, 24);
        for (i, accepted) in self.images.iter().enumerate() {
            let at = 40 + i * entry;
            put(&mut s, at, 2, 7 * i as u64 + 1);
            for b in 0..banks {
                put(&mut s, at + 32 + 24 * b, 2, (100 * i + b) as u64);
                put(&mut s, at + 48 + 24 * b, 4, accepted[b]);
            }
        }
        let sum = crc(&s[4..]);
        put(&mut s, 0, 4, sum);
        s
    }

    fn random(r: &mut Random) -> Record {
        let banks = 2 + r.below(3) as usize;
        let count = if r.below(8) == 0 { 32 } else { 1 + r.below(32) as usize };
        let active = r.below(banks as u64);
        let mut states: Vec<u8> = (0..banks).map(|_| [255, 254, 252][r.below(3) as usize]).collect();
        states[active as usize] = [254, 252][r.below(2) as usize];
        let mut images: Vec<Vec<u64>> = (0..count).map(|_| (0..banks).map(|_| r.below(2)).collect()).collect();
        for b in 0..banks {
            for image in images.iter_mut().filter(|_| states[b] == 252) {
                image[b] = 1;
            }
            if states[b] == 254 {
                images[r.below(count as u64) as usize][b] = 0;
            }
        }
        Record { active, previous: r.below(banks as u64), states, images }
    }
}

fn area(copy0: &[u8], copy1: &[u8]) -> Vec<u8> {
    let mut a = vec![0; AREA];
    a[..copy0.len()].copy_from_slice(copy0);
    a[COPY..COPY + copy1.len()].copy_from_slice(copy1);
    a
}

// Whether a copy is sound (R6 to R19).
fn sound(c: &[u8]) -> bool {
    let banks = c[32] as usize;
    let images = get(c, 34, 2) as usize;
    if get(c, 4, 4) != 2 || !(2..=4).contains(&banks) || !(1..=32).contains(&images) {
        return false;
    }
    let entry = 32 + 24 * banks;
    let size = 40 + images * entry;
    if get(c, 38, 2) != 24 || get(c, 36, 2) as usize != entry || get(c, 16, 4) as usize != size || get(c, 20, 2) != 32 {
        return false;
    }
    let words = |i: usize, b: usize| 40 + i * entry + 48 + 24 * b;
    let all = |test: &dyn Fn(usize, usize) -> bool| (0..images).all(|i| (0..banks).all(|b| test(i, b)));
    let whole = |b: usize| (0..images).all(|i| get(c, words(i, b), 4) == 1);
    let guid = |i: usize| &c[40 + i * entry..56 + i * entry];
    get(c, 22, 2) == 0
        && get(c, 28, 4) == 0
        && c[33] == 0
        && all(&|i, b| get(c, words(i, b) + 4, 4) == 0)
        && get(c, 8, 4) < banks as u64
        && get(c, 12, 4) < banks as u64
        && all(&|i, b| get(c, words(i, b), 4) <= 1)
        && (0..images).all(|i| (0..i).all(|j| guid(i) != guid(j)))
        && (0..4).all(|b| c[24 + b] == 255 || b < banks && (c[24 + b] == 254 || c[24 + b] == 252))
        && (0..banks).all(|b| c[24 + b] == 255 || (c[24 + b] == 252) == whole(b))
        && c[24 + get(c, 8, 4) as usize] != 255
        && get(c, 0, 4) == crc(&c[4..size])
}

// The report, the second time (T1 to T6).
fn report(a: &[u8]) -> String {
    if a.len() != AREA {
        return "refused\t20\n".to_string();
    }
    let Some(copy) = (0..2).find(|k| sound(&a[k * COPY..(k + 1) * COPY])) else {
        return "refused\t21\n".to_string();
    };
    let c = &a[copy * COPY..];
    let (banks, images) = (c[32] as usize, get(c, 34, 2) as usize);
    let mut t = format!("record\t{copy}\t{}\nactive\t{}\nprevious\t{}\n", get(c, 16, 4), get(c, 8, 4), get(c, 12, 4));
    for b in 0..banks {
        t += &format!("bank\t{b}\t{}\n", c[24 + b]);
    }
    for i in 0..images {
        for b in 0..banks {
            t += &format!("image\t{i}\t{b}\t{}\n", get(c, 40 + i * (32 + 24 * banks) + 48 + 24 * b, 4));
        }
    }
    t
}

// The sample areas, by name.
fn samples() -> Vec<(&'static str, Vec<u8>)> {
    let example = Record { active: 0, previous: 1, states: vec![252, 252], images: vec![vec![1, 1]] }.bytes();
    // bank 1 lacks its last image, bank 2 is invalid and has some
    let flags = |i: u64| vec![1, (i != 31) as u64, i % 2, 1];
    let four = Record { active: 3, previous: 1, states: vec![252, 254, 255, 252], images: (0..32).map(flags).collect() }.bytes();
    let three =
        Record { active: 1, previous: 2, states: vec![252, 254, 255], images: vec![vec![1, 0, 0], vec![1, 1, 0]] }.bytes();
    let mut spoilt = example.clone();
    spoilt[119] ^= 1;
    let whole = area(&example, &example);
    vec![
        ("example", whole.clone()),
        ("four_banks", area(&four, &four)),
        ("copy_0_spoilt", area(&spoilt, &three)),
        ("copies_differ", area(&three, &example)),
        ("both_spoilt", area(&spoilt, &spoilt)),
        ("one_byte_short", whole[..AREA - 1].to_vec()),
        ("one_byte_long", [&whole[..], &[0]].concat()),
        ("empty", vec![]),
    ]
}

// What the program prints for an area.
fn printed(program: &str, a: &[u8]) -> String {
    let mut child = Command::new(program).stdin(Stdio::piped()).stdout(Stdio::piped()).spawn().unwrap();
    // one that has read enough may close its input
    let _ = child.stdin.take().unwrap().write_all(a);
    String::from_utf8(child.wait_with_output().unwrap().stdout).unwrap()
}

// An area with two records, the second often the first; then often a byte changed, or the length.
fn random_area(r: &mut Random) -> Vec<u8> {
    let first = Record::random(r).bytes();
    let second = if r.below(2) == 0 { first.clone() } else { Record::random(r).bytes() };
    let mut a = area(&first, &second);
    for base in [0, COPY] {
        if r.below(3) == 0 {
            let at = base + r.below(first.len() as u64) as usize;
            a[at] = r.below(256) as u8;
        }
    }
    match r.below(20) {
        0 => a.truncate(r.below(AREA as u64) as usize),
        1 => a.resize(AREA + 1 + r.below(40000) as usize, 0),
        _ => {}
    }
    a
}

fn main() {
    let args: Vec<String> = std::env::args().collect();
    match &args[1][..] {
        "areas" => {
            for (name, a) in samples() {
                std::fs::write(format!("{}/{name}", args[2]), a).unwrap();
            }
        }
        "compare" => {
            let mut r = Random(0x9E37_79B9_7F4A_7C15);
            let areas = samples().into_iter().map(|s| s.1).collect::<Vec<_>>();
            let count: usize = args[3].parse().unwrap();
            let mut refused = 0;
            for k in 0..count {
                let a = if k < areas.len() { areas[k].clone() } else { random_area(&mut r) };
                let own = report(&a);
                refused += own.starts_with("refused") as usize;
                assert_eq!(printed(&args[2], &a), own, "area {k}");
            }
            println!("{count} areas, {refused} of them refused: the reports agree");
        }
        _ => panic!("areas FOLDER, or compare PROGRAM COUNT"),
    }
}

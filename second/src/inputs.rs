//! Inputs that are nearly right, the k-th of a seed for each group of entries. GENERATORS.md gives the same as a
//! recipe, step by step with the order of draws, so that it can be written again elsewhere.

use crate::bytes::{number, put};
use crate::capsule::FMP_GUID;
use crate::make::*;
use crate::packing::Lent;
use crate::record::{AREA, COPY};
use crate::session::{session_of_words, session_words, Session};

/// A tiny pseudo-random sequence whose state stays below 2^31.
pub struct Draw {
    x: u64,
}

impl Draw {
    pub fn new(state: u64) -> Draw {
        Draw { x: state % 2_147_483_648 }
    }

    /// The sequence for input k of a seed in a group. The stirring, done four times, keeps neighbours apart: without it
    /// the first draws of input k + 1 follow from those of input k.
    pub fn start(group: u64, seed: u64, k: u64) -> Draw {
        let mut d = Draw::new(seed * 69_069 + k * 48_271 + group * 16_807 + 1);
        for _ in 0..4 {
            d.x = (d.x * (2 * (d.x / 65_536) + 1) + 12_345) % 2_147_483_648;
            d.draw();
        }
        d
    }

    /// The next number, 0 to 32,767.
    pub fn draw(&mut self) -> u64 {
        self.x = (self.x * 1_103_515_245 + 12_345) % 2_147_483_648;
        self.x / 65_536
    }

    /// A number below n, n at most 32,768.
    pub fn below(&mut self, n: u64) -> u64 {
        self.draw() % n
    }

    /// A 32-bit number out of three draws, the first at the top.
    pub fn word(&mut self) -> u32 {
        let a = self.draw() % 4;
        let b = self.draw();
        let c = self.draw();
        (a * 1_073_741_824 + b * 32_768 + c) as u32
    }
}

/// (a + b) mod 2^64.
fn plus(a: u64, b: u64) -> u64 {
    ((a as u128 + b as u128) % (1u128 << 64)) as u64
}

/// (a - b) mod 2^64.
fn less(a: u64, b: u64) -> u64 {
    (((1u128 << 64) + a as u128 - b as u128) % (1u128 << 64)) as u64
}

// Group 1: gathering.

pub const GATHER_CASES: u64 = 24;

#[derive(Clone, Debug)]
pub struct GatherInput {
    pub window: Vec<u8>,
    pub base: u64,
    pub first: u64,
}

fn base_of_kind(kind: u64, n: u64) -> u64 {
    match kind {
        0 => 0,
        1 => 4_096,
        2 => 4_097,
        3 => less(0, n),
        4 => less(0, n + 8),
        5 => less(0, n + 1),
        6 => 4_294_967_288,
        _ => 4_100,
    }
}

fn lead_of(base: u64) -> u64 {
    (8 - base % 8) % 8
}

fn filled(n: u64, tint: u64) -> Vec<u8> {
    (0..n as usize).map(|i| filler(i, tint as usize)).collect()
}

/// The scatter: a list of random steps in a window of 96 bytes or more. Answers the first descriptor's address.
fn scatter(d: &mut Draw, w: &mut [u8], base: u64, lead: u64, n: u64) -> u64 {
    let slots = (n - lead - 16) / 8 + 1;
    let mut s = d.below(slots);
    let first = plus(base, lead + 8 * s);
    let steps = 1 + d.below(6);
    for _ in 0..steps {
        let kind = d.below(6);
        let mut x = d.below(n);
        let y = 1 + d.below(24);
        let z = d.below(slots);
        let at = lead + 8 * s;
        if at + 16 > n {
            continue;
        }
        if kind == 4 {
            put_descriptor(w, at as usize, 0, plus(base, lead + 8 * z));
            s = z;
        } else {
            if kind == 5 {
                x = at + 16;
            }
            if x + y > n {
                x = n - y;
            }
            put_descriptor(w, at as usize, y, plus(base, x));
            s += 2;
        }
    }
    let at = lead + 8 * s;
    if at + 16 <= n {
        put_descriptor(w, at as usize, 0, 0);
    }
    first
}

pub fn gather_input(seed: u64, k: u64) -> GatherInput {
    let mut d = Draw::start(1, seed, k);
    let mut case = k % GATHER_CASES;
    let tint = d.below(256);
    let q = d.below(8);
    let u = d.below(200);
    if case == 14 && (k / GATHER_CASES) % 4 != 0 {
        case = 12;
    }
    let mut n = 96 + u;
    let mut base = base_of_kind(q, n);
    let mut lead = lead_of(base);
    match case {
        8 => {
            let mut window = filled(n, tint);
            let first = scatter(&mut d, &mut window, base, lead, n);
            let slots = (n - lead - 16) / 8 + 1;
            let first = match d.below(6) {
                0 => plus(first, 1),
                1 => plus(first, 4),
                2 => less(plus(base, lead), 8),
                3 => plus(base, lead + 8 * slots),
                4 => plus(base, lead + 8 * (slots - 1)),
                _ => less(0, 8),
            };
            GatherInput { window, base, first }
        }
        9 => {
            let mut window = filled(n, tint);
            let (length, address) = match d.below(13) {
                0 => (4, less(base, 1)),
                1 => (4, base),
                2 => (4, plus(base, n - 4)),
                3 => (4, plus(base, n - 3)),
                4 => (n, base),
                5 => (n + 1, base),
                6 => (u64::MAX, plus(base, 64)),
                7 => (1, u64::MAX),
                8 => (1, plus(base, n - 1)),
                9 => (1, plus(base, n)),
                10 => (n - lead - 32, plus(base, lead + 32)),
                11 => (1, less(base, 1)),
                _ => (4_294_967_300, base),
            };
            put_descriptor(&mut window, lead as usize, length, address);
            put_descriptor(&mut window, lead as usize + 16, 0, 0);
            GatherInput { window, base, first: plus(base, lead) }
        }
        10 => {
            base = base_of_kind(q % 3, n);
            lead = lead_of(base);
            let a = 1 + d.below(8);
            let b = 1 + d.below(8);
            let g = a + b - 2 + d.below(4);
            let h = a + b - 2 + d.below(4);
            let r = a + b - 2 + d.below(4);
            let swap = d.below(2);
            n = lead + 48 + g + a + h + b + r;
            let mut window = filled(n, tint);
            let one = plus(base, lead + 48 + g);
            let two = plus(base, lead + 48 + g + a + h);
            let (at_one, at_two) = if swap == 0 { (0, 16) } else { (16, 0) };
            put_descriptor(&mut window, lead as usize + at_one, a, one);
            put_descriptor(&mut window, lead as usize + at_two, b, two);
            put_descriptor(&mut window, lead as usize + 32, 0, 0);
            GatherInput { window, base, first: plus(base, lead) }
        }
        11 => {
            base = base_of_kind(q % 3, n);
            lead = lead_of(base);
            let count = 254 + d.below(4);
            let e = count - 3 + d.below(4);
            let turn = d.below(2);
            n = lead + 16 * count + (count - 1) + e;
            let mut window = filled(n, tint);
            for i in 0..count - 1 {
                let place = if turn == 0 { i } else { count - 2 - i };
                put_descriptor(&mut window, (lead + 16 * i) as usize, 1, plus(base, lead + 16 * count + place));
            }
            put_descriptor(&mut window, (lead + 16 * (count - 1)) as usize, 0, 0);
            GatherInput { window, base, first: plus(base, lead) }
        }
        12 => {
            let m = d.below(5);
            let y = 1 + d.below(3);
            let v = d.below(8);
            let mut window = filled(n, tint);
            let slots = (n - lead - 16) / 8 + 1;
            if v == 6 {
                put_descriptor(&mut window, (lead + 8 * (slots - 1)) as usize, 0, 0);
            }
            for i in 0..m {
                put_descriptor(&mut window, (lead + 16 * i) as usize, y, plus(base, n - y));
            }
            let to = match v {
                0 => plus(base, lead + 16 * m),
                1 => plus(base, lead),
                2 => plus(base, lead + 16 * (m / 2)),
                3 => plus(base, lead + 4),
                4 => less(plus(base, lead), 8),
                5 => plus(base, lead + 8 * slots),
                6 => plus(base, lead + 8 * (slots - 1)),
                _ => plus(base, lead + 1),
            };
            put_descriptor(&mut window, (lead + 16 * m) as usize, 0, to);
            GatherInput { window, base, first: plus(base, lead) }
        }
        13 => {
            base = base_of_kind(q % 3, n);
            lead = lead_of(base);
            let count = 254 + d.below(4);
            let v = d.below(2);
            n = lead + 16 * count + 2;
            let mut window = filled(n, tint);
            for i in 0..count - 1 {
                let at = (lead + 16 * i) as usize;
                if v == 1 && i == count - 2 {
                    put_descriptor(&mut window, at, 1, plus(base, lead + 16 * count));
                } else {
                    put_descriptor(&mut window, at, 0, plus(base, lead + 16 * (i + 1)));
                }
            }
            put_descriptor(&mut window, (lead + 16 * (count - 1)) as usize, 0, 0);
            GatherInput { window, base, first: plus(base, lead) }
        }
        14 => {
            base = base_of_kind(q % 3, n);
            lead = lead_of(base);
            let v = d.below(5);
            n = 135_168;
            let mut window = filled(n, tint);
            let block = plus(base, 4_000);
            if v < 3 {
                for i in 0..128 {
                    let length = if i < 127 { 131_072 } else { 131_071 + v };
                    put_descriptor(&mut window, (lead + 16 * i) as usize, length, block);
                }
                put_descriptor(&mut window, (lead + 16 * 128) as usize, 0, 0);
            } else {
                put_descriptor(&mut window, lead as usize, 131_069 + v, block);
                put_descriptor(&mut window, lead as usize + 16, 0, plus(base, lead));
            }
            GatherInput { window, base, first: plus(base, lead) }
        }
        15 => {
            let mut window = filled(n, tint);
            let first = scatter(&mut d, &mut window, base, lead, n);
            let base = match d.below(4) {
                0 => less(1, n),
                1 => less(0, n),
                2 => u64::MAX,
                _ => less(8, n),
            };
            GatherInput { window, base, first }
        }
        16 => {
            base = base_of_kind(q % 3, n);
            lead = lead_of(base);
            let count = 254 + d.below(4);
            n = lead + 16 * count;
            let mut window = filled(n, tint);
            for i in 0..count {
                put_descriptor(&mut window, (lead + 16 * i) as usize, 1, base);
            }
            GatherInput { window, base, first: plus(base, lead) }
        }
        17 => {
            base = base_of_kind(q % 3, n);
            lead = lead_of(base);
            let count = 255 + d.below(3);
            n = lead + 16 * count + 16;
            let mut window = filled(n, tint);
            for i in 0..count {
                let address = if i < count - 1 { base } else { plus(base, n) };
                put_descriptor(&mut window, (lead + 16 * i) as usize, 1, address);
            }
            put_descriptor(&mut window, (lead + 16 * count) as usize, 0, 0);
            GatherInput { window, base, first: plus(base, lead) }
        }
        18 => {
            let mut window = filled(n, tint);
            let y = 1 + d.below(20);
            let x = d.below(n - 40);
            let y2 = 1 + d.below(20);
            let shift = d.below(20);
            put_descriptor(&mut window, lead as usize, y, plus(base, x));
            put_descriptor(&mut window, lead as usize + 16, y, plus(base, x));
            put_descriptor(&mut window, lead as usize + 32, y2, plus(base, x + shift));
            put_descriptor(&mut window, lead as usize + 48, 0, 0);
            GatherInput { window, base, first: plus(base, lead) }
        }
        19 => {
            let mut window = filled(n, tint);
            let x = d.below(n);
            put_descriptor(&mut window, 0, 0, 8);
            put(&mut window, 16, 8, x as u128);
            put_descriptor(&mut window, 24, 0, 0);
            GatherInput { window, base: 0, first: 0 }
        }
        20 => {
            n = d.below(40);
            base = base_of_kind(q, n);
            lead = lead_of(base);
            let v = d.below(3);
            let z = d.below(5);
            let mut window = filled(n, tint);
            if v == 0 {
                window.fill(0);
            }
            let first = if v == 2 { plus(base, 8 * z) } else { plus(base, lead + 8 * z) };
            GatherInput { window, base, first }
        }
        21 => {
            let count = 2 + d.below(6);
            let v = d.below(2);
            n = 16 * count;
            base = less(0, n);
            let mut window = filled(n, tint);
            for i in 0..count {
                put_descriptor(&mut window, (16 * i) as usize, 1, base);
            }
            if v == 1 {
                put_descriptor(&mut window, (16 * (count - 1)) as usize, 0, 0);
            }
            GatherInput { window, base, first: base }
        }
        _ => {
            let mut window = filled(n, tint);
            let first = scatter(&mut d, &mut window, base, lead, n);
            GatherInput { window, base, first }
        }
    }
}

// Group 2: capsules.

pub const CAPSULE_CASES: u64 = 32;
/// No capsule of the recipe is longer.
pub const CAPSULE_ROOM: usize = 8_192;

#[derive(Clone, Debug)]
pub struct CapsuleInput {
    pub capsule: Vec<u8>,
    pub item: u64,
}

/// Flags that are good, and flags of which the last alone are.
const GOOD_FLAGS: [u32; 6] = [0, 0x0001_0000, 0x0005_0000, 0x0002_0000, 0xFFFF_FFFF, 0xFFFA_FFFF];
const OTHER_FLAGS: [u32; 4] = [0x0004_0000, 0x0006_0000, 0xFFFE_FFFF, 0x0005_0000];

/// Versions that no payload has.
const WRONG_VERSIONS: [u64; 4] = [0, 3, 257, 2_147_483_649];

/// Step 2 of the recipe: drivers and payloads.
fn counts_of(case: u64, shape: u64, p: usize, q: usize) -> (usize, usize) {
    match shape {
        _ if case == 6 => (p % 64, 63 - p % 64),
        _ if case == 7 => (p, 65 - p),
        0 => (0, 0),
        1 => (0, 1 + q),
        2 => (1 + q, 0),
        3 => (1 + q, 1 + p % 4),
        4 => (p, 64 - p),
        _ => (q, p % 3),
    }
}

pub fn capsule_input(seed: u64, k: u64) -> CapsuleInput {
    let mut d = Draw::start(2, seed, k);
    capsule_made(&mut d, k % CAPSULE_CASES, None).0
}

/// The recipe "Capsules", and with a form the tight one of group 15. Answers the tint besides.
fn capsule_made(d: &mut Draw, case: u64, form: Option<u64>) -> (CapsuleInput, u64) {
    let tint = d.below(256);
    let mut header = [28usize, 29, 32, 64][d.below(4) as usize];
    let flags = GOOD_FLAGS[d.below(6) as usize] as u128;
    let shape = d.below(6);
    let p = d.below(65) as usize;
    let q = d.below(4) as usize;
    let mut gap = d.below(3) as usize;
    let mut tail = d.below(5) as usize;
    if form.is_some_and(|form| form != 12) {
        header = 28;
    }
    if form.is_some_and(|form| form != 13) {
        gap = 0;
        tail = 0;
    }
    let (drivers, payloads) = counts_of(case, shape, p, q);
    let count = drivers + payloads;
    let mut c = filled(CAPSULE_ROOM as u64, tint);
    let list_end = 8 + 8 * count;
    let mut cursor = if count > 0 { list_end + gap } else { 8 + tail };
    let mut offsets = [0usize; 66];
    let mut headers = [0usize; 65];
    for i in 0..count {
        offsets[i] = cursor;
        if i < drivers {
            cursor += 1 + d.below(20) as usize;
        } else {
            let version = 1 + d.below(2) as usize;
            let index = d.below(256);
            let image = d.below(12) as usize;
            let vendor = d.below(6) as usize;
            let mut spare = d.below(3) as usize;
            let at = header + cursor;
            if form.is_some() {
                if form != Some(14) || i != drivers + p % payloads {
                    spare = 0;
                }
                put(&mut c, at + 21, 3, 0);
            }
            headers[i] = if version == 1 { 32 } else { 40 };
            put(&mut c, at, 4, version as u128);
            put(&mut c, at + 20, 1, index as u128);
            put(&mut c, at + 24, 4, image as u128);
            put(&mut c, at + 28, 4, vendor as u128);
            cursor += headers[i] + image + vendor + spare;
        }
    }
    offsets[count] = cursor;
    let mut length = header + cursor;
    c[..16].copy_from_slice(&FMP_GUID);
    put(&mut c, 16, 4, header as u128);
    put(&mut c, 20, 4, flags);
    put(&mut c, 24, 4, length as u128);
    put(&mut c, header, 4, 1);
    put(&mut c, header + 4, 2, drivers as u128);
    put(&mut c, header + 6, 2, payloads as u128);
    for i in 0..count {
        put(&mut c, header + 8 + 8 * i, 8, offsets[i] as u128);
    }
    let t = d.below(8);
    let w = d.below(64) as usize;
    let mut item = match t {
        6 => (count + w % 2) as u64,
        7 => [4_294_967_295, 65_536, 4_294_967_296, u64::MAX][w % 4],
        _ => (w % count.max(1)) as u64,
    };
    let v = d.below(4) as usize;
    let i = d.below(64) as usize;
    let z = d.below(16) as usize;
    // The item, the later of two neighbours, and the payload that a fault is put into, where there is one.
    let some_item = if count >= 1 { Some(i % count) } else { None };
    let neighbour = if count >= 2 { Some(1 + i % (count - 1)) } else { None };
    let some_payload = if payloads >= 1 { Some(drivers + i % payloads) } else { None };
    if let (Some(15), Some(m)) = (form, some_payload) {
        c[header + offsets[m] + 21 + z % 3] = [1, 2, 128, 255][v];
    }
    let list = header + 8;
    if (8..11).contains(&case) && i % 2 == 1 {
        // What comes later in the order of refusals is wrong too.
        put(&mut c, 20, 4, 0x0004_0000);
        c[z] = ((c[z] as usize + 1) % 256) as u8;
        put(&mut c, header, 4, 2);
    }
    match case {
        8 => length = [0, 1, 27, 28][v],
        9 => put(&mut c, 24, 4, [length - 1, length + 1, length + 65_536, 0][v] as u128),
        10 => {
            let other = [0, length - 1, header + 65_536, header + 2_147_483_648][z % 4];
            put(&mut c, 16, 4, [27, other, length, length + 1][v] as u128);
        }
        11 => put(&mut c, 20, 4, OTHER_FLAGS[v] as u128),
        12 => c[z] = ((c[z] as usize + 1) % 256) as u8,
        13 => {
            length = header + [0, 7, 8, 9][v];
            put(&mut c, 24, 4, length as u128);
            if v >= 2 && z % 2 == 0 {
                put(&mut c, header + 4, 4, 0);
            }
        }
        14 => put(&mut c, header, 4, [0u128, 2, 257, 2_147_483_649][v]),
        15 => match v {
            0 => put(&mut c, header + 6, 2, payloads as u128 + if z % 2 == 0 { 1 } else { 256 }),
            1 => put(&mut c, header + 4, 2, drivers as u128 + if z % 2 == 0 { 1 } else { 256 }),
            2 => put(&mut c, header + 6, 2, 65 - drivers as u128),
            _ => {
                put(&mut c, header + 4, 2, 65_535);
                put(&mut c, header + 6, 2, 1);
            }
        },
        16 => {
            if let Some(m) = neighbour {
                let before = offsets[m - 1] as u128;
                put(&mut c, list + 8 * m, 8, [before, before - 1, before + 1, offsets[m] as u128 + 4_294_967_296][v]);
            }
        }
        17 => {
            if count >= 1 {
                put(&mut c, list, 8, [list_end - 1, list_end, list_end + 1, 0][v] as u128);
            }
        }
        18 => {
            if count >= 1 {
                let body = cursor as u128;
                put(&mut c, list + 8 * (count - 1), 8, [body - 1, body, body + 1, u64::MAX as u128][v]);
            }
            if payloads >= 1 && i % 2 == 1 {
                put(&mut c, header + offsets[drivers], 4, 3);
            }
        }
        19 => {
            if let Some(one) = some_item {
                for m in 0..count {
                    if v % 2 == 0 || m == one {
                        put(&mut c, list + 8 * m, 8, (offsets[m] + header) as u128);
                    }
                }
            }
        }
        20 | 27 => {
            if let Some(m) = some_payload {
                put(&mut c, header + offsets[m], 4, WRONG_VERSIONS[v] as u128);
            }
            if case == 27 {
                item = count as u64;
            }
        }
        21 | 22 => {
            if let Some(m) = some_payload {
                let at = header + offsets[m];
                let (field, other) = if case == 21 { (24, 28) } else { (28, 24) };
                let taken = headers[m] + c[at + other] as usize;
                let room = (offsets[m + 1] - offsets[m] - taken) as u128;
                let most = if z % 2 == 0 { 4_294_967_295 } else { room + 65_536 };
                let value = [if room > 0 { room - 1 } else { 0 }, room, room + 1, most][v];
                put(&mut c, at + field, 4, value);
            }
        }
        23 => {
            if let Some(m) = some_payload {
                let at = header + offsets[m];
                put(&mut c, at + 24, 4, 4_294_967_295 - z as u128);
                put(&mut c, at + 28, 4, (z + v) as u128);
            }
        }
        24 => {
            length -= 1 + v;
            put(&mut c, 24, 4, length as u128);
        }
        25 => {
            if payloads >= 1 {
                let at = header + offsets[count - 1];
                put(&mut c, at + 24, 8, 0);
                let cut = at + [31, 32, 39, 40][v];
                if cut < length {
                    length = cut;
                    put(&mut c, 24, 4, length as u128);
                }
            }
        }
        26 => {
            if v % 2 == 0 && drivers >= 1 {
                put(&mut c, header + 4, 2, drivers as u128 - 1);
                put(&mut c, header + 6, 2, payloads as u128 + 1);
            }
            if v % 2 == 1 && payloads >= 1 {
                put(&mut c, header + 4, 2, drivers as u128 + 1);
                put(&mut c, header + 6, 2, payloads as u128 - 1);
            }
        }
        28 => {
            c[z] = ((c[z] as usize + 1) % 256) as u8;
            put(&mut c, header, 4, 2);
            if v >= 2 {
                put(&mut c, 20, 4, 0x0004_0000);
            }
        }
        29 => {
            if let Some(m) = neighbour {
                put(&mut c, list + 8 * m, 8, offsets[m - 1] as u128);
                put(&mut c, list + 8 * (m - 1), 8, offsets[m] as u128);
            }
        }
        30 => {
            let moved = if v % 2 == 0 { header + 1 } else { header - 1 };
            put(&mut c, 16, 4, moved as u128);
        }
        31 => {
            let at = (512 * z + 8 * i + v) % length;
            c[at] = ((c[at] as usize + 1) % 256) as u8;
        }
        _ => {}
    }
    c.truncate(length);
    (CapsuleInput { capsule: c, item }, tint)
}

// Groups 3 to 10: areas and calls, group 3 + call.

pub const CALL_CASES: u64 = 24;

#[derive(Clone, Debug)]
pub struct CallInput {
    pub area: Vec<u8>,
    /// What `raw` means.
    pub session: Session,
    /// The session as three numbers: kind, bank, set.
    pub raw: (u32, u32, u32),
    pub slice_len: u64,
    pub guid: [u8; 16],
    pub request: u32,
    pub booted: u32,
}

/// The recipe "a sound plan".
pub fn sound_plan(d: &mut Draw) -> RecordPlan {
    let banks = 2 + d.below(3) as usize;
    let a = d.below(4);
    let b = d.below(32) as usize;
    let images = match a {
        0 => 1,
        1 => 32,
        2 => 1 + b % 4,
        _ => 1 + b,
    };
    let active = d.below(banks as u64) as u32;
    let previous = d.below(banks as u64) as u32;
    let full = full_set(images);
    let mut states = [255u8; 4];
    let mut accepted = [0u32; 4];
    for bank in 0..4usize {
        let s = d.below(3);
        let m = d.word();
        let n = d.below(32) as usize;
        let one = 1u32 << (n % images);
        if bank < banks {
            let (state, set) = if s == 0 && bank as u32 != active {
                (255, m & full)
            } else if s == 0 {
                (254, full & !one)
            } else if s == 1 {
                (254, m & full & !one)
            } else {
                (252, full)
            };
            states[bank] = state;
            accepted[bank] = set;
        }
    }
    let guid_place = d.below(16) as usize;
    RecordPlan { banks, images, active, previous, states, accepted, guid_place }
}

/// The plan altered so that its record keeps every rule but that for the number of banks or of images.
fn past_a_limit(plan: &RecordPlan, rule: u64) -> RecordPlan {
    let mut past = plan.clone();
    match rule {
        15 => {
            let active = plan.active as usize;
            past.states = [plan.states[active], 255, 255, 255];
            past.accepted[0] = plan.accepted[active];
            (past.banks, past.active, past.previous) = (1, 0, 0);
        }
        16 => past.banks = 5,
        17 => {
            past.images = 33;
            for bank in 0..4 {
                if plan.states[bank] == 252 {
                    past.accepted[bank] = 4_294_967_295;
                }
            }
        }
        _ => {
            past.images = 0;
            past.states = plan.states.map(|state| if state == 254 { 252 } else { state });
        }
    }
    past
}

/// How many ways of breaking a rule there are, numbered from 1.
pub const BROKEN_RULES: u64 = 20;

/// The recipe "a broken rule": breaks one rule in a copy that holds the plan's record, by three numbers drawn before.
pub fn break_rule(copy: &mut [u8], plan: &RecordPlan, rule: u64, v: usize, i: usize, z: usize) {
    let b = z % plan.banks;
    let im = i % plan.images;
    let entry_size = 32 + 24 * plan.banks;
    let size = 40 + plan.images * entry_size;
    let bank_at = |image: usize, bank: usize| 40 + image * entry_size + 32 + 24 * bank;
    match rule {
        1 => put(copy, 4, 4, [0u128, 1, 3, 2_147_483_650][v]),
        2 => put(copy, 32, 1, [0u128, 1, 5, 255][v]),
        3 => put(copy, 34, 2, [0u128, 33, 256 + plan.images as u128, 65_535][v]),
        4 => put(copy, 38, 2, [0u128, 23, 25, 280][v]),
        5 => {
            let other = if z % 2 == 0 { entry_size - 24 } else { entry_size + 256 };
            put(copy, 36, 2, [entry_size - 1, entry_size + 1, other, entry_size + 24][v] as u128);
        }
        6 => {
            let other = if z % 2 == 0 { size - entry_size } else { size + 2_147_483_648 };
            put(copy, 16, 4, [size - 1, size + 1, other, size + entry_size][v] as u128);
        }
        7 => put(copy, 20, 2, [0u128, 31, 33, 288][v]),
        8 => match v {
            0 => copy[22 + z % 2] = 1,
            1 => copy[28 + z % 4] = 128,
            2 => copy[33] = 1,
            _ => copy[bank_at(im, b) + 20 + z % 4] = 1,
        },
        9 => match v {
            0 => put(copy, 8, 4, plan.banks as u128),
            1 => put(copy, 12, 4, plan.banks as u128),
            2 => put(copy, 8, 4, if z % 2 == 0 { 2_147_483_648 + plan.active as u128 } else { plan.banks as u128 + 1 }),
            _ => put(copy, 12, 4, if z % 2 == 0 { 2_147_483_648 + plan.previous as u128 } else { plan.banks as u128 + 1 }),
        },
        10 => put(copy, bank_at(im, b) + 16, 4, [2u128, 3, 256, 2_147_483_649][v]),
        11 => {
            if plan.images >= 2 {
                let last = plan.images - 1;
                let (to, from) = match v {
                    0 => (im, (im + 1) % plan.images),
                    1 => (0, last),
                    2 => (last, last - 1),
                    _ => (im, (im + 1 + z % last) % plan.images),
                };
                let at = 40 + to * entry_size;
                copy[at..at + 16].copy_from_slice(&type_guid_for(from, plan.guid_place));
            }
        }
        12 => {
            let past = if plan.banks < 4 { plan.banks + z % (4 - plan.banks) } else { 3 };
            match v {
                0 => copy[24 + b] = 253,
                1 => copy[24 + b] = 251,
                2 => copy[24 + past] = if plan.banks < 4 && z < 8 { 252 } else { 0 },
                _ => copy[24 + past] = if plan.banks < 4 { 254 } else { 250 },
            }
        }
        13 => match v {
            1 => {
                copy[24 + b] = 252;
                put(copy, bank_at(im, b) + 16, 4, 0);
            }
            3 => {
                copy[24 + b] = 254;
                for image in 0..plan.images {
                    put(copy, bank_at(image, b) + 16, 4, 1);
                }
            }
            _ => copy[24 + plan.active as usize] = 255,
        },
        14 => copy[z % 4] = ((copy[z % 4] as usize + 1) % 256) as u8,
        19 => {
            let other = [entry_size - 1, entry_size + 1, entry_size + 4, entry_size + 24][v];
            let record = laid_out(plan, other, 24);
            copy[..record.len()].copy_from_slice(&record);
        }
        20 => {
            let other = [20, 23, 25, 28][v];
            let record = laid_out(plan, 32 + other * plan.banks, other);
            copy[..record.len()].copy_from_slice(&record);
        }
        _ => {
            let record = record_bytes(&past_a_limit(plan, rule));
            copy[..record.len()].copy_from_slice(&record);
        }
    }
    if rule != 14 {
        renew_crc(copy);
    }
}

/// The CRC's divisor as 33 bits: exclusive-or it into a record's bytes behind the CRC and the CRC stays what it was.
pub const SAME_CRC: [u8; 5] = [0x41, 0x06, 0x71, 0xDB, 0x01];

/// Puts the first `words` words of a record at the start of a copy.
fn put_words(copy: &mut [u8], record: &[u8], words: usize) {
    copy[..4 * words].copy_from_slice(&record[..4 * words]);
}

/// Input k of the report: an area and the length of the slice lent.
#[derive(Clone, Debug)]
pub struct ReportInput {
    pub area: Vec<u8>,
    pub slice_len: usize,
}

/// The area of start-up's input k; the draws go on where that input's ended.
pub fn report_input(seed: u64, k: u64) -> ReportInput {
    let (input, mut d) = call_input_and_draw(0, seed, k);
    let s = d.below(8) as usize;
    ReportInput { area: input.area, slice_len: if s < 4 { [0, 4_095, 4_097, 4_200][s] } else { 4_096 } }
}

/// Input k of a call: 0 start-up, 1 repair, 2 Begin, 3 Commit, 4 End, 5 Cancel, 6 Accept, 7 Select previous.
pub fn call_input(call: u64, seed: u64, k: u64) -> CallInput {
    call_input_and_draw(call, seed, k).0
}

/// Input k of a call, and the sequence as its draws left it.
fn call_input_and_draw(call: u64, seed: u64, k: u64) -> (CallInput, Draw) {
    let (input, _, d) = call_input_begun(call, 3 + call, seed, k);
    (input, d)
}

/// Input k of a call with the draws of a group, its first plan, and the sequence as left.
fn call_input_begun(call: u64, group: u64, seed: u64, k: u64) -> (CallInput, RecordPlan, Draw) {
    let mut d = Draw::start(group, seed, k);
    let case = k % CALL_CASES;
    let round = k / CALL_CASES;
    let tint = d.below(256) as usize;
    let mut plan = sound_plan(&mut d);
    let v = d.below(4) as usize;
    let i = d.below(32) as usize;
    let z = d.below(16) as usize;
    let w = d.word();
    let r = d.below(4) as usize;
    let o = d.below(6);
    let y = d.below(2);
    let im = i % plan.images;
    let full = full_set(plan.images);
    let banks = plan.banks as u32;
    let update = (plan.active + 1) % banks;

    // What fits the call.
    let set = match v {
        1 => full & !(1 << im),
        2 => w & full,
        _ => full,
    };
    let staging = Session::Staging { bank: update, set };
    let mut session = match call {
        2 if y == 0 => Session::Regular,
        2..=5 => staging,
        6 => Session::Trial,
        7 if y == 0 => Session::Trial,
        7 => Session::Fallback,
        _ => Session::Restart,
    };
    if session == staging {
        plan.states[update as usize] = 255;
    }
    if call == 7 && z < 8 {
        plan.states[plan.previous as usize] = 252;
        plan.accepted[plan.previous as usize] = full;
    }
    let mut guid = type_guid_for(im, plan.guid_place);
    let request = [0u32, 1, 2_147_483_648, 0][r];
    let booted = match o {
        3 => update,
        4 => banks + z as u32 % 2,
        5 if z % 2 == 0 => 4_294_967_295,
        5 => 2_147_483_648 + plan.active,
        _ => plan.active,
    };
    let mut slice_len = 4_200;

    // What the case alters in session and plan, before the record is made.
    let mut raw = None;
    if case == 5 || case == 7 || case == 20 {
        let kind = [0, 1, 2, 3, 4, 5, 2_147_483_648 + session_words(session).0, 4_294_967_295][z % 8];
        raw = Some(match kind {
            1 => (kind, update, w & full),
            _ if v % 2 == 1 => (kind, w % 5, w),
            _ => (kind, 0, 0),
        });
    }
    if case == 4 || case == 5 || case == 20 || (case == 11 && v > 0) {
        guid[z] = ((guid[z] as usize + 1) % 256) as u8;
    }
    match case {
        4 => session = Session::Staging { bank: (update + 1) % banks, set: w & full },
        8 | 22 => {
            let last = if z % 2 == 0 { plan.active } else { 2_147_483_648 + update };
            let bank = [(update + 1) % banks, banks, 4_294_967_295, last][v];
            session = Session::Staging { bank, set: w & full };
            plan.states[update as usize] = 255;
        }
        9 => {
            session = Session::Staging { bank: update, set: w & full };
            let (state, accepted) = if v % 2 == 0 { (252, full) } else { (254, full & !(1 << im)) };
            plan.states[update as usize] = state;
            plan.accepted[update as usize] = accepted;
        }
        10 => {
            let bit = if plan.images < 32 { 1u32 << (plan.images + i % (32 - plan.images)) } else { 0 };
            session = Session::Staging { bank: update, set: (w & full) | bit };
            plan.states[update as usize] = 255;
        }
        11 if v == 0 => guid = type_guid_for(plan.images, plan.guid_place),
        13 if y == 1 => session = Session::Staging { bank: 4_294_967_295, set: w },
        _ => {}
    }
    match case {
        4 if v == 1 => slice_len = 4_199,
        12 => slice_len = [0, 4_198, 4_199, 4_201][v],
        20 => slice_len = 4_199,
        22 if y == 1 => slice_len = 4_199,
        _ => {}
    }

    let record = record_bytes(&plan);
    let size = record.len();
    let mut area = make_area(&record, &record, tint);

    // What the case alters in the area.
    let rule = 1 + round % BROKEN_RULES;
    match case {
        4 | 5 => {
            let unsound = if case == 4 { v } else { r };
            if unsound >= 2 {
                put(&mut area, COPY + 4, 4, 0);
            }
            if unsound == 3 {
                put(&mut area, 4, 4, 0);
            }
        }
        6 => {
            let part = if v % 2 == 0 { 16 } else { 32 + 24 * (plan.banks - 1) };
            let at = COPY + 40 + im * (32 + 24 * plan.banks) + part + z % 12;
            for (j, byte) in SAME_CRC.iter().enumerate() {
                area[at + j] ^= byte;
            }
        }
        11 if v == 0 => {
            // The GUID that no entry has stands right behind the last.
            area[size..size + 16].copy_from_slice(&guid);
            area[COPY + size..COPY + size + 16].copy_from_slice(&guid);
        }
        14 => break_rule(&mut area[..COPY], &plan, rule, v, i, z),
        15 => break_rule(&mut area[COPY..], &plan, rule, v, i, z),
        16 | 20 => {
            break_rule(&mut area[..COPY], &plan, rule, v, i, z);
            break_rule(&mut area[COPY..], &plan, 1 + z as u64 % 14, v, i, z);
        }
        17 | 22 => {
            let copy = &mut area[COPY..];
            let kind = if case == 22 { 0 } else { v };
            match kind {
                0 => {
                    let at = 40 + im * (32 + 24 * plan.banks) + 16 + z;
                    copy[at] = ((copy[at] as usize + 1) % 256) as u8;
                    renew_crc(copy);
                }
                1 => {
                    put(copy, 12, 4, ((plan.previous + 1) % banks) as u128);
                    renew_crc(copy);
                }
                2 => copy[size + z] = ((copy[size + z] as usize + 1) % 256) as u8,
                _ => {
                    let other = record_bytes(&sound_plan(&mut d));
                    copy[..other.len()].copy_from_slice(&other);
                }
            }
        }
        18 | 19 => {
            let mut changed = plan.clone();
            changed.previous = (plan.previous + 1) % banks;
            if plan.states[update as usize] == 255 {
                changed.accepted[update as usize] = full & !plan.accepted[update as usize];
            }
            let new = record_bytes(&changed);
            let words = (d.draw() as usize) % (size / 4 + 1);
            let start = if case == 18 { 0 } else { COPY };
            if case == 19 {
                put_words(&mut area[..COPY], &new, size / 4);
            }
            put_words(&mut area[start..], &new, words);
            if v < 2 {
                put(&mut area, start + 4, 4, 0);
            }
        }
        21 => {
            let other = record_bytes(&sound_plan(&mut d));
            area[COPY..COPY + other.len()].copy_from_slice(&other);
            if v < 2 {
                put(&mut area, 4, 4, 0);
            }
        }
        23 => {
            let at = (w % 16_384) as usize;
            area[at] = ((area[at] as usize + 1) % 256) as u8;
        }
        _ => {}
    }
    if case == 13 {
        area.resize([0, COPY, AREA - 1, AREA + 1][v], 0);
    }
    if case == 20 && v >= 2 {
        area.resize(AREA - 1, 0);
    }
    // Start-up and repair are given no session.
    let raw = if call < 2 { session_words(Session::Restart) } else { raw.unwrap_or(session_words(session)) };
    let input = CallInput { area, session: session_of_words(raw), raw, slice_len, guid, request, booted };
    (input, plan, d)
}

// Groups 11 and 12: image directories.

/// Values that make permissions wrong above their lower three bits.
const WRONG_PERMISSIONS: [u64; 4] = [8, 16, 2_147_483_648, 4_294_967_288];

/// The recipe "the words": word q of the numbers m and s.
fn word_of(q: usize, m: u32, s: u32) -> u64 {
    let value = (m as u64 + q as u64 * s as u64) % 4_294_967_296;
    if q % 4 == 0 {
        value % 8
    } else {
        value
    }
}

#[derive(Clone, Debug)]
pub struct DirectoryWriteInput {
    pub area: Vec<u8>,
    pub booted: u32,
    pub words: Vec<u32>,
    pub room: usize,
    /// The first plan drawn: n and room are nearly right for its images.
    pub plan: RecordPlan,
}

/// Area and booted bank of a start-up, with draws of a group of their own; they go on where that input's ended.
pub fn directory_write_input(seed: u64, k: u64) -> DirectoryWriteInput {
    let (input, plan, mut d) = call_input_begun(0, 11, seed, k);
    let images = plan.images;
    let u = d.below(2);
    let c = d.below(plan.banks as u64) as u32;
    let a = d.below(12) as usize;
    let b = d.below(16) as usize;
    let p = d.below(8) as usize;
    let i = d.below(32) as usize;
    let v = d.below(4) as usize;
    let m = d.word();
    let s = d.word();
    let need = 4 * images;
    let n = if a < 6 { [need - 1, need - 4, 0, need + 1, need + 4, 300][a] } else { need };
    let size = 24 + 40 * images;
    let room = if b < 7 { [size - 1, size - 40, 0, 23, size + 1, size + 40, 2_700][b] } else { size };
    let mut words: Vec<u32> = (0..n).map(|q| word_of(q, m, s) as u32).collect();
    if p < 4 {
        let t = [0, images - 1, i % images, images][p];
        if 4 * t < n {
            words[4 * t] += WRONG_PERMISSIONS[v] as u32;
        }
    }
    let booted = if u == 1 { c } else { input.booted };
    DirectoryWriteInput { area: input.area, booted, words, room, plan }
}

pub const DIRECTORY_CASES: u64 = 24;
/// No directory of the recipe is longer.
pub const DIRECTORY_ROOM: usize = 1_400;

#[derive(Clone, Debug)]
pub struct DirectoryReadInput {
    pub directory: Vec<u8>,
    pub entry: u64,
}

/// What the recipe draws for a directory, in this order.
struct DirectoryPlan {
    tint: u64,
    images: usize,
    boot: u64,
    place: usize,
    m: u32,
    s: u32,
    f: u32,
    v: usize,
    i: usize,
    z: usize,
    y: usize,
}

fn directory_plan(d: &mut Draw) -> DirectoryPlan {
    let tint = d.below(256);
    let a = d.below(4);
    let b = d.below(32) as usize;
    let images = match a {
        0 => 1,
        1 => 32,
        2 => 1 + b % 4,
        _ => 1 + b,
    };
    DirectoryPlan {
        tint,
        images,
        boot: d.below(2),
        place: d.below(16) as usize,
        m: d.word(),
        s: d.word(),
        f: d.word(),
        v: d.below(4) as usize,
        i: d.below(32) as usize,
        z: d.below(16) as usize,
        y: d.below(3) as usize,
    }
}

/// The buffer that holds the plan's directory at its start, filler behind it.
fn directory_buffer(plan: &DirectoryPlan) -> Vec<u8> {
    let mut c = filled(DIRECTORY_ROOM as u64, plan.tint);
    for (place, value) in [2, 24, plan.images as u128, plan.boot as u128, 40, 0].into_iter().enumerate() {
        put(&mut c, 4 * place, 4, value);
    }
    for j in 0..plan.images {
        let o = 24 + 40 * j;
        c[o..o + 16].copy_from_slice(&type_guid_for(j, plan.place));
        for word in 0..4 {
            put(&mut c, o + 16 + 4 * word, 4, word_of(4 * j + word, plan.m, plan.s) as u128);
        }
        put(&mut c, o + 32, 4, (plan.f >> (j % 32)) as u128 & 1);
        put(&mut c, o + 36, 4, 0);
    }
    c
}

/// Adds to the number of four bytes at `at`.
fn grow(c: &mut [u8], at: usize, by: u64) {
    let value = number(c, at as u128, 4);
    put(c, at, 4, value + by as u128);
}

/// Adds 1 to a byte, mod 256.
fn one_up(c: &mut [u8], at: usize) {
    c[at] = ((c[at] as usize + 1) % 256) as u8;
}

/// The number of the entry that is asked for. Of the large ones three times 40 is 0 in their lower 32 or 64 bits.
fn entry_number(d: &mut Draw, images: u64) -> u64 {
    let t = d.below(8);
    let w = d.below(64);
    match t {
        5 => images,
        6 => images + 1,
        7 => [1 << 29, 1 << 32, 1 << 61, u64::MAX][w as usize % 4],
        _ => w % images,
    }
}

pub fn directory_read_input(seed: u64, k: u64) -> DirectoryReadInput {
    let mut d = Draw::start(12, seed, k);
    let case = k % DIRECTORY_CASES;
    let mut plan = directory_plan(&mut d);
    let entry = entry_number(&mut d, plan.images as u64);
    let e = [0, plan.images - 1, plan.i % plan.images][plan.y];
    if case == 6 {
        plan.images = if plan.v % 2 == 0 { 0 } else { 33 };
    }
    let mut c = directory_buffer(&plan);
    let length = 24 + 40 * plan.images;
    let given = match case {
        7..=13 => {
            spoil_header(&mut c, &plan, case);
            length
        }
        16..=21 => {
            spoil_entry(&mut c, &plan, case, e);
            length
        }
        22 => spoil_several(&mut c, &plan, e, length),
        14 => [length - 1, length + 1, length - 40, length + 40][plan.v],
        15 => [0, 1, 23, 24][plan.v],
        23 => {
            one_up(&mut c, (512 * plan.y + 16 * plan.i + plan.z) % length);
            length
        }
        _ => length,
    };
    c.truncate(given);
    DirectoryReadInput { directory: c, entry }
}

/// Cases 7 to 13: one field of the header.
fn spoil_header(c: &mut [u8], plan: &DirectoryPlan, case: u64) {
    let (v, z) = (plan.v, plan.z);
    let (images, boot) = (plan.images as u128, plan.boot as u128);
    match case {
        7 => put(c, 0, 4, [0, 1, 3, 2_147_483_650][v]),
        8 => put(c, 4, 4, [0, 23, 25, 280][v]),
        9 => {
            let other = if z % 2 == 0 { 256 + images } else { 536_870_912 + images };
            put(c, 8, 4, [0, 33, other, 2_147_483_648 + images][v]);
        }
        10 => put(c, 8, 4, [images - 1, images + 1, 1, 32][v]),
        11 => put(c, 12, 4, [2, 3, 256 + boot, 2_147_483_648 + boot][v]),
        12 => put(c, 16, 4, [0, 39, 41, 296][v]),
        _ => c[20 + z % 4] = [1, 2, 128, 255][v],
    }
}

/// Cases 16 to 21: one field of entry e, or two equal type GUIDs.
fn spoil_entry(c: &mut [u8], plan: &DirectoryPlan, case: u64, e: usize) {
    let (v, z) = (plan.v, plan.z);
    let at = 24 + 40 * e;
    match case {
        16 => grow(c, at + 16, WRONG_PERMISSIONS[v]),
        17 => grow(c, at + 32, [2, 256, 65_536, 2_147_483_648][v]),
        18 => c[at + 36 + z % 4] = [1, 2, 128, 255][v],
        21 => one_up(c, at + z),
        _ => {
            if plan.images >= 2 {
                let last = plan.images - 1;
                let (to, from) = match v {
                    0 => (e, (e + 1) % plan.images),
                    1 => (0, last),
                    2 => (last, last - 1),
                    _ => (e, (e + 1 + z % last) % plan.images),
                };
                c.copy_within(24 + 40 * from..24 + 40 * from + 16, 24 + 40 * to);
            }
        }
    }
}

/// Case 22: several faults, for the order of refusals. Answers the length.
fn spoil_several(c: &mut [u8], plan: &DirectoryPlan, e: usize, mut length: usize) -> usize {
    if plan.z % 2 == 1 {
        grow(c, 24 + 40 * e + 32, 2);
    }
    if (plan.z / 2) % 2 == 1 {
        length -= 1;
    }
    if (plan.z / 4) % 2 == 1 {
        put(c, 0, 4, 3);
    }
    if plan.z >= 8 {
        length = 23;
    }
    length
}

// Group 13: the CRC.

pub fn crc_input(seed: u64, k: u64) -> Vec<u8> {
    let mut d = Draw::start(13, seed, k);
    let tint = d.below(256) as usize;
    let u = d.below(64) as usize;
    let n = [u % 5, 5 + u, 250 + u, 4_132 - u][k as usize % 4];
    let mut bytes: Vec<u8> = (0..n).map(|i| filler(i, tint)).collect();
    if n > 0 {
        for _ in 0..16 {
            let at = d.word() as usize % n;
            bytes[at] = d.below(256) as u8;
        }
    }
    bytes
}

// Groups 14 and 15: packing, and packing again.

pub const PACK_CASES: u64 = 32;
/// No output of the recipe is longer.
pub const PACK_ROOM: u64 = 8_192;

#[derive(Clone, Debug)]
pub struct PackInput {
    pub flags: u32,
    pub drivers: Vec<u8>,
    pub driver_table: Vec<u8>,
    pub images: Vec<u8>,
    pub vendor_codes: Vec<u8>,
    pub payload_table: Vec<u8>,
    /// The output slice before.
    pub output: Vec<u8>,
}

impl PackInput {
    pub fn lent(&self) -> Lent<'_> {
        Lent {
            flags: self.flags,
            drivers: &self.drivers,
            driver_table: &self.driver_table,
            images: &self.images,
            vendor_codes: &self.vendor_codes,
            payload_table: &self.payload_table,
        }
    }
}

/// Puts start and length of a part into a table.
fn put_part(table: &mut [u8], at: usize, start: u64, length: u64) {
    put(table, at, 8, start as u128);
    put(table, at + 8, 8, length as u128);
}

/// The number of 8 bytes at `at`.
fn long_at(table: &[u8], at: usize) -> u64 {
    number(table, at as u128, 8) as u64
}

pub fn pack_input(seed: u64, k: u64) -> PackInput {
    let mut d = Draw::start(14, seed, k);
    let case = k % PACK_CASES;
    let tint = d.below(256);
    let flags = GOOD_FLAGS[d.below(6) as usize];
    let shape = d.below(6);
    let p = d.below(65) as usize;
    let q = d.below(4) as usize;
    let (drivers, payloads) = counts_of(if case == 30 { 7 } else { case }, shape, p, q);
    let mut sizes = [1 + d.below(600), d.below(600), d.below(600)];
    let a = d.below(4) as usize;
    let b = d.below(4) as usize;
    let w = d.below(64);
    let e = d.below(8) as usize;
    if case == 8 && e % 2 == 1 {
        sizes = [600; 3];
    }
    let driver_rest = [0, 1, 15, w % 16][a] + if case == 31 { 4_096 } else { 0 };
    let payload_rest = [0, 1, 63, w][b];
    let mut input = PackInput {
        flags,
        drivers: filled(sizes[0], tint),
        driver_table: filled(16 * drivers as u64 + driver_rest, tint + 150),
        images: filled(sizes[1], tint + 50),
        vendor_codes: filled(sizes[2], tint + 100),
        payload_table: filled(64 * payloads as u64 + payload_rest, tint + 200),
        output: Vec::new(),
    };
    for i in 0..drivers {
        let start = d.below(sizes[0]);
        let length = (1 + d.below(24)).min(sizes[0] - start);
        put_part(&mut input.driver_table, 16 * i, start, length);
    }
    for j in 0..payloads {
        let o = 64 * j;
        let version = 1 + d.below(2);
        let image = d.below(sizes[1] + 1);
        let image_length = d.below(24).min(sizes[1] - image);
        let vendor = d.below(sizes[2] + 1);
        let vendor_length = d.below(24).min(sizes[2] - vendor);
        put(&mut input.payload_table, o, 4, version as u128);
        if version == 1 {
            put(&mut input.payload_table, o + 24, 8, 0);
        }
        put_part(&mut input.payload_table, o + 32, image, image_length);
        put_part(&mut input.payload_table, o + 48, vendor, vendor_length);
    }
    if case == 8 {
        for i in 0..drivers {
            put_part(&mut input.driver_table, 16 * i, 0, sizes[0]);
        }
        for j in 0..payloads {
            put_part(&mut input.payload_table, 64 * j + 32, 0, sizes[1]);
            put_part(&mut input.payload_table, 64 * j + 48, 0, sizes[2]);
        }
    }
    let faults = match case {
        0..=8 => 0,
        9..=17 => 1,
        _ => 2,
    };
    for _ in 0..faults {
        let drawn = d.below(9);
        let kind = if case < 18 { case - 9 } else { drawn };
        let v = d.below(4) as usize;
        let i = d.below(64) as usize;
        let y = d.below(3) as usize;
        spoil_packing(&mut input, (drivers, payloads), kind, v, i, y);
    }
    // The size by what the tables then say.
    let mut size = 36 + 8 * (drivers + payloads) as u64;
    for i in 0..drivers {
        size = plus(size, long_at(&input.driver_table, 16 * i + 8));
    }
    for j in 0..payloads {
        let o = 64 * j;
        let head = if number(&input.payload_table, o as u128, 4) == 2 { 40 } else { 32 };
        for length in [head, long_at(&input.payload_table, o + 40), long_at(&input.payload_table, o + 56)] {
            size = plus(size, length);
        }
    }
    let room = if e < 4 { [less(size, 1), 0, plus(size, 1), plus(size, 16)][e] } else { size };
    input.output = filled(room.min(PACK_ROOM), tint + 25);
    input
}

/// One fault of the recipe, or what is nearly one.
fn spoil_packing(
    input: &mut PackInput,
    (drivers, payloads): (usize, usize),
    kind: u64,
    v: usize,
    i: usize,
    y: usize,
) {
    match kind {
        0..=3 => {
            if (if y == 0 { drivers } else { payloads }) == 0 {
                return;
            }
            let (table, at, slice) = match y {
                0 => (&mut input.driver_table, 16 * (i % drivers), input.drivers.len() as u64),
                1 => (&mut input.payload_table, 64 * (i % payloads) + 32, input.images.len() as u64),
                _ => (&mut input.payload_table, 64 * (i % payloads) + 48, input.vendor_codes.len() as u64),
            };
            let (start, length) = (long_at(table, at), long_at(table, at + 8));
            let (start, length) = match kind {
                0 => (
                    [less(slice, length), less(slice + 1, length), slice, slice + 1][v],
                    if v < 2 { length } else { 0 },
                ),
                1 => ([slice + 1, plus(1 << 32, start), 1 << 63, u64::MAX][v], length),
                2 => (start, [less(slice + 1, start), plus(1 << 32, length), less(0, start), u64::MAX][v]),
                _ if v % 2 == 0 => (start, 0),
                _ => (0, slice),
            };
            put_part(table, at, start, length);
        }
        7 => input.flags = OTHER_FLAGS[v],
        8 => {
            if drivers > 0 {
                put(&mut input.driver_table, 16 * (i % drivers) + 8, 8, 0);
            }
        }
        _ => {
            if payloads > 0 {
                let o = 64 * (i % payloads);
                let version = [WRONG_VERSIONS[v], 1, 2][kind as usize - 4];
                put(&mut input.payload_table, o, 4, version as u128);
                if kind > 4 {
                    put(&mut input.payload_table, o + 24, 8, [0, 1, 1 << 32, 1 << 63][v]);
                }
            }
        }
    }
}

#[derive(Clone, Debug)]
pub struct PackAgainInput {
    pub capsule: Vec<u8>,
    /// The output slice before.
    pub output: Vec<u8>,
}

pub fn pack_again_input(seed: u64, k: u64) -> PackAgainInput {
    let mut d = Draw::start(15, seed, k);
    let round = k / 2;
    let (made, tint) = if k % 2 == 0 {
        capsule_made(&mut d, round % CAPSULE_CASES, None)
    } else {
        capsule_made(&mut d, 0, Some(round % 16))
    };
    let output = filled(made.capsule.len() as u64 + 16, tint + 101);
    PackAgainInput { capsule: made.capsule, output }
}

// The capsule's check from Rust: a comparison with a second, independent version on many inputs, and one call to count
// instructions of. See `run`.
mod second;

#[repr(C)]
struct Counts {
    drivers: usize,
    payloads: usize,
}

#[repr(C)]
struct Part {
    start: usize,
    length: usize,
}

type PartOf = unsafe extern "C" fn(*const u8, usize, usize, *mut Part) -> u32;

extern "C" {
    fn meanderpeg_capsule_check(s: *const u8, len: usize, counts: *mut Counts) -> u32;
    fn meanderpeg_capsule_item(s: *const u8, len: usize, k: usize, part: *mut Part) -> u32;
    fn meanderpeg_capsule_image(s: *const u8, len: usize, k: usize, part: *mut Part) -> u32;
    fn meanderpeg_capsule_vendor_code(s: *const u8, len: usize, k: usize, part: *mut Part) -> u32;
}

// What stands behind a pointer before a call, and stays with a refusal.
const BEFORE: usize = 77;

// The functions ask nothing of their callers, so a slice is all they need.
fn check(s: &[u8]) -> (u32, [usize; 2]) {
    let mut counts = Counts { drivers: BEFORE, payloads: BEFORE };
    let number = unsafe { meanderpeg_capsule_check(s.as_ptr(), s.len(), &mut counts) };
    (number, [counts.drivers, counts.payloads])
}

// The refusals and the places of item, image and vendor code.
fn parts(s: &[u8], k: usize) -> [(u32, usize, usize); 3] {
    [meanderpeg_capsule_item as PartOf, meanderpeg_capsule_image, meanderpeg_capsule_vendor_code].map(|part_of| {
        let mut part = Part { start: BEFORE, length: BEFORE };
        let number = unsafe { part_of(s.as_ptr(), s.len(), k, &mut part) };
        (number, part.start, part.length)
    })
}

struct Random(u64);

impl Random {
    fn next(&mut self) -> u64 {
        self.0 ^= self.0 << 13;
        self.0 ^= self.0 >> 7;
        self.0 ^= self.0 << 17;
        self.0
    }

    fn below(&mut self, n: u64) -> u64 {
        self.next() % n
    }
}

const GUID: [u8; 16] = [
    0xed, 0xd5, 0xcb, 0x6d, 0x2d, 0xe8, 0x44, 0x4c, 0xbd, 0xa1, 0x71, 0x94, 0x19, 0x9a, 0xd9, 0x2a,
];

// A faultless capsule, its header, counts, sizes and spare bytes at random.
fn faultless(r: &mut Random) -> Vec<u8> {
    let header = 28 + r.below(3) as usize * 5;
    let drivers = r.below(4) as usize;
    let payloads = r.below(4) as usize;
    let items = drivers + payloads;
    let mut body = vec![0u8; 8 + 8 * items + r.below(3) as usize];
    body[0] = 1;
    body[4] = drivers as u8;
    body[6] = payloads as u8;
    for k in 0..items {
        let at = body.len() as u64;
        body[8 + 8 * k..16 + 8 * k].copy_from_slice(&at.to_le_bytes());
        let spare = r.below(3) as usize;
        if k < drivers {
            body.resize(body.len() + 1 + spare, r.next() as u8);
            continue;
        }
        let version = 1 + r.below(2) as u32;
        let image = r.below(6) as u32;
        let vendor = r.below(4) as u32;
        let mut p: Vec<u8> = (0..40).map(|_| r.next() as u8).collect();
        p.truncate(if version == 1 { 32 } else { 40 });
        p[0..4].copy_from_slice(&version.to_le_bytes());
        p[24..28].copy_from_slice(&image.to_le_bytes());
        p[28..32].copy_from_slice(&vendor.to_le_bytes());
        p.resize(p.len() + (image + vendor) as usize + spare, 0x5a);
        body.extend_from_slice(&p);
    }
    let total = header + body.len();
    let mut s = vec![0u8; header];
    s[0..16].copy_from_slice(&GUID);
    s[16..20].copy_from_slice(&(header as u32).to_le_bytes());
    let flags = [0u32, 0x0001_0000, 0x0005_0000, 0xffff_ffff, 0x0002_0000][r.below(5) as usize];
    s[20..24].copy_from_slice(&flags.to_le_bytes());
    s[24..28].copy_from_slice(&(total as u32).to_le_bytes());
    s.extend_from_slice(&body);
    s
}

// Up to three faults: a byte moved by one or set at random, a field at an end of its range, or a length that does not
// agree.
fn spoil(s: &mut Vec<u8>, r: &mut Random) {
    for _ in 0..r.below(4) {
        if s.is_empty() {
            return;
        }
        let at = r.below(s.len() as u64) as usize;
        match r.below(5) {
            0 => s[at] = r.next() as u8,
            1 => s[at] = s[at].wrapping_add(1),
            2 => s[at] = s[at].wrapping_sub(1),
            3 => {
                let end = (at + 4).min(s.len());
                s[at..end].fill(0xff);
            }
            _ => s.truncate(at + 1),
        }
    }
}

fn compare(turns: usize) {
    let mut r = Random(0x9e37_79b9_7f4a_7c15);
    let mut seen = [0usize; 17];
    for turn in 0..turns {
        let mut s = faultless(&mut r);
        spoil(&mut s, &mut r);
        let wanted = second::counts(&s).map_or_else(|n| (n, [BEFORE; 2]), |counts| (0, counts));
        assert_eq!(check(&s), wanted, "turn {turn}: the check, in {s:02x?}");
        for k in [0, 1, 2, 3, 5, 6, usize::MAX] {
            let wanted = second::parts(&s, k);
            let number = *wanted.as_ref().err().unwrap_or(&0);
            let wanted = wanted.map_or([(number, BEFORE, BEFORE); 3], |places| places.map(|(start, length)| (0, start, length)));
            assert_eq!(parts(&s, k), wanted, "turn {turn}, item {k}: refusal, start and length, in {s:02x?}");
            seen[number as usize] += 1;
        }
    }
    println!("{turns} capsules agree; answers by refusal number, 0 for none:");
    for (n, count) in seen.iter().enumerate().filter(|(_, c)| **c > 0) {
        println!("  {n}: {count}");
    }
}

// One payload with an image of n bytes.
fn single(n: usize) -> Vec<u8> {
    let total = 28 + 16 + 32 + n;
    let mut s = vec![0x5au8; total];
    s[0..16].copy_from_slice(&GUID);
    s[16..20].copy_from_slice(&28u32.to_le_bytes());
    s[20..24].copy_from_slice(&0u32.to_le_bytes());
    s[24..28].copy_from_slice(&(total as u32).to_le_bytes());
    s[28..36].copy_from_slice(&[1, 0, 0, 0, 0, 0, 1, 0]);
    s[36..44].copy_from_slice(&16u64.to_le_bytes());
    s[44..48].copy_from_slice(&1u32.to_le_bytes());
    s[68..72].copy_from_slice(&(n as u32).to_le_bytes());
    s[72..76].copy_from_slice(&0u32.to_le_bytes());
    s
}

fn main() {
    let words: Vec<String> = std::env::args().collect();
    match words.get(1).map(|w| w.as_str()) {
        Some("compare") => compare(words[2].parse().unwrap()),
        Some("check") => println!("refusal {}", check(&single(words[2].parse().unwrap())).0),
        _ => panic!("compare TURNS, or check IMAGE-SIZE"),
    }
}

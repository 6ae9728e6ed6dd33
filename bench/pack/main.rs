// Packing 16 MiB in 8 payloads: the proved function against `copy_from_slice` of the same parts to the same places,
// same machine, same run, both built for release. The plain version copies and does nothing else: no header, no offset,
// no test. The two take turns on one buffer, and all memory has been touched before. Before timing, what is packed is
// compared with the parts. The verdict goes by the medians: the best times are chance on a machine that others use too.
use std::ffi::c_void;
use std::time::Instant;

#[repr(C)]
#[derive(Clone, Copy)]
struct PayloadEntry {
    version: u32,
    type_guid: [u8; 16],
    image_index: u8,
    unused: [u8; 3],
    hardware_instance: u64,
    image_start: u64,
    image_length: u64,
    vendor_code_start: u64,
    vendor_code_length: u64,
}

extern "C" {
    fn meanderpeg_capsule_pack(
        flags: u32,
        drivers: *const u8,
        drivers_length: usize,
        driver_table: *const c_void,
        driver_table_bytes: usize,
        images: *const u8,
        images_length: usize,
        vendor_codes: *const u8,
        vendor_codes_length: usize,
        payload_table: *const c_void,
        payload_table_bytes: usize,
        capsule: *mut u8,
        room: usize,
        length: *mut usize,
    ) -> u32;
}

const TOTAL: usize = 16 << 20;
const PAYLOADS: usize = 8;
const RUNS: usize = 300;
const WANTED: f64 = 1.1;
// Before the first item, and before the image in each.
const FRONT: usize = 36 + 8 * PAYLOADS;
const HEADER: usize = 40;
const SIZE: usize = FRONT + PAYLOADS * HEADER + TOTAL;

// A part of the images, and its place in the capsule.
struct Copied {
    from: usize,
    to: usize,
    length: usize,
}

fn proved(images: &[u8], table: &[PayloadEntry], room: &mut [u8]) -> usize {
    let (none, mut length) = ([0u8; 1], 0);
    let refusal = unsafe {
        meanderpeg_capsule_pack(
            0x0001_0000,
            none.as_ptr(),
            0,
            none.as_ptr().cast(),
            0,
            images.as_ptr(),
            images.len(),
            none.as_ptr(),
            0,
            table.as_ptr().cast(),
            std::mem::size_of_val(table),
            room.as_mut_ptr(),
            room.len(),
            &mut length,
        )
    };
    assert_eq!(refusal, 0);
    length
}

fn plain(images: &[u8], parts: &[Copied], room: &mut [u8]) {
    for part in parts {
        room[part.to..part.to + part.length].copy_from_slice(&images[part.from..part.from + part.length]);
    }
}

fn entry(from: usize, length: usize) -> PayloadEntry {
    PayloadEntry {
        version: 2,
        type_guid: [7; 16],
        image_index: 1,
        unused: [0; 3],
        hardware_instance: 0,
        image_start: from as u64,
        image_length: length as u64,
        vendor_code_start: 0,
        vendor_code_length: 0,
    }
}

// Seconds: the best and the median.
fn of_all(mut seconds: Vec<f64>) -> (f64, f64) {
    seconds.sort_by(f64::total_cmp);
    (seconds[0], seconds[seconds.len() / 2])
}

// The images lie so many bytes apart, in this order; answers the ratio of the medians.
fn timed(name: &str, gap: usize, order: fn(usize) -> usize) -> f64 {
    let length = TOTAL / PAYLOADS;
    let images: Vec<u8> =
        (0..PAYLOADS * (length + gap)).map(|i| (i as u32).wrapping_mul(2654435761).to_le_bytes()[3]).collect();
    let part = |i| Copied { from: order(i) * (length + gap), to: FRONT + i * (HEADER + length) + HEADER, length };
    let parts: Vec<Copied> = (0..PAYLOADS).map(part).collect();
    let table: Vec<PayloadEntry> = parts.iter().map(|part| entry(part.from, part.length)).collect();
    let mut room = vec![0xEE; SIZE];
    assert_eq!(proved(&images, &table, &mut room), SIZE);
    let packed = room.clone();
    parts.iter().for_each(|part| room[part.to..part.to + part.length].fill(0xEE));
    plain(&images, &parts, &mut room);
    assert!(room == packed);
    let (mut of_plain, mut of_proved) = (vec![], vec![]);
    for _ in 0..RUNS {
        let start = Instant::now();
        plain(&images, &parts, std::hint::black_box(&mut room));
        of_plain.push(start.elapsed().as_secs_f64());
        let start = Instant::now();
        proved(&images, &table, std::hint::black_box(&mut room));
        of_proved.push(start.elapsed().as_secs_f64());
    }
    let (a, b) = (of_all(of_plain), of_all(of_proved));
    let ratio = b.1 / a.1;
    println!("{name}, best and median of {RUNS}:");
    println!(
        "  copy_from_slice {:.3} ms, {:.3} ms; proved {:.3} ms, {:.3} ms",
        a.0 * 1e3,
        a.1 * 1e3,
        b.0 * 1e3,
        b.1 * 1e3
    );
    println!("  ratio {:.3}, {ratio:.3}", b.0 / a.0);
    ratio
}

fn main() {
    let worst =
        [timed("images side by side", 0, |i| i), timed("images 7 bytes apart, permuted", 7, |i| i * 5 % PAYLOADS)]
            .into_iter()
            .fold(0.0, f64::max);
    println!("worst ratio of the medians {worst:.3}, at most {WANTED:.1} wanted");
    if worst > WANTED {
        std::process::exit(1);
    }
}

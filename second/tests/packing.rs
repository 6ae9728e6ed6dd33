//! Packing (C26 to C36, N50 to N57): worked examples, both ends of each limit, and there and back on the inputs of
//! groups 14 and 15.

use second::bytes::{number, put};
use second::capsule::*;
use second::inputs::*;
use second::make::{make_capsule, payload, CapsulePlan};
use second::packing::*;
use std::collections::BTreeSet;

const DRIVERS: &[u8] = b"0123456789";
const IMAGES: &[u8] = b"an image and another";
const CODES: &[u8] = b"vendor";
const GUID: [u8; 16] = *b"type GUID, bytes";

/// What is packed, owned, so that a test can alter it.
#[derive(Clone)]
struct Order {
    flags: u32,
    drivers: Vec<u8>,
    driver_table: Vec<u8>,
    images: Vec<u8>,
    codes: Vec<u8>,
    payload_table: Vec<u8>,
}

impl Order {
    fn new() -> Order {
        Order {
            flags: 0,
            drivers: DRIVERS.to_vec(),
            driver_table: vec![],
            images: IMAGES.to_vec(),
            codes: CODES.to_vec(),
            payload_table: vec![],
        }
    }

    fn driver(mut self, start: u64, length: u64) -> Order {
        self.driver_table.extend(start.to_le_bytes());
        self.driver_table.extend(length.to_le_bytes());
        self
    }

    /// With the index 200, and with three bytes behind it that are not looked at.
    fn payload(mut self, version: u32, instance: u64, image: (u64, u64), code: (u64, u64)) -> Order {
        self.payload_table.extend(version.to_le_bytes());
        self.payload_table.extend(GUID);
        self.payload_table.extend([200, 1, 2, 3]);
        for value in [instance, image.0, image.1, code.0, code.1] {
            self.payload_table.extend(value.to_le_bytes());
        }
        self
    }

    /// A payload that has nothing in it.
    fn bare(self) -> Order {
        self.payload(1, 0, (0, 0), (0, 0))
    }

    fn flags(mut self, flags: u32) -> Order {
        self.flags = flags;
        self
    }

    fn lent(&self) -> Lent<'_> {
        Lent {
            flags: self.flags,
            drivers: &self.drivers,
            driver_table: &self.driver_table,
            images: &self.images,
            vendor_codes: &self.codes,
            payload_table: &self.payload_table,
        }
    }

    /// The answer and the output, of so many bytes that all held 7.
    fn packed(&self, room: usize) -> (Result<u64, u32>, Vec<u8>) {
        let mut output = vec![7; room];
        let answer = pack(&self.lent(), &mut output);
        (answer, output)
    }

    /// The capsule, from exactly its room; it is taken and tight. Its size is answered, and with a byte less it is 57.
    fn capsule(&self) -> Vec<u8> {
        let size = packed_size(&self.lent()).expect("a size");
        let (answer, capsule) = self.packed(size as usize);
        assert_eq!(answer, Ok(size));
        assert_eq!(capsule_refusal(&capsule), 0);
        assert!(tight(&capsule));
        let (answer, longer) = self.packed(size as usize + 3);
        assert_eq!((answer, &longer[..size as usize]), (Ok(size), &capsule[..]));
        assert_eq!(longer[size as usize..], [7, 7, 7]);
        for room in [0, 1, size as usize - 1] {
            assert_eq!(self.packed(room), (Err(57), vec![7; room]));
        }
        capsule
    }

    fn size(&self) -> u64 {
        self.capsule().len() as u64
    }

    /// The refusal, of both entries, whether or not the output is long enough; the output stays.
    fn refused(&self, want: u32) {
        assert_eq!(packed_size(&self.lent()), Err(want));
        for room in [0, 36, 2_000] {
            assert_eq!(self.packed(room), (Err(want), vec![7; room]));
        }
    }
}

const HEADER_GUID: [u8; 16] =
    [0xed, 0xd5, 0xcb, 0x6d, 0x2d, 0xe8, 0x44, 0x4c, 0xbd, 0xa1, 0x71, 0x94, 0x19, 0x9a, 0xd9, 0x2a];

#[test]
fn no_item_byte_for_byte() {
    let mut want = HEADER_GUID.to_vec();
    want.extend([28, 0, 0, 0, 0xFF, 0xFF, 0xFA, 0xFF, 36, 0, 0, 0, 1, 0, 0, 0, 0, 0, 0, 0]);
    assert_eq!(Order::new().flags(0xFFFA_FFFF).capsule(), want);
}

#[test]
fn one_driver_byte_for_byte() {
    let mut want = HEADER_GUID.to_vec();
    want.extend([28, 0, 0, 0, 0, 0, 1, 0, 47, 0, 0, 0, 1, 0, 0, 0, 1, 0, 0, 0, 16, 0, 0, 0, 0, 0, 0, 0]);
    want.extend(b"789");
    let mut order = Order::new().flags(0x0001_0000).driver(7, 3);
    assert_eq!(order.capsule(), want);
    // A rest that is shorter than an entry is none.
    order.driver_table.extend([255; 15]);
    order.payload_table.extend([255; 63]);
    assert_eq!(order.capsule(), want);
}

/// Two drivers that share bytes, a payload of each version: offsets from the body's start, sizes, reserved bytes 0.
#[test]
fn two_of_each_byte_for_byte() {
    let order = Order::new()
        .flags(0x0005_0000)
        .driver(2, 4)
        .driver(5, 1)
        .payload(2, 0x0807_0605_0403_0201, (3, 5), (4, 2))
        .payload(1, 0, (13, 7), (6, 0));
    let mut want = HEADER_GUID.to_vec();
    want.extend([28, 0, 0, 0, 0, 0, 5, 0, 159, 0, 0, 0, 1, 0, 0, 0, 2, 0, 2, 0]);
    for offset in [40u64, 44, 45, 92] {
        want.extend(offset.to_le_bytes());
    }
    want.extend(b"23455");
    want.extend([2, 0, 0, 0]);
    want.extend(GUID);
    want.extend([200, 0, 0, 0, 5, 0, 0, 0, 2, 0, 0, 0, 1, 2, 3, 4, 5, 6, 7, 8]);
    want.extend(b"imageor");
    want.extend([1, 0, 0, 0]);
    want.extend(GUID);
    want.extend([200, 0, 0, 0, 7, 0, 0, 0, 0, 0, 0, 0]);
    want.extend(b"another");
    assert_eq!(want.len(), 159);
    assert_eq!(order.capsule(), want);
}

/// What the maker of the other tests builds, where its plan is of tight form.
#[test]
fn as_the_maker_builds_it() {
    for count in 0..10usize {
        let mut order = Order::new().flags(0x0002_0000);
        let mut plan =
            CapsulePlan { header: 28, flags: order.flags, gap: 0, drivers: vec![], payloads: vec![], tail: 0 };
        for i in 0..count {
            order = order.driver(i as u64, 10 - i as u64);
            plan.drivers.push(DRIVERS[i..].to_vec());
            let version = 1 + i as u32 % 2;
            let mut p = payload(version, &IMAGES[..2 * i], &CODES[i / 2..i / 2 + i % 3]);
            p.guid = GUID;
            p.index = 200;
            p.reserved = [0; 3];
            p.instance = if version == 1 { 0 } else { u64::MAX - i as u64 };
            order = order.payload(version, p.instance, (0, 2 * i as u64), (i as u64 / 2, i as u64 % 3));
            plan.payloads.push(p);
        }
        assert_eq!(order.capsule(), make_capsule(&plan));
    }
}

/// Lengths and sizes past 8 and 16 bits.
#[test]
fn long_parts() {
    let mut order = Order::new();
    order.drivers = (0..70_000u64).map(|i| (i * i / 7) as u8).collect();
    order.images = (0..66_000u64).map(|i| (i * i / 11) as u8).collect();
    order.codes = (0..65_537u64).map(|i| (i * i / 13) as u8).collect();
    let order = order.driver(1, 69_999).driver(69_999, 1).payload(2, 5, (700, 65_300), (0, 65_537)).bare();
    let capsule = order.capsule();
    assert_eq!(capsule.len(), 28 + 8 + 32 + 70_000 + 40 + 65_300 + 65_537 + 32);
    assert_eq!(capsule[image(&capsule, 0).0 as usize..][..69_999], order.drivers[1..]);
    assert_eq!(image(&capsule, 2), (70_108, 65_300));
    assert_eq!(vendor_code(&capsule, 2), (135_408, 65_537));
    assert_eq!(capsule[70_108..135_408], order.images[700..]);
    assert_eq!(capsule[135_408..200_945], order.codes[..]);
    assert_eq!(item(&capsule, 3), (200_945, 32));
}

/// 50: 64 items are good, 65 aren't, however they are parted.
#[test]
fn sixty_four_items() {
    for drivers in 0..=65 {
        let mut order = Order::new();
        for _ in 0..drivers {
            order = order.driver(0, 1);
        }
        for _ in drivers..64 {
            order = order.bare();
        }
        if drivers <= 64 {
            assert_eq!(order.size(), 28 + 8 + 512 + drivers + 32 * (64 - drivers));
            // A rest of a byte less than an entry.
            let mut longer = order.clone();
            longer.driver_table.extend([0; 15]);
            longer.payload_table.extend([0; 63]);
            assert_eq!(longer.capsule(), order.capsule());
            longer.payload_table.push(0);
            longer.refused(50);
            order.clone().driver(0, 1).refused(50);
        } else {
            order.refused(50);
        }
    }
    // Counts whose lower 8 or 16 bits are small.
    for count in [256, 257, 65_536, 65_537] {
        let mut order = Order::new();
        order.driver_table = vec![0; 16 * count];
        order.refused(50);
        let mut order = Order::new();
        order.payload_table = vec![0; 64 * count];
        order.refused(50);
    }
}

/// 51: both ends, for each of the three slices, also beside a good neighbour.
#[test]
fn parts_and_their_slices() {
    let kinds: [(u64, fn(Order, u64, u64) -> Order); 3] = [
        (10, |order, start, length| order.driver(start, length)),
        (20, |order, start, length| order.payload(1, 0, (start, length), (0, 0))),
        (6, |order, start, length| order.payload(2, 1, (0, 0), (start, length))),
    ];
    for (slice, add) in kinds {
        for start in 0..slice {
            add(Order::new(), start, slice - start).capsule();
            add(Order::new(), start, slice - start + 1).refused(51);
            add(add(Order::new(), 0, 1), start, slice - start + 1).refused(51);
            add(add(Order::new(), start, slice - start + 1), 0, 1).refused(51);
        }
        let wraps = [
            (slice + 1, 0),
            (slice, 1),
            (u64::MAX, 1),
            (u64::MAX, 0),
            (1, u64::MAX),
            (0, u64::MAX),
            (u64::MAX, u64::MAX),
            (1 << 63, 1 << 63),
            (1 << 32, 1),
            (0, (1 << 32) + 1),
            (2, 0u64.wrapping_sub(2)),
        ];
        for (start, length) in wraps {
            add(Order::new(), start, length).refused(51);
        }
    }
    // An empty part at its slice's end, and in an empty slice.
    assert_eq!(Order::new().payload(1, 0, (20, 0), (6, 0)).size(), 76);
    let mut order = Order::new().bare();
    order.images.clear();
    order.codes.clear();
    assert_eq!(order.size(), 76);
    order.drivers.clear();
    assert_eq!(order.size(), 76);
    order.clone().driver(0, 1).refused(51);
    order.driver(0, 0).refused(52);
    // Each part has its own slice: 10, 20 and 6 bytes.
    Order::new().driver(10, 1).refused(51);
    Order::new().payload(1, 0, (10, 1), (5, 1)).capsule();
    Order::new().payload(1, 0, (10, 1), (6, 1)).refused(51);
}

#[test]
fn drivers_are_not_empty() {
    for start in [0, 3, 10] {
        Order::new().driver(start, 0).refused(52);
        Order::new().driver(0, 1).driver(start, 0).refused(52);
        Order::new().driver(start, 0).driver(0, 1).refused(52);
    }
    Order::new().driver(11, 0).refused(51);
}

#[test]
fn versions_and_instances() {
    for version in [0, 3, 4, 257, 258, 65_537, 0x0100_0000, 0x8000_0001, 0x8000_0002, u32::MAX] {
        Order::new().payload(version, 0, (0, 1), (0, 1)).refused(53);
        Order::new().bare().payload(version, 1, (0, 1), (0, 1)).refused(53);
    }
    for instance in [1, 1 << 8, 1 << 31, 1 << 32, 1 << 63, u64::MAX] {
        Order::new().payload(1, instance, (0, 1), (0, 1)).refused(54);
        Order::new().bare().payload(1, instance, (0, 1), (0, 1)).refused(54);
        let capsule = Order::new().payload(2, instance, (0, 1), (0, 1)).capsule();
        assert_eq!(shown(&capsule, 0), (GUID, 200, instance));
    }
    let one = Order::new().payload(1, 0, (0, 1), (0, 1)).capsule();
    let two = Order::new().payload(2, 0, (0, 1), (0, 1)).capsule();
    assert_eq!((one.len(), two.len()), (78, 86));
    assert_eq!((shown(&one, 0), shown(&two, 0)), ((GUID, 200, 0), (GUID, 200, 0)));
}

/// 55 is given for the flags for which the reader gives 12.
#[test]
fn flags_as_the_reader_has_them() {
    for bit in 0..32 {
        for other in 0..32 {
            let flags = 1u32 << bit | 1 << other;
            let reset_alone = flags & 0x0004_0000 != 0 && flags & 0x0001_0000 == 0;
            let mut capsule = Order::new().capsule();
            put(&mut capsule, 20, 4, flags as u128);
            assert_eq!(capsule_refusal(&capsule), if reset_alone { 12 } else { 0 });
            if reset_alone {
                Order::new().flags(flags).refused(55);
            } else {
                assert_eq!(Order::new().flags(flags).capsule(), capsule);
            }
        }
    }
    Order::new().flags(0xFFFE_FFFF).refused(55);
}

/// 56: 4,294,967,295 bytes are good. The parts share one slice of 2^26 bytes; no such capsule is made.
#[test]
fn sizes_past_32_bits() {
    const SLICE: u64 = 67_108_864;
    let mut order = Order::new();
    order.drivers = vec![0; SLICE as usize];
    for _ in 0..63 {
        order = order.driver(0, SLICE);
    }
    // 28 + 8 + 64 * 8 and the drivers before leave so many bytes to the last.
    let last = 4_294_967_295 - 548 - 63 * SLICE;
    let most = order.clone().driver(0, last);
    assert_eq!(packed_size(&most.lent()), Ok(4_294_967_295));
    assert_eq!(most.packed(2_000), (Err(57), vec![7; 2_000]));
    order.clone().driver(0, last + 1).refused(56);
    order.clone().driver(0, SLICE).refused(56);
    // Flags come before it, an empty driver too.
    order.clone().driver(0, SLICE).flags(0x0004_0000).refused(55);
    order.driver(0, 0).refused(52);
    // The same with payloads, both ends, and twice as much.
    let mut order = Order::new();
    order.images = vec![0; SLICE as usize];
    order.codes = vec![0; SLICE as usize];
    for _ in 0..31 {
        order = order.payload(2, 1, (0, SLICE), (0, SLICE));
    }
    let left = 4_294_967_295 - (28 + 8 + 32 * 8) - 31 * (40 + 2 * SLICE) - 32;
    let most = order.clone().payload(1, 0, (0, left - SLICE), (0, SLICE));
    assert_eq!(packed_size(&most.lent()), Ok(4_294_967_295));
    order.clone().payload(1, 0, (0, left + 1 - SLICE), (0, SLICE)).refused(56);
    order.clone().payload(2, 0, (0, left - SLICE), (0, SLICE)).refused(56);
    for _ in 31..64 {
        order = order.payload(1, 0, (0, SLICE), (0, SLICE));
    }
    order.refused(56);
}

/// By number over all items (N109), not item by item: each refusal hides those behind it, wherever they stand.
#[test]
fn order_of_refusals() {
    let past = |order: Order| order.payload(1, 0, (0, 0), (7, 0));
    let empty = |order: Order| order.driver(1, 0);
    let version = |order: Order| order.payload(3, 0, (0, 0), (0, 0));
    let instance = |order: Order| order.payload(1, 9, (0, 0), (0, 0));
    let flags = |order: Order| order.flags(0x0004_0000);
    let faults: [(u32, &dyn Fn(Order) -> Order); 5] =
        [(51, &past), (52, &empty), (53, &version), (54, &instance), (55, &flags)];
    for (one, add_one) in &faults {
        add_one(Order::new()).refused(*one);
        for (two, add_two) in &faults {
            add_two(add_one(Order::new().driver(0, 1).bare())).refused(*one.min(two));
            let mut many = add_two(add_one(Order::new()));
            for _ in 0..64 {
                many = many.bare();
            }
            if many.driver_table.len() / 16 + many.payload_table.len() / 64 > 64 {
                many.refused(50);
            }
        }
    }
    // A payload that has three faults at once.
    Order::new().payload(3, 1, (21, 0), (0, 0)).refused(51);
    Order::new().payload(3, 1, (20, 0), (0, 0)).refused(53);
}

/// C33, one thing at a time.
#[test]
fn tight_form() {
    let mut p = payload(2, b"image", b"code");
    p.reserved = [0; 3];
    let empty = CapsulePlan { header: 28, flags: 0, gap: 0, drivers: vec![], payloads: vec![], tail: 0 };
    let drivers = CapsulePlan { drivers: vec![b"driver".to_vec(), vec![9]], ..empty.clone() };
    let mixed = CapsulePlan { payloads: vec![p.clone(), p.clone()], ..drivers.clone() };
    for plan in [&empty, &drivers, &mixed] {
        assert!(tight(&make_capsule(plan)));
        for other in [
            CapsulePlan { header: 29, ..plan.clone() },
            CapsulePlan { header: 64, ..plan.clone() },
            CapsulePlan { gap: 1, tail: 1, ..plan.clone() },
        ] {
            let capsule = make_capsule(&other);
            assert_eq!(capsule_refusal(&capsule), 0);
            assert!(!tight(&capsule));
        }
    }
    for place in 0..2 {
        let mut other = mixed.clone();
        other.payloads[place].spare = 1;
        assert!(!tight(&make_capsule(&other)));
        for byte in 0..3 {
            let mut other = mixed.clone();
            other.payloads[place].reserved[byte] = 1;
            assert!(!tight(&make_capsule(&other)));
        }
    }
    // What is refused has no form.
    let mut capsule = make_capsule(&empty);
    put(&mut capsule, 20, 4, 0x0004_0000);
    assert!(!tight(&capsule));
}

/// The parts of a capsule that is taken, as the reader shows them.
fn told(c: &[u8]) -> Vec<(Vec<u8>, Vec<u8>, ([u8; 16], u8, u64))> {
    let bytes = |(start, length): (u64, u64)| c[start as usize..(start + length) as usize].to_vec();
    let (drivers, payloads) = counts(c);
    let all = 0..drivers as u64 + payloads as u64;
    all.map(|i| (bytes(image(c, i)), bytes(vendor_code(c, i)), shown(c, i))).collect()
}

/// C32, C34, C35 on the inputs of group 14: a refusal alters nothing; what is packed is taken, tight, shows all as it
/// was given, each part at its place, and packed again is the same.
#[test]
fn packed_and_read() {
    for k in 0..3_000 {
        let input = pack_input(3, k);
        let size = packed_size(&input.lent());
        let mut output = input.output.clone();
        let length = match pack(&input.lent(), &mut output) {
            Err(number) => {
                assert_eq!(output, input.output);
                assert_eq!(size.err().unwrap_or(57), number);
                continue;
            }
            Ok(length) => length as usize,
        };
        assert_eq!(size, Ok(length as u64));
        assert_eq!(output[length..], input.output[length..]);
        let c = &output[..length];
        assert_eq!(capsule_refusal(c), 0);
        assert!(tight(c));
        assert_eq!(flags(c), input.flags as u128);
        let (driver_table, payload_table) = (&input.driver_table, &input.payload_table);
        let (drivers, payloads) = (driver_table.len() / 16, payload_table.len() / 64);
        assert_eq!(counts(c), (drivers as u16, payloads as u16));
        let part = |table: &[u8], at: usize, slice: &[u8]| {
            let (start, length) = (number(table, at as u128, 8) as usize, number(table, at as u128 + 8, 8) as usize);
            slice[start..start + length].to_vec()
        };
        let mut place = 36 + 8 * (drivers + payloads) as u64;
        for (i, (shown_image, shown_code, values)) in told(c).into_iter().enumerate() {
            assert_eq!(item(c, i as u64).0, place);
            if i < drivers {
                assert_eq!(shown_image, part(driver_table, 16 * i, &input.drivers));
            } else {
                let o = 64 * (i - drivers);
                let head = if payload_table[o] == 1 { 32 } else { 40 };
                assert_eq!(image(c, i as u64).0, place + head);
                assert_eq!(number(c, place as u128, 4), payload_table[o] as u128);
                assert_eq!(shown_image, part(payload_table, o + 32, &input.images));
                assert_eq!(shown_code, part(payload_table, o + 48, &input.vendor_codes));
                assert_eq!(values.0, payload_table[o + 4..o + 20]);
                assert_eq!(values.1, payload_table[o + 20]);
                assert_eq!(values.2 as u128, number(payload_table, o as u128 + 24, 8));
            }
            place += item(c, i as u64).1;
        }
        let mut again = vec![0; length];
        assert_eq!(pack(&shown_of(c).unwrap().lent(c), &mut again), Ok(length as u64));
        assert_eq!(again, c);
    }
}

/// C35, C36 on the inputs of group 15: read and packed again is the same exactly where the form is tight; else it is
/// tight then, and shows the same.
#[test]
fn read_and_packed() {
    for k in 0..3_000 {
        let PackAgainInput { capsule, mut output } = pack_again_input(3, k);
        assert_eq!(output.len(), capsule.len() + 16);
        let before = output.clone();
        let shown = match shown_of(&capsule) {
            Err(number) => {
                assert!((10..=15).contains(&number) && k % 2 == 0);
                continue;
            }
            Ok(shown) => shown,
        };
        let length = pack(&shown.lent(&capsule), &mut output).expect("what is taken can be packed") as usize;
        assert!(length <= capsule.len());
        assert_eq!(output[length..], before[length..]);
        let c = &output[..length];
        assert_eq!(*c == capsule[..], tight(&capsule));
        assert!(tight(c));
        assert_eq!((flags(c), counts(c)), (flags(&capsule), counts(&capsule)));
        assert_eq!(told(c), told(&capsule));
        if k % 2 == 1 && (k / 2) % 16 < 12 {
            assert!(tight(&capsule));
        }
    }
}

/// Every refusal that applies to an input, not only the first; 56 aside.
fn all_faults(input: &PackInput) -> Vec<u32> {
    let (driver_table, payload_table) = (&input.driver_table, &input.payload_table);
    let (drivers, payloads) = (driver_table.len() / 16, payload_table.len() / 64);
    let past = |table: &[u8], at: usize, slice: &[u8]| {
        number(table, at as u128, 8) + number(table, at as u128 + 8, 8) > slice.len() as u128
    };
    let version = |j: usize| number(payload_table, 64 * j as u128, 4);
    let lengths = (0..drivers).map(|i| number(driver_table, 16 * i as u128 + 8, 8)).sum::<u128>()
        + (0..payloads)
            .map(|j| {
                let head = if version(j) == 2 { 40 } else { 32 };
                head + number(payload_table, 64 * j as u128 + 40, 8) + number(payload_table, 64 * j as u128 + 56, 8)
            })
            .sum::<u128>();
    let faults = [
        (50, drivers + payloads > 64),
        (
            51,
            (0..drivers).any(|i| past(driver_table, 16 * i, &input.drivers))
                || (0..payloads).any(|j| past(payload_table, 64 * j + 32, &input.images))
                || (0..payloads).any(|j| past(payload_table, 64 * j + 48, &input.vendor_codes)),
        ),
        (52, (0..drivers).any(|i| number(driver_table, 16 * i as u128 + 8, 8) == 0)),
        (53, (0..payloads).any(|j| version(j) != 1 && version(j) != 2)),
        (54, (0..payloads).any(|j| version(j) == 1 && number(payload_table, 64 * j as u128 + 24, 8) != 0)),
        (55, input.flags & 0x0005_0000 == 0x0004_0000),
        (57, (input.output.len() as u128) < 36 + 8 * (drivers + payloads) as u128 + lengths),
    ];
    faults.into_iter().filter(|&(_, there)| there).map(|(number, _)| number).collect()
}

/// The inputs of group 14 meet each refusal alone and beside each other one, and the answer is the lowest.
#[test]
fn every_pair_of_refusals_is_met() {
    let (mut alone, mut pairs) = (BTreeSet::new(), BTreeSet::new());
    for k in 0..8_000 {
        let input = pack_input(1, k);
        let faults = all_faults(&input);
        let mut output = input.output.clone();
        assert_eq!(pack(&input.lent(), &mut output).err(), faults.first().copied(), "input {k}");
        if faults.len() == 1 {
            alone.insert(faults[0]);
        }
        for (place, one) in faults.iter().enumerate() {
            pairs.extend(faults[place + 1..].iter().map(|two| (*one, *two)));
        }
    }
    assert_eq!(alone.into_iter().collect::<Vec<_>>(), [50, 51, 52, 53, 54, 55, 57]);
    assert_eq!(pairs.len(), 21);
}

/// What the inputs of group 14 reach: counts, ends of parts, versions, instances, outputs, rests of the tables.
#[test]
fn limits_of_packing_are_met() {
    let (mut counts, mut outputs, mut large) = (BTreeSet::new(), BTreeSet::new(), 0);
    let (mut ends, mut versions, mut rests) = (BTreeSet::new(), BTreeSet::new(), BTreeSet::new());
    for k in 0..8_000 {
        let input = pack_input(1, k);
        let (drivers, payloads) = (input.driver_table.len() / 16, input.payload_table.len() / 64);
        counts.insert(drivers + payloads);
        rests.extend([(0, input.driver_table.len() % 16), (1, input.payload_table.len() % 64)]);
        if let Ok(size) = packed_size(&input.lent()) {
            outputs.insert((input.output.len() as i64 - size as i64).clamp(-2, 17));
            large += (size > 65_535) as u32;
        }
        assert!(input.output.len() <= 8_192);
        if drivers + payloads > 64 {
            continue;
        }
        let mut end = |kind: u32, table: &[u8], at: usize, slice: &[u8]| {
            let (start, length) = (number(table, at as u128, 8), number(table, at as u128 + 8, 8));
            let over = (start + length) as i128 - slice.len() as i128;
            let wraps = (start + length) >> 64 != 0 && (start + length) % (1 << 64) <= slice.len() as u128;
            ends.insert((kind, over.clamp(-1, 2), length == 0, wraps));
        };
        for i in 0..drivers {
            end(0, &input.driver_table, 16 * i, &input.drivers);
        }
        for j in 0..payloads {
            end(1, &input.payload_table, 64 * j + 32, &input.images);
            end(2, &input.payload_table, 64 * j + 48, &input.vendor_codes);
            let version = number(&input.payload_table, 64 * j as u128, 4);
            let instance = number(&input.payload_table, 64 * j as u128 + 24, 8);
            versions.insert((version, if instance % (1 << 32) > 1 { 9 } else { instance }));
        }
    }
    assert!([0, 1, 2, 63, 64, 65].iter().all(|count| counts.contains(count)) && counts.iter().any(|&c| c > 255));
    assert!((0..16).all(|rest| rests.contains(&(0, rest))) && (0..64).all(|rest| rests.contains(&(1, rest))));
    assert_eq!(outputs.into_iter().collect::<Vec<_>>(), [-2, -1, 0, 1, 16]);
    assert!(large > 3);
    for kind in 0..3 {
        for empty in [false, true] {
            assert!((-1..=1).all(|over| ends.contains(&(kind, over, empty, false))), "{kind} {empty}");
        }
        assert!(ends.contains(&(kind, 2, false, true)), "{kind}");
    }
    for version in [1, 2] {
        assert!([0, 1, 1 << 32, 1 << 63].iter().all(|&instance| versions.contains(&(version, instance))));
    }
    for version in [0, 3, 257, 2_147_483_649] {
        assert!(versions.iter().any(|&(met, _)| met == version));
    }
}

//! Capsules packed and read: every refusal of packing at both ends of its limit, and round trips, in which what is
//! packed shows everything as given, and what is read and packed again is the same bytes.

use meanderpeg::{Capsule, CapsuleFlags, DriverEntry, Guid, ItemKind, Packing, PayloadEntry, Refusal, CAPSULE_ITEMS};
use second::inputs::Draw;
use second::make::{make_capsule, payload, CapsulePlan};

const BYTES: &[u8] = b"drivers, images and vendor codes in one slice";
const DRIVER: DriverEntry = DriverEntry { start: 0, length: 7 };
/// "images", "codes"; version 2.
const PAYLOAD: PayloadEntry = PayloadEntry {
    version: 2,
    type_guid: *b"of the image its",
    image_index: 3,
    unused: [0xA1, 0xB2, 0xC3],
    hardware_instance: 0x0102_0304_0506_0708,
    image_start: 9,
    image_length: 6,
    vendor_code_start: 27,
    vendor_code_length: 5,
};

/// One driver and one payload, all parts of one slice.
fn sample<'a>(driver_table: &'a [DriverEntry], payload_table: &'a [PayloadEntry]) -> Packing<'a> {
    let flags = CapsuleFlags::PERSIST;
    Packing { flags, drivers: BYTES, driver_table, images: BYTES, vendor_codes: BYTES, payload_table }
}

/// The part of a slice that an entry tells.
fn part(slice: &[u8], start: u64, length: u64) -> &[u8] {
    &slice[start as usize..(start + length) as usize]
}

/// Packs into more room than is wanted, and compares what is shown with what was given; answers the capsule.
fn round_trip(packing: &Packing) -> Vec<u8> {
    let size = packing.size().expect("a size");
    let mut room = vec![0xEE; size + 9];
    let packed = packing.pack(&mut room).expect("a capsule").to_vec();
    assert!(packed.len() == size && room[size..].iter().all(|&byte| byte == 0xEE), "bytes past the capsule stay");
    let capsule = Capsule::check(&packed).expect("the reader takes it");
    assert_eq!(packed[20..24], packing.flags.bits().to_le_bytes(), "the flags");
    let counts = (capsule.drivers(), capsule.payloads());
    assert_eq!(counts, (packing.driver_table.len(), packing.payload_table.len()), "the counts");
    for (number, entry) in packing.driver_table.iter().enumerate() {
        let item = capsule.item(number).expect("a driver");
        assert_eq!((item.kind(), item.bytes()), (ItemKind::Driver, part(packing.drivers, entry.start, entry.length)));
    }
    for (number, entry) in packing.payload_table.iter().enumerate() {
        let item = capsule.item(packing.driver_table.len() + number).expect("a payload");
        assert_eq!(item.kind(), ItemKind::Payload);
        assert_eq!(item.type_guid(), Guid::from_bytes(entry.type_guid));
        assert_eq!((item.image_index(), item.hardware_instance()), (entry.image_index, entry.hardware_instance));
        assert_eq!(item.image(), part(packing.images, entry.image_start, entry.image_length));
        assert_eq!(item.vendor_code(), part(packing.vendor_codes, entry.vendor_code_start, entry.vendor_code_length));
    }
    assert!(again(&capsule) == packed, "read and packed again it is the same bytes");
    packed
}

/// A capsule packed anew from what is shown of it, the capsule itself being all three slices (C36).
fn again(capsule: &Capsule) -> Vec<u8> {
    let bytes = capsule.bytes();
    let number = |bytes: &[u8]| u32::from_le_bytes(bytes[..4].try_into().expect("four bytes"));
    let start = |part: &[u8]| part.as_ptr() as u64 - bytes.as_ptr() as u64;
    let items: Vec<_> = capsule.items().map(|item| item.expect("an item")).collect();
    let (drivers, payloads) = items.split_at(capsule.drivers());
    let driver =
        |item: &meanderpeg::Item| DriverEntry { start: start(item.bytes()), length: item.bytes().len() as u64 };
    let payload = |item: &meanderpeg::Item| PayloadEntry {
        version: number(item.bytes()),
        type_guid: item.type_guid().to_bytes(),
        image_index: item.image_index(),
        unused: [0; 3],
        hardware_instance: item.hardware_instance(),
        image_start: start(item.image()),
        image_length: item.image().len() as u64,
        vendor_code_start: start(item.vendor_code()),
        vendor_code_length: item.vendor_code().len() as u64,
    };
    let driver_table: Vec<_> = drivers.iter().map(driver).collect();
    let payload_table: Vec<_> = payloads.iter().map(payload).collect();
    let flags = CapsuleFlags::from_bits(number(&bytes[20..]));
    let (driver_table, payload_table) = (&driver_table[..], &payload_table[..]);
    let packing = Packing { flags, drivers: bytes, driver_table, images: bytes, vendor_codes: bytes, payload_table };
    let mut room = vec![0; packing.size().expect("a size")];
    packing.pack(&mut room).expect("a capsule").to_vec()
}

/// What both functions answer: the size, or the refusal. Packing is given as much room as it could want, and with a
/// refusal leaves all of it as it was.
fn answer(packing: &Packing) -> Result<usize, Refusal> {
    let size = packing.size();
    let mut room = vec![0xEE; size.unwrap_or(10_000)];
    let packed = packing.pack(&mut room).map(<[u8]>::len);
    assert_eq!(packed, size);
    assert!(packed.is_ok() || room.iter().all(|&byte| byte == 0xEE));
    packed
}

/// The bytes one by one, and the lengths with nothing in them.
#[test]
fn tight_form() {
    let packed = round_trip(&sample(&[DRIVER], &[PAYLOAD]));
    let mut wanted = second::capsule::FMP_GUID.to_vec();
    for number in [28u32, 0x0001_0000, 110, 1, 0x0001_0001, 24, 0, 31, 0] {
        wanted.extend(number.to_le_bytes());
    }
    wanted.extend(b"drivers\x02\0\0\0of the image its\x03\0\0\0\x06\0\0\0\x05\0\0\0\x08\x07\x06\x05\x04\x03\x02\x01");
    wanted.extend(b"imagescodes");
    assert_eq!(packed, wanted);
    assert_eq!(round_trip(&Packing::default()).len(), 36);
    assert_eq!(round_trip(&sample(&[DRIVER; 2], &[])).len(), 36 + 16 + 14);
    let first = PayloadEntry { version: 1, hardware_instance: 0, ..PAYLOAD };
    assert_eq!(round_trip(&sample(&[], &[first, PAYLOAD])).len(), 36 + 16 + 32 + 11 + 40 + 11);
    let empty = PayloadEntry { version: 2, ..PayloadEntry::default() };
    assert_eq!(round_trip(&Packing { payload_table: &[empty; 3], ..Packing::default() }).len(), 36 + 3 * 48);
}

#[test]
fn items() {
    assert_eq!(CAPSULE_ITEMS, 64);
    for drivers in [0, 1, 63, 64] {
        let tables = ([DRIVER; 65], [PAYLOAD; 65]);
        let most = sample(&tables.0[..drivers], &tables.1[..64 - drivers]);
        round_trip(&most);
        assert_eq!(answer(&sample(&tables.0[..drivers + 1], &tables.1[..64 - drivers])), Err(Refusal::PackItems));
        assert_eq!(answer(&sample(&tables.0[..drivers], &tables.1[..65 - drivers])), Err(Refusal::PackItems));
    }
}

/// For a driver, an image and a vendor code: to the slice's end, one byte past it, empty at the end, empty behind it,
/// and a sum that no number of 64 bits holds.
#[test]
fn parts() {
    let end = BYTES.len() as u64;
    let cases = [
        (end - 5, 5, true),
        (end - 5, 6, false),
        (end - 4, 5, false),
        (0, end, true),
        (0, end + 1, false),
        (end, 0, true),
        (end + 1, 0, false),
        (u64::MAX, 0, false),
        (u64::MAX, 1, false),
        (1, u64::MAX, false),
        (u64::MAX, u64::MAX, false),
        (1 << 63, 1 << 63, false),
    ];
    for (start, length, inside) in cases {
        let driver = DriverEntry { start, length };
        let image = PayloadEntry { image_start: start, image_length: length, ..PAYLOAD };
        let code = PayloadEntry { vendor_code_start: start, vendor_code_length: length, ..PAYLOAD };
        let refused = |answer: Result<usize, Refusal>| answer.err();
        let wanted = (!inside).then_some(Refusal::PackPart);
        let empty = wanted.or((length == 0).then_some(Refusal::PackEmptyDriver));
        assert_eq!(refused(answer(&sample(&[DRIVER, driver], &[PAYLOAD]))), empty, "driver {start} {length}");
        assert_eq!(refused(answer(&sample(&[DRIVER], &[PAYLOAD, image]))), wanted, "image {start} {length}");
        assert_eq!(refused(answer(&sample(&[DRIVER], &[PAYLOAD, code]))), wanted, "vendor code {start} {length}");
        if inside {
            round_trip(&sample(&[DRIVER], &[image, code]));
        }
    }
    // Each kind goes by its own slice.
    let short = &BYTES[..6];
    assert_eq!(answer(&Packing { drivers: short, ..sample(&[DRIVER], &[]) }), Err(Refusal::PackPart));
    assert_eq!(answer(&Packing { images: short, ..sample(&[DRIVER], &[PAYLOAD]) }), Err(Refusal::PackPart));
    assert_eq!(answer(&Packing { vendor_codes: short, ..sample(&[DRIVER], &[PAYLOAD]) }), Err(Refusal::PackPart));
}

#[test]
fn drivers_versions_and_instances() {
    let driver = |length| DriverEntry { start: 3, length };
    assert_eq!(answer(&sample(&[DRIVER, driver(0)], &[])), Err(Refusal::PackEmptyDriver));
    round_trip(&sample(&[DRIVER, driver(1)], &[]));
    let answer = |version, hardware_instance| {
        let payload = PayloadEntry { version, hardware_instance, ..PAYLOAD };
        answer(&sample(&[DRIVER], &[PAYLOAD, payload])).err()
    };
    for version in [0, 3, 4, 0x101, 0x1_0001, 0x0200_0000, u32::MAX] {
        assert_eq!(answer(version, 0), Some(Refusal::PackVersion), "{version}");
        assert_eq!(answer(version, 1), Some(Refusal::PackVersion), "{version}");
    }
    for instance in [1, 255, 256, 1 << 32, 1 << 63, u64::MAX] {
        assert_eq!(answer(1, instance), Some(Refusal::PackInstance), "{instance}");
        assert_eq!(answer(2, instance), None, "{instance}");
    }
    assert_eq!((answer(1, 0), answer(2, 0)), (None, None));
}

/// Reset needs persist; every other bit is free. The reader's rule is the same, so what is packed is taken.
#[test]
fn flags() {
    for bits in (0..32).map(|bit| 1 << bit).chain([0, 0x0003_0000, 0x0005_0000, 0x0007_0000, 0xFFFF_FFFF]) {
        let packing = Packing { flags: CapsuleFlags::from_bits(bits), ..sample(&[DRIVER], &[PAYLOAD]) };
        if bits == 0x0004_0000 {
            assert_eq!(answer(&packing), Err(Refusal::PackFlags));
        } else {
            round_trip(&packing);
        }
    }
    for bits in [0x0006_0000, 0xFFFE_FFFF, 0x0004_0001] {
        let packing = Packing { flags: CapsuleFlags::from_bits(bits), ..sample(&[], &[]) };
        assert_eq!(answer(&packing), Err(Refusal::PackFlags), "{bits:#x}");
    }
}

/// 2^32 - 1 bytes and one more, by 64 drivers that share a slice of 64 MiB. Only the size is asked for, and too short a
/// room is tried: 56 comes before 57.
#[test]
fn size() {
    let slice = vec![0; 1 << 26];
    let rest = u32::MAX as u64 - 36 - 8 * 64 - 63 * (1 << 26);
    let asked = |last: u64, room: usize| {
        let mut table = [DriverEntry { start: 0, length: 1 << 26 }; 64];
        table[63].length = last;
        let packing = Packing { drivers: &slice, driver_table: &table, ..Packing::default() };
        let mut room = vec![0xEE; room];
        let refused = packing.pack(&mut room).err();
        assert!(room.iter().all(|&byte| byte == 0xEE));
        (packing.size(), refused)
    };
    assert_eq!(asked(rest, 100), (Ok(u32::MAX as usize), Some(Refusal::PackRoom)));
    assert_eq!(asked(rest + 1, 100), (Err(Refusal::PackSize), Some(Refusal::PackSize)));
    assert_eq!(asked(1 << 26, 0), (Err(Refusal::PackSize), Some(Refusal::PackSize)));
}

#[test]
fn room() {
    let packing = sample(&[DRIVER], &[PAYLOAD]);
    let size = packing.size().expect("a size");
    let mut room = vec![0xEE; size + 1];
    for short in [0, 1, 27, 36, size - 1] {
        assert_eq!(packing.pack(&mut room[..short]), Err(Refusal::PackRoom));
        assert!(room.iter().all(|&byte| byte == 0xEE), "{short}");
    }
    assert_eq!(packing.pack(&mut room).map(<[u8]>::len), Ok(size));
    assert_eq!(room[size], 0xEE);
    let exact = room[..size].to_vec();
    room.fill(0xDD);
    assert_eq!(packing.pack(&mut room[..size]), Ok(&exact[..]));
    assert_eq!(room[size], 0xDD);
}

/// Each refusal with all later faults as well, and these in other items: it goes by number, not by item.
#[test]
fn in_their_order() {
    let past = DriverEntry { start: 0, length: BYTES.len() as u64 + 1 };
    let (empty, huge) = (DriverEntry { start: 0, length: 0 }, DriverEntry { start: 0, length: BYTES.len() as u64 });
    let image_past = PayloadEntry { image_start: 99, ..PAYLOAD };
    let (version, instance) = (PayloadEntry { version: 0, ..PAYLOAD }, PayloadEntry { version: 1, ..PAYLOAD });
    let refused = |flags: CapsuleFlags, drivers: &[DriverEntry], payloads: &[PayloadEntry]| {
        let packing = Packing { flags, ..sample(drivers, payloads) };
        let mut room = [0xEE; 40];
        let number = packing.pack(&mut room).err().map(Refusal::number);
        assert_eq!(packing.size().err().map(Refusal::number), number.filter(|&number| number != 57));
        number
    };
    let (bad, good) = (CapsuleFlags::RESET, CapsuleFlags::PERSIST | CapsuleFlags::RESET);
    let many = [[empty; 61].as_slice(), &[past]].concat();
    assert_eq!(refused(bad, &many, &[instance, version, image_past]), Some(50));
    assert_eq!(refused(bad, &many[1..], &[instance, version, PAYLOAD]), Some(51));
    assert_eq!(refused(bad, &[empty, huge], &[instance, version, image_past]), Some(51));
    assert_eq!(refused(bad, &[huge, empty], &[instance, version]), Some(52));
    assert_eq!(refused(bad, &[huge], &[instance, version]), Some(53));
    assert_eq!(refused(bad, &[huge], &[PAYLOAD, instance]), Some(54));
    assert_eq!(refused(bad, &[huge], &[PAYLOAD]), Some(55));
    assert_eq!(refused(good, &[huge], &[PAYLOAD]), Some(57));
}

/// Tables and slices drawn at random: everything is shown as given, and packed again it is the same.
#[test]
fn drawn() {
    for k in 0..2_000 {
        let mut draw = Draw::start(41, 7, k);
        let slice: Vec<u8> = (0..draw.below(300)).map(|_| draw.below(256) as u8).collect();
        let length = slice.len() as u64;
        let place = |draw: &mut Draw| {
            let start = draw.below(length + 1);
            (start, draw.below(length - start + 1))
        };
        let mut drivers = vec![];
        for _ in 0..draw.below(5) {
            let (start, length) = place(&mut draw);
            drivers.extend((length > 0).then_some(DriverEntry { start, length }));
        }
        let mut payloads = vec![];
        for _ in 0..draw.below(5) {
            let version = 1 + draw.below(2) as u32;
            let ((image_start, image_length), (vendor_code_start, vendor_code_length)) =
                (place(&mut draw), place(&mut draw));
            payloads.push(PayloadEntry {
                version,
                type_guid: std::array::from_fn(|_| draw.below(256) as u8),
                image_index: draw.below(256) as u8,
                unused: std::array::from_fn(|_| draw.below(256) as u8),
                hardware_instance: if version == 1 { 0 } else { draw.below(u64::MAX) },
                image_start,
                image_length,
                vendor_code_start,
                vendor_code_length,
            });
        }
        let (driver_table, payload_table) = (&drivers[..], &payloads[..]);
        let flags = CapsuleFlags::from_bits(draw.below(1 << 32) as u32 | CapsuleFlags::PERSIST.bits());
        let (drivers, images, vendor_codes) = (&slice[..], &slice[..], &slice[..]);
        round_trip(&Packing { flags, drivers, driver_table, images, vendor_codes, payload_table });
    }
}

/// Capsules that the second implementation makes: those of tight form come out the same, others as the tight ones that
/// show the same.
#[test]
fn made_elsewhere() {
    let plan = |reserved: [u8; 3], spare: usize, header: usize, gap: usize| {
        let mut payloads = vec![payload(1, b"image of version 1", b""), payload(2, b"", b"a vendor code")];
        (payloads[0].reserved, payloads[1].reserved, payloads[0].spare) = (reserved, reserved, spare);
        let drivers = vec![b"first".to_vec(), b"second".to_vec()];
        make_capsule(&CapsulePlan { header, flags: 0x0003_1234, gap, drivers, payloads, tail: 0 })
    };
    let tight = plan([0; 3], 0, 28, 0);
    assert!(again(&Capsule::check(&tight).expect("taken")) == tight);
    for loose in [plan([0, 0, 1], 0, 28, 0), plan([0; 3], 1, 28, 0), plan([0; 3], 0, 29, 0), plan([0; 3], 0, 28, 1)] {
        assert!(loose != tight && again(&Capsule::check(&loose).expect("taken")) == tight);
    }
}

/// Parts that lie apart.
#[cfg(feature = "alloc")]
mod apart {
    use super::*;
    use meanderpeg::{pack_parts, Payload};

    #[test]
    fn the_same_as_together() {
        let payload = Payload {
            version: 2,
            type_guid: Guid::from_bytes(PAYLOAD.type_guid),
            image_index: 3,
            hardware_instance: PAYLOAD.hardware_instance,
            image: b"images",
            vendor_code: b"codes",
        };
        let together = round_trip(&sample(&[DRIVER; 2], &[PAYLOAD; 3]));
        assert_eq!(pack_parts(CapsuleFlags::PERSIST, &[&b"drivers"[..]; 2], &[payload; 3]), Ok(together));
        assert_eq!(pack_parts(CapsuleFlags::NONE, &[], &[]), Ok(round_trip(&Packing::default())));
        let other = Payload { version: 1, image: b"", vendor_code: b"another code", ..Payload::default() };
        let packed = pack_parts(CapsuleFlags::NONE, &[b"one", b"and another", b"3"], &[other, payload]);
        let packed = packed.expect("a capsule");
        let capsule = Capsule::check(&packed).expect("taken");
        let images: Vec<_> = capsule.items().map(|item| item.expect("an item").image()).collect();
        assert_eq!(images, [&b"one"[..], b"and another", b"3", b"", b"images"]);
        let codes: Vec<_> = capsule.items().map(|item| item.expect("an item").vendor_code()).collect();
        assert_eq!(codes, [&b""[..], b"", b"", b"another code", b"codes"]);
    }

    #[test]
    fn refused() {
        let payload = Payload { version: 2, ..Payload::default() };
        let refused = |flags, drivers: &[&[u8]], payloads: &[Payload]| pack_parts(flags, drivers, payloads).err();
        let none = CapsuleFlags::NONE;
        assert_eq!(refused(none, &[&b"x"[..]; 33], &[payload; 31]), None);
        assert_eq!(refused(none, &[&b"x"[..]; 33], &[payload; 32]), Some(Refusal::PackItems));
        assert_eq!(refused(none, &[b"x", b""], &[payload]), Some(Refusal::PackEmptyDriver));
        assert_eq!(refused(none, &[b"x"], &[Payload::default()]), Some(Refusal::PackVersion));
        let first = Payload { version: 1, hardware_instance: 1, ..payload };
        assert_eq!(refused(none, &[b"x"], &[payload, first]), Some(Refusal::PackInstance));
        assert_eq!(refused(CapsuleFlags::RESET, &[b"x"], &[payload]), Some(Refusal::PackFlags));
        // Nothing is copied where it is too long.
        let slice = vec![0; 1 << 26];
        assert_eq!(refused(none, &[&slice[..]; 64], &[]), Some(Refusal::PackSize));
    }
}

//! The capsule (rules C), and sample 12.

use second::bytes::put;
use second::capsule::*;
use second::make::*;

fn empty_plan() -> CapsulePlan {
    CapsulePlan { header: 28, flags: 0, gap: 0, drivers: vec![], payloads: vec![], tail: 0 }
}

fn mixed() -> CapsulePlan {
    let mut two = payload(2, b"image two", b"");
    two.spare = 3;
    CapsulePlan {
        header: 28,
        flags: 0x0005_0000,
        gap: 2,
        drivers: vec![b"driver".to_vec(), vec![1]],
        payloads: vec![payload(1, b"image", b"vendor"), two],
        tail: 0,
    }
}

/// The refusal, and with it that every part is the empty one at the start and all values zero.
fn refused(capsule: &[u8], item_number: u64, want: u32) {
    assert_eq!(refusal(capsule, item_number), want);
    assert!(want != 0);
    assert_eq!(item(capsule, item_number), (0, 0));
    assert_eq!(image(capsule, item_number), (0, 0));
    assert_eq!(vendor_code(capsule, item_number), (0, 0));
    assert_eq!(shown(capsule, item_number), ([0; 16], 0, 0));
    if want != 16 {
        assert_eq!(counts(capsule), (0, 0));
        assert_eq!(capsule_refusal(capsule), want);
    }
}

#[test]
fn sample_12() {
    refused(&[0; 27], 0, 10);
    refused(&[], 0, 10);
    let mut c = make_capsule(&empty_plan());
    c.truncate(28);
    fit_size(&mut c);
    put(&mut c, 16, 4, 27);
    refused(&c, 0, 11);
    let mut c = make_capsule(&empty_plan());
    assert_eq!(capsule_refusal(&c), 0);
    c.truncate(35);
    fit_size(&mut c);
    refused(&c, 0, 14);
}

#[test]
fn parts_of_a_mixed_capsule() {
    for header in [28usize, 29, 64] {
        let c = make_capsule(&CapsulePlan { header, ..mixed() });
        assert_eq!(capsule_refusal(&c), 0);
        assert_eq!(counts(&c), (2, 2));
        let h = header as u64;
        let start = h + 8 + 32 + 2;
        assert_eq!(item(&c, 0), (start, 6));
        assert_eq!(image(&c, 0), (start, 6));
        assert_eq!(vendor_code(&c, 0), (start + 6, 0));
        assert_eq!(shown(&c, 0), ([0; 16], 0, 0));
        assert_eq!(item(&c, 1), (start + 6, 1));
        assert_eq!(vendor_code(&c, 1), (start + 7, 0));
        assert_eq!(item(&c, 2), (start + 7, 43));
        assert_eq!(image(&c, 2), (start + 39, 5));
        assert_eq!(vendor_code(&c, 2), (start + 44, 6));
        assert_eq!(shown(&c, 2), (*b"payload type 123", 7, 0));
        assert_eq!(item(&c, 3), (start + 50, 52));
        assert_eq!(image(&c, 3), (start + 90, 9));
        assert_eq!(vendor_code(&c, 3), (start + 99, 0));
        assert_eq!(shown(&c, 3), (*b"payload type 123", 7, 0x1122_3344_5566_7788));
        let (from, length) = image(&c, 3);
        assert_eq!(&c[from as usize..(from + length) as usize], b"image two");
        refused(&c, 4, 16);
        refused(&c, u64::MAX, 16);
    }
}

#[test]
fn refusal_11_sizes() {
    let good = make_capsule(&mixed());
    let length = good.len() as u128;
    for (at, value) in [(16, 27u128), (16, 0), (16, length + 1), (16, 0xFFFF_FFFF), (24, length - 1), (24, length + 1), (24, 0)] {
        let mut c = good.clone();
        put(&mut c, at, 4, value);
        refused(&c, 0, 11);
    }
    // HeaderSize equal to CapsuleImageSize is not 11: the body is empty, so 14.
    let mut c = good.clone();
    put(&mut c, 16, 4, length);
    refused(&c, 0, 14);
    let mut c = good.clone();
    c.push(0);
    refused(&c, 0, 11);
}

#[test]
fn refusal_12_flags() {
    for (flags, want) in [
        (0u32, 0),
        (0x0001_0000, 0),
        (0x0005_0000, 0),
        (0x0004_0000, 12),
        (0x0006_0000, 12),
        (0x0002_0000, 0),
        (0xFFFE_FFFF, 12),
        (0xFFFA_FFFF, 0),
        (0xFFFF_FFFF, 0),
    ] {
        let c = make_capsule(&CapsulePlan { flags, ..mixed() });
        assert_eq!(capsule_refusal(&c), want);
    }
}

#[test]
fn refusal_13_every_guid_byte() {
    for at in 0..16 {
        let mut c = make_capsule(&mixed());
        c[at] ^= 0x80;
        refused(&c, 0, 13);
    }
    assert_eq!(
        FMP_GUID,
        [0xed, 0xd5, 0xcb, 0x6d, 0x2d, 0xe8, 0x44, 0x4c, 0xbd, 0xa1, 0x71, 0x94, 0x19, 0x9a, 0xd9, 0x2a]
    );
}

#[test]
fn refusal_14_body() {
    for length in 0..8 {
        let mut c = make_capsule(&empty_plan());
        c.truncate(28 + length);
        fit_size(&mut c);
        refused(&c, 0, 14);
    }
    let c = make_capsule(&CapsulePlan { tail: 5, ..empty_plan() });
    assert_eq!(capsule_refusal(&c), 0);
    assert_eq!(counts(&c), (0, 0));
    refused(&c, 0, 16);
    for version in [0u128, 2, 0x0100_0001, 0xFFFF_FFFF] {
        let mut c = make_capsule(&mixed());
        put(&mut c, 28, 4, version);
        refused(&c, 0, 14);
    }
    // Counts as whole numbers: 65,535 and 1 are 65,536 items, not 0.
    let mut c = make_capsule(&empty_plan());
    put(&mut c, 32, 2, 65_535);
    put(&mut c, 34, 2, 1);
    refused(&c, 0, 14);
}

#[test]
fn sixty_four_items_and_sixty_five() {
    for drivers in [0usize, 1, 32, 63, 64] {
        for (items, want) in [(64usize, 0), (65, 14)] {
            let c = make_capsule(&CapsulePlan {
                drivers: vec![vec![1, 2]; drivers],
                payloads: vec![payload(1, &[3], &[]); items - drivers],
                ..empty_plan()
            });
            assert_eq!(capsule_refusal(&c), want);
        }
    }
    let c = make_capsule(&CapsulePlan { drivers: vec![vec![1]; 64], ..empty_plan() });
    assert_eq!(item(&c, 63), (28 + 8 + 512 + 63, 1));
    refused(&c, 64, 16);
}

#[test]
fn refusal_14_offsets() {
    let good = make_capsule(&CapsulePlan { drivers: vec![vec![1; 9], vec![2; 9], vec![3; 9]], ..empty_plan() });
    let body = good.len() as u128 - 28;
    let list_end = 8 + 24;
    for (which, value, want) in [
        (0usize, list_end, 0),
        (0, list_end - 1, 14),
        (0, 0, 14),
        (0, list_end + 8, 0),
        (0, list_end + 9, 14),
        (0, list_end + 10, 14),
        (1, list_end + 1, 0),
        (1, list_end, 14),
        (2, body - 1, 0),
        (2, body, 14),
        (2, body + 1, 14),
        (2, list_end + 10, 0),
        (2, list_end + 9, 14),
        (2, u64::MAX as u128, 14),
        (1, 1 << 63, 14),
        (2, (1 << 32) + list_end + 18, 14),
    ] {
        let mut c = good.clone();
        put(&mut c, 36 + 8 * which, 8, value);
        assert_eq!(capsule_refusal(&c), want, "offset {which} = {value}");
    }
    // A list cut short by the body's end, at every length.
    for length in 8..=32 {
        let mut c = good.clone();
        c.truncate(28 + length);
        fit_size(&mut c);
        refused(&c, 0, 14);
    }
}

#[test]
fn refusal_15_payloads() {
    for version in [1u32, 2] {
        let header = if version == 1 { 32 } else { 40 };
        let good = make_capsule(&CapsulePlan { payloads: vec![payload(version, &[5; 6], &[6; 4])], ..empty_plan() });
        let at = 28 + 16;
        assert_eq!(good.len(), at + header + 10);
        for (field, value, want) in [
            (0usize, 0u128, 15),
            (0, 3, 15),
            (0, 0x0100_0000 + version as u128, 15),
            (24, 7, 15),
            (24, 6, 0),
            (24, 5, 0),
            (28, 5, 15),
            (28, 4, 0),
            (28, 3, 0),
            (24, 0xFFFF_FFFF, 15),
            (28, 0xFFFF_FFFF, 15),
            (24, 0xFFFF_FFFC, 15),
        ] {
            let mut c = good.clone();
            put(&mut c, at + field, 4, value);
            assert_eq!(capsule_refusal(&c), want, "version {version}, field {field} = {value}");
        }
        // Sums never wrap.
        let mut c = good.clone();
        put(&mut c, at + 24, 4, 0x8000_0000);
        put(&mut c, at + 28, 4, 0x8000_0000);
        refused(&c, 0, 15);
        // The item cut to each length; with both sizes 0 the header alone is enough.
        for length in 1..=header + 10 {
            let mut c = good.clone();
            c.truncate(at + length);
            fit_size(&mut c);
            assert_eq!(capsule_refusal(&c), if length == header + 10 { 0 } else { 15 });
            if length >= 32 {
                put(&mut c, at + 24, 8, 0);
                assert_eq!(capsule_refusal(&c), if length >= header { 0 } else { 15 });
            }
        }
    }
}

#[test]
fn fifteen_comes_before_sixteen() {
    let mut c = make_capsule(&mixed());
    let (start, _) = item(&c, 3);
    put(&mut c, start as usize, 4, 3);
    for asked in [0, 2, 3, 4, 99] {
        refused(&c, asked, 15);
    }
}

#[test]
fn capsules_are_refused_by_number() {
    let mut c = make_capsule(&mixed());
    let (start, _) = item(&c, 3);
    put(&mut c, start as usize, 4, 3);
    refused(&c, 9, 15);
    put(&mut c, 28, 4, 2);
    refused(&c, 9, 14);
    c[0] ^= 1;
    refused(&c, 9, 13);
    put(&mut c, 20, 4, 0x0004_0000);
    refused(&c, 9, 12);
    put(&mut c, 16, 4, 27);
    refused(&c, 9, 11);
    refused(&c[..27], 9, 10);
}

#[test]
fn empty_image_and_vendor_code_have_places() {
    let c = make_capsule(&CapsulePlan { payloads: vec![payload(2, &[], &[])], ..empty_plan() });
    assert_eq!(item(&c, 0), (44, 40));
    assert_eq!(image(&c, 0), (84, 0));
    assert_eq!(vendor_code(&c, 0), (84, 0));
}

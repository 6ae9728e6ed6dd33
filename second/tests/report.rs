//! The report (rules T).

use second::make::*;
use second::record::COPY;
use second::report::{report, report_in};

#[test]
fn the_example_byte_for_byte() {
    let r = make_record(2, 1, 0, 1);
    let want = "record\t0\t120\nactive\t0\nprevious\t1\nbank\t0\t252\nbank\t1\t252\nimage\t0\t0\t1\nimage\t0\t1\t1\n";
    assert_eq!(report(&make_area(&r, &r, 4)), want);
}

#[test]
fn copy_1_and_a_larger_record() {
    let mut p = plan(3, 2);
    p.active = 2;
    p.previous = 0;
    p.states = [254, 255, 252, 255];
    p.accepted = [1, 2, 3, 0];
    let r = record_bytes(&p);
    let mut area = make_area(&r, &r, 4);
    area[4] = 0;
    let want = "record\t1\t248\nactive\t2\nprevious\t0\nbank\t0\t254\nbank\t1\t255\nbank\t2\t252\n\
image\t0\t0\t1\nimage\t0\t1\t0\nimage\t0\t2\t1\nimage\t1\t0\t0\nimage\t1\t1\t1\nimage\t1\t2\t1\n";
    assert_eq!(report(&area), want);
    // Copies that differ are no reason to refuse.
    let other = make_record(2, 1, 0, 1);
    assert!(report(&make_area(&other, &r, 4)).starts_with("record\t0\t120\n"));
    area[COPY + 4] = 0;
    assert_eq!(report(&area), "refused\t21\n");
}

#[test]
fn refused_20() {
    let r = make_record(2, 1, 0, 1);
    let mut area = make_area(&r, &r, 4);
    assert_eq!(report(&[]), "refused\t20\n");
    assert_eq!(report(&area[..16_383]), "refused\t20\n");
    area.push(0);
    assert_eq!(report(&area), "refused\t20\n");
}

#[test]
fn in_a_lent_slice() {
    let r = make_record(4, 32, 0, 1);
    let area = make_area(&r, &r, 4);
    let text = report(&area);
    for length in [0, 1, 4_095] {
        let mut slice = vec![7; length];
        assert_eq!(report_in(&area, &mut slice), 0);
        assert_eq!(report_in(&area[1..], &mut slice), 0);
        assert_eq!(slice, vec![7; length]);
    }
    for length in [4_096, 4_097, 5_000] {
        let mut slice = vec![7; length];
        assert_eq!(report_in(&area, &mut slice), text.len());
        assert_eq!(&slice[..text.len()], text.as_bytes());
        assert!(slice[text.len()..].iter().all(|&byte| byte == 7));
        let mut slice = vec![7; length];
        assert_eq!(report_in(&area[1..], &mut slice), 11);
        assert_eq!(&slice[..12], b"refused\t20\n\x07");
    }
}

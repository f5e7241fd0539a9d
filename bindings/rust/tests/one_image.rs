//! A segment has one image, however it came about: bytes that are not in use have no part in it.
mod common;

use common::{example, is_tidy, opened, two_water, worst_case, Random, CLOCK, NKE_ALL};
use jezynar::{Segment, IMAGE};

/// REQ_UD2 to the primary address 1, and a probe that every id matches.
const REQ_1: [u8; 5] = [0x10, 0x5B, 0x01, 0x5C, 0x16];
const SELECT_ALL: [u8; 17] =
    [0x68, 0x0B, 0x0B, 0x68, 0x53, 0xFD, 0x52, 0xFF, 0xFF, 0xFF, 0xFF, 0xFF, 0xFF, 0xFF, 0xFF, 0x9A, 0x16];

/// Another image of the same segment: every byte is changed that, changed alone, does not change the segment. With how
/// many were changed.
fn other_image(segment: &Segment, random: &mut Random) -> ([u8; IMAGE], usize) {
    let mut other = *segment.as_image();
    let mut changed = 0;
    for k in 0..IMAGE {
        let mut image = *segment.as_image();
        image[k] ^= 1 + random.below(255) as u8;
        if Segment::from_image(&image) == *segment {
            other[k] = image[k];
            changed += 1;
        }
    }
    (other, changed)
}

/// A call by chance, with all that it answers.
fn call(segment: &mut Segment, random: &mut Random) -> String {
    let piece = [&NKE_ALL[..], &REQ_1, &SELECT_ALL, &[0x68, 0x03], &[0xE5], &[0; 1025]][random.below(6)];
    let count = random.below(50);
    let rate = [300, 2400, 9600, 2401][random.below(4)];
    let list = &[two_water(), example("faults.list"), worst_case(), vec![1, 0, 1]][random.below(4)];
    match random.below(16) {
        0 => format!("{:?}", segment.open(list, rate, count > 25, [0.0, f64::NAN][count % 2])),
        1 | 2 => format!("{:?}", segment.set_baud(rate)),
        3..=5 => format!("{:?}", segment.search(&CLOCK, [10, u32::MAX][count % 2])),
        6 | 7 => format!("{:?}", segment.clear()),
        8..=10 => {
            let mut lent = [0xAA; 50];
            format!("{} {lent:?}", segment.receive(&mut lent[..count]))
        }
        _ => format!("{:?}", segment.send(&piece.repeat(1 + count % 3), &CLOCK)),
    }
}

/// The segment, and one from another image of it, before and after calls. How many bytes of the image were other ones.
fn alike(segment: &Segment, random: &mut Random) -> usize {
    assert!(is_tidy(segment));
    let (other, changed) = other_image(segment, random);
    let (mut one, mut two) = (segment.clone(), Segment::from_image(&other));
    for k in 0..40 {
        assert!(one == two && one.as_image() == two.as_image(), "after {k} calls");
        assert!(is_tidy(&two), "after {k} calls");
        // The same chance for both.
        let seed = random.next() | 1;
        assert_eq!(call(&mut one, &mut Random(seed)), call(&mut two, &mut Random(seed)));
    }
    changed
}

#[test]
fn segments_made_by_calls() {
    let mut random = Random(3);
    // No byte but those of the counts, the baud and the origin is in use.
    assert_eq!(alike(&Segment::new(), &mut random), IMAGE - 18);

    let mut nan = Segment::new();
    nan.open(&two_water(), 2400, false, f64::NAN).unwrap();
    assert!(alike(&nan, &mut random) > 5_000);

    let mut busy = opened(&example("praxis.list"));
    busy.send(&NKE_ALL.repeat(9), &CLOCK).unwrap();
    busy.send(&NKE_ALL[..4], &CLOCK).unwrap();
    let (free, before) = (alike(&busy, &mut random), busy.clone());
    busy.receive(&mut [0; 32]);
    busy.set_baud(2400).unwrap();
    assert!(busy != before);
    assert!(alike(&busy, &mut random) > free);

    // A full queue and the longest waiting input.
    let mut full = opened(&worst_case());
    full.send(&NKE_ALL.repeat(64), &CLOCK).unwrap();
    full.send(&[&[0x68, 0xFF, 0xFF, 0x68][..], &[0x77; 256]].concat(), &CLOCK).unwrap();
    assert!(alike(&full, &mut random) < 1_000);
}

#[test]
fn segments_of_any_bytes() {
    let mut random = Random(4);
    let mut image = [0; IMAGE];
    for round in 0..40 {
        random.fill(&mut image);
        let mut segment = Segment::from_image(&image);
        // Such an image has nearly always a full queue and full input: half of them lose both.
        if round % 2 == 0 {
            segment.clear();
            segment.set_baud(2400).unwrap();
        }
        alike(&segment, &mut random);
    }
}

#[test]
fn what_was_there_before_leaves_nothing() {
    let mut random = Random(5);
    let mut image = [0; IMAGE];
    for origin in [0.0, -1.5, f64::NAN] {
        let mut fresh = Segment::new();
        fresh.open(&two_water(), 2400, false, origin).unwrap();
        for _ in 0..50 {
            random.fill(&mut image);
            let mut used = Segment::from_image(&image);
            for _ in 0..random.below(5) {
                call(&mut used, &mut random);
            }
            used.open(&two_water(), 2400, false, origin).unwrap();
            assert!(used == fresh && used.as_image() == fresh.as_image());
        }
    }
}

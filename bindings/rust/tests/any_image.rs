//! Segments made of any bytes: every call answers on them, keeps its limits, and leaves the one image of the segment.
//! (The entry points on such bytes as they are: `src/ffi/tests.rs`.)
mod common;

use common::{example, exported, is_tidy, opened, two_water, Random, CLOCK, NKE_ALL};
use jezynar::{Segment, IMAGE, METERS};

/// A probe that every id matches, and REQ_UD2 to the selected meters and to all.
const TELEGRAMS: [u8; 27] = [
    0x68, 0x0B, 0x0B, 0x68, 0x53, 0xFD, 0x52, 0xFF, 0xFF, 0xFF, 0xFF, 0xFF, 0xFF, 0xFF, 0xFF, 0x9A, 0x16, 0x10, 0x5B,
    0xFD, 0x58, 0x16, 0x10, 0x7B, 0xFE, 0x79, 0x16,
];

/// Makes a call that, where it is refused, must leave the image.
fn call<T, E>(segment: &mut Segment, call: impl FnOnce(&mut Segment) -> Result<T, E>) -> Option<T> {
    let before = *segment.as_image();
    let answer = call(segment).ok();
    assert!(answer.is_some() || *segment.as_image() == before, "a refused call changed the image");
    assert!(is_tidy(segment), "a call left bytes that are not in use");
    answer
}

/// After an accepted send at least one byte is due, and at most the rest of the longest telegram behind its header.
fn send(segment: &mut Segment, piece: &[u8]) {
    let due = call(segment, |s| s.send(piece, &CLOCK));
    assert!(due.is_none_or(|due| (1..=257).contains(&due)), "{due:?}");
}

fn receive(segment: &mut Segment) -> usize {
    let mut lent = [0xAA; 40];
    let count = segment.receive(&mut lent);
    assert!(count <= 32 && lent[count..].iter().all(|b| *b == 0xAA));
    assert!(is_tidy(segment));
    count
}

/// How many entries a search gives.
fn search(segment: &mut Segment, allowance: u32) -> usize {
    let Some(found) = call(segment, |s| s.search(&CLOCK, allowance)) else {
        return 0;
    };
    assert!(found.entries.len() <= METERS && found.probes <= allowance);
    assert!(!found.spent || found.probes == allowance);
    for entry in &found.entries {
        assert!(entry.count >= 1 && entry.digits.iter().all(|d| *d <= 15));
        assert_eq!(entry.to_string().len(), 8);
    }
    assert_eq!(receive(segment), 0);
    found.entries.len()
}

/// Every call, from the image and one after another. How many entries the searches of its own meters gave.
fn every_call(image: &[u8; IMAGE]) -> usize {
    let from = || Segment::from_image(image);
    assert!(is_tidy(&from()));
    // A call that changes nothing leaves the image.
    let mut kept = from();
    assert_eq!(kept.receive(&mut []), 0);
    assert!(kept.as_image() == from().as_image());
    // Nor does an export change it, accepted or not.
    let _ = exported(&kept);
    let mut entries = search(&mut from(), u32::MAX);
    send(&mut from(), &TELEGRAMS);
    send(&mut from(), &[0xFF; 1024]);
    assert!(call(&mut from(), |s| s.open(&two_water(), 9600, true, f64::NAN)).is_some());
    assert!(call(&mut from(), |s| s.open(&[1, 0, 1], 2400, false, 0.0)).is_none());
    assert!(call(&mut from(), |s| s.set_baud(2400)).is_some());
    assert!(call(&mut from(), |s| s.set_baud(2401)).is_none());

    let mut segment = from();
    receive(&mut segment);
    segment.clear();
    assert!(is_tidy(&segment));
    assert_eq!(receive(&mut segment), 0);
    // A byte that starts no telegram discards what waits, if it does not complete it.
    send(&mut segment, &[0; 261]);
    segment.clear();
    entries += search(&mut segment, 50);
    entries += search(&mut segment, u32::MAX);
    send(&mut segment, &NKE_ALL.repeat(3));
    send(&mut segment, &TELEGRAMS);
    while receive(&mut segment) > 0 {}
    call(&mut segment, |s| s.set_baud(2400));
    entries += search(&mut segment, u32::MAX);
    assert!(call(&mut segment, |s| s.open(&two_water(), 2400, false, 0.0)).is_some());
    assert_eq!(exported(&segment), Ok(two_water()));
    assert_eq!(segment.search(&CLOCK, 100).unwrap().entries.len(), 2);
    entries
}

#[test]
fn all_bytes_alike() {
    let entries: usize = (0..=255).map(|byte| every_call(&[byte; IMAGE])).sum();
    assert!(entries > 100, "{entries} entries");
}

#[test]
fn pseudo_random_bytes() {
    let mut random = Random(1);
    let mut image = [0; IMAGE];
    for _ in 0..300 {
        random.fill(&mut image);
        every_call(&image);
    }
}

#[test]
fn images_in_use_with_changed_bytes() {
    let mut random = Random(2);
    let mut entries = 0;
    for name in ["praxis.list", "bauds.list", "faults.list", "worst_case.list", "all_alike.list"] {
        let segment = opened(&example(name));
        for round in 0..60 {
            let mut image = *segment.as_image();
            for _ in 0..1 + round * 20 {
                image[random.below(IMAGE)] = random.next() as u8;
            }
            entries += every_call(&image);
        }
    }
    assert!(entries > 1000, "{entries} entries");
}

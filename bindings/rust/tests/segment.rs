//! The segment's calls in use: receiving in pieces, time, threads, copies.
mod common;

use common::{example, opened, take, two_water, water, worst_case, CLOCK, NKE_ALL};
use jezynar::frame::{parse, Frame, Parsed};
use jezynar::list::{self, Fault, Medium, MeterSpec};
use jezynar::{Clock, Entry, EntryKind, Segment, IMAGE};

/// REQ_UD2 to the primary address 1.
const REQ_1: [u8; 5] = [0x10, 0x5B, 0x01, 0x5C, 0x16];

fn heat() -> Segment {
    opened(&list::write(&[MeterSpec::new(1, "12345678", "KAM", Medium::Heat)]).unwrap())
}

/// The reading of a meter that was opened with an origin, at a time.
fn reading(origin: f64, secs: f64) -> Vec<u8> {
    let list = list::write(&[MeterSpec::new(1, "12345678", "KAM", Medium::Heat)]).unwrap();
    let mut segment = Segment::open_list(&list, 2400, false, origin).unwrap();
    segment.send(&REQ_1, &Clock { secs, ..CLOCK }).unwrap();
    take(&mut segment)
}

#[test]
fn a_new_segment_with_a_list_is_one_that_opened_it() {
    for (baud, practice, origin) in [(2400, false, 0.0), (9600, true, -1.5), (300, false, f64::NAN)] {
        let mut segment = Segment::new();
        segment.open(&two_water(), baud, practice, origin).unwrap();
        assert!(Segment::open_list(&two_water(), baud, practice, origin).unwrap() == segment);
        assert!(segment != Segment::new());
    }
    for name in ["refused_1_empty", "refused_5_id", "refused_9_fault"] {
        let list = example(&format!("{name}.list"));
        let refusal = Segment::new().open(&list, 2400, false, 0.0).unwrap_err();
        assert_eq!(Segment::open_list(&list, 2400, false, 0.0), Err(refusal));
    }
    assert_eq!(Segment::open_list(&two_water(), 2401, false, 0.0), Err(jezynar::OpenRefusal::Baud));
}

#[test]
fn replies_come_in_pieces_of_32() {
    let mut segment = heat();
    segment.send(&REQ_1, &CLOCK).unwrap();
    let whole = take(&mut segment.clone());
    assert!(whole.len() > 64);
    let mut got = Vec::new();
    let mut left = whole.len();
    while left > 0 {
        let mut lent = [0xAA; 100];
        let count = segment.receive(&mut lent);
        assert_eq!(count, left.min(32));
        assert!(lent[count..].iter().all(|b| *b == 0xAA));
        got.extend_from_slice(&lent[..count]);
        left -= count;
    }
    assert_eq!(segment.receive(&mut [0; 100]), 0);
    assert_eq!(got, whole);
    let Parsed::Complete { frame: Frame::Long { control, address, ci, data }, used } = parse(&got) else {
        panic!("no long telegram: {got:02X?}");
    };
    assert_eq!((control, address, ci, used), (0x08, 1, 0x72, got.len()));
    assert_eq!(data[..4], [0x78, 0x56, 0x34, 0x12]);
}

#[test]
fn fewer_bytes_lent_than_32() {
    let mut segment = heat();
    segment.send(&REQ_1, &CLOCK).unwrap();
    let whole = take(&mut segment.clone());
    assert_eq!(segment.receive(&mut []), 0);
    let mut five = [0; 5];
    assert_eq!(segment.receive(&mut five), 5);
    assert_eq!(five, whole[..5]);
    assert_eq!(take(&mut segment), whole[5..]);
}

#[test]
fn pieces_of_a_telegram_join() {
    let mut segment = opened(&two_water());
    for byte in NKE_ALL {
        assert_eq!(segment.receive(&mut [0; 32]), 0);
        segment.send(&[], &CLOCK).unwrap();
        segment.send(&[byte], &CLOCK).unwrap();
    }
    assert_eq!(take(&mut segment), [0xE5, 0xE5]);
}

#[test]
fn clear_empties_the_queue_and_a_baud_change_the_input() {
    let mut segment = opened(&two_water());
    segment.send(&NKE_ALL, &CLOCK).unwrap();
    segment.send(&NKE_ALL[..3], &CLOCK).unwrap();
    segment.clear();
    assert_eq!(take(&mut segment), []);
    segment.send(&NKE_ALL[3..], &CLOCK).unwrap();
    assert_eq!(take(&mut segment), [0xE5, 0xE5]);
    segment.send(&NKE_ALL[..3], &CLOCK).unwrap();
    segment.set_baud(2400).unwrap();
    segment.send(&NKE_ALL[3..], &CLOCK).unwrap();
    segment.send(&NKE_ALL, &CLOCK).unwrap();
    assert_eq!(take(&mut segment), [0xE5, 0xE5]);
    // At another rate nobody listens.
    segment.set_baud(300).unwrap();
    segment.send(&NKE_ALL, &CLOCK).unwrap();
    assert_eq!(take(&mut segment), []);
    assert_eq!(segment.search(&CLOCK, 100).unwrap().entries, []);
}

#[test]
fn an_origin_that_is_not_a_number_counts_no_time() {
    let fresh = reading(0.0, 0.0);
    assert!(fresh.len() > 32);
    assert_eq!(reading(f64::NAN, 1.0e6), fresh);
    assert_eq!(reading(0.0, f64::NAN), fresh);
    assert_eq!(reading(f64::INFINITY, f64::INFINITY), fresh);
    assert_eq!(reading(1.0e6, 0.0), fresh);
    // Otherwise it is the time from the origin that counts.
    assert_ne!(reading(0.0, 1.0e6), fresh);
    assert_eq!(reading(1.0e6, 2.0e6), reading(0.0, 1.0e6));
    assert_ne!(reading(0.0, 2.0e6), reading(0.0, 1.0e6));
    // Such a segment is searched and kept as any other.
    let mut segment = Segment::new();
    segment.open(&two_water(), 2400, false, f64::NAN).unwrap();
    let mut kept = Segment::from_image(segment.as_image());
    let found = segment.search(&CLOCK, 100).unwrap();
    assert_eq!(found.entries.len(), 2);
    assert_eq!(kept.search(&CLOCK, 100).unwrap(), found);
}

#[test]
fn the_practice_flag_and_a_baud_of_its_own() {
    let own = MeterSpec { baud: Some(9600), ..water(1, "12345678") };
    let other = MeterSpec { baud: Some(300), ..water(2, "12345699") };
    let list = list::write(&[own, other]).unwrap();
    // The bus baud at the opening, the flag, and which meter listens at which rate.
    for (bus, practice, at_own, at_2400) in [(9600, false, 1, 0), (9600, true, 0, 1), (2400, true, 1, 0)] {
        let mut segment = Segment::new();
        segment.open(&list, bus, practice, 0.0).unwrap();
        for (baud, entries) in [(9600, at_own), (2400, at_2400), (300, 1), (600, 0)] {
            segment.set_baud(baud).unwrap();
            assert_eq!(segment.search(&CLOCK, 100).unwrap().entries.len(), entries, "{bus} {practice} {baud}");
        }
    }
}

#[test]
fn an_allowance_that_is_spent() {
    let list = two_water();
    let whole = opened(&list).search(&CLOCK, u32::MAX).unwrap();
    assert_eq!((whole.probes, whole.spent), (71, false));
    for allowance in 0..75 {
        let found = opened(&list).search(&CLOCK, allowance).unwrap();
        assert_eq!((found.probes, found.spent), (allowance.min(71), allowance < 71));
        assert_eq!(found.entries, whole.entries[..found.entries.len()]);
    }
}

fn worst() -> jezynar::Found {
    let found = opened(&worst_case()).search(&CLOCK, 10_000).unwrap();
    assert_eq!((found.entries.len(), found.probes, found.spent), (64, 2031, false));
    found
}

#[test]
fn the_longest_search_on_a_thread_of_default_stack() {
    let mut segment = opened(&worst_case());
    let found = std::thread::spawn(move || segment.search(&CLOCK, 10_000)).join().unwrap().unwrap();
    assert_eq!(found, worst());
}

#[test]
fn every_call_on_a_thread_of_64_kib() {
    let calls = || {
        let mut segment = opened(&worst_case());
        segment.send(&NKE_ALL.repeat(64), &CLOCK).unwrap();
        assert_eq!(segment.receive(&mut [0; 32]), 32);
        segment.clear();
        segment.set_baud(2400).unwrap();
        let mut segment = Segment::from_image(segment.as_image());
        assert_eq!(segment.export(), Ok(worst_case()));
        (segment.search(&CLOCK, 10_000).unwrap(), segment.search_into(&CLOCK, 1, &mut [Entry::default(); 64]).is_ok())
    };
    let thread = std::thread::Builder::new().stack_size(64 * 1024).spawn(calls).unwrap();
    assert_eq!(thread.join().unwrap(), (worst(), true));
}

#[test]
fn segments_on_several_threads_do_not_meet() {
    fn crosses<T: Send + Sync + 'static>() {}
    crosses::<Segment>();
    let want = worst();
    let threads: Vec<_> = (0..4).map(|_| std::thread::spawn(worst)).collect();
    for thread in threads {
        assert_eq!(thread.join().unwrap(), want);
    }
}

#[test]
fn new_default_clone_image_and_debug() {
    let mut empty = Segment::default();
    assert!(empty.as_image() == Segment::new().as_image());
    assert_eq!(empty.as_image().len(), IMAGE);
    let found = empty.search(&CLOCK, 5).unwrap();
    assert_eq!((found.entries, found.probes, found.spent), (vec![], 1, false));
    assert_eq!(format!("{empty:?}"), "Segment { .. }");

    let mut segment = opened(&two_water());
    let mut copy = segment.clone();
    let mut kept = Segment::from_image(segment.as_image());
    copy.send(&NKE_ALL, &CLOCK).unwrap();
    assert_eq!(take(&mut segment), []);
    assert_eq!(take(&mut copy), [0xE5, 0xE5]);
    kept.send(&NKE_ALL, &CLOCK).unwrap();
    assert_eq!(take(&mut kept), [0xE5, 0xE5]);
}

#[test]
fn equal_segments_have_equal_images() {
    let list = two_water();
    for origin in [0.0, -0.0, 1.5, f64::INFINITY, f64::NAN] {
        let mut fresh = Segment::new();
        fresh.open(&list, 2400, false, origin).unwrap();
        // The same after another list, with a queue, a part of a telegram and other meters before it.
        let mut used = opened(&example("mfh30.list"));
        used.send(&NKE_ALL, &CLOCK).unwrap();
        used.send(&[0x68, 0x03], &CLOCK).unwrap();
        assert!(fresh != used);
        used.open(&list, 2400, false, origin).unwrap();
        assert!(fresh == used);
        assert!(fresh.as_image() == used.as_image());
        // Input that waited, and a queue that was taken, leave nothing.
        used.send(&NKE_ALL, &CLOCK).unwrap();
        assert!(fresh != used);
        assert_eq!(take(&mut used).len(), 2);
        used.send(&[0x10, 0x40], &CLOCK).unwrap();
        assert!(fresh != used);
        used.set_baud(2400).unwrap();
        assert!(fresh.as_image() == used.as_image());
    }
    let mut zero = opened(&list);
    zero.open(&list, 2400, false, -0.0).unwrap();
    assert!(zero != opened(&list), "-0 is not 0");
}

#[test]
fn entries_as_text() {
    let list = list::write(&[
        MeterSpec { fault: Fault::Busy, ..water(1, "10000000") },
        water(2, "20000001"),
        water(3, "77777777"),
        water(4, "77777777"),
    ])
    .unwrap();
    let entries = opened(&list).search(&CLOCK, 1000).unwrap().entries;
    let lines: Vec<String> = entries.iter().map(|e| format!("{:<4} {e:>10} {}", e.kind, e.count)).collect();
    assert_eq!(lines, ["mute   1FFFFFFF 1", "one    20000001 1", "many   77777777 2"]);
    assert_eq!(entries[0].digits, [1, 15, 15, 15, 15, 15, 15, 15]);
    let odd = Entry { kind: EntryKind::One, digits: [0, 9, 10, 14, 15, 16, 255, 1], count: 1 };
    assert_eq!(odd.to_string(), "09AEF??1");
}

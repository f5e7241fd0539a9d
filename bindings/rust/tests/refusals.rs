//! Each refusal that a call can give, at its limit where it has one; a refused call leaves the image and what was lent.
//! (Those of an export: tests/export.rs.)
mod common;

use common::{example, opened, two_water, water, CLOCK, NKE_ALL, RATES};
use jezynar::frame::{encode, Frame};
use jezynar::list::{self, Fault, ListError, Medium, MeterSpec};
use jezynar::{BaudRefusal, Clock, EncodeRefusal, Entry, OpenRefusal, SearchRefusal, Segment, SendRefusal, METERS};
use std::error::Error;

/// A segment in use: meters, waiting input and queued replies.
fn busy() -> Segment {
    let mut segment = opened(&two_water());
    segment.send(&NKE_ALL, &CLOCK).unwrap();
    segment.send(&[0x10, 0x5B], &CLOCK).unwrap();
    segment
}

/// Makes a call that must leave the image.
fn refused<T: std::fmt::Debug, E>(segment: &mut Segment, call: impl FnOnce(&mut Segment) -> Result<T, E>) -> E {
    let before = *segment.as_image();
    let refusal = call(segment).expect_err("a refusal");
    assert!(*segment.as_image() == before, "a refused call changed the image");
    refusal
}

/// A text that begins with the number, and no source below it.
fn told(refusal: &dyn Error, number: u32) {
    let text = refusal.to_string();
    assert!(text.starts_with(&format!("refused, number {number}: ")), "{text}");
    assert!(refusal.source().is_none());
}

fn open_refused(list: &[u8], baud: u32) -> OpenRefusal {
    for mut segment in [Segment::new(), busy()] {
        let first = refused(&mut segment, |s| s.open(list, baud, true, 5.0));
        assert_eq!(refused(&mut segment, |s| s.open(list, baud, false, f64::NAN)), first);
    }
    refused(&mut Segment::new(), |s| s.open(list, baud, false, 0.0))
}

/// The second of two meters fails.
fn second_refused(meter: MeterSpec) -> OpenRefusal {
    open_refused(&list::write(&[water(1, "12345678"), meter]).unwrap(), 2400)
}

/// A list of two meters whose second record has a key that no type of this crate allows: as long as the one before.
fn second_key(key: &str, wrong: &str) -> Vec<u8> {
    let mut list = two_water();
    let at = list.windows(key.len()).rposition(|part| part == key.as_bytes()).expect(key);
    list[at..at + wrong.len()].copy_from_slice(wrong.as_bytes());
    list
}

#[test]
fn openings() {
    let good = water(2, "12345699");
    let many: Vec<MeterSpec> = (0..65).map(|k| water(k, "12345678")).collect();
    let mut version = two_water();
    version[0] = 2;
    let mut longer = two_water();
    longer.push(0);
    let cases = [
        (1, None, OpenRefusal::NotAList, open_refused(&[], 2400)),
        (1, None, OpenRefusal::NotAList, open_refused(&[1, 0], 2400)),
        (1, None, OpenRefusal::NotAList, open_refused(&version, 2400)),
        (2, None, OpenRefusal::Length, open_refused(&longer, 2400)),
        (3, None, OpenRefusal::TooManyMeters, open_refused(&list::write(&many).unwrap(), 2400)),
        (4, Some(1), OpenRefusal::Primary(1), second_refused(MeterSpec { primary: 251, ..good })),
        (5, Some(1), OpenRefusal::Id(1), second_refused(MeterSpec { id: "1234569A", ..good })),
        (5, Some(1), OpenRefusal::Id(1), second_refused(MeterSpec { id: "1234567", ..good })),
        (6, Some(1), OpenRefusal::Manufacturer(1), second_refused(MeterSpec { manufacturer: "Sen", ..good })),
        (6, Some(1), OpenRefusal::Manufacturer(1), second_refused(MeterSpec { manufacturer: "", ..good })),
        (7, Some(1), OpenRefusal::Medium(1), open_refused(&second_key("water", "steam"), 2400)),
        (8, Some(1), OpenRefusal::OwnBaud(1), second_refused(MeterSpec { baud: Some(2401), ..good })),
        (9, Some(1), OpenRefusal::Fault(1), open_refused(&second_key("none", "loud"), 2400)),
        (10, None, OpenRefusal::Baud, open_refused(&two_water(), 2401)),
    ];
    for (number, index, want, got) in cases {
        assert_eq!(got, want);
        assert_eq!((got.number(), got.index()), (number, index));
        told(&got, number);
        assert_eq!(got.to_string().contains("record 1: "), index.is_some());
    }
}

#[test]
fn the_last_of_64_records_is_named() {
    let mut meters = [water(1, "12345678"); METERS];
    meters[63].primary = 255;
    assert_eq!(open_refused(&list::write(&meters).unwrap(), 2400), OpenRefusal::Primary(63));
}

/// A record of any texts, which no type of this crate writes.
#[derive(Clone, Copy)]
struct Record {
    primary: u8,
    baud: u32,
    /// Id, manufacturer, medium, fault.
    texts: [&'static str; 4],
}

/// The numbers that a record can fail with, in the order of the checks.
const NUMBERS: [u32; 6] = [4, 5, 6, 7, 8, 9];

const fn passing(primary: u8, id: &'static str) -> Record {
    Record { primary, baud: 0, texts: [id, "SEN", "water", "none"] }
}

const PASSING: Record = passing(1, "12345678");

impl Record {
    /// The record made to fail with this number too.
    fn failing(mut self, number: u32) -> Self {
        match number {
            4 => self.primary = 251,
            5 => self.texts[0] = "1234567A",
            6 => self.texts[1] = "Sen",
            7 => self.texts[2] = "steam",
            8 => self.baud = 1,
            9 => self.texts[3] = "no fault",
            _ => panic!("no record fails with {number}"),
        }
        self
    }
}

fn list_of(records: &[Record]) -> Vec<u8> {
    let mut body = Vec::new();
    for record in records {
        let mut rest = vec![record.primary, 1];
        rest.extend(record.baud.to_be_bytes());
        for text in record.texts {
            rest.push(text.len() as u8);
            rest.extend(text.as_bytes());
        }
        body.push(rest.len() as u8);
        body.extend(rest);
    }
    let mut list = vec![1];
    list.extend((body.len() as u16).to_be_bytes());
    list.extend(body);
    list
}

/// The refusal with a number that names a record.
fn naming(index: usize, number: u32) -> OpenRefusal {
    let refusal = match number {
        4 => OpenRefusal::Primary(index),
        5 => OpenRefusal::Id(index),
        6 => OpenRefusal::Manufacturer(index),
        7 => OpenRefusal::Medium(index),
        8 => OpenRefusal::OwnBaud(index),
        9 => OpenRefusal::Fault(index),
        _ => panic!("no record fails with {number}"),
    };
    assert_eq!((refusal.number(), refusal.index()), (number, Some(index)));
    refusal
}

/// 02: "Where a list has several failing meters, opening names the first in list order with its first number."
#[test]
fn the_first_of_three_failing_records_is_named() {
    let records = [
        passing(1, "12345678"),
        passing(2, "12345679").failing(8).failing(9),
        passing(3, "12345680").failing(4),
        passing(4, "12345681").failing(7),
    ];
    let list = list_of(&records);
    assert_eq!(list, example("refused_8_first_of_three.list"));
    let named = open_refused(&list, 2400);
    // Medium(3) is the last that fails, Primary(2) has the least number, OwnBaud(2) is the record after it, and
    // Fault(1) a later number of the right one.
    assert_eq!(named, OpenRefusal::OwnBaud(1));
    told(&named, 8);
}

#[test]
fn of_two_failing_records_the_first_is_named() {
    const FEW: usize = 5;
    for (first, second) in NUMBERS.iter().flat_map(|a| NUMBERS.map(|b| (*a, b))) {
        for later in 1..FEW {
            for earlier in 0..later {
                let mut records = [PASSING; FEW];
                records[earlier] = PASSING.failing(first);
                records[later] = PASSING.failing(second);
                assert_eq!(open_refused(&list_of(&records), 2400), naming(earlier, first), "{second} at {later}");
            }
        }
    }
}

/// Every choice of the numbers in one record.
#[test]
fn a_record_is_named_with_its_first_number() {
    for choice in 1..1 << NUMBERS.len() {
        let chosen = NUMBERS.into_iter().filter(|number| choice >> (number - NUMBERS[0]) & 1 == 1);
        let fails = chosen.clone().fold(PASSING, Record::failing);
        let records = [PASSING, PASSING, fails, PASSING.failing(4)];
        assert_eq!(open_refused(&list_of(&records), 2400), naming(2, chosen.min().unwrap()));
    }
}

/// Every record fails in every way; what is named is corrected, until the list is accepted.
#[test]
fn a_list_is_corrected_from_the_top() {
    let mut left = [&NUMBERS[..]; METERS];
    let mut segment = busy();
    for index in 0..METERS {
        for number in NUMBERS {
            let records = left.map(|numbers| numbers.iter().fold(PASSING, |record, number| record.failing(*number)));
            let named = refused(&mut segment, |s| s.open(&list_of(&records), 2400, false, 0.0));
            assert_eq!(named, naming(index, number));
            left[index] = &left[index][1..];
        }
    }
    assert_eq!(segment.open(&list_of(&[PASSING; METERS]), 2400, false, 0.0), Ok(()));
}

#[test]
fn the_layout_is_checked_before_any_record() {
    for number in NUMBERS {
        let fails = PASSING.failing(number);
        let list = list_of(&[fails, PASSING, PASSING]);
        let with = |at: usize, byte: u8| {
            let mut list = list.clone();
            list[at] = byte;
            list
        };
        // The count of bytes at 2; behind the failing record, the last one's length and that of its last text.
        let last = list_of(&[fails, PASSING]).len();
        let text = list.len() - "none".len() - 1;
        let mut cases = vec![(OpenRefusal::NotAList, with(0, 2))];
        cases.extend([2, last, text].map(|at| (OpenRefusal::Length, with(at, list[at] - 1))));
        cases.extend([2, last, text].map(|at| (OpenRefusal::Length, with(at, list[at] + 1))));
        cases.extend([list[..last + 1].to_vec(), [&list[..], &[0]].concat()].map(|list| (OpenRefusal::Length, list)));
        // 65 meters, of which one or all fail.
        let mut many = [PASSING; METERS + 1];
        for index in [0, 1, METERS - 1, METERS] {
            many[index] = fails;
            cases.push((OpenRefusal::TooManyMeters, list_of(&many)));
            many[index] = PASSING;
        }
        cases.push((OpenRefusal::TooManyMeters, list_of(&[fails; METERS + 1])));
        cases.push((OpenRefusal::Length, [&list_of(&[fails; METERS + 1])[..], &[0]].concat()));
        for (want, list) in cases {
            let refusal = open_refused(&list, 2400);
            assert_eq!((refusal, refusal.index()), (want, None), "{number}");
        }
        assert_eq!(open_refused(&list, 2400), naming(0, number));
    }
}

#[test]
fn the_bus_baud_is_checked_after_every_record() {
    for baud in [0, 2401, u32::MAX] {
        for number in NUMBERS {
            for index in [0, 1, METERS - 1] {
                let mut records = [PASSING; METERS];
                records[index] = PASSING.failing(number);
                assert_eq!(open_refused(&list_of(&records), baud), naming(index, number));
            }
        }
        let refusal = open_refused(&list_of(&[PASSING; METERS]), baud);
        assert_eq!((refusal, refusal.index()), (OpenRefusal::Baud, None));
    }
}

#[test]
fn what_is_just_not_refused_at_an_opening() {
    let good = water(250, "00000000");
    for meter in [
        good,
        MeterSpec { version: 255, ..good },
        MeterSpec { baud: Some(0), ..good },
        MeterSpec { baud: Some(38400), ..good },
        MeterSpec { manufacturer: "", medium: Medium::HeatOld, ..good },
        MeterSpec { fault: Fault::TooMany, ..good },
    ] {
        opened(&list::write(&[meter; METERS]).unwrap());
    }
    for baud in RATES {
        assert_eq!(Segment::new().open(&two_water(), baud, true, 0.0), Ok(()));
    }
}

#[test]
fn baud_changes() {
    for baud in [0, 1, 2401, u32::MAX] {
        let refusal = refused(&mut busy(), |s| s.set_baud(baud));
        assert_eq!((refusal, refusal.number()), (BaudRefusal::NotARate, 10));
        told(&refusal, 10);
    }
    for baud in RATES {
        assert_eq!(busy().set_baud(baud), Ok(()));
    }
}

#[test]
fn telegrams() {
    let long = |data| Frame::Long { control: 0x53, address: 1, ci: 0x51, data };
    for (frame, lent, want, number) in [
        (long(&[0; 253]), 300, EncodeRefusal::DataTooLong, 11),
        (long(&[0; 253]), 0, EncodeRefusal::DataTooLong, 11),
        (long(&[0; 252]), 260, EncodeRefusal::TooFewBytes, 12),
        (Frame::Short { control: 0x40, address: 1 }, 4, EncodeRefusal::TooFewBytes, 12),
        (Frame::Ack, 0, EncodeRefusal::TooFewBytes, 12),
    ] {
        let mut bytes = vec![0xAA; lent];
        let refusal = encode(&frame, &mut bytes).unwrap_err();
        assert_eq!((refusal, refusal.number()), (want, number));
        told(&refusal, number);
        assert!(bytes.iter().all(|b| *b == 0xAA));
    }
    assert_eq!(encode(&long(&[0; 252]), &mut [0; 261]), Ok(261));
}

/// Clocks with one field out of range.
fn bad_clocks() -> Vec<Clock> {
    let mut out = Vec::new();
    out.extend([0, 1969, 10_000, u32::MAX].map(|year| Clock { year, ..CLOCK }));
    out.extend([0, 13, 257].map(|month| Clock { month, ..CLOCK }));
    out.extend([0, 32, 257].map(|day| Clock { day, ..CLOCK }));
    out.extend([24, 256].map(|hour| Clock { hour, ..CLOCK }));
    out.extend([60, 256].map(|minute| Clock { minute, ..CLOCK }));
    out
}

#[test]
fn sends() {
    let refusal = refused(&mut busy(), |s| s.send(&[0xE5; 1025], &CLOCK));
    assert_eq!((refusal, refusal.number()), (SendRefusal::PieceTooLong, 13));
    told(&refusal, 13);
    assert_eq!(opened(&two_water()).send(&[0xE5; 1024], &CLOCK), Ok(1));
    for clock in bad_clocks() {
        let refusal = refused(&mut busy(), |s| s.send(&NKE_ALL, &clock));
        assert_eq!((refusal, refusal.number()), (SendRefusal::Clock, 14));
        told(&refusal, 14);
    }
    let last = Clock { secs: f64::INFINITY, year: 9999, month: 12, day: 31, hour: 23, minute: 59 };
    assert_eq!(busy().send(&NKE_ALL, &last), Ok(1));
}

#[test]
fn a_full_queue() {
    // 64 telegrams that 64 meters acknowledge: exactly 4,096 bytes.
    let mut segment = opened(&list::write(&[water(1, "12345678"); METERS]).unwrap());
    let refusal = refused(&mut segment, |s| s.send(&NKE_ALL.repeat(65), &CLOCK));
    assert_eq!((refusal, refusal.number()), (SendRefusal::QueueFull, 15));
    told(&refusal, 15);
    segment.send(&NKE_ALL.repeat(64), &CLOCK).unwrap();
    assert_eq!(refused(&mut segment, |s| s.send(&NKE_ALL, &CLOCK)), SendRefusal::QueueFull);
    assert_eq!(common::take(&mut segment), [0xE5; 4096]);
    assert_eq!(segment.send(&NKE_ALL, &CLOCK), Ok(1));
}

#[test]
fn searches() {
    for clock in bad_clocks() {
        let refusal = refused(&mut busy(), |s| s.search(&clock, 100));
        assert_eq!((refusal, refusal.number()), (SearchRefusal::Clock, 14));
        told(&refusal, 14);
    }
    // Input and queue not empty; then the input alone; then neither; then the queue alone.
    let mut segment = busy();
    let refusal = refused(&mut segment, |s| s.search(&CLOCK, 100));
    assert_eq!((refusal, refusal.number()), (SearchRefusal::NotEmpty, 16));
    told(&refusal, 16);
    segment.clear();
    assert_eq!(refused(&mut segment, |s| s.search(&CLOCK, 100)), SearchRefusal::NotEmpty);
    segment.set_baud(2400).unwrap();
    assert_eq!(segment.search(&CLOCK, 100).unwrap().entries.len(), 2);
    segment.send(&NKE_ALL, &CLOCK).unwrap();
    assert_eq!(refused(&mut segment, |s| s.search(&CLOCK, 100)), SearchRefusal::NotEmpty);
}

#[test]
fn searches_into_lent_entries() {
    let mut segment = opened(&two_water());
    let mark = Entry { count: 77, ..Entry::default() };
    for lent in 0..2 {
        let mut entries = vec![mark; lent];
        let refusal = refused(&mut segment, |s| s.search_into(&CLOCK, 100, &mut entries));
        assert_eq!((refusal, refusal.number()), (SearchRefusal::TooFewEntries, 17));
        told(&refusal, 17);
        assert!(entries.iter().all(|e| *e == mark));
    }
    for lent in [2, 3, 64, 100] {
        let mut entries = vec![mark; lent];
        let summary = segment.search_into(&CLOCK, 100, &mut entries).unwrap();
        assert_eq!((summary.entries, summary.probes, summary.spent), (2, 71, false));
        assert_eq!(entries[..2], segment.search(&CLOCK, 100).unwrap().entries);
        assert!(entries[2..].iter().all(|e| *e == mark));
    }
    assert_eq!(Segment::new().search_into(&CLOCK, 1, &mut []).unwrap().probes, 1);
}

#[test]
fn lists_that_cannot_be_written() {
    // A record has 10 bytes beside its texts; those of a water meter, without its id, have 12.
    let ids = [233, 234, 255, 256].map(|n| "1".repeat(n));
    let record = water(1, &ids[0]);
    assert_eq!(list::write(&[record]).map(|list| list[3]), Ok(255));
    for id in &ids[1..] {
        assert_eq!(list::write(&[record, water(1, id)]), Err(ListError::RecordTooLong(1)));
    }
    assert_eq!(list::write(&vec![record; 255]).map(|list| list.len()), Ok(3 + 255 * 256));
    assert_eq!(list::write(&vec![record; 256]), Err(ListError::ListTooLong));
    for error in [ListError::RecordTooLong(1), ListError::ListTooLong] {
        assert!(error.to_string().contains(" would have over "));
    }
}

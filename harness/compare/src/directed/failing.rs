//! Lists with several failing records: which one is named, and with which number; what is checked before the records
//! and after them. A refused opening leaves the former segment to the calls that follow.
use super::*;
use crate::layout::list_of;
use reference::METERS;

/// The numbers that a record can fail with.
const NUMBERS: [u32; 6] = [4, 5, 6, 7, 8, 9];

pub fn lists(each: Each) {
    places(each);
    pairs(each);
    two_at_once(each);
    every_record(each);
    layouts(each);
    bus_bauds(each);
    corrected(each);
}

/// Opened first of all, and on a segment in use: it has meters, input that waits and replies that are queued.
fn tried(each: Each, name: &str, list: Vec<u8>, baud: u32) {
    let opening = Call::Open { list, baud, practice: false, origin: 1.5 };
    let (front, back) = (&nke(1)[..1], &nke(1)[1..]);
    let mut calls = vec![opening.clone(), send(nke(FE)), search(1, METERS), open(&few()), send([&nke(FE), front].concat()), opening];
    calls.extend([send(back), receive(1), Call::Clear, search(u32::MAX, METERS)]);
    each(name, calls);
}

/// Records that pass, but for those at some places, which fail with some numbers.
fn records_with(count: usize, failing: &[(usize, &[u32])]) -> Vec<Vec<u8>> {
    let mut out = vec![failing_with(&[]); count];
    for (place, numbers) in failing {
        out[*place] = failing_with(numbers);
    }
    out
}

/// Every place of the first failing record, with each number; all records behind it fail as well.
fn places(each: Each) {
    for place in 0..METERS {
        for (k, number) in NUMBERS.iter().enumerate() {
            let mut records = records_with(METERS, &[(place, &[*number])]);
            for (j, behind) in records[place + 1..].iter_mut().enumerate() {
                *behind = failing_with(&[NUMBERS[(j + k + 1) % 6]]);
            }
            tried(each, &format!("record {place} fails with {number}, and all behind it fail"), list_of(&records), 2400);
        }
    }
}

/// Two failing records, with every number each, in short lists and in the longest.
fn pairs(each: Each) {
    let longest = [(0, 1), (0, 32), (0, 63), (32, 63), (62, 63)].map(|(a, b)| (METERS, a, b));
    for (count, a, b) in [(2, 0, 1), (3, 0, 1), (3, 0, 2), (3, 1, 2)].into_iter().chain(longest) {
        for first in NUMBERS {
            for second in NUMBERS {
                let records = records_with(count, &[(a, &[first]), (b, &[second])]);
                tried(each, &format!("records {a} and {b} of {count} fail with {first} and {second}"), list_of(&records), 2400);
            }
        }
    }
}

/// A record that fails with two numbers, alone and before one that fails with the least.
fn two_at_once(each: Each) {
    for (count, place) in [(1, 0), (3, 0), (3, 1), (3, 2), (METERS, 0), (METERS, 32), (METERS, 63)] {
        for (k, second) in NUMBERS.iter().enumerate() {
            for first in &NUMBERS[..k] {
                let mut records = records_with(count, &[(place, &[*first, *second])]);
                let name = format!("record {place} of {count} fails with {first} and {second}");
                tried(each, &name, list_of(&records), 2400);
                if place + 1 < count {
                    records[count - 1] = failing_with(&[4]);
                    tried(each, &format!("{name}, the last one with 4"), list_of(&records), 2400);
                }
            }
        }
    }
}

/// Every record fails, with one number or with all; more than the most of them too.
fn every_record(each: Each) {
    for count in [1, 2, 3, 63, 64, 65, 66, 255] {
        for shift in 0..6 {
            let records: Vec<Vec<u8>> = (0..count).map(|k| failing_with(&[NUMBERS[(k + shift) % 6]])).collect();
            tried(each, &format!("{count} failing records, the first with {}", NUMBERS[shift]), list_of(&records), 2400);
        }
        tried(each, &format!("{count} records that fail with every number"), list_of(&vec![failing_with(&NUMBERS); count]), 2400);
    }
}

/// A failing record, and a version, a length or a number of records that comes before it.
fn layouts(each: Each) {
    for number in NUMBERS {
        for at in [&[0][..], &[1], &[2], &[0, 1, 2]] {
            let failing: Vec<(usize, &[u32])> = at.iter().map(|k| (*k, std::slice::from_ref(&number))).collect();
            let records = records_with(3, &failing);
            let list = list_of(&records);
            // The version, the count, the length of each record, and the length of the last record's last text.
            let starts = (0..3).map(|k| list_of(&records[..k]).len());
            let lengths: Vec<usize> = [0, 2].into_iter().chain(starts).chain([list.len() - 5]).collect();
            for k in lengths {
                for b in [list[k] - 1, list[k] + 1] {
                    tried(each, &format!("records {at:?} fail with {number}, byte {k} is {b}"), with_byte(&list, k, b), 2400);
                }
            }
            let short = [&records[..2], &[records[2][..5].to_vec()]].concat();
            let empty = [&records[..], &[vec![]]].concat();
            let cut = list[..list.len() - 1].to_vec();
            let longer = [&list[..], &[0]].concat();
            for (what, list) in [("a short one", list_of(&short)), ("an empty one", list_of(&empty)), ("less", cut), ("more", longer)] {
                tried(each, &format!("records {at:?} fail with {number}, and {what} behind"), list, 2400);
            }
        }
        for place in [0, 32, 63, 64] {
            let many = list_of(&records_with(METERS + 1, &[(place, &[number])]));
            tried(each, &format!("record {place} of 65 fails with {number}"), many.clone(), 2400);
            tried(each, &format!("record {place} of 65 fails with {number}, more behind"), [&many[..], &[0]].concat(), 2400);
        }
    }
}

/// A failing record, and a bus baud that comes after it.
fn bus_bauds(each: Each) {
    for baud in [0, 2399, u32::MAX] {
        for (count, place) in [(1, 0), (METERS, 0), (METERS, 32), (METERS, 63)] {
            for number in NUMBERS {
                let list = list_of(&records_with(count, &[(place, &[number])]));
                tried(each, &format!("record {place} of {count} fails with {number}, opened at {baud}"), list, baud);
            }
        }
        tried(each, &format!("no record fails, opened at {baud}"), list_of(&records_with(METERS, &[])), baud);
    }
}

/// "Planners correct lists from the top": what is named is corrected and the list opened again, until it is accepted.
fn corrected(each: Each) {
    for count in [1, 4, METERS] {
        let mut calls = vec![open(&few()), send(nke(FE))];
        for done in 0..=count * 6 {
            let left = |k: usize| failing_with(&NUMBERS[done.saturating_sub(k * 6).min(6)..]);
            calls.push(open_list(list_of(&(0..count).map(left).collect::<Vec<_>>())));
        }
        calls.extend([send(nke(FE)), receive(32)]);
        each(&format!("{count} records that fail with every number, corrected from the top"), calls);
    }
}

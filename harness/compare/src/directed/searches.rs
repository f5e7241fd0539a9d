//! Searches: numbers of meters, ids alike, faults, allowances, lent entries, and what refuses them.
use super::*;
use crate::random::{Random, RATES};
use oracle::sim::builtins;
use reference::{Clock, Segment};

pub fn lists(each: Each) {
    let sets = sets();
    for (name, meters) in &sets {
        allowances(each, name, meters);
        lent(each, name, meters);
    }
    before(each);
    refused(each);
}

fn faulty(ids: &[u32], fault: &str) -> Vec<SimMeter> {
    ids.iter().enumerate().map(|(k, id)| meter(k as u8, *id, "SEN", "water", fault)).collect()
}

fn sets() -> Vec<(String, Vec<SimMeter>)> {
    let plain = |ids: &[u32]| faulty(ids, "none");
    let mut out: Vec<(String, Vec<SimMeter>)> = vec![
        ("no meter".into(), vec![]),
        ("id 0".into(), plain(&[0])),
        ("id 99999999".into(), plain(&[99_999_999])),
        ("two alike".into(), plain(&[77_777_777, 77_777_777])),
        ("two, last digit".into(), plain(&[12_345_678, 12_345_679])),
        ("two, last digit, 0 and 9".into(), plain(&[12_345_670, 12_345_679])),
        ("two, seventh digit".into(), plain(&[12_345_678, 12_345_699])),
        ("two, first digit".into(), plain(&[2_345_678, 92_345_678])),
        ("three alike and one beside".into(), plain(&[11_111_111, 11_111_112, 11_111_111, 11_111_111])),
        ("ten, first digit".into(), (0..10).map(|k| water(k as u8, k * 10_000_000)).collect()),
        ("ten, last digit".into(), (0..10).map(|k| water(k as u8, 55_555_550 + k)).collect()),
        ("ten, falling".into(), (0..10).map(|k| water(k as u8, 90_000_009 - k * 1_111)).collect()),
        ("64 alike".into(), (0..64).map(|k| water(k, 88_888_888)).collect()),
        ("64 in a row".into(), (0..64).map(|k| water(k as u8, 31_415_900 + k)).collect()),
        // Pairs that share seven digits, far apart: as many probes as 64 meters can take.
        ("64 worst".into(), (0..64).map(|k| water(k as u8, (k / 2) * 3_030_307 % 10_000_000 * 10 + k % 2)).collect()),
        ("every kind".into(), every_kind()),
        ("another baud".into(), vec![water(1, 12_345_678), at_baud(water(2, 12_345_679), 9600), at_baud(water(3, 12_345_678), 300)]),
        ("all at another baud".into(), vec![at_baud(water(2, 12_345_679), 9600)]),
    ];
    out.extend(builtins().into_iter().map(|s| (s.key, s.meters)));
    for fault in FAULTS {
        out.push((format!("one {fault}"), faulty(&[12_345_678], fault)));
        out.push((format!("two {fault}"), faulty(&[12_345_678, 12_345_699], fault)));
        out.push((format!("two alike {fault}"), faulty(&[12_345_678, 12_345_678], fault)));
        out.push((format!("ten {fault}"), faulty(&[1, 2, 3, 10, 20, 100, 100, 99_999_999, 90_000_000, 50_000_000], fault)));
        for other in FAULTS {
            let pair = [faulty(&[12_345_678], fault), faulty(&[12_345_600], other), faulty(&[12_345_678], other)].concat();
            out.push((format!("{fault} beside {other}"), pair[..2].to_vec()));
            out.push((format!("{fault} beside two {other}"), pair));
        }
    }
    for (medium, _) in MEDIA {
        out.push((format!("two {medium}"), vec![meter(1, 12_345_678, "KAM", medium, "none"), meter(2, 22_345_678, "KAM", medium, "wrong_address")]));
    }
    // Flaky ones that answer or not by turns, in ids that share digits.
    let mut r = Random::new(7);
    for k in 0..60 {
        let n = 2 + r.below(8);
        let meters = (0..n).map(|i| {
            let id = (0..8).fold(0, |v, d| v * 10 + if d < 2 + k % 6 { 1 } else { r.below(3) as u32 });
            let fault = if r.below(2) == 0 { "flaky" } else { FAULTS[r.below(7) as usize] };
            meter(i as u8, id, "SEN", "water", fault)
        });
        out.push((format!("flaky ones {k}"), meters.collect()));
    }
    out
}

/// Every small allowance, those around the number of probes that the search takes, and the greatest.
fn allowances(each: Each, name: &str, meters: &[SimMeter]) {
    let mut segment = Segment::new();
    segment.open(&list_bytes(meters), 2400, false, 0.0);
    let probes = segment.search(PLAIN, u32::MAX, 64).probes;
    let mut near = vec![probes.saturating_sub(1), probes, probes + 1, probes / 2, u32::MAX - 1, u32::MAX];
    near.retain(|a| *a > 25);
    for allowance in (0..=25).chain(near) {
        let mut calls = vec![open(meters), search(allowance, 64), send([request(FD), request(FE)].concat()), Call::Clear];
        // The state that a search leaves is what the next one begins with.
        let again = if probes < 500 || allowance == u32::MAX { u32::MAX } else { 12 };
        calls.extend([search(again, 64), search(11, 64), send(nke(FE)), receive(32)]);
        each(&format!("search of {name}, allowance {allowance}"), calls);
    }
}

fn lent(each: Each, name: &str, meters: &[SimMeter]) {
    let n = meters.len() * 16;
    let mut calls = vec![open(meters)];
    for lent in [0, 15, 16, n.saturating_sub(16), n.saturating_sub(1), n, n + 1, n + 15, n + 16, 63 * 16, 64 * 16, 65 * 16, 3000] {
        calls.push(Call::Search { clock: PLAIN, allowance: 40, lent });
    }
    each(&format!("search of {name}, entries lent"), calls);
}

/// What comes before a search: readouts, selections, changed primaries, and the baud.
fn before(each: Each) {
    for fault in FAULTS {
        let meters = [faulty(&[12_345_678], fault), faulty(&[12_345_699, 22_222_222], "none")].concat();
        for readouts in 0..=4 {
            for lone in [true, false] {
                let now = if lone { &meters[..1] } else { &meters[..] };
                let mut calls = vec![open(now), send(request(0).repeat(readouts)), Call::Clear];
                calls.extend([search(u32::MAX, 64), search(u32::MAX, 64), search(u32::MAX, 64), send(request(FD)), receive(64)]);
                each(&format!("search after {readouts} readouts of {fault}"), calls);
            }
        }
        // The access number runs over within the search.
        let calls = vec![open(&meters), send(request(0).repeat(30)), Call::Clear];
        let more = (0..9).flat_map(|_| [send(request(FE).repeat(25)), Call::Clear, search(u32::MAX, 64)]);
        each(&format!("searches at high access numbers, {fault}"), [calls, more.collect()].concat());
        let first = select(&[0x78, 0x56, 0x34, 0x12, 0xFF, 0xFF, 0xFF, 0xFF]);
        let moved = long(0x53, FE, 0x51, &[1, 0x7A, 0xFD]);
        for piece in [select_all(), first, [select_all(), nke(FD)].concat(), short(0x7B, FE), nke(FF), moved] {
            let mut calls = vec![open(&meters), send(piece), Call::Clear, search(7, 64), send(request(FD)), Call::Clear];
            calls.extend([search(u32::MAX, 64), send(request(FD)), receive(64)]);
            each(&format!("search after a telegram, {fault}"), calls);
        }
    }
    let praxis = &builtins()[0].meters;
    for baud in RATES {
        for practice in [false, true] {
            let mut calls = vec![Call::Open { list: list_bytes(praxis), baud, practice, origin: 5.0 }, search(u32::MAX, 64)];
            calls.extend(RATES.iter().flat_map(|r| [set_baud(*r), Call::Search { clock: Clock { now: 1.0e6, ..PLAIN }, allowance: 300, lent: 1024 }]));
            each(&format!("praxis at {baud}, practice {practice}"), calls);
        }
    }
    each("search of a segment never opened", vec![search(0, 0), search(1, 0), open_list(vec![]), search(5, 0)]);
}

/// Input that waits and bytes that are queued refuse a search until they are gone.
fn refused(each: Each) {
    let meters = few();
    for wait in [0, 1, 4, 260] {
        for queued in [0, 1, 2, 70] {
            let mut calls = vec![open(&meters), send(request(1).repeat(queued / 70)), send(nke(1).repeat(queued % 70))];
            calls.extend([send(&long(0x53, FE, 0x50, &[0; 252])[..wait]), search(3, 64), search(3, 2), receive(1), search(3, 64)]);
            calls.extend([receive(1), search(3, 64), Call::Clear, search(3, 64), set_baud(2400), search(3, 2)]);
            calls.extend([set_baud(1), search(3, 3), search(0, 3)]);
            each(&format!("search with {wait} bytes waiting and {queued} queued"), calls);
        }
    }
}

//! Sends: all short inputs, all control fields and CI, masks, parts and access numbers.
use super::*;
use crate::random::RATES;

pub fn lists(each: Each) {
    pieces(each);
    shorts(each);
    longs(each);
    damaged(each);
    masks(each);
    readouts(each);
    rates_and_primaries(each);
}

/// Every piece of 0, 1 and 2 bytes; the baud change empties the input again.
fn pieces(each: Each) {
    each("the empty piece", vec![open(&few()), send([]), send([0x10]), send([]), send([0x40, 1, 0x41, 0x16]), receive(1)]);
    for a in 0..=255 {
        let mut calls = vec![open(&few()), send([a]), send(nke(FE)), set_baud(2400)];
        for b in 0..=255 {
            calls.extend([send([a, b]), set_baud(2400)]);
        }
        each(&format!("every piece of 2 bytes from {a:02X}"), calls);
    }
}

/// Every short telegram to meters of each medium with each fault, most of them selected.
fn shorts(each: Each) {
    let meters = every_kind();
    for control in 0..=255 {
        let mut calls = vec![open(&meters), send([select_all(), select_all()].concat()), Call::Clear];
        for address in 0..=255 {
            calls.extend([send(short(control, address)), Call::Clear]);
        }
        each(&format!("every short telegram of C {control:02X}"), calls);
    }
    // Each kind of meter at each address, twice over, for the flaky ones.
    for shift in 0..=250u16 {
        let moved: Vec<SimMeter> = meters.iter().map(|m| SimMeter { primary: ((m.primary as u16 + shift) % 251) as u8, ..m.clone() }).collect();
        let mut calls = vec![open(&moved)];
        for control in [0x40, 0x5B, 0x7B, 0x40, 0x5B, 0x7B] {
            for some in moved.chunks(14) {
                calls.extend([send(some.iter().flat_map(|m| short(control, m.primary)).collect::<Vec<u8>>()), Call::Clear]);
            }
        }
        each(&format!("every kind of meter, from address {shift} on"), calls);
    }
}

/// Every CI to each kind of address, with 0 to 9 data bytes; no data come last, which may change the meters' baud.
fn longs(each: Each) {
    let data: [[u8; 9]; 2] = [[0x01, 0x7A, 5, 0xFF, 0xFF, 0xFF, 0xFF, 0xFF, 0xFF], [0xFF; 9]];
    for ci in 0..=255 {
        for control in [0x53, 0x73] {
            for address in [1, 2, 5, FD, FE, FF] {
                for d in &data {
                    let mut calls = vec![open(&few()), send(select_all())];
                    calls.extend((0..=9).rev().map(|n| send(long(control, address, ci, &d[..n]))));
                    calls.extend([send(request(FE)), send(nke(address))]);
                    each(&format!("CI {ci:02X}, C {control:02X}, address {address:02X}"), calls);
                }
            }
        }
    }
    // Every control field for each thing that a long telegram does.
    let kinds: [(u8, &[u8]); 6] = [(0x50, &[]), (0x50, &[9, 9]), (0x51, &[1, 0x7A, 7]), (0x52, &[0xFF; 8]), (0xB8, &[]), (0xBD, &[])];
    for (ci, data) in kinds {
        for address in [1, FD, FE, FF] {
            for control in 0..=255 {
                let calls = vec![open(&few()), send([select_all(), request(1)].concat()), send(long(control, address, ci, data)), send(request(FE))];
                each(&format!("C {control:02X}, CI {ci:02X}, address {address:02X}"), calls);
            }
        }
    }
    for n in (10..=252).step_by(11).chain(245..=252) {
        for (ci, first) in [(0x50, 1), (0x51, 1), (0x52, 0xFF), (0xB8, 0)] {
            let d = [vec![first; 8], vec![0x68; n - 8]].concat();
            let piece = [long(0x53, FD, ci, &d), request(FE)].concat();
            each(&format!("{n} data bytes, CI {ci:02X}"), vec![open(&few()), send(select_all()), send(piece), receive(33), send(nke(FD))]);
        }
    }
}

/// Every split, every truncation and every byte changed in good telegrams, each followed by a good one.
fn damaged(each: Each) {
    let after = || [send(nke(FE)), receive(32)];
    let good = [nke(1), request(1), select_all(), long(0x53, 1, 0x51, &[1, 0x7A, 4]), [request(2), select_all()].concat(), long(0x53, FE, 0x50, &[0x16; 252])];
    for t in &good {
        for k in 0..=t.len() {
            let (a, b) = t.split_at(k);
            let calls = [vec![open(&few()), send(a), send(b)], after().to_vec()].concat();
            each(&format!("a telegram split at {k}"), calls);
            each(&format!("a telegram cut at {k}"), [vec![open(&few()), send(a)], after().to_vec()].concat());
            each(&format!("a telegram from {k} on"), [vec![open(&few()), send(b)], after().to_vec()].concat());
            each(&format!("a telegram split at {k}, baud set between"), [vec![open(&few()), send(a), set_baud(2400), send(b)], after().to_vec()].concat());
        }
    }
    for t in &good[..4] {
        for k in 0..t.len() {
            for b in 0..=255 {
                // Once alone, once with more in the same piece, which an invalid telegram takes with it.
                let bad = with_byte(t, k, b);
                let more = [bad.clone(), nke(1)].concat();
                let calls = [vec![open(&few()), send(bad)], after().to_vec(), vec![set_baud(2400), send(more)], after().to_vec()].concat();
                each(&format!("byte {k} of a telegram as {b:02X}"), calls);
            }
        }
    }
}

/// Every value of each digit and byte of a mask, and every length of its data.
fn masks(each: Each) {
    // Ids 0 to 7: every digit differs between two of the meters.
    let mut meters: Vec<SimMeter> = ["none", "flaky", "busy"].iter().enumerate().map(|(k, f)| meter(k as u8, 1_234_567, "KAM", "heat", f)).collect();
    meters.extend([meter(3, 98_765_432, "ZRI", "gas", "none"), at_baud(water(4, 1_234_567), 300), meter(5, 1_234_567, "", "heat_old", "none")]);
    let exact: [u8; 8] = [0x67, 0x45, 0x23, 0x01, 0x2D, 0x2C, 1, 4];
    for base in [exact, [0xFF; 8]] {
        for k in 0..8 {
            let mut calls = vec![open(&meters)];
            for b in 0..=255 {
                let mask = with_byte(&base, k, b);
                // The request goes to whom the mask left selected.
                calls.extend([send(select(&mask)), send(request(FD)), Call::Clear]);
                if b % 16 == 0 {
                    calls.extend([send(select_all()), Call::Clear]);
                }
            }
            each(&format!("byte {k} of a mask"), calls);
        }
    }
    for base in [exact, [0xFF; 8]] {
        let mut calls = vec![open(&meters), send(select_all())];
        for n in (0..=20).chain(0..=20) {
            let data = [&base[..], &[0; 12]].concat();
            calls.extend([send(select(&data[..n])), send(request(FD)), Call::Clear]);
        }
        each("every length of a mask", calls);
    }
}

/// Every order of four telegrams to one meter; more readouts than an access number has values.
fn readouts(each: Each) {
    let steps = [short(0x5B, 1), short(0x7B, 1), nke(1), long(0x53, 1, 0x50, &[]), select_all(), short(0x4B, FD), nke(FD)];
    let n = steps.len();
    for medium in ["heat", "water"] {
        for fault in FAULTS {
            let m = [meter(1, 12_345_678, "KAM", medium, fault)];
            for code in 0..n * n * n * n {
                let order = [code, code / n, code / n / n, code / n / n / n].map(|c| steps[c % n].clone());
                each(&format!("telegrams {code} to {medium} {fault}"), [vec![open(&m)], order.into_iter().map(send).collect()].concat());
            }
        }
    }
    for m in every_kind() {
        let mut calls = vec![open(std::slice::from_ref(&m))];
        for k in 0..520 {
            calls.push(send(short(if k % 3 == 0 { 0x5B } else { 0x7B }, m.primary)));
            calls.extend(if k % 20 == 19 { vec![Call::Clear] } else { vec![] });
        }
        each(&format!("520 readouts of {} {}", m.medium, m.fault), calls);
    }
    // Replies of each pair of kinds, one over the other.
    let kinds = every_kind();
    for (k, a) in kinds.iter().enumerate() {
        let mut calls = Vec::new();
        for b in &kinds[k..] {
            calls.extend([open(&[a.clone(), b.clone()]), send(request(FE)), send(request(FE)), send(nke(FE)), send(short(0x7B, FE)), send(short(0x5B, FE))]);
        }
        each(&format!("two replies at once, with {} {}", a.medium, a.fault), calls);
    }
}

fn rates_and_primaries(each: Each) {
    for (k, rate) in RATES.iter().enumerate() {
        for address in [1, 2, 3, FD, FE, FF] {
            let change = long(0x53, address, 0xB8 + k as u8, &[]);
            let mut calls = vec![open(&few()), send(select_all()), send([change, request(FE)].concat())];
            for r in [*rate, 2400, 9600, *rate] {
                calls.extend([set_baud(r), send(request(FE)), send(select_all()), send(request(FD)), receive(32)]);
            }
            each(&format!("rate {rate} for address {address:02X}"), calls);
        }
    }
    for p in 0..=255 {
        for to in [1, FD, FE, FF] {
            let calls = vec![
                open(&[few(), vec![meter(1, 87_654_321, "KAM", "gas", "wrong_address")]].concat()),
                send(select(&[0x21, 0x43, 0x65, 0x87, 0xFF, 0xFF, 0xFF, 0xFF])),
                send(long(0x53, to, 0x51, &[1, 0x7A, p])),
                send([request(p), request(1), request(FD)].concat()),
                Call::Clear,
                search(u32::MAX, 64),
            ];
            each(&format!("primary {p:02X} by {to:02X}"), calls);
        }
    }
}

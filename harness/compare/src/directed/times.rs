//! Clocks: every value of each field, around the limits; every kind of f64 as origin and as now; readings where digits run over.
use super::*;
use reference::Clock;

fn floats() -> Vec<f64> {
    let bits: [u64; 20] = [
        0, 1, 2, 0x000F_FFFF_FFFF_FFFF, 0x0010_0000_0000_0000, 0x0010_0000_0000_0001, 0x3FEF_FFFF_FFFF_FFFF, 0x3FF0_0000_0000_0001, 0x41EF_FFFF_FFDF_FFFF,
        0x41EF_FFFF_FFFF_FFFF, 0x43EF_FFFF_FFFF_FFFF, 0x43E0_0000_0000_0001, 0x7FEF_FFFF_FFFF_FFFF, 0x7FF0_0000_0000_0000, 0x7FF0_0000_0000_0001,
        0x7FF4_0000_0000_0000, 0x7FF7_FFFF_FFFF_FFFF, 0x7FF8_0000_0000_0000, 0x7FF8_0000_0000_0001, 0x7FFF_FFFF_FFFF_FFFF,
    ];
    let powers = [0, 1, 2, 5, 6, 16, 31, 32, 33, 52, 53, 54, 62, 63, 64, 65, 70, 1023].map(|n| 2f64.powi(n));
    let mut out: Vec<f64> = bits.iter().map(|b| f64::from_bits(*b)).chain(powers).collect();
    out.extend(powers[1..].iter().flat_map(|p| [p - 1.0, p + 1.0]));
    out.extend([0.5, 0.9999, 1.5, 3.9999, 4.0, 9.9999, 10.0, 49.9, 50.0, 59.9, 60.0, 99.9, 100.0, 3599.5, 1.0e9, 1_790_812_800.0, 1_790_812_859.9]);
    out.extend([4_294_967_294.5, 4_294_967_295.5, 9_007_199_254_740_993.0, 1.0e19, 1.8e19, 1.9e19, 1.0e300, 1.0e-300]);
    let negative: Vec<f64> = out.iter().map(|x| f64::from_bits(x.to_bits() | 1 << 63)).collect();
    out.extend(negative);
    out
}

pub fn lists(each: Each) {
    seconds(each);
    digits(each);
    fields(each);
}

/// A readout of each medium for every pair of kinds.
fn seconds(each: Each) {
    let list = list_bytes(&every_medium());
    let requests: Vec<u8> = (1..=8).flat_map(request).collect();
    for origin in floats() {
        let mut calls = vec![Call::Open { list: list.clone(), baud: 2400, practice: true, origin }];
        for now in floats() {
            calls.extend([Call::Send { piece: requests.clone(), clock: Clock { now, ..PLAIN } }, Call::Clear]);
        }
        each(&format!("origin {origin:e}"), calls);
        each(&format!("origin {origin:e} kept"), vec![Call::Open { list: list.clone(), baud: 2400, practice: false, origin }, open_list(vec![])]);
    }
    // Each second of the first ten minutes, where every division shows.
    let mut calls = vec![open(&every_medium())];
    for s in 0..=1200 {
        calls.extend([Call::Send { piece: requests.clone(), clock: Clock { now: s as f64 / 2.0, ..PLAIN } }, Call::Clear]);
    }
    each("half seconds", calls);
    // Times around a power of ten, for a seed as great as it gets; `digits` has the values themselves there.
    let highest: Vec<SimMeter> = MEDIA.iter().enumerate().map(|(k, (medium, _))| meter(k as u8 + 1, 996, "KAM", medium, "none")).collect();
    let mut calls = vec![open(&highest)];
    for p in 3..=19 {
        for d in [-600_000.0, -123_457.0, -12_346.0, -1.0, 0.0, 1.0] {
            calls.extend([Call::Send { piece: requests.clone(), clock: Clock { now: 10f64.powi(p) + d, ..PLAIN } }, Call::Clear]);
        }
    }
    each("readings at powers of ten", calls);
}

/// BCD values where digits run over: multiples of the powers of ten from 10^4 on and their neighbours, as near as an f64 of seconds
/// gets, as far as a reading goes. Of a meter with seed 0 the value is `first` and the whole seconds, or minutes.
fn digits(each: Each) {
    let readings = [("electricity", 12_345_678, 1, u32::MAX as u64), ("water", 123_456, 1, u32::MAX as u64), ("heat_old", 12_345, 60, u64::MAX / 60)];
    for (medium, first, unit, most) in readings {
        let mut calls = vec![open(&[meter(1, 0, "KAM", medium, "none")])];
        let multiples = (4..=17).flat_map(|k| (1..=40).map(move |n| n * 10u64.pow(k)));
        for value in multiples.flat_map(|v| [v - 1, v, v + 1]).filter(|v| (first..=first + most).contains(v)) {
            let clock = Clock { now: ((value - first) * unit) as f64, ..PLAIN };
            calls.extend([Call::Send { piece: request(1), clock }, Call::Clear]);
        }
        each(&format!("digits of {medium}"), calls);
    }
}

/// Every good value of each field, and values outside, in a send and in a search.
fn fields(each: Each) {
    type Put = fn(&mut Clock, u32);
    let fields: [(&str, u32, u32, Put); 5] = [
        ("year", 1970, 9999, |c, v| c.year = v),
        ("month", 1, 12, |c, v| c.month = v),
        ("day", 1, 31, |c, v| c.day = v),
        ("hour", 0, 23, |c, v| c.hour = v),
        ("minute", 0, 59, |c, v| c.minute = v),
    ];
    let outside = |low: u32, high: u32| {
        let near = [0, low.wrapping_sub(2), low.wrapping_sub(1), high + 1, high + 2, 99, 255, 256, 257, 256 + low, 256 + high, 65_535, 65_536];
        near.into_iter().chain([65_536 + low, 1 << 31, (1 << 31) + low, u32::MAX]).chain(high + 1..high + 300)
    };
    for (name, low, high, put) in fields {
        let values: Vec<u32> = (low..=high).chain(outside(low, high)).collect();
        for (k, part) in values.chunks(256).enumerate() {
            let mut calls = vec![open(&every_medium())];
            for v in part {
                let mut clock = PLAIN;
                put(&mut clock, *v);
                calls.extend([Call::Send { piece: [request(1), request(3)].concat(), clock }, Call::Clear]);
            }
            each(&format!("{name}, part {k}"), calls);
        }
        let mut calls = vec![open(&few())];
        for v in [low, low + 1, high - 1, high].into_iter().chain(outside(low, high)) {
            let mut clock = PLAIN;
            put(&mut clock, v);
            calls.push(Call::Search { clock, allowance: u32::MAX, lent: 1024 });
        }
        each(&format!("{name} of a search"), calls);
    }
    // Two fields out of range, and other refusals beside them: the order of the numbers.
    let bad = |k: usize| [(0, 0), (1969, 0), (2026, 13), (10_000, 13)].map(|(year, month)| Clock { year, month, ..PLAIN })[k];
    for k in 0..4 {
        let mut calls = vec![open(&few()), Call::Send { piece: vec![0; 1025], clock: bad(k) }, Call::Send { piece: vec![0; 1024], clock: bad(k) }];
        for before in [vec![], vec![0x10], nke(FE), [nke(FE), vec![0x68]].concat()] {
            calls.push(send(before));
            for (clock, lent) in [(bad(k), 1024), (bad(k), 0), (PLAIN, 0), (PLAIN, 47), (PLAIN, 48)] {
                calls.push(Call::Search { clock, allowance: 5, lent });
            }
            calls.extend([set_baud(2400), Call::Clear]);
        }
        each("several refusals at once", calls);
    }
    let full = nke(FE).repeat(64);
    let meters: Vec<SimMeter> = (0..64).map(|k| water(k, k as u32)).collect();
    let mut calls = vec![open(&meters), send(full), send(nke(1).repeat(205)), send(nke(1))];
    calls.extend([nke(1), nke(1).repeat(205)].map(|piece| Call::Send { piece, clock: bad(2) }));
    each("refusals of a full queue", calls);
}

//! Exports: after address and baud changes, of every kind of meter, into every length of memory; and of any bytes as an
//! image.
use super::*;
use crate::calls::Side;
use crate::layout::list_of;
use crate::library::{BUS, COUNT, IMAGE, METER, METERS, PARTS};
use crate::random::{Random, RATES};
use crate::rust::Rust;
use oracle::sim::builtins;
use reference::EXPORT;
use std::ops::Range;

pub fn lists(each: Each) {
    lengths(each);
    kinds(each);
    built_in(each);
    primaries(each);
    bauds(each);
    not_told(each);
    told(each);
    refused(each);
    images(each);
    codes(each);
    counts(each);
}

/// How many bytes an export writes; 0 where it is refused.
fn length(rust: &mut Rust, call: &Call) -> usize {
    (rust.answer(call).returned % 65_536) as usize
}

/// The calls with exports after each of them: into no memory, one byte less than the list, as many, and more.
fn exported(each: Each, name: &str, calls: Vec<Call>) {
    let mut rust = Rust::new();
    let mut out = Vec::new();
    for call in calls {
        rust.answer(&call);
        out.push(call);
        let n = length(&mut rust, &export(EXPORT));
        out.extend([0, n.saturating_sub(1), n, n + 1, EXPORT].map(export));
    }
    each(&format!("{name}, exported"), out);
}

/// Meters with the longest record that there is.
fn longest(count: u8) -> Vec<SimMeter> {
    (0..count).map(|k| at_baud(meter(250, 99_999_999 - k as u32, "ZZZ", "electricity", "wrong_address"), 38_400)).collect()
}

fn lengths(each: Each) {
    each("export of a segment never opened", [0, 1, 2, 3, 4, EXPORT].map(export).to_vec());
    let shortest: Vec<SimMeter> = (0..64).map(|k| meter(k, k as u32, "", "heat_old", "busy")).collect();
    let some = [vec![], shortest[..1].to_vec(), longest(1), few(), shortest, longest(64)];
    for meters in &some {
        let n = list_bytes(meters).len();
        let calls = (0..=n + 20).chain([EXPORT, EXPORT + 1, 5000, 65_535, 65_536, 70_000]).map(export);
        each(&format!("export of {} meters, every length", meters.len()), [vec![open(meters)], calls.collect()].concat());
    }
    assert_eq!(list_bytes(&some[5]).len(), EXPORT);
    for n in 0..=64 {
        let meters: Vec<SimMeter> = (0..n).map(|k| water(k, 10_000_000 + k as u32)).collect();
        exported(each, &format!("{n} meters"), vec![open(&meters), set_baud(300)]);
    }
}

/// Every medium with every fault, and a heat_old without a manufacturer beside one with each.
fn kinds(each: Each) {
    exported(each, "every kind", vec![open(&every_kind()), send(request(FE)), set_baud(9600)]);
    for m in every_kind() {
        exported(each, &format!("{} {}", m.medium, m.fault), vec![open(std::slice::from_ref(&m))]);
    }
    for fault in FAULTS {
        let old = |maker: &str| meter(7, 70_000_007, maker, "heat_old", fault);
        let calls = ["", "AAA", "KAM", "ZZZ"].map(|maker| open(&[old(maker), old("")]));
        exported(each, &format!("heat_old {fault}"), calls.to_vec());
    }
}

fn built_in(each: Each) {
    for s in builtins() {
        for baud in RATES {
            for practice in [false, true] {
                let mut calls = vec![Call::Open { list: list_bytes(&s.meters), baud, practice, origin: 1.0e9 }];
                calls.extend(RATES.map(set_baud));
                calls.extend([send(long(0x53, FE, 0xB8, &[])), send(long(0x53, 3, 0x51, &[1, 0x7A, 33])), set_baud(300)]);
                exported(each, &format!("{} at {baud}, practice {practice}", s.key), calls);
            }
        }
    }
}

/// Every primary, by each kind of address; then 250 for the same meters, so that none is above it.
fn primaries(each: Each) {
    for p in 0..=255 {
        for to in [1, FD, FE, FF] {
            let change = |to: u8, p: u8| send(long(0x53, to, 0x51, &[1, 0x7A, p]));
            let mut calls = vec![open(&few()), send(select(&[0x78, 0x56, 0x34, 0x12, 0xFF, 0xFF, 0xFF, 0xFF]))];
            calls.extend([change(to, p), Call::Clear, change(p, 250), change(FF, 250)]);
            exported(each, &format!("primary {p:02X} by {to:02X}"), calls);
        }
    }
    // A high primary at any place, which another baud does not hide.
    let meters: Vec<SimMeter> = (0..64).map(|k| water(k, 12_345_600 + k as u32)).collect();
    for place in 0..64 {
        let change = |to: u8, ci: u8, data: &[u8]| send(long(0x53, to, ci, data));
        let mut calls = vec![open(&meters), change(place, 0x51, &[1, 0x7A, 250]), change(250, 0x51, &[1, 0x7A, 251])];
        calls.extend([change(251, 0xBD, &[]), set_baud(9600), change(251, 0x51, &[1, 0x7A, 255]), change(FF, 0x51, &[1, 0x7A, 0])]);
        exported(each, &format!("a high primary at place {place}"), calls);
    }
}

/// Every rate of a meter at every rate of the bus.
fn bauds(each: Each) {
    for (k, rate) in RATES.iter().enumerate() {
        for address in [1, 2, 3, FD, FE, FF] {
            let change = send(long(0x53, address, 0xB8 + k as u8, &[]));
            let mut calls = vec![open(&few()), send(select_all()), change];
            calls.extend([*rate, 2400, 9600, *rate].map(set_baud));
            exported(each, &format!("rate {rate} for address {address:02X}"), calls);
        }
    }
    for practice in [false, true] {
        for bus in RATES {
            let mut all: Vec<SimMeter> = RATES.iter().enumerate().map(|(k, r)| at_baud(water(k as u8, k as u32), *r)).collect();
            all.push(water(9, 9));
            let mut calls = vec![Call::Open { list: list_bytes(&all), baud: bus, practice, origin: 0.0 }];
            calls.extend(RATES.iter().flat_map(|r| [set_baud(*r), set_baud(r + 1)]));
            exported(each, &format!("own bauds at {bus}, practice {practice}"), calls);
        }
    }
}

/// What an export does not tell: exports at one bus baud stay as they are.
fn not_told(each: Each) {
    for meters in [few(), every_kind(), builtins()[0].meters.clone()] {
        let mut calls = vec![open(&meters), send(request(FE)), send(short(0x7B, FE)), send(select_all()), send(request(FD)), receive(32)];
        calls.extend([send(nke(1)), send(long(0x53, FE, 0x50, &[1])), send([0x68, 9, 9, 0x68]), Call::Clear, set_baud(2400)]);
        calls.extend([search(u32::MAX, 64), search(5, 64), send(nke(FE)), search(5, 64), send(vec![0; 1025]), set_baud(2401), open_list(vec![1])]);
        let again = |practice: bool, origin: f64| Call::Open { list: list_bytes(&meters), baud: 2400, practice, origin };
        calls.extend([again(false, f64::NAN), again(true, -1.0)]);
        exported(each, &format!("{} meters, what is not told", meters.len()), calls);
    }
}

/// Two meters, of which one differs from opening to opening in one part, in every value of it; in both orders.
fn told(each: Each) {
    let base = || meter(5, 12_345_678, "KAM", "water", "none");
    let mut varied = |name: &str, meters: Vec<SimMeter>| {
        let openings = meters.iter().flat_map(|m| [open(&[m.clone(), base()]), open(&[base(), m.clone()])]);
        exported(each, &format!("every {name}"), openings.collect());
    };
    varied("primary", (0..=250).map(|primary| SimMeter { primary, ..base() }).collect());
    varied("version", (0..=255).map(|version| SimMeter { version, ..base() }).collect());
    varied("medium", MEDIA.map(|(medium, _)| SimMeter { medium: medium.into(), ..base() }).to_vec());
    varied("fault", FAULTS.map(|fault| SimMeter { fault: fault.into(), ..base() }).to_vec());
    varied("own baud", RATES.map(|rate| at_baud(base(), rate)).to_vec());
    let one_of = |text: &str, with: Range<u8>| -> Vec<String> {
        let places = 0..text.len();
        places.flat_map(|k| with.clone().map(move |b| (k, b))).map(|(k, b)| String::from_utf8(with_byte(text.as_bytes(), k, b)).unwrap()).collect()
    };
    varied("digit", one_of("12345678", b'0'..b'9' + 1).into_iter().map(|id| SimMeter { id, ..base() }).collect());
    varied("letter", one_of("KAM", b'A'..b'Z' + 1).into_iter().map(|manufacturer| SimMeter { manufacturer, ..base() }).collect());
    let counts = (0..=64).map(|n| open(&vec![base(); n]));
    exported(each, "every number of meters alike", counts.collect());
}

/// A refused opening and a refused baud change leave the segment; an exported list opens in its place.
fn refused(each: Each) {
    for numbers in [&[4][..], &[5], &[9]] {
        let calls = vec![open_list(list_of(&[failing_with(numbers)])), open(&few()), open_list(list_of(&[failing_with(numbers)])), set_baud(0)];
        exported(each, &format!("a refused opening, {numbers:?}"), calls);
    }
    for baud in RATES {
        let mut rust = Rust::new();
        let mut calls = vec![open(&builtins()[0].meters), send(long(0x53, 1, 0x51, &[1, 0x7A, 100])), send(long(0x53, 2, 0xB8, &[])), set_baud(baud)];
        calls.iter().for_each(|call| drop(rust.answer(call)));
        let n = length(&mut rust, &export(EXPORT));
        let list = rust.answer(&export(n)).lent[0][..n].to_vec();
        calls.extend([Call::Open { list, baud, practice: false, origin: 7.0 }, send([nke(FE), request(FE)].concat()), Call::Clear, search(u32::MAX, 64)]);
        exported(each, &format!("opened as exported at {baud}"), calls);
    }
}

/// The parts of a meter: as an opening gives them, but for a high digit.
const PLAIN_METER: [u32; 15] = [5, 0x1234_567F, 0x2C2D, 1, 7, 2, 0, 0, 9600, 0, 0, 0, 0, 0, 1];

/// An image that tells a bus baud, a number of meters, and the parts of the first ones; what is not told is FF.
fn image(baud: u32, count: u16, meters: &[[u32; 15]]) -> Vec<u8> {
    let mut out = vec![FF; IMAGE];
    out[BUS..BUS + 4].copy_from_slice(&baud.to_le_bytes());
    out[COUNT..COUNT + 2].copy_from_slice(&count.to_le_bytes());
    for (meter, parts) in out[METERS..].chunks_mut(METER).zip(meters) {
        for (k, part) in parts.iter().enumerate() {
            let width = PARTS[k + 1] - PARTS[k];
            meter[PARTS[k]..PARTS[k + 1]].copy_from_slice(&part.to_le_bytes()[..width]);
        }
    }
    out
}

/// The exports of images, each into as many bytes as its list has, and into others.
fn exported_images(each: Each, name: &str, images: impl IntoIterator<Item = Vec<u8>>) {
    let mut rust = Rust::new();
    let mut calls = Vec::new();
    for image in images {
        let of = |lent: usize| Call::ExportOf { image: image.clone(), lent };
        let n = length(&mut rust, &of(EXPORT));
        calls.extend([n.saturating_sub(1), n, EXPORT].map(of));
    }
    each(&format!("{name}, exported"), calls);
}

/// Images of one byte throughout; every value of each byte that tells something; bytes of any kind.
fn images(each: Each) {
    for b in 0..=255 {
        exported_images(each, &format!("an image of bytes {b:02X}"), [vec![b; IMAGE]]);
    }
    let plain = image(2400, 1, &[PLAIN_METER]);
    for k in (0..18).chain(METERS..METERS + METER) {
        exported_images(each, &format!("byte {k} of an image"), (0..=255).map(|b| with_byte(&plain, k, b)));
    }
    let mut r = Random::new(4);
    for k in 0..200 {
        let mut any: Vec<u8> = (0..IMAGE).map(|_| r.below(256) as u8).collect();
        any[METERS..].chunks_mut(METER).for_each(|meter| meter[0] %= if k % 4 == 0 { 252 } else { 251 });
        exported_images(each, &format!("any bytes {k}"), [any]);
    }
    let values = [0, 1, 9, 256, 300, 2400, 9600, 38_400, 65_536 + 300, 300 << 16, 300u32.swap_bytes(), u32::MAX];
    for bus in values {
        let meters = values.map(|baud| with_parts(&[(8, baud)]));
        exported_images(each, &format!("bauds of an image at {bus}"), [image(bus, values.len() as u16, &meters)]);
    }
}

/// The plain meter with some parts changed.
fn with_parts(parts: &[(usize, u32)]) -> [u32; 15] {
    let mut meter = PLAIN_METER;
    parts.iter().for_each(|(k, value)| meter[*k] = *value);
    meter
}

/// Every manufacturer's code with each model, every medium's code with each model and some manufacturers, every digit.
fn codes(each: Each) {
    let mut all = |name: &str, meters: Vec<[u32; 15]>| {
        exported_images(each, name, meters.chunks(64).map(|some| image(2400, 64, some)));
    };
    for model in 0..=4 {
        for from in (0..65_536).step_by(4096) {
            let makers = (from..from + 4096).map(|code| with_parts(&[(2, code), (5, model)]));
            all(&format!("manufacturers from {from:04X}, model {model}"), makers.collect());
        }
        for maker in [0, 1, 0x2C2D, 0x8000] {
            let media = (0..256).map(|code| with_parts(&[(2, maker), (4, code), (5, model)]));
            all(&format!("every medium, manufacturer {maker:04X}, model {model}"), media.collect());
        }
    }
    let digits = (0..8).flat_map(|k| (0..16).map(move |d| with_parts(&[(1, 0x9876_5432 & !(0xF << (4 * k)) | d << (4 * k))])));
    all("every digit", digits.collect());
}

/// Every number of meters; those that are not counted have high primaries, and so has one that is.
fn counts(each: Each) {
    for count in (0..=300).chain([511, 512, 32_768, 65_535]) {
        let told = usize::from(count).min(64);
        let whole = image(2400, count, &vec![PLAIN_METER; told]);
        let high = |place: &usize| with_byte(&whole, METERS + METER * place, if place % 2 == 0 { 251 } else { 255 });
        let places = [0, told / 2, told.saturating_sub(1)];
        let highs: Vec<Vec<u8>> = places.iter().filter(|place| **place < told).map(high).collect();
        exported_images(each, &format!("{count} meters counted"), [vec![whole.clone()], highs].concat());
    }
}

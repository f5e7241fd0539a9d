//! Openings: the number of meters, the layout, each field of a record, baud rates.
use super::*;
use crate::layout::list_of;
use crate::random::RATES;
use oracle::sim::builtins;
use std::ops::RangeInclusive;

/// Two meters: the shortest record that passes, and one with an own baud and a long medium.
fn two() -> Vec<u8> {
    list_bytes(&[meter(1, 12_345_678, "", "heat_old", "busy"), at_baud(meter(250, 99_999_999, "ZRI", "electricity", "wrong_address"), 9600)])
}

/// Each list opened after the other on one segment, so that a refused one is seen to leave the former.
fn opened(each: Each, name: &str, lists: impl IntoIterator<Item = Vec<u8>>) {
    let calls: Vec<Call> = lists.into_iter().map(open_list).collect();
    for (k, part) in calls.chunks(256).enumerate() {
        each(&format!("{name}, part {k}"), part.to_vec());
    }
}

pub fn lists(each: Each) {
    counts(each);
    layouts(each);
    texts(each);
    several(each);
    bauds(each);
}

fn counts(each: Each) {
    for n in [0, 1, 2, 62, 63, 64, 65, 66, 128, 255, 256, 1500] {
        let meters: Vec<SimMeter> = (0..n).map(|k| water(k as u8 % 251, 10_000_000 + k)).collect();
        each(&format!("opening {n} meters"), vec![open(&few()), open(&meters), send(nke(FE)), receive(32), send(request(FE)), receive(64)]);
        each(&format!("first opening, {n} meters"), vec![open(&meters), send(nke(FE)), search(1, 64)]);
    }
    for s in builtins() {
        each(&format!("built-in list {}", s.key), vec![open(&s.meters), send([nke(FE), request(FE)].concat()), receive(32)]);
    }
    // As many records as the count of bytes can tell, and bytes past it.
    let least = record(0, 0, [b"", b"", b"", b""]);
    let longest = record(0, 0, [&[b'0'; 245], b"", b"", b""]);
    assert_eq!((least.len(), longest.len()), (10, 255));
    for (short, long) in [(5957, 0), (5958, 0), (0, 255), (0, 256), (23, 255), (11, 255), (64, 0), (65, 0), (0, 64), (0, 65)] {
        let records = [vec![least.clone(); short], vec![longest.clone(); long]].concat();
        each(&format!("opening {short} shortest and {long} longest records"), vec![open_list(list_of(&records))]);
    }
}

fn layouts(each: Each) {
    let some = [0u8, 1, 2, 3, 255];
    let ones: Vec<Vec<u8>> = some.iter().map(|b| vec![*b]).collect();
    let longer = |lists: &[Vec<u8>]| -> Vec<Vec<u8>> { lists.iter().flat_map(|l| some.map(|b| [&l[..], &[b]].concat())).collect() };
    let twos = longer(&ones);
    let threes = longer(&twos);
    opened(each, "lists of 0 to 4 bytes", [vec![vec![]], ones, twos, threes.clone(), longer(&threes)].concat());
    opened(each, "every list of 1 byte", (0..=255).map(|b| vec![b]));
    opened(each, "every list of 2 bytes from 01", (0..=255).map(|b| vec![1, b]));
    opened(each, "every count in 3 bytes", (0..=255).flat_map(|b| [vec![1, 0, b], vec![1, b, 0], vec![b, 0, 0]]));
    let two = two();
    let fitted = |k: usize| [&[1, 0, (k - 3) as u8][..], &two[3..k]].concat();
    opened(each, "every truncation", (0..two.len()).map(|k| two[..k].to_vec()));
    opened(each, "every truncation, counted", (3..two.len()).map(fitted));
    opened(each, "bytes past the end", (0..=255).map(|b| [&two[..], &[b]].concat()));
    opened(each, "every byte left out", (0..two.len()).map(|k| [&two[..k], &two[k + 1..]].concat()));
    for k in 0..two.len() {
        opened(each, &format!("byte {k} of a list"), (0..=255).map(|b| with_byte(&two, k, b)));
    }
    // Two lengths that make up for one another.
    for (a, b) in [(3, 10), (10, 19), (19, 20), (20, 29), (3, 34), (29, 34)] {
        let shifted = |d: u8| with_byte(&with_byte(&two, a, two[a].wrapping_add(d)), b, two[b].wrapping_sub(d));
        opened(each, &format!("lengths at {a} and {b}"), (0..=255).map(shifted));
    }
}

fn texts(each: Each) {
    let keys: Vec<&str> = MEDIA.iter().map(|(k, _)| *k).chain(FAULTS).chain(["", "12345678", "KAM", "AAA", "ZZZ"]).collect();
    let mut texts: Vec<Vec<u8>> = Vec::new();
    for key in keys {
        let key = key.as_bytes();
        texts.extend([key.to_vec(), key[..key.len().saturating_sub(1)].to_vec(), key.to_ascii_uppercase(), key.to_ascii_lowercase()]);
        texts.extend([[key, b"0"].concat(), [key, b"\0"].concat(), [b"x", key].concat()]);
    }
    texts.extend((0..=12).map(|n| vec![b'7'; n]));
    texts.extend((0..=5).map(|n| vec![b'M'; n]));
    // Beside the letters and the digits; characters of two bytes.
    let beside: [&[u8]; 9] = [b"@AZ", b"AZ[", b"`AA", b"aaa", b"\xC3\x84A", b"\xC4AA", b"1234567:", b"/2345678", b"\xC2\xB2\xC2\xB2\xC2\xB2\xC2\xB2"];
    texts.extend(beside.map(<[u8]>::to_vec));
    for (place, what) in ["id", "manufacturer", "medium", "fault"].iter().enumerate() {
        for medium in [&b"water"[..], b"heat_old"] {
            let with = |t: &Vec<u8>| {
                let mut four: [&[u8]; 4] = [b"12345678", b"SEN", medium, b"none"];
                four[place] = t;
                list_of(&[record(1, 0, four)])
            };
            opened(each, &format!("{what} of a meter"), texts.iter().map(with));
        }
    }
    let bare = |(medium, _): &(&str, u8)| list_of(&[record(1, 0, [b"12345678", b"", medium.as_bytes(), b"none"])]);
    opened(each, "no manufacturer", MEDIA.iter().map(bare));
    for k in 0..3 {
        let with = |b: u8| list_of(&[record(1, 0, [b"12345678", &with_byte(b"AMZ", k, b), b"water", b"none"])]);
        opened(each, &format!("letter {k} of a manufacturer"), (0..=255).map(with));
    }
}

/// Every choice of the numbers 1 to 10 at once, so that their order is seen: 4 to 9 in one record, or over two of them.
fn several(each: Each) {
    let good = failing_with(&[]);
    for apart in [false, true] {
        let mut calls = vec![open(&few())];
        for set in 0..1u32 << 10 {
            let on = |number: u32| set >> (number - 1) & 1 == 1;
            let of = |numbers: RangeInclusive<u32>| failing_with(&numbers.filter(|n| on(*n)).collect::<Vec<u32>>());
            let mut records = if apart { vec![good.clone(), of(7..=9), of(4..=6)] } else { vec![of(4..=9), good.clone()] };
            records.extend(vec![good.clone(); if on(3) { 65 } else { 0 }]);
            let mut list = list_of(&records);
            list[0] += on(1) as u8;
            list[2] = list[2].wrapping_add(on(2) as u8);
            calls.push(Call::Open { list, baud: if on(10) { 2399 } else { 2400 }, practice: false, origin: 0.0 });
        }
        each(if apart { "faults of several records" } else { "faults of one record" }, calls);
    }
}

fn around() -> Vec<u32> {
    let near = RATES.iter().flat_map(|r| [r - 1, *r, r + 1, r.swap_bytes(), r << 16, r + 65_536]);
    near.chain([0, 1, u32::MAX, 115_200, 76_800, 150]).collect()
}

fn bauds(each: Each) {
    let mut calls = vec![open(&few())];
    for baud in around() {
        for practice in [false, true] {
            calls.push(Call::Open { list: two(), baud, practice, origin: 0.0 });
        }
        calls.extend([send([0x10]), set_baud(baud), send(nke(FE)), Call::Clear]);
    }
    each("bus baud", calls);
    let own = |baud: u32| list_of(&[record(1, baud, [b"12345678", b"SEN", b"water", b"none"])]);
    opened(each, "own baud", around().into_iter().map(own));
    for practice in [false, true] {
        for bus in RATES {
            let mut all: Vec<SimMeter> = RATES.iter().enumerate().map(|(k, r)| at_baud(water(k as u8, k as u32), *r)).collect();
            all.push(water(9, 9));
            let mut calls = vec![Call::Open { list: list_bytes(&all), baud: bus, practice, origin: 0.0 }];
            for r in RATES {
                calls.extend([send(nke(FE)), search(u32::MAX, 64), Call::Clear, search(u32::MAX, 64)]);
                calls.extend([set_baud(r), send(request(FE)), receive(64), Call::Clear]);
            }
            each(&format!("own bauds at {bus}, practice {practice}"), calls);
        }
    }
}

//! The telegram reader and writer: all short inputs, all lengths, all damage to good telegrams.
use super::*;

pub fn lists(each: Each) {
    short_inputs(each);
    long_inputs(each);
    written(each);
}

fn encode(kind: u8, fields: [u8; 3], data: &[u8], lent: usize) -> Call {
    Call::Encode { kind, control: fields[0], address: fields[1], ci: fields[2], data: data.to_vec(), lent }
}

fn short_inputs(each: Each) {
    each("read no byte", vec![parse([])]);
    for a in 0..=255 {
        let calls = (0..=255).map(|b| parse([a, b]));
        each(&format!("read 1 and 2 bytes from {a:02X}"), [vec![parse([a])], calls.collect()].concat());
        // Every short telegram, read and written, and with a wrong sum.
        let mut calls = Vec::new();
        for b in 0..=255 {
            let good = short(a, b);
            calls.extend([parse(with_byte(&good, 3, good[3].wrapping_add(b | 1))), parse(good), encode(1, [a, b, a ^ b], &[], 5)]);
        }
        each(&format!("short telegrams of C {a:02X}"), calls);
        // Every pair of length bytes, with and without the second start.
        let lengths = (0..=255).flat_map(|b| [parse([0x68, a, b, 0x68]), parse([0x68, a, b, b]), parse([0x68, a, b])]);
        each(&format!("length {a:02X}"), lengths.collect());
    }
}

/// Data that differ from byte to byte and hold start and stop bytes.
fn data(n: usize) -> Vec<u8> {
    (0..n).map(|k| [0x16, 0x68, 0x10, 0xE5, 0xFF, k as u8, 0x80][k % 7]).collect()
}

fn long_inputs(each: Each) {
    let good = [vec![0xE5], request(FE), select_all(), long(0, 0, 0, &[]), long(0x08, 1, 0x72, &data(20)), long(FF, FF, FF, &[FF])];
    for (i, t) in good.iter().enumerate() {
        let mut calls: Vec<Call> = (0..=t.len()).map(|k| parse(&t[..k])).collect();
        calls.extend((1..t.len()).map(|k| parse(&t[k..])));
        calls.extend((0..=255).map(|b| parse([&t[..], &[b]].concat())));
        calls.extend([parse([&t[..], t].concat()), parse([&t[..], &[0x16; 70_000]].concat())]);
        for k in 0..t.len() {
            calls.extend((0..=255).map(|b| parse(with_byte(t, k, b))));
        }
        for (k, part) in calls.chunks(256).enumerate() {
            each(&format!("telegram {i} cut and damaged, part {k}"), part.to_vec());
        }
    }
    // Every length of data: whole, cut by one, longer by one, sum and stop wrong, both wrong.
    for n in 0..=252 {
        let t = long(0x53, n as u8, 0x50, &data(n));
        let (sum, stop) = (t.len() - 2, t.len() - 1);
        let bad = with_byte(&t, sum, t[sum] ^ 0x5A);
        let mut calls = vec![parse(&t[..]), parse(&t[..sum]), parse(&t[..stop]), parse([&t[..], &[0x16]].concat())];
        calls.extend([parse(with_byte(&t, stop, 0x17)), parse(with_byte(&bad, stop, 0)), parse(bad)]);
        // The Rust's bytes for more data than a length can tell are read as their own length says.
        calls.push(parse(long(0x53, n as u8, 0x50, &data(n + 253))));
        calls.extend((0..t.len()).map(|k| parse(with_byte(&t, k, t[k].wrapping_add(1)))));
        calls.extend((0..t.len()).step_by(9).map(|k| parse(&t[..k])));
        each(&format!("a telegram of {n} data bytes"), calls);
    }
    for l in 0..=255u8 {
        let sum = |bytes: &[u8]| bytes.iter().fold(0u8, |s, b| s.wrapping_add(*b));
        let body = data(l as usize);
        let whole = [&[0x68, l, l, 0x68][..], &body, &[sum(&body), 0x16]].concat();
        each(&format!("length byte {l:02X}"), (0..=whole.len()).map(|k| parse(&whole[..k])).collect());
    }
}

fn written(each: Each) {
    // Every length of data, into every length of lent memory.
    for n in (0..=256).chain([259, 260, 300, 511, 512, 65_535, 65_536, 65_540]) {
        let d = data(n);
        let mut calls: Vec<Call> = (0..=262).map(|lent| encode(2, [0x53, n as u8, 0x51], &d, lent)).collect();
        calls.extend([n + 8, n + 9, n + 10, 5000].map(|lent| encode(2, [0xFF, 0xFF, 0xFF], &d, lent)));
        // ACK and short telegrams have no data, however many there are.
        calls.extend((0..=7).flat_map(|lent| [encode(0, [1, 2, 3], &d, lent), encode(1, [1, 2, 3], &d, lent)]));
        each(&format!("write {n} data bytes"), calls);
    }
    for kind in 0..=255 {
        let calls = (0..=14).flat_map(|lent| [encode(kind, [0x53, 0xFD, 0x52], &[1, 2, 3], lent), encode(kind, [0x40, 1, 0], &[], lent)]);
        each(&format!("write kind {kind}"), calls.collect());
    }
    // Every value of each field and of a data byte.
    for b in 0..=255 {
        let mut calls = vec![encode(0, [b; 3], &[], 1), encode(2, [b; 3], &[b; 252], 261), encode(2, [0x80; 3], &[0, b], 11)];
        calls.extend([[b, 0, 0], [0, b, 0], [0, 0, b]].map(|fields| encode(2, fields, &[], 9)));
        each(&format!("write fields {b:02X}"), calls);
    }
}

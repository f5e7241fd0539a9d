//! The bytes due: good telegrams cut at every byte, alone and behind a complete one, in one piece and in several; wrong
//! headers, invalid telegrams, refused sends, and what else empties the waiting input.
use super::*;
use reference::Clock;

pub fn lists(each: Each) {
    first_bytes(each);
    cut(each);
    headers(each);
    invalid(each);
    refused(each);
    emptied(each);
}

fn first_bytes(each: Each) {
    for bytes in [&[][..], &[0x10u8], &[0x68], &[0xE5], &[0]] {
        let calls = vec![parse(bytes), send(bytes), send([]), open(&few()), send(bytes), send([]), send([0x10]), send([0x68])];
        each("nothing, and one byte", calls);
    }
}

/// A part of a telegram is sent, then its rest, and nothing between and after them.
fn cut(each: Each) {
    let mut good = vec![vec![0xE5], nke(1), request(FE), select_all()];
    good.extend([0, 1, 2, 100, 251, 252].map(|n| long(0x53, 1, 0x50, &vec![0x68; n])));
    assert_eq!(good.last().map(|t| (t.len(), t[1])), Some((261, 255)));
    for t in &good {
        for k in 0..=t.len() {
            let (a, b) = t.split_at(k);
            let alone = vec![open(&few()), parse(a), send(a), send([]), send(b), send([])];
            each(&format!("a telegram of {} bytes cut at {k}", t.len()), alone);
            for before in [vec![0xE5], nke(FE), select_all(), [request(1), nke(1)].concat()] {
                let piece = [&before[..], a].concat();
                let mut calls = vec![open(&few()), parse(&piece[..]), send(&piece[..]), send([]), send(b), set_baud(2400), Call::Clear];
                // The complete one in a piece of its own; its last byte with the part; each but its last byte with it.
                calls.extend([send(&before[..]), send(a), send(b), set_baud(2400), Call::Clear]);
                let (most, last) = before.split_at(before.len() - 1);
                calls.extend([send(most), send([last, a].concat()), send(b), set_baud(2400), Call::Clear]);
                let (one, more) = before.split_at(1);
                calls.extend([send(one), send([more, a].concat()), send(b)]);
                each(&format!("a telegram of {} bytes cut at {k} behind {}", t.len(), before.len()), calls);
            }
        }
        let bytes = t.iter().chain(t).map(|b| send([*b]));
        each(&format!("a telegram of {} bytes twice, byte by byte", t.len()), [vec![open(&few())], bytes.collect()].concat());
        // As a reader of what is due sends it.
        let (mut calls, mut at) = (vec![open(&few())], 0);
        while let Some(due) = reference::due(&t[..at]) {
            calls.push(send(&t[at..at + due]));
            at += due;
        }
        assert_eq!(at, t.len());
        each(&format!("a telegram of {} bytes as it is due", t.len()), calls);
    }
}

/// Length bytes that differ, lengths below 3, a wrong second start: seen with the fourth byte and not before.
fn headers(each: Each) {
    for l in [0u8, 1, 2, 3, 4, 0x10, 0x68, 0xE5, 0xFE, 0xFF] {
        let mut calls = vec![open(&few())];
        for again in 0..=255 {
            for start in [0x68, 0x10] {
                calls.extend([send([0x68, l]), send([again]), send([start]), set_baud(2400), send([0xE5, 0x68, l, again]), set_baud(2400)]);
            }
        }
        each(&format!("header with length {l:02X}"), calls);
    }
    for l in 0..=255u8 {
        let header = [0x68, l, l, 0x68];
        let calls = vec![open(&few()), parse(header), send(header), send([]), set_baud(2400), send([&nke(1)[..], &header].concat())];
        each(&format!("header of length {l:02X}"), calls);
    }
}

/// An invalid telegram drops the rest of the input, so that nothing waits.
fn invalid(each: Each) {
    let shorts = [with_byte(&nke(1), 3, 0), with_byte(&nke(1), 4, 0)];
    let mut wrong = vec![vec![0], vec![0x16], vec![0x68, 3, 4, 0x68], vec![0x68, 3, 3, 0x10], vec![0x68, 2, 2, 0x68]];
    wrong.extend(shorts);
    for n in [0, 20, 252] {
        let t = long(0x53, 1, 0x50, &vec![0x10; n]);
        wrong.extend([with_byte(&t, t.len() - 2, t[t.len() - 2] ^ 1), with_byte(&t, t.len() - 1, 0)]);
    }
    for t in &wrong {
        for k in 0..=t.len() {
            let (a, b) = t.split_at(k);
            for after in [vec![], vec![0x10], vec![0x68, 9, 9, 0x68], nke(1)] {
                let rest = [b, &after].concat();
                let mut calls = vec![open(&few()), send(a), send(&rest[..]), send([]), set_baud(2400)];
                calls.extend([send([&nke(FE)[..], a].concat()), send(rest), send([0x68]), parse([&t[..], &after].concat())]);
                each(&format!("an invalid telegram of {} bytes, cut at {k}, and {}", t.len(), after.len()), calls);
            }
        }
    }
}

/// A refused send says 0, and what waited still waits.
fn refused(each: Each) {
    let bad = Clock { month: 13, ..PLAIN };
    let meters: Vec<SimMeter> = (0..64).map(|k| water(k, k as u32)).collect();
    let full = || vec![open(&meters), send(nke(FE).repeat(64))];
    let longest = long(0x53, 1, 0x50, &[0x10; 252]);
    for t in [nke(1), select_all(), longest] {
        for k in 0..t.len() {
            let (a, b) = t.split_at(k);
            let mut calls = [full(), vec![send(a), send(vec![0x10; 1025]), send([])]].concat();
            calls.extend([b.to_vec(), vec![], vec![0x68]].map(|piece| Call::Send { piece, clock: bad }));
            // The queue is full.
            calls.extend([send([]), send([b, &nke(1), &[0x10]].concat()), send([]), send([b, &nke(1)[..3]].concat()), send([])]);
            each(&format!("refused with {k} of {} bytes waiting", t.len()), calls);
        }
    }
}

fn emptied(each: Each) {
    for waits in [vec![], vec![0x10], vec![0x68], vec![0x68, 0xFF, 0xFF, 0x68], nke(1)[..4].to_vec()] {
        let mut calls = vec![open(&few()), send(&waits[..]), Call::Clear, send([]), set_baud(2401), send([]), set_baud(2400), send([])];
        calls.extend([send(&waits[..]), open_list(vec![2]), send([]), open(&few()), send([]), send(&waits[..]), receive(9), send([])]);
        calls.extend([search(9, 64), send([]), set_baud(300), search(9, 64), send([])]);
        each(&format!("{} bytes wait, and are dropped", waits.len()), calls);
    }
}

//! The limits of a piece, of the waiting input, of the queue and of a receive.
use super::*;

pub fn lists(each: Each) {
    pieces(each);
    waiting(each);
    queue(each);
    received(each);
}

/// The longest telegram, 261 bytes.
fn longest() -> Vec<u8> {
    long(0x53, FE, 0x50, &[0x10; 252])
}

/// Telegrams of no meter of `few`, then bytes of ACK, together `n` bytes.
fn filled(n: usize) -> Vec<u8> {
    [short(0x40, 9).repeat(n / 5), vec![0xE5; n % 5]].concat()
}

fn pieces(each: Each) {
    let mut calls = vec![open(&few())];
    calls.extend((0..=1030).map(|n| send(vec![0xE5; n])));
    each("every length of a piece", calls);
    for n in [1019, 1020, 1021, 1022, 1023, 1024, 1025, 1026, 1279, 1280, 2048, 65_536, 100_000] {
        let bytes = [("ACK", 0xE5), ("zeros", 0), ("starts", 0x68), ("short starts", 0x10)].map(|(what, b)| (what, vec![b; n]));
        for (what, piece) in bytes.into_iter().chain([("telegrams", filled(n))]) {
            let calls = vec![open(&few()), send(&piece[..]), send(nke(1)), send(&longest()[..260]), send(&piece[..]), send(nke(1)), receive(32)];
            each(&format!("a piece of {n} bytes, {what}"), calls);
        }
    }
}

/// Any number of bytes of the longest telegram wait; then comes a piece of each kind.
fn waiting(each: Each) {
    let longest = longest();
    for k in 0..=260 {
        let rest = longest[k..].to_vec();
        let pieces = [
            vec![],
            rest.clone(),
            rest[..rest.len() - 1].to_vec(),
            [rest.clone(), filled(1024 - rest.len())].concat(),
            [rest.clone(), longest[..k].to_vec()].concat(),
            vec![0x10; 1024],
            vec![0xE5],
            vec![0x68; 1025],
        ];
        for piece in pieces {
            let calls = vec![open(&few()), send(&longest[..k]), send(piece), send(rest.clone()), search(9, 64), send(nke(FE)), receive(32)];
            each(&format!("{k} bytes wait"), calls);
        }
        each(&format!("{k} bytes wait, baud set"), vec![open(&few()), send(&longest[..k]), set_baud(2400), send(nke(1)), Call::Clear, search(9, 64)]);
        each(&format!("{k} bytes wait, opening"), vec![open(&few()), send(&longest[..k]), open_list(vec![2]), open(&few()), send(rest)]);
    }
    // Byte by byte.
    let calls = longest.iter().map(|b| send([*b]));
    each("the longest telegram byte by byte", [vec![open(&few())], calls.collect()].concat());
}

/// `n` bytes of ACK, in pieces of at most 1,000 bytes: 64 by a telegram to all, the rest by telegrams to one.
fn acks(n: usize) -> Vec<Call> {
    let telegrams = [vec![nke(FE); n / 64], vec![nke(7); n % 64]].concat();
    telegrams.chunks(200).map(|t| send(t.concat())).collect()
}

/// 64 meters, of which 0 to 55 are of every kind, none of them flaky.
fn sixty_four() -> Vec<SimMeter> {
    let mut meters = every_kind();
    meters.extend((56..64).map(|k| water(k, k as u32)));
    for m in &mut meters {
        if m.fault == "flaky" {
            m.fault = "none".into();
        }
    }
    meters
}

fn queue(each: Each) {
    let start = |n: usize| [vec![open(&sixty_four())], acks(n)].concat();
    // One by one over the limit, then room again by a receive of some bytes.
    for lent in 0..=33 {
        let mut calls = start(4090);
        calls.extend((0..9).map(|_| send(nke(7))));
        calls.push(receive(lent));
        calls.extend((0..3).map(|_| send(nke(7))));
        calls.extend([send(nke(FE)), send(nke(FF)), receive(64), receive(64), send(nke(FE)), Call::Clear, send(nke(FE))]);
        each(&format!("the queue full, {lent} lent"), calls);
    }
    for n in [4095, 4096, 4097] {
        let mut calls = start(n);
        calls.extend([search(1, 64), send([]), send([0xE5]), send([0x10]), send(nke(FF)), send(long(0x53, FF, 0x51, &[1, 0x7A, 9]))]);
        calls.extend([send(nke(FE)), receive(1)]);
        each(&format!("{n} acknowledgements"), calls);
    }
    // A reply of each kind that just fits, and one that just does not; by itself, or after an ACK in the same piece.
    for room in 0..=90 {
        let mut calls = start(4096 - room);
        calls.extend((0..8).flat_map(|k| [send([nke(7), request(7 * k)].concat()), send(request(7 * k))]));
        calls.extend([send(request(1)), send(request(2)), send(request(3)), send(short(0x7B, 7)), receive(5), send(request(FE)), send(request(FF))]);
        each(&format!("room for {room} bytes"), calls);
        for k in 0..56 {
            each(&format!("room for {room} bytes, meter {k}"), [start(4096 - room), vec![send(request(k)), send(short(0x7B, k))]].concat());
        }
    }
    // A refused piece changes nothing: what waited still waits, and its first telegrams have done nothing.
    let changes = [long(0x53, 1, 0x51, &[1, 0x7A, 77]), select_all(), request(3), vec![0x10, 0x40]].concat();
    for wait in 0..5 {
        let calls = [start(4032), vec![send(&nke(7)[..wait]), send([&nke(7)[wait..], &changes].concat()), Call::Clear, send(changes.clone())]].concat();
        each(&format!("a refused piece, {wait} bytes waiting"), calls);
    }
    // The most that one piece can ask for.
    for n in [63, 64, 65, 66, 204] {
        each(&format!("{n} telegrams to 64 meters in a piece"), vec![open(&sixty_four()), send(nke(FE).repeat(n)), send(nke(FE)), receive(64)]);
        each(&format!("{n} requests in a piece"), vec![open(&sixty_four()), send(request(0).repeat(n)), send(request(0)), receive(64)]);
    }
}

/// Every length of a receive over every length of the queue around it.
fn received(each: Each) {
    for queued in 0..=70 {
        let mut calls = vec![open(&sixty_four())];
        for lent in (0..=34).chain([63, 64, 65, 4096, 5000]) {
            calls.push(Call::Clear);
            calls.extend(acks(queued));
            calls.extend([receive(lent), receive(lent), receive(0)]);
        }
        each(&format!("{queued} bytes queued"), calls);
    }
    let mut calls = [vec![open(&sixty_four())], acks(4096)].concat();
    calls.extend((0..131).map(|_| receive(32)));
    calls.extend((1..=8).flat_map(|k| [send(request(7 * (k - 1))), receive(32), receive(32), receive(32), receive(32)]));
    each("the queue emptied", calls);
}

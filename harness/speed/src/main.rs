//! The time of the exported calls of libjezynar.a against the Rust's own, both in one run and on one thread, of an export against
//! `reference`, and of the routines that make BCD values; then the stack that each call takes.
//! usage: speed [ROUNDS]; the least of the rounds is taken on either side.
use library::{Image, ENTRIES, IMAGE, SUMMARY};
use oracle::link::Link;
use oracle::mbus::frame::{self, Frame, Parse};
use oracle::sim::{set_secs, SimMeter, Simulator};
use oracle::{set_now, Stamp};
use reference::{list_bytes, Clock, Segment, EXPORT};
use std::hint::black_box;
use std::time::{Duration, Instant};

mod bcd;
mod library;
mod stack;

const NOON: Clock = Clock { now: 3_725.5, year: 2026, month: 10, day: 1, hour: 12, minute: 34 };

/// Meters one after the other: primary addresses from 0, ids from `ids`.
fn meters(ids: impl Iterator<Item = u32>) -> Vec<SimMeter> {
    ids.enumerate().map(|(k, id)| SimMeter::new(k as u8, &format!("{id:08}"), "KAM", "heat")).collect()
}

/// 64 meters that share their first four digits.
fn many() -> Vec<SimMeter> {
    meters((0..64).map(|k| 12_340_000 + 97 * k))
}

/// 32 pairs that differ in the last digit alone and lie far apart: the search makes 2,031 probes.
fn pairs() -> Vec<SimMeter> {
    meters((0..32).flat_map(|k| {
        let first = k % 10 * 10_000_000 + k / 10 * 1_000_000;
        [first, first + 1]
    }))
}

/// The summary of a search of the pairs: 64 entries, 2,031 probes, the allowance not spent.
const SEARCHED: [u8; SUMMARY] = [64, 0, 0, 0, 0xEF, 0x07, 0, 0, 0, 0, 0, 0];

fn select(digits: [u8; 4]) -> Vec<u8> {
    let data = vec![digits[3], digits[2], digits[1], digits[0], 0xFF, 0xFF, 0xFF, 0xFF];
    Frame::snd_ud(frame::ADDR_SELECTED, frame::CI_SELECT, data).encode()
}

/// SND_NKE to all, so many times: each of 64 meters acknowledges each.
fn nke_all(times: usize) -> Vec<u8> {
    Frame::Short { control: frame::C_SND_NKE, address: frame::ADDR_BROADCAST_REPLY }.encode().repeat(times)
}

fn opened(list: &[SimMeter]) -> Box<Image> {
    let mut image = Box::new([0; IMAGE]);
    library::new(&mut image);
    assert_eq!(library::open(&mut image, &list_bytes(list)), 0);
    image
}

fn opened_rust(list: &[SimMeter]) -> Simulator {
    set_secs(0.0);
    let sim = Simulator::from_meters(2400, list, false);
    set_secs(NOON.now);
    sim
}

/// 64 meters and a queue of 64 bytes for each of `times`; 64 of them fill it.
fn queued(times: usize) -> Box<Image> {
    let mut image = opened(&many());
    assert_eq!(library::send(&mut image, &nke_all(times), &NOON), 0);
    image
}

fn queued_rust(times: usize) -> Simulator {
    let mut sim = opened_rust(&many());
    sim.send(&nke_all(times)).unwrap();
    sim
}

fn timed(run: impl FnOnce()) -> Duration {
    let begin = Instant::now();
    run();
    begin.elapsed()
}

/// The least time of a call over some rounds, in nanoseconds, of the library and of the Rust. A round is the time of so many
/// calls, a millisecond or two, so that of many rounds some are not disturbed; the sides take turns.
fn least(rounds: u32, calls: u32, mut ours: impl FnMut() -> Duration, mut rust: impl FnMut() -> Duration) -> [f64; 2] {
    let mut least = [Duration::MAX; 2];
    for _ in 0..rounds {
        least[0] = least[0].min(ours());
        least[1] = least[1].min(rust());
    }
    least.map(|time| time.as_secs_f64() / calls as f64 * 1e9)
}

fn show(name: &str, [ours, rust]: [f64; 2], goal: f64) {
    let decimals = (ours < 100.0) as usize;
    println!("{name:<44} {ours:>9.decimals$} ns {rust:>9.decimals$} ns   ratio {:>5.2}   goal {goal}{}", ours / rust, if ours / rust > goal { "   over" } else { "" });
}

/// A call that does next to nothing: tens of nanoseconds, whatever the Rust takes.
fn show_short(name: &str, [ours, rust]: [f64; 2]) {
    println!("{name:<44} {ours:>9.1} ns {rust:>9.1} ns   goal 100 ns{}", if ours > 100.0 { "   over" } else { "" });
}

/// A send, and a clear so that the next one finds the queue empty.
fn sends(rounds: u32, name: &str, list: &[SimMeter], piece: &[u8], goal: f64) {
    const CALLS: u32 = 1_000;
    let (mut image, mut sim) = (opened(list), opened_rust(list));
    assert_eq!(asked(&mut image, piece), asked_rust(&mut sim, piece));
    let ours = || {
        timed(|| {
            let mut accepted = 0;
            for _ in 0..CALLS {
                accepted += (library::send(&mut image, piece, &NOON) == 0) as u32;
                library::clear(&mut image);
            }
            assert_eq!(accepted, CALLS);
        })
    };
    let rust = || {
        timed(|| {
            for _ in 0..CALLS {
                sim.send(black_box(piece)).unwrap();
                sim.clear().unwrap();
            }
        })
    };
    show(name, least(rounds, CALLS, ours, rust), goal);
}

/// All replies to a piece.
fn asked(image: &mut Image, piece: &[u8]) -> Vec<u8> {
    assert_eq!(library::send(image, piece, &NOON), 0);
    drained(|buf| library::receive(image, buf))
}

fn asked_rust(sim: &mut Simulator, piece: &[u8]) -> Vec<u8> {
    sim.send(piece).unwrap();
    drained(|buf| sim.recv(buf, Duration::ZERO).unwrap())
}

fn drained(mut receive: impl FnMut(&mut [u8]) -> usize) -> Vec<u8> {
    let mut out = Vec::new();
    let mut buf = [0; 32];
    loop {
        let n = receive(&mut buf);
        if n == 0 {
            return out;
        }
        out.extend_from_slice(&buf[..n]);
    }
}

/// The Rust's side of a search: 01's walk over the Rust's own send and receive.
fn probe(sim: &mut Simulator, prefix: &mut Vec<u8>, found: &mut Vec<Vec<u8>>) -> u32 {
    let mut mask = [0xF; 8];
    mask[..prefix.len()].copy_from_slice(prefix);
    let pair = |k: usize| mask[k] * 16 + mask[k + 1];
    let acks = asked_rust(sim, &select([pair(0), pair(2), pair(4), pair(6)]));
    let count = acks.iter().filter(|b| **b == frame::ACK).count();
    let mut probes = 1;
    if count == 1 {
        let reply = asked_rust(sim, &Frame::req_ud2(frame::ADDR_SELECTED, false).encode());
        if let Parse::Complete(Frame::Long { data, .. }, _) = frame::parse(&reply) {
            found.push(data[..4].to_vec());
        }
    } else if count > 1 && prefix.len() < 8 {
        for d in 0..10 {
            prefix.push(d);
            probes += probe(sim, prefix, found);
            prefix.pop();
        }
    }
    probes
}

fn search(rounds: u32) {
    let (mut image, mut sim) = (opened(&pairs()), opened_rust(&pairs()));
    let ours = || {
        timed(|| {
            let (mut entries, mut summary) = ([0; ENTRIES], [0; SUMMARY]);
            assert_eq!(library::search(&mut image, &NOON, &mut entries, &mut summary), 0);
            assert_eq!(summary, SEARCHED);
        })
    };
    let rust = || {
        timed(|| {
            let mut found = Vec::new();
            assert_eq!(probe(&mut sim, &mut Vec::new(), &mut found), 2031);
            assert_eq!(black_box(found).len(), 64);
        })
    };
    show("search of 64 meters, 2,031 probes", least(rounds, 1, ours, rust), 0.15);
}

/// The Rust opens meters that are read already: its part is `check` of each and the segment anew. The library reads the list's bytes as well.
fn opening(rounds: u32) {
    const CALLS: u32 = 100;
    let list = many();
    let (mut image, bytes) = (opened(&list), list_bytes(&list));
    let ours = || timed(|| (0..CALLS).for_each(|_| assert_eq!(library::open(&mut image, &bytes), 0)));
    set_secs(0.0);
    let rust = || {
        timed(|| {
            for _ in 0..CALLS {
                for m in black_box(&list) {
                    m.check().unwrap();
                }
                black_box(Simulator::from_meters(2400, black_box(&list), false));
            }
        })
    };
    show("opening of 64 meters", least(rounds, CALLS, ours, rust), 0.6);
}

/// The Rust has no export: `reference` writes the list from the meters that the Rust has.
fn export(rounds: u32, list: &[SimMeter]) -> [f64; 2] {
    const CALLS: u32 = 200;
    let (image, mut segment) = (opened(list), Segment::new());
    assert_eq!(segment.open(&list_bytes(list), 2400, false, 0.0), (0, 0));
    let written = list_bytes(list);
    let (mut ours, mut theirs) = ([0; EXPORT], [0; EXPORT]);
    assert_eq!((library::export(&image, &mut ours), segment.export(&mut theirs)), ((0, written.len()), (0, written.len())));
    assert_eq!((&ours[..written.len()], ours), (&written[..], theirs));
    let ours = || timed(|| (0..CALLS).for_each(|_| assert_eq!(library::export(black_box(&image), &mut ours).0, 0)));
    let rust = || timed(|| (0..CALLS).for_each(|_| assert_eq!(segment.export(black_box(&mut theirs)).0, 0)));
    least(rounds, CALLS, ours, rust)
}

/// The cost goes by the number of meters: of four times as many it is at most four times, and the goal leaves room for noise.
fn exports(rounds: u32) {
    let (few, all) = (export(rounds, &many()[..16]), export(rounds, &many()));
    show("export of 16 meters, against reference", few, 0.3);
    show("export of 64 meters, against reference", all, 0.3);
    let times = all[0] / few[0];
    println!("{:<44} {times:>9.2} times   goal 4.5{}", "export of 64 meters, against that of 16", if times > 4.5 { "   over" } else { "" });
}

/// So many segments are made ready, untimed, and then timed together, so that reading the clock does not count.
const COPIES: u32 = 16;

/// Every receive hands out 32 bytes: `times` makes a queue of 64 * `times` bytes, which is taken to its end.
fn receives(rounds: u32, name: &str, times: usize) {
    let (image, sim) = (queued(times), queued_rust(times));
    let calls = times * 2;
    let mut buf = [0; 32];
    let ours = || {
        let mut images = vec![*image; COPIES as usize];
        timed(|| images.iter_mut().for_each(|image| (0..calls).for_each(|_| assert_eq!(library::receive(image, &mut buf), 32))))
    };
    let mut buf = [0; 32];
    let rust = || {
        let mut sims: Vec<Simulator> = (0..COPIES).map(|_| sim.copy()).collect();
        timed(|| sims.iter_mut().for_each(|sim| (0..calls).for_each(|_| assert_eq!(sim.recv(black_box(&mut buf), Duration::ZERO).unwrap(), 32))))
    };
    show_short(name, least(rounds, COPIES * calls as u32, ours, rust));
}

fn clears(rounds: u32, name: &str, times: usize) {
    let (image, sim) = (queued(times), queued_rust(times));
    let ours = || {
        let mut images = vec![*image; COPIES as usize];
        timed(|| images.iter_mut().for_each(library::clear))
    };
    let rust = || {
        let mut sims: Vec<Simulator> = (0..COPIES).map(|_| sim.copy()).collect();
        timed(|| black_box(&mut sims).iter_mut().for_each(|sim| sim.clear().unwrap()))
    };
    show_short(name, least(rounds, COPIES, ours, rust));
}

/// A call that can be made again and again on one segment.
fn again(rounds: u32, name: &str, mut ours: impl FnMut(&mut Image, u32), mut rust: impl FnMut(&mut Simulator, u32)) {
    const CALLS: u32 = 1_000;
    let (mut image, mut sim) = (opened(&many()), opened_rust(&many()));
    let ours = || timed(|| (0..CALLS).for_each(|k| ours(&mut image, k)));
    let rust = || timed(|| (0..CALLS).for_each(|k| rust(black_box(&mut sim), k)));
    show_short(name, least(rounds, CALLS, ours, rust));
}

fn short_calls(rounds: u32) {
    receives(rounds, "receive of 32 bytes, 64 queued", 1);
    receives(rounds, "receive of 32 bytes, queue full at first", 64);
    clears(rounds, "clear, queue empty", 0);
    clears(rounds, "clear, queue full", 64);
    let rate = |k: u32| [300, 2400][k as usize % 2];
    again(rounds, "baud change", |image, k| assert_eq!(library::set_baud(image, rate(k)), 0), |sim, k| sim.set_baud(rate(k)).unwrap());
    again(rounds, "send of nothing", |image, _| assert_eq!(library::send(image, &[], &NOON), 0), |sim, _| sim.send(black_box(&[])).unwrap());
}

fn main() {
    let rounds = std::env::args().nth(1).map_or(300, |a| a.parse().expect("a number of rounds"));
    set_now(Stamp { year: NOON.year as i32, month: NOON.month, day: NOON.day, hour: NOON.hour, minute: NOON.minute });
    println!("{:<44} {:>12} {:>12}", "", "library", "Rust");
    sends(rounds, "select, 64 meters, all answer", &many(), &select([0x12, 0x34, 0xFF, 0xFF]), 0.6);
    sends(rounds, "select, 64 meters, one answers", &many(), &select([0x12, 0x34, 0x00, 0x97]), 0.5);
    sends(rounds, "select, none answers, first digit differs", &many(), &select([0x99, 0x99, 0x99, 0x99]), 0.5);
    sends(rounds, "select, none answers, last digit differs", &many(), &select([0x12, 0x34, 0xFF, 0xFA]), 0.5);
    for medium in ["heat", "electricity", "water", "heat_old"] {
        let mut list = many();
        list[63] = SimMeter::new(77, "12345678", "KAM", medium);
        sends(rounds, &format!("reading, {medium}, one of 64 meters"), &list, &Frame::req_ud2(77, false).encode(), 0.6);
    }
    opening(rounds);
    exports(rounds);
    search(rounds);
    short_calls(rounds);
    bcd::show_all(rounds);
    stack::show_all();
}

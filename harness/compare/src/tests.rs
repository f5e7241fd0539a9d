//! That a failing list is shrunk to the least, that faults put into the other side are seen, that the directed lists
//! reach the limits and tell apart the rules by which a failing record could be named, and wrong exports from the right
//! one; that the number of bytes due is the least.
use crate::calls::{hex, lend, run, run_on, transcript, Answer, Call, Counts, Side, State, GUARD};
use crate::directed;
use crate::exports::Exports;
use crate::layout::{fields, list_of, record_of, records};
use crate::library::{state_of, Library};
use crate::random::{list_of as random_list, RATES};
use crate::rust::{export_of, Rust};
use crate::shrink::{shrink, Fails, PLAIN};
use oracle::mbus::frame::{self, Frame, Parse};
use oracle::sim::{FAULTS, MEDIA};
use reference::{due, Clock, EXPORT, METERS};
use std::collections::HashSet;
use std::ops::RangeInclusive;

/// The first random list of at least `least` calls for which this holds.
fn found(least: usize, fails: Fails) -> Vec<Call> {
    (1..).map(random_list).find(|l| l.len() >= least && fails(l)).unwrap()
}

fn has_meter(list: &[u8]) -> bool {
    records(list).is_some_and(|r| !r.is_empty() && fields(&r[0]).is_some())
}

#[test]
fn a_meter_and_a_byte_are_left() {
    let mut fails = |calls: &[Call]| {
        let opened = calls.iter().position(|c| matches!(c, Call::Open { list, .. } if has_meter(list)));
        opened.is_some_and(|k| calls[k..].iter().any(|c| matches!(c, Call::Send { piece, .. } if piece.contains(&0x7B))))
    };
    for least in [5, 10, 14] {
        let calls = shrink(found(least, &mut fails), &mut fails);
        let [Call::Open { list, baud, practice, origin }, Call::Send { piece, clock }] = &calls[..] else { panic!("{calls:?}") };
        let meter = [&[0u8; 6][..], b"\x0800000000\x03AAA\x03gas\x04none"].concat();
        assert_eq!(hex(list), hex(&list_of(&[meter])));
        assert_eq!((*baud, *practice, origin.to_bits()), (2400, false, 0));
        assert_eq!((&piece[..], clock), (&[0x7B][..], &PLAIN));
    }
}

#[test]
fn a_telegram_is_left() {
    // Some telegram of a piece is a request.
    let asks = |piece: &[u8]| {
        let mut at = 0;
        while let Parse::Complete(f, used) = frame::parse(&piece[at..]) {
            if matches!(f, Frame::Short { control: 0x5B, .. }) {
                return true;
            }
            at += used;
        }
        false
    };
    let mut fails = |calls: &[Call]| calls.iter().any(|c| matches!(c, Call::Send { piece, .. } if asks(piece)));
    let calls = shrink(found(8, &mut fails), &mut fails);
    let [Call::Send { piece, .. }] = &calls[..] else { panic!("{calls:?}") };
    assert_eq!((piece.len(), piece[1]), (5, 0x5B));
}

#[test]
fn numbers_become_least() {
    let mut fails = |calls: &[Call]| calls.iter().any(|c| matches!(c, Call::Search { allowance: 7.., lent: 101.., .. }));
    let calls = shrink(found(6, &mut fails), &mut fails);
    let [Call::Search { clock, allowance, lent }] = &calls[..] else { panic!("{calls:?}") };
    assert_eq!((clock, *allowance, *lent), (&PLAIN, 7, 101));
    let mut fails = |calls: &[Call]| calls.iter().any(|c| matches!(c, Call::Export { lent: 101.. }));
    let calls = shrink(found(6, &mut fails), &mut fails);
    assert!(matches!(&calls[..], [Call::Export { lent: 101 }]), "{calls:?}");
}

/// A fault in the answers.
type Damage = fn(&Call, &mut Answer);

/// The Rust with a fault put in: in its answers, or in the segment that it shows.
struct Damaged(Rust, Damage, fn(&mut State));

impl Side for Damaged {
    fn answer(&mut self, call: &Call) -> Answer {
        let mut answer = self.0.answer(call);
        self.1(call, &mut answer);
        answer
    }
    fn state(&self) -> State {
        let mut state = self.0.state();
        self.2(&mut state);
        state
    }
}

/// What is left of a random list that fails against a damaged side.
fn left(answer: Damage, state: fn(&mut State)) -> Vec<Call> {
    let mut fails = |c: &[Call]| run_on(c, &mut Damaged(Rust::new(), answer, state), &mut Counts::default(), None).is_err();
    shrink(found(8, &mut fails), &mut fails)
}

#[test]
fn a_byte_handed_out_is_seen() {
    let calls = left(|call, a| a.lent.iter_mut().for_each(|l| l[0] ^= (matches!(call, Call::Receive { .. }) && l[0] == 0xE5) as u8), |_| {});
    let [Call::Open { list, .. }, Call::Send { piece, .. }, Call::Receive { lent: 1 }] = &calls[..] else { panic!("{calls:?}") };
    assert_eq!(records(list).unwrap().len(), 1);
    assert!(matches!(piece.len(), 5 | 9), "{}", hex(piece));
}

#[test]
fn a_part_of_a_meter_is_seen() {
    // The access number's lowest bit, which the first readout sets.
    let calls = left(|_, _| {}, |s| s.meters.iter_mut().for_each(|m| m[7] &= 0xFE));
    let [Call::Open { list, .. }, Call::Send { piece, .. }] = &calls[..] else { panic!("{calls:?}") };
    assert_eq!((records(list).unwrap().len(), piece.len()), (1, 5));
}

#[test]
fn an_origin_and_a_number_are_seen() {
    let calls = left(|_, _| {}, |s| s.origin &= !(1 << 63));
    assert!(matches!(&calls[..], [Call::Open { list, .. }] if list == &[1, 0, 0]), "{calls:?}");
    let calls = left(|call, a| a.returned += (matches!(call, Call::Open { .. }) && a.returned % 256 == 6) as u64, |_| {});
    assert!(matches!(&calls[..], [Call::Open { list, .. }] if records(list).unwrap().len() == 1), "{calls:?}");
    let calls = left(|call, a| a.returned += ((matches!(call, Call::Encode { .. }) && a.returned == 11 << 16) as u64) << 16, |_| {});
    assert!(matches!(&calls[..], [Call::Encode { kind: 2, data, lent: 0, .. }] if data == &[0; 253]), "{calls:?}");
}

/// One less than is due, of a send.
fn one_less(call: &Call, a: &mut Answer) {
    a.due -= (matches!(call, Call::Send { .. }) && a.due > 0) as u64;
}

/// What the piece by itself would leave due, whatever waited before it.
fn of_the_piece(call: &Call, a: &mut Answer) {
    if matches!(call, Call::Send { .. }) && a.returned == 0 {
        a.due = Rust::new().answer(call).due;
    }
}

/// What the first telegram of the piece leaves due, and not what waits behind it.
fn of_the_first(call: &Call, a: &mut Answer) {
    if let (Call::Send { piece, .. }, 0) = (call, a.returned) {
        a.due = due(piece).unwrap_or(1) as u64;
    }
}

fn refused_with_one(call: &Call, a: &mut Answer) {
    a.due += (matches!(call, Call::Send { .. }) && a.returned > 0) as u64;
}

#[test]
fn a_number_due_is_seen() {
    let calls = left(one_less, |_| {});
    assert!(matches!(&calls[..], [Call::Send { piece, .. }] if piece.is_empty()), "{calls:?}");
    let calls = left(|call, a| if a.due > 1 { one_less(call, a) }, |_| {});
    assert!(matches!(&calls[..], [Call::Send { piece, .. }] if matches!(piece[..], [0x10 | 0x68])), "{calls:?}");
    let calls = left(|call, a| a.due -= (matches!(call, Call::Parse { .. }) && a.due > 1) as u64, |_| {});
    assert!(matches!(&calls[..], [Call::Parse { bytes }] if matches!(bytes[..], [0x10 | 0x68])), "{calls:?}");
    // A telegram that is read and is not incomplete has none.
    let calls = left(|call, a| a.due += (matches!(call, Call::Parse { .. }) && a.returned == 0) as u64, |_| {});
    assert!(matches!(&calls[..], [Call::Parse { bytes }] if matches!(bytes.len(), 1 | 5 | 9)), "{calls:?}");
    let calls = left(of_the_piece, |_| {});
    assert!(matches!(&calls[..], [Call::Send { piece: a, .. }, Call::Send { piece: b, .. }] if a.len() == 1 && b.is_empty()), "{calls:?}");
    assert!(!left(of_the_first, |_| {}).is_empty());
    assert!(!left(refused_with_one, |_| {}).is_empty());
}

/// Each damage by lists that show it and lists that do not.
#[test]
fn a_number_due_is_seen_where_it_is_wrong() {
    let send = |piece: &[u8]| Call::Send { piece: piece.to_vec(), clock: PLAIN };
    let fails = |damage: Damage, calls: &[Call]| {
        run_on(calls, &mut Damaged(Rust::new(), damage, |_| {}), &mut Counts::default(), None).is_err()
    };
    let nke = [0x10, 0x40, 1, 0x41, 0x16];
    let pieces = [send(&nke[..1]), send(&nke[1..3]), send(&nke[3..])];
    let behind = [send(&[&nke[..], &[0x68, 9]].concat())];
    let record = [&[1, 2, 0, 0, 0, 0][..], b"\x0812345678\x03KAM\x04heat\x04none"].concat();
    let open = Call::Open { list: list_of(&vec![record; 64]), baud: 2400, practice: false, origin: 0.0 };
    let full = [open, send(&nke.repeat(64)), send(&nke)];
    let refused = [vec![send(&[0x10; 1025])], vec![Call::Send { piece: vec![0x10], clock: Clock { month: 13, ..PLAIN } }], full.to_vec()];
    for calls in refused.iter().map(Vec::as_slice).chain([&pieces[..], &behind]) {
        assert!(!fails(|_, _| {}, calls), "{calls:?}");
    }
    assert!(fails(one_less, &pieces) && fails(one_less, &behind));
    // The first piece is alone; the telegram that stands first is complete.
    assert!(fails(of_the_piece, &pieces) && !fails(of_the_piece, &pieces[..1]) && !fails(of_the_piece, &behind));
    assert!(fails(of_the_first, &behind) && !fails(of_the_first, &pieces[..1]));
    for calls in &refused {
        assert!(fails(refused_with_one, calls), "{calls:?}");
    }
    assert!(!fails(refused_with_one, &pieces) && !fails(refused_with_one, &behind));
}

/// For the Rust's own reader: with fewer bytes than are due a telegram stays incomplete, with as many it need not; what
/// is not incomplete has none due.
#[test]
fn the_number_due_is_the_least() {
    let with = |front: &[u8], byte: u8, n: usize| frame::parse(&[front, &vec![byte; n]].concat());
    let bytes = [0, 1, 3, 0x10, 0x16, 0x68, 0xE5, 0xFF];
    let hold = |front: &[u8]| {
        let Some(n) = due(front) else {
            assert_ne!(frame::parse(front), Parse::Incomplete, "{}", hex(front));
            return;
        };
        assert!((0..n).all(|fewer| bytes.iter().all(|b| with(front, *b, fewer) == Parse::Incomplete)), "{}", hex(front));
        assert!(bytes.iter().any(|b| with(front, *b, n) != Parse::Incomplete), "{}", hex(front));
    };
    hold(&[]);
    for a in 0..=255 {
        hold(&[a]);
        for b in 0..=255 {
            hold(&[a, b]);
            hold(&[0x68, a, b]);
            hold(&[0x68, a, b, 0x68]);
            hold(&[0x68, a, b, 0x16]);
        }
        let long = [vec![0x68, a, a, 0x68], vec![0x10; a as usize], vec![a.wrapping_mul(0x10), 0x16]].concat();
        (4..=long.len()).step_by(31).chain(long.len() - 2..=long.len()).for_each(|k| hold(&long[..k]));
    }
    for k in 0..=5 {
        hold(&[0x10, 0x40, 1, 0x41, 0x16][..k]);
    }
    for (front, n) in [(&[][..], 1), (&[0x10], 4), (&[0x68], 3), (&[0x68, 3, 3, 0x68], 5), (&[0x68, 255, 255, 0x68, 0], 256)] {
        assert_eq!(due(front), Some(n));
    }
}

/// Every number that a record fails with, in the order of the checks.
fn failures(record: &[u8]) -> Vec<u64> {
    let f = fields(record).unwrap();
    let own = f[2].iter().fold(0, |n, b| n * 256 + *b as u32);
    let (id, maker, medium, fault) = (&f[3], &f[4], &f[5], &f[6]);
    let capitals = maker.len() == 3 && maker.iter().all(u8::is_ascii_uppercase);
    let passes = [
        f[0][0] <= 250,
        id.len() == 8 && id.iter().all(u8::is_ascii_digit),
        capitals || (maker.is_empty() && medium == b"heat_old"),
        MEDIA.iter().any(|(key, _)| key.as_bytes() == medium),
        own == 0 || RATES.contains(&own),
        FAULTS.iter().any(|key| key.as_bytes() == fault),
    ];
    (4..).zip(passes).filter(|(_, passes)| !passes).map(|(number, _)| number).collect()
}

/// The records from the front, as far as the lengths fit: what each fails with.
fn from_the_front(list: &[u8]) -> Vec<Vec<u64>> {
    let mut out = Vec::new();
    let mut rest = list.get(3..).unwrap_or_default();
    while let Some(record) = rest.first().and_then(|n| rest.get(1..1 + *n as usize)).filter(|r| fields(r).is_some()) {
        out.push(failures(record));
        rest = &rest[1 + record.len()..];
    }
    out
}

/// A rule by which one of the records is named where some fail: the number, and the index.
type Rule = fn(&[Vec<u64>]) -> Option<(u64, usize)>;

/// 02: "the first in list order with its first number".
fn first_failing(rs: &[Vec<u64>]) -> Option<(u64, usize)> {
    let k = rs.iter().position(|numbers| !numbers.is_empty())?;
    Some((rs[k][0], k))
}

fn last_failing(rs: &[Vec<u64>]) -> Option<(u64, usize)> {
    let k = rs.iter().rposition(|numbers| !numbers.is_empty())?;
    Some((rs[k][0], k))
}

/// As of a program that makes each check on all records before the next check.
fn first_with_the_least_number(rs: &[Vec<u64>]) -> Option<(u64, usize)> {
    let least = rs.iter().flatten().min()?;
    Some((*least, rs.iter().position(|numbers| numbers.contains(least))?))
}

fn index_one_more(rs: &[Vec<u64>]) -> Option<(u64, usize)> {
    first_failing(rs).map(|(number, k)| (number, k + 1))
}

fn a_later_number(rs: &[Vec<u64>]) -> Option<(u64, usize)> {
    first_failing(rs).map(|(_, k)| (*rs[k].last().unwrap(), k))
}

/// The rule, in place of an answer to an opening with one of these numbers.
fn by(rule: Rule, numbers: RangeInclusive<u64>, call: &Call, a: &mut Answer) {
    if let Call::Open { list, .. } = call {
        if numbers.contains(&(a.returned % 256)) {
            let named = rule(&from_the_front(list));
            a.returned = named.map_or(a.returned, |(number, k)| number + 256 * k as u64);
        }
    }
}

/// The bus baud is checked before the records.
fn baud_before_records(call: &Call, a: &mut Answer) {
    if let (Call::Open { baud, .. }, 4..=9) = (call, a.returned % 256) {
        a.returned = if RATES.contains(baud) { a.returned } else { 10 };
    }
}

/// Wrong openings: four rules that name another record or number, then three orders of the checks.
const WRONG: [(&str, Damage); 7] = [
    ("the last failing record", |call, a| by(last_failing, 4..=9, call, a)),
    ("the first record with the least number", |call, a| by(first_with_the_least_number, 4..=9, call, a)),
    ("the index of the record after it", |call, a| by(index_one_more, 4..=9, call, a)),
    ("a later number of the right record", |call, a| by(a_later_number, 4..=9, call, a)),
    ("a record before a length behind it", |call, a| by(first_failing, 2..=2, call, a)),
    ("a record before the number of records", |call, a| by(first_failing, 3..=3, call, a)),
    ("the bus baud before the records", baud_before_records),
];

/// Every directed opening follows the rule of 02; each wrong program answers some of them otherwise.
#[test]
fn another_record_named_is_seen() {
    let mut seen = [0; WRONG.len()];
    directed::all(&mut |name, calls| {
        for call in calls.iter().filter(|call| matches!(call, Call::Open { .. })) {
            let right = Rust::new().answer(call);
            let answer = |wrong: Damage| {
                let mut answer = right.clone();
                wrong(call, &mut answer);
                answer
            };
            assert_eq!(answer(|call, a| by(first_failing, 4..=9, call, a)), right, "{name}");
            for (k, (_, wrong)) in WRONG.iter().enumerate() {
                seen[k] += (answer(*wrong) != right) as u32;
            }
        }
    });
    for ((name, _), seen) in WRONG.iter().zip(seen) {
        assert!(seen >= 200, "{name}: {seen}");
    }
}

/// What is left of a random list against each wrong program: one opening, with no more records than tell it apart.
#[test]
fn another_record_named_is_shrunk() {
    for ((name, wrong), most) in WRONG.iter().zip([2, 2, 1, 1, 2, 65, 1]) {
        let calls = left(*wrong, |_| {});
        let [Call::Open { list, .. }] = &calls[..] else { panic!("{name}: {calls:?}") };
        assert!(from_the_front(list).len() <= most, "{name}: {}", hex(list));
    }
}

/// A list for which each of the four rules names something else.
#[test]
fn one_list_tells_four_rules_apart() {
    let passes = |primary: u8, id: &[u8]| [&[primary, 1, 0, 0, 0, 0, 8][..], id, b"\x03SEN\x05water\x04none"].concat();
    let first = [&[2, 1, 0, 0, 0, 1][..], b"\x0812345679\x03SEN\x05water\x08no fault"].concat();
    let steam = [&[4, 1, 0, 0, 0, 0][..], b"\x0812345681\x03SEN\x05steam\x04none"].concat();
    let list = list_of(&[passes(1, b"12345678"), first, passes(251, b"12345680"), steam]);
    let rs = from_the_front(&list);
    assert_eq!(rs, [vec![], vec![8, 9], vec![4], vec![7]]);
    assert_eq!(first_failing(&rs), Some((8, 1)));
    let rules: [Rule; 4] = [last_failing, first_with_the_least_number, index_one_more, a_later_number];
    assert_eq!(rules.map(|rule| rule(&rs)), [(7, 3), (4, 2), (8, 2), (9, 1)].map(Some));
    let calls = [Call::Open { list, baud: 2400, practice: false, origin: 0.0 }];
    assert!(run(&calls, &mut Counts::default()).is_ok());
    for (name, wrong) in &WRONG[..4] {
        assert!(run_on(&calls, &mut Damaged(Rust::new(), *wrong, |_| {}), &mut Counts::default(), None).is_err(), "{name}");
    }
}

/// A wrong export of a segment that has these parts, into so many lent bytes.
type WrongExport = fn(State, usize) -> Answer;

/// The Rust with a fault put into its exports.
struct WronglyExporting(Rust, WrongExport);

impl Side for WronglyExporting {
    fn answer(&mut self, call: &Call) -> Answer {
        match call {
            Call::Export { lent } => self.1(self.0.state(), *lent),
            _ => self.0.answer(call),
        }
    }
    fn state(&self) -> State {
        self.0.state()
    }
}

/// The export of a segment whose meters were changed first; the change takes the bus baud too.
fn of_changed(mut state: State, lent: usize, change: fn(&mut [u32; 15], u32)) -> Answer {
    let bus = state.baud;
    state.meters.iter_mut().for_each(|m| change(m, bus));
    export_of(state, lent)
}

/// An export's answer, changed where it is accepted; the change takes the number of bytes written and of those lent.
fn accepted(state: State, lent: usize, change: fn(&mut Answer, usize, usize)) -> Answer {
    let mut answer = export_of(state, lent);
    if answer.returned < 65_536 {
        let written = answer.returned as usize;
        change(&mut answer, written, lent);
    }
    answer
}

fn too_short(lent: usize) -> Answer {
    Answer { returned: 12 << 16, due: 0, lent: vec![lend(lent)] }
}

/// 12 before 18.
fn buffer_first(state: State, lent: usize) -> Answer {
    let length = of_changed(state.clone(), EXPORT, |m, _| m[0] = 0).returned as usize;
    if lent < length { too_short(lent) } else { export_of(state, lent) }
}

fn written_though_refused(state: State, lent: usize) -> Answer {
    let mut answer = export_of(state, lent);
    if answer.returned >= 65_536 && lent > 0 {
        answer.lent[0][0] = 1;
    }
    answer
}

/// Wrong exports, each with the most calls that are left of a list that shows it: the refusals, the meters, the parts of a
/// meter, the lent bytes.
const WRONG_EXPORTS: [(&str, WrongExport, usize); 16] = [
    ("a short buffer before a high primary", buffer_first, 3),
    ("a primary of 250 is refused", |s, lent| of_changed(s, lent, |m, _| m[0] += (m[0] == 250) as u32), 3),
    ("a primary of 251 is 250", |s, lent| of_changed(s, lent, |m, _| m[0] -= (m[0] == 251) as u32), 3),
    ("a high primary at another baud is not seen", |s, lent| of_changed(s, lent, |m, bus| m[0] = if m[8] == bus { m[0] } else { m[0].min(250) }), 4),
    ("the last meter is left out", |s, lent| export_of(State { meters: s.meters[..s.meters.len().saturating_sub(1)].to_vec(), ..s }, lent), 2),
    ("the last meter comes first", |s, lent| export_of(State { meters: s.meters.iter().rev().copied().collect(), ..s }, lent), 2),
    ("every own baud is written", |s, lent| export_of(State { baud: 0, ..s }, lent), 2),
    ("no own baud is written", |s, lent| of_changed(s, lent, |m, bus| m[8] = bus), 2),
    ("own bauds against 2400", |s, lent| export_of(State { baud: 2400, ..s }, lent), 2),
    ("heat_old is heat", |s, lent| of_changed(s, lent, |m, _| m[5] *= (m[5] != 3) as u32), 2),
    ("no manufacturer is AAA", |s, lent| of_changed(s, lent, |m, _| m[2] = if m[2] == 0 { 0x0421 } else { m[2] }), 2),
    ("a selected meter is version 0", |s, lent| of_changed(s, lent, |m, _| m[3] *= 1 - m[9]), 3),
    ("a buffer of the list's length is too short", |s, lent| accepted(s, lent, |a, n, lent| if n == lent { *a = too_short(lent) }), 1),
    ("the rest of the buffer is cleared", |s, lent| accepted(s, lent, |a, n, lent| a.lent[0][n..lent].fill(0)), 1),
    ("the rest of the buffer is moved", |s, lent| accepted(s, lent, |a, n, lent| a.lent[0][n..lent].rotate_left((lent > n) as usize)), 1),
    ("a refused one writes", written_though_refused, 1),
];

/// Every wrong export gives other answers than the right one in some directed lists.
#[test]
fn a_wrong_export_is_seen() {
    const ENOUGH: u32 = 200;
    let mut seen = [0; WRONG_EXPORTS.len()];
    directed::all(&mut |_, calls| {
        if !calls.iter().any(|call| matches!(call, Call::Export { .. })) {
            return;
        }
        let mut rust = Rust::new();
        for call in &calls {
            let right = rust.answer(call);
            if let Call::Export { lent } = call {
                for (seen, (_, wrong, _)) in seen.iter_mut().zip(WRONG_EXPORTS).filter(|(seen, _)| **seen < ENOUGH) {
                    *seen += (wrong(rust.state(), *lent) != right) as u32;
                }
            }
        }
    });
    for ((name, ..), seen) in WRONG_EXPORTS.iter().zip(seen) {
        assert!(seen >= ENOUGH, "{name}: {seen}");
    }
}

/// What is left of a random list against each wrong export.
#[test]
fn a_wrong_export_is_shrunk() {
    for (name, wrong, most) in WRONG_EXPORTS {
        let mut fails = |c: &[Call]| run_on(c, &mut WronglyExporting(Rust::new(), wrong), &mut Counts::default(), None).is_err();
        let calls = shrink(found(8, &mut fails), &mut fails);
        assert!(matches!(calls.last(), Some(Call::Export { .. })) && calls.len() <= most, "{name}: {calls:?}");
    }
}

/// The digit 15 of an image's first meter is written as F.
fn fifteen_is_f(call: &Call, a: &mut Answer) {
    if matches!(call, Call::ExportOf { .. }) {
        a.lent[0].iter_mut().take(19).skip(11).filter(|b| **b == b'?').for_each(|b| *b = b'F');
    }
}

/// Of an image one meter is left, and of that and of what tells it no byte that does not show the fault.
#[test]
fn a_wrong_export_of_an_image_is_shrunk() {
    let not_zero = |image: &[u8]| image.iter().filter(|b| **b != 0).count();
    let calls = left(|call, a| a.returned -= ((matches!(call, Call::ExportOf { .. }) && a.returned == 18 << 16) as u64) << 16, |_| {});
    let [Call::ExportOf { image, lent: 0 }] = &calls[..] else { panic!("{calls:?}") };
    assert_eq!((state_of(image).meters.len(), not_zero(image)), (1, 2));
    let calls = left(fifteen_is_f, |_| {});
    let [Call::ExportOf { image, .. }] = &calls[..] else { panic!("{calls:?}") };
    assert_eq!((state_of(image).meters.len(), not_zero(image)), (1, 2));
}

/// A list that is not the export of the segment, though it may open to equal meters.
#[test]
fn what_holds_of_exports_is_seen() {
    let meter = |primary: u8, own: u32| [vec![primary, 1], own.to_be_bytes().to_vec(), b"\x0812345678\x03KAM\x04heat\x04none".to_vec()].concat();
    let list = list_of(&[meter(1, 0), meter(2, 300)]);
    let mut rust = Rust::new();
    rust.answer(&Call::Open { list: list.clone(), baud: 2400, practice: false, origin: 0.0 });
    let state = rust.state();
    let changed = |field: usize, bytes: &[u8]| {
        let mut all = fields(&meter(1, 0)).unwrap();
        all[field] = bytes.to_vec();
        list_of(&[record_of(&all), meter(2, 300)])
    };
    assert_eq!(Exports::default().add(&state, &list), Ok(()));
    let why = |list: &[u8]| Exports::default().add(&state, list).unwrap_err();
    assert_eq!(why(&list[1..]), "library: the exported list is refused with 1");
    assert_eq!(why(&changed(0, &[251])), "library: the exported list is refused with 4");
    assert_eq!(why(&changed(2, &2400u32.to_be_bytes())), "library: opened again, the list is exported otherwise");
    for (field, bytes) in [(0, &b"\x07"[..]), (1, b"\0"), (2, b"\0\0\x25\x80"), (3, b"12345679"), (4, b"SEN"), (5, b"heat_old"), (6, b"busy")] {
        assert_eq!(why(&changed(field, bytes)), "library: the exported list opens to other meters", "{field}");
    }
    // Beside another export, at the same bus baud.
    let after = |state: &State, list: &[u8]| {
        let mut exports = Exports::default();
        exports.add(&rust.state(), &changed(2, &[0; 4])).unwrap();
        exports.add(state, list)
    };
    let mut other = state.clone();
    other.meters[0][8] = 9600;
    assert_eq!(after(&state, &list), Ok(()));
    assert!(after(&other, &list).unwrap_err().contains("differ in their meters and not in their bytes"));
    assert!(after(&state, &changed(0, &[9])).unwrap_err().contains("differ in their bytes and not in their meters"));
}

/// A segment with waiting input, a queue and 64 meters: no byte of the image that means something is left out.
#[test]
fn every_byte_of_an_image_is_seen() {
    let record = [&[1, 2, 0, 0, 0, 0][..], b"\x0812345678\x03KAM\x04heat\x04none"].concat();
    let mut library = Library::new();
    library.answer(&Call::Open { list: list_of(&vec![record; 64]), baud: 2400, practice: false, origin: 1.5 });
    let piece = [[0x10, 0x40, 1, 0x41, 0x16].repeat(64), vec![0x68, 0xFF, 0xFF, 0x68], vec![0x77; 256]].concat();
    let answer = library.answer(&Call::Send { piece, clock: PLAIN });
    assert_eq!((answer.returned, answer.due), (0, 1));
    let state = library.state();
    assert_eq!((state.input.len(), state.queue.len(), state.meters.len()), (260, 4096, 64));
    // The three counts are seen by the lengths.
    for k in (0..12).chain(18..5974) {
        library.memory[GUARD + k] ^= 1;
        assert!(library.state() != state, "byte {k}");
        library.memory[GUARD + k] ^= 1;
    }
}

#[test]
fn the_unchanged_side_does_not_fail() {
    for seed in 1..100 {
        let calls = random_list(seed);
        assert!(run(&calls, &mut Counts::default()).is_ok());
        assert_eq!(transcript(&calls).matches("\n    -> ").count(), calls.len());
    }
}

fn name(call: &Call) -> &'static str {
    match call {
        Call::Open { .. } => "open",
        Call::Send { .. } => "send",
        Call::SetBaud { .. } => "set baud",
        Call::Search { .. } => "search",
        Call::Export { .. } => "export",
        Call::ExportOf { .. } => "export of an image",
        Call::Encode { .. } => "encode",
        Call::Receive { .. } | Call::Clear | Call::Parse { .. } => "never refused",
    }
}

/// What the Rust meets in the directed lists: numbers by call, lengths, and what the meters go through.
#[test]
fn limits_are_met() {
    let mut met: HashSet<(&str, u32)> = HashSet::new();
    let mut read: HashSet<[u32; 3]> = HashSet::new();
    directed::all(&mut |_, list| {
        let mut rust = Rust::new();
        for call in &list {
            let Answer { returned, due, .. } = rust.answer(call);
            met.extend(call.number(returned).map(|n| (name(call), n as u32)));
            met.extend(matches!(call, Call::Open { .. }).then_some(("named", returned as u32)));
            met.insert((if call.number(returned).is_some() { "due" } else { "due, read" }, due as u32));
            met.extend(matches!(call, Call::Export { .. }).then_some(("exported", returned as u32)));
            let s = rust.state();
            met.extend([("input", s.input.len() as u32), ("queue", s.queue.len() as u32), ("meters", s.meters.len() as u32)]);
            for m in &s.meters {
                met.extend([("access", m[7]), ("part", m[10]), ("readouts", m[12])]);
                if m[7] > 0 {
                    read.insert([m[4], m[5], m[6]]);
                }
            }
        }
    });
    let mut wanted: Vec<(&str, u32)> = (0..=10).map(|n| ("open", n)).collect();
    // Each number of each record of the longest list.
    wanted.extend((4..=9).flat_map(|n| (0..METERS as u32).map(move |k| ("named", n + 256 * k))));
    wanted.extend([("set baud", 10), ("encode", 11), ("encode", 12), ("send", 13), ("send", 14), ("send", 15)]);
    wanted.extend([("search", 14), ("search", 16), ("search", 17), ("part", 1), ("readouts", 2), ("readouts", 3)]);
    wanted.extend([0, 12, 18].iter().flat_map(|n| [("export", *n), ("export of an image", *n)]));
    wanted.extend([("exported", 3), ("exported", EXPORT as u32)]);
    wanted.extend((0..=260).map(|n| ("input", n)));
    wanted.extend((0..=255).map(|n| ("access", n)));
    // The most is what is left of the longest telegram behind its header.
    wanted.extend((1..=257).flat_map(|n| [("due", n), ("due, read", n)]));
    wanted.extend([0, 1, 4094, 4095, 4096].map(|n| ("queue", n)));
    wanted.extend([0, 1, 62, 63, 64].map(|n| ("meters", n)));
    let missing: Vec<_> = wanted.iter().filter(|w| !met.contains(*w)).collect();
    assert!(missing.is_empty(), "{missing:?}");
    // Medium and model of each key, with each fault.
    for (medium, model) in [(4, 0), (10, 0), (7, 2), (0x16, 2), (6, 2), (3, 2), (2, 1), (4, 3)] {
        assert!((0..7).all(|fault| read.contains(&[medium, model, fault])), "medium {medium}");
    }
}

//! A failing list of calls made smaller until nothing smaller fails: fewer calls, shorter bytes, plainer numbers.
//! Every step has fewer calls, fewer bytes, a smaller number or one more plain value, so that shrinking ends.
use crate::calls::Call;
use crate::layout::{fields, list_of, record_of, records};
use crate::library::{state_of, BUS, COUNT, METER, METERS};
use oracle::mbus::frame::{self, Frame, Parse};
use reference::Clock;

pub const PLAIN: Clock = Clock { now: 0.0, year: 2026, month: 10, day: 1, hour: 0, minute: 0 };
const BAUD: u32 = 2400;

pub type Fails<'a> = &'a mut dyn FnMut(&[Call]) -> bool;

pub fn shrink(mut calls: Vec<Call>, fails: Fails) -> Vec<Call> {
    loop {
        let mut smaller = drop_calls(&mut calls, fails) | join_sends(&mut calls, fails) | shorten_with_exports(&mut calls, fails);
        for k in 0..calls.len() {
            smaller |= simplify(&mut calls, k, fails);
        }
        if !smaller {
            return calls;
        }
    }
}

/// Drops runs of calls, long ones first, from the end.
fn drop_calls(calls: &mut Vec<Call>, fails: Fails) -> bool {
    let before = calls.len();
    let mut size = before;
    while size > 0 {
        let mut end = calls.len();
        while end > 0 {
            let start = end.saturating_sub(size);
            let fewer = [&calls[..start], &calls[end..]].concat();
            if fails(&fewer) {
                *calls = fewer;
            }
            end = start;
        }
        size /= 2;
    }
    calls.len() < before
}

/// Makes one piece of two that are sent one after the other.
fn join_sends(calls: &mut Vec<Call>, fails: Fails) -> bool {
    let before = calls.len();
    for k in (1..before).rev() {
        if let (Call::Send { piece: a, clock }, Call::Send { piece: b, .. }) = (&calls[k - 1], &calls[k]) {
            let joined = Call::Send { piece: [&a[..], b].concat(), clock: *clock };
            let fewer = [&calls[..k - 1], &[joined], &calls[k + 1..]].concat();
            if fails(&fewer) {
                *calls = fewer;
            }
        }
    }
    calls.len() < before
}

/// Makes the list of an opening shorter, and with it what exports lend, so that their lists just fit or just do not as before.
fn shorten_with_exports(calls: &mut Vec<Call>, fails: Fails) -> bool {
    let mut smaller = false;
    if calls.iter().any(|call| matches!(call, Call::Export { .. })) {
        for k in 0..calls.len() {
            while let Some(next) = shorter_with_exports(calls, k).into_iter().find(|next| fails(next)) {
                *calls = next;
                smaller = true;
            }
        }
    }
    smaller
}

/// Each shorter list for the opening at a place; every export behind it lends as many bytes less.
fn shorter_with_exports(calls: &[Call], k: usize) -> Vec<Vec<Call>> {
    let Call::Open { list: long, .. } = &calls[k] else { return vec![] };
    let with = |short: Vec<u8>| {
        let (mut next, less) = (calls.to_vec(), long.len() - short.len());
        for call in &mut next[k..] {
            if let Call::Export { lent } = call {
                *lent = lent.saturating_sub(less);
            }
        }
        if let Call::Open { list, .. } = &mut next[k] {
            *list = short;
        }
        next
    };
    let lists = [shorter_lists(long), plainer_lists(long)].concat();
    lists.into_iter().filter(|short| short.len() < long.len()).map(with).collect()
}

/// Makes one call smaller, again and again. What was tried before a success is not tried again after it: the next round does that.
fn simplify(calls: &mut [Call], k: usize, fails: Fails) -> bool {
    let (mut smaller, mut tried) = (false, 0);
    'again: loop {
        for call in smaller_calls(&calls[k]).into_iter().skip(tried) {
            let old = std::mem::replace(&mut calls[k], call);
            if fails(calls) {
                smaller = true;
                continue 'again;
            }
            calls[k] = old;
            tried += 1;
        }
        return smaller;
    }
}

fn smaller_calls(call: &Call) -> Vec<Call> {
    let mut out = Vec::new();
    // Each of some smaller values for one of the call's fields.
    macro_rules! try_each {
        ($values:expr, $variant:ident, $field:ident) => {
            for v in $values {
                let mut next = call.clone();
                if let Call::$variant { $field, .. } = &mut next {
                    *$field = v;
                }
                out.push(next);
            }
        };
    }
    match call {
        Call::Open { list, baud, practice, origin } => {
            try_each!(shorter_lists(list), Open, list);
            try_each!(plainer_baud(*baud), Open, baud);
            try_each!(other(*practice, false), Open, practice);
            try_each!(plainer_float(*origin), Open, origin);
            try_each!(plainer_lists(list), Open, list);
        }
        Call::Send { piece, clock } => {
            try_each!(shorter_pieces(piece), Send, piece);
            try_each!(plainer_clocks(clock), Send, clock);
            try_each!(zeroed(piece), Send, piece);
        }
        Call::Receive { lent } => try_each!(fewer(*lent as u64).map(|n| n as usize), Receive, lent),
        Call::Clear => {}
        Call::SetBaud { baud } => try_each!(plainer_baud(*baud), SetBaud, baud),
        Call::Search { clock, allowance, lent } => {
            try_each!(plainer_clocks(clock), Search, clock);
            try_each!(fewer(*allowance as u64).map(|n| n as u32), Search, allowance);
            try_each!(fewer(*lent as u64).map(|n| n as usize), Search, lent);
        }
        Call::Export { lent } => try_each!(fewer(*lent as u64).map(|n| n as usize), Export, lent),
        Call::ExportOf { image, lent } => {
            try_each!(fewer_meters(image), ExportOf, image);
            try_each!(fewer(*lent as u64).map(|n| n as usize), ExportOf, lent);
            try_each!(more_zeros(image), ExportOf, image);
        }
        Call::Parse { bytes } => {
            try_each!(shorter_pieces(bytes), Parse, bytes);
            try_each!(zeroed(bytes), Parse, bytes);
        }
        Call::Encode { kind, control, address, ci, data, lent } => {
            try_each!(without_runs(data).map(|d| d.concat()), Encode, data);
            try_each!(fewer(*lent as u64).map(|n| n as usize), Encode, lent);
            try_each!(fewer(*kind as u64).map(|n| n as u8), Encode, kind);
            try_each!(other(*control, 0), Encode, control);
            try_each!(other(*address, 0), Encode, address);
            try_each!(other(*ci, 0), Encode, ci);
            try_each!(zeroed(data), Encode, data);
        }
    }
    out
}

fn fewer(n: u64) -> impl Iterator<Item = u64> {
    [0, n / 2, n.saturating_sub(1)].into_iter().filter(move |m| *m < n)
}

/// The plain value, where this is another.
fn other<T: PartialEq>(value: T, plain: T) -> Vec<T> {
    if value == plain { vec![] } else { vec![plain] }
}

fn plainer_baud(baud: u32) -> Vec<u32> {
    match baud {
        BAUD => vec![],
        0 => vec![BAUD],
        _ => vec![BAUD, 0],
    }
}

fn plainer_float(x: f64) -> Vec<f64> {
    let mut out = Vec::new();
    if x.to_bits() != 0 {
        out.push(0.0);
    }
    if x.is_finite() && x != x.trunc() {
        out.push(x.trunc());
    }
    out
}

fn plainer_clocks(c: &Clock) -> Vec<Clock> {
    let mut out: Vec<Clock> = plainer_float(c.now).into_iter().map(|now| Clock { now, ..*c }).collect();
    let fields = [
        Clock { year: PLAIN.year, ..*c },
        Clock { month: PLAIN.month, ..*c },
        Clock { day: PLAIN.day, ..*c },
        Clock { hour: PLAIN.hour, ..*c },
        Clock { minute: PLAIN.minute, ..*c },
    ];
    let numbers = |c: &Clock| [c.year, c.month, c.day, c.hour, c.minute];
    out.extend(fields.into_iter().filter(|f| numbers(f) != numbers(c)));
    out
}

/// What is left when a run of the items goes: long runs first, from the end, each as the two parts around it.
fn without_runs<T>(items: &[T]) -> impl Iterator<Item = [&[T]; 2]> {
    let sizes = std::iter::successors(Some(items.len()), |n| Some(n / 2)).take_while(|n| *n > 0);
    sizes.flat_map(move |size| {
        let ends = (1..=items.len()).rev().step_by(size);
        ends.map(move |end| [&items[..end.saturating_sub(size)], &items[end..]])
    })
}

/// Each byte that is not 0 as 0.
fn zeroed(bytes: &[u8]) -> Vec<Vec<u8>> {
    let zero = |k: usize| {
        let mut next = bytes.to_vec();
        next[k] = 0;
        next
    };
    (0..bytes.len()).filter(|k| bytes[*k] != 0).map(zero).collect()
}

/// Images with nothing but the bus baud and the meters, then with fewer meters; those that are left move to the front.
fn fewer_meters(image: &[u8]) -> Vec<Vec<u8>> {
    let meters: Vec<&[u8]> = image[METERS..].chunks(METER).take(state_of(image).meters.len()).collect();
    let with = |left: Vec<&[u8]>| {
        let mut next = vec![0; METERS];
        next[BUS..BUS + 4].copy_from_slice(&image[BUS..BUS + 4]);
        next[COUNT..COUNT + 2].copy_from_slice(&(left.len() as u16).to_le_bytes());
        next.extend(left.concat());
        next.resize(image.len(), 0);
        next
    };
    let mut out = other(image.to_vec(), with(meters.clone()));
    out.extend(without_runs(&meters).map(|[a, b]| with([a, b].concat())));
    out
}

/// Images in which a run of the bytes that are not 0 is 0.
fn more_zeros(image: &[u8]) -> Vec<Vec<u8>> {
    let places: Vec<usize> = (0..image.len()).filter(|k| image[*k] != 0).collect();
    let with = |left: [&[usize]; 2]| {
        let mut next = vec![0; image.len()];
        left.concat().iter().for_each(|k| next[*k] = image[*k]);
        next
    };
    without_runs(&places).map(with).collect()
}

/// Fewer telegrams, then shorter telegrams, then fewer bytes.
fn shorter_pieces(piece: &[u8]) -> Vec<Vec<u8>> {
    let mut parts: Vec<Vec<u8>> = Vec::new();
    let mut at = 0;
    while at < piece.len() {
        let used = match frame::parse(&piece[at..]) {
            Parse::Complete(_, used) => used,
            _ => piece.len() - at,
        };
        parts.push(piece[at..at + used].to_vec());
        at += used;
    }
    let mut out: Vec<Vec<u8>> = without_runs(&parts).map(|[a, b]| [a.concat(), b.concat()].concat()).collect();
    for (k, part) in parts.iter().enumerate() {
        if let Parse::Complete(Frame::Long { control, address, ci, data }, _) = frame::parse(part) {
            for d in without_runs(&data) {
                let shorter = Frame::Long { control, address, ci, data: d.concat() }.encode();
                out.push([parts[..k].concat(), shorter, parts[k + 1..].concat()].concat());
            }
        }
    }
    out.extend(without_runs(piece).map(|p| p.concat()));
    out
}

/// Fewer records where the lengths fit, else fewer bytes.
fn shorter_lists(list: &[u8]) -> Vec<Vec<u8>> {
    match records(list) {
        Some(rs) => without_runs(&rs).map(|r| list_of(&r.concat())).collect(),
        None => without_runs(list).map(|l| l.concat()).collect(),
    }
}

/// A number or text plain in all records, then in one of them; where the list does not grow by it.
fn plainer_lists(list: &[u8]) -> Vec<Vec<u8>> {
    const PLAIN: [&[u8]; 7] = [b"\0", b"\0", b"\0\0\0\0", b"00000000", b"AAA", b"gas", b"none"];
    let rs = records(list).unwrap_or_default();
    let Some(all) = rs.iter().map(|r| fields(r)).collect::<Option<Vec<_>>>() else { return vec![] };
    let mut out = Vec::new();
    for part in std::iter::once(0..all.len()).chain((0..all.len()).map(|k| k..k + 1)) {
        for (i, plain) in PLAIN.iter().enumerate() {
            if all[part.clone()].iter().all(|fields| fields[i] == *plain) {
                continue;
            }
            let mut next = rs.clone();
            for k in part.clone() {
                let mut fields = all[k].clone();
                fields[i] = plain.to_vec();
                next[k] = record_of(&fields);
            }
            out.push(list_of(&next));
        }
    }
    out.retain(|l| l.len() <= list.len());
    out
}

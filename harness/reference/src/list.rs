//! 01's meter list: its bytes, and the numbers that it is refused with.
use oracle::mbus::master::BAUD_RATES;
use oracle::sim::{SimMeter, FAULTS, MEDIA};

/// A record of the list's layout.
pub(crate) struct Record {
    pub(crate) meter: SimMeter,
    own: u32,
    texts: Vec<Vec<u8>>,
}

/// 01's layout: the records, or the number 1 or 2.
pub(crate) fn records(list: &[u8]) -> Result<Vec<Record>, u32> {
    if list.len() < 3 || list[0] != 1 {
        return Err(1);
    }
    if u16::from_be_bytes([list[1], list[2]]) as usize != list.len() - 3 {
        return Err(2);
    }
    let mut rest = &list[3..];
    let mut out = Vec::new();
    while let Some((&len, after)) = rest.split_first() {
        let len = len as usize;
        if len < 6 || after.len() < len {
            return Err(2);
        }
        let (record, next) = after.split_at(len);
        rest = next;
        let own = u32::from_be_bytes([record[2], record[3], record[4], record[5]]);
        let mut part = &record[6..];
        let mut texts = Vec::new();
        for _ in 0..4 {
            let Some((&n, t)) = part.split_first() else {
                return Err(2);
            };
            if t.len() < n as usize {
                return Err(2);
            }
            texts.push(t[..n as usize].to_vec());
            part = &t[n as usize..];
        }
        if !part.is_empty() {
            return Err(2);
        }
        // Bytes above 7F become one character each: no key, digit or capital letter has one.
        let text = |k: usize| texts[k].iter().map(|b| *b as char).collect::<String>();
        let mut meter = SimMeter::new(record[0], &text(0), &text(1), &text(2));
        meter.version = record[1];
        meter.baud = if own == 0 { None } else { Some(own) };
        meter.fault = text(3);
        out.push(Record { meter, own, texts });
    }
    Ok(out)
}

/// How the reasons of the Rust's `check` begin, for 4 to 9.
const REASONS: [&str; 6] = ["primary address", "ID", "manufacturer", "medium", "Not a standard baud rate", "fault"];

/// The first number that a record fails with. It fails exactly where the Rust's `check` does, and for its reason.
pub(crate) fn failure(r: &Record) -> u32 {
    let m = &r.meter;
    let t = &r.texts;
    let capital = |b: &u8| b.is_ascii_uppercase();
    let empty = t[1].is_empty() && t[2] == b"heat_old";
    let number = if m.primary > 250 {
        4
    } else if t[0].len() != 8 || !t[0].iter().all(u8::is_ascii_digit) {
        5
    } else if !empty && (t[1].len() != 3 || !t[1].iter().all(capital)) {
        6
    } else if !MEDIA.iter().any(|(k, _)| k.as_bytes() == t[2]) {
        7
    } else if r.own != 0 && !BAUD_RATES.contains(&r.own) {
        8
    } else if !FAULTS.iter().any(|k| k.as_bytes() == t[3]) {
        9
    } else {
        0
    };
    let who = format!("PA {} / ID {}: ", m.primary, m.id);
    let agree = match m.check() {
        Ok(()) => number == 0,
        Err(why) => number != 0 && why.to_string().starts_with(&(who + REASONS[number as usize - 4])),
    };
    assert!(agree, "check and the record's number {number} disagree");
    number
}

/// A list in 01's layout.
pub fn list_bytes(meters: &[SimMeter]) -> Vec<u8> {
    let mut body = Vec::new();
    for m in meters {
        let mut r = vec![m.primary, m.version];
        r.extend_from_slice(&m.baud.unwrap_or(0).to_be_bytes());
        for t in [&m.id, &m.manufacturer, &m.medium, &m.fault] {
            r.push(t.len() as u8);
            r.extend_from_slice(t.as_bytes());
        }
        body.push(r.len() as u8);
        body.extend_from_slice(&r);
    }
    let mut out = vec![1];
    out.extend_from_slice(&(body.len() as u16).to_be_bytes());
    out.extend_from_slice(&body);
    out
}

//! Writes meter lists (NAME.list) and what the listing program gives for each of them by the Rust (NAME.out).
//! usage: lists DIR
use oracle::sim::{builtins, SimMeter};
use reference::{list_bytes, Clock, Entry, Segment, METERS};
use std::fmt::Write;
use std::path::Path;

const READ: usize = 65_536;
const CLOCK: Clock = Clock { now: 0.0, year: 2026, month: 10, day: 1, hour: 0, minute: 0 };

fn digits(ds: &[u8; 8]) -> String {
    ds.iter().map(|d| if *d == 0xF { 'F' } else { (b'0' + d) as char }).collect()
}

/// 01, "The listing program".
fn listing(input: &[u8]) -> String {
    let list = &input[..input.len().min(READ)];
    let mut segment = Segment::new();
    let (number, _) = segment.open(list, 2400, false, 0.0);
    if number != 0 {
        return format!("refused {number}\n");
    }
    let found = segment.search(CLOCK, 10_000, METERS);
    assert_eq!(found.number, 0);
    let mut out = format!("{} entries, {} probes\n", found.entries.len(), found.probes);
    for e in &found.entries {
        match e {
            Entry::One(id) => writeln!(out, "one {}", digits(id)),
            Entry::Mute(mask) => writeln!(out, "mute {}", digits(mask)),
            Entry::Many(id, n) => writeln!(out, "many {} {n}", digits(id)),
        }
        .unwrap();
    }
    out
}

fn water(primary: u8, id: &str) -> SimMeter {
    SimMeter::new(primary, id, "SEN", "water")
}

fn with_fault(primary: u8, id: &str, fault: &str) -> SimMeter {
    let mut m = water(primary, id);
    m.fault = fault.into();
    m
}

/// A record that fits the layout and fills `len` bytes after its length byte; it need not pass the check.
fn filler(len: u8) -> Vec<u8> {
    let mut r = vec![len, 1, 0, 0, 0, 0, 0, len - 10];
    r.resize(r.len() + len as usize - 10, b'0');
    r.extend_from_slice(&[0, 0, 0]);
    r
}

/// Exactly the bytes that are read are a list, of more than 64 records, and more bytes follow.
fn past_the_end() -> Vec<u8> {
    let mut body = Vec::new();
    while READ - 3 - body.len() > 256 {
        body.extend(filler(200));
    }
    let left = READ - 3 - body.len();
    body.extend(filler((left / 2) as u8 - 1));
    body.extend(filler((left - left / 2) as u8 - 1));
    let mut out = vec![1];
    out.extend_from_slice(&(body.len() as u16).to_be_bytes());
    out.extend(body);
    assert_eq!(out.len(), READ);
    out.extend_from_slice(b"not read");
    out
}

fn main() {
    let dir = std::env::args().nth(1).expect("usage: lists DIR");
    let write = |name: &str, list: &[u8]| {
        let at = |end: &str| Path::new(&dir).join(format!("{name}.{end}"));
        std::fs::write(at("list"), list).unwrap();
        std::fs::write(at("out"), listing(list)).unwrap();
    };

    for s in builtins() {
        write(&s.key, &list_bytes(&s.meters));
    }
    let two = [water(1, "12345678"), water(2, "12345699")];
    write("two_water", &list_bytes(&two));
    write("no_meters", &list_bytes(&[]));
    write("one_meter", &list_bytes(&[water(250, "00000000")]));
    write("twins", &list_bytes(&[water(1, "77777777"), water(2, "77777777")]));
    // Masks of several lengths, and a twin that is never read.
    let faults = [
        with_fault(1, "10000000", "checksum"),
        with_fault(2, "20000000", "truncated"),
        with_fault(3, "20100000", "busy"),
        with_fault(4, "20110000", "wrong_address"),
        with_fault(5, "20111111", "too_many"),
        with_fault(6, "20111112", "busy"),
        with_fault(7, "20111112", "busy"),
        with_fault(8, "30000000", "flaky"),
        with_fault(9, "99999998", "checksum"),
        with_fault(10, "99999999", "none"),
    ];
    write("faults", &list_bytes(&faults));
    write("lone_mute", &list_bytes(&[with_fault(1, "12345678", "busy")]));
    // Pairs that share seven digits, far apart: as many probes as 64 meters can take.
    let pairs: Vec<SimMeter> = (0..METERS as u32)
        .map(|k| water(k as u8, &format!("{:08}", (k / 2) * 3_030_307 % 10_000_000 * 10 + k % 2)))
        .collect();
    write("worst_case", &list_bytes(&pairs));
    let alike: Vec<SimMeter> = (0..METERS as u32).map(|k| water(k as u8, "88888888")).collect();
    write("all_alike", &list_bytes(&alike));

    // Refused.
    write("refused_1_empty", &[]);
    write("refused_1_short", &[1, 0]);
    let mut list = list_bytes(&two);
    list[0] = 2;
    write("refused_1_version", &list);
    let mut list = list_bytes(&two);
    list[2] += 1;
    write("refused_2_length", &list);
    let mut list = list_bytes(&two);
    list[3] -= 1;
    write("refused_2_record", &list);
    let mut list = list_bytes(&two);
    list.push(0);
    write("refused_2_more", &list);
    let many: Vec<SimMeter> = (0..65).map(|k| water(k, &format!("{k:08}"))).collect();
    write("refused_3_meters", &list_bytes(&many));
    write("refused_3_past_the_end", &past_the_end());
    write("refused_4_primary", &list_bytes(&[water(1, "12345678"), water(251, "12345699")]));
    write("refused_5_id", &list_bytes(&[water(1, "12345678"), water(2, "1234569A")]));
    write("refused_6_manufacturer", &list_bytes(&[SimMeter::new(1, "12345678", "Sen", "water")]));
    write("refused_7_medium", &list_bytes(&[SimMeter::new(1, "12345678", "SEN", "steam")]));
    let mut m = water(1, "12345678");
    m.baud = Some(2401);
    write("refused_8_baud", &list_bytes(&[m]));
    write("refused_9_fault", &list_bytes(&[with_fault(1, "12345678", "loud")]));
    // Records 1, 2 and 3 fail: with 8 and 9, with 4, with 7. The first of them is named, with its first number.
    let mut first = with_fault(2, "12345679", "no fault");
    first.baud = Some(1);
    let steam = SimMeter::new(4, "12345681", "SEN", "steam");
    let three = [water(1, "12345678"), first, water(251, "12345680"), steam];
    write("refused_8_first_of_three", &list_bytes(&three));
}

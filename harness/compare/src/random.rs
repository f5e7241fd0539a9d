//! Lists of calls by a seed.
use crate::calls::{Call, Side};
use crate::library::{BUS, COUNT, IMAGE, METER, METERS, PARTS};
use crate::rust::Rust;
use oracle::mbus::frame::Frame;
use oracle::sim::{SimMeter, FAULTS, MEDIA};
use reference::{list_bytes, Clock, EXPORT};

pub struct Random(u64);

impl Random {
    pub fn new(seed: u64) -> Self {
        Random(seed.wrapping_mul(0x9E37_79B9_7F4A_7C15) | 1)
    }
    fn next(&mut self) -> u64 {
        self.0 ^= self.0 << 13;
        self.0 ^= self.0 >> 7;
        self.0 ^= self.0 << 17;
        self.0.wrapping_mul(0x2545_F491_4F6C_DD1D) >> 11
    }
    pub fn below(&mut self, n: u64) -> u64 {
        self.next() % n
    }
    fn one_in(&mut self, n: u64) -> bool {
        self.below(n) == 0
    }
    fn of<T: Copy>(&mut self, xs: &[T]) -> T {
        xs[self.below(xs.len() as u64) as usize]
    }
    fn byte(&mut self) -> u8 {
        self.below(256) as u8
    }
}

pub const RATES: [u32; 8] = [300, 600, 1200, 2400, 4800, 9600, 19200, 38400];

fn meter(r: &mut Random) -> SimMeter {
    let medium = r.of(&MEDIA).0;
    let maker = if medium == "heat_old" && r.one_in(2) { "" } else { r.of(&["KAM", "SEN", "ZRI", "ABB"]) };
    // Digits that are often alike, so that masks and prefixes are shared.
    let id: String = (0..8).map(|k| (b'0' + if k < 3 { r.below(2) as u8 + 1 } else if r.one_in(3) { r.below(10) as u8 } else { 7 }) as char).collect();
    let primary = if r.one_in(60) { r.of(&[250, 251, 255]) } else { r.below(6) as u8 };
    let mut m = SimMeter::new(primary, &id, maker, medium);
    m.version = r.of(&[0, 1, 16, 255]);
    m.fault = if r.one_in(2) { "none".into() } else { r.of(&FAULTS).into() };
    m.baud = if r.one_in(4) { Some(r.of(&RATES)) } else { None };
    m
}

/// Makes a meter fail with one of the numbers 4 to 9.
fn spoil(r: &mut Random, m: &mut SimMeter) {
    match r.below(6) {
        0 => m.primary = r.of(&[251, 255]),
        1 => m.id = r.of(&["", "1234567", "1234567A", "123456789"]).into(),
        2 => m.manufacturer = r.of(&["Kam", "KA", "KAMM"]).into(),
        3 => m.medium = r.of(&["", "steam", "Heat"]).into(),
        4 => m.baud = Some(r.of(&[1, 2401, u32::MAX])),
        _ => m.fault = r.of(&["", "loud", "None"]).into(),
    }
}

fn list(r: &mut Random) -> Vec<u8> {
    let n = if r.one_in(40) { r.of(&[0, 63, 64, 65, 66]) } else { r.below(9) };
    let mut meters: Vec<SimMeter> = (0..n).map(|_| meter(r)).collect();
    // Some lists with several failing records, of which some fail in several ways. This has a generator of its own, so
    // that the other calls of a seed do not depend on it.
    let mut own = Random::new(r.0);
    if own.one_in(12) {
        for m in &mut meters {
            while own.one_in(3) {
                spoil(&mut own, m);
            }
        }
    }
    let mut bytes = list_bytes(&meters);
    if r.one_in(5) {
        let k = r.below(bytes.len() as u64) as usize;
        bytes[k] = if r.one_in(2) { bytes[k].wrapping_add(1) } else { r.byte() };
    }
    if r.one_in(20) {
        let k = r.below(bytes.len() as u64 + 1) as usize;
        bytes.truncate(k);
    }
    bytes
}

fn float(r: &mut Random) -> f64 {
    match r.below(12) {
        0 => f64::NAN,
        1 => f64::INFINITY,
        2 => f64::NEG_INFINITY,
        3 => -0.0,
        4 => f64::from_bits(r.next() << 11 | r.below(2048)),
        5 => 4_294_967_295.0 + r.below(3) as f64,
        6 => 1.0e19,
        7 => -(r.below(1000) as f64),
        _ => r.below(1 << 34) as f64 / 8.0,
    }
}

fn clock(r: &mut Random) -> Clock {
    let mut c = Clock {
        now: float(r),
        year: 1970 + r.below(8030) as u32,
        month: 1 + r.below(12) as u32,
        day: 1 + r.below(31) as u32,
        hour: r.below(24) as u32,
        minute: r.below(60) as u32,
    };
    if r.one_in(15) {
        match r.below(5) {
            0 => c.year = r.of(&[0, 1969, 10_000, u32::MAX]),
            1 => c.month = r.of(&[0, 13, 256, u32::MAX]),
            2 => c.day = r.of(&[0, 32, 257]),
            3 => c.hour = r.of(&[24, 256]),
            _ => c.minute = r.of(&[60, 256]),
        }
    }
    c
}

fn address(r: &mut Random) -> u8 {
    r.of(&[0, 1, 2, 3, 4, 5, 0xFD, 0xFD, 0xFE, 0xFE, 0xFF, 250])
}

fn telegram(r: &mut Random) -> Vec<u8> {
    let a = address(r);
    let f = match r.below(10) {
        0 | 1 => Frame::Short { control: r.of(&[0x40, 0x40, 0x5B, 0x7B, 0x4B, 0x41]), address: a },
        2 | 3 => Frame::Short { control: r.of(&[0x5B, 0x7B]), address: a },
        4..=6 => {
            let mut d: Vec<u8> = (0..4).map(|_| r.of(&[0xFF, 0x77, 0xF7, 0x11, 0x12, 0x1F, 0x21])).collect();
            d.extend_from_slice(&if r.one_in(3) { [0x2D, 0x2C, 1, 7] } else { [0xFF; 4] });
            d.truncate(if r.one_in(10) { 7 } else { 8 });
            Frame::Long { control: r.of(&[0x53, 0x73, 0x43]), address: 0xFD, ci: 0x52, data: d }
        }
        7 => Frame::Long { control: 0x53, address: a, ci: 0x51, data: vec![1, r.of(&[0x7A, 0x7A, 0x7B]), r.below(7) as u8] },
        8 => Frame::Long { control: 0x53, address: a, ci: 0xB7 + r.below(10) as u8, data: vec![] },
        _ => Frame::Long { control: r.of(&[0x53, 0x08]), address: a, ci: r.of(&[0x50, 0x51, 0x72]), data: (0..r.below(5)).map(|_| r.byte()).collect() },
    };
    f.encode()
}

fn piece(r: &mut Random) -> Vec<u8> {
    let mut out = Vec::new();
    let most = if r.one_in(20) { 70 } else { 3 };
    for _ in 0..=r.below(most) {
        out.extend(if r.one_in(12) { vec![0xE5] } else { telegram(r) });
    }
    if r.one_in(8) && !out.is_empty() {
        let k = r.below(out.len() as u64) as usize;
        out[k] = out[k].wrapping_add(1 + r.below(255) as u8);
    }
    if r.one_in(8) {
        let k = r.below(out.len() as u64 + 1) as usize;
        out.truncate(k);
    }
    if r.one_in(60) {
        out.resize(r.of(&[1024, 1025, 1030]), 0xE5);
    }
    // Many acknowledgements, which fill the queue.
    if r.one_in(15) {
        out = [0x10, 0x40, 0xFE, 0x3E, 0x16].repeat(1 + r.below(204) as usize);
    }
    out
}

/// A long telegram of any fields and any data; some are damaged, some cut, some go on.
fn any_long(r: &mut Random) -> Vec<u8> {
    let most = r.of(&[4, 20, 253]);
    let data = (0..r.below(most)).map(|_| r.byte()).collect();
    let mut bytes = Frame::Long { control: r.byte(), address: r.byte(), ci: r.byte(), data }.encode();
    let k = r.below(bytes.len() as u64) as usize;
    match r.below(6) {
        0 => bytes[k] = r.byte(),
        1 => bytes[k] ^= 1 << r.below(8),
        2 => bytes.truncate(k),
        3 => bytes.push(r.byte()),
        _ => {}
    }
    bytes
}

fn encode(r: &mut Random) -> Call {
    let len = if r.one_in(3) { 250 + r.below(6) } else { r.below(30) };
    let data: Vec<u8> = (0..len).map(|_| r.byte()).collect();
    let kind = r.of(&[0, 1, 2, 2, 2, 3, 255]);
    let needed = match kind {
        0 => 1,
        1 => 5,
        _ => data.len() as u64 + 9,
    };
    let lent = (needed + r.of(&[0, 1, 2, 5, 40])).saturating_sub(r.below(4)) as usize;
    Call::Encode { kind, control: r.byte(), address: r.byte(), ci: r.byte(), data, lent }
}

/// How many bytes to lend for a list of so many.
fn lent_for(r: &mut Random, list: usize) -> usize {
    match r.below(8) {
        0 => 0,
        1 => r.below(list as u64 + 1) as usize,
        2 => list.saturating_sub(1),
        3 => list + 1,
        4 => list + r.below(300) as usize,
        5 => EXPORT,
        _ => list,
    }
}

/// An export of such a kind, with lengths around that of its list.
fn export(r: &mut Random, rust: &mut Rust, of: impl Fn(usize) -> Call) -> Call {
    let list = rust.answer(&of(EXPORT)).returned % 65_536;
    of(lent_for(r, list as usize))
}

/// A telegram that changes addresses or bauds.
fn change(r: &mut Random) -> Call {
    let address = address(r);
    let (ci, data) = if r.one_in(2) { (0x51, vec![1, 0x7A, r.of(&[0, 9, 250, 250, 251, 255])]) } else { (0xB8 + r.below(8) as u8, vec![]) };
    Call::Send { piece: Frame::Long { control: 0x53, address, ci, data }.encode(), clock: clock(r) }
}

/// Bytes that nobody wrote as an image. Some tell fewer meters, most no primary above 250, and codes, faults and bauds that
/// a segment can have are among them.
fn image(r: &mut Random) -> Vec<u8> {
    let mut out: Vec<u8> = (0..IMAGE).map(|_| r.byte()).collect();
    if r.one_in(2) {
        out[COUNT..COUNT + 2].copy_from_slice(&r.of(&[0u16, 1, 2, 5, 63, 64, 65]).to_le_bytes());
    }
    let bus = if r.one_in(2) { r.of(&RATES) } else { r.next() as u32 }.to_le_bytes();
    out[BUS..BUS + 4].copy_from_slice(&bus);
    let high = r.one_in(6);
    for meter in out[METERS..].chunks_mut(METER) {
        let at = |part: usize| PARTS[part]..PARTS[part + 1];
        if !(high && r.one_in(8)) {
            meter[0] %= 251;
        }
        match r.below(4) {
            0 => meter[at(2)].fill(0),
            1 => meter[at(8)].copy_from_slice(&bus),
            _ => {}
        }
        if r.one_in(2) {
            (meter[PARTS[4]], meter[PARTS[5]]) = (r.of(&MEDIA).1, r.below(5) as u8);
        }
        if r.one_in(2) {
            meter[PARTS[6]] = r.below(8) as u8;
        }
    }
    out
}

/// Puts exports into a list of calls, and telegrams for them to tell; an image's export comes at the end. This has a
/// generator of its own, so that the other calls of a seed do not depend on it.
fn with_exports(r: &mut Random, calls: Vec<Call>) -> Vec<Call> {
    // The segment as the calls leave it, but for searches, which change nothing that an export tells.
    let mut rust = Rust::new();
    let mut out = Vec::new();
    for call in calls {
        let more = if r.one_in(3) { Some(change(r)) } else { None };
        for call in [Some(call), more].into_iter().flatten() {
            if !matches!(call, Call::Search { .. }) {
                rust.answer(&call);
            }
            out.push(call);
            if r.one_in(2) {
                out.push(export(r, &mut rust, |lent| Call::Export { lent }));
            }
        }
    }
    if r.one_in(2) {
        let image = image(r);
        out.push(export(r, &mut rust, |lent| Call::ExportOf { image: image.clone(), lent }));
    }
    out
}

/// The list of a seed. It begins with an opening, and some telegrams are read and written at its end.
pub fn list_of(seed: u64) -> Vec<Call> {
    let mut r = Random::new(seed);
    let mut calls = Vec::new();
    for step in 0..3 + r.below(12) {
        let call = match if step == 0 { 0 } else { r.below(12) } {
            0 => Call::Open { list: list(&mut r), baud: if r.one_in(15) { 2401 } else { r.of(&RATES) }, practice: r.one_in(3), origin: float(&mut r) },
            1..=6 => Call::Send { piece: piece(&mut r), clock: clock(&mut r) },
            7 | 8 => Call::Receive { lent: r.of(&[0, 1, 5, 31, 32, 33, 64]) },
            9 => Call::Clear,
            10 => Call::SetBaud { baud: if r.one_in(4) { r.of(&[0, 1, 2401]) } else { r.of(&RATES) } },
            _ => {
                // Else nearly every search is refused for its queue.
                if r.one_in(2) {
                    calls.push(Call::Clear);
                }
                Call::Search { clock: clock(&mut r), allowance: r.of(&[0, 1, 11, 50, 5000, u32::MAX]), lent: r.of(&[0, 3, 8, 64, 70]) * 16 + 5 }
            }
        };
        calls.push(call);
    }
    for _ in 0..r.below(4) {
        let call = match r.below(3) {
            0 => Call::Parse { bytes: piece(&mut r) },
            1 => Call::Parse { bytes: any_long(&mut r) },
            _ => encode(&mut r),
        };
        calls.push(call);
    }
    let mut own = Random::new(!seed);
    if own.one_in(2) { with_exports(&mut own, calls) } else { calls }
}

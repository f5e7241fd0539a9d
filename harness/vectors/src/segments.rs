//! Calls that show what a segment does: pieces, the queue, openings, searches.
use crate::sample::Sample;
use crate::telegrams::{long, mask, meter, short, NOON};
use oracle::sim::SimMeter;
use reference::{list_bytes, Clock};

/// Pieces that are cut, damaged, joined; refused sends; the clock's ends.
pub fn pieces(s: &mut Sample) {
    s.clock(NOON);
    s.open_builtin(2, 2400, false, 0.0);
    let select = long(0x53, 0xFD, 0x52, &mask("71000001")).encode();
    for cut in 0..=select.len() {
        s.send(&select[..cut]);
        s.send(&select[cut..]);
        s.drain();
    }
    for k in 0..select.len() {
        let mut bad = select.clone();
        bad[k] ^= 0x01;
        s.send(&bad);
        s.state_short();
        s.set_baud(2400);
        s.clear();
    }
    let req = short(0x5B, 0xFD).encode();
    let mut two = select.clone();
    two.extend_from_slice(&req);
    s.send(&two);
    s.drain();
    two.push(0x00);
    two.extend_from_slice(&req);
    s.send(&two);
    s.drain();
    s.send(&[0xE5, 0xE5, 0x10, 0x5B]);
    s.state_short();
    s.send(&[0xFD, 0x58, 0x16, 0x68]);
    s.drain();
    s.state_short();
    s.send(&vec![0x68, 0xFF, 0xFF, 0x68]);
    s.send(&vec![0x00; 256]);
    s.state_short();
    s.send(&vec![0x00; 1]);
    s.state_short();
    s.send(&vec![0xE5; 1024]);
    s.send(&vec![0xE5; 1025]);
    s.set_baud(2401);
    s.set_baud(0);
    for clock in [
        Clock { year: 1969, ..NOON },
        Clock { year: 1970, ..NOON },
        Clock { year: 9999, ..NOON },
        Clock { year: 10000, ..NOON },
        Clock { month: 0, ..NOON },
        Clock { month: 1, ..NOON },
        Clock { month: 12, ..NOON },
        Clock { month: 13, ..NOON },
        Clock { day: 0, ..NOON },
        Clock { day: 1, ..NOON },
        Clock { day: 31, ..NOON },
        Clock { day: 32, ..NOON },
        Clock { hour: 0, ..NOON },
        Clock { hour: 23, ..NOON },
        Clock { hour: 24, ..NOON },
        Clock { minute: 0, ..NOON },
        Clock { minute: 59, ..NOON },
        Clock { minute: 60, ..NOON },
    ] {
        s.clock(clock);
        s.send(&short(0x5B, 1).encode());
        s.drain();
    }
    s.clock(Clock { minute: 60, ..NOON });
    s.send(&vec![0xE5; 1025]);
    s.state();
}

/// 64 meters fill the queue to its end, and one byte more is refused.
pub fn queue(s: &mut Sample) {
    s.clock(NOON);
    let ms: Vec<SimMeter> = (0..64).map(|k| meter(k, &format!("{k:08}"), "KAM", "water", "none")).collect();
    s.open(&list_bytes(&ms), 2400, false, 0.0);
    let nke = short(0x40, 0xFE).encode();
    s.send(&nke.repeat(63));
    s.send(&nke);
    s.send(&nke);
    s.send(&short(0x40, 5).encode());
    s.send(&nke.repeat(2));
    s.send(&short(0x40, 0xFF).encode());
    s.receive(0);
    s.receive(1);
    s.receive(33);
    s.receive(64);
    s.send(&short(0x40, 5).encode());
    s.state_short();
    s.clear();
    s.state_short();
    s.send(&nke.repeat(65));
    s.state_short();
    s.ask(short(0x5B, 0xFE));
}

/// Openings that are refused, each by its number, and the former segment kept.
pub fn openings(s: &mut Sample) {
    let good = list_bytes(&[meter(1, "12345678", "KAM", "heat", "none"), meter(250, "00000002", "", "heat_old", "flaky")]);
    s.clock(NOON);
    s.open(&good, 4800, false, 7.5);
    s.state();
    s.open(&[], 2400, false, 0.0);
    s.open(&[1], 2400, false, 0.0);
    s.open(&[1, 0], 2400, false, 0.0);
    s.open(&[2, 0, 0], 2400, false, 0.0);
    s.open(&[1, 0, 1], 2400, false, 0.0);
    for k in 0..good.len() {
        s.open(&good[..k], 2400, false, 0.0);
    }
    for k in 0..good.len() {
        let mut bad = good.clone();
        bad[k] ^= 0x10;
        s.open(&bad, 600, false, 0.0);
    }
    let mut own = meter(3, "30000003", "SEN", "water", "none");
    for baud in [300, 2400, 38400, 1, 2401] {
        own.baud = Some(baud);
        s.open(&list_bytes(&[own.clone()]), 300, false, 0.0);
        s.state();
        s.open(&list_bytes(&[own.clone()]), 300, true, 0.0);
        s.state();
    }
    for m in [
        meter(251, "12345678", "KAM", "heat", "none"),
        meter(1, "1234567", "KAM", "heat", "none"),
        meter(1, "123456789", "KAM", "heat", "none"),
        meter(1, "1234567A", "KAM", "heat", "none"),
        meter(1, "12345678", "KAm", "heat", "none"),
        meter(1, "12345678", "KA", "heat", "none"),
        meter(1, "12345678", "", "heat", "none"),
        meter(1, "12345678", "KAM", "heat_old", "none"),
        meter(1, "12345678", "KAM", "steam", "none"),
        meter(1, "12345678", "KAM", "heat", ""),
        meter(1, "12345678", "KAM", "heat", "nonee"),
        meter(251, "x", "x", "x", "x"),
    ] {
        s.open(&list_bytes(&[meter(1, "12345678", "KAM", "heat", "none"), m]), 2400, false, 0.0);
    }
    // Records 1, 2 and 3 fail: with 8 and 9, with 4, with 7. The first of them is named, with its first number.
    let first = SimMeter { baud: Some(1), ..meter(2, "12345679", "SEN", "water", "no fault") };
    let (good_one, over) = (meter(1, "12345678", "SEN", "water", "none"), meter(251, "12345680", "SEN", "water", "none"));
    s.open(&list_bytes(&[good_one, first, over, meter(4, "12345681", "SEN", "steam", "none")]), 2400, false, 0.0);
    s.open(&list_bytes(&[]), 2400, false, 0.5);
    s.state();
    s.open(&good, 2401, false, 0.0);
    s.open(&list_bytes(&[meter(251, "x", "x", "x", "x")]), 2401, false, 0.0);
    let ms: Vec<SimMeter> = (0..65).map(|k| meter(k, &format!("{:08}", 99_999_999 - k as u32 * 1_234_567), "ZZZ", "gas", "none")).collect();
    s.open(&list_bytes(&ms[..64]), 19200, false, 0.0);
    s.state();
    s.open(&list_bytes(&ms), 19200, false, 0.0);
    let mut past = list_bytes(&ms);
    let n = past.len();
    past[n - 5] = 9;
    s.open(&past, 19200, false, 0.0);
}

/// The built-in lists at each of the eight rates, with the flag and without.
pub fn builtin_lists(s: &mut Sample) {
    for n in 0..4 {
        for baud in [300, 600, 1200, 2400, 4800, 9600, 19200, 38400] {
            s.open_builtin(n, baud, baud == 300 || baud == 9600, 0.0);
            s.state_short();
        }
        s.state();
    }
}

/// Searches of the built-in lists at each rate, spent ones, refused ones, and with what calls left before.
pub fn searches(s: &mut Sample) {
    s.clock(NOON);
    for n in 0..4 {
        for baud in [300, 600, 1200, 2400, 4800, 9600, 19200, 38400] {
            s.open_builtin(n, baud, false, 0.0);
            s.search(10_000, 64);
            s.state();
            s.search(10_000, 64);
        }
    }
    s.open_builtin(0, 2400, true, 0.0);
    for allowance in [0, 1, 10, 11, 12, 100, 280, 281, 282, u32::MAX] {
        s.search(allowance, 20);
        s.state();
    }
    s.search(10, 19);
    s.send(&[0x10]);
    s.search(10, 64);
    s.set_baud(2400);
    s.send(&short(0x40, 1).encode());
    s.search(10, 64);
    s.clear();
    s.clock(Clock { day: 0, ..NOON });
    s.search(10, 0);
    s.clock(NOON);
    s.search(10_000, 64);
    s.state();
}

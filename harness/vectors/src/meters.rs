//! Calls that show what meters do.
use crate::sample::Sample;
use crate::telegrams::{long, mask, meter, short, NOON};
use oracle::mbus::frame::Frame;
use oracle::sim::{FAULTS, MEDIA};
use reference::{list_bytes, Clock};

/// Every model with every fault, read at several clocks, with the alternation bit kept and turned.
pub fn readings(s: &mut Sample) {
    for (medium, _) in MEDIA {
        for fault in FAULTS {
            let maker = if medium == "heat_old" { "" } else { "KAM" };
            s.open(&list_bytes(&[meter(9, "12345678", maker, medium, fault)]), 2400, false, 0.0);
            s.clock(NOON);
            for control in [0x5B, 0x7B, 0x7B, 0x5B] {
                s.ask(short(control, 9));
            }
            s.state();
        }
    }
    s.open(&list_bytes(&[meter(9, "99999999", "SEN", "heat", "none"), meter(8, "00000000", "", "heat_old", "none")]), 300, false, -0.5);
    for now in [f64::NAN, f64::INFINITY, f64::NEG_INFINITY, -1.0, 59.9, 4294967295.0, 4294967296.0, 1.0e19, 1.0e300] {
        s.clock(Clock { now, year: 1999, month: 12, day: 31, hour: 23, minute: 59 });
        s.ask(short(0x5B, 9));
        s.ask(short(0x5B, 8));
        s.ask(short(0x40, 9));
    }
    s.state();
    s.clock(NOON);
    s.open(&list_bytes(&[meter(1, "11111111", "ABB", "electricity", "none")]), 38400, true, f64::NAN);
    for _ in 0..257 {
        s.send(&short(0x5B, 1).encode());
        s.clear();
    }
    s.state();
}

/// Masks that hit, miss and are too short; the flaky meter; selection and its end.
pub fn selections(s: &mut Sample) {
    s.clock(NOON);
    s.open_builtin(0, 2400, true, 0.0);
    for m in ["FFFFFFFF", "1FFFFFFF", "12345678", "16FFFFFF", "16000016", "7777777F", "00000000", "F2345678", "1234567A"] {
        s.ask(long(0x53, 0xFD, 0x52, &mask(m)));
        s.ask(short(0x5B, 0xFD));
    }
    s.state();
    let mut by_maker = mask("77777777");
    by_maker[4] = 0xAE;
    by_maker[5] = 0x4C;
    s.ask(long(0x73, 0xFD, 0x52, &by_maker));
    by_maker[6] = 0x01;
    s.ask(long(0x53, 0xFD, 0x52, &by_maker));
    by_maker[6] = 0x10;
    by_maker[7] = 0x07;
    s.ask(long(0x53, 0xFD, 0x52, &by_maker));
    s.ask(long(0x53, 0xFD, 0x52, &[0xFF; 7]));
    s.ask(long(0x53, 0xFD, 0x52, &[0xFF; 12]));
    s.ask(long(0x53, 1, 0x52, &mask("FFFFFFFF")));
    s.ask(long(0x44, 0xFD, 0x52, &mask("FFFFFFFF")));
    s.state();
    s.ask(short(0x40, 0xFE));
    s.state();
    s.ask(short(0x40, 0xFD));
    s.state();
    s.ask(long(0x53, 0xFD, 0x52, &mask("FFFFFFFF")));
    s.ask(short(0x40, 0xFF));
    s.state();
}

/// The remaining telegrams, at every kind of address.
pub fn commands(s: &mut Sample) {
    s.clock(NOON);
    s.open_builtin(3, 2400, false, 0.0);
    for f in [
        long(0x53, 1, 0x51, &[0x01, 0x7A, 0xFF]),
        long(0x73, 2, 0x51, &[0x01, 0x7A, 0x03]),
        long(0x53, 4, 0x51, &[0x01, 0x7A]),
        long(0x53, 4, 0x51, &[0x01, 0x7A, 0x03, 0x00]),
        long(0x53, 4, 0x51, &[0x02, 0x7A, 0x03]),
        long(0x53, 4, 0x51, &[0x01, 0x7B, 0x03]),
        long(0x53, 3, 0x50, &[]),
        long(0x53, 3, 0x50, &[1, 2, 3]),
        long(0x53, 3, 0xB7, &[]),
        long(0x53, 3, 0xC0, &[]),
        long(0x53, 3, 0xBD, &[0]),
        long(0x08, 3, 0xBD, &[]),
        short(0x41, 3),
        short(0x5A, 3),
        short(0x5A | 0x20, 3),
        short(0x4B, 3),
        short(0x7B, 3),
        short(0x5B, 0xFE),
        short(0x40, 0xFE),
        short(0x40, 3),
        long(0x53, 0xFF, 0x50, &[]),
        short(0x5B, 0xFF),
        short(0x40, 0xFF),
        short(0x5B, 251),
        Frame::Ack,
    ] {
        s.ask(f);
    }
    s.state();
    for ci in 0xB8..=0xBF {
        s.ask(long(0x53, 3, ci, &[]));
        let rate = [300, 600, 1200, 2400, 4800, 9600, 19200, 38400][(ci - 0xB8) as usize];
        s.set_baud(rate);
        s.ask(short(0x5B, 3));
        s.state();
    }
    s.set_baud(9600);
    s.ask(long(0x53, 0xFE, 0xBB, &[]));
    s.set_baud(2400);
    s.ask(short(0x40, 0xFE));
    s.state();
}

/// Several replies at once: two meters at one address, all of a list, unlike lengths.
pub fn collisions(s: &mut Sample) {
    s.clock(NOON);
    let pairs = [("heat", "heat"), ("heat", "electricity"), ("water", "heat_old"), ("gas", "warm_water")];
    for (a, b) in pairs {
        for fault in ["none", "checksum", "truncated", "busy", "flaky"] {
            let maker = |m: &str| if m == "heat_old" { "" } else { "ELS" };
            let l = list_bytes(&[meter(10, "10000010", maker(a), a, "none"), meter(10, "10000011", maker(b), b, fault)]);
            s.open(&l, 1200, false, 1000.25);
            for f in [short(0x5B, 10), short(0x7B, 10), short(0x40, 10), short(0x5B, 0xFE)] {
                s.ask(f);
            }
            s.state();
        }
    }
    for n in 0..4 {
        s.open_builtin(n, 2400, false, 0.0);
        s.ask(short(0x5B, 0xFE));
        s.ask(short(0x40, 0xFE));
        s.ask(short(0x7B, 0xFE));
        s.state();
    }
}

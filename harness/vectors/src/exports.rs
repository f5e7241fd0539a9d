//! Calls that show what an export gives.
use crate::sample::Sample;
use crate::telegrams::{long, mask, meter, short, NOON};
use oracle::sim::{SimMeter, FAULTS, MEDIA};
use reference::{list_bytes, EXPORT};

/// Exports of the built-in lists, after address and baud changes, of every medium and fault; refused ones.
pub fn exports(s: &mut Sample) {
    s.clock(NOON);
    s.open(&list_bytes(&[]), 2400, false, 0.0);
    s.exports();
    s.export(0);
    for n in 0..4 {
        s.open_builtin(n, 2400, n == 0, 0.0);
        s.exports();
        s.set_baud(9600);
        s.exports();
    }
    // Media and faults by turns, and a heat_old with a manufacturer beside one without.
    let kinds = MEDIA.iter().cycle().zip(FAULTS.iter().cycle()).take(MEDIA.len() * FAULTS.len()).enumerate();
    let kind = |(k, ((medium, _), fault)): (usize, (&(&str, u8), &&str))| meter(k as u8, &format!("{:08}", 1_234_567 * k), "KAM", medium, fault);
    s.open(&list_bytes(&kinds.map(kind).collect::<Vec<SimMeter>>()), 300, false, 0.0);
    s.exports();
    s.open(&list_bytes(&["", "AAA", "ZZZ"].map(|maker| meter(250, "00000000", maker, "heat_old", "none"))), 38400, false, 0.0);
    s.exports();
    addresses_and_bauds(s);
    // The longest list.
    let longest = SimMeter { version: 255, baud: Some(38400), ..meter(250, "99999999", "ZZZ", "electricity", "wrong_address") };
    s.open(&list_bytes(&vec![longest; 64]), 2400, false, 0.0);
    s.export(EXPORT);
    s.export(EXPORT - 1);
}

/// Addresses up to 250 and above, every rate; what else calls change is not told.
fn addresses_and_bauds(s: &mut Sample) {
    s.open_builtin(3, 2400, false, 0.0);
    for p in [250, 251, 255, 0] {
        s.ask(long(0x53, 1, 0x51, &[0x01, 0x7A, 7]));
        s.ask(long(0x53, 7, 0x51, &[0x01, 0x7A, p]));
        s.exports();
        s.ask(long(0x53, 0xFD, 0x52, &mask("81000001")));
        s.ask(long(0x53, 0xFD, 0x51, &[0x01, 0x7A, 1]));
        s.exports();
    }
    for ci in 0xB8..=0xBF {
        s.ask(long(0x53, 3, ci, &[]));
        s.exports();
        s.set_baud([300, 600, 1200, 2400, 4800, 9600, 19200, 38400][(ci - 0xB8) as usize]);
        s.exports();
    }
    s.send(&[0x68]);
    s.exports();
    s.set_baud(2400);
    s.send(&short(0x5B, 0xFE).encode());
    s.exports();
    s.clear();
    s.state();
}

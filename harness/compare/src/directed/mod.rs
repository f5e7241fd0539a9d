//! Lists of calls that go to every limit, and through all short inputs.
mod due;
mod exports;
mod failing;
mod openings;
mod searches;
mod sends;
mod telegrams;
mod times;
mod waiting;

use crate::calls::Call;
use crate::shrink::PLAIN;
use oracle::mbus::frame::Frame;
use oracle::sim::{SimMeter, FAULTS, MEDIA};
use reference::list_bytes;

/// Takes each list with its name.
type Each<'a> = &'a mut dyn FnMut(&str, Vec<Call>);

pub fn all(each: Each) {
    openings::lists(each);
    failing::lists(each);
    sends::lists(each);
    waiting::lists(each);
    due::lists(each);
    times::lists(each);
    searches::lists(each);
    exports::lists(each);
    telegrams::lists(each);
}

/// The selected, all, all without a reply.
const FD: u8 = 0xFD;
const FE: u8 = 0xFE;
const FF: u8 = 0xFF;

fn short(control: u8, address: u8) -> Vec<u8> {
    Frame::Short { control, address }.encode()
}

fn long(control: u8, address: u8, ci: u8, data: &[u8]) -> Vec<u8> {
    Frame::Long { control, address, ci, data: data.to_vec() }.encode()
}

fn nke(address: u8) -> Vec<u8> {
    short(0x40, address)
}

fn request(address: u8) -> Vec<u8> {
    short(0x5B, address)
}

fn select(mask: &[u8]) -> Vec<u8> {
    long(0x53, FD, 0x52, mask)
}

fn select_all() -> Vec<u8> {
    select(&[0xFF; 8])
}

fn meter(primary: u8, id: u32, maker: &str, medium: &str, fault: &str) -> SimMeter {
    let mut m = SimMeter::new(primary, &format!("{id:08}"), maker, medium);
    m.fault = fault.into();
    m
}

fn water(primary: u8, id: u32) -> SimMeter {
    meter(primary, id, "SEN", "water", "none")
}

fn at_baud(mut m: SimMeter, baud: u32) -> SimMeter {
    m.baud = Some(baud);
    m
}

/// A meter of each medium with each fault, 56 of them, at the addresses from 0 on.
fn every_kind() -> Vec<SimMeter> {
    let kinds = MEDIA.iter().flat_map(|(medium, _)| FAULTS.iter().map(move |fault| (*medium, *fault)));
    kinds.enumerate().map(|(k, (medium, fault))| meter(k as u8, 11_223_344 + 1_001_001 * k as u32, "KAM", medium, fault)).collect()
}

/// A meter of each medium, at the addresses from 1 on.
fn every_medium() -> Vec<SimMeter> {
    MEDIA.iter().enumerate().map(|(k, (medium, _))| meter(k as u8 + 1, 12_345_670 + k as u32, "KAM", medium, "none")).collect()
}

/// Three that differ in what a telegram can do to them: two parts, a missed telegram, another baud.
fn few() -> Vec<SimMeter> {
    vec![meter(1, 12_345_678, "KAM", "heat", "none"), meter(2, 12_345_699, "SEN", "water", "flaky"), at_baud(water(3, 87_654_321), 9600)]
}

/// A record with these texts: id, manufacturer, medium, fault.
fn record(primary: u8, own: u32, texts: [&[u8]; 4]) -> Vec<u8> {
    let mut out = [&[primary, 1][..], &own.to_be_bytes()].concat();
    for t in texts {
        out.push(t.len() as u8);
        out.extend_from_slice(t);
    }
    out
}

/// A record that fails with each of these numbers, 4 to 9, and with no other; with none it passes.
fn failing_with(numbers: &[u32]) -> Vec<u8> {
    let on = |number: u32| numbers.contains(&number);
    let text = |number: u32, good: &'static [u8], bad: &'static [u8]| if on(number) { bad } else { good };
    let (primary, own) = (if on(4) { 251 } else { 250 }, if on(8) { 2401 } else { 300 });
    let (id, maker) = (text(5, b"12345678", b"1234567"), text(6, b"SEN", b"Sen"));
    record(primary, own, [id, maker, text(7, b"water", b"wine"), text(9, b"none", b"loud")])
}

fn open_list(list: Vec<u8>) -> Call {
    Call::Open { list, baud: 2400, practice: false, origin: 0.0 }
}

fn open(meters: &[SimMeter]) -> Call {
    open_list(list_bytes(meters))
}

fn send(piece: impl Into<Vec<u8>>) -> Call {
    Call::Send { piece: piece.into(), clock: PLAIN }
}

fn receive(lent: usize) -> Call {
    Call::Receive { lent }
}

fn set_baud(baud: u32) -> Call {
    Call::SetBaud { baud }
}

fn search(allowance: u32, entries: usize) -> Call {
    Call::Search { clock: PLAIN, allowance, lent: entries * 16 }
}

fn export(lent: usize) -> Call {
    Call::Export { lent }
}

fn parse(bytes: impl Into<Vec<u8>>) -> Call {
    Call::Parse { bytes: bytes.into() }
}

/// Bytes with one of them changed.
fn with_byte(bytes: &[u8], k: usize, b: u8) -> Vec<u8> {
    let mut next = bytes.to_vec();
    next[k] = b;
    next
}

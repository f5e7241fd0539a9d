//! A clock, meters and telegrams to make calls of.
use oracle::mbus::frame::Frame;
use oracle::sim::SimMeter;
use reference::Clock;

pub const NOON: Clock = Clock { now: 3_725.5, year: 2026, month: 10, day: 1, hour: 12, minute: 34 };

pub fn meter(primary: u8, id: &str, manufacturer: &str, medium: &str, fault: &str) -> SimMeter {
    let mut m = SimMeter::new(primary, id, manufacturer, medium);
    m.fault = fault.into();
    m
}

pub fn short(control: u8, address: u8) -> Frame {
    Frame::Short { control, address }
}

pub fn long(control: u8, address: u8, ci: u8, data: &[u8]) -> Frame {
    Frame::Long { control, address, ci, data: data.to_vec() }
}

pub fn mask(digits: &str) -> Vec<u8> {
    let d: Vec<u8> = digits.chars().map(|c| c.to_digit(16).unwrap() as u8).collect();
    let mut out: Vec<u8> = (0..4).rev().map(|k| d[2 * k] * 16 + d[2 * k + 1]).collect();
    out.extend_from_slice(&[0xFF; 4]);
    out
}

//! The program examples/serial: what it reads, what comes back, how often it wakes.
mod common;

use common::program;
use jezynar::frame::{parse, Frame, Parsed};
use std::process::Command;

fn bytes(text: &str) -> Vec<u8> {
    text.split(' ').map(|byte| u8::from_str_radix(byte, 16).expect("a byte")).collect()
}

#[test]
fn it_wakes_as_often_as_bytes_are_due() {
    let run = Command::new(program("serial")).output().expect("the program");
    let out = String::from_utf8(run.stdout).expect("text");
    assert!(run.status.success() && run.stderr.is_empty(), "{out}");
    let lines: Vec<&str> = out.lines().collect();
    // Two wakes for a short telegram, three for a long one; the last reply is the reading of meter 12345699.
    let [front @ .., reading, last] = &lines[..] else { panic!("{out}") };
    let want = [
        "read 10",
        "read 40 01 41 16",
        "  reply E5",
        "read 68",
        "read 0B 0B 68",
        "read 53 FD 52 99 56 34 12 FF FF FF FF D3 16",
        "  reply E5",
        "read 10",
        "read 5B FD 58 16",
    ];
    assert_eq!(front, want);
    let reply = bytes(reading.strip_prefix("  reply ").expect("a reply"));
    let Parsed::Complete { frame: Frame::Long { address, ci, data, .. }, used } = parse(&reply) else {
        panic!("no readout: {reply:02X?}");
    };
    assert_eq!((address, ci, used), (2, 0x72, reply.len()));
    assert_eq!(data[..4], [0x99, 0x56, 0x34, 0x12]);
    assert_eq!(*last, "3 telegrams, 27 bytes, 7 wakes");
}

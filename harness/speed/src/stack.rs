//! The stack of each exported call. The call is made with the end of some memory as its stack; that memory holds a pattern,
//! and from the lowest word that the call changed to the end is what it took. No other code runs there but the closure that
//! makes the call: its frame, some tens of bytes, and the arguments that go by the stack are counted with the call.
use crate::library::{self, Image, ENTRIES, IMAGE, SUMMARY};
use crate::{many, nke_all, opened, pairs, queued, select, NOON, SEARCHED};
use oracle::mbus::frame::{self, Frame};
use oracle::sim::MEDIA;
use reference::{list_bytes, EXPORT};
use std::arch::asm;

const GOAL: usize = 65_536;
/// 1 MiB. The end of 16-byte words is aligned as a stack has to be.
const WORDS: usize = 1 << 16;
const PATTERN: u128 = 0x5AC3_69F0_A53C_960F_5AC3_69F0_A53C_960F;

extern "C" fn make<F: FnMut()>(call: *mut F) {
    unsafe { (*call)() }
}

/// How many bytes of stack the call takes.
fn taken<F: FnMut()>(mut call: F) -> usize {
    let mut memory = vec![PATTERN; WORDS];
    unsafe {
        asm!(
            "mov r12, rsp",
            "mov rsp, {end}",
            "call {make}",
            "mov rsp, r12",
            end = in(reg) memory.as_mut_ptr_range().end,
            make = in(reg) make::<F> as extern "C" fn(*mut F),
            in("rdi") &mut call,
            // A call keeps it.
            out("r12") _,
            clobber_abi("C"),
        );
    }
    let lowest = memory.iter().position(|word| *word != PATTERN).expect("a call");
    assert!(lowest > 0, "more stack than was lent");
    (WORDS - lowest) * size_of::<u128>()
}

fn show(name: &str, bytes: usize) {
    println!("stack of jezynar_segment_{name:<19} {bytes:>9} bytes   goal {GOAL}{}", if bytes > GOAL { "   over" } else { "" });
}

fn new() -> usize {
    let mut image = [0xFF; IMAGE];
    taken(|| library::new(&mut image))
}

/// Of bytes that nobody wrote as an image: as many meters, waiting bytes and queued bytes as there can be.
fn tidy() -> usize {
    let mut image = [0xFF; IMAGE];
    taken(|| library::tidy(&mut image))
}

fn open() -> usize {
    let (mut image, list) = (opened(&many()), list_bytes(&many()));
    let mut answer = 0;
    let bytes = taken(|| answer = library::open(&mut image, &list));
    assert_eq!(answer, 0);
    bytes
}

fn send(image: &Image, piece: &[u8], number: u32) -> usize {
    let mut image = *image;
    let mut answer = 0;
    let bytes = taken(|| answer = library::send(&mut image, piece, &NOON));
    assert_eq!(answer, number);
    bytes
}

/// The most of several pieces: a select, a reading of meters of every medium, the longest piece, one that is refused
/// because the queue is full, and readings behind input that waits, of which there are too many for the queue.
fn most_of_sends() -> usize {
    let mut media = many();
    for (meter, (medium, _)) in media.iter_mut().zip(MEDIA.iter().cycle()) {
        meter.medium = medium.to_string();
    }
    let (media, full) = (opened(&media), queued(64));
    let reading = Frame::req_ud2(frame::ADDR_BROADCAST_REPLY, false).encode();
    let mut waiting = media.clone();
    assert_eq!(library::send(&mut waiting, &reading[..1], &NOON), 0);
    let too_many = [&reading[1..], &reading.repeat(100)].concat();
    let pieces = [(&waiting, too_many, 15), (&media, select([0x12, 0x34, 0xFF, 0xFF]), 0), (&media, reading, 0), (&media, vec![0x68; 1024], 0), (&full, nke_all(1), 15)];
    pieces.into_iter().map(|(image, piece, number)| send(image, &piece, number)).max().unwrap()
}

fn receive() -> usize {
    let (mut image, mut lent) = (queued(64), [0; 32]);
    let mut count = 0;
    let bytes = taken(|| count = library::receive(&mut image, &mut lent));
    assert_eq!(count, 32);
    bytes
}

fn clear() -> usize {
    let mut image = queued(64);
    taken(|| library::clear(&mut image))
}

fn set_baud() -> usize {
    let mut image = queued(64);
    let mut answer = 0;
    let bytes = taken(|| answer = library::set_baud(&mut image, 300));
    assert_eq!(answer, 0);
    bytes
}

fn search() -> usize {
    let (mut image, mut entries, mut summary) = (opened(&pairs()), [0; ENTRIES], [0; SUMMARY]);
    let mut answer = 0;
    let bytes = taken(|| answer = library::search(&mut image, &NOON, &mut entries, &mut summary));
    assert_eq!((answer, summary), (0, SEARCHED));
    bytes
}

/// Of 64 meters, the most that there can be, with the longest texts.
fn export() -> usize {
    let mut longest = many();
    for meter in &mut longest {
        meter.medium = "electricity".into();
        meter.fault = "wrong_address".into();
    }
    let (image, mut lent) = (opened(&longest), [0; EXPORT]);
    let mut answer = (0, 0);
    let bytes = taken(|| answer = library::export(&image, &mut lent));
    assert_eq!(answer, (0, EXPORT));
    bytes
}

pub fn show_all() {
    show("new", new());
    show("tidy", tidy());
    show("open", open());
    show("send", most_of_sends());
    show("receive", receive());
    show("clear", clear());
    show("set_baud", set_baud());
    show("search", search());
    show("export", export());
}

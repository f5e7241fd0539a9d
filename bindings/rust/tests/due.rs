//! How many bytes are due: of the beginning of a telegram, and of what waits after a send.
mod common;

use common::{opened, take, two_water, water, Random, CLOCK, NKE_ALL};
use jezynar::frame::{parse, Frame, Mask, Parsed, LONGEST};
use jezynar::list;
use jezynar::{Clock, Segment, SendRefusal, METERS};

/// How many bytes are due, where the bytes are the beginning of a telegram.
fn due(bytes: &[u8]) -> Option<usize> {
    match parse(bytes) {
        Parsed::Incomplete { due } => Some(due),
        Parsed::Complete { .. } | Parsed::Invalid(_) => None,
    }
}

fn long(count: usize) -> Vec<u8> {
    Frame::Long { control: 0x53, address: 1, ci: 0x51, data: &[0x16; 252][..count] }.to_vec().unwrap()
}

/// Sends a piece, which is accepted: how many bytes are due.
fn send(segment: &mut Segment, piece: &[u8]) -> usize {
    segment.send(piece, &CLOCK).unwrap()
}

#[test]
fn the_first_bytes() {
    assert_eq!(due(&[]), Some(1));
    assert_eq!(due(&[0x10]), Some(4));
    assert_eq!(due(&[0x68]), Some(3));
    for first in (0..=255).filter(|first| ![0x10, 0x68].contains(first)) {
        assert_eq!(due(&[first]), None, "{first:02X}");
    }
    for l in 3..=255 {
        assert_eq!(due(&[0x68, l, l, 0x68]), Some(usize::from(l) + 2), "{l}");
    }
}

#[test]
fn each_beginning_of_a_telegram() {
    let short = [1, 4, 3, 2, 1];
    for (count, want) in short.into_iter().enumerate() {
        assert_eq!(due(&NKE_ALL[..count]), Some(want));
    }
    assert_eq!(due(&NKE_ALL), None);
    for data in [0, 1, 8, 251, 252] {
        let telegram = long(data);
        let header = [1, 3, 2, 1];
        let rest = (4..telegram.len()).map(|count| telegram.len() - count);
        for (count, want) in header.into_iter().chain(rest).enumerate() {
            assert_eq!(due(&telegram[..count]), Some(want), "{count} of {}", telegram.len());
        }
        assert_eq!(due(&telegram), None);
    }
}

/// A header is judged when its four bytes are there, and no earlier.
#[test]
fn a_header_that_is_wrong() {
    for header in [[0x68, 3, 4, 0x68], [0x68, 3, 3, 0x10], [0x68, 2, 2, 0x68], [0x68, 0, 255, 0]] {
        for (count, want) in [1, 3, 2, 1].into_iter().enumerate() {
            assert_eq!(due(&header[..count]), Some(want));
        }
        assert_eq!(due(&header), None);
    }
}

/// With fewer bytes than are due it stays incomplete, whatever they are; with as many it can be something else.
#[test]
fn it_is_the_least_number() {
    let mut random = Random(11);
    let mut more = [0; LONGEST];
    for telegram in [NKE_ALL.to_vec(), long(0), long(5), long(252), vec![0x68, 9, 8], vec![0x68, 1, 1]] {
        for count in 0..telegram.len() {
            let front = &telegram[..count];
            let due = due(front).unwrap();
            for round in 0..20 {
                match round {
                    0 => more.copy_from_slice(&[0x68; LONGEST]),
                    1 => more.copy_from_slice(&[0x03; LONGEST]),
                    _ => random.fill(&mut more),
                }
                for fewer in 0..due {
                    assert!(matches!(parse(&[front, &more[..fewer]].concat()), Parsed::Incomplete { .. }));
                }
            }
            assert!(!matches!(parse(&[front, &vec![0; due]].concat()), Parsed::Incomplete { .. }), "{front:02X?}");
        }
    }
}

#[test]
fn after_a_send_in_pieces() {
    for telegram in [NKE_ALL.to_vec(), long(0), long(7), long(252)] {
        let mut bytewise = opened(&two_water());
        for cut in 0..telegram.len() {
            let want = due(&telegram[..cut]).unwrap();
            let mut segment = opened(&two_water());
            assert_eq!(send(&mut segment, &telegram[..cut]), want);
            // Nothing more comes, and nothing changes.
            assert_eq!(send(&mut segment, &[]), want);
            assert_eq!(send(&mut segment, &telegram[cut..]), 1);
            let next = due(&telegram[..cut + 1]).unwrap_or(1);
            assert_eq!(send(&mut bytewise, &telegram[cut..cut + 1]), next);
        }
    }
    assert_eq!(send(&mut Segment::new(), &[0xE5]), 1);
    assert_eq!(send(&mut Segment::new(), &[]), 1);
}

/// It counts for what waits, and not for the piece.
#[test]
fn a_complete_telegram_and_a_beginning() {
    for front in [vec![0xE5], NKE_ALL.to_vec(), long(3), [NKE_ALL.to_vec(), long(0)].concat()] {
        for back in [NKE_ALL.to_vec(), long(0), long(252)] {
            for cut in 0..back.len() {
                let want = due(&back[..cut]).unwrap();
                let piece = [&front[..], &back[..cut]].concat();
                assert_eq!(send(&mut opened(&two_water()), &piece), want);
                // The first telegram's beginning waited.
                for waits in 0..front.len() {
                    let mut segment = opened(&two_water());
                    send(&mut segment, &piece[..waits]);
                    assert_eq!(send(&mut segment, &piece[waits..]), want);
                }
            }
        }
    }
}

#[test]
fn an_invalid_telegram_drops_the_input() {
    let mut segment = opened(&two_water());
    for wrong in [
        &[0x00][..],
        &[0x10, 0x40, 0xFE, 0x3F, 0x16],
        &[0x10, 0x40, 0xFE, 0x3E, 0x17],
        &[0x68, 0x03, 0x04, 0x68],
        &[0x68, 0x02, 0x02, 0x68],
        &[0x68, 0x03, 0x03, 0x68, 1, 2, 3, 7, 0x16],
    ] {
        assert_eq!(send(&mut segment, wrong), 1);
        // What is behind it goes too.
        assert_eq!(send(&mut segment, &[wrong, &NKE_ALL[..2]].concat()), 1);
        for cut in 1..wrong.len() {
            assert_eq!(send(&mut segment, &wrong[..cut]), due(&wrong[..cut]).unwrap());
            assert_eq!(send(&mut segment, &wrong[cut..]), 1);
        }
    }
    assert_eq!(take(&mut segment), []);
}

/// A refused send has no such number, and what waited still waits.
#[test]
fn a_refused_send() {
    let mut segment = opened(&list::write(&[water(1, "12345678"); METERS]).unwrap());
    assert_eq!(send(&mut segment, &NKE_ALL.repeat(64)), 1);
    assert_eq!(send(&mut segment, &NKE_ALL[..2]), 3);
    for (piece, clock, refusal) in [
        (&[0x68; 1025][..], CLOCK, SendRefusal::PieceTooLong),
        (&NKE_ALL[2..3], Clock { month: 13, ..CLOCK }, SendRefusal::Clock),
        (&NKE_ALL[2..], CLOCK, SendRefusal::QueueFull),
    ] {
        assert_eq!(segment.send(piece, &clock), Err(refusal));
        assert_eq!(segment.send(&[], &CLOCK), Ok(3));
    }
}

/// What else empties the waiting input leaves one byte due.
#[test]
fn a_baud_change_and_an_opening() {
    let mut segment = opened(&two_water());
    assert_eq!(send(&mut segment, &[0x10]), 4);
    segment.set_baud(2400).unwrap();
    assert_eq!(send(&mut segment, &[]), 1);
    assert_eq!(send(&mut segment, &[0x68]), 3);
    segment.open(&two_water(), 2400, false, 0.0).unwrap();
    assert_eq!(send(&mut segment, &[]), 1);
    // A clear empties the queue alone.
    assert_eq!(send(&mut segment, &[0x68]), 3);
    segment.clear();
    assert_eq!(send(&mut segment, &[]), 3);
}

/// Who reads what is due hears the reply to each telegram with its last byte, and has read no byte of the next one.
#[test]
fn a_reader_of_what_is_due() {
    let select = Frame::select(&Mask::ANY).to_vec().unwrap();
    let (mut segment, mut whole) = (opened(&two_water()), opened(&two_water()));
    let (mut due, mut reads) = (1, Vec::new());
    for telegram in [NKE_ALL.to_vec(), select, long(252), vec![0xE5], NKE_ALL.to_vec()] {
        let (mut rest, mut count) = (&telegram[..], 0);
        while !rest.is_empty() {
            assert_eq!(take(&mut segment), []);
            let (piece, after) = rest.split_at(due);
            due = send(&mut segment, piece);
            (rest, count) = (after, count + 1);
        }
        assert_eq!(send(&mut whole, &telegram), 1);
        assert_eq!(take(&mut segment), take(&mut whole));
        reads.push(count);
    }
    assert_eq!(reads, [2, 3, 3, 1, 2]);
}

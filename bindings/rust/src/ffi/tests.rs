//! The entry points on images that the rest of the crate never has: those that are not the one image of their segment, and any bytes.
#![allow(clippy::unwrap_used, clippy::indexing_slicing)]

use super::*;
use crate::list::{self, Medium, MeterSpec};
use crate::EXPORT;

type Image = [u8; IMAGE];

const CLOCK: Clock = Clock { secs: 9.5, year: 2026, month: 10, day: 1, hour: 0, minute: 0 };
/// SND_NKE to every meter, then REQ_UD2 to every meter.
const TELEGRAMS: [u8; 10] = [0x10, 0x40, 0xFE, 0x3E, 0x16, 0x10, 0x5B, 0xFE, 0x59, 0x16];

/// The archive that is linked has the images that this crate lends.
#[test]
fn the_image_has_the_librarys_length() {
    // SAFETY: the call takes nothing.
    assert_eq!(unsafe { c::jezynar_segment_image_len() }, IMAGE);
}

fn meters() -> Vec<u8> {
    let heat = MeterSpec::new(1, "12345678", "KAM", Medium::Heat);
    let water = MeterSpec::new(2, "12345699", "SEN", Medium::Water);
    list::write(&[heat, water, MeterSpec { baud: Some(300), ..water }]).unwrap()
}

/// Number + 256 * index. Where no record is named the index is 0, which the refusal's type does not show.
#[test]
fn an_opening_answers_a_number_and_an_index() {
    let good = MeterSpec::new(1, "12345678", "KAM", Medium::Heat);
    let bad = MeterSpec { primary: 251, ..good };
    let failing = list::write(&[good, good, bad, MeterSpec { id: "", ..bad }]).unwrap();
    let other_version = [&[2], &failing[1..]].concat();
    let one_more_byte = [&failing[..], &[0]].concat();
    let many = list::write(&[bad; 65]).unwrap();
    for (list, baud, answer) in [
        (&other_version, 2401, 1),
        (&one_more_byte, 2401, 2),
        (&many, 2401, 3),
        (&failing, 2401, 4 + 256 * 2),
        (&failing, 2400, 4 + 256 * 2),
        (&meters(), 2401, 10),
        (&meters(), 2400, 0),
    ] {
        assert_eq!(open(&mut [0; IMAGE], list, baud, false, 0.0), answer);
    }
}

/// Number * 65536 + bytes written, of which a refused export has 0.
#[test]
fn an_export_answers_a_number_and_a_count() {
    let [empty, mut opened, _] = images();
    let mut lent = [0xAA; EXPORT + 1];
    assert_eq!((export(&empty, &mut lent), &lent[..4]), (3, &[1, 0, 0, 0xAA][..]));
    assert_eq!(export(&empty, &mut lent[..2]), 12 * 65536);
    assert_eq!(export(&opened, &mut lent), meters().len() as u32);
    assert_eq!(lent[..meters().len()], meters());
    // SND_UD with CI 51: every meter that listens gets the address 251.
    let readdress = [0x68, 0x06, 0x06, 0x68, 0x53, 0xFE, 0x51, 0x01, 0x7A, 0xFB, 0x18, 0x16];
    assert_eq!(send(&mut opened, &readdress, &CLOCK), 1);
    assert_eq!(export(&opened, &mut lent), 18 * 65536);
    assert_eq!(export(&opened, &mut []), 18 * 65536);
}

/// A call, which gives the number of its refusal and what it hands out: what was lent, as it is after the call, or how
/// many bytes are due.
type Call = fn(&mut Image) -> (u32, Vec<u8>);

const NEVER_REFUSED: (u32, Vec<u8>) = (0, Vec::new());

fn sends(image: &mut Image, piece: &[u8]) -> (u32, Vec<u8>) {
    let answer = send(image, piece, &CLOCK);
    // The number, and how many bytes are due.
    (answer / 65536, (answer % 65536).to_le_bytes().to_vec())
}

fn receives(image: &mut Image, lent: usize) -> (u32, Vec<u8>) {
    let mut bytes = vec![0xAA; lent];
    let count = receive(image, &mut bytes);
    bytes.truncate(count);
    (0, bytes)
}

fn searches(image: &mut Image, allowance: u32, lent: usize) -> (u32, Vec<u8>) {
    let (mut entries, mut summary) = (vec![[0xAA; ENTRY]; lent], [0xAA; SUMMARY]);
    let number = search(image, &CLOCK, allowance, &mut entries, &mut summary);
    (number, [entries.as_flattened(), &summary].concat())
}

fn exports(image: &Image, lent: usize) -> (u32, Vec<u8>) {
    let mut bytes = vec![0xAA; lent];
    let answer = export(image, &mut bytes);
    // The number, how many bytes were written, and all that were lent.
    (answer / 65536, [&(answer % 65536).to_le_bytes(), &bytes[..]].concat())
}

/// These write the image whole.
const WHOLE: [Call; 3] = [
    |image| {
        new(image);
        NEVER_REFUSED
    },
    |image| {
        tidy(image);
        NEVER_REFUSED
    },
    |image| (open(image, &meters(), 9600, true, f64::NAN), vec![]),
];

const OTHERS: [Call; 18] = [
    |image| {
        clear(image);
        NEVER_REFUSED
    },
    |image| receives(image, 0),
    |image| receives(image, 5),
    |image| receives(image, 40),
    |image| (set_baud(image, 300), vec![]),
    |image| (set_baud(image, 301), vec![]),
    |image| sends(image, &[]),
    |image| sends(image, &TELEGRAMS),
    |image| sends(image, &TELEGRAMS[..3]),
    |image| sends(image, &[0x68; 1024]),
    |image| sends(image, &[0x68; 1025]),
    |image| searches(image, u32::MAX, 64),
    |image| searches(image, 5, 3),
    |image| searches(image, 5, 2),
    |image| (open(image, &[1, 0, 1], 2400, false, 0.0), vec![]),
    |image| exports(image, EXPORT),
    |image| exports(image, 3),
    |image| exports(image, 0),
];

/// The images of segments with nothing, with meters, and with a queue and waiting input as well.
fn images() -> [Image; 3] {
    let mut empty = [0xAA; IMAGE];
    new(&mut empty);
    let mut opened = empty;
    assert_eq!(open(&mut opened, &meters(), 2400, false, f64::NAN), 0);
    let mut busy = opened;
    // Accepted, and one byte of a long telegram's header is due.
    assert_eq!(send(&mut busy, &[&TELEGRAMS[..], &[0x68, 0x03, 0x03]].concat(), &CLOCK), 1);
    [empty, opened, busy]
}

fn tidied(image: &Image) -> Image {
    let mut copy = *image;
    tidy(&mut copy);
    copy
}

/// Another image of the same segment: every byte is changed that, changed alone, does not change the segment.
fn other_image(image: &Image, change: u8) -> Image {
    let mut other = *image;
    for (k, byte) in other.iter_mut().enumerate() {
        let mut copy = *image;
        copy[k] ^= change;
        if tidied(&copy) == *image {
            *byte = copy[k];
        }
    }
    other
}

/// A call answers the same on another image of a segment, and leaves an image of the same segment: that image itself
/// where it is refused, the one image where it writes it whole. The one image of a segment stays so.
#[test]
fn calls_on_another_image_of_a_segment() {
    for image in images() {
        assert!(tidied(&image) == image);
        for change in [0xFF, 0x01, 0x40] {
            let other = other_image(&image, change);
            assert!(other.iter().zip(&image).filter(|(a, b)| a != b).count() > 5_000);
            for (k, call) in WHOLE.iter().chain(&OTHERS).enumerate() {
                let (mut a, mut b) = (other, image);
                let answer = call(&mut a);
                assert_eq!(answer, call(&mut b), "call {k}");
                assert!(tidied(&a) == b && tidied(&b) == b, "call {k}");
                assert!(answer.0 == 0 || a == other, "call {k}, refused");
                assert!(k >= WHOLE.len() || a == b, "call {k}, which writes the image whole");
            }
        }
    }
}

/// The same on bytes that nobody wrote as an image, with counts past their limits, flags over 1 and a NaN of any pattern among
/// them.
#[test]
fn calls_on_any_bytes() {
    let alike = [0x00, 0x01, 0x02, 0x3F, 0x40, 0x7F, 0x80, 0xFF].map(|byte| [byte; IMAGE]);
    let mut state = 0x9E37_79B9_7F4A_7C15u64;
    let mut random = || {
        [0; IMAGE].map(|_: u8| {
            state ^= state << 13;
            state ^= state >> 7;
            state ^= state << 17;
            (state >> 32) as u8
        })
    };
    let mut images = alike.to_vec();
    for _ in 0..40 {
        let mut image = random();
        images.push(image);
        // Few meters, little input and a short queue, so that calls are accepted too.
        let counts = [image[12] % 9, 0, image[14] % 4, 0, image[16] % 64, 0];
        image[12..18].copy_from_slice(&counts);
        images.push(image);
    }
    for image in images {
        for (k, call) in WHOLE.iter().chain(&OTHERS).enumerate() {
            let (mut a, mut b) = (image, tidied(&image));
            let answer = call(&mut a);
            assert_eq!(answer, call(&mut b), "call {k}");
            assert!(tidied(&a) == b && tidied(&b) == b, "call {k}");
            assert!(answer.0 == 0 || a == image, "call {k}, refused");
            assert!(k >= WHOLE.len() || a == b, "call {k}, which writes the image whole");
        }
    }
}

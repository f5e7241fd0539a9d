//! Telegrams read and written.
mod common;

use common::Random;
use jezynar::frame::{encode, parse, Frame, Mask, MaskError, Parsed, Why, ALL, BROADCAST, LONGEST, SELECTED};
use jezynar::list::Medium;
use jezynar::EncodeRefusal;

#[test]
fn every_kind_is_read_back() {
    let data: Vec<u8> = (0..252).collect();
    let mut frames = vec![Frame::Ack, Frame::Short { control: 0x7B, address: 0xFD }];
    for count in [0, 1, 8, 251, 252] {
        frames.push(Frame::Long { control: 0x53, address: 0xFE, ci: 0x51, data: &data[..count] });
    }
    for frame in frames {
        let mut lent = [0xAA; 300];
        let used = encode(&frame, &mut lent).unwrap();
        assert!(lent[used..].iter().all(|b| *b == 0xAA));
        assert_eq!(parse(&lent), Parsed::Complete { frame, used });
        assert_eq!(parse(&lent[..used]), Parsed::Complete { frame, used });
        for short in 0..used {
            // How many are due: tests/due.rs.
            assert!(matches!(parse(&lent[..short]), Parsed::Incomplete { .. }));
        }
        let mut exact = vec![0; used];
        assert_eq!(encode(&frame, &mut exact), Ok(used));
        assert_eq!(exact, lent[..used]);
    }
}

#[test]
fn the_wildcard_probe() {
    let mut lent = [0; 17];
    let probe = Frame::Long { control: 0x53, address: 0xFD, ci: 0x52, data: &[0xFF; 8] };
    assert_eq!(encode(&probe, &mut lent), Ok(17));
    let want = [0x68, 0x0B, 0x0B, 0x68, 0x53, 0xFD, 0x52, 0xFF, 0xFF, 0xFF, 0xFF, 0xFF, 0xFF, 0xFF, 0xFF, 0x9A, 0x16];
    assert_eq!(lent, want);
    assert_eq!(Frame::select(&Mask::ANY), probe);
    assert_eq!(Frame::select(&Mask::ANY).to_vec().unwrap(), want);
}

#[test]
fn telegrams_of_a_master() {
    assert_eq!((SELECTED, ALL, BROADCAST), (0xFD, 0xFE, 0xFF));
    for address in 0..=255 {
        for (frame, control) in [
            (Frame::snd_nke(address), 0x40u8),
            (Frame::req_ud2(address, false), 0x5B),
            (Frame::req_ud2(address, true), 0x7B),
        ] {
            let bytes = frame.to_vec().unwrap();
            assert_eq!(bytes, [0x10, control, address, control.wrapping_add(address), 0x16]);
            assert_eq!(parse(&bytes), Parsed::Complete { frame, used: 5 });
        }
    }
    assert_eq!(Frame::Ack.to_vec().unwrap(), [0xE5]);
    let long = |data| Frame::Long { control: 0x53, address: 1, ci: 0x51, data };
    assert_eq!(long(&[7; 252]).to_vec().map(|bytes| bytes.len()), Ok(LONGEST));
    assert_eq!(long(&[7; 253]).to_vec(), Err(EncodeRefusal::DataTooLong));
}

#[test]
fn masks() {
    let any = [0xFF; 4];
    for (id, want) in [
        ("FFFFFFFF", any),
        ("1FFFFFFF", [0xFF, 0xFF, 0xFF, 0x1F]),
        ("12FFFFFF", [0xFF, 0xFF, 0xFF, 0x12]),
        ("12345678", [0x78, 0x56, 0x34, 0x12]),
        ("F0F9F8F7", [0xF7, 0xF8, 0xF9, 0xF0]),
    ] {
        let mask = Mask::new(id).unwrap();
        assert_eq!((&mask.data()[..4], &mask.data()[4..]), (&want[..], &any[..]), "{id}");
        let digits: Vec<u8> = id.chars().map(|c| c.to_digit(16).unwrap() as u8).collect();
        assert_eq!(Mask::from_digits(digits.try_into().unwrap()), Ok(mask));
    }
    for (letters, code) in [("KAM", 0x2C2D_u16), ("SEN", 0x4CAE), ("AAA", 0x0421), ("ZZZ", 0x6B5A), ("", 0)] {
        let mask = Mask::ANY.manufacturer(letters).unwrap();
        assert_eq!(mask.data()[4..6], code.to_le_bytes(), "{letters}");
        assert_eq!((&mask.data()[..4], &mask.data()[6..]), (&any[..], &any[..2]));
    }
    // The parts do not touch each other, and the last word counts.
    let all = Mask::new("12345678").unwrap().version(1).medium(Medium::Gas).manufacturer("KAM").unwrap();
    assert_eq!(*all.data(), [0x78, 0x56, 0x34, 0x12, 0x2D, 0x2C, 0x01, 0x03]);
    let other = all.manufacturer("").unwrap().version(0xFF).medium(Medium::ColdWater);
    assert_eq!(*other.data(), [0x78, 0x56, 0x34, 0x12, 0x00, 0x00, 0xFF, 0x16]);
}

#[test]
fn masks_that_there_are_not() {
    for id in ["", "1234567", "123456789", "1234567A", "1234567f", "1234567E", "1234 567", "-1234567", "1234567\u{661}"]
    {
        assert_eq!(Mask::new(id), Err(MaskError::Id), "{id}");
    }
    for wrong in [10, 14, 16, 255] {
        assert_eq!(Mask::from_digits([1, 2, 3, 4, 5, 6, 7, wrong]), Err(MaskError::Id));
        assert_eq!(Mask::from_digits([wrong, 2, 3, 4, 5, 6, 7, 8]), Err(MaskError::Id));
    }
    for letters in ["K", "KA", "KAMS", "KAm", "K1M", "K M", "[[[", "@@@", "\u{c4}M"] {
        assert_eq!(Mask::ANY.manufacturer(letters), Err(MaskError::Manufacturer), "{letters}");
    }
    assert_ne!(MaskError::Id.to_string(), MaskError::Manufacturer.to_string());
}

#[test]
fn every_reason() {
    for (bytes, why) in [
        (&[0x10, 0x40, 0x01, 0x42, 0x16][..], Why::Checksum),
        (&[0x10, 0x40, 0x01, 0x41, 0x17], Why::Stop),
        (&[0x68, 0x03, 0x04, 0x68], Why::Header),
        (&[0x68, 0x03, 0x03, 0x67], Why::Header),
        (&[0x68, 0x02, 0x02, 0x68], Why::Length),
        (&[0x68, 0x03, 0x03, 0x68, 1, 2, 3, 7, 0x16], Why::Checksum),
        (&[0x68, 0x03, 0x03, 0x68, 1, 2, 3, 6, 0x17], Why::Stop),
        (&[0x00], Why::Start),
    ] {
        assert_eq!(parse(bytes), Parsed::Invalid(why), "{bytes:02X?}");
        assert!(!why.to_string().is_empty());
    }
    assert_eq!(parse(&[]), Parsed::Incomplete { due: 1 });
}

#[test]
fn any_bytes_are_answered() {
    let mut random = Random(7);
    for round in 0..20_000 {
        let mut bytes = vec![0; random.below(300)];
        random.fill(&mut bytes);
        // Half of them begin as a telegram does.
        if round % 2 == 0 && bytes.len() > 4 {
            let length = random.below(12) as u8;
            bytes[..4].copy_from_slice(&[0x68, length, length, 0x68]);
            if let Some(stop) = bytes.get_mut(length as usize + 5) {
                *stop = 0x16;
            }
        }
        if let Parsed::Complete { frame, used } = parse(&bytes) {
            let mut lent = vec![0; used];
            assert_eq!(encode(&frame, &mut lent), Ok(used));
            assert_eq!(lent, bytes[..used]);
        }
    }
}

//! The media and faults of lists: their keys are the library's, and so are the codes.
mod common;

use common::{opened, take, CLOCK, NKE_ALL};
use jezynar::frame::{parse, Frame, Mask, Parsed, SELECTED};
use jezynar::list::{self, Fault, Medium, MeterSpec};

/// As in include/jezynar.h.
const MEDIA: &str = "heat cooling water cold_water warm_water gas electricity heat_old";
const FAULTS: &str = "none checksum truncated busy wrong_address flaky too_many";

#[test]
fn the_keys_are_those_of_the_header() {
    assert_eq!(Medium::ALL.map(Medium::key).join(" "), MEDIA);
    assert_eq!(Fault::ALL.map(Fault::key).join(" "), FAULTS);
    for medium in Medium::ALL {
        assert_eq!(Medium::from_key(medium.key()), Some(medium));
        assert_eq!(format!("{medium:>12}"), format!("{:>12}", medium.key()));
    }
    for fault in Fault::ALL {
        assert_eq!(Fault::from_key(fault.key()), Some(fault));
        assert_eq!(format!("{fault:<14}|"), format!("{:<14}|", fault.key()));
    }
    for wrong in ["", "steam", "Heat", "heat ", "hea", "loud", "NONE"] {
        assert_eq!((Medium::from_key(wrong), Fault::from_key(wrong)), (None, None));
    }
    assert_eq!(Fault::default(), Fault::None);
}

#[test]
fn every_medium_with_every_fault_is_opened() {
    for medium in Medium::ALL {
        for fault in Fault::ALL {
            opened(&list::write(&[MeterSpec { fault, ..MeterSpec::new(1, "12345678", "SEN", medium) }]).unwrap());
        }
    }
}

/// A meter's medium is selected by its code and no other, and stands in its data. (Data of the fixed structure have it
/// elsewhere.)
#[test]
fn the_codes_are_those_in_telegrams() {
    for medium in Medium::ALL {
        let mut segment = opened(&list::write(&[MeterSpec::new(1, "12345678", "SEN", medium)]).unwrap());
        for asked in Medium::ALL {
            let mask = Mask::ANY.medium(asked);
            segment.send(&Frame::select(&mask).to_vec().unwrap(), &CLOCK).unwrap();
            let alike = [Medium::Heat, Medium::HeatOld];
            let matches = asked == medium || (alike.contains(&asked) && alike.contains(&medium));
            assert_eq!(take(&mut segment), if matches { &[0xE5][..] } else { &[] }, "{medium} {asked}");
        }
        segment.send(&Frame::req_ud2(1, false).to_vec().unwrap(), &CLOCK).unwrap();
        let reply = take(&mut segment);
        let Parsed::Complete { frame: Frame::Long { ci, data, .. }, .. } = parse(&reply) else {
            panic!("{medium}: no data: {reply:02X?}");
        };
        assert_eq!(ci, if medium == Medium::HeatOld { 0x73 } else { 0x72 });
        assert!(ci == 0x73 || data[7] == medium.code(), "{medium}");
    }
}

/// Each fault does what its documentation says.
#[test]
fn the_faults_do_what_is_said_of_them() {
    let replies = |fault: Fault| {
        let meter = MeterSpec { fault, ..MeterSpec::new(7, "12345678", "SEN", Medium::Water) };
        let mut segment = opened(&list::write(&[meter]).unwrap());
        [0; 4].map(|_| {
            segment.send(&Frame::req_ud2(7, false).to_vec().unwrap(), &CLOCK).unwrap();
            take(&mut segment)
        })
    };
    let good = replies(Fault::None);
    let status = |reply: &[u8]| match parse(reply) {
        Parsed::Complete { frame: Frame::Long { address, ci, data, .. }, .. } => Ok((address, ci, data[0])),
        other => Err(format!("{other:?}")),
    };
    for k in 0..4 {
        let like = |fault| replies(fault)[k].clone();
        assert_eq!(status(&good[k]), Ok((7, 0x72, 0x78)));
        assert_eq!(status(&like(Fault::Checksum)), Err("Invalid(Checksum)".to_string()));
        assert_eq!(like(Fault::Truncated), good[k][..good[k].len() / 2]);
        assert_eq!(status(&like(Fault::Busy)), Ok((7, 0x70, 0x08)));
        assert_eq!(status(&like(Fault::WrongAddress)), Ok((8, 0x72, 0x78)));
        assert_eq!(like(Fault::Flaky).is_empty(), k % 2 == 0);
        assert_eq!(status(&like(Fault::TooMany)), Ok(if k < 2 { (7, 0x72, 0x78) } else { (7, 0x70, 0x09) }));
    }
}

/// A selected meter is reset by its primary address and stays selected; by the address of the selected ones it is not.
#[test]
fn the_constructors_reach_the_meters() {
    let mut segment = opened(&list::write(&[MeterSpec::new(1, "12345678", "SEN", Medium::Water)]).unwrap());
    let mut replies = |frame: Frame| {
        segment.send(&frame.to_vec().unwrap(), &CLOCK).unwrap();
        take(&mut segment).len()
    };
    assert_eq!(replies(Frame::req_ud2(SELECTED, false)), 0);
    assert_eq!(replies(Frame::select(&Mask::new("1234567F").unwrap().version(1))), 1);
    assert_eq!(replies(Frame::snd_nke(1)), 1);
    assert!(replies(Frame::req_ud2(SELECTED, false)) > 1);
    assert_eq!(replies(Frame::snd_nke(2)), 0);
    assert_eq!(replies(Frame::snd_nke(SELECTED)), 1);
    assert_eq!(replies(Frame::req_ud2(SELECTED, false)), 0);
    assert_eq!(replies(Frame::select(&Mask::new("1234567F").unwrap().version(2))), 0);
    assert_eq!(NKE_ALL.to_vec(), Frame::snd_nke(jezynar::frame::ALL).to_vec().unwrap());
}

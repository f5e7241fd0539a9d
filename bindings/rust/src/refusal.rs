//! The refusals, one type for each call that can be refused. A number means the same in every type.

use std::error::Error;
use std::fmt;

/// The words for 14, which a send and a search share.
const CLOCK: &str = "a clock field is out of range (year 1970..9999, month 1..12, day 1..31, hour 0..23, minute 0..59)";
/// The words for 10, which an opening and a baud change share.
const RATE: &str = "the bus baud is not one of 300, 600, 1200, 2400, 4800, 9600, 19200 and 38400";

/// Why an opening was refused.
///
/// The numbers 4 to 9 name a record of the list by its index, from 0: the first failing record in list order, with its
/// first number. 1 to 3 are checked before any record, 10 after all of them, and name none.
///
/// # Example
///
/// So a list can be corrected from the top. Two records of this one fail, the first of them in two ways; each opening
/// names what is to be corrected next, until the list is accepted.
///
/// ```
/// use jezynar::list::{self, Medium, MeterSpec};
/// use jezynar::{OpenRefusal, Segment};
///
/// # fn main() -> Result<(), Box<dyn std::error::Error>> {
/// let good = MeterSpec::new(1, "12345678", "SEN", Medium::Water);
/// let mut meters = [
///     good,
///     MeterSpec { primary: 2, id: "1234569", baud: Some(1), ..good },
///     MeterSpec { primary: 251, id: "12345699", ..good },
/// ];
/// let mut segment = Segment::new();
/// let mut corrected = Vec::new();
/// while let Err(refusal) = segment.open(&list::write(&meters)?, 2400, false, 0.0) {
///     println!("{refusal}");
///     match refusal {
///         OpenRefusal::Primary(index) => meters[index].primary = 3,
///         OpenRefusal::Id(index) => meters[index].id = "12345690",
///         OpenRefusal::OwnBaud(index) => meters[index].baud = None,
///         _ => return Err(refusal.into()),
///     }
///     corrected.push(refusal);
/// }
/// assert_eq!(corrected, [OpenRefusal::Id(1), OpenRefusal::OwnBaud(1), OpenRefusal::Primary(2)]);
/// # Ok(())
/// # }
/// ```
#[derive(Clone, Copy, Debug, PartialEq, Eq, Hash)]
pub enum OpenRefusal {
    /// 1: the list has under 3 bytes, or its byte 0 is not 1.
    NotAList,
    /// 2: a length does not fit.
    Length,
    /// 3: the list has over 64 meters.
    TooManyMeters,
    /// 4: the record's primary address is over 250.
    Primary(usize),
    /// 5: the record's id is not eight digits.
    Id(usize),
    /// 6: the record's manufacturer is not three capital letters; it may be empty for the medium heat_old alone.
    Manufacturer(usize),
    /// 7: the record's medium is not one of the eight.
    Medium(usize),
    /// 8: the record's own baud is neither 0 nor one of the eight rates.
    OwnBaud(usize),
    /// 9: the record's fault is not one of the seven.
    Fault(usize),
    /// 10: the bus baud is not one of the eight rates.
    Baud,
}

impl OpenRefusal {
    /// The library's answer is number + 256 * index, with no number over 10.
    pub(crate) fn check(answer: u32) -> Result<(), Self> {
        let index = (answer / 256) as usize;
        Err(match answer % 256 {
            0 => return Ok(()),
            1 => OpenRefusal::NotAList,
            2 => OpenRefusal::Length,
            3 => OpenRefusal::TooManyMeters,
            4 => OpenRefusal::Primary(index),
            5 => OpenRefusal::Id(index),
            6 => OpenRefusal::Manufacturer(index),
            7 => OpenRefusal::Medium(index),
            8 => OpenRefusal::OwnBaud(index),
            9 => OpenRefusal::Fault(index),
            _ => OpenRefusal::Baud,
        })
    }

    /// The number of the refusal, 1 to 10.
    pub fn number(self) -> u32 {
        match self {
            OpenRefusal::NotAList => 1,
            OpenRefusal::Length => 2,
            OpenRefusal::TooManyMeters => 3,
            OpenRefusal::Primary(_) => 4,
            OpenRefusal::Id(_) => 5,
            OpenRefusal::Manufacturer(_) => 6,
            OpenRefusal::Medium(_) => 7,
            OpenRefusal::OwnBaud(_) => 8,
            OpenRefusal::Fault(_) => 9,
            OpenRefusal::Baud => 10,
        }
    }

    /// The index of the first failing record in list order, from 0, for 4 to 9; else there is none.
    pub fn index(self) -> Option<usize> {
        match self {
            OpenRefusal::Primary(index)
            | OpenRefusal::Id(index)
            | OpenRefusal::Manufacturer(index)
            | OpenRefusal::Medium(index)
            | OpenRefusal::OwnBaud(index)
            | OpenRefusal::Fault(index) => Some(index),
            OpenRefusal::NotAList | OpenRefusal::Length | OpenRefusal::TooManyMeters | OpenRefusal::Baud => None,
        }
    }
}

impl fmt::Display for OpenRefusal {
    fn fmt(&self, f: &mut fmt::Formatter<'_>) -> fmt::Result {
        let why = match self {
            OpenRefusal::NotAList => "the list has under 3 bytes, or its byte 0 is not 1",
            OpenRefusal::Length => "a length in the list does not fit",
            OpenRefusal::TooManyMeters => "the list has over 64 meters",
            OpenRefusal::Primary(_) => "the primary address is over 250",
            OpenRefusal::Id(_) => "the id is not eight digits",
            OpenRefusal::Manufacturer(_) => {
                "the manufacturer is not three capital letters (it may be empty for heat_old alone)"
            }
            OpenRefusal::Medium(_) => "the medium is not one of the eight",
            OpenRefusal::OwnBaud(_) => "the meter's own baud is neither 0 nor one of the eight rates",
            OpenRefusal::Fault(_) => "the fault is not one of the seven",
            OpenRefusal::Baud => RATE,
        };
        match self.index() {
            Some(index) => write!(f, "refused, number {}: record {index}: {why}", self.number()),
            None => refused(f, self.number(), why),
        }
    }
}

impl Error for OpenRefusal {}

/// Why a send was refused.
#[derive(Clone, Copy, Debug, PartialEq, Eq, Hash)]
pub enum SendRefusal {
    /// 13: the piece has over 1,024 bytes.
    PieceTooLong,
    /// 14: a clock field is out of range.
    Clock,
    /// 15: the queue would pass 4,096 bytes.
    QueueFull,
}

impl SendRefusal {
    /// The library's answer is number * 65536 + bytes due, with no other numbers.
    pub(crate) fn check(answer: u32) -> Result<usize, Self> {
        match answer / 65536 {
            0 => Ok(answer as usize),
            13 => Err(SendRefusal::PieceTooLong),
            14 => Err(SendRefusal::Clock),
            _ => Err(SendRefusal::QueueFull),
        }
    }

    /// The number of the refusal, 13 to 15.
    pub fn number(self) -> u32 {
        match self {
            SendRefusal::PieceTooLong => 13,
            SendRefusal::Clock => 14,
            SendRefusal::QueueFull => 15,
        }
    }
}

impl fmt::Display for SendRefusal {
    fn fmt(&self, f: &mut fmt::Formatter<'_>) -> fmt::Result {
        let why = match self {
            SendRefusal::PieceTooLong => "the piece has over 1024 bytes",
            SendRefusal::Clock => CLOCK,
            SendRefusal::QueueFull => "the queue would pass 4096 bytes",
        };
        refused(f, self.number(), why)
    }
}

impl Error for SendRefusal {}

/// Why a baud change was refused.
#[derive(Clone, Copy, Debug, PartialEq, Eq, Hash)]
pub enum BaudRefusal {
    /// 10: the baud is not one of the eight rates.
    NotARate,
}

impl BaudRefusal {
    /// The library gives no other number.
    pub(crate) fn check(answer: u32) -> Result<(), Self> {
        match answer {
            0 => Ok(()),
            _ => Err(BaudRefusal::NotARate),
        }
    }

    /// The number of the refusal, 10.
    pub fn number(self) -> u32 {
        match self {
            BaudRefusal::NotARate => 10,
        }
    }
}

impl fmt::Display for BaudRefusal {
    fn fmt(&self, f: &mut fmt::Formatter<'_>) -> fmt::Result {
        refused(f, self.number(), RATE)
    }
}

impl Error for BaudRefusal {}

/// Why a search was refused.
#[derive(Clone, Copy, Debug, PartialEq, Eq, Hash)]
pub enum SearchRefusal {
    /// 14: a clock field is out of range.
    Clock,
    /// 16: the waiting input or the queue is not empty.
    NotEmpty,
    /// 17: fewer entries were lent than meters were opened.
    TooFewEntries,
}

impl SearchRefusal {
    /// The library gives no other numbers.
    pub(crate) fn check(answer: u32) -> Result<(), Self> {
        match answer {
            0 => Ok(()),
            14 => Err(SearchRefusal::Clock),
            16 => Err(SearchRefusal::NotEmpty),
            _ => Err(SearchRefusal::TooFewEntries),
        }
    }

    /// The number of the refusal: 14, 16 or 17.
    pub fn number(self) -> u32 {
        match self {
            SearchRefusal::Clock => 14,
            SearchRefusal::NotEmpty => 16,
            SearchRefusal::TooFewEntries => 17,
        }
    }
}

impl fmt::Display for SearchRefusal {
    fn fmt(&self, f: &mut fmt::Formatter<'_>) -> fmt::Result {
        let why = match self {
            SearchRefusal::Clock => CLOCK,
            SearchRefusal::NotEmpty => "the waiting input or the queue is not empty",
            SearchRefusal::TooFewEntries => "fewer entries were lent than meters were opened",
        };
        refused(f, self.number(), why)
    }
}

impl Error for SearchRefusal {}

/// Why an export was refused.
///
/// # Example
///
/// A telegram can give a meter any primary address, but a list has none over 250. Once the meter has another one, the
/// segment can be exported. 18 comes before 12.
///
/// ```
/// use jezynar::frame::Frame;
/// use jezynar::list::{self, Medium, MeterSpec};
/// use jezynar::{Clock, ExportRefusal, Segment, EXPORT};
///
/// # fn main() -> Result<(), Box<dyn std::error::Error>> {
/// let meters = list::write(&[MeterSpec::new(1, "12345678", "SEN", Medium::Water)])?;
/// let mut segment = Segment::open_list(&meters, 2400, false, 0.0)?;
/// let clock = Clock::from_unix(0.0).ok_or("no such clock")?;
/// // SND_UD with CI 51 and the data 01 7A and the new address.
/// let readdress = |from, to| Frame::Long { control: 0x53, address: from, ci: 0x51, data: &[0x01, 0x7A, to] }.to_vec();
///
/// segment.send(&readdress(1, 251)?, &clock)?;
/// assert_eq!(segment.export_into(&mut [0; EXPORT]), Err(ExportRefusal::HighPrimary));
/// assert_eq!(segment.export_into(&mut []), Err(ExportRefusal::HighPrimary));
///
/// segment.send(&readdress(251, 250)?, &clock)?;
/// assert_eq!(segment.export_into(&mut []), Err(ExportRefusal::TooFewBytes));
/// assert_eq!(segment.export()?, list::write(&[MeterSpec::new(250, "12345678", "SEN", Medium::Water)])?);
/// # Ok(())
/// # }
/// ```
#[derive(Clone, Copy, Debug, PartialEq, Eq, Hash)]
pub enum ExportRefusal {
    /// 18: a meter's primary address is over 250.
    HighPrimary,
    /// 12: the lent bytes are too few for the list.
    TooFewBytes,
}

impl ExportRefusal {
    /// The library's answer is number * 65536 + bytes written, with no other numbers.
    pub(crate) fn check(answer: u32) -> Result<usize, Self> {
        match answer / 65536 {
            0 => Ok(answer as usize),
            18 => Err(ExportRefusal::HighPrimary),
            _ => Err(ExportRefusal::TooFewBytes),
        }
    }

    /// The number of the refusal, 18 or 12.
    pub fn number(self) -> u32 {
        match self {
            ExportRefusal::HighPrimary => 18,
            ExportRefusal::TooFewBytes => 12,
        }
    }
}

impl fmt::Display for ExportRefusal {
    fn fmt(&self, f: &mut fmt::Formatter<'_>) -> fmt::Result {
        let why = match self {
            ExportRefusal::HighPrimary => "a meter's primary address is over 250, which no list can have",
            ExportRefusal::TooFewBytes => "the lent bytes are too few for the list",
        };
        refused(f, self.number(), why)
    }
}

impl Error for ExportRefusal {}

/// Why a telegram was not written.
#[derive(Clone, Copy, Debug, PartialEq, Eq, Hash)]
pub enum EncodeRefusal {
    /// 11: the data have over 252 bytes.
    DataTooLong,
    /// 12: the lent bytes are too few for the telegram.
    TooFewBytes,
}

impl EncodeRefusal {
    /// The library's answer is number * 65536 + bytes written, with no other numbers.
    pub(crate) fn check(answer: u32) -> Result<usize, Self> {
        match answer / 65536 {
            0 => Ok(answer as usize),
            11 => Err(EncodeRefusal::DataTooLong),
            _ => Err(EncodeRefusal::TooFewBytes),
        }
    }

    /// The number of the refusal, 11 or 12.
    pub fn number(self) -> u32 {
        match self {
            EncodeRefusal::DataTooLong => 11,
            EncodeRefusal::TooFewBytes => 12,
        }
    }
}

impl fmt::Display for EncodeRefusal {
    fn fmt(&self, f: &mut fmt::Formatter<'_>) -> fmt::Result {
        let why = match self {
            EncodeRefusal::DataTooLong => "the data have over 252 bytes",
            EncodeRefusal::TooFewBytes => "the lent bytes are too few for the telegram",
        };
        refused(f, self.number(), why)
    }
}

impl Error for EncodeRefusal {}

fn refused(f: &mut fmt::Formatter<'_>, number: u32, why: &str) -> fmt::Result {
    write!(f, "refused, number {number}: {why}")
}

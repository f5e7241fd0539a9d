//! Writes meter lists, which an opening reads.
//!
//! A list is the version byte 1, the number of all bytes that follow in two bytes, and a record for each meter. That
//! the parts fit these lengths is seen to here, and the types of the medium and the fault allow no wrong key; an opening
//! checks the rest, and that there are at most 64 meters. [`Segment::export`](crate::Segment::export) gives the list of
//! a segment back.
//!
//! ```
//! use jezynar::list::{self, Fault, Medium, MeterSpec};
//! use jezynar::Segment;
//!
//! # fn main() -> Result<(), Box<dyn std::error::Error>> {
//! let flat = MeterSpec::new(1, "12345678", "SEN", Medium::ColdWater);
//! let broken = MeterSpec { primary: 2, id: "12345699", fault: Fault::Checksum, ..flat };
//! let meters = list::write(&[flat, broken])?;
//! let segment = Segment::open_list(&meters, 2400, false, 0.0)?;
//! # Ok(())
//! # }
//! ```

use std::fmt;

/// What a meter measures, and how it replies.
#[derive(Clone, Copy, Debug, PartialEq, Eq, Hash)]
pub enum Medium {
    /// Heat, with data in two parts.
    Heat,
    /// Cooling, which replies as heat does.
    Cooling,
    /// Water.
    Water,
    /// Cold water, which replies as water does.
    ColdWater,
    /// Warm water, which replies as water does.
    WarmWater,
    /// Gas, which replies as water does.
    Gas,
    /// Electricity.
    Electricity,
    /// An old heat meter, with data of a fixed structure (CI 73). It may be without a manufacturer.
    HeatOld,
}

impl Medium {
    /// Every medium.
    pub const ALL: [Medium; 8] = [
        Medium::Heat,
        Medium::Cooling,
        Medium::Water,
        Medium::ColdWater,
        Medium::WarmWater,
        Medium::Gas,
        Medium::Electricity,
        Medium::HeatOld,
    ];

    /// Its key in a list.
    pub fn key(self) -> &'static str {
        match self {
            Medium::Heat => "heat",
            Medium::Cooling => "cooling",
            Medium::Water => "water",
            Medium::ColdWater => "cold_water",
            Medium::WarmWater => "warm_water",
            Medium::Gas => "gas",
            Medium::Electricity => "electricity",
            Medium::HeatOld => "heat_old",
        }
    }

    /// Its code in telegrams; heat and heat_old have the same.
    pub fn code(self) -> u8 {
        match self {
            Medium::Heat | Medium::HeatOld => 0x04,
            Medium::Cooling => 0x0A,
            Medium::Water => 0x07,
            Medium::ColdWater => 0x16,
            Medium::WarmWater => 0x06,
            Medium::Gas => 0x03,
            Medium::Electricity => 0x02,
        }
    }

    /// The medium with this key.
    pub fn from_key(key: &str) -> Option<Self> {
        Medium::ALL.into_iter().find(|medium| medium.key() == key)
    }
}

impl fmt::Display for Medium {
    /// The key.
    fn fmt(&self, f: &mut fmt::Formatter<'_>) -> fmt::Result {
        f.pad(self.key())
    }
}

/// What is wrong with a meter.
#[derive(Clone, Copy, Debug, Default, PartialEq, Eq, Hash)]
pub enum Fault {
    /// Nothing.
    #[default]
    None,
    /// The sum of its data telegrams is wrong.
    Checksum,
    /// Its data telegrams end after their first half.
    Truncated,
    /// Asked for its data, it says that it is busy.
    Busy,
    /// The address in its data telegrams is one too high, 0 after 255; not in those of `HeatOld`.
    WrongAddress,
    /// It hears every second telegram.
    Flaky,
    /// It gives its data twice, and from then on says that it was read too often.
    TooMany,
}

impl Fault {
    /// Every fault.
    pub const ALL: [Fault; 7] = [
        Fault::None,
        Fault::Checksum,
        Fault::Truncated,
        Fault::Busy,
        Fault::WrongAddress,
        Fault::Flaky,
        Fault::TooMany,
    ];

    /// Its key in a list.
    pub fn key(self) -> &'static str {
        match self {
            Fault::None => "none",
            Fault::Checksum => "checksum",
            Fault::Truncated => "truncated",
            Fault::Busy => "busy",
            Fault::WrongAddress => "wrong_address",
            Fault::Flaky => "flaky",
            Fault::TooMany => "too_many",
        }
    }

    /// The fault with this key.
    pub fn from_key(key: &str) -> Option<Self> {
        Fault::ALL.into_iter().find(|fault| fault.key() == key)
    }
}

impl fmt::Display for Fault {
    /// The key.
    fn fmt(&self, f: &mut fmt::Formatter<'_>) -> fmt::Result {
        f.pad(self.key())
    }
}

/// One meter of a list.
#[derive(Clone, Copy, Debug, PartialEq, Eq, Hash)]
pub struct MeterSpec<'a> {
    /// The primary address, at most 250.
    pub primary: u8,
    /// The version, any byte.
    pub version: u8,
    /// The meter's own baud; `None`, and 0, mean the bus baud at the opening.
    pub baud: Option<u32>,
    /// The id, eight digits.
    pub id: &'a str,
    /// The manufacturer, three capital letters; it may be empty for heat_old.
    pub manufacturer: &'a str,
    /// What it measures.
    pub medium: Medium,
    /// What is wrong with it.
    pub fault: Fault,
}

impl<'a> MeterSpec<'a> {
    /// A meter of version 1 at the bus baud, without a fault.
    pub fn new(primary: u8, id: &'a str, manufacturer: &'a str, medium: Medium) -> Self {
        MeterSpec { primary, version: 1, baud: None, id, manufacturer, medium, fault: Fault::None }
    }
}

/// What does not fit the list's lengths.
#[derive(Clone, Copy, Debug, PartialEq, Eq, Hash)]
pub enum ListError {
    /// The record with this index, from 0, would have over 255 bytes after its length.
    RecordTooLong(usize),
    /// The records would have over 65,535 bytes.
    ListTooLong,
}

impl fmt::Display for ListError {
    fn fmt(&self, f: &mut fmt::Formatter<'_>) -> fmt::Result {
        match self {
            ListError::RecordTooLong(index) => write!(f, "record {index} would have over 255 bytes"),
            ListError::ListTooLong => f.write_str("the records would have over 65535 bytes"),
        }
    }
}

impl std::error::Error for ListError {}

/// The list of these meters.
///
/// # Errors
/// Where a record or the list is longer than its length can say.
pub fn write(meters: &[MeterSpec<'_>]) -> Result<Vec<u8>, ListError> {
    let mut records = Vec::new();
    for (index, meter) in meters.iter().enumerate() {
        let mut rest = vec![meter.primary, meter.version];
        rest.extend(meter.baud.unwrap_or(0).to_be_bytes());
        for text in [meter.id, meter.manufacturer, meter.medium.key(), meter.fault.key()] {
            // A text that passes 255 bytes makes its record do so.
            rest.push(u8::try_from(text.len()).map_err(|_| ListError::RecordTooLong(index))?);
            rest.extend(text.as_bytes());
        }
        records.push(u8::try_from(rest.len()).map_err(|_| ListError::RecordTooLong(index))?);
        records.extend(rest);
    }
    let mut list = vec![1];
    list.extend(u16::try_from(records.len()).map_err(|_| ListError::ListTooLong)?.to_be_bytes());
    list.extend(records);
    Ok(list)
}

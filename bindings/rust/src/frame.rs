//! Telegrams: read from the front of some bytes, and written into lent bytes; those of a master made from their parts.
//!
//! A telegram that is read is written back to the same bytes; one that is written is read back to itself.
//!
//! ```
//! use jezynar::frame::{encode, parse, Frame, Mask, Parsed};
//!
//! // A probe: a select that every meter matches.
//! let probe = Frame::select(&Mask::ANY);
//! let mut lent = [0; 32];
//! let used = encode(&probe, &mut lent)?;
//! assert_eq!(used, 17);
//! assert_eq!(parse(&lent), Parsed::Complete { frame: probe, used });
//! # Ok::<(), jezynar::EncodeRefusal>(())
//! ```

mod mask;

pub use mask::{Mask, MaskError};

use crate::ffi;
use crate::EncodeRefusal;
use std::fmt;

/// The most bytes that a telegram has.
pub const LONGEST: usize = 261;
/// The address of the selected meters.
pub const SELECTED: u8 = 0xFD;
/// The address of all meters, which reply.
pub const ALL: u8 = 0xFE;
/// The address of all meters, whose replies are not heard.
pub const BROADCAST: u8 = 0xFF;

/// A telegram.
#[derive(Clone, Copy, Debug, PartialEq, Eq, Hash)]
pub enum Frame<'a> {
    /// The acknowledgement, the single byte E5.
    Ack,
    /// A short telegram: 10 C A sum 16.
    Short {
        /// The control field C.
        control: u8,
        /// The address field A.
        address: u8,
    },
    /// A long telegram: 68 L L 68 C A CI data sum 16.
    Long {
        /// The control field C.
        control: u8,
        /// The address field A.
        address: u8,
        /// The control information field CI.
        ci: u8,
        /// The data, at most 252 bytes.
        data: &'a [u8],
    },
}

impl<'a> Frame<'a> {
    /// SND_NKE: resets the meters with this address. Each that hears it acknowledges.
    ///
    /// ```
    /// use jezynar::frame::Frame;
    ///
    /// assert_eq!(Frame::snd_nke(1).to_vec()?, [0x10, 0x40, 0x01, 0x41, 0x16]);
    /// # Ok::<(), jezynar::EncodeRefusal>(())
    /// ```
    pub fn snd_nke(address: u8) -> Self {
        Frame::Short { control: 0x40, address }
    }

    /// REQ_UD2: asks the meters with this address for their data. A meter goes on to the next part of its data where
    /// `fcb`, the alternation bit, differs from that of the request before.
    ///
    /// ```
    /// use jezynar::frame::{Frame, SELECTED};
    ///
    /// assert_eq!(Frame::req_ud2(1, false).to_vec()?, [0x10, 0x5B, 0x01, 0x5C, 0x16]);
    /// assert_eq!(Frame::req_ud2(SELECTED, true).to_vec()?, [0x10, 0x7B, 0xFD, 0x78, 0x16]);
    /// # Ok::<(), jezynar::EncodeRefusal>(())
    /// ```
    pub fn req_ud2(address: u8, fcb: bool) -> Self {
        Frame::Short { control: if fcb { 0x7B } else { 0x5B }, address }
    }

    /// Selects the meters that match the mask, and no others: SND_UD to [`SELECTED`] with CI 52. Each that is selected
    /// acknowledges.
    ///
    /// ```
    /// use jezynar::frame::{Frame, Mask};
    /// use jezynar::list::{self, Medium, MeterSpec};
    /// use jezynar::{Clock, Segment};
    ///
    /// # fn main() -> Result<(), Box<dyn std::error::Error>> {
    /// let meters = list::write(&[
    ///     MeterSpec::new(1, "12345678", "SEN", Medium::Water),
    ///     MeterSpec::new(2, "12345699", "KAM", Medium::Heat),
    /// ])?;
    /// let mut segment = Segment::open_list(&meters, 2400, false, 0.0)?;
    /// let clock = Clock::from_unix(0.0).ok_or("no such clock")?;
    /// let begin = Mask::new("123FFFFF")?;
    /// for (mask, matching) in [(begin, 2), (begin.manufacturer("KAM")?, 1), (begin.medium(Medium::Gas), 0)] {
    ///     segment.send(&Frame::select(&mask).to_vec()?, &clock)?;
    ///     assert_eq!(segment.receive(&mut [0; 32]), matching);
    /// }
    /// # Ok(())
    /// # }
    /// ```
    pub fn select(mask: &'a Mask) -> Self {
        Frame::Long { control: 0x53, address: SELECTED, ci: 0x52, data: mask.data() }
    }

    /// The bytes of the telegram.
    ///
    /// # Errors
    /// 11 the data have over 252 bytes.
    pub fn to_vec(&self) -> Result<Vec<u8>, EncodeRefusal> {
        let mut lent = [0; LONGEST];
        let used = encode(self, &mut lent)?;
        Ok(lent.into_iter().take(used).collect())
    }
}

/// What stands in front of some bytes.
#[derive(Clone, Copy, Debug, PartialEq, Eq, Hash)]
pub enum Parsed<'a> {
    /// A whole telegram.
    Complete {
        /// The telegram. Its data are a part of the bytes given.
        frame: Frame<'a>,
        /// How many bytes it has.
        used: usize,
    },
    /// The beginning of a telegram: more bytes are needed.
    Incomplete {
        /// The least number of further bytes after which it could be other than incomplete, at least 1: 4 for a lone
        /// 10, 3 for a lone 68, what is left of the telegram once its header is there, 1 for no bytes.
        due: usize,
    },
    /// No telegram.
    Invalid(Why),
}

/// Why some bytes do not begin with a telegram.
#[derive(Clone, Copy, Debug, PartialEq, Eq, Hash)]
pub enum Why {
    /// The sum is wrong.
    Checksum,
    /// The last byte is not 16.
    Stop,
    /// The two lengths differ, or no second 68 follows them.
    Header,
    /// The length is below 3.
    Length,
    /// The first byte is none of E5, 10 and 68.
    Start,
}

impl fmt::Display for Why {
    fn fmt(&self, f: &mut fmt::Formatter<'_>) -> fmt::Result {
        f.write_str(match self {
            Why::Checksum => "the telegram's sum is wrong",
            Why::Stop => "the telegram does not end with 16",
            Why::Header => "the telegram's header is wrong",
            Why::Length => "the telegram's length is below 3",
            Why::Start => "no telegram starts with this byte",
        })
    }
}

impl std::error::Error for Why {}

/// The telegram in front of some bytes.
///
/// ```
/// use jezynar::frame::{parse, Frame, Parsed};
///
/// let nke = Frame::snd_nke(1).to_vec()?;
/// assert_eq!(parse(&nke[..1]), Parsed::Incomplete { due: 4 });
/// assert_eq!(parse(&nke), Parsed::Complete { frame: Frame::snd_nke(1), used: 5 });
/// # Ok::<(), jezynar::EncodeRefusal>(())
/// ```
pub fn parse(bytes: &[u8]) -> Parsed<'_> {
    let mut out = [0; ffi::DESCRIPTION];
    // The library's answer is 0 to 6, with 256 * due added to 1.
    let answer = ffi::parse(bytes, &mut out);
    match answer % 256 {
        0 => complete(bytes, out),
        1 => Parsed::Incomplete { due: (answer / 256) as usize },
        2 => Parsed::Invalid(Why::Checksum),
        3 => Parsed::Invalid(Why::Stop),
        4 => Parsed::Invalid(Why::Header),
        5 => Parsed::Invalid(Why::Length),
        _ => Parsed::Invalid(Why::Start),
    }
}

fn complete(bytes: &[u8], out: [u8; ffi::DESCRIPTION]) -> Parsed<'_> {
    let [kind, control, address, ci, n0, n1, n2, n3, u0, u1, u2, u3, ..] = out;
    let count = u32::from_le_bytes([n0, n1, n2, n3]) as usize;
    let used = u32::from_le_bytes([u0, u1, u2, u3]) as usize;
    let frame = match kind {
        0 => Frame::Ack,
        1 => Frame::Short { control, address },
        _ => {
            // A complete long telegram has its data there; the default is never taken.
            let data = bytes.get(7..).and_then(|rest| rest.get(..count)).unwrap_or_default();
            Frame::Long { control, address, ci, data }
        }
    };
    Parsed::Complete { frame, used }
}

/// Writes a telegram into the first of the lent bytes and gives how many it has; further ones stay.
/// A short telegram has 5 bytes, a long one 9 more than its data.
///
/// # Errors
/// 11 the data have over 252 bytes; 12 the lent bytes are too few. No lent byte is then written.
pub fn encode(frame: &Frame<'_>, lent: &mut [u8]) -> Result<usize, EncodeRefusal> {
    EncodeRefusal::check(match *frame {
        Frame::Ack => ffi::encode(0, 0, 0, 0, &[], lent),
        Frame::Short { control, address } => ffi::encode(1, control, address, 0, &[], lent),
        Frame::Long { control, address, ci, data } => ffi::encode(2, control, address, ci, data, lent),
    })
}

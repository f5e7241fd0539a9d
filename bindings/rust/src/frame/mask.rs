//! The mask of a select.

use crate::list::Medium;
use std::fmt;

/// Which meters a select is for: those whose parts match what the mask asks for. What it leaves open, every meter
/// matches.
///
/// ```
/// use jezynar::frame::Mask;
/// use jezynar::list::Medium;
///
/// let mask = Mask::new("1FFFFFFF")?.manufacturer("KAM")?.version(27).medium(Medium::Heat);
/// assert_eq!(*mask.data(), [0xFF, 0xFF, 0xFF, 0x1F, 0x2D, 0x2C, 27, 0x04]);
/// assert_eq!(Mask::new("FFFFFFFF")?, Mask::ANY);
/// # Ok::<(), jezynar::frame::MaskError>(())
/// ```
#[derive(Clone, Copy, Debug, PartialEq, Eq, Hash)]
pub struct Mask {
    /// As in the telegram: the id's digits, the last two first; the manufacturer's code, low byte first; version;
    /// medium. A digit F, and FF, leave open.
    data: [u8; 8],
}

impl Mask {
    /// Every meter.
    pub const ANY: Mask = Mask { data: [0xFF; 8] };

    /// The meters whose id matches eight digits, the most significant first, with `F` for any digit.
    ///
    /// # Errors
    /// Where the text is anything else.
    pub fn new(id: &str) -> Result<Self, MaskError> {
        let digit = |c: u8| match c {
            b'0'..=b'9' => Some(c & 0x0F),
            b'F' => Some(0x0F),
            _ => None,
        };
        let digits: Option<Vec<u8>> = id.bytes().map(digit).collect();
        Self::from_digits(digits.and_then(|d| d.try_into().ok()).ok_or(MaskError::Id)?)
    }

    /// The same from numbers, with 15 for any digit, as [`Entry`](crate::Entry) has them.
    ///
    /// # Errors
    /// Where a number is from 10 to 14, or over 15.
    pub fn from_digits(digits: [u8; 8]) -> Result<Self, MaskError> {
        if !digits.iter().all(|d| matches!(d, 0..=9 | 15)) {
            return Err(MaskError::Id);
        }
        let [a, b, c, d, e, f, g, h] = digits;
        let two = |high: u8, low: u8| high << 4 | low;
        Ok(Mask { data: [two(g, h), two(e, f), two(c, d), two(a, b), 0xFF, 0xFF, 0xFF, 0xFF] })
    }

    /// Of these the meters of one manufacturer: three capital letters, or an empty text for those without one.
    ///
    /// # Errors
    /// Where the text is anything else.
    pub fn manufacturer(self, letters: &str) -> Result<Self, MaskError> {
        let [low, high] = match *letters.as_bytes() {
            [] => [0, 0],
            [a @ b'A'..=b'Z', b @ b'A'..=b'Z', c @ b'A'..=b'Z'] => {
                // Five bits for each letter, A is 1.
                let bits = |letter: u8| u16::from(letter & 0x1F);
                (bits(a) << 10 | bits(b) << 5 | bits(c)).to_le_bytes()
            }
            _ => return Err(MaskError::Manufacturer),
        };
        let [a, b, c, d, _, _, version, medium] = self.data;
        Ok(Mask { data: [a, b, c, d, low, high, version, medium] })
    }

    /// Of these the meters of one version. 255 leaves it open.
    pub fn version(self, version: u8) -> Self {
        let [a, b, c, d, low, high, _, medium] = self.data;
        Mask { data: [a, b, c, d, low, high, version, medium] }
    }

    /// Of these the meters with a medium's code, which is the same for heat and heat_old.
    pub fn medium(self, medium: Medium) -> Self {
        let [a, b, c, d, low, high, version, _] = self.data;
        Mask { data: [a, b, c, d, low, high, version, medium.code()] }
    }

    /// The data of the select.
    pub fn data(&self) -> &[u8; 8] {
        &self.data
    }
}

/// Why there is no such mask.
#[derive(Clone, Copy, Debug, PartialEq, Eq, Hash)]
pub enum MaskError {
    /// The id is not eight digits, 0 to 9 or F.
    Id,
    /// The manufacturer is neither three capital letters nor empty.
    Manufacturer,
}

impl fmt::Display for MaskError {
    fn fmt(&self, f: &mut fmt::Formatter<'_>) -> fmt::Result {
        f.write_str(match self {
            MaskError::Id => "the mask's id is not eight digits, 0 to 9 or F",
            MaskError::Manufacturer => "the mask's manufacturer is neither three capital letters nor empty",
        })
    }
}

impl std::error::Error for MaskError {}

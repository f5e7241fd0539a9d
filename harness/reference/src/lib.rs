//! The Rust segment with what 01 adds to it: the meter list's bytes, the refusals by their numbers, and the search
//! over the Rust's own send and receive. Every byte and every state comes from the unchanged Rust. Beside it, what 02
//! adds: how many bytes are due, and the export of a segment as a list.
mod due;
mod export;
mod list;
mod search;
mod segment;

pub use due::due;
pub use export::{export, EXPORT};
pub use list::list_bytes;
pub use search::{Entry, Found};
pub use segment::{Segment, METERS, PIECE, QUEUE};

use oracle::sim::set_secs;
use oracle::{set_now, Stamp};

#[derive(Clone, Copy, Debug, PartialEq)]
pub struct Clock {
    pub now: f64,
    pub year: u32,
    pub month: u32,
    pub day: u32,
    pub hour: u32,
    pub minute: u32,
}

impl Clock {
    pub(crate) fn good(&self) -> bool {
        (1970..=9999).contains(&self.year)
            && (1..=12).contains(&self.month)
            && (1..=31).contains(&self.day)
            && self.hour <= 23
            && self.minute <= 59
    }
    pub(crate) fn set(&self) {
        set_secs(self.now);
        set_now(Stamp {
            year: self.year as i32,
            month: self.month,
            day: self.day,
            hour: self.hour,
            minute: self.minute,
        });
    }
}

//! A simulated M-Bus segment (EN 13757-2) and the search over it: a safe wrapper over the static library, whose
//! functions are proved to meet their contracts for every input.
//!
//! A [`Segment`] holds the meters of a list, the bus baud, the waiting input and the queue of replies. It does nothing
//! by itself: time comes with each call as a [`Clock`]. No call panics, and a refused call changes nothing: neither the
//! segment nor what was lent. A thread with 64 KiB of stack is enough for every call.
//!
//! To build, `./archive` writes `libjezynar.a` to `target/staticlib` of the repository, where this crate
//! finds it; or `JEZYNAR_LIB` names another folder that holds it.
//!
//! # Example
//!
//! A list of two meters is opened, the first is reset and read, then both are searched for.
//!
//! ```
//! use jezynar::frame::{self, Frame, Parsed};
//! use jezynar::list::{self, Medium, MeterSpec};
//! use jezynar::{Clock, Segment};
//!
//! # fn main() -> Result<(), Box<dyn std::error::Error>> {
//! // Opened at 2400 Bd; the meters' values begin to rise at 2026-10-01 00:00:00.
//! let meters = list::write(&[
//!     MeterSpec::new(1, "12345678", "SEN", Medium::Water),
//!     MeterSpec::new(2, "12345699", "SEN", Medium::Water),
//! ])?;
//! let origin = 1_790_812_800.0;
//! let mut segment = Segment::open_list(&meters, 2400, false, origin)?;
//!
//! // A minute later, SND_NKE and REQ_UD2 to the primary address 1.
//! let clock = Clock::from_unix(origin + 60.0).ok_or("after the year 9999")?;
//! segment.send(&Frame::snd_nke(1).to_vec()?, &clock)?;
//! segment.send(&Frame::req_ud2(1, false).to_vec()?, &clock)?;
//!
//! // The replies come in pieces of at most 32 bytes.
//! let mut replies = Vec::new();
//! let mut piece = [0; 32];
//! loop {
//!     let count = segment.receive(&mut piece);
//!     if count == 0 {
//!         break;
//!     }
//!     replies.extend_from_slice(&piece[..count]);
//! }
//!
//! // The acknowledgement of SND_NKE, then the data of meter 1, which begin with its id.
//! assert_eq!(frame::parse(&replies), Parsed::Complete { frame: Frame::Ack, used: 1 });
//! let Parsed::Complete { frame: Frame::Long { address, ci, data, .. }, .. } = frame::parse(&replies[1..]) else {
//!     return Err("no readout".into());
//! };
//! assert_eq!((address, ci), (1, 0x72));
//! assert_eq!(data[..4], [0x78, 0x56, 0x34, 0x12]);
//!
//! // The search, with an allowance of 10,000 probes.
//! let found = segment.search(&clock, 10_000)?;
//! println!("{} entries, {} probes", found.entries.len(), found.probes);
//! for entry in &found.entries {
//!     println!("{} {entry}", entry.kind);
//! }
//! # let lines: Vec<String> = found.entries.iter().map(|entry| format!("{} {entry}", entry.kind)).collect();
//! # assert_eq!((lines, found.probes), (vec!["one 12345678".to_string(), "one 12345699".to_string()], 71));
//! # Ok(())
//! # }
//! ```
//!
//! It prints
//!
//! ```text
//! 2 entries, 71 probes
//! one 12345678
//! one 12345699
//! ```
//!
//! After address and baud changes, [`Segment::export`] gives the segment back as a list, with an example.
//!
//! `examples/serve.rs` puts a segment behind a TCP port, for masters that are programs of their own.
//! `examples/serial.rs` is a serial task, which reads as many bytes as are due.

#![deny(missing_docs)]
#![deny(unsafe_code)]
#![deny(clippy::unwrap_used, clippy::expect_used, clippy::panic, clippy::indexing_slicing)]
#![deny(clippy::arithmetic_side_effects, clippy::undocumented_unsafe_blocks)]

mod clock;
mod entry;
#[allow(unsafe_code)]
mod ffi;
pub mod frame;
pub mod list;
mod refusal;

pub use clock::Clock;
pub use entry::{Entry, EntryKind, Found, Summary};
pub use refusal::{BaudRefusal, EncodeRefusal, ExportRefusal, OpenRefusal, SearchRefusal, SendRefusal};

use std::fmt;

/// How many bytes a segment's image has.
pub const IMAGE: usize = 5974;
/// The most meters that a segment has, and the most entries that a search gives.
pub const METERS: usize = 64;
/// The most bytes that an export has: 3, and 46 for each meter.
pub const EXPORT: usize = 3 + 46 * METERS;

/// A simulated segment.
///
/// It is one image of [`IMAGE`] bytes, which [`as_image`](Segment::as_image) shows and
/// [`from_image`](Segment::from_image) takes back. Each segment has one image, in which bytes that are not in use are 0
/// and an origin that is not a number has one pattern. So segments are equal where their images are.
#[derive(Clone, PartialEq, Eq)]
pub struct Segment {
    // The one image of the segment: `new`, `tidy` and an accepted `open` write it whole, every other call keeps it so.
    image: Box<[u8; IMAGE]>,
}

impl Segment {
    /// A segment with no meters, 2400 Bd, origin 0.
    pub fn new() -> Self {
        let mut image = Box::new([0; IMAGE]);
        ffi::new(&mut image);
        Segment { image }
    }

    /// A new segment with the meters of a list, opened as [`open`](Segment::open) does.
    ///
    /// # Errors
    /// 1 to 10, see [`OpenRefusal`].
    pub fn open_list(list: &[u8], baud: u32, practice: bool, origin: f64) -> Result<Self, OpenRefusal> {
        let mut segment = Segment::new();
        segment.open(list, baud, practice, origin)?;
        Ok(segment)
    }

    /// The segment that an image means. Any bytes mean one. It holds the one image of that segment, which these bytes
    /// need not be: images that mean the same give equal segments.
    pub fn from_image(image: &[u8; IMAGE]) -> Self {
        let mut image = Box::new(*image);
        ffi::tidy(&mut image);
        Segment { image }
    }

    /// The segment's one image, to be kept or handed on. Bytes that are not in use are 0.
    pub fn as_image(&self) -> &[u8; IMAGE] {
        &self.image
    }

    /// Opens the segment of a meter list (see [`list`]) at a bus baud: 300, 600, 1200, 2400, 4800, 9600, 19200 or
    /// 38400. The segment is built anew. The origin, in seconds, is where the meters' values begin to rise; any value.
    /// With the practice flag all meters count from the same values, and an own baud that is the bus baud becomes 2400.
    ///
    /// # Errors
    /// 1 to 10, see [`OpenRefusal`]: of several failing records the first in list order is named, with its first
    /// number. The former segment stays in use.
    pub fn open(&mut self, list: &[u8], baud: u32, practice: bool, origin: f64) -> Result<(), OpenRefusal> {
        OpenRefusal::check(ffi::open(&mut self.image, list, baud, practice, origin))
    }

    /// Sends a piece of up to 1,024 bytes. It joins the waiting input; complete telegrams are handled in turn, an
    /// incomplete one waits, an invalid one discards all remaining input. Replies join the queue, except to address FF.
    ///
    /// Gives how many bytes are due: the least number of further bytes after which what waits could be other than
    /// incomplete, at least 1, and 1 where nothing waits. Read exactly so many bytes before the next send, and no
    /// telegram is missed or waited for too long. `examples/serial.rs` does so.
    ///
    /// ```
    /// use jezynar::frame::Frame;
    /// use jezynar::{Clock, Segment};
    ///
    /// # fn main() -> Result<(), Box<dyn std::error::Error>> {
    /// let mut segment = Segment::new();
    /// let clock = Clock::from_unix(0.0).ok_or("no such clock")?;
    /// let nke = Frame::snd_nke(1).to_vec()?;
    /// assert_eq!(segment.send(&nke[..1], &clock), Ok(4));
    /// assert_eq!(segment.send(&nke[1..], &clock), Ok(1));
    /// # Ok(())
    /// # }
    /// ```
    ///
    /// # Errors
    /// 13 the piece has over 1,024 bytes; 14 a clock field is out of range; 15 the queue would pass 4,096 bytes.
    pub fn send(&mut self, piece: &[u8], clock: &Clock) -> Result<usize, SendRefusal> {
        SendRefusal::check(ffi::send(&mut self.image, piece, clock))
    }

    /// Hands out the least of 32, the lent length and the queued bytes, and gives how many; lent bytes past these stay.
    pub fn receive(&mut self, lent: &mut [u8]) -> usize {
        ffi::receive(&mut self.image, lent)
    }

    /// Empties the queue, nothing else.
    pub fn clear(&mut self) {
        ffi::clear(&mut self.image);
    }

    /// Sets the bus baud and empties the waiting input. Only meters at the bus baud listen.
    ///
    /// # Errors
    /// 10 the baud is not one of the eight rates.
    pub fn set_baud(&mut self, baud: u32) -> Result<(), BaudRefusal> {
        BaudRefusal::check(ffi::set_baud(&mut self.image, baud))
    }

    /// Searches for the ids of the meters at bus baud, with an allowance of probes.
    ///
    /// # Errors
    /// 14 a clock field is out of range; 16 the waiting input or the queue is not empty. 17 cannot occur, because
    /// enough entries are lent.
    pub fn search(&mut self, clock: &Clock, allowance: u32) -> Result<Found, SearchRefusal> {
        let mut lent = [Entry::default(); METERS];
        let Summary { entries, probes, spent } = self.search_into(clock, allowance, &mut lent)?;
        Ok(Found { entries: lent.into_iter().take(entries).collect(), probes, spent })
    }

    /// Searches as [`search`](Segment::search) does, and writes the entries into lent ones; further ones stay.
    ///
    /// # Errors
    /// 14 a clock field is out of range; 16 the waiting input or the queue is not empty; 17 fewer entries are lent than
    /// meters were opened. [`METERS`] are always enough.
    pub fn search_into(&mut self, clock: &Clock, allowance: u32, lent: &mut [Entry]) -> Result<Summary, SearchRefusal> {
        let mut rows = [[0; ffi::ENTRY]; METERS];
        let mut summary = [0; ffi::SUMMARY];
        // The library is lent as many entries as the caller lends, but never more than can be written.
        let rows = rows.get_mut(..lent.len().min(METERS)).unwrap_or_default();
        SearchRefusal::check(ffi::search(&mut self.image, clock, allowance, rows, &mut summary))?;
        let [n0, n1, n2, n3, p0, p1, p2, p3, spent, ..] = summary;
        let entries = u32::from_le_bytes([n0, n1, n2, n3]) as usize;
        for (place, row) in lent.iter_mut().zip(rows.iter()).take(entries) {
            *place = Entry::read(row);
        }
        Ok(Summary { entries, probes: u32::from_le_bytes([p0, p1, p2, p3]), spent: spent != 0 })
    }

    /// The present meters as a list, for a site that changed addresses or bauds: in segment order, also those at other
    /// rates, with the own baud 0 where it equals the bus baud.
    ///
    /// Opened at the same bus baud without the practice flag, the list is accepted, and its meters are the same in
    /// primary address, id, manufacturer, version, medium, fault and baud. Two segments at one bus baud, neither
    /// refused, have the same list exactly if their meters agree in these. (Where [`from_image`] took bytes that no call
    /// left, there can be a list that an opening refuses.)
    ///
    /// # What the list does not hold
    ///
    /// The bus baud: keep it beside the list. At another one the meters with own baud 0 take that one.
    ///
    /// The origin, the practice flag, the waiting input and the queue; and of a meter the seed from which its values
    /// rise, access number, selection, part, last FCB, readouts, and whether a flaky one hears next. All this begins
    /// anew at the opening. So meters that were opened with the practice flag need not read the same values afterwards;
    /// others do, with the same origin.
    ///
    /// # Example
    ///
    /// Of two meters, one gets another primary address and one another baud. The list is opened again in place of the
    /// segment.
    ///
    /// ```
    /// use jezynar::frame::Frame;
    /// use jezynar::list::{self, Medium, MeterSpec};
    /// use jezynar::{Clock, Segment};
    ///
    /// # fn main() -> Result<(), Box<dyn std::error::Error>> {
    /// let water = MeterSpec::new(1, "12345678", "SEN", Medium::Water);
    /// let heat = MeterSpec::new(2, "12345699", "KAM", Medium::Heat);
    /// let mut segment = Segment::open_list(&list::write(&[water, heat])?, 2400, false, 0.0)?;
    /// let clock = Clock::from_unix(60.0).ok_or("no such clock")?;
    ///
    /// // SND_UD with CI 51 and the data 01 7A 07: the meter at 1 is at 7 from now on.
    /// let address = Frame::Long { control: 0x53, address: 1, ci: 0x51, data: &[0x01, 0x7A, 7] };
    /// segment.send(&address.to_vec()?, &clock)?;
    /// // SND_UD with CI B8 to BF, the eight rates from 300 Bd on: the meter at 2 changes to 9600 Bd.
    /// let rate = Frame::Long { control: 0x53, address: 2, ci: 0xBD, data: &[] };
    /// segment.send(&rate.to_vec()?, &clock)?;
    ///
    /// let present = segment.export()?;
    /// let moved = MeterSpec { primary: 7, ..water };
    /// let faster = MeterSpec { baud: Some(9600), ..heat };
    /// assert_eq!(present, list::write(&[moved, faster])?);
    ///
    /// // At the bus baud of the export, and with the same origin.
    /// let mut again = Segment::open_list(&present, 2400, false, 0.0)?;
    /// assert_eq!(again.export()?, present);
    ///
    /// // One meter is read at its new address: the reply has the address, CI 72 and the id.
    /// again.send(&Frame::req_ud2(7, false).to_vec()?, &clock)?;
    /// let mut reply = [0; 32];
    /// again.receive(&mut reply);
    /// assert_eq!(reply[5..11], [7, 0x72, 0x78, 0x56, 0x34, 0x12]);
    /// again.clear();
    ///
    /// // The other is found at its new rate.
    /// again.set_baud(9600)?;
    /// let found = again.search(&clock, 100)?;
    /// assert_eq!(found.entries[0].to_string(), "12345699");
    /// # Ok(())
    /// # }
    /// ```
    ///
    /// # Errors
    /// 18 a meter's primary address is over 250, see [`ExportRefusal`]. 12 cannot occur, because enough bytes are lent.
    ///
    /// [`from_image`]: Segment::from_image
    pub fn export(&self) -> Result<Vec<u8>, ExportRefusal> {
        let mut list = vec![0; EXPORT];
        let used = self.export_into(&mut list)?;
        list.truncate(used);
        Ok(list)
    }

    /// Exports as [`export`](Segment::export) does, into the first of the lent bytes, and gives how many the list has;
    /// further ones stay.
    ///
    /// # Errors
    /// 18 a meter's primary address is over 250; 12 the lent bytes are too few. 18 is checked first. No lent byte is then
    /// written. [`EXPORT`] bytes are always enough.
    pub fn export_into(&self, lent: &mut [u8]) -> Result<usize, ExportRefusal> {
        ExportRefusal::check(ffi::export(&self.image, lent))
    }
}

impl Default for Segment {
    /// [`Segment::new`].
    fn default() -> Self {
        Segment::new()
    }
}

impl fmt::Debug for Segment {
    /// Without the image's bytes.
    fn fmt(&self, f: &mut fmt::Formatter<'_>) -> fmt::Result {
        f.debug_struct("Segment").finish_non_exhaustive()
    }
}

//! A list of calls as data; made on the static library and on the other side alike, and compared.
use crate::exports::Exports;
use crate::layout::{fields, records};
use crate::library::{state_of, Library};
use crate::rust::Rust;
use reference::Clock;
use std::cell::Cell;
use std::fmt;
use std::panic::{catch_unwind, AssertUnwindSafe};

#[derive(Clone, Debug)]
pub enum Call {
    Open { list: Vec<u8>, baud: u32, practice: bool, origin: f64 },
    Send { piece: Vec<u8>, clock: Clock },
    Receive { lent: usize },
    Clear,
    SetBaud { baud: u32 },
    /// Lent are bytes, 16 for an entry.
    Search { clock: Clock, allowance: u32, lent: usize },
    Export { lent: usize },
    /// The export of any bytes as an image, not of the segment.
    ExportOf { image: Vec<u8>, lent: usize },
    Parse { bytes: Vec<u8> },
    Encode { kind: u8, control: u8, address: u8, ci: u8, data: Vec<u8>, lent: usize },
}

/// What memory holds before a call, and how many bytes follow it that no call may write.
pub const FILL: u8 = 0x55;
pub const GUARD: usize = 16;

/// What lent memory holds at a place: not the same everywhere, so that bytes that were moved are seen.
fn fill(place: usize) -> u8 {
    FILL ^ (place % 251) as u8
}

/// Memory of `n` bytes to lend, and the guard after it.
pub fn lend(n: usize) -> Vec<u8> {
    (0..n + GUARD).map(fill).collect()
}

#[derive(Clone, Debug, PartialEq)]
pub struct Answer {
    /// Of a send and of a telegram that is read, without the bytes due.
    pub returned: u64,
    /// How many bytes are due, after a send and of an incomplete telegram; else 0.
    pub due: u64,
    /// Each lent memory afterwards, with its guard.
    pub lent: Vec<Vec<u8>>,
}

/// The parts of a segment that 01 lists. A NaN origin is one value; readouts are the least of their number and 3.
#[derive(Clone, Debug, PartialEq)]
pub struct State {
    pub baud: u32,
    pub origin: u64,
    pub input: Vec<u8>,
    pub queue: Vec<u8>,
    pub meters: Vec<[u32; 15]>,
}

/// The numbers of a meter, in the order of `State::meters`.
const PARTS: [&str; 15] = [
    "primary", "id", "manufacturer", "version", "medium", "model", "fault", "access", "baud", "selected", "part", "last FCB", "readouts",
    "seed", "hears next",
];

/// The numbers of a meter that an export tells: "primary, id, manufacturer code, version, medium with its model, fault and
/// baud".
pub const EXPORTED: [usize; 8] = [0, 1, 2, 3, 4, 5, 6, 8];

pub const NAN: u64 = 0x7ff8_0000_0000_0000;

/// The bits of an origin, every NaN as one.
pub fn origin_bits(x: f64) -> u64 {
    if x.is_nan() { NAN } else { x.to_bits() }
}

/// What the library is compared with.
pub trait Side {
    fn answer(&mut self, call: &Call) -> Answer;
    fn state(&self) -> State;
}

#[derive(Default)]
pub struct Counts {
    pub calls: u64,
    /// Answers of the calls that can be refused, by number.
    pub numbers: [u64; 19],
    /// Answers of the telegram reader.
    pub parsed: [u64; 7],
}

impl Call {
    /// The number of the refusal in what was returned, 0 where accepted; nothing for a call that is never refused.
    pub fn number(&self, returned: u64) -> Option<u64> {
        match self {
            Call::Open { .. } => Some(returned % 256),
            Call::Send { .. } | Call::SetBaud { .. } | Call::Search { .. } => Some(returned),
            Call::Encode { .. } | Call::Export { .. } | Call::ExportOf { .. } => Some(returned >> 16),
            Call::Receive { .. } | Call::Clear | Call::Parse { .. } => None,
        }
    }

    /// An export only reads the segment; a telegram's reading or writing has nothing to do with it.
    fn changes(&self) -> bool {
        !matches!(self, Call::Export { .. } | Call::ExportOf { .. } | Call::Parse { .. } | Call::Encode { .. })
    }
}

impl Counts {
    fn add(&mut self, call: &Call, returned: u64) {
        self.calls += 1;
        if let Some(n) = call.number(returned) {
            self.numbers[n as usize] += 1;
        }
        if let Call::Parse { .. } = call {
            self.parsed[returned as usize] += 1;
        }
    }
}

pub fn hex(bytes: &[u8]) -> String {
    bytes.iter().map(|b| format!("{b:02X}")).collect::<Vec<_>>().join(" ")
}

/// A NaN with its bits, which `e` does not tell.
fn float(x: f64) -> String {
    if x.is_nan() { format!("NaN {:016X}", x.to_bits()) } else { format!("{x:e}") }
}

fn clock(c: &Clock) -> String {
    format!("secs {}, date {}-{:02}-{:02} {:02}:{:02}", float(c.now), c.year, c.month, c.day, c.hour, c.minute)
}

/// The meters of a list, where its lengths fit.
fn meters(list: &[u8]) -> String {
    let mut out = String::new();
    for (k, record) in records(list).unwrap_or_default().iter().enumerate() {
        let Some(f) = fields(record) else { continue };
        let texts: Vec<String> = f[3..].iter().map(|t| format!("\"{}\"", t.escape_ascii())).collect();
        out += &format!("\n    meter {k}: primary {}, version {}, own baud {}, {}", f[0][0], f[1][0], hex(&f[2]), texts.join(" "));
    }
    out
}

/// What an export reads of the segment that an image means.
fn meant(image: &[u8]) -> String {
    let state = state_of(image);
    let mut out = format!("bus baud {}", state.baud);
    for (k, meter) in state.meters.iter().enumerate() {
        let parts: Vec<String> = EXPORTED.iter().map(|i| format!("{} {:X}", PARTS[*i], meter[*i])).collect();
        out += &format!("\n    meter {k}: {}", parts.join(", "));
    }
    out
}

impl fmt::Display for Call {
    fn fmt(&self, f: &mut fmt::Formatter) -> fmt::Result {
        match self {
            Call::Open { list, baud, practice, origin } => {
                write!(f, "open at {baud}, practice {practice}, origin {}, list [{}]{}", float(*origin), hex(list), meters(list))
            }
            Call::Send { piece, clock: c } => write!(f, "send [{}], {}", hex(piece), clock(c)),
            Call::Receive { lent } => write!(f, "receive, {lent} lent"),
            Call::Clear => write!(f, "clear"),
            Call::SetBaud { baud } => write!(f, "set baud {baud}"),
            Call::Search { clock: c, allowance, lent } => write!(f, "search, allowance {allowance}, {lent} bytes lent, {}", clock(c)),
            Call::Export { lent } => write!(f, "export, {lent} lent"),
            Call::ExportOf { image, lent } => write!(f, "export of an image, {lent} lent, {}", meant(image)),
            Call::Parse { bytes } => write!(f, "parse [{}]", hex(bytes)),
            Call::Encode { kind, control, address, ci, data, lent } => {
                write!(f, "encode kind {kind}, C {control:02X}, A {address:02X}, CI {ci:02X}, data [{}], {lent} lent", hex(data))
            }
        }
    }
}

impl fmt::Display for Answer {
    fn fmt(&self, f: &mut fmt::Formatter) -> fmt::Result {
        write!(f, "{}", self.returned)?;
        if self.due > 0 {
            write!(f, ", {} due", self.due)?;
        }
        for lent in &self.lent {
            let written = (0..lent.len()).rfind(|k| lent[*k] != fill(*k)).map_or(0, |k| k + 1);
            write!(f, " [{}]", hex(&lent[..written]))?;
        }
        Ok(())
    }
}

/// The parts in which two segments differ, one line for each.
fn differences(ours: &State, theirs: &State) -> String {
    let mut out = String::from("the segments differ");
    let mut line = |name: String, a: String, b: String| {
        if a != b {
            out += &format!("\n    {name}: library {a}, other {b}");
        }
    };
    line("baud".into(), ours.baud.to_string(), theirs.baud.to_string());
    line("origin".into(), format!("{:016X}", ours.origin), format!("{:016X}", theirs.origin));
    line("input".into(), format!("[{}]", hex(&ours.input)), format!("[{}]", hex(&theirs.input)));
    line("queue".into(), format!("[{}]", hex(&ours.queue)), format!("[{}]", hex(&theirs.queue)));
    line("meters".into(), ours.meters.len().to_string(), theirs.meters.len().to_string());
    for (k, (a, b)) in ours.meters.iter().zip(&theirs.meters).enumerate() {
        for (i, part) in PARTS.iter().enumerate() {
            line(format!("meter {k}, {part}"), format!("{:X}", a[i]), format!("{:X}", b[i]));
        }
    }
    out
}

/// Makes the calls on a new segment of each side; says where they first differ. `told` takes each call with its answer.
pub fn run_on(calls: &[Call], other: &mut impl Side, counts: &mut Counts, mut told: Option<&mut String>) -> Result<(), String> {
    let mut library = Library::new();
    let mut exports = Exports::default();
    for call in calls {
        let mut tell = |line: &dyn fmt::Display| {
            if let Some(told) = told.as_deref_mut() {
                *told += &format!("  {line}\n");
            }
        };
        tell(call);
        let before = library.memory;
        let ours = library.answer(call);
        let theirs = other.answer(call);
        tell(&format_args!("  -> {ours}"));
        counts.add(call, theirs.returned);
        if ours != theirs {
            return Err(format!("the answers differ\n    library {ours}\n    other   {theirs}"));
        }
        let refused = call.number(ours.returned).is_some_and(|n| n != 0);
        if (refused || !call.changes()) && library.memory != before {
            return Err("a call that changes nothing changed the image".into());
        }
        if !library.guarded() {
            return Err("a call wrote beside the image".into());
        }
        if !library.tidy() {
            return Err("after the call the image is not the one image of its segment".into());
        }
        if call.changes() {
            let (a, b) = (library.state(), other.state());
            if a != b {
                return Err(differences(&a, &b));
            }
        }
        if matches!(call, Call::Export { .. }) && !refused {
            exports.add(&library.state(), &ours.lent[0][..ours.returned as usize])?;
        }
    }
    Ok(())
}

thread_local!(static RUNNING: Cell<bool> = const { Cell::new(false) });

/// Whether a list is being made.
pub fn running() -> bool {
    RUNNING.get()
}

/// The library and the Rust; a panic of the Rust's side is a failure of the list.
fn caught(calls: &[Call], counts: &mut Counts, told: Option<&mut String>) -> Result<(), String> {
    RUNNING.set(true);
    let done = catch_unwind(AssertUnwindSafe(|| run_on(calls, &mut Rust::new(), counts, told)));
    RUNNING.set(false);
    done.unwrap_or_else(|why| {
        let text = why.downcast_ref::<String>().map(String::as_str).or(why.downcast_ref::<&str>().copied());
        Err(format!("panic: {}", text.unwrap_or("no text")))
    })
}

/// Makes the calls on the library and on the Rust.
pub fn run(calls: &[Call], counts: &mut Counts) -> Result<(), String> {
    caught(calls, counts, None)
}

/// The calls of a failing list with their answers, up to the difference.
pub fn transcript(calls: &[Call]) -> String {
    let mut out = String::new();
    if let Err(why) = caught(calls, &mut Counts::default(), Some(&mut out)) {
        out += &format!("  {why}");
    }
    out
}

//! The Rust's side: the unchanged Rust, with what 01, 02 and the differences' page add to it, in the library's form.
use crate::calls::{lend, origin_bits, Answer, Call, Side, State};
use crate::library::state_of;
use oracle::mbus::frame::{self, Frame, Parse};
use oracle::sim::{MeterView, View};
use reference::{due, Clock, Entry, Segment};

/// The most data that a long telegram's length byte can tell.
const DATA: usize = 252;

pub struct Rust {
    segment: Segment,
}

impl Rust {
    pub fn new() -> Self {
        Rust { segment: Segment::new() }
    }

    fn search(&mut self, clock: Clock, allowance: u32, lent: usize) -> Answer {
        let found = self.segment.search(clock, allowance, lent / 16);
        let (mut out, mut summary) = (lend(lent), lend(12));
        if found.number == 0 {
            assert!(found.entries.len() <= lent / 16, "more entries than were lent");
            for (row, entry) in out.chunks_mut(16).zip(&found.entries) {
                let (kind, digits, count) = match entry {
                    Entry::One(d) => (1, d, 1),
                    Entry::Mute(d) => (2, d, 1),
                    Entry::Many(d, n) => (3, d, *n),
                };
                row.fill(0);
                row[0] = kind;
                row[1..9].copy_from_slice(digits);
                row[9..13].copy_from_slice(&count.to_le_bytes());
            }
            put(&mut summary, 0, found.entries.len());
            put(&mut summary, 4, found.probes as usize);
            put(&mut summary, 8, found.spent as usize);
        }
        Answer { returned: found.number as u64, due: 0, lent: vec![out, summary] }
    }

    /// The Rust does not say how many bytes are due: they are counted for the input that waits in it.
    fn send(&mut self, piece: &[u8], clock: Clock) -> Answer {
        let number = self.segment.send(piece, clock);
        let due = if number == 0 { counted(&self.segment.view().input) } else { 0 };
        Answer { returned: number as u64, due, lent: Vec::new() }
    }
}

fn counted(bytes: &[u8]) -> u64 {
    due(bytes).expect("an incomplete telegram") as u64
}

/// A number of four bytes, low byte first.
fn put(bytes: &mut [u8], at: usize, n: usize) {
    bytes[at..at + 4].copy_from_slice(&(n as u32).to_le_bytes());
}

fn parse(bytes: &[u8]) -> Answer {
    let mut out = lend(16);
    let mut due = 0;
    let returned = match frame::parse(bytes) {
        Parse::Complete(f, used) => {
            let (head, count) = match f {
                Frame::Ack => ([0, 0, 0, 0], 0),
                Frame::Short { control, address } => ([1, control, address, 0], 0),
                Frame::Long { control, address, ci, data } => {
                    assert_eq!(data, bytes[7..7 + data.len()], "data begin at byte 7");
                    ([2, control, address, ci], data.len())
                }
            };
            out[..4].copy_from_slice(&head);
            put(&mut out, 4, count);
            put(&mut out, 8, used);
            put(&mut out, 12, 0);
            0
        }
        Parse::Incomplete => {
            due = counted(bytes);
            1
        }
        Parse::Invalid(why) => 2 + ["checksum", "stop", "header", "length", "start"].iter().position(|w| *w == why).unwrap() as u64,
    };
    Answer { returned, due, lent: vec![out] }
}

/// The Rust writes a length byte modulo 256 for data over 252, which EN 13757-2 does not know: 11.
fn encode(frame: Frame, lent: usize) -> Answer {
    let mut out = lend(lent);
    let bytes = frame.encode();
    let returned = if matches!(&frame, Frame::Long { data, .. } if data.len() > DATA) {
        11 << 16
    } else if lent < bytes.len() {
        12 << 16
    } else {
        out[..bytes.len()].copy_from_slice(&bytes);
        bytes.len() as u64
    };
    Answer { returned, due: 0, lent: vec![out] }
}

/// The segment that has these parts; of a model and a fault past the last one the last.
fn view_of(s: State) -> View {
    let meter = |m: &[u32; 15]| MeterView {
        primary: m[0] as u8,
        id: m[1],
        manufacturer: m[2] as u16,
        version: m[3] as u8,
        medium: m[4] as u8,
        model: m[5].min(3) as u8,
        fault: m[6].min(6) as u8,
        access: m[7] as u8,
        baud: m[8],
        selected: m[9] != 0,
        part: m[10] as usize,
        last_fcb: (m[11] != 0).then_some(m[11] != 1),
        readouts: m[12],
        seed: m[13],
        hears_next: m[14] != 0,
    };
    View { baud: s.baud, origin: f64::from_bits(s.origin), meters: s.meters.iter().map(meter).collect(), input: s.input, queue: s.queue }
}

/// The Rust has no export: 02's, as it is over every segment.
fn export(v: &View, lent: usize) -> Answer {
    let mut out = lend(lent);
    let (number, count) = reference::export(v, &mut out[..lent]);
    Answer { returned: (number as u64) << 16 | count as u64, due: 0, lent: vec![out] }
}

/// The export of a segment that has these parts.
pub fn export_of(state: State, lent: usize) -> Answer {
    export(&view_of(state), lent)
}

impl Side for Rust {
    fn answer(&mut self, call: &Call) -> Answer {
        let plain = |returned: u64| Answer { returned, due: 0, lent: Vec::new() };
        match call {
            Call::Open { list, baud, practice, origin } => {
                let (number, index) = self.segment.open(list, *baud, *practice, *origin);
                plain(number as u64 + 256 * index as u64)
            }
            Call::Send { piece, clock } => self.send(piece, *clock),
            Call::Receive { lent } => {
                let mut out = lend(*lent);
                let n = self.segment.receive(&mut out[..*lent]);
                Answer { returned: n as u64, due: 0, lent: vec![out] }
            }
            Call::Clear => {
                self.segment.clear();
                plain(0)
            }
            Call::SetBaud { baud } => plain(self.segment.set_baud(*baud) as u64),
            Call::Search { clock, allowance, lent } => self.search(*clock, *allowance, *lent),
            Call::Export { lent } => export(&self.segment.view(), *lent),
            Call::ExportOf { image, lent } => export_of(state_of(image), *lent),
            Call::Parse { bytes } => parse(bytes),
            Call::Encode { kind, control, address, ci, data, lent } => {
                let (control, address) = (*control, *address);
                let frame = match kind {
                    0 => Frame::Ack,
                    1 => Frame::Short { control, address },
                    _ => Frame::Long { control, address, ci: *ci, data: data.clone() },
                };
                encode(frame, *lent)
            }
        }
    }

    fn state(&self) -> State {
        let v = self.segment.view();
        let meter = |m: &oracle::sim::MeterView| {
            let last_fcb = m.last_fcb.map_or(0, |set| 1 + set as u32);
            [
                m.primary as u32, m.id, m.manufacturer as u32, m.version as u32, m.medium as u32, m.model as u32, m.fault as u32,
                m.access as u32, m.baud, m.selected as u32, m.part as u32, last_fcb, m.readouts.min(3), m.seed, m.hears_next as u32,
            ]
        };
        State { baud: v.baud, origin: origin_bits(v.origin), meters: v.meters.iter().map(meter).collect(), input: v.input, queue: v.queue }
    }
}

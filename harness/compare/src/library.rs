//! The static library's side: each call through its entry point, and the segment that an image means.
use crate::calls::{lend, origin_bits, Answer, Call, Side, State, FILL, GUARD};
use std::ptr;

pub const IMAGE: usize = 5974;
// Where the parts stand: the bus baud; how many meters, waiting and queued bytes; these themselves.
pub const BUS: usize = 0;
pub const COUNT: usize = 12;
const WAITING: usize = 14;
const QUEUED: usize = 16;
const INPUT: usize = 18;
const QUEUE: usize = 278;
pub const METERS: usize = 4374;
/// How many bytes a meter has.
pub const METER: usize = 25;
/// Where each number of a meter begins, in the order of the state's numbers; the next one ends it.
pub const PARTS: [usize; 16] = [0, 1, 5, 7, 8, 9, 10, 11, 12, 16, 17, 18, 19, 20, 24, METER];

extern "C" {
    fn jezynar_segment_image_len() -> usize;
    fn jezynar_segment_new(image: *mut u8);
    fn jezynar_segment_tidy(image: *mut u8);
    fn jezynar_segment_open(image: *mut u8, list: *const u8, len: usize, baud: u32, practice: bool, origin: f64) -> u32;
    fn jezynar_segment_send(image: *mut u8, piece: *const u8, len: usize, secs: f64, year: u32, month: u32, day: u32, hour: u32, minute: u32) -> u32;
    fn jezynar_segment_receive(image: *mut u8, lent: *mut u8, len: usize) -> usize;
    fn jezynar_segment_clear(image: *mut u8);
    fn jezynar_segment_set_baud(image: *mut u8, baud: u32) -> u32;
    fn jezynar_segment_search(
        image: *mut u8, secs: f64, year: u32, month: u32, day: u32, hour: u32, minute: u32, allowance: u32, entries: *mut u8, len: usize,
        summary: *mut u8,
    ) -> u32;
    fn jezynar_segment_export(image: *const u8, lent: *mut u8, len: usize) -> u32;
    fn jezynar_frame_parse(bytes: *const u8, len: usize, out: *mut u8) -> u32;
    fn jezynar_frame_encode(kind: u8, control: u8, address: u8, ci: u8, data: *const u8, data_len: usize, lent: *mut u8, lent_len: usize) -> u32;
}

pub fn image_len() -> usize {
    unsafe { jezynar_segment_image_len() }
}

/// An empty slice may have any pointer: null.
fn start(bytes: &[u8]) -> *const u8 {
    if bytes.is_empty() { ptr::null() } else { bytes.as_ptr() }
}

pub struct Library {
    /// The image between two guards.
    pub memory: [u8; GUARD + IMAGE + GUARD],
}

impl Library {
    /// A new segment over an image that held something else.
    pub fn new() -> Self {
        let mut library = Library { memory: [FILL; GUARD + IMAGE + GUARD] };
        unsafe { jezynar_segment_new(library.image()) };
        library
    }

    /// The segment that any bytes mean.
    fn over(image: &[u8]) -> Self {
        let mut library = Library { memory: [FILL; GUARD + IMAGE + GUARD] };
        library.memory[GUARD..GUARD + IMAGE].copy_from_slice(image);
        library
    }

    fn image(&mut self) -> *mut u8 {
        self.memory[GUARD..].as_mut_ptr()
    }

    /// The same segment in its one image.
    fn tidied(&self) -> Self {
        let mut copy = Library { memory: self.memory };
        unsafe { jezynar_segment_tidy(copy.image()) };
        copy
    }

    /// Whether the image is the one image of its segment.
    pub fn tidy(&self) -> bool {
        self.tidied().memory == self.memory
    }

    /// An export that leaves the image and its guards, and is that of the same segment in its one image.
    fn export_read_only(mut self, lent: usize) -> Answer {
        let before = self.memory;
        let answer = self.answer(&Call::Export { lent });
        assert!(self.memory == before, "an export changed the image");
        assert!(self.tidied().answer(&Call::Export { lent }) == answer, "two images of a segment are not exported alike");
        answer
    }

    pub fn guarded(&self) -> bool {
        self.memory[..GUARD].iter().chain(&self.memory[GUARD + IMAGE..]).all(|b| *b == FILL)
    }
}

impl Side for Library {
    fn answer(&mut self, call: &Call) -> Answer {
        if let Call::ExportOf { image, lent } = call {
            return Library::over(image).export_read_only(*lent);
        }
        let image = self.image();
        let mut lent_out = Vec::new();
        // Lends memory of some length.
        let mut out = |n: usize| {
            lent_out.push(lend(n));
            lent_out.last_mut().unwrap().as_mut_ptr()
        };
        let returned = match call {
            Call::Open { list, baud, practice, origin } => unsafe { jezynar_segment_open(image, start(list), list.len(), *baud, *practice, *origin) as u64 },
            Call::Send { piece, clock: c } => unsafe {
                jezynar_segment_send(image, start(piece), piece.len(), c.now, c.year, c.month, c.day, c.hour, c.minute) as u64
            },
            Call::Receive { lent } => unsafe { jezynar_segment_receive(image, out(*lent), *lent) as u64 },
            Call::Clear => {
                unsafe { jezynar_segment_clear(image) };
                0
            }
            Call::SetBaud { baud } => unsafe { jezynar_segment_set_baud(image, *baud) as u64 },
            Call::Search { clock: c, allowance, lent } => unsafe {
                let (entries, summary) = (out(*lent), out(12));
                jezynar_segment_search(image, c.now, c.year, c.month, c.day, c.hour, c.minute, *allowance, entries, *lent, summary) as u64
            },
            Call::Export { lent } => unsafe { jezynar_segment_export(image, out(*lent), *lent) as u64 },
            Call::ExportOf { .. } => unreachable!(),
            Call::Parse { bytes } => unsafe { jezynar_frame_parse(start(bytes), bytes.len(), out(16)) as u64 },
            Call::Encode { kind, control, address, ci, data, lent } => unsafe {
                jezynar_frame_encode(*kind, *control, *address, *ci, start(data), data.len(), out(*lent), *lent) as u64
            },
        };
        let (returned, due) = match call {
            Call::Send { .. } => (returned / 65_536, returned % 65_536),
            Call::Parse { .. } => (returned % 256, returned / 256),
            _ => (returned, 0),
        };
        Answer { returned, due, lent: lent_out }
    }

    fn state(&self) -> State {
        let image = &self.memory[GUARD..GUARD + IMAGE];
        let state = state_of(image);
        let counts = [COUNT, WAITING, QUEUED].map(|at| u16::from_le_bytes([image[at], image[at + 1]]) as usize);
        assert_eq!(counts, [state.meters.len(), state.input.len(), state.queue.len()], "a call left a count past the end of its place");
        state
    }
}

/// The parts that an image tells; a count past the end of its place means the whole place.
pub fn state_of(image: &[u8]) -> State {
    let num = |at: usize, n: usize| (0..n).rev().fold(0u64, |v, k| v * 256 + image[at + k] as u64);
    let counted = |at: usize, most: usize| (num(at, 2) as usize).min(most);
    let (count, waiting, queued) = (counted(COUNT, reference::METERS), counted(WAITING, QUEUE - INPUT), counted(QUEUED, METERS - QUEUE));
    let meter = |k: usize| {
        let mut parts = [0; 15];
        for (i, part) in parts.iter_mut().enumerate() {
            *part = num(METERS + METER * k + PARTS[i], PARTS[i + 1] - PARTS[i]) as u32;
        }
        parts
    };
    State {
        baud: num(BUS, 4) as u32,
        origin: origin_bits(f64::from_bits(num(4, 8))),
        input: image[INPUT..INPUT + waiting].to_vec(),
        queue: image[QUEUE..QUEUE + queued].to_vec(),
        meters: (0..count).map(meter).collect(),
    }
}

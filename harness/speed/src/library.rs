//! The exported calls that take an image, as functions on arrays and slices.
use reference::Clock;

pub const IMAGE: usize = 5974;
pub const ENTRIES: usize = 64 * 16;
pub const SUMMARY: usize = 12;
pub type Image = [u8; IMAGE];

// As in include/jezynar.h.
extern "C" {
    fn jezynar_segment_new(image: *mut u8);
    fn jezynar_segment_tidy(image: *mut u8);
    fn jezynar_segment_open(image: *mut u8, list: *const u8, len: usize, baud: u32, practice: bool, origin: f64) -> u32;
    fn jezynar_segment_send(image: *mut u8, piece: *const u8, len: usize, secs: f64, year: u32, month: u32, day: u32, hour: u32, minute: u32) -> u32;
    fn jezynar_segment_receive(image: *mut u8, lent: *mut u8, len: usize) -> usize;
    fn jezynar_segment_clear(image: *mut u8);
    fn jezynar_segment_set_baud(image: *mut u8, baud: u32) -> u32;
    fn jezynar_segment_search(
        image: *mut u8, secs: f64, year: u32, month: u32, day: u32, hour: u32, minute: u32, allowance: u32, entries: *mut u8, len: usize,
        summary: *mut u8,
    ) -> u32;
    fn jezynar_segment_export(image: *const u8, lent: *mut u8, len: usize) -> u32;
}

pub fn new(image: &mut Image) {
    unsafe { jezynar_segment_new(image.as_mut_ptr()) }
}

pub fn tidy(image: &mut Image) {
    unsafe { jezynar_segment_tidy(image.as_mut_ptr()) }
}

/// At 2400 Bd, without the practice flag, origin 0.
pub fn open(image: &mut Image, list: &[u8]) -> u32 {
    unsafe { jezynar_segment_open(image.as_mut_ptr(), list.as_ptr(), list.len(), 2400, false, 0.0) }
}

/// The number alone: the Rust does not say how many bytes are due.
pub fn send(image: &mut Image, piece: &[u8], c: &Clock) -> u32 {
    let answer = unsafe { jezynar_segment_send(image.as_mut_ptr(), piece.as_ptr(), piece.len(), c.now, c.year, c.month, c.day, c.hour, c.minute) };
    answer / 65_536
}

pub fn receive(image: &mut Image, lent: &mut [u8]) -> usize {
    unsafe { jezynar_segment_receive(image.as_mut_ptr(), lent.as_mut_ptr(), lent.len()) }
}

pub fn clear(image: &mut Image) {
    unsafe { jezynar_segment_clear(image.as_mut_ptr()) }
}

pub fn set_baud(image: &mut Image, baud: u32) -> u32 {
    unsafe { jezynar_segment_set_baud(image.as_mut_ptr(), baud) }
}

/// The number, and how many bytes were written.
pub fn export(image: &Image, lent: &mut [u8]) -> (u32, usize) {
    let answer = unsafe { jezynar_segment_export(image.as_ptr(), lent.as_mut_ptr(), lent.len()) };
    (answer / 65_536, answer as usize % 65_536)
}

/// With every probe allowed.
pub fn search(image: &mut Image, c: &Clock, entries: &mut [u8; ENTRIES], summary: &mut [u8; SUMMARY]) -> u32 {
    let (entries, summary) = (entries.as_mut_ptr(), summary.as_mut_ptr());
    unsafe { jezynar_segment_search(image.as_mut_ptr(), c.now, c.year, c.month, c.day, c.hour, c.minute, u32::MAX, entries, ENTRIES, summary) }
}

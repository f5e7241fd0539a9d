//! The entry points of the static library as functions on arrays and slices. All unsafe code of the crate is here.
//!
//! The library reads and writes the memory of its arguments alone, keeps no pointer after a call, has no state of its
//! own, and answers for every value of its arguments. It asks two things of a caller: each pointer is good for as many
//! bytes as the call takes, and lent memory that is written overlaps no other memory of the call. Here a reference to
//! an array or a slice with its own length gives the first, also for an empty slice, whose pointer is not null; that a
//! `&mut` is the only way to its memory gives the second.

use crate::{Clock, IMAGE};

/// The bytes of one entry.
pub const ENTRY: usize = 16;
/// The bytes of a search's summary.
pub const SUMMARY: usize = 12;
/// The bytes of a telegram's description.
pub const DESCRIPTION: usize = 16;

// As in include/jezynar.h.
mod c {
    extern "C" {
        #[cfg(test)]
        pub fn jezynar_segment_image_len() -> usize;
        pub fn jezynar_segment_new(image: *mut u8);
        pub fn jezynar_segment_tidy(image: *mut u8);
        pub fn jezynar_segment_open(
            image: *mut u8,
            list: *const u8,
            list_len: usize,
            baud: u32,
            practice: bool,
            origin: f64,
        ) -> u32;
        pub fn jezynar_segment_send(
            image: *mut u8,
            piece: *const u8,
            piece_len: usize,
            secs: f64,
            year: u32,
            month: u32,
            day: u32,
            hour: u32,
            minute: u32,
        ) -> u32;
        pub fn jezynar_segment_receive(image: *mut u8, lent: *mut u8, lent_len: usize) -> usize;
        pub fn jezynar_segment_clear(image: *mut u8);
        pub fn jezynar_segment_set_baud(image: *mut u8, baud: u32) -> u32;
        pub fn jezynar_segment_search(
            image: *mut u8,
            secs: f64,
            year: u32,
            month: u32,
            day: u32,
            hour: u32,
            minute: u32,
            allowance: u32,
            entries: *mut u8,
            entries_len: usize,
            summary: *mut u8,
        ) -> u32;
        pub fn jezynar_segment_export(image: *const u8, lent: *mut u8, lent_len: usize) -> u32;
        pub fn jezynar_frame_parse(bytes: *const u8, bytes_len: usize, out: *mut u8) -> u32;
        pub fn jezynar_frame_encode(
            kind: u8,
            control: u8,
            address: u8,
            ci: u8,
            data: *const u8,
            data_len: usize,
            lent: *mut u8,
            lent_len: usize,
        ) -> u32;
    }
}

pub fn new(image: &mut [u8; IMAGE]) {
    // SAFETY: the image is IMAGE bytes, lent for writing.
    unsafe { c::jezynar_segment_new(image.as_mut_ptr()) }
}

pub fn tidy(image: &mut [u8; IMAGE]) {
    // SAFETY: the image is IMAGE bytes, lent for writing.
    unsafe { c::jezynar_segment_tidy(image.as_mut_ptr()) }
}

pub fn open(image: &mut [u8; IMAGE], list: &[u8], baud: u32, practice: bool, origin: f64) -> u32 {
    // SAFETY: the image is IMAGE bytes, lent for writing; the list has its own length and is read alone.
    unsafe { c::jezynar_segment_open(image.as_mut_ptr(), list.as_ptr(), list.len(), baud, practice, origin) }
}

pub fn send(image: &mut [u8; IMAGE], piece: &[u8], clock: &Clock) -> u32 {
    let Clock { secs, year, month, day, hour, minute } = *clock;
    // SAFETY: the image is IMAGE bytes, lent for writing; the piece has its own length and is read alone.
    unsafe {
        c::jezynar_segment_send(image.as_mut_ptr(), piece.as_ptr(), piece.len(), secs, year, month, day, hour, minute)
    }
}

pub fn receive(image: &mut [u8; IMAGE], lent: &mut [u8]) -> usize {
    // SAFETY: the image is IMAGE bytes, lent for writing; so are the lent bytes, with their own length, and the two
    // `&mut` do not overlap.
    unsafe { c::jezynar_segment_receive(image.as_mut_ptr(), lent.as_mut_ptr(), lent.len()) }
}

pub fn clear(image: &mut [u8; IMAGE]) {
    // SAFETY: the image is IMAGE bytes, lent for writing.
    unsafe { c::jezynar_segment_clear(image.as_mut_ptr()) }
}

pub fn set_baud(image: &mut [u8; IMAGE], baud: u32) -> u32 {
    // SAFETY: the image is IMAGE bytes, lent for writing.
    unsafe { c::jezynar_segment_set_baud(image.as_mut_ptr(), baud) }
}

pub fn search(
    image: &mut [u8; IMAGE],
    clock: &Clock,
    allowance: u32,
    entries: &mut [[u8; ENTRY]],
    summary: &mut [u8; SUMMARY],
) -> u32 {
    let Clock { secs, year, month, day, hour, minute } = *clock;
    let entries = entries.as_flattened_mut();
    // SAFETY: the image is IMAGE bytes and the summary SUMMARY bytes, lent for writing; so are the entries, with their
    // own length, and the three `&mut` do not overlap.
    unsafe {
        c::jezynar_segment_search(
            image.as_mut_ptr(),
            secs,
            year,
            month,
            day,
            hour,
            minute,
            allowance,
            entries.as_mut_ptr(),
            entries.len(),
            summary.as_mut_ptr(),
        )
    }
}

pub fn export(image: &[u8; IMAGE], lent: &mut [u8]) -> u32 {
    // SAFETY: the image is IMAGE bytes and is read alone; the lent bytes have their own length, lent for writing.
    unsafe { c::jezynar_segment_export(image.as_ptr(), lent.as_mut_ptr(), lent.len()) }
}

pub fn parse(bytes: &[u8], out: &mut [u8; DESCRIPTION]) -> u32 {
    // SAFETY: the bytes have their own length and are read alone; out is DESCRIPTION bytes, lent for writing.
    unsafe { c::jezynar_frame_parse(bytes.as_ptr(), bytes.len(), out.as_mut_ptr()) }
}

pub fn encode(kind: u8, control: u8, address: u8, ci: u8, data: &[u8], lent: &mut [u8]) -> u32 {
    // SAFETY: the data have their own length and are read alone; the lent bytes have theirs and are lent for writing.
    unsafe {
        c::jezynar_frame_encode(kind, control, address, ci, data.as_ptr(), data.len(), lent.as_mut_ptr(), lent.len())
    }
}

#[cfg(test)]
mod tests;

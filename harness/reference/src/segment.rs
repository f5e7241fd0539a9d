//! The Rust segment, with 01's refusals, and 02's choice of the record that is named.
use crate::list::{failure, records};
use crate::Clock;
use oracle::link::Link;
use oracle::mbus::master::BAUD_RATES;
use oracle::sim::{set_secs, SimMeter, Simulator, View};
use std::time::Duration;

pub const METERS: usize = 64;
pub const PIECE: usize = 1024;
pub const QUEUE: usize = 4096;

pub struct Segment {
    sim: Simulator,
}

impl Default for Segment {
    fn default() -> Self {
        Self::new()
    }
}

impl Segment {
    /// No meters, 2400 Bd, origin 0.
    pub fn new() -> Self {
        set_secs(0.0);
        Segment { sim: Simulator::from_meters(2400, &[], false) }
    }

    pub fn view(&self) -> View {
        self.sim.view()
    }

    /// 02: "Where a list has several failing meters, opening names the first in list order with its first number. This
    /// replaces the freedom of the index; the numbers and the layout checks before them are as they were."
    ///
    /// Gives the number and the index. 01: "Elsewhere the index is 0."
    pub fn open(&mut self, list: &[u8], baud: u32, practice: bool, origin: f64) -> (u32, u32) {
        let rs = match records(list) {
            Ok(rs) => rs,
            Err(n) => return (n, 0),
        };
        if rs.len() > METERS {
            return (3, 0);
        }
        // The first in list order is the failing record of the least index.
        if let Some(first) = (0..rs.len()).filter(|k| failure(&rs[*k]) != 0).min() {
            return (failure(&rs[first]), first as u32);
        }
        if !BAUD_RATES.contains(&baud) {
            return (10, 0);
        }
        let meters: Vec<SimMeter> = rs.into_iter().map(|r| r.meter).collect();
        set_secs(origin);
        self.sim = Simulator::from_meters(baud, &meters, practice);
        (0, 0)
    }

    pub fn send(&mut self, piece: &[u8], clock: Clock) -> u32 {
        if piece.len() > PIECE {
            return 13;
        }
        if !clock.good() {
            return 14;
        }
        clock.set();
        let mut next = self.sim.copy();
        next.send(piece).unwrap();
        if next.view().queue.len() > QUEUE {
            return 15;
        }
        self.sim = next;
        0
    }

    pub fn receive(&mut self, lent: &mut [u8]) -> usize {
        self.sim.recv(lent, Duration::ZERO).unwrap()
    }

    pub fn clear(&mut self) {
        self.sim.clear().unwrap();
    }

    pub fn set_baud(&mut self, baud: u32) -> u32 {
        if !BAUD_RATES.contains(&baud) {
            return 10;
        }
        self.sim.set_baud(baud).unwrap();
        0
    }
}

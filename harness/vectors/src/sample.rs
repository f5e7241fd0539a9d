//! A sample in the making: the script of calls, and what the Rust gives for it.
use oracle::mbus::frame::Frame;
use oracle::sim::builtins;
use reference::{list_bytes, Clock, Entry, Segment, EXPORT};
use std::fmt::Write;

/// Calls go to the script and to the Rust alike; what the Rust gives goes to `out`.
pub struct Sample {
    pub script: Vec<u8>,
    pub out: String,
    pub segment: Segment,
    pub clock: Clock,
}

fn hex(bytes: &[u8]) -> String {
    bytes.iter().map(|b| format!("{b:02x}")).collect()
}

fn bits(x: f64) -> u64 {
    if x.is_nan() { 0x7ff8_0000_0000_0000 } else { x.to_bits() }
}

impl Sample {
    pub fn word(&mut self, n: usize) {
        self.script.extend_from_slice(&(n as u16).to_be_bytes());
    }

    pub fn open(&mut self, list: &[u8], baud: u32, practice: bool, origin: f64) {
        self.script.push(1);
        self.script.extend_from_slice(&baud.to_be_bytes());
        self.script.push(practice as u8);
        self.script.extend_from_slice(&bits(origin).to_be_bytes());
        self.word(list.len());
        self.script.extend_from_slice(list);
        let (number, index) = self.segment.open(list, baud, practice, origin);
        writeln!(self.out, "open {number} {index}").unwrap();
    }

    /// A built-in list: the program opens its own constant, the Rust the list that it builds.
    pub fn open_builtin(&mut self, n: usize, baud: u32, practice: bool, origin: f64) {
        self.script.extend_from_slice(&[10, n as u8]);
        self.script.extend_from_slice(&baud.to_be_bytes());
        self.script.push(practice as u8);
        self.script.extend_from_slice(&bits(origin).to_be_bytes());
        let (number, index) = self.segment.open(&list_bytes(&builtins()[n].meters), baud, practice, origin);
        writeln!(self.out, "open {number} {index}").unwrap();
    }

    pub fn clock(&mut self, clock: Clock) {
        self.script.push(2);
        self.script.extend_from_slice(&bits(clock.now).to_be_bytes());
        for n in [clock.year, clock.month, clock.day, clock.hour, clock.minute] {
            self.word(n as usize);
        }
        self.clock = clock;
    }

    pub fn send(&mut self, piece: &[u8]) {
        self.script.push(3);
        self.word(piece.len());
        self.script.extend_from_slice(piece);
        let number = self.segment.send(piece, self.clock);
        writeln!(self.out, "send {number}").unwrap();
    }

    pub fn receive(&mut self, lent: u8) {
        self.script.extend_from_slice(&[4, lent]);
        let mut buf = vec![0; lent as usize];
        let n = self.segment.receive(&mut buf);
        writeln!(self.out, "receive {n} {}", hex(&buf[..n])).unwrap();
    }

    pub fn clear(&mut self) {
        self.script.push(5);
        self.segment.clear();
        writeln!(self.out, "clear").unwrap();
    }

    pub fn set_baud(&mut self, baud: u32) {
        self.script.push(6);
        self.script.extend_from_slice(&baud.to_be_bytes());
        let number = self.segment.set_baud(baud);
        writeln!(self.out, "baud {number}").unwrap();
    }

    /// The whole segment.
    pub fn state(&mut self) {
        self.script.push(7);
        let v = self.segment.view();
        writeln!(
            self.out,
            "state {} {:016x} {} {} {}",
            v.baud,
            bits(v.origin),
            hex(&v.input),
            hex(&v.queue),
            v.meters.len()
        )
        .unwrap();
        for m in v.meters {
            writeln!(
                self.out,
                "{} {:08x} {} {} {} {} {} {} {} {} {} {} {} {} {}",
                m.primary,
                m.id,
                m.manufacturer,
                m.version,
                m.medium,
                m.model,
                m.fault,
                m.access,
                m.baud,
                m.selected as u8,
                m.part,
                m.last_fcb.map_or(0, |set| 1 + set as u8),
                m.readouts.min(3),
                m.seed,
                // Only a flaky meter's next telegram is of interest, and the others never change this.
                m.hears_next as u8,
            )
            .unwrap();
        }
    }

    /// A telegram, and what comes back, taken whole.
    pub fn ask(&mut self, f: Frame) {
        self.send(&f.encode());
        self.drain();
    }

    pub fn drain(&mut self) {
        for _ in 0..(self.segment.view().queue.len()).div_ceil(32).max(1) {
            self.receive(32);
        }
    }

    /// Waiting input and the queue, and how many meters are at bus baud.
    pub fn state_short(&mut self) {
        self.script.push(8);
        let v = self.segment.view();
        let at_bus = v.meters.iter().filter(|m| m.baud == v.baud).count();
        writeln!(self.out, "short {} {} {} {}", v.baud, hex(&v.input), v.queue.len(), at_bus).unwrap();
    }

    /// The segment as a list, into so many lent bytes.
    pub fn export(&mut self, lent: usize) {
        self.script.push(11);
        self.word(lent);
        let mut buf = vec![0; lent];
        let (number, count) = self.segment.export(&mut buf);
        writeln!(self.out, "export {number} {count} {}", hex(&buf[..count])).unwrap();
    }

    /// Exports into as many bytes as the list has, and into one less.
    pub fn exports(&mut self) {
        let (_, count) = self.segment.export(&mut [0; EXPORT]);
        self.export(count);
        self.export(count.saturating_sub(1));
    }

    pub fn search(&mut self, allowance: u32, lent: usize) {
        self.script.push(9);
        self.script.extend_from_slice(&allowance.to_be_bytes());
        self.script.push(lent as u8);
        let f = self.segment.search(self.clock, allowance, lent);
        writeln!(self.out, "search {} {} {} {}", f.number, f.entries.len(), f.probes, f.spent as u8).unwrap();
        for e in f.entries {
            let (kind, digits, count) = match e {
                Entry::One(d) => (1, d, 1),
                Entry::Mute(d) => (2, d, 1),
                Entry::Many(d, n) => (3, d, n),
            };
            let text: String = digits.iter().map(|d| format!("{d:x}")).collect();
            writeln!(self.out, "{kind} {text} {count}").unwrap();
        }
    }
}

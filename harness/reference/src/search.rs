//! 01's search, over the Rust's own send and receive.
use crate::{Clock, Segment};
use oracle::mbus::frame::{self, Frame, Parse};

#[derive(Clone, Debug, PartialEq)]
pub enum Entry {
    One([u8; 8]),
    Mute([u8; 8]),
    Many([u8; 8], u32),
}

#[derive(Clone, Debug, PartialEq)]
pub struct Found {
    pub number: u32,
    pub entries: Vec<Entry>,
    pub probes: u32,
    pub spent: bool,
}

impl Segment {
    /// 01's walk: `lent` is the number of entries lent.
    pub fn search(&mut self, clock: Clock, allowance: u32, lent: usize) -> Found {
        let mut found = Found { number: 0, entries: Vec::new(), probes: 0, spent: false };
        let v = self.view();
        if !clock.good() {
            found.number = 14;
        } else if !v.input.is_empty() || !v.queue.is_empty() {
            found.number = 16;
        } else if lent < v.meters.len() {
            found.number = 17;
        } else {
            self.probe(clock, allowance, &mut Vec::new(), &mut found);
        }
        found
    }

    fn ask(&mut self, frame: Frame, clock: Clock) -> Vec<u8> {
        assert_eq!(self.send(&frame.encode(), clock), 0);
        let mut out = Vec::new();
        let mut buf = [0; 32];
        loop {
            let n = self.receive(&mut buf);
            if n == 0 {
                return out;
            }
            out.extend_from_slice(&buf[..n]);
        }
    }

    fn probe(&mut self, clock: Clock, allowance: u32, prefix: &mut Vec<u8>, found: &mut Found) {
        if found.spent {
            return;
        }
        if found.probes == allowance {
            found.spent = true;
            return;
        }
        found.probes += 1;
        let mut mask = [0xF; 8];
        mask[..prefix.len()].copy_from_slice(prefix);
        let pair = |k: usize| mask[k] * 16 + mask[k + 1];
        let data = vec![pair(6), pair(4), pair(2), pair(0), 0xFF, 0xFF, 0xFF, 0xFF];
        let acks = self.ask(Frame::snd_ud(frame::ADDR_SELECTED, frame::CI_SELECT, data), clock);
        let count = acks.iter().filter(|b| **b == frame::ACK).count() as u32;
        if count == 1 {
            let reply = self.ask(Frame::req_ud2(frame::ADDR_SELECTED, false), clock);
            found.entries.push(match good(&reply, &mask) {
                Some(id) => Entry::One(id),
                None => Entry::Mute(mask),
            });
        } else if count > 1 && prefix.len() == 8 {
            found.entries.push(Entry::Many(mask, count));
        } else if count > 1 {
            for d in 0..10 {
                prefix.push(d);
                self.probe(clock, allowance, prefix, found);
                prefix.pop();
            }
        }
    }
}

/// The id of a good reply: one whole RSP_UD, CI 72 or 73, whose first four data bytes match the mask.
fn good(reply: &[u8], mask: &[u8; 8]) -> Option<[u8; 8]> {
    let Parse::Complete(f, used) = frame::parse(reply) else {
        return None;
    };
    if used != reply.len() || !f.is_rsp_ud() {
        return None;
    }
    let Frame::Long { ci, data, .. } = f else {
        return None;
    };
    if (ci != 0x72 && ci != 0x73) || data.len() < 4 {
        return None;
    }
    let mut id = [0; 8];
    for k in 0..4 {
        id[2 * k] = data[3 - k] >> 4;
        id[2 * k + 1] = data[3 - k] & 0xF;
    }
    (0..8).all(|k| mask[k] == 0xF || mask[k] == id[k]).then_some(id)
}

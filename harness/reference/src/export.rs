//! The segment as a list, in the words of document 02; the Rust has no such export.
use crate::{list_bytes, Segment, METERS};
use oracle::sim::{MeterView, SimMeter, Simulator, View, FAULTS, MEDIA};
use std::sync::OnceLock;

/// As many bytes as an export can have: three, and for each meter a record with its longest texts.
pub const EXPORT: usize = 3 + 46 * METERS;

/// What the Rust makes of each key of MEDIA (code and model) and of FAULTS.
struct Keys {
    media: [(u8, u8); MEDIA.len()],
    faults: [u8; FAULTS.len()],
}

fn keys() -> &'static Keys {
    static KEYS: OnceLock<Keys> = OnceLock::new();
    let opened = |medium: &str, fault: &str| {
        let meter = SimMeter { fault: fault.into(), ..SimMeter::new(0, "00000000", "AAA", medium) };
        Simulator::from_meters(2400, &[meter], false).view().meters.remove(0)
    };
    KEYS.get_or_init(|| Keys {
        media: MEDIA.map(|(key, _)| opened(key, "none")).map(|m| (m.medium, m.model)),
        faults: FAULTS.map(|key| opened("heat", key).fault),
    })
}

/// The record of a meter in a list that is to be opened at this bus baud. Every meter has one: digits above 9 are the
/// characters behind the 9, a group of five bits is the character so far behind 40, and a code and model that no medium
/// has are an empty text.
fn listed(bus: u32, m: &MeterView) -> SimMeter {
    let keys = keys();
    let id = (0..8).rev().map(|k| char::from(0x30 + (m.id >> (4 * k) & 0xF) as u8)).collect();
    let capitals = [10, 5, 0].map(|k| char::from(0x40 + (m.manufacturer >> k & 0x1F) as u8));
    let medium = keys.media.iter().position(|made| *made == (m.medium, m.model)).map_or("", |k| MEDIA[k].0);
    let fault = keys.faults.iter().position(|made| *made == m.fault).expect("a fault");
    // 01: "An empty manufacturer passes only for heat_old."
    let none = m.manufacturer == 0 && medium == "heat_old";
    SimMeter {
        primary: m.primary,
        id,
        manufacturer: if none { String::new() } else { capitals.iter().collect() },
        version: m.version,
        medium: medium.into(),
        baud: (m.baud != bus).then_some(m.baud),
        fault: FAULTS[fault].into(),
    }
}

/// "Write one in 01's layout from the present meters, in segment order, own baud 0 where it equals the bus baud, id in
/// eight digits, manufacturer in capitals. [..] (18, a primary above 250, then 12, a short buffer [..])"
///
/// Gives the number and how many bytes were written.
pub fn export(v: &View, lent: &mut [u8]) -> (u32, usize) {
    if v.meters.iter().any(|m| m.primary > 250) {
        return (18, 0);
    }
    let list = list_bytes(&v.meters.iter().map(|m| listed(v.baud, m)).collect::<Vec<SimMeter>>());
    let Some(front) = lent.get_mut(..list.len()) else {
        return (12, 0);
    };
    front.copy_from_slice(&list);
    (0, list.len())
}

impl Segment {
    /// The list of the meters as calls left them.
    pub fn export(&self, lent: &mut [u8]) -> (u32, usize) {
        export(&self.view(), lent)
    }
}

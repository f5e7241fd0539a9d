//! A segment as a list: what it says of the meters, that it opens to the same meters, and its refusals.
mod common;

use common::{example, examples, exported, opened, take, two_water, water, Random, CLOCK, NKE_ALL, RATES};
use jezynar::frame::{Frame, Mask, ALL, BROADCAST, SELECTED};
use jezynar::list::{self, Fault, Medium, MeterSpec};
use jezynar::{Clock, ExportRefusal, Segment, EXPORT, IMAGE, METERS};
use std::error::Error;

/// SND_UD with CI 51: the meters with this address get another.
fn readdress(address: u8, to: u8) -> Vec<u8> {
    Frame::Long { control: 0x53, address, ci: 0x51, data: &[0x01, 0x7A, to] }.to_vec().unwrap()
}

/// SND_UD with CI B8 to BF: the meters with this address get another rate.
fn rerate(address: u8, baud: u32) -> Vec<u8> {
    let place = RATES.iter().position(|rate| *rate == baud).expect("a rate");
    Frame::Long { control: 0x53, address, ci: 0xB8 + place as u8, data: &[] }.to_vec().unwrap()
}

fn select(mask: Mask) -> Vec<u8> {
    Frame::select(&mask).to_vec().unwrap()
}

/// Sends a telegram, and takes the replies.
fn send(segment: &mut Segment, telegram: &[u8]) -> Vec<u8> {
    segment.send(telegram, &CLOCK).unwrap();
    take(segment)
}

fn open(list: &[u8], baud: u32) -> Segment {
    Segment::open_list(list, baud, false, 0.0).expect("a list that opens")
}

fn write(meters: &[MeterSpec]) -> Vec<u8> {
    list::write(meters).unwrap()
}

/// Meters as an export writes them at a bus baud: without an own baud that equals it.
fn at_bus<'a>(meters: &[MeterSpec<'a>], bus: u32) -> Vec<MeterSpec<'a>> {
    let own = |meter: &MeterSpec| meter.baud.filter(|baud| *baud != bus);
    meters.iter().map(|meter| MeterSpec { baud: own(meter), ..*meter }).collect()
}

/// The own baud of each record of a list.
fn own_bauds(list: &[u8]) -> Vec<u32> {
    let (mut bauds, mut at) = (Vec::new(), 3);
    while at < list.len() {
        bauds.push(u32::from_be_bytes(list[at + 3..at + 7].try_into().unwrap()));
        at += 1 + usize::from(list[at]);
    }
    bauds
}

/// Every medium with every fault; the other parts differ from meter to meter, with their limits among them.
fn every_kind() -> Vec<MeterSpec<'static>> {
    let pairs = Medium::ALL.into_iter().flat_map(|medium| Fault::ALL.map(|fault| (medium, fault)));
    let ids = ["00000000", "99999999", "12345678", "90817263", "00000001"];
    let manufacturers = ["AAA", "ZZZ", "KAM", "SEN"];
    let versions = [0, 1, 127, 255];
    let meter = |(k, (medium, fault)): (usize, (Medium, Fault))| MeterSpec {
        primary: [0, 250, 1, 249, k as u8][k % 5],
        version: versions[k % 4],
        baud: RATES.get(k % 9).copied(),
        id: ids[k % 5],
        manufacturer: if medium == Medium::HeatOld && k % 2 == 0 { "" } else { manufacturers[k % 4] },
        medium,
        fault,
    };
    pairs.enumerate().map(meter).collect()
}

#[test]
fn every_medium_and_fault_comes_back() {
    let meters = every_kind();
    assert_eq!(meters.len(), 56);
    for bus in RATES {
        let segment = open(&write(&meters), bus);
        let list = exported(&segment).unwrap();
        assert_eq!(list, write(&at_bus(&meters, bus)), "{bus}");
        // Nothing happened since the opening, so that the whole segment comes back.
        assert!(open(&list, bus) == segment);
        assert_eq!(exported(&open(&list, bus)), Ok(list));
    }
    for meter in meters {
        let segment = opened(&write(&[meter]));
        assert_eq!(exported(&segment), Ok(write(&at_bus(&[meter], 2400))));
        assert!(opened(&segment.export().unwrap()) == segment);
    }
}

/// With every letter at every place.
#[test]
fn every_manufacturer_comes_back() {
    for first in 'A'..='Z' {
        let makers: Vec<String> =
            ('A'..='Z').flat_map(|k| [[first, k, 'M'], ['K', first, k]]).map(String::from_iter).collect();
        let meter = |maker| MeterSpec { manufacturer: maker, ..water(1, "12345678") };
        let list = write(&makers.iter().map(|maker| meter(maker)).collect::<Vec<_>>());
        assert_eq!(exported(&opened(&list)), Ok(list));
    }
}

#[test]
fn the_lists_of_the_examples_come_back() {
    let mut seen = 0;
    for file in std::fs::read_dir(examples()).unwrap() {
        let path = file.unwrap().path();
        if path.extension().is_none_or(|end| end != "list") {
            continue;
        }
        let list = std::fs::read(&path).unwrap();
        for bus in RATES {
            let Ok(segment) = Segment::open_list(&list, bus, false, 0.0) else {
                continue;
            };
            let back = exported(&segment).unwrap();
            assert!(open(&back, bus) == segment, "{}", path.display());
            // An own baud that equals the bus baud is the one thing that is written another way.
            assert_eq!(back == list, !own_bauds(&list).contains(&bus), "{} {bus}", path.display());
            seen += 1;
        }
    }
    assert!(seen >= 40, "{seen} lists opened");
}

#[test]
fn no_meters() {
    for bus in RATES {
        assert_eq!(exported(&open(&[1, 0, 0], bus)), Ok(vec![1, 0, 0]));
    }
    assert_eq!(exported(&Segment::new()), Ok(vec![1, 0, 0]));
}

#[test]
fn changed_addresses_and_bauds_are_in_the_list() {
    let (one, two) = (water(1, "12345678"), water(2, "12345699"));
    let mut segment = opened(&two_water());
    assert_eq!(send(&mut segment, &readdress(1, 7)), [0xE5]);
    assert_eq!(exported(&segment), Ok(write(&[MeterSpec { primary: 7, ..one }, two])));
    assert_eq!(send(&mut segment, &rerate(2, 9600)), [0xE5]);
    let list = write(&[MeterSpec { primary: 7, ..one }, MeterSpec { baud: Some(9600), ..two }]);
    assert_eq!(exported(&segment), Ok(list.clone()));

    let mut again = opened(&list);
    assert_eq!(send(&mut again, &NKE_ALL), [0xE5]);
    assert_eq!(send(&mut again, &Frame::snd_nke(1).to_vec().unwrap()), []);
    assert_eq!(send(&mut again, &Frame::snd_nke(7).to_vec().unwrap()), [0xE5]);
    for (bus, id) in [(2400, "12345678"), (9600, "12345699")] {
        again.set_baud(bus).unwrap();
        let found = again.search(&CLOCK, 100).unwrap();
        assert_eq!(found.entries.iter().map(|entry| entry.to_string()).collect::<Vec<_>>(), [id]);
    }
}

/// The own baud is 0 exactly where it equals the bus baud; after a baud change of the bus, for other meters.
#[test]
fn own_bauds_are_against_the_bus_baud() {
    let ids: Vec<String> = (0..9).map(|k| format!("1000000{k}")).collect();
    let own = |k: usize| RATES.get(k).copied();
    let meters: Vec<MeterSpec> =
        ids.iter().enumerate().map(|(k, id)| MeterSpec { baud: own(k), ..water(k as u8, id) }).collect();
    for opened_at in RATES {
        let mut segment = open(&write(&meters), opened_at);
        for bus in RATES {
            segment.set_baud(bus).unwrap();
            let bauds = own_bauds(&exported(&segment).unwrap());
            // The last meter took the bus baud of the opening, and keeps it.
            let want = (0..9).map(|k| own(k).unwrap_or(opened_at)).map(|baud| if baud == bus { 0 } else { baud });
            assert_eq!(bauds, want.collect::<Vec<_>>(), "opened at {opened_at}, then {bus}");
            assert_eq!(bauds.iter().filter(|baud| **baud == 0).count(), if bus == opened_at { 2 } else { 1 });
        }
    }

    let mut segment = opened(&write(&[water(1, "12345678"), MeterSpec { baud: Some(300), ..water(2, "12345699") }]));
    assert_eq!(own_bauds(&exported(&segment).unwrap()), [0, 300]);
    segment.set_baud(300).unwrap();
    assert_eq!(own_bauds(&exported(&segment).unwrap()), [2400, 0]);
    segment.set_baud(9600).unwrap();
    assert_eq!(own_bauds(&exported(&segment).unwrap()), [2400, 300]);
    // A meter's own change counts in the same way.
    segment.set_baud(300).unwrap();
    assert_eq!(send(&mut segment, &rerate(2, 2400)), [0xE5]);
    assert_eq!(own_bauds(&exported(&segment).unwrap()), [2400, 2400]);
    segment.set_baud(2400).unwrap();
    assert_eq!(own_bauds(&exported(&segment).unwrap()), [0, 0]);
}

/// What a list says of each meter, kept beside the segment through telegrams and baud changes.
struct Kept<'a> {
    bus: u32,
    /// The meter with its present primary and baud, and whether it is selected.
    meters: Vec<(MeterSpec<'a>, bool)>,
}

impl<'a> Kept<'a> {
    /// The meters that a telegram to this address reaches.
    fn targets(&mut self, address: u8) -> Vec<&mut MeterSpec<'a>> {
        let bus = Some(self.bus);
        let reaches = |meter: &MeterSpec, selected| match address {
            ALL | BROADCAST => true,
            SELECTED => selected,
            primary => meter.primary == primary,
        };
        let here = self.meters.iter_mut().filter(|(meter, _)| meter.baud == bus);
        here.filter(|(meter, selected)| reaches(meter, *selected)).map(|(meter, _)| meter).collect()
    }

    fn list(&self) -> Result<Vec<u8>, ExportRefusal> {
        let meters: Vec<MeterSpec> = self.meters.iter().map(|(meter, _)| *meter).collect();
        if meters.iter().any(|meter| meter.primary > 250) {
            return Err(ExportRefusal::HighPrimary);
        }
        Ok(write(&at_bus(&meters, self.bus)))
    }
}

/// As many E5 as a telegram to this address brings.
fn acknowledged(address: u8, targets: usize) -> Vec<u8> {
    vec![0xE5; if address == BROADCAST { 0 } else { targets }]
}

/// Telegrams and baud changes by chance. After each, the list is the one that is kept, and opens to the same meters.
#[test]
fn after_any_changes() {
    let mut random = Random(21);
    // No flaky meter: it does not hear every select.
    let faults = [Fault::None, Fault::Checksum, Fault::Truncated, Fault::Busy, Fault::WrongAddress];
    let (mut lists, mut refused) = (0, 0);
    for _ in 0..60 {
        let ids: Vec<String> = (0..1 + random.below(8)).map(|_| format!("{:08}", random.below(100_000_000))).collect();
        let bus = RATES[random.below(8)];
        let mut kept = Kept { bus, meters: Vec::new() };
        for (k, id) in ids.iter().enumerate() {
            let meter = MeterSpec::new(k as u8, id, "KAM", Medium::ALL[random.below(8)]);
            let baud = if random.below(3) == 0 { RATES[random.below(8)] } else { bus };
            let meter = MeterSpec { baud: Some(baud), fault: faults[random.below(5)], ..meter };
            kept.meters.push((meter, false));
        }
        let mut segment = open(&write(&kept.meters.iter().map(|(meter, _)| *meter).collect::<Vec<_>>()), bus);
        for _ in 0..60 {
            let primary = kept.meters[random.below(ids.len())].0.primary;
            let address = [primary, primary, primary, SELECTED, ALL, BROADCAST][random.below(6)];
            match random.below(8) {
                0..=2 => {
                    // Addresses that a list can have, and now and then one that it cannot.
                    let to = if random.below(12) == 0 { 251 + random.below(5) } else { random.below(251) } as u8;
                    let targets = kept.targets(address);
                    assert_eq!(send(&mut segment, &readdress(address, to)), acknowledged(address, targets.len()));
                    targets.into_iter().for_each(|meter| meter.primary = to);
                }
                3 | 4 => {
                    let baud = RATES[random.below(8)];
                    let targets = kept.targets(address);
                    assert_eq!(send(&mut segment, &rerate(address, baud)), acknowledged(address, targets.len()));
                    targets.into_iter().for_each(|meter| meter.baud = Some(baud));
                }
                5 => {
                    let id = &ids[random.below(ids.len())];
                    let e5 = send(&mut segment, &select(Mask::new(id).unwrap()));
                    let here = kept.meters.iter_mut().filter(|(meter, _)| meter.baud == Some(kept.bus));
                    here.for_each(|(meter, selected)| *selected = meter.id == id);
                    assert_eq!(e5, acknowledged(SELECTED, kept.targets(SELECTED).len()));
                }
                _ => {
                    // The rate of a meter, so that it listens.
                    kept.bus = kept.meters[random.below(ids.len())].0.baud.unwrap();
                    segment.set_baud(kept.bus).unwrap();
                }
            }
            assert_eq!(exported(&segment), kept.list());
            let Ok(list) = segment.export() else {
                refused += 1;
                continue;
            };
            lists += 1;
            let again = open(&list, kept.bus);
            assert_eq!(exported(&again), Ok(list));
            for bus in RATES {
                let search = |segment: &Segment| {
                    let mut copy = segment.clone();
                    copy.set_baud(bus).unwrap();
                    copy.search(&CLOCK, 10_000).unwrap()
                };
                assert_eq!(search(&again), search(&segment));
            }
        }
    }
    assert!(lists > 1000 && refused > 100, "{lists} lists, {refused} refused");
}

/// What no telegram changes, one part after the other; and two ways to say the same.
#[test]
fn lists_are_equal_exactly_where_the_meters_agree() {
    let meter = MeterSpec::new(1, "12345678", "KAM", Medium::Heat);
    let old = MeterSpec { medium: Medium::HeatOld, ..meter };
    let mut others = vec![
        meter,
        old,
        MeterSpec { manufacturer: "", ..old },
        MeterSpec { primary: 2, ..meter },
        MeterSpec { version: 2, ..meter },
        MeterSpec { id: "12345679", ..meter },
        MeterSpec { id: "87654321", ..meter },
        MeterSpec { manufacturer: "KAL", ..meter },
        MeterSpec { manufacturer: "JAM", ..meter },
    ];
    others.extend(RATES.into_iter().filter(|baud| *baud != 2400).map(|baud| MeterSpec { baud: Some(baud), ..meter }));
    others.extend(Fault::ALL[1..].iter().map(|fault| MeterSpec { fault: *fault, ..meter }));
    others.extend(Medium::ALL[1..7].iter().map(|medium| MeterSpec { medium: *medium, ..meter }));
    let lists: Vec<Vec<u8>> = others.iter().map(|meter| exported(&opened(&write(&[*meter]))).unwrap()).collect();
    for (k, list) in lists.iter().enumerate() {
        assert!(!lists[..k].contains(list), "{:?}", others[k]);
    }
    let pair = |first, second| exported(&opened(&write(&[first, second]))).unwrap();
    assert_ne!(pair(meter, old), pair(old, meter));
    assert_ne!(pair(meter, meter), lists[0]);

    for same in [None, Some(0), Some(2400)] {
        assert_eq!(exported(&opened(&write(&[MeterSpec { baud: same, ..meter }]))).as_ref(), Ok(&lists[0]));
    }
    // The same meters, by other ways.
    let mut moved = opened(&write(&[MeterSpec { primary: 9, baud: Some(300), ..meter }]));
    moved.set_baud(300).unwrap();
    send(&mut moved, &readdress(9, 1));
    send(&mut moved, &rerate(1, 2400));
    moved.set_baud(2400).unwrap();
    assert_eq!(exported(&moved).as_ref(), Ok(&lists[0]));
}

/// Queue, waiting input, origin, access number, selection, part, last FCB, readouts and what a flaky meter hears next.
#[test]
fn what_the_list_does_not_hold() {
    let meters = every_kind();
    let list = write(&at_bus(&meters, 2400));
    let mut segment = opened(&list);
    for (k, telegram) in [
        NKE_ALL.to_vec(),
        select(Mask::ANY),
        Frame::req_ud2(SELECTED, false).to_vec().unwrap(),
        Frame::req_ud2(SELECTED, true).to_vec().unwrap(),
        Frame::req_ud2(ALL, true).to_vec().unwrap(),
        NKE_ALL[..3].to_vec(),
    ]
    .into_iter()
    .enumerate()
    {
        let before = segment.clone();
        segment.send(&telegram, &CLOCK).unwrap();
        assert!(segment != before, "telegram {k}");
        assert_eq!(exported(&segment).as_ref(), Ok(&list), "telegram {k}");
    }
    for origin in [-1.0, 1.0e9, f64::INFINITY, f64::NAN] {
        assert_eq!(exported(&Segment::open_list(&list, 2400, false, origin).unwrap()).as_ref(), Ok(&list));
    }
    // Opened again, all this begins anew.
    assert!(opened(&exported(&segment).unwrap()) == opened(&list));
    segment.clear();
    segment.set_baud(2400).unwrap();
    segment.search(&CLOCK, 10_000).unwrap();
    assert_eq!(exported(&segment), Ok(list));
}

/// The data of a reading behind the access number, a minute after the opening.
fn values(segment: &Segment, address: u8) -> Vec<u8> {
    let mut copy = segment.clone();
    let clock = Clock { secs: 60.0, ..CLOCK };
    copy.send(&Frame::snd_nke(address).to_vec().unwrap(), &clock).unwrap();
    copy.clear();
    copy.send(&Frame::req_ud2(address, false).to_vec().unwrap(), &clock).unwrap();
    // The data begin at byte 7; the access number is byte 8 of CI 72, byte 4 of CI 73. The sum is left out.
    let mut reply = take(&mut copy);
    assert!(reply.len() > 20, "{reply:02X?}");
    reply.truncate(reply.len() - 2);
    let access = if reply[6] == 0x73 { 11 } else { 15 };
    reply.remove(access);
    reply
}

#[test]
fn values_after_an_export() {
    for medium in Medium::ALL {
        let list = write(&[MeterSpec { baud: Some(300), ..MeterSpec::new(1, "12345678", "KAM", medium) }]);
        let mut plain = open(&list, 300);
        let read = Frame::req_ud2(1, false).to_vec().unwrap();
        send(&mut plain, &read);
        send(&mut plain, &read);
        let again = open(&exported(&plain).unwrap(), 300);
        assert!(again != plain);
        assert_eq!(values(&again, 1), values(&plain, 1));

        // With the practice flag an own baud that is the bus baud became 2400, and the values began elsewhere.
        let mut practice = Segment::open_list(&list, 300, true, 0.0).unwrap();
        let exercise = exported(&practice).unwrap();
        assert_eq!(own_bauds(&exercise), [2400]);
        let mut again = open(&exercise, 300);
        practice.set_baud(2400).unwrap();
        again.set_baud(2400).unwrap();
        assert_eq!(exported(&again), exported(&practice));
        assert_ne!(values(&again, 1), values(&practice, 1), "{medium}");
    }
}

/// The list says "bus baud" and not which: at another one these meters take that one.
#[test]
fn opened_at_another_bus_baud() {
    let list =
        exported(&opened(&write(&[water(1, "12345678"), MeterSpec { baud: Some(300), ..water(2, "12345699") }])));
    let mut other = open(&list.unwrap(), 9600);
    other.set_baud(2400).unwrap();
    assert_eq!(own_bauds(&exported(&other).unwrap()), [9600, 300]);
}

fn refusal_is(segment: &Segment, lent: usize, want: ExportRefusal, number: u32) {
    let before = *segment.as_image();
    let mut bytes = vec![0xAA; lent];
    let refusal = segment.export_into(&mut bytes).unwrap_err();
    assert_eq!((refusal, refusal.number()), (want, number));
    assert!(bytes.iter().all(|byte| *byte == 0xAA), "a refused export wrote");
    assert!(*segment.as_image() == before);
    let text = refusal.to_string();
    assert!(text.starts_with(&format!("refused, number {number}: ")), "{text}");
    assert!(refusal.source().is_none());
}

/// 18 from 251 on, and before 12.
#[test]
fn a_primary_above_250() {
    let water = water(1, "12345678");
    for to in 0..=255 {
        let mut segment = opened(&write(&[water]));
        assert_eq!(send(&mut segment, &readdress(1, to)), [0xE5]);
        let list = write(&[MeterSpec { primary: to, ..water }]);
        if to <= 250 {
            assert_eq!(exported(&segment), Ok(list));
            refusal_is(&segment, 0, ExportRefusal::TooFewBytes, 12);
            continue;
        }
        for lent in [0, list.len() - 1, list.len(), EXPORT, EXPORT + 1] {
            refusal_is(&segment, lent, ExportRefusal::HighPrimary, 18);
        }
        assert_eq!(segment.export(), Err(ExportRefusal::HighPrimary));
        // Selected by its id, it gets an address that a list can have.
        send(&mut segment, &select(Mask::new("12345678").unwrap()));
        assert_eq!(send(&mut segment, &readdress(SELECTED, 250)), [0xE5]);
        assert_eq!(exported(&segment), Ok(write(&[MeterSpec { primary: 250, ..water }])));
    }
}

/// Whichever meter it is, also one that does not listen.
#[test]
fn any_meter_above_250() {
    let meters: Vec<MeterSpec> = (0..METERS as u8).map(|k| water(k, "12345678")).collect();
    for place in 0..METERS as u8 {
        let mut segment = opened(&write(&meters));
        send(&mut segment, &readdress(place, 251));
        refusal_is(&segment, EXPORT, ExportRefusal::HighPrimary, 18);
        send(&mut segment, &rerate(251, 300));
        refusal_is(&segment, 0, ExportRefusal::HighPrimary, 18);
    }
}

/// 12 up to one byte fewer than the list has.
#[test]
fn a_short_buffer() {
    for list in [vec![1, 0, 0], two_water(), example("praxis.list")] {
        let segment = opened(&list);
        for lent in 0..list.len() {
            refusal_is(&segment, lent, ExportRefusal::TooFewBytes, 12);
        }
        for more in [0, 1, 50] {
            let mut bytes = vec![0xAA; list.len() + more];
            assert_eq!(segment.export_into(&mut bytes), Ok(list.len()));
            assert_eq!(bytes, [&list[..], &vec![0xAA; more]].concat());
        }
    }
}

/// 64 meters with the longest texts: so many bytes as are always enough, and no fewer.
#[test]
fn the_longest_list() {
    let meter = MeterSpec::new(1, "12345678", "KAM", Medium::Electricity);
    let list = write(&[MeterSpec { fault: Fault::WrongAddress, ..meter }; METERS]);
    assert_eq!((list.len(), EXPORT), (2947, 2947));
    let segment = opened(&list);
    assert_eq!(exported(&segment), Ok(list));
    refusal_is(&segment, EXPORT - 1, ExportRefusal::TooFewBytes, 12);
}

/// Any bytes are a segment: its list is laid out as one, and where it is accepted it gives itself back.
#[test]
fn segments_of_any_bytes() {
    let mut random = Random(22);
    let (mut lists, mut accepted, mut refused) = (0, 0, 0);
    let mut check = |image: &[u8; IMAGE]| {
        let segment = Segment::from_image(image);
        let Ok(list) = exported(&segment) else {
            refused += 1;
            return;
        };
        lists += 1;
        assert_eq!((list[0], usize::from(list[1]) * 256 + usize::from(list[2])), (1, list.len() - 3));
        assert!(own_bauds(&list).len() <= METERS);
        let bus = u32::from_le_bytes(image[..4].try_into().unwrap());
        if let Ok(again) = Segment::open_list(&list, bus, false, 0.0) {
            accepted += 1;
            assert_eq!(exported(&again), Ok(list));
        }
    };
    let mut image = [0; IMAGE];
    for byte in 0..=255 {
        check(&[byte; IMAGE]);
    }
    for _ in 0..1000 {
        random.fill(&mut image);
        check(&image);
    }
    for name in ["praxis.list", "bauds.list", "faults.list", "worst_case.list"] {
        let segment = opened(&example(name));
        for round in 0..300 {
            let mut image = *segment.as_image();
            for _ in 0..1 + round % 30 * 4 {
                image[random.below(IMAGE)] = random.next() as u8;
            }
            check(&image);
        }
    }
    assert!(lists > 500 && accepted > 100 && refused > 500, "{lists} lists, {accepted} accepted, {refused} refused");
}

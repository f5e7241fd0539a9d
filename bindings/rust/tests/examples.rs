//! The lists of examples/, opened and searched as the listing program does, against what is stored beside each of them.
mod common;

use common::{example, examples, opened, two_water, worst_case, CLOCK};
use jezynar::{EntryKind, Found, Segment};
use std::fmt::Write;

/// The listing program reads at most so many bytes.
const READ: usize = 65_536;

fn text(found: &Found) -> String {
    let mut out = format!("{} entries, {} probes\n", found.entries.len(), found.probes);
    for entry in &found.entries {
        write!(out, "{} {entry}", entry.kind).unwrap();
        match entry.kind {
            EntryKind::Many => writeln!(out, " {}", entry.count),
            EntryKind::One | EntryKind::Mute => {
                assert_eq!(entry.count, 1);
                writeln!(out)
            }
        }
        .unwrap();
    }
    out
}

fn listing(list: &[u8]) -> String {
    let mut segment = Segment::new();
    if let Err(refusal) = segment.open(&list[..list.len().min(READ)], 2400, false, 0.0) {
        return format!("refused {}\n", refusal.number());
    }
    let found = segment.search(&CLOCK, 10_000).unwrap();
    assert!(!found.spent);
    text(&found)
}

#[test]
fn every_list_gives_what_is_stored() {
    let mut seen = 0;
    for file in std::fs::read_dir(examples()).unwrap() {
        let path = file.unwrap().path();
        if path.extension().is_some_and(|end| end == "list") {
            let want = std::fs::read_to_string(path.with_extension("out")).unwrap();
            assert_eq!(listing(&std::fs::read(&path).unwrap()), want, "{}", path.display());
            seen += 1;
        }
    }
    assert!(seen >= 4, "{seen} lists");
}

#[test]
fn the_built_in_lists_have_their_entries() {
    for (name, entries) in [("praxis", 15), ("ok10", 10), ("mfh30", 30), ("bauds", 4)] {
        let mut segment = opened(&example(&format!("{name}.list")));
        assert_eq!(segment.search(&CLOCK, 10_000).unwrap().entries.len(), entries, "{name}");
    }
}

#[test]
fn the_list_writer_gives_the_stored_bytes() {
    assert_eq!(two_water(), example("two_water.list"));
    assert_eq!(worst_case(), example("worst_case.list"));
    assert_eq!(jezynar::list::write(&[]).unwrap(), example("no_meters.list"));
}

#[test]
fn a_list_longer_than_the_listing_reads_is_refused_whole() {
    let refusal = Segment::new().open(&example("refused_3_past_the_end.list"), 2400, false, 0.0).unwrap_err();
    assert_eq!(refusal.number(), 2);
}

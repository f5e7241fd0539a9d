//! What several tests use.
#![allow(dead_code)]

use jezynar::list::{self, Medium, MeterSpec};
use jezynar::{Clock, ExportRefusal, Segment, EXPORT, METERS};
use std::path::{Path, PathBuf};

/// The listing program's clock.
pub const CLOCK: Clock = Clock { secs: 0.0, year: 2026, month: 10, day: 1, hour: 0, minute: 0 };

/// The rates of a bus, in the order of CI B8 to BF.
pub const RATES: [u32; 8] = [300, 600, 1200, 2400, 4800, 9600, 19200, 38400];

/// SND_NKE to every meter.
pub const NKE_ALL: [u8; 5] = [0x10, 0x40, 0xFE, 0x3E, 0x16];

/// The folder of the lists, from where the crate is kept or from where the gate copies it to.
pub fn examples() -> PathBuf {
    let here = Path::new(env!("CARGO_MANIFEST_DIR"));
    let places = ["../../examples", "../../../examples"];
    let found = places.iter().map(|p| here.join(p)).find(|p| p.join("praxis.list").is_file());
    found.expect("the folder examples/")
}

pub fn example(name: &str) -> Vec<u8> {
    std::fs::read(examples().join(name)).expect(name)
}

/// A program of the crate's own examples/, which `cargo test` builds with the tests, but not where it is told to build
/// some tests alone.
pub fn program(name: &str) -> PathBuf {
    let test = std::env::current_exe().expect("this test's path");
    let program = test.ancestors().nth(2).expect("the folder of the build").join("examples").join(name);
    let written = |path: &Path| path.metadata().and_then(|of| of.modified()).ok();
    let source = Path::new(env!("CARGO_MANIFEST_DIR")).join(format!("examples/{name}.rs"));
    let current = written(&program).is_some() && written(&program) >= written(&source);
    assert!(current, "{} is not built from its source: run cargo test for the whole crate", program.display());
    program
}

pub fn opened(list: &[u8]) -> Segment {
    Segment::open_list(list, 2400, false, 0.0).expect("a list that opens")
}

pub fn water(primary: u8, id: &str) -> MeterSpec<'_> {
    MeterSpec::new(primary, id, "SEN", Medium::Water)
}

pub fn two_water() -> Vec<u8> {
    list::write(&[water(1, "12345678"), water(2, "12345699")]).expect("a list")
}

/// Pairs that share seven digits, far apart: as many probes as 64 meters can take.
pub fn worst_case() -> Vec<u8> {
    let ids: Vec<String> =
        (0..METERS as u32).map(|k| format!("{:08}", (k / 2) * 3_030_307 % 10_000_000 * 10 + k % 2)).collect();
    let meters: Vec<MeterSpec> = ids.iter().enumerate().map(|(k, id)| water(k as u8, id)).collect();
    list::write(&meters).expect("a list")
}

/// Whether what a segment holds is its one image: to tidy it once more changes nothing.
pub fn is_tidy(segment: &Segment) -> bool {
    Segment::from_image(segment.as_image()).as_image() == segment.as_image()
}

/// The list of a segment. The image, and lent bytes past the list, must stay; of a refused export every lent byte.
pub fn exported(segment: &Segment) -> Result<Vec<u8>, ExportRefusal> {
    let before = *segment.as_image();
    let mut lent = vec![0xAA; EXPORT + 40];
    let answer = segment.export_into(&mut lent);
    assert!(*segment.as_image() == before, "an export changed the image");
    let used = answer.unwrap_or(0);
    assert!(used <= EXPORT && lent[used..].iter().all(|byte| *byte == 0xAA));
    lent.truncate(used);
    let list = answer.map(|_| lent);
    // So many bytes as are always enough are lent here: never 12.
    assert!(!matches!(list, Err(ExportRefusal::TooFewBytes)));
    assert_eq!(segment.export(), list);
    list
}

/// All queued bytes.
pub fn take(segment: &mut Segment) -> Vec<u8> {
    let mut out = Vec::new();
    let mut piece = [0; 32];
    loop {
        let count = segment.receive(&mut piece);
        if count == 0 {
            return out;
        }
        out.extend_from_slice(&piece[..count]);
    }
}

/// A small generator of bytes that are the same in every run.
pub struct Random(pub u64);

impl Random {
    pub fn next(&mut self) -> u64 {
        self.0 ^= self.0 << 13;
        self.0 ^= self.0 >> 7;
        self.0 ^= self.0 << 17;
        self.0.wrapping_mul(0x2545_F491_4F6C_DD1D) >> 11
    }
    pub fn below(&mut self, n: usize) -> usize {
        self.next() as usize % n
    }
    pub fn fill(&mut self, bytes: &mut [u8]) {
        bytes.fill_with(|| self.next() as u8);
    }
}

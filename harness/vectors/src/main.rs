//! Writes a sample of the Rust's answers: a script of calls (`stdin` of the program `test_replay`) and what the Rust gives
//! for it (`stdout`). usage: vectors DIR [search], with searches
mod exports;
mod meters;
mod sample;
mod segments;
mod telegrams;

use reference::Segment;
use sample::Sample;
use telegrams::NOON;

fn main() {
    let args: Vec<String> = std::env::args().collect();
    let (dir, with_search) = (&args[1], args.get(2).is_some_and(|a| a == "search"));
    let mut s = Sample { script: Vec::new(), out: String::new(), segment: Segment::new(), clock: NOON };
    s.clock(NOON);
    s.state();
    segments::openings(&mut s);
    segments::builtin_lists(&mut s);
    meters::readings(&mut s);
    meters::selections(&mut s);
    meters::commands(&mut s);
    meters::collisions(&mut s);
    segments::pieces(&mut s);
    segments::queue(&mut s);
    exports::exports(&mut s);
    if with_search {
        segments::searches(&mut s);
    }
    println!("{} bytes of script, {} bytes of answers", s.script.len(), s.out.len());
    std::fs::write(format!("{dir}/stdin"), s.script).unwrap();
    std::fs::write(format!("{dir}/stdout"), s.out).unwrap();
}

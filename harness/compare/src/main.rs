//! Lists of calls, random and directed, the same on the static library and on the Rust: every answer, every byte handed
//! out, every entry and the whole segment after each call are compared, and exported lists are opened again. A failing list
//! is shrunk and printed.
//! usage: compare [LISTS [FIRST-SEED]]; `compare 1 SEED` makes the random list of one seed, after the directed ones.
mod calls;
mod directed;
mod exports;
mod layout;
mod library;
mod random;
mod rust;
mod shrink;
#[cfg(test)]
mod tests;

use calls::{Call, Counts};

/// How many failing lists are shrunk and printed.
const SHOWN: u64 = 3;

#[derive(Default)]
struct Tally {
    counts: Counts,
    passed: u64,
    failed: u64,
}

impl Tally {
    fn list(&mut self, name: &str, list: Vec<Call>) {
        if calls::run(&list, &mut self.counts).is_ok() {
            self.passed += 1;
            return;
        }
        self.failed += 1;
        if self.failed <= SHOWN {
            let long = list.len();
            let least = shrink::shrink(list, &mut |c| calls::run(c, &mut Counts::default()).is_err());
            println!("compare: {name} fails; {long} calls shrunk to {}:\n{}", least.len(), calls::transcript(&least));
        }
    }

    /// Every number has to be met, else what gives it was not compared.
    fn met(&mut self, what: &str, numbers: &[u64]) {
        let line: Vec<String> = numbers.iter().enumerate().map(|(n, count)| format!("{n}: {count}")).collect();
        println!("compare: {what} {}", line.join(", "));
        for (n, _) in numbers.iter().enumerate().filter(|(_, count)| **count == 0) {
            println!("compare: {what} {n} was never met");
            self.failed += 1;
        }
    }
}

fn main() {
    assert_eq!(library::image_len(), library::IMAGE);
    let args: Vec<u64> = std::env::args().skip(1).map(|a| a.parse().expect("a number")).collect();
    let (lists, first) = (args.first().copied().unwrap_or(20_000), args.get(1).copied().unwrap_or(1));
    let mut tally = Tally::default();
    // A panic within a list is told with that list.
    std::panic::set_hook(Box::new(|why| if !calls::running() { eprintln!("compare: {why}") }));
    directed::all(&mut |name, list| tally.list(name, list));
    let (directed, directed_failed) = (tally.passed + tally.failed, tally.failed);
    for seed in first..first + lists {
        tally.list(&format!("seed {seed}"), random::list_of(seed));
    }
    let random_failed = tally.failed - directed_failed;
    println!("compare: {directed} directed lists, {directed_failed} failed; {lists} random lists, {random_failed} failed; {} calls", tally.counts.calls);
    let (numbers, parsed) = (tally.counts.numbers, tally.counts.parsed);
    tally.met("answers by number", &numbers);
    tally.met("telegrams read, by answer", &parsed);
    println!("{} passed, {} failed", tally.passed, tally.failed);
    std::process::exit((tally.failed > 0) as i32);
}

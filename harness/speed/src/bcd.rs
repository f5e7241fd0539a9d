//! The routines that make BCD values, by themselves: no exported call is one of them, so the crate test_bcd exports them for this.
//! The Rust's own is private to its meters, so they are timed against a loop by the definition. For constant divisors the compiler
//! makes products of that loop's divisions too.
use crate::{least, show, timed};
use std::hint::black_box;
use std::time::Duration;

// Their bytes as one number, low byte first.
extern "C" {
    fn test_bcd4(v: u64) -> u32;
    fn test_bcd6(v: u64) -> u64;
}

#[inline(never)]
fn divided<const BYTES: u32>(mut v: u64) -> u64 {
    let mut out = 0;
    for k in 0..BYTES {
        out += (v / 10 % 10 * 16 + v % 10) << (8 * k);
        v /= 100;
    }
    out
}

/// How many values a round makes.
const VALUES: u32 = 20_000;

/// Multiples of every power of ten, modulo 2^64, with their neighbours, and numbers of every length in bits.
fn values() -> Vec<u64> {
    let multiples = (0..20).flat_map(|k| (0..20).map(move |n| 10u64.pow(k).wrapping_mul(n)));
    let mut out: Vec<u64> = multiples.flat_map(|v| [v.wrapping_sub(1), v, v.wrapping_add(1)]).collect();
    let mut x = 0x9E37_79B9_7F4A_7C15u64;
    while out.len() < VALUES as usize {
        x ^= x << 13;
        x ^= x >> 7;
        x ^= x << 17;
        out.push(x >> (x % 64));
    }
    out
}

fn all_of(values: &[u64], made: impl Fn(u64) -> u64) -> Duration {
    timed(|| {
        black_box(values.iter().fold(0u64, |sum, v| sum.wrapping_add(made(*v))));
    })
}

fn row<const BYTES: u32>(rounds: u32, made: impl Fn(u64) -> u64 + Copy) {
    let values = values();
    for v in &values {
        assert_eq!(made(*v), divided::<BYTES>(*v), "{v} in {BYTES} bytes");
    }
    let name = format!("BCD value of {BYTES} bytes, against /, %");
    show(&name, least(rounds, VALUES, || all_of(&values, made), || all_of(&values, divided::<BYTES>)), 1.0);
}

pub fn show_all(rounds: u32) {
    row::<4>(rounds, |v| unsafe { test_bcd4(v) }.into());
    row::<6>(rounds, |v| unsafe { test_bcd6(v) });
}

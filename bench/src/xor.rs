//! Times the checksum's exclusive or by itself: by words, the function of the library; by single bytes, the function that it had before;
//! and plain Rust's own loop over the bytes.
use crate::{plain, time, ROUNDS};
use std::hint::black_box;

extern "C" {
    fn xor_by_words(s: *const u8, len: usize, at: usize) -> u8;
    fn xor_by_bytes(s: *const u8, len: usize, at: usize) -> u8;
}

fn words(s: &[u8], at: usize) -> u8 {
    unsafe { xor_by_words(s.as_ptr(), s.len(), at) }
}

fn bytes(s: &[u8], at: usize) -> u8 {
    unsafe { xor_by_bytes(s.as_ptr(), s.len(), at) }
}

fn plain(s: &[u8], at: usize) -> u8 {
    plain::xor(&s[at..])
}

type Way = fn(&[u8], usize) -> u8;
const WAYS: [Way; 3] = [words, bytes, plain];

const STARTS: [usize; 3] = [0, 8, 13];
const LENGTHS: [usize; 8] = [8, 24, 100, 4096, 65_512, 65_536, plain::MOST - 24, plain::MOST];

/// Lengths from a start on, counted from a line of 64 bytes; then all lengths from 0 to 320.
pub fn rows() {
    let mut memory = vec![0; 64 + plain::MOST + 64];
    let line = memory.as_ptr().align_offset(64);
    let lined = &mut memory[line..];
    for (i, b) in lined.iter_mut().enumerate() {
        *b = (i * i >> 3) as u8;
    }
    for at in STARTS {
        for length in LENGTHS {
            report(&format!("{length} bytes, start {at}"), times(&lined[..at + length], at));
        }
    }
    let mut means = [0.0; 3];
    for length in 0..=320 {
        for (mean, time) in means.iter_mut().zip(times(&lined[..length], 0)) {
            *mean += time / 321.0;
        }
    }
    report("0 to 320 bytes, mean", means);
}

/// The least time of a call in nanoseconds, each way, over rounds of calls that take turns.
fn times(s: &[u8], at: usize) -> [f64; 3] {
    let calls = 1 + 500_000 / (1000 + s.len());
    let (mut best, wanted) = ([f64::MAX; 3], plain(s, at));
    for _ in 0..ROUNDS {
        for (best, way) in best.iter_mut().zip(WAYS) {
            assert_eq!(way(s, at), wanted);
            *best = best.min(round(way, s, at, calls));
        }
    }
    best
}

/// One loop for all ways, so that it stands at one place.
#[inline(never)]
fn round(way: Way, s: &[u8], at: usize, calls: usize) -> f64 {
    time(calls, &mut || {
        black_box(black_box(way)(black_box(s), at));
    })
}

fn report(what: &str, [words, bytes, plain]: [f64; 3]) {
    println!(
        "xor, {what:<24} by words {words:>9.1} ns  by bytes {bytes:>10.1} ns  plain Rust {plain:>9.1} ns  ratios {:.2}, {:.2}",
        words / bytes,
        words / plain
    );
}

//! Times the library beside plain Rust in one run, both fully optimised, and its device trees beside libfdt too: `make bench`.
mod fdt;
mod growth;
mod journal;
mod lists;
mod plain;
mod plain_fdt;
mod trees;
mod xor;

use lists::LAST;
use plain::{Certified, Checked, Done, Found};
use std::hint::black_box;
use std::ops::Range;
use std::time::Instant;

extern "C" {
    fn tl_check(area: *const u8, len: usize, base: u64) -> Checked;
    fn tl_find(area: *const u8, len: usize, base: u64, tag: u32, n: u64) -> Found;
    fn tl_add(area: *mut u8, len: usize, base: u64, tag: u32, data: *const u8, n: usize, voids: bool) -> Done;
    fn tl_void(area: *mut u8, len: usize, base: u64, tag: u32, n: u64) -> Done;
    fn tl_tidy(area: *mut u8, len: usize, base: u64) -> Done;
    fn tl_certificate(area: *const u8, len: usize, base: u64, serial: u64, test: u64) -> Certified;
    fn tl09_check(area: *const u8, len: usize, base: u64) -> Checked;
    fn tl09_convert(area: *const u8, len: usize, base: u64, target: *mut u8, target_len: usize, target_base: u64) -> Done;
}

/// The lengths of lists that most rows are on.
const LENGTHS: [usize; 2] = [65_536, plain::MOST];
const ROUNDS: usize = 200;
const BASE: u64 = 0x1000;
const TARGET_BASE: u64 = 0x20000;
const DATA: [u8; 64] = [0x5a; 64];
const SERIAL: u64 = 5501;
const TEST: u64 = 71;

fn library_check(area: &[u8]) -> Checked {
    unsafe { tl_check(area.as_ptr(), area.len(), BASE) }
}

fn library_find(area: &[u8]) -> Found {
    unsafe { tl_find(area.as_ptr(), area.len(), BASE, LAST, 0) }
}

fn library_add(area: &mut [u8], voids: bool) -> Done {
    unsafe { tl_add(area.as_mut_ptr(), area.len(), BASE, LAST, DATA.as_ptr(), DATA.len(), voids) }
}

fn library_void(area: &mut [u8]) -> Done {
    unsafe { tl_void(area.as_mut_ptr(), area.len(), BASE, LAST, 0) }
}

fn library_tidy(area: &mut [u8]) -> Done {
    unsafe { tl_tidy(area.as_mut_ptr(), area.len(), BASE) }
}

fn library_certificate(area: &[u8]) -> Certified {
    unsafe { tl_certificate(area.as_ptr(), area.len(), BASE, SERIAL, TEST) }
}

fn library_check09(area: &[u8]) -> Checked {
    unsafe { tl09_check(area.as_ptr(), area.len(), BASE) }
}

fn library_convert09(area: &[u8], target: &mut [u8]) -> Done {
    unsafe { tl09_convert(area.as_ptr(), area.len(), BASE, target.as_mut_ptr(), target.len(), TARGET_BASE) }
}

/// The least time of a call in nanoseconds, over rounds of calls that take turns.
fn least(calls: usize, mut library: impl FnMut(), mut plain: impl FnMut()) -> (f64, f64) {
    let mut best = (f64::MAX, f64::MAX);
    for _ in 0..ROUNDS {
        best.0 = best.0.min(time(calls, &mut library));
        best.1 = best.1.min(time(calls, &mut plain));
    }
    best
}

fn time(calls: usize, call: &mut impl FnMut()) -> f64 {
    let start = Instant::now();
    for _ in 0..calls {
        call();
    }
    start.elapsed().as_nanos() as f64 / calls as f64
}

fn report(what: &str, times: (f64, f64)) {
    report_beside("plain Rust", what, times);
}

fn report_beside(beside: &str, what: &str, (library, other): (f64, f64)) {
    println!("{what:<56} library {library:>10.1} ns  {beside:<10} {other:>10.1} ns  ratio {:.2}", library / other);
}

/// A number with commas, as 65,536.
fn grouped(n: usize) -> String {
    if n < 1000 {
        n.to_string()
    } else {
        format!("{},{:03}", grouped(n / 1000), n % 1000)
    }
}

/// How many calls a round has: fewer where the list is long, and one above 1.5 MiB.
fn calls(area: &[u8]) -> usize {
    ((3 << 20) / lists::used(area)).clamp(1, 1000)
}

/// Times a call that only reads.
fn time_reading<T: PartialEq + std::fmt::Debug>(what: &str, area: &[u8], library: impl Fn(&[u8]) -> T, plain: impl Fn(&[u8]) -> T) {
    report(what, times_reading(what, area, calls(area), library, plain));
}

/// The times of a call that only reads, in rounds of so many calls.
fn times_reading<T: PartialEq + std::fmt::Debug>(
    what: &str,
    bytes: &[u8],
    calls: usize,
    library: impl Fn(&[u8]) -> T,
    other: impl Fn(&[u8]) -> T,
) -> (f64, f64) {
    assert_eq!(library(bytes), other(bytes), "{what}");
    least(
        calls,
        || {
            black_box(library(black_box(bytes)));
        },
        || {
            black_box(other(black_box(bytes)));
        },
    )
}

fn time_check(what: &str, area: &[u8]) {
    report(what, times_check(what, area));
}

/// The times of a check that accepts.
fn times_check(what: &str, area: &[u8]) -> (f64, f64) {
    assert_eq!(library_check(area).number, 0, "{what}");
    times_reading(what, area, calls(area), library_check, |a| plain::check(a, BASE, false))
}

/// Times a check that refuses the last entry, of 8 bytes.
fn time_refused(what: &str, area: &[u8]) {
    assert_eq!(library_check(area), Checked { number: 8, at: area.len() as u32 - 8, ..Checked::default() }, "{what}");
    time_reading(what, area, library_check, |a| plain::check(a, BASE, false));
}

fn time_find(what: &str, area: &[u8]) {
    assert_eq!(library_find(area).number, 0, "{what}");
    time_reading(what, area, library_find, |a| plain::find(a, BASE, LAST, 0));
}

fn time_certificate(what: &str, area: &[u8]) {
    assert_eq!(library_certificate(area), Certified { number: 0, pass: 1, reading: 900.0, at: 0 }, "{what}");
    time_reading(what, area, library_certificate, |a| plain::certificate(a, BASE, SERIAL, TEST));
}

/// Times an edit. Each call is followed by putting back the header and these bytes, which are all that the edit changes. The time for that
/// is counted on both sides.
fn time_edit(what: &str, area: &[u8], changed: Range<usize>, library: impl Fn(&mut [u8]) -> Done, plain: impl Fn(&mut [u8]) -> Done) {
    let put_back = |a: &mut Vec<u8>| {
        a[..24].copy_from_slice(&area[..24]);
        a[changed.clone()].copy_from_slice(&area[changed.clone()]);
    };
    let (mut one, mut other) = (area.to_vec(), area.to_vec());
    assert_eq!(plain(&mut other).number, 0, "{what}");
    assert_eq!(library(&mut one), plain(&mut area.to_vec()), "{what}");
    assert!(one == other, "{what}: the bytes differ");
    put_back(&mut one);
    put_back(&mut other);
    assert!(one == area && other == area, "{what}: more bytes changed");
    let times = least(
        calls(area),
        || {
            black_box(library(black_box(&mut one)));
            put_back(&mut one);
        },
        || {
            black_box(plain(black_box(&mut other)));
            put_back(&mut other);
        },
    );
    report(what, times);
}

/// Times adding 64 bytes, after which these bytes are put back.
fn time_add(what: &str, area: &[u8], changed: Range<usize>, voids: bool) {
    time_edit(what, area, changed, |a| library_add(a, voids), |a| plain::add(a, BASE, LAST, &DATA, voids));
}

/// Times voiding the one entry with the tag that is looked for.
fn time_void(what: &str, area: &[u8], changed: Range<usize>) {
    time_edit(what, area, changed, library_void, |a| plain::void(a, BASE, LAST, 0));
}

/// Times tidying, after which the whole list is put back.
fn time_tidy(what: &str, area: &[u8]) {
    time_edit(what, area, 24..area.len(), library_tidy, |a| plain::tidy(a, BASE));
}

fn time_check09(what: &str, area: &[u8]) {
    assert_eq!(library_check09(area).number, 0, "{what}");
    time_reading(what, area, library_check09, |a| plain::check09(a, BASE, false));
}

/// Times a conversion into a target that is as long as the area.
fn time_convert09(what: &str, area: &[u8]) {
    let (mut one, mut other) = (vec![0xee; area.len()], vec![0xee; area.len()]);
    let done = plain::convert09(area, BASE, &mut other, TARGET_BASE);
    assert_eq!(done.number, 0, "{what}");
    assert_eq!(library_convert09(area, &mut one), done, "{what}");
    assert!(one == other, "{what}: the bytes differ");
    let times = least(
        calls(area),
        || {
            black_box(library_convert09(black_box(area), black_box(&mut one)));
        },
        || {
            black_box(plain::convert09(black_box(area), BASE, black_box(&mut other), TARGET_BASE));
        },
    );
    report(what, times);
}

/// The rows on lists of this many bytes.
fn rows(length: usize) {
    let (name, end) = (grouped(length), length - 256..length);
    time_check(&format!("check, {name} bytes, one entry"), &lists::one_entry(length));
    time_check(&format!("check, {name} bytes, entries of 8 bytes"), &lists::of_8_bytes(length, 1));
    time_refused(&format!("check, {name} bytes, the last of 8 bytes bad"), &lists::last_bad(length));
    let (open, ended) = (lists::of_32_bytes(length, false), lists::of_32_bytes(length, true));
    time_find(&format!("find the last, {name} bytes, entries of 32 bytes"), &ended);
    time_add(&format!("add at the tail, {name} bytes, entries of 32 bytes"), &open, end.clone(), false);
    time_void(&format!("void the last, {name} bytes, entries of 32 bytes"), &ended, end.clone());
    time_add(&format!("add into the last of many voids, {name} bytes"), &lists::many_voids(length), end, true);
    time_tidy(&format!("tidy, {name} bytes, voids of 8 bytes"), &lists::of_8_bytes(length, 0));
    time_tidy(&format!("tidy, {name} bytes, every second entry a void"), &lists::every_second_void(length));
    let certified = lists::certified(length, (0..(length - 24 - 64) / 8).map(|_| (1, 0)));
    time_certificate(&format!("certificate, {name} bytes, behind entries of 8 bytes"), &certified);
    time_check09(&format!("edition 0.9: check, {name} bytes, one entry"), &lists::one_entry09(length, length));
    let size = length - 536;
    time_convert09(&format!("edition 0.9: convert, {} bytes, one entry", grouped(size)), &lists::one_entry09(length, size));
}

/// The rows on lists of a few entries.
fn short_rows() {
    // three entries of 112 bytes each, up to byte 360
    let short = lists::list(LENGTHS[0], [(1, 100), (1, 100), (LAST, 100)]);
    time_check("check, three entries of 112 bytes", &short);
    time_add("add 64 bytes behind three entries of 112 bytes", &short, 360..432, false);
    time_void("void the last of three entries of 112 bytes", &short, 248..360);
    time_certificate("certificate, the last of four entries", &lists::certified(LENGTHS[0], [(1, 40), (LAST, 16), (1, 7)]));
}

fn main() {
    xor::rows();
    for length in LENGTHS {
        rows(length);
    }
    short_rows();
    journal::rows();
    growth::table();
    fdt::rows();
}

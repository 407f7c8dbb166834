//! An add with a journal beside the plain add, on a short list and on full ones: what the journal costs does not grow with the list.
use crate::plain::Done;
use crate::{calls, grouped, least, library_add, lists, BASE, DATA, LENGTHS};
use std::hint::black_box;

extern "C" {
    fn tl_add_journalled(
        area: *mut u8,
        len: usize,
        base: u64,
        tag: u32,
        data: *const u8,
        n: usize,
        voids: bool,
        journal: *mut u8,
        journal_len: usize,
    ) -> Done;
}

/// What adding the data takes at most.
const JOURNAL_LEN: usize = 16 * (4 + DATA.len().div_ceil(8));

fn library_add_journalled(area: &mut [u8], journal: &mut [u8]) -> Done {
    let (a, j) = (area.as_mut_ptr(), journal.as_mut_ptr());
    unsafe { tl_add_journalled(a, area.len(), BASE, lists::LAST, DATA.as_ptr(), DATA.len(), false, j, journal.len()) }
}

pub fn rows() {
    row("add 64 bytes with a journal, three entries of 112 bytes", &lists::list(LENGTHS[0], [(1, 100), (1, 100), (lists::LAST, 100)]));
    for length in LENGTHS {
        row(&format!("add 64 bytes with a journal, {} bytes, one entry", grouped(length)), &lists::list(length, [(1, length - 104)]));
    }
}

/// Times an add at the tail. Each call is followed by putting back what it changes, on both sides; the journal is empty after each call.
fn row(what: &str, area: &[u8]) {
    let changed = lists::used(area)..lists::used(area) + 8 + DATA.len();
    let put_back = |a: &mut Vec<u8>| {
        a[..24].copy_from_slice(&area[..24]);
        a[changed.clone()].copy_from_slice(&area[changed.clone()]);
    };
    let (mut one, mut other, mut journal) = (area.to_vec(), area.to_vec(), vec![0; JOURNAL_LEN]);
    let done = library_add(&mut other, false);
    assert_eq!(done.number, 0, "{what}");
    assert_eq!(library_add_journalled(&mut one, &mut journal), done, "{what}");
    assert!(one == other, "{what}: the bytes differ");
    put_back(&mut one);
    put_back(&mut other);
    let (journalled, plain) = least(
        calls(area),
        || {
            black_box(library_add_journalled(black_box(&mut one), black_box(&mut journal)));
            put_back(&mut one);
        },
        || {
            black_box(library_add(black_box(&mut other), false));
            put_back(&mut other);
        },
    );
    let more = journalled - plain;
    println!("{what:<62} library {journalled:>10.1} ns  tl_add {plain:>10.1} ns  {more:.1} ns more");
}

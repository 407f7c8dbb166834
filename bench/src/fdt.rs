//! Times the check of a device tree and the lookup in it, beside plain Rust, and beside libfdt where it is installed.
use crate::plain::Found;
use crate::trees::{self, Numbers, Place};
use crate::{plain_fdt, report, times_reading};

extern "C" {
    fn tl_fdt_check(data: *const u8, len: usize) -> u32;
    fn tl_fdt_find(data: *const u8, len: usize, path: *const u8, path_len: usize, name: *const u8, name_len: usize) -> Found;
}

fn library_check(tree: &[u8]) -> u32 {
    unsafe { tl_fdt_check(tree.as_ptr(), tree.len()) }
}

fn library_find(tree: &[u8], path: &[u8], name: &[u8]) -> Found {
    unsafe { tl_fdt_find(tree.as_ptr(), tree.len(), path.as_ptr(), path.len(), name.as_ptr(), name.len()) }
}

/// A tree that is timed, in rounds of so many calls, with the properties that are asked for.
struct Subject {
    what: &'static str,
    words: String,
    tree: Vec<u8>,
    calls: usize,
    asked: Vec<(&'static str, Place)>,
}

pub fn rows() {
    let subjects = subjects();
    let mut numbers = Numbers(1);
    for subject in &subjects {
        compare(subject, &mut numbers);
    }
    for Subject { what, tree, calls, asked, .. } in &subjects {
        let row = format!("tree, {what}: check");
        report(&row, times_reading(&row, tree, *calls, library_check, plain_fdt::check));
        for (whose, place) in asked {
            let row = format!("tree, {what}: find{whose}");
            let library = |t: &[u8]| library_find(t, &place.path, &place.name);
            report(&row, times_reading(&row, tree, *calls, library, |t| plain_fdt::find(t, &place.path, &place.name)));
        }
    }
    libfdt::rows(&subjects);
}

fn subjects() -> Vec<Subject> {
    let mut subjects = vec![];
    for (what, total, calls) in [("4 KiB", 4 << 10, 1000), ("64 KiB", 64 << 10, 50), ("1 MiB", 1 << 20, 3), ("16 MiB", 16 << 20, 1)] {
        let (tree, words, [middle, last]) = trees::grown(total);
        subjects.push(Subject { what, words, tree, calls, asked: vec![(" midway", middle), (" in the last node", last)] });
    }
    for (what, size) in [("one value of 60,000 bytes", 60_000), ("one value of 1 MiB", 1 << 20), ("one value of 16 MiB", 16 << 20)] {
        let (tree, place) = trees::long(size);
        subjects.push(Subject { what, words: "1 node, 1 property".into(), tree, calls: 1000, asked: vec![("", place)] });
    }
    for (what, total, calls) in [("64 KiB, flat", 64 << 10, 50), ("16 MiB, flat", 16 << 20, 1)] {
        let (tree, words, place) = trees::flat(total);
        subjects.push(Subject { what, words, tree, calls, asked: vec![(" in the last node", place)] });
    }
    subjects
}

/// Tokens, and what is none.
const WORDS: [u32; 7] = [0, 1, 2, 3, 4, 9, 0xffff_fff4];

/// The library and plain Rust answer alike: what the tree was made with, other questions, and on damaged copies.
fn compare(Subject { what, words, tree, asked, .. }: &Subject, numbers: &mut Numbers) {
    let mut tree = tree.clone();
    assert_eq!(same_check(what, &tree), 0);
    for (_, place) in asked {
        let found = Found { number: 0, offset: place.offset as u32, size: place.size as u32, at: 0 };
        assert_eq!(same_find(what, &tree, &place.path, &place.name), found, "{what}");
        assert_eq!(same_find(what, &tree, &place.path, b"no such name").number, 13, "{what}");
        for path in [&b""[..], b"//", &place.path[1..], &[&place.path, &b"/"[..]].concat(), &[b"/", &place.path[..]].concat()] {
            assert_eq!(same_find(what, &tree, path, &place.name).number, 13, "{what}");
        }
    }
    let Place { path, name, offset: at, .. } = &asked.last().unwrap().1;
    let word = |at: usize| u32::from_be_bytes(tree[at..at + 4].try_into().unwrap()) as usize;
    let (structure, structure_size, strings, name_at) = (word(8), word(36), word(12), word(at - 4));
    let (mut checks, mut finds) = ([0; 22], [0; 22]);
    let copies = ((64 << 20) / tree.len()).clamp(200, 3000);
    for kind in (0..6).cycle().take(copies) {
        let (from, new) = match kind {
            // a bit of the header, a byte anywhere, a byte near the property, a letter of its name, a word of the structure, fewer bytes
            0 => one_byte(&tree, numbers.between(0, 39), 1 << numbers.between(0, 7)),
            1 => one_byte(&tree, numbers.between(0, tree.len() - 1), numbers.between(1, 255)),
            2 => one_byte(&tree, at - numbers.between(0, 100.min(*at)), numbers.between(1, 255)),
            3 => one_byte(&tree, strings + name_at + numbers.between(0, name.len() - 1), numbers.between(1, 255)),
            4 => (structure + 4 * numbers.between(0, structure_size / 4 - 1), WORDS[numbers.between(0, 6)].to_be_bytes().to_vec()),
            _ => (0, vec![]),
        };
        let length = if kind == 5 { numbers.between(0, tree.len() - 1) } else { tree.len() };
        let old = tree[from..from + new.len()].to_vec();
        tree[from..from + new.len()].copy_from_slice(&new);
        let which = format!("{what}: {new:02x?} at {from}, {length} bytes");
        checks[same_check(&which, &tree[..length]) as usize] += 1;
        finds[same_find(&which, &tree[..length], path, name).number as usize] += 1;
        tree[from..from + new.len()].copy_from_slice(&old);
    }
    assert!(checks[0] > 0 && checks[21] > 0 && finds[0] > 0 && finds[13] > 0 && finds[21] > 0, "{what}: {checks:?} {finds:?}");
    println!("tree, {what}: {words}; alike on {copies} damaged copies, {} refused, {} without the property", checks[21], finds[13]);
}

fn one_byte(tree: &[u8], at: usize, change: usize) -> (usize, Vec<u8>) {
    (at, vec![tree[at] ^ change as u8])
}

fn same_check(what: &str, tree: &[u8]) -> u32 {
    let number = plain_fdt::check(tree);
    assert_eq!(library_check(tree), number, "{what}");
    number
}

fn same_find(what: &str, tree: &[u8], path: &[u8], name: &[u8]) -> Found {
    let found = plain_fdt::find(tree, path, name);
    assert_eq!(library_find(tree, path, name), found, "{what}");
    found
}

#[cfg(libfdt)]
mod libfdt {
    use super::*;
    use crate::report_beside;
    use std::ffi::{c_char, c_int, c_void, CStr, CString};

    extern "C" {
        fn fdt_check_full(fdt: *const c_void, bufsize: usize) -> c_int;
        fn fdt_path_offset(fdt: *const c_void, path: *const c_char) -> c_int;
        fn fdt_getprop(fdt: *const c_void, node: c_int, name: *const c_char, size: *mut c_int) -> *const c_void;
    }

    fn check(tree: &[u8]) -> u32 {
        if unsafe { fdt_check_full(tree.as_ptr().cast(), tree.len()) } == 0 {
            0
        } else {
            21
        }
    }

    /// Its lookup alone takes the tree for good, and the library's checks it.
    fn check_and_find(tree: &[u8], path: &CStr, name: &CStr) -> Found {
        if check(tree) != 0 {
            return Found { number: 21, ..Found::default() };
        }
        let fdt = tree.as_ptr().cast();
        let mut size = 0;
        // a node that is not found has an offset below 0, which fdt_getprop refuses
        let value = unsafe { fdt_getprop(fdt, fdt_path_offset(fdt, path.as_ptr()), name.as_ptr(), &mut size) };
        if value.is_null() {
            return Found { number: 13, ..Found::default() };
        }
        Found { number: 0, offset: (value as usize - tree.as_ptr() as usize) as u32, size: size as u32, at: 0 }
    }

    pub fn rows(subjects: &[Subject]) {
        println!("beside libfdt; find is beside fdt_check_full, fdt_path_offset and fdt_getprop together, since find checks the tree too");
        for Subject { what, tree, calls, asked, .. } in subjects {
            let row = format!("tree, {what}: check");
            report_beside("libfdt", &row, times_reading(&row, tree, *calls, library_check, check));
            for (whose, place) in asked {
                let row = format!("tree, {what}: find{whose}");
                let [path, name] = [&place.path, &place.name].map(|s| CString::new(s.clone()).unwrap());
                let library = |t: &[u8]| library_find(t, &place.path, &place.name);
                report_beside("libfdt", &row, times_reading(&row, tree, *calls, library, |t| check_and_find(t, &path, &name)));
            }
        }
    }
}

#[cfg(not(libfdt))]
mod libfdt {
    pub fn rows(_: &[super::Subject]) {
        println!("libfdt is not installed (Debian: libfdt-dev): no rows beside it");
    }
}

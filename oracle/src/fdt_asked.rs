//! Chooses what to ask of a device tree: paths and property names that stand in it, and others like them.

use crate::fdt_listing::Listing;
use crate::rng::Rng;

/// A path and a property's name.
pub type Asked = (Vec<u8>, Vec<u8>);

/// Paths that find nothing in any tree, and some that may.
pub const PATHS: [&[u8]; 18] = [
    b"", b"a", b"/", b"//", b"///", b"/a/", b"/a//b", b"//a", b"a/b", b"/a", b"/a/b", b"\0", b"/\0", b"/a\0",
    b"\0/a", b"/a/\0", b"/a\0/b", b"a/",
];

const NAMES: [&[u8]; 8] = [b"", b"x", b"reg", b"\0", b"x\0", b"\0x", b"/", b"xy"];

/// Each name with a slash before it, whatever is in it.
pub fn slashed(names: &[&[u8]]) -> Vec<u8> {
    match names {
        [] => b"/".to_vec(),
        _ => [&b"/"[..], &names.join(&b'/')].concat(),
    }
}

/// The names above with others until there are so many.
fn lengthened(rng: &mut Rng, names: &[&[u8]], count: usize) -> Vec<u8> {
    let mut longer = names.to_vec();
    while longer.len() < count {
        longer.push(if names.is_empty() { b"a" } else { rng.pick(names) });
    }
    slashed(&longer)
}

/// Without the last name's unit address, or whatever stands behind the last `@`.
fn without_unit(path: &[u8]) -> Vec<u8> {
    let end = path.iter().rposition(|byte| *byte == b'@');
    path[..end.unwrap_or(path.len())].to_vec()
}

/// A byte put in, taken away or exchanged.
fn changed(rng: &mut Rng, text: &[u8]) -> Vec<u8> {
    let mut text = text.to_vec();
    let place = rng.below(text.len() as u64 + 1) as usize;
    let byte = rng.pick(b"ab/@x\0\0/");
    match rng.below(3) {
        0 => text.insert(place, byte),
        1 if place < text.len() => text[place] = byte,
        _ => {
            text.splice(place..text.len().min(place + 1), []);
        }
    }
    text
}

/// The path with an end that it should not have.
fn with_end(rng: &mut Rng, path: &[u8], ends: &[&[u8]]) -> Vec<u8> {
    [path, rng.pick(ends)].concat()
}

fn path(rng: &mut Rng, names: &[&[u8]]) -> Vec<u8> {
    let path = slashed(names);
    match rng.below(36) {
        0 => slashed(&names[..names.len().saturating_sub(1)]),
        1 => lengthened(rng, names, names.len() + 1),
        2 => lengthened(rng, names, 15),
        3 => lengthened(rng, names, 16),
        4 => lengthened(rng, names, 17),
        5 => without_unit(&path),
        6 => with_end(rng, &path, &[b"/", b"//", b"\0", b"\0x", b"x", b"@1", b"/a", b"0"]),
        7 => path[1..].to_vec(),
        8 => [b"/", &path[..]].concat(),
        9 | 10 => changed(rng, &path),
        11 => path[..path.len() - 1].to_vec(),
        12 => rng.pick(&PATHS).to_vec(),
        13 => slashed(&names[names.len().min(1)..]),
        _ => path,
    }
}

fn name(rng: &mut Rng, name: &[u8]) -> Vec<u8> {
    match rng.below(24) {
        0 => Vec::new(),
        1 => name[..name.len().saturating_sub(1)].to_vec(),
        2 => name[name.len().min(1)..].to_vec(),
        3 => with_end(rng, name, &[b"\0", b"\0x", b"x", b"\0reg"]),
        4 => changed(rng, name),
        5 => rng.pick(&NAMES).to_vec(),
        _ => name.to_vec(),
    }
}

/// A path and a name to look for in a tree, most of them those of a property of it.
pub fn any(rng: &mut Rng, listing: &Listing) -> Asked {
    let (nodes, rows) = (&listing.nodes, &listing.rows);
    let node = |rng: &mut Rng| rng.below(nodes.len() as u64) as usize;
    if rows.is_empty() {
        let node = node(rng);
        return (path(rng, &nodes[node].names), rng.pick(&NAMES).to_vec());
    }
    let row = &rows[rng.below(rows.len() as u64) as usize];
    let node = if rng.once_in(8) { node(rng) } else { row.node };
    (path(rng, &nodes[node].names), name(rng, row.name))
}

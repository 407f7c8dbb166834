//! What was found in device trees and what was not, and that each of it must have been seen: document 02,
//! request 6.

use crate::fdt_asked::slashed;
use crate::fdt_listing::{Listing, Row};
use std::fmt::Write;

/// A path, with so many names, and a property's name asked of an accepted tree.
struct Sought<'a> {
    listing: &'a Listing<'a>,
    path: &'a [u8],
    name: &'a [u8],
    names: usize,
}

impl<'a> Sought<'a> {
    /// Whether this path and name would have been found.
    fn other(&self, path: &[u8], name: &[u8]) -> bool {
        self.listing.first(path, name).is_some()
    }

    fn other_path(&self, path: &[u8]) -> bool {
        self.other(path, self.name)
    }

    /// Whether a property of the name stands in a node that is such, by its names.
    fn in_a_node(&self, such: impl Fn(&[&[u8]]) -> bool) -> bool {
        let rows = self.listing.rows.iter().filter(|row| row.name == self.name);
        rows.map(|row| &self.listing.nodes[row.node].names).any(|names| such(names))
    }

    /// Whether it stands in a node whose names, each behind a slash, are the path, and one of which is
    /// such that no path finds it.
    fn below_name(&self, such: fn(&[u8]) -> bool) -> bool {
        self.in_a_node(|names| slashed(names) == self.path && names.iter().any(|name| such(name)))
    }

    /// Whether it is found with one byte of the path or of the name exchanged.
    fn one_letter_off(&self) -> bool {
        let off = |text: &[u8], other: &[u8]| {
            text.len() == other.len()
                && text.iter().zip(other).filter(|(one, other)| one != other).count() == 1
        };
        self.listing.rows.iter().any(|row| {
            let path = self.listing.nodes[row.node].path.as_deref().unwrap_or(b"");
            (row.name == self.name && off(path, self.path)) || (path == self.path && off(row.name, self.name))
        })
    }

    /// Whether some property there has a name that is such beside the one asked for.
    fn there(&self, such: impl Fn(&[u8]) -> bool) -> bool {
        let there = |row: &Row| self.listing.nodes[row.node].path.as_deref() == Some(self.path);
        self.listing.rows.iter().any(|row| there(row) && such(row.name))
    }

    fn node_is_there(&self) -> bool {
        self.listing.nodes.iter().any(|node| node.path.as_deref() == Some(self.path))
    }

    /// Before the first zero byte of the path.
    fn path_up_to_zero(&self) -> &'a [u8] {
        self.path.split(|byte| *byte == 0).next().unwrap_or(&[])
    }

    fn parent(&self) -> &'a [u8] {
        let end = self.path.iter().rposition(|byte| *byte == b'/').unwrap_or(0);
        &self.path[..end.max(1).min(self.path.len())]
    }
}

fn count_slashes(path: &[u8]) -> usize {
    path.iter().filter(|byte| **byte == b'/').count()
}

fn without_doubled(path: &[u8]) -> Vec<u8> {
    let mut single: Vec<u8> = Vec::new();
    for byte in path {
        if !(*byte == b'/' && single.last() == Some(&b'/')) {
            single.push(*byte);
        }
    }
    single
}

/// What was found.
struct Found<'a> {
    sought: &'a Sought<'a>,
    row: &'a Row<'a>,
}

impl Found<'_> {
    /// Whether a node before this one has the same path.
    fn is_behind_equal(&self) -> bool {
        let nodes = &self.sought.listing.nodes;
        nodes[..self.row.node].iter().any(|node| node.path == nodes[self.row.node].path)
    }

    /// Whether one of its nodes above, but not itself, stands behind another of the same path.
    fn is_below_later_equal(&self) -> bool {
        let nodes = &self.sought.listing.nodes;
        let names = &nodes[self.row.node].names;
        let before = &nodes[..self.row.node];
        (1..names.len()).any(|count| before.iter().filter(|node| node.names == names[..count]).count() > 1)
    }

    fn later(&self, such: fn(&Row, &Row) -> bool) -> bool {
        let listing = self.sought.listing;
        let path = |row: &Row| &listing.nodes[row.node].path;
        let later = listing.rows.iter().filter(|row| row.offset > self.row.offset);
        later
            .filter(|row| row.name == self.row.name && path(row) == path(self.row))
            .any(|row| such(self.row, row))
    }

    fn is_tail(&self) -> bool {
        let name = self.row.name;
        let longer = |row: &Row| row.name.len() > name.len() && row.name.ends_with(name);
        !name.is_empty() && self.sought.listing.rows.iter().any(longer)
    }
}

type HoldsOfFound = fn(&Found) -> bool;
type HoldsOfNone = fn(&Sought) -> bool;

const FOUND: [(&str, HoldsOfFound); 16] = [
    ("0: in the root", |it| it.sought.path == b"/"),
    ("0: under one name", |it| it.sought.names == 1),
    ("0: under 2 to 14 names", |it| (2..15).contains(&it.sought.names)),
    ("0: under 15 names", |it| it.sought.names == 15),
    ("0: under a unit address", |it| it.sought.path.contains(&b'@')),
    ("0: behind an equal sibling that has it not", |it| it.is_behind_equal()),
    ("0: below the later of equal siblings", |it| it.is_below_later_equal()),
    ("0: the first of equal properties", |it| it.later(|one, other| one.node == other.node)),
    ("0: before an equal sibling that has it too", |it| it.later(|one, other| one.node != other.node)),
    ("0: an empty name", |it| it.row.name.is_empty()),
    ("0: a name that is the tail of another", |it| it.is_tail()),
    ("0: an empty value", |it| it.row.size == 0),
    ("0: a value without padding", |it| it.row.size > 0 && it.row.size % 4 == 0),
    ("0: a value with padding of 1", |it| it.row.size % 4 == 3),
    ("0: a value with padding of 2", |it| it.row.size % 4 == 2),
    ("0: a value with padding of 3", |it| it.row.size % 4 == 1),
];

const NONE: [(&str, HoldsOfNone); 27] = [
    ("13: an empty path", |it| it.path.is_empty()),
    ("13: `//`, in the place of `/`", |it| it.path == b"//" && it.other_path(b"/")),
    ("13: an empty path, in the place of `/`", |it| it.path.is_empty() && it.other_path(b"/")),
    ("13: a path without its first slash", |it| it.other_path(&[b"/", it.path].concat())),
    ("13: a slash at a path's end", |it| {
        it.path.len() > 1 && it.path.ends_with(b"/") && it.other_path(&it.path[..it.path.len() - 1])
    }),
    ("13: a doubled slash", |it| {
        count_slashes(it.path) > 1
            && it.path != b"//"
            && !it.path.ends_with(b"/")
            && it.other_path(&without_doubled(it.path))
    }),
    ("13: a zero byte at a path's end", |it| {
        it.path.ends_with(b"\0")
            && it.path_up_to_zero().len() + 1 == it.path.len()
            && it.other_path(it.path_up_to_zero())
    }),
    ("13: a zero byte and more", |it| {
        it.path_up_to_zero().len() + 1 < it.path.len() && it.other_path(it.path_up_to_zero())
    }),
    ("13: a zero byte at a name's end", |it| {
        it.name.ends_with(b"\0") && it.other(it.path, &it.name[..it.name.len() - 1])
    }),
    ("13: a zero byte in a name", |it| {
        let front = it.name.split(|byte| *byte == 0).next().unwrap_or(&[]);
        front.len() + 1 < it.name.len() && it.other(it.path, front)
    }),
    ("13: a path without its unit address", |it| {
        let with_unit = [it.path, b"@"].concat();
        it.in_a_node(|names| slashed(names).starts_with(&with_unit) && names.len() == it.names)
    }),
    ("13: one level more", |it| it.names > 1 && it.other_path(it.parent())),
    ("13: one level more than the root", |it| it.names == 1 && it.other_path(b"/")),
    ("13: one level less", |it| {
        it.node_is_there()
            && it.in_a_node(|names| names.len() == it.names + 1 && slashed(&names[..it.names]) == it.path)
    }),
    ("13: one letter off", |it| it.one_letter_off()),
    ("13: 15 names", |it| it.names == 15),
    ("13: 16 names", |it| it.names == 16),
    ("13: 17 names", |it| it.names == 17),
    ("13: 16 names, the first 15 a node's", |it| it.names == 16 && it.other_path(it.parent())),
    ("13: below an empty name", |it| it.below_name(|name| name.is_empty())),
    ("13: below a slashed name", |it| it.below_name(|name| name.contains(&b'/'))),
    ("13: an empty name that is not there", |it| it.name.is_empty() && it.node_is_there()),
    ("13: the front of a name", |it| {
        !it.name.is_empty() && it.there(|name| name.len() > it.name.len() && name.starts_with(it.name))
    }),
    ("13: the tail of a name", |it| {
        !it.name.is_empty() && it.there(|name| name.len() > it.name.len() && name.ends_with(it.name))
    }),
    ("13: a name and more", |it| {
        it.there(|name| !name.is_empty() && it.name.len() > name.len() && it.name.starts_with(name))
    }),
    ("13: a name of another node's", |it| it.node_is_there() && it.in_a_node(|_| true)),
    ("13: a node without a property", |it| it.node_is_there() && !it.there(|_| true)),
];

/// How often each was asked.
#[derive(Default)]
pub struct Finds {
    found: [u64; FOUND.len()],
    none: [u64; NONE.len()],
}

impl Finds {
    /// Counts what was asked of an accepted tree.
    pub fn count(&mut self, listing: &Listing, path: &[u8], name: &[u8]) {
        let names = if path == b"/" { 0 } else { count_slashes(path) };
        let sought = Sought { listing, path, name, names };
        match listing.first(path, name) {
            Some(row) => {
                let found = Found { sought: &sought, row };
                for (seen, (_, holds)) in self.found.iter_mut().zip(FOUND) {
                    *seen += u64::from(holds(&found));
                }
            }
            None => {
                for (seen, (_, holds)) in self.none.iter_mut().zip(NONE) {
                    *seen += u64::from(holds(&sought));
                }
            }
        }
    }

    fn all(&self) -> Vec<(&'static str, u64)> {
        let names = FOUND.iter().map(|kind| kind.0).chain(NONE.iter().map(|kind| kind.0));
        names.zip(self.found.iter().chain(&self.none).copied()).collect()
    }

    pub fn table(&self) -> String {
        let mut table = format!("{:<48}{:>9}", "asked of a device tree", "times");
        for (name, seen) in self.all() {
            write!(table, "\n{name:<48}{seen:>9}").unwrap();
        }
        table
    }

    /// What was never asked.
    pub fn unseen(&self) -> Vec<String> {
        let never = self.all().into_iter().filter(|(_, seen)| *seen == 0);
        never.map(|(name, _)| format!("never asked of a device tree: {name}")).collect()
    }
}

//! What stood in the lists that were tidied, and which of it must have been seen (document 02,
//! request 3): runs of voids everywhere in a list, and adds that are ROOM before and not afterwards.

use crate::lists::{rows, total_size, used_size, Row};
use crate::model::{field, ROOM};
use std::fmt::Write;

/// A list before and after an accepted tidy.
struct Tidied<'a> {
    before: &'a [u8],
    after: &'a [u8],
    rows: Vec<Row>,
    runs: Vec<Run>,
}

/// Neighbouring voids, as many as can be: the index of the first, and their number.
struct Run {
    first: usize,
    voids: usize,
}

type Holds = fn(&Tidied) -> bool;

const KINDS: [(&str, Holds); 14] = [
    ("no entry", |list| list.rows.is_empty()),
    ("live entries alone", |list| !list.rows.is_empty() && list.runs.is_empty()),
    ("voids alone", |list| list.is_one_run()),
    ("a run at the start", |list| list.kept(|run| run.first == 0)),
    ("a run in the middle", |list| list.kept(|run| run.first > 0)),
    ("a run at the end", |list| list.runs.last().is_some_and(|run| run.first > 0 && list.ends(run))),
    ("one void before a live entry", |list| list.kept(|run| run.voids == 1)),
    ("two voids before a live entry", |list| list.kept(|run| run.voids == 2)),
    ("more voids before a live entry", |list| list.kept(|run| run.voids > 2)),
    ("a void without data in a longer run", |list| list.runs.iter().any(|run| list.has_small_void(run))),
    ("void data that is not 0", |list| list.rows.iter().any(|row| row.tag_id == 0 && list.is_dirty(row))),
    ("live padding that is not 0", |list| list.rows.iter().any(|row| row.tag_id != 0 && list.is_padded(row))),
    ("voids and no has_checksum", |list| !list.runs.is_empty() && list.before[field::FLAGS] & 1 == 0),
    ("voids and nothing to change", |list| !list.runs.is_empty() && list.before == list.after),
];

impl<'a> Tidied<'a> {
    fn new(before: &'a [u8], after: &'a [u8]) -> Tidied<'a> {
        let rows = rows(before);
        let mut runs = Vec::new();
        let mut first = 0;
        for group in rows.chunk_by(|one, next| one.tag_id == 0 && next.tag_id == 0) {
            if group[0].tag_id == 0 {
                runs.push(Run { first, voids: group.len() });
            }
            first += group.len();
        }
        Tidied { before, after, rows, runs }
    }

    fn ends(&self, run: &Run) -> bool {
        run.first + run.voids == self.rows.len()
    }

    fn is_one_run(&self) -> bool {
        self.runs.first().is_some_and(|run| run.first == 0 && self.ends(run))
    }

    /// Whether one of the runs before a live entry is such.
    fn kept(&self, such: fn(&Run) -> bool) -> bool {
        self.runs.iter().any(|run| !self.ends(run) && such(run))
    }

    fn has_small_void(&self, run: &Run) -> bool {
        run.voids > 1 && self.rows[run.first..][..run.voids].iter().any(|row| row.data_size == 0)
    }

    fn is_dirty(&self, row: &Row) -> bool {
        self.before[row.place + 8..][..row.data_size as usize].iter().any(|byte| *byte != 0)
    }

    fn is_padded(&self, row: &Row) -> bool {
        let end = row.place + 8 + row.data_size as usize;
        self.before[end..end.next_multiple_of(8)].iter().any(|byte| *byte != 0)
    }
}

/// Where a tidy makes room for an add; `PLACES` names them in this order.
#[derive(Clone, Copy)]
pub enum Place {
    InAVoid,
    AtTheEnd,
}

const PLACES: [&str; 2] = ["an add, ROOM before, in a void", "an add, ROOM before, at the end"];

/// The data length that fills the longest void of a tidied list, where it is longer than any before; and
/// the one that fills what is free behind its entries, where some of it was given back.
pub fn lengths_gained(before: &[u8], after: &[u8]) -> Vec<(Place, usize)> {
    let mut gained = Vec::new();
    if let Some(longest) = longest_void(after) {
        if longest_void(before) < Some(longest) {
            gained.push((Place::InAVoid, longest as usize));
        }
    }
    if used_size(after) < used_size(before) {
        let free = total_size(after) - used_size(after);
        gained.push((Place::AtTheEnd, free as usize - 8));
    }
    gained
}

fn longest_void(area: &[u8]) -> Option<u32> {
    rows(area).iter().filter(|row| row.tag_id == 0).map(|row| row.data_size).max()
}

/// How many of the tidied lists were of each kind, and how many adds a tidy made room for.
#[derive(Default)]
pub struct Runs {
    lists: [u64; KINDS.len()],
    adds: [u64; PLACES.len()],
}

impl Runs {
    pub fn count(&mut self, before: &[u8], after: &[u8]) {
        let tidied = Tidied::new(before, after);
        for (seen, (_, holds)) in self.lists.iter_mut().zip(KINDS) {
            *seen += u64::from(holds(&tidied));
        }
    }

    /// Counts an add that is accepted after the tidy, by the number that it got before.
    pub fn count_add(&mut self, place: Place, before: u32) {
        self.adds[place as usize] += u64::from(before == ROOM);
    }

    fn all(&self) -> Vec<(&'static str, u64)> {
        let names = KINDS.iter().map(|kind| kind.0).chain(PLACES);
        names.zip(self.lists.iter().chain(&self.adds).copied()).collect()
    }

    pub fn table(&self) -> String {
        let mut table = format!("{:<39}{:>9}", "tidied, with", "lists");
        for (name, seen) in self.all() {
            write!(table, "\n{name:<39}{seen:>9}").unwrap();
        }
        table
    }

    /// What no tidied list had.
    pub fn unseen(&self) -> Vec<String> {
        let never = self.all().into_iter().filter(|(_, seen)| *seen == 0);
        never.map(|(name, _)| format!("no list was tidied with {name}")).collect()
    }
}

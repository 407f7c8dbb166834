//! How often aligned adds met each exponent, and relocations and conversions each alignment of their list,
//! and which answers must have been seen (document 02, request 7: "alignment up to 21").

use crate::demand::Edit;
use crate::model::{field, ALIGN, HIGHEST_ALIGNMENT, ROOM, SIZES};
use crate::tally::Call;
use std::fmt::Write;

const CALLS: [Call; 3] = [Call::AddAligned, Call::Relocate, Call::Convert09];
const LOWEST: u32 = 3;
/// From the lowest that is allowed to the first that is too high.
const COLUMNS: usize = (HIGHEST_ALIGNMENT + 2 - LOWEST) as usize;

/// How often a call was accepted, was ROOM, and was ALIGN, for the add, or SIZES, for the others.
#[derive(Clone, Copy, Default)]
struct Seen {
    accepted: u64,
    room: u64,
    outside: u64,
}

/// For each of the calls, the columns.
#[derive(Default)]
pub struct Alignments([[Seen; COLUMNS]; CALLS.len()]);

impl Alignments {
    /// Counts an aligned add by its exponent; other edits are left alone.
    pub fn count_add(&mut self, edit: &Edit, number: u32) {
        if let Edit::AddAligned { exponent, .. } = edit {
            self.count(Call::AddAligned, *exponent, number);
        }
    }

    /// Counts a relocation or a conversion by the alignment field of the list.
    pub fn count_move(&mut self, call: Call, area: &[u8], number: u32) {
        if let Some(alignment) = area.get(field::ALIGNMENT) {
            self.count(call, *alignment as u32, number);
        }
    }

    fn count(&mut self, call: Call, alignment: u32, number: u32) {
        let row = CALLS.iter().position(|counted| *counted == call).expect("a call that is counted");
        if !(LOWEST..=HIGHEST_ALIGNMENT + 1).contains(&alignment) {
            return;
        }
        let seen = &mut self.0[row][(alignment - LOWEST) as usize];
        match number {
            0 => seen.accepted += 1,
            ROOM => seen.room += 1,
            _ => seen.outside += u64::from(number == outside(call).0),
        }
    }

    /// What is counted of each call, with how its answers are called.
    fn rows(&self) -> Vec<(String, Vec<u64>)> {
        let mut rows = Vec::new();
        for (call, columns) in CALLS.iter().zip(&self.0) {
            let mut row = |what: &str, seen: fn(&Seen) -> u64| {
                rows.push((format!("{} {what}", call.name()), columns.iter().map(seen).collect()));
            };
            row("accepted", |seen| seen.accepted);
            row("ROOM", |seen| seen.room);
            row(outside(*call).1, |seen| seen.outside);
        }
        rows
    }

    pub fn table(&self) -> String {
        let mut table = format!("{:<24}", "of alignment");
        (LOWEST..=HIGHEST_ALIGNMENT + 1).for_each(|one| write!(table, "{one:>8}").unwrap());
        for (name, row) in self.rows() {
            write!(table, "\n{name:<24}").unwrap();
            row.iter().for_each(|seen| write!(table, "{seen:>8}").unwrap());
        }
        table
    }

    /// The alignments that were never accepted or never ROOM though they are allowed, or that are not
    /// allowed and were never refused for it.
    pub fn unseen(&self) -> Vec<String> {
        let mut unseen = Vec::new();
        for (call, columns) in CALLS.iter().zip(&self.0) {
            let mut demand = |alignment: u32, what: &str, seen: u64| {
                if seen == 0 {
                    unseen.push(format!("{} was never {what} with alignment {alignment}", call.name()));
                }
            };
            let (last, allowed) = columns.split_last().expect("there are columns");
            for (alignment, seen) in (LOWEST..).zip(allowed) {
                demand(alignment, "accepted", seen.accepted);
                demand(alignment, "ROOM", seen.room);
            }
            demand(HIGHEST_ALIGNMENT + 1, outside(*call).1, last.outside);
        }
        unseen
    }
}

/// The refusal of an alignment that is not allowed, and its name.
fn outside(call: Call) -> (u32, &'static str) {
    match call {
        Call::AddAligned => (ALIGN, "ALIGN"),
        _ => (SIZES, "SIZES"),
    }
}

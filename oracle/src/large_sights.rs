//! What a run on large lists has met, and what it must have met: document 02, request 7.

use crate::compare::Buffer;
use crate::large_lists::{entries_of, LENGTHS, MANY};
use crate::large_numbers::{Largest, Numbers};
use oracle::demand::Edit;
use oracle::lists::used_size;
use oracle::model::{field, Done, Found, ALIGN, AREA, ENTRY, SIZES, TARGET};
use oracle::tally::Call;
use std::fmt::Write;

const CALLS: usize = Call::ALL.len();
/// Those counted, from the lowest new one to the first that is too high.
const ALIGNMENTS: [u32; 10] = [13, 14, 15, 16, 17, 18, 19, 20, 21, 22];
const TOO_HIGH: u32 = 22;
const TOO_LONG: usize = 16_777_217;
/// An entry is large if its data is longer than the longest area was before request 7.
const LONGEST_BEFORE: usize = 65_536;
/// The calls that write a target.
const MOVES: [Call; 2] = [Call::Relocate, Call::Convert09];

/// How often a call was made on what the request names.
#[derive(Clone, Copy, Default)]
struct Seen {
    /// On areas, or device trees, of these lengths. They count where the call is accepted, and lists of the last
    /// length where it is AREA, but for recovery and steps, which make no such check.
    lengths: [u64; LENGTHS.len()],
    /// On accepted lists with a large entry.
    large_entry: u64,
    /// On accepted lists with 2,097,149 entries or more.
    many_entries: u64,
    /// On lists of these alignments, an aligned add with these exponents. They count where the call is
    /// accepted, and where the first that is too high is refused for it.
    alignments: [u64; ALIGNMENTS.len()],
}

#[derive(Default)]
pub struct Sights {
    calls: [Seen; CALLS],
    /// Targets of the five lengths, for either move. They count where it is accepted, and of the last length
    /// where it is TARGET.
    targets: [[u64; LENGTHS.len()]; MOVES.len()],
    numbers: Numbers,
    trees_in_lists: u64,
}

fn is_for_trees(call: Call) -> bool {
    matches!(call, Call::FdtCheck | Call::FdtFind)
}

/// Whether the call makes no check of the area: recovery, and a step after the deciding call.
fn takes_any_area(call: Call) -> bool {
    matches!(call, Call::Recover | Call::RecoverSteps | Call::Step)
}

/// Whether the call reads a list.
fn reads_a_list(call: Call) -> bool {
    !is_for_trees(call) && !takes_any_area(call) && call != Call::Create
}

/// Whether the call has an exponent, which is counted instead of its list's alignment.
fn has_exponent(call: Call) -> bool {
    matches!(call, Call::AddAligned | Call::AddAlignedJournalled | Call::AddAlignedSteps)
}

/// The index among `all`, where it is there.
fn index_of<T: PartialEq>(all: &[T], one: T) -> Option<usize> {
    all.iter().position(|other| *other == one)
}

impl Sights {
    /// Counts a call by the buffers lent to it.
    pub fn call(&mut self, call: Call, number: u32, buffers: &[Buffer]) {
        let Some(first) = buffers.first() else { return };
        self.length(call, number, first.before.len());
        if let Some(target) = buffers.iter().find(|buffer| buffer.name == "target") {
            self.target(call, number, target.before.len());
        }
        if reads_a_list(call) {
            self.list(call, number, first.before);
        }
    }

    fn length(&mut self, call: Call, number: u32, length: usize) {
        let is_too_long = length == TOO_LONG && !is_for_trees(call) && !takes_any_area(call);
        let wanted = if is_too_long { AREA } else { 0 };
        if let Some(index) = index_of(&LENGTHS, length).filter(|_| number == wanted) {
            self.calls[call as usize].lengths[index] += 1;
        }
    }

    fn target(&mut self, call: Call, number: u32, length: usize) {
        let wanted = if length == TOO_LONG { TARGET } else { 0 };
        let place = (index_of(&MOVES, call), index_of(&LENGTHS, length));
        if let (Some(call), Some(index)) = place {
            self.targets[call][index] += u64::from(number == wanted);
        }
    }

    /// Counts the alignment and, of a list that has passed checks 1 to 8, what stands in it.
    fn list(&mut self, call: Call, number: u32, area: &[u8]) {
        if let Some(alignment) = area.get(field::ALIGNMENT).filter(|_| !has_exponent(call)) {
            self.alignment(call, u32::from(*alignment), number, SIZES);
        }
        if (AREA..=ENTRY).contains(&number) {
            return;
        }
        let (entries, longest) = entries_of(area);
        let seen = &mut self.calls[call as usize];
        seen.large_entry += u64::from(longest > LONGEST_BEFORE);
        seen.many_entries += u64::from(entries >= MANY);
        match call {
            Call::Check => self.numbers.note(Largest::Entries, entries),
            Call::Check09 => self.numbers.note(Largest::Entries09, entries),
            _ => {}
        }
    }

    fn alignment(&mut self, call: Call, alignment: u32, number: u32, refusal: u32) {
        let wanted = if alignment == TOO_HIGH { refusal } else { 0 };
        if let Some(index) = index_of(&ALIGNMENTS, alignment).filter(|_| number == wanted) {
            self.calls[call as usize].alignments[index] += 1;
        }
    }

    /// Counts an edit of the area as it was before.
    pub fn edit(&mut self, area: &[u8], edit: &Edit, done: &Done) {
        if let Edit::AddAligned { exponent, .. } = *edit {
            self.alignment(Call::AddAligned, exponent, done.number, ALIGN);
        }
        if done.number != 0 {
            return;
        }
        let value = done.value as usize;
        match *edit {
            Edit::Add { data, .. } => self.numbers.note(Largest::Added, data.len()),
            Edit::AddAligned { data, .. } => {
                self.numbers.note(Largest::AddedAligned, data.len());
                self.numbers.note(Largest::Padding, value - 8 - used_size(area) as usize);
            }
            Edit::Void { .. } => {
                let size = area[value + 4..value + 8].try_into().unwrap();
                self.numbers.note(Largest::Voided, u32::from_le_bytes(size) as usize);
            }
        }
    }

    /// Counts an edit with a journal.
    pub fn journalled(&mut self, edit: &Edit, number: u32) {
        if let Edit::AddAligned { exponent, .. } = *edit {
            self.alignment(Call::AddAlignedJournalled, exponent, number, ALIGN);
            self.alignment(Call::AddAlignedSteps, exponent, number, ALIGN);
        }
    }

    /// Counts what a find of either edition found; a refusal's size is 0.
    pub fn found(&mut self, call: Call, found: &Found) {
        let which = if call == Call::Find { Largest::Found } else { Largest::Found09 };
        self.numbers.note(which, found.size as usize);
    }

    /// Counts a relocation or a conversion; a refusal's value is 0.
    pub fn moved(&mut self, call: Call, done: &Done) {
        let which = if call == Call::Relocate { Largest::Shift } else { Largest::Shift09 };
        self.numbers.note(which, done.value as usize);
    }

    /// Counts a device tree that was found in a list and is looked into there.
    pub fn tree_in_a_list(&mut self) {
        self.trees_in_lists += 1;
    }
}

/// A line of numbers behind its name.
fn line(name: &str, numbers: &[u64]) -> String {
    let mut line = format!("{name:<26}");
    numbers.iter().for_each(|number| write!(line, "{number:>10}").unwrap());
    line
}

impl Sights {
    pub fn table(&self) -> String {
        let names = LENGTHS.map(|length| length as u64);
        let head = line("on lists of bytes", &names);
        let mut lines = vec![format!("{head}{:>18}{:>18}", "with large entry", "2097149 entries")];
        for (seen, call) in self.calls.iter().zip(Call::ALL) {
            let lengths = line(call.name(), &seen.lengths);
            lines.push(format!("{lengths}{:>18}{:>18}", seen.large_entry, seen.many_entries));
        }
        for (targets, call) in self.targets.iter().zip(MOVES) {
            lines.push(line(&format!("{}, as target", call.name()), targets));
        }
        lines.push(line("with alignments", &ALIGNMENTS.map(u64::from)));
        for call in Call::ALL.into_iter().filter(|call| reads_a_list(*call)) {
            lines.push(line(call.name(), &self.calls[call as usize].alignments));
        }
        lines.push(self.numbers.table());
        lines.push(format!("{:<54}{:>10}", "device trees found in a list", self.trees_in_lists));
        lines.join("\n")
    }

    /// What was never met.
    pub fn unseen(&self) -> Vec<String> {
        let mut unseen = Vec::new();
        for (seen, call) in self.calls.iter().zip(Call::ALL) {
            unseen.extend(seen.unseen(call));
        }
        for (targets, call) in self.targets.iter().zip(MOVES) {
            for (_, length) in targets.iter().zip(LENGTHS).filter(|(times, _)| **times == 0) {
                unseen.push(format!("{} never had its answer for a target of {length}", call.name()));
            }
        }
        unseen.extend(self.numbers.unseen());
        if self.trees_in_lists == 0 {
            unseen.push("no device tree was looked into where a list has it".to_string());
        }
        unseen
    }
}

impl Seen {
    fn unseen(&self, call: Call) -> Vec<String> {
        let mut unseen = Vec::new();
        let mut must = |times: u64, what: String| {
            if times == 0 {
                unseen.push(format!("{} never had its answer for {what}", call.name()));
            }
        };
        for (times, length) in self.lengths.iter().zip(LENGTHS) {
            must(*times, format!("{length} bytes"));
        }
        if reads_a_list(call) {
            must(self.large_entry, "a list with a large entry".to_string());
            must(self.many_entries, format!("a list of {MANY} entries"));
            for (times, alignment) in self.alignments.iter().zip(ALIGNMENTS) {
                must(*times, format!("alignment {alignment}"));
            }
        }
        unseen
    }
}

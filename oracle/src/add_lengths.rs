//! How often either add met each length around those that a tag may carry, and which answers must have been
//! seen: event logs by document 02, request 2, certificates by its request 5.

use crate::demand::Edit;
use crate::model::{CERTIFICATE_TAG, EVENT_LOG_TAG, SHAPE};
use crate::tally::Call;
use std::fmt::Write;

const ADDS: [Call; 2] = [Call::Add, Call::AddAligned];

/// A tag, and lengths each with a count of its own.
pub struct AddLengths {
    what: &'static str,
    tag: u32,
    lengths: Vec<Length>,
}

struct Length {
    length: usize,
    is_shape: bool,
    /// By either add.
    seen: [Seen; 2],
}

/// How often it was not refused and how often it was SHAPE.
#[derive(Clone, Copy, Default)]
struct Seen {
    added: u64,
    shape: u64,
}

impl AddLengths {
    /// "A length under 4 is SHAPE from now on; 4 is accepted."
    pub fn of_event_logs() -> AddLengths {
        AddLengths::new("event log", EVENT_LOG_TAG, &[0, 1, 2, 3, 4, 5], |length| length < 4)
    }

    /// "Adds of this tag with another length" than 56 "are SHAPE".
    pub fn of_certificates() -> AddLengths {
        AddLengths::new("certificate", CERTIFICATE_TAG, &[0, 12, 55, 56, 57, 112], |length| length != 56)
    }

    fn new(what: &'static str, tag: u32, lengths: &[usize], is_shape: fn(usize) -> bool) -> AddLengths {
        let counted = |length: &usize| Length {
            length: *length,
            is_shape: is_shape(*length),
            seen: Default::default(),
        };
        AddLengths { what, tag, lengths: lengths.iter().map(counted).collect() }
    }

    /// Counts an add with the tag and one of these lengths; others are left alone.
    pub fn count(&mut self, edit: &Edit, number: u32) {
        let (add, tag, data) = match *edit {
            Edit::Add { tag, data, .. } => (0, tag, data),
            Edit::AddAligned { tag, data, .. } => (1, tag, data),
            Edit::Void { .. } => return,
        };
        if tag != self.tag {
            return;
        }
        if let Some(length) = self.lengths.iter_mut().find(|one| one.length == data.len()) {
            length.seen[add].added += u64::from(number == 0);
            length.seen[add].shape += u64::from(number == SHAPE);
        }
    }

    pub fn table(&self) -> String {
        let mut table = format!("{:<24}", format!("{} of bytes", self.what));
        self.lengths.iter().for_each(|one| write!(table, "{:>9}", one.length).unwrap());
        for (add, call) in ADDS.iter().enumerate() {
            write!(table, "\n{:<24}", format!("{} added", call.name())).unwrap();
            self.lengths.iter().for_each(|one| write!(table, "{:>9}", one.seen[add].added).unwrap());
            write!(table, "\n{:<24}", format!("{} SHAPE", call.name())).unwrap();
            self.lengths.iter().for_each(|one| write!(table, "{:>9}", one.seen[add].shape).unwrap());
        }
        table
    }

    /// The lengths whose right answer never came.
    pub fn unseen(&self) -> Vec<String> {
        let mut unseen = Vec::new();
        for (add, call) in ADDS.iter().enumerate() {
            for Length { length, is_shape, seen } in &self.lengths {
                let (right, times) =
                    if *is_shape { ("SHAPE", seen[add].shape) } else { ("0", seen[add].added) };
                if times == 0 {
                    let (name, what) = (call.name(), self.what);
                    unseen.push(format!("{name} never answered {right} to {what} data of {length} bytes"));
                }
            }
        }
        unseen
    }
}

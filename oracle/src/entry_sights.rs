//! How often each call that makes the check was refused with 8 and said the place of each sort of bad entry,
//! and that each must have been seen (document 02, request 8).

use crate::demand_entry::{data_end, hdr_size, used, ways, Way};
use crate::model::{field, Answer, ENTRY};
use crate::tally::Call;
use std::fmt::Write;

/// The calls that make the check.
const CALLS: [Call; 17] = [
    Call::Check,
    Call::Find,
    Call::Add,
    Call::AddAligned,
    Call::Void,
    Call::Relocate,
    Call::Tidy,
    Call::Certificate,
    Call::Check09,
    Call::Find09,
    Call::Convert09,
    Call::AddJournalled,
    Call::AddAlignedJournalled,
    Call::VoidJournalled,
    Call::AddSteps,
    Call::AddAlignedSteps,
    Call::VoidSteps,
];

/// Those that read lists of later versions; to the others these are READONLY.
const READERS: [Call; 5] = [Call::Check, Call::Find, Call::Certificate, Call::Check09, Call::Find09];

/// The bad entry among those that the list was made with: the only one; of several the first, one that is
/// neither first nor last, or the last.
const POSITIONS: [&str; 4] = ["only", "first", "middle", "last"];

/// The entry is bad in this way alone.
const WAYS: [(Way, &str); 3] = [
    (Way::HdrSize, "hdr_size wrong"),
    (Way::Length, "exceeds what is left"),
    (Way::VoidSize, "void's data_size no multiple of 8"),
];

/// A refusal 8: the list, the place that was said, and the places of the entries that the list was made with.
struct Bad<'a> {
    area: &'a [u8],
    at: usize,
    made: &'a [usize],
}

impl Bad<'_> {
    /// The index in `POSITIONS`; none where the list was not made with an entry there.
    fn position(&self) -> Option<usize> {
        let index = self.made.iter().position(|place| *place == self.at)?;
        let (is_first, is_last) = (index == 0, index + 1 == self.made.len());
        Some(match (is_first, is_last) {
            (true, true) => 0,
            (true, false) => 1,
            (false, false) => 2,
            (false, true) => 3,
        })
    }

    fn ways(&self) -> Vec<Way> {
        ways(self.area, self.at)
    }

    /// The ways of the next entry that is bad, where there is one.
    fn next(&self) -> Option<Vec<Way>> {
        let is_behind = |place: &&usize| **place > self.at && **place as u64 + 8 <= used(self.area);
        let all = self.made.iter().filter(is_behind).map(|place| ways(self.area, *place));
        all.into_iter().find(|ways| !ways.is_empty())
    }

    fn is_of_later_version(&self) -> bool {
        self.area[field::VERSION] > 1
    }

    fn has_header_past_the_end(&self) -> bool {
        self.at as u64 + hdr_size(self.area, self.at) > used(self.area)
    }

    /// By how many bytes the data ends behind used_size.
    fn excess(&self) -> u64 {
        data_end(self.area, self.at).saturating_sub(used(self.area))
    }

    fn sum(&self) -> u64 {
        data_end(self.area, self.at) - self.at as u64
    }
}

type Holds = fn(&Bad) -> bool;

/// Other sorts, and whether they are of later versions alone.
const SORTS: [(&str, Holds, bool); 9] = [
    ("in two ways", |bad| bad.ways().len() == 2, false),
    ("in three ways", |bad| bad.ways().len() == 3, false),
    ("too long by 1", |bad| bad.excess() == 1, false),
    ("sum 2^32 or more", |bad| bad.sum() >= 1 << 32, false),
    ("header past", |bad| bad.has_header_past_the_end(), false),
    ("another alike", |bad| bad.next().is_some_and(|next| next == bad.ways()), false),
    ("another unlike", |bad| bad.next().is_some_and(|next| next != bad.ways()), false),
    ("later version", |bad| bad.is_of_later_version(), true),
    ("header past in it", |bad| bad.is_of_later_version() && bad.has_header_past_the_end(), true),
];

/// For each of the calls, how often.
#[derive(Clone, Copy, Default)]
struct Seen {
    places: [[u64; POSITIONS.len()]; WAYS.len()],
    sorts: [u64; SORTS.len()],
}

#[derive(Default)]
pub struct EntrySights {
    seen: [Seen; CALLS.len()],
    /// Of the list that has its turn.
    made: Vec<usize>,
}

impl EntrySights {
    /// The next calls are made on a list that was made with entries at these places.
    pub fn turn_to(&mut self, made: Vec<usize>) {
        self.made = made;
    }

    /// Counts a refusal 8 at one of these places; other answers are left alone.
    pub fn count(&mut self, call: Call, area: Option<&[u8]>, answer: &impl Answer) {
        let (Some(area), ENTRY) = (area, answer.number()) else { return };
        let bad = Bad { area, at: answer.at() as usize, made: &self.made };
        let Some(position) = bad.position() else { return };
        let row = CALLS.iter().position(|counted| *counted == call).expect("a call that makes the check");
        let seen = &mut self.seen[row];
        for (count, (way, _)) in seen.places.iter_mut().zip(WAYS) {
            count[position] += u64::from(bad.ways() == [way]);
        }
        for (count, (_, holds, _)) in seen.sorts.iter_mut().zip(SORTS) {
            *count += u64::from(holds(&bad));
        }
    }

    /// The places, and then the other sorts.
    pub fn table(&self, title: &str) -> String {
        let mut table = format!("{title:<26}");
        WAYS.iter().for_each(|(_, way)| write!(table, "   {way:<33}").unwrap());
        write!(table, "\n{:<26}", "").unwrap();
        WAYS.iter().flat_map(|_| POSITIONS).for_each(|one| write!(table, "{one:>9}").unwrap());
        for (seen, call) in self.seen.iter().zip(CALLS) {
            write!(table, "\n{:<26}", call.name()).unwrap();
            seen.places.iter().flatten().for_each(|seen| write!(table, "{seen:>9}").unwrap());
        }
        write!(table, "\n{title:<26}").unwrap();
        SORTS.iter().for_each(|(name, ..)| write!(table, "{name:>18}").unwrap());
        for (seen, call) in self.seen.iter().zip(CALLS) {
            write!(table, "\n{:<26}", call.name()).unwrap();
            seen.sorts.iter().for_each(|seen| write!(table, "{seen:>18}").unwrap());
        }
        table
    }

    /// What a call never said the place of, or cannot have and did.
    pub fn unseen(&self) -> Vec<String> {
        self.seen.iter().zip(CALLS).flat_map(|(seen, call)| seen.unseen(call)).collect()
    }
}

impl Seen {
    fn unseen(&self, call: Call) -> Vec<String> {
        let mut unseen = Vec::new();
        for (counts, (_, way)) in self.places.iter().zip(WAYS) {
            for (_, position) in counts.iter().zip(POSITIONS).filter(|(count, _)| **count == 0) {
                unseen.push(format!("{} never said the place of an entry, {position}: {way}", call.name()));
            }
        }
        for (count, (name, _, is_later)) in self.sorts.iter().zip(SORTS) {
            match (!is_later || READERS.contains(&call), *count) {
                (true, 0) => unseen.push(format!("{} never said the place of an entry: {name}", call.name())),
                (false, 1..) => unseen.push(format!("{} said the place of an entry: {name}", call.name())),
                _ => {}
            }
        }
        unseen
    }
}

//! What document 02, request 9, demands of an edit with a journal and of recovery, said a second time. It knows
//! nothing of the model's stores: it sees both buffers before the edit, after each step and after a recovery,
//! and the area that the plain edit makes, and judges by these bytes alone.

use crate::demand::demand;
use std::collections::BTreeSet;

/// Both buffers at one moment.
#[derive(Clone, Copy, Debug, PartialEq, Eq)]
pub struct Sight<'a> {
    pub area: &'a [u8],
    pub journal: &'a [u8],
}

const WORD_KIND: u8 = 1;
const COMMIT_KIND: u8 = 2;

/// How many whole records there are.
fn whole(journal: &[u8]) -> usize {
    journal.len() / 16
}

fn kind(journal: &[u8], index: usize) -> u8 {
    journal[16 * index]
}

/// Where the first commit is, if there is one.
fn commit(journal: &[u8]) -> Option<usize> {
    (0..whole(journal)).find(|index| kind(journal, *index) == COMMIT_KIND)
}

fn all_kinds_are_0(journal: &[u8]) -> bool {
    (0..whole(journal)).all(|index| kind(journal, index) == 0)
}

/// The offsets of the words that differ, found byte by byte.
fn changed(old: &[u8], new: &[u8]) -> BTreeSet<usize> {
    let places = old.iter().zip(new).enumerate().filter(|(_, (old, new))| old != new);
    places.map(|(place, _)| place - place % 8).collect()
}

/// Whether a record says of a word that changes what is to stand there.
fn is_word_of(record: &[u8], offset: usize, new: &[u8]) -> bool {
    let said = offset as u64 == u64::from(u32::from_le_bytes([record[4], record[5], record[6], record[7]]));
    record[..4] == [WORD_KIND, 0, 0, 0] && said && record[8..] == new[offset..offset + 8]
}

/// What holds of a recovery that was not refused, whatever was cut before it: the area becomes the old one or
/// the new one, "the new one once the commit is stored"; all kinds are 0; no other byte of the journal changes.
/// The commit has been stored where it stands in the journal, or where the area is the new one already.
pub fn after_recovery(old: &[u8], new: &[u8], cut: Sight, recovered: Sight) -> Result<(), String> {
    let is_new = recovered.area == new;
    demand(is_new || recovered.area == old, "recovery gives the old area or the new one")?;
    let is_committed = commit(cut.journal).is_some() || cut.area == new;
    demand(is_new == is_committed, "recovery gives the new area once the commit is stored, and not before")?;
    demand(all_kinds_are_0(recovered.journal), "after recovery all kinds are 0")?;
    demand(same_but_kinds(cut.journal, recovered.journal), "recovery stores no other byte of the journal")
}

/// What holds of any recovery that answered this number, whatever stood in the journal: refused, it changes nothing.
/// Else all kinds are 0 and no other byte of the journal has changed; and the area changes only if the first
/// record that is not a word is a commit, and only at the words before it, which are there afterwards, the last
/// one for each place.
pub fn after_any_recovery(before: Sight, after: Sight, number: u32) -> Result<(), String> {
    if number != 0 {
        return demand(after == before, "a refused recovery changes nothing");
    }
    demand(all_kinds_are_0(after.journal), "after recovery all kinds are 0")?;
    demand(same_but_kinds(before.journal, after.journal), "recovery stores no other byte of the journal")?;
    let mut wanted = before.area.to_vec();
    let words = (0..whole(before.journal)).find(|index| kind(before.journal, *index) != WORD_KIND);
    if let Some(words) = words.filter(|index| kind(before.journal, *index) == COMMIT_KIND) {
        for record in before.journal.chunks(16).take(words) {
            let offset = u32::from_le_bytes([record[4], record[5], record[6], record[7]]) as usize;
            demand(offset + 8 <= wanted.len(), "a word that is applied lies in the area")?;
            wanted[offset..offset + 8].copy_from_slice(&record[8..]);
        }
    }
    demand(after.area == wanted, "the words are applied if the first other record is a commit")
}

/// What holds of a whole edit with a journal that was not refused: the new area; and the journal keeps, but for the
/// kinds, a record of each word that has changed, in rising order, and zeros in the next; the rest stays.
pub fn after_edit(old: &[u8], new: &[u8], journal: &[u8], after: Sight) -> Result<(), String> {
    demand(after.area == new, "a finished edit leaves the new area")?;
    demand(all_kinds_are_0(after.journal), "a finished edit leaves all kinds 0")?;
    let mut wanted = Vec::with_capacity(journal.len());
    for offset in changed(old, new) {
        wanted.extend([0; 4]);
        wanted.extend((offset as u32).to_le_bytes());
        wanted.extend(&new[offset..offset + 8]);
    }
    wanted.extend([0; 16]);
    demand(wanted.len() <= 16 * whole(journal), "the whole records are enough for the words and a commit")?;
    wanted.extend(&journal[wanted.len()..]);
    demand(after.journal == wanted, "spent records keep their bytes 1 to 15, and others all of theirs")
}

fn same_but_kinds(one: &[u8], other: &[u8]) -> bool {
    let is_kind = |place: usize| place.is_multiple_of(16) && place / 16 < whole(one);
    one.len() == other.len() && (0..one.len()).all(|place| one[place] == other[place] || is_kind(place))
}

/// An edit as it was seen: first before it, and then after each of its steps.
pub struct Story<'a> {
    new: &'a [u8],
    first_journal: &'a [u8],
    changed: BTreeSet<usize>,
    area: Vec<u8>,
    journal: Vec<u8>,
    steps: usize,
    /// The journal as it was when the commit came.
    committed: Option<Vec<u8>>,
}

impl<'a> Story<'a> {
    pub fn new(old: &'a [u8], new: &'a [u8], journal: &'a [u8]) -> Story<'a> {
        let changed = changed(old, new);
        let (area, last) = (old.to_vec(), journal.to_vec());
        Story { new, first_journal: journal, changed, area, journal: last, steps: 0, committed: None }
    }

    /// What holds after a step that has not been told of yet.
    pub fn step(&mut self, seen: Sight) -> Result<(), String> {
        self.steps += 1;
        let in_area = differing(&self.area, seen.area)?;
        let in_journal = differing(&self.journal, seen.journal)?;
        demand(in_area.len() + in_journal.len() <= 1, "a step stores at most one byte")?;
        if let Some(place) = in_area.first() {
            demand(self.committed.is_some(), "the area stays until the commit is stored")?;
            demand(commit(&self.journal).is_some(), "words are applied before the kinds are cleared")?;
            demand(seen.area[*place] == self.new[*place], "an applied byte is the new one")?;
            self.area[*place] = seen.area[*place];
        }
        if let Some(place) = in_journal.first() {
            self.journal[*place] = seen.journal[*place];
            self.journal_changed(*place)?;
        }
        Ok(())
    }

    fn journal_changed(&mut self, place: usize) -> Result<(), String> {
        let (index, byte) = (place / 16, place % 16);
        demand(index < whole(&self.journal), "odd bytes behind the records are never written")?;
        let value = self.journal[place];
        match (&self.committed, byte, value) {
            (Some(_), 0, 0) => {
                demand(self.area == self.new, "kinds are cleared once the area is the new one")
            }
            (Some(_), ..) => demand(false, "behind the commit nothing but kinds is stored in the journal"),
            (None, 0, WORD_KIND) => self.word_came(index),
            (None, 0, COMMIT_KIND) => self.commit_came(index),
            (None, 0, _) => demand(false, "a kind is 1 or 2 when it is stored, until the commit is"),
            (None, ..) => demand(kind(&self.journal, index) == 0, "a record's kind is stored last"),
        }
    }

    /// "One word record for each 8-byte word that changes, in rising order", and "its kind last".
    fn word_came(&self, index: usize) -> Result<(), String> {
        let Some(offset) = self.changed.iter().nth(index) else {
            return demand(false, "there is one word record for each word that changes");
        };
        let record = &self.journal[16 * index..16 * index + 16];
        demand(is_word_of(record, *offset, self.new), "when its kind is stored, a word's record is whole")?;
        let all_before = (0..index).all(|before| kind(&self.journal, before) == WORD_KIND);
        demand(all_before, "the records come one after the other")
    }

    /// "Then one commit record with zeros."
    fn commit_came(&mut self, index: usize) -> Result<(), String> {
        let all_before = (0..index).all(|before| kind(&self.journal, before) == WORD_KIND);
        demand(index == self.changed.len() && all_before, "the commit comes behind the last word")?;
        let rest = &self.journal[16 * index + 1..16 * index + 16];
        demand(rest.iter().all(|byte| *byte == 0), "the commit has zeros")?;
        self.committed = Some(self.journal.clone());
        Ok(())
    }

    /// What holds when the last step has given its answer.
    pub fn end(&self) -> Result<(), String> {
        demand(self.area == self.new, "a finished edit leaves the new area")?;
        let Some(committed) = &self.committed else {
            return demand(false, "a finished edit has stored its commit");
        };
        demand(all_kinds_are_0(&self.journal), "a finished edit leaves all kinds 0")?;
        demand(same_but_kinds(committed, &self.journal), "spent records keep their bytes 1 to 15")?;
        let (words, records) = (self.changed.len(), whole(&self.journal));
        let used = 16 * (words + 1);
        demand(self.journal[used..] == self.first_journal[used..], "other records keep all their bytes")?;
        demand(self.steps == used + 8 * words + records, "every byte that is to be stored is a step")
    }
}

/// The places where two buffers differ, of which there may be two at the most.
fn differing(one: &[u8], other: &[u8]) -> Result<Vec<usize>, String> {
    demand(one.len() == other.len(), "a buffer keeps its length")?;
    if one == other {
        return Ok(Vec::new());
    }
    Ok((0..one.len()).filter(|place| one[*place] != other[*place]).take(2).collect())
}

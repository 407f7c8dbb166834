//! What stood in the journals of document 02, request 9, that edits and recoveries met, how often, and that each
//! of it must have been seen.

use crate::model_journal::{kind, records, Record, Word, JOURNAL, RECORD, RECOVERY};
use std::fmt::Write;

/// An edit that the plain call accepts, by the words that it changes, with its journal; its number is 0 or 16.
struct Edited<'a> {
    old: &'a [u8],
    words: &'a [Word],
    journal: &'a [u8],
    kinds: Vec<u8>,
    number: u32,
}

impl Edited<'_> {
    fn changes(&self, offset: u32) -> bool {
        self.words.iter().any(|word| word.offset == offset)
    }

    fn is_long_enough(&self) -> bool {
        self.words.len() < self.kinds.len()
    }

    fn spare(&self) -> bool {
        self.kinds.len() > self.words.len() + 1
    }

    /// Whether a byte of a changed word stays as it was.
    fn keeps_a_byte(&self) -> bool {
        let old = |word: &Word| &self.old[word.offset as usize..];
        self.words.iter().any(|word| word.bytes.iter().zip(old(word)).any(|(new, old)| new == old))
    }

    fn is_dirty(&self) -> bool {
        let used = RECORD * (self.words.len() + 1);
        self.journal.len() >= used && self.journal[..used].iter().any(|byte| *byte != 0)
    }

    /// Where the one kind is that is not 0, where there is just one, and all else would do.
    fn one_kind(&self) -> Option<(usize, u8)> {
        let mut others = self.kinds.iter().copied().enumerate().filter(|(_, kind)| *kind != 0);
        let first = others.next().filter(|_| self.is_long_enough());
        first.filter(|_| others.next().is_none())
    }

    fn refused_for_length(&self, len: usize) -> bool {
        self.number == JOURNAL && self.journal.len() == len && self.kinds.iter().all(|kind| *kind == 0)
    }
}

type OfEdit = fn(&Edited) -> bool;

const EDITS: [(&str, OfEdit); 24] = [
    ("one word alone changes", |it| it.number == 0 && it.words.len() == 1),
    ("the header's first word changes", |it| it.number == 0 && it.changes(0)),
    ("the header's first word stays", |it| it.number == 0 && !it.changes(0)),
    ("the header's second word changes", |it| it.number == 0 && it.changes(8)),
    ("the header's second word stays", |it| it.number == 0 && !it.changes(8)),
    ("a byte of a changed word stays", |it| it.number == 0 && it.keeps_a_byte()),
    ("just as many records as needed", |it| it.number == 0 && !it.spare()),
    ("records left over", |it| it.number == 0 && it.spare()),
    ("odd bytes behind the records", |it| it.number == 0 && it.journal.len() % RECORD != 0),
    ("spent records with other bytes", |it| it.number == 0 && it.is_dirty()),
    ("an area that ends within a word", |it| it.number == 0 && it.old.len() % 8 != 0),
    ("a journal of 32 bytes", |it| it.number == 0 && it.journal.len() == 32),
    ("16: a journal of 0 bytes", |it| it.refused_for_length(0)),
    ("16: a journal of 15 bytes", |it| it.refused_for_length(15)),
    ("16: a journal of 16 bytes", |it| it.refused_for_length(16)),
    ("16: a journal of 31 bytes", |it| it.refused_for_length(31)),
    ("16: a journal of 32 bytes", |it| it.refused_for_length(32)),
    ("16: as many records as words", |it| it.refused_for_length(RECORD * it.words.len())),
    ("16: a kind where it would write", |it| it.one_kind().is_some_and(|one| one.0 <= it.words.len())),
    ("16: a kind where it would not", |it| it.one_kind().is_some_and(|one| one.0 > it.words.len())),
    ("16: kind 1 alone", |it| it.one_kind().is_some_and(|one| one.1 == kind::WORD)),
    ("16: kind 2 alone", |it| it.one_kind().is_some_and(|one| one.1 == kind::COMMIT)),
    ("16: a kind over 2 alone", |it| it.one_kind().is_some_and(|one| one.1 > kind::COMMIT)),
    ("16: too short, and a kind", |it| !it.is_long_enough() && it.kinds.iter().any(|kind| *kind != 0)),
];

/// What recovery finds, and its number.
struct Recovered<'a> {
    area: &'a [u8],
    journal: &'a [u8],
    records: Vec<Record>,
    number: u32,
    /// How many words stand in front, and whether a commit is next.
    words: usize,
    has_commit: bool,
}

impl Recovered<'_> {
    fn kind(&self, index: usize) -> u8 {
        self.records[index][0]
    }

    fn offset(&self, index: usize) -> u64 {
        u64::from(u32::from_le_bytes(self.records[index][4..8].try_into().unwrap()))
    }

    fn is_bad(&self, index: usize) -> bool {
        self.kind(index) == kind::WORD
            && (!self.offset(index).is_multiple_of(8) || self.offset(index) + 8 > self.area.len() as u64)
    }

    /// Whether words are applied.
    fn applies(&self) -> bool {
        self.number == 0 && self.has_commit && self.words > 0
    }

    fn any_applied(&self, holds: impl Fn(usize) -> bool) -> bool {
        self.applies() && (0..self.words).any(holds)
    }

    /// Of the records behind the commit, where there is one, else behind the words.
    fn any_behind(&self, holds: impl Fn(usize) -> bool) -> bool {
        (self.words + usize::from(self.has_commit)..self.records.len()).any(holds)
    }

    fn is_later_of_equals(&self, index: usize) -> bool {
        let differs = |before: usize| self.records[before][8..] != self.records[index][8..];
        (0..index).any(|before| self.offset(before) == self.offset(index) && differs(before))
    }

    /// Where the one record is for which recovery refuses, where there is just one.
    fn one_fault(&self) -> Option<usize> {
        let is_fault = |index: &usize| {
            self.kind(*index) > kind::COMMIT || self.has_commit && *index < self.words && self.is_bad(*index)
        };
        let mut faults = (0..self.records.len()).filter(is_fault);
        let first = faults.next().filter(|_| self.number == RECOVERY);
        first.filter(|_| faults.next().is_none())
    }

    fn one_kind(&self, holds: impl Fn(usize) -> bool) -> bool {
        self.one_fault().is_some_and(|index| self.kind(index) > kind::COMMIT && holds(index))
    }

    fn one_offset(&self, holds: impl Fn(u64) -> bool) -> bool {
        self.one_fault().is_some_and(|index| self.kind(index) == kind::WORD && holds(self.offset(index)))
    }

    /// By how many bytes the one word that is too far ends behind the area.
    fn is_over_by(&self, bytes: u64) -> bool {
        self.one_offset(|offset| offset % 8 == 0 && offset + 8 == self.area.len() as u64 + bytes)
    }
}

type OfRecovery = fn(&Recovered) -> bool;

const RECOVERIES: [(&str, OfRecovery); 38] = [
    ("no byte", |it| it.journal.is_empty()),
    ("no whole record", |it| matches!(it.journal.len(), 1..RECORD)),
    ("records all empty", |it| !it.records.is_empty() && it.records.iter().all(|one| one[0] == 0)),
    ("words and no commit", |it| it.number == 0 && it.words > 0 && it.words == it.records.len()),
    ("words, an empty one, a commit", |it| {
        it.number == 0 && it.words > 0 && !it.has_commit && it.any_behind(|at| it.kind(at) == kind::COMMIT)
    }),
    ("a commit first", |it| it.number == 0 && it.words == 0 && it.has_commit),
    ("words applied", |it| it.applies()),
    ("words behind the commit", |it| it.applies() && it.any_behind(|at| it.kind(at) == kind::WORD)),
    ("bad words behind the commit", |it| it.applies() && it.any_behind(|at| it.is_bad(at))),
    ("a second commit", |it| it.applies() && it.any_behind(|at| it.kind(at) == kind::COMMIT)),
    ("bad words and no commit", |it| {
        it.number == 0 && !it.has_commit && (0..it.words).any(|at| it.is_bad(at))
    }),
    ("a later word for the same offset", |it| it.any_applied(|at| it.is_later_of_equals(at))),
    ("bytes 1 to 3 of a word not 0", |it| it.any_applied(|at| it.records[at][1..4] != [0; 3])),
    ("the commit's bytes not 0", |it| it.applies() && it.records[it.words][1..] != [0; 15]),
    ("an empty one's bytes not 0", |it| {
        it.number == 0 && it.any_behind(|at| it.kind(at) == 0 && it.records[at][1..] != [0; 15])
    }),
    ("odd bytes behind the records", |it| it.applies() && it.journal.len() % RECORD != 0),
    ("the area's last word", |it| it.any_applied(|at| it.offset(at) + 8 == it.area.len() as u64)),
    ("an area that ends within a word", |it| it.applies() && it.area.len() % 8 != 0),
    ("an area of no byte", |it| it.number == 0 && it.area.is_empty() && !it.records.is_empty()),
    ("an area that is no list", |it| it.applies() && !it.area.starts_with(&[0x0b, 0xb1, 0x0f, 0x4a])),
    ("17: a kind over 2 in front", |it| it.one_kind(|at| at == 0)),
    ("17: one behind words", |it| it.one_kind(|at| at > 0 && at == it.words)),
    ("17: one behind the commit", |it| it.has_commit && it.one_kind(|at| at > it.words)),
    ("17: one behind an empty one", |it| !it.has_commit && it.one_kind(|at| at > it.words)),
    ("17: an offset no multiple of 8", |it| it.one_offset(|offset| offset + 8 <= it.area.len() as u64)),
    ("17: in the first of several words", |it| it.words > 1 && it.one_fault() == Some(0)),
    ("17: in the last of several words", |it| it.words > 1 && it.one_fault() == Some(it.words - 1)),
    ("17: the offset 0xfffffff8", |it| it.one_offset(|offset| offset == 0xffff_fff8)),
    ("17: an area of no byte", |it| it.area.is_empty() && it.one_offset(|_| true)),
    ("17: more than one cause", |it| it.number == RECOVERY && it.one_fault().is_none()),
    ("17: offset + 8 over L by 1", |it| it.is_over_by(1)),
    ("17: offset + 8 over L by 2", |it| it.is_over_by(2)),
    ("17: offset + 8 over L by 3", |it| it.is_over_by(3)),
    ("17: offset + 8 over L by 4", |it| it.is_over_by(4)),
    ("17: offset + 8 over L by 5", |it| it.is_over_by(5)),
    ("17: offset + 8 over L by 6", |it| it.is_over_by(6)),
    ("17: offset + 8 over L by 7", |it| it.is_over_by(7)),
    ("17: offset + 8 over L by 8", |it| it.is_over_by(8)),
];

pub struct JournalSights {
    edits: [u64; EDITS.len()],
    recoveries: [u64; RECOVERIES.len()],
}

impl Default for JournalSights {
    fn default() -> JournalSights {
        JournalSights { edits: [0; EDITS.len()], recoveries: [0; RECOVERIES.len()] }
    }
}

fn kinds(journal: &[u8]) -> Vec<u8> {
    journal.chunks_exact(RECORD).map(|record| record[0]).collect()
}

impl JournalSights {
    /// Counts an edit that the plain call accepts, and that changes these words.
    pub fn edit(&mut self, old: &[u8], words: &[Word], journal: &[u8], number: u32) {
        let edited = Edited { old, words, journal, kinds: kinds(journal), number };
        for (seen, (_, holds)) in self.edits.iter_mut().zip(EDITS) {
            *seen += u64::from(holds(&edited));
        }
    }

    pub fn recovery(&mut self, area: &[u8], journal: &[u8], number: u32) {
        let kinds = kinds(journal);
        let words = kinds.iter().take_while(|one| **one == kind::WORD).count();
        let has_commit = kinds.get(words) == Some(&kind::COMMIT);
        let recovered = Recovered { area, journal, records: records(journal), number, words, has_commit };
        for (seen, (_, holds)) in self.recoveries.iter_mut().zip(RECOVERIES) {
            *seen += u64::from(holds(&recovered));
        }
    }

    pub fn table(&self) -> String {
        let mut table = format!("{:<39}{:>9}", "journalled edits, with", "times");
        for (seen, (name, _)) in self.edits.iter().zip(EDITS) {
            write!(table, "\n{name:<39}{seen:>9}").unwrap();
        }
        write!(table, "\n{:<39}{:>9}", "recoveries, with", "times").unwrap();
        for (seen, (name, _)) in self.recoveries.iter().zip(RECOVERIES) {
            write!(table, "\n{name:<39}{seen:>9}").unwrap();
        }
        table
    }

    /// What no journal had.
    pub fn unseen(&self) -> Vec<String> {
        let edits = self.edits.iter().zip(EDITS).filter(|(seen, _)| **seen == 0);
        let recoveries = self.recoveries.iter().zip(RECOVERIES).filter(|(seen, _)| **seen == 0);
        let edits = edits.map(|(_, (name, _))| format!("no journalled edit with {name}"));
        edits.chain(recoveries.map(|(_, (name, _))| format!("no recovery with {name}"))).collect()
    }
}

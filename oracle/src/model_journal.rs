//! The job of document 02, request 9: add, add aligned and void "with a journal in a second lent buffer", and
//! recovery. A call decides first, and stores nothing; then it makes its stores, each of a single byte, one
//! after the other. Whole calls make all of them, a step makes one, and what a cut leaves is made by those
//! before it.
//!
//! The plain edits of document 01 say which area is the new one and what is answered; here is only said what
//! is stored where, and in which order.

use crate::demand::Edit;
use crate::model::{self, Done};

/// "Refusal 16, after all others."
pub const JOURNAL: u32 = 16;
/// What recovery refuses with.
pub const RECOVERY: u32 = 17;

/// "A row of 16-byte records with no header."
pub const RECORD: usize = 16;
pub const WORD: usize = 8;

/// "Kind at byte 0 (0 empty, 1 word, 2 commit)."
pub mod kind {
    pub const EMPTY: u8 = 0;
    pub const WORD: u8 = 1;
    pub const COMMIT: u8 = 2;
}

/// Which of the two buffers a byte is stored in.
#[derive(Clone, Copy, Debug, PartialEq, Eq)]
pub enum Lent {
    Area,
    Journal,
}

/// One stored byte.
#[derive(Clone, Copy, Debug, PartialEq, Eq)]
pub struct Store {
    pub buffer: Lent,
    pub place: usize,
    pub value: u8,
}

impl Store {
    fn in_area(place: usize, value: u8) -> Store {
        Store { buffer: Lent::Area, place, value }
    }

    fn in_journal(place: usize, value: u8) -> Store {
        Store { buffer: Lent::Journal, place, value }
    }

    pub fn make(&self, area: &mut [u8], journal: &mut [u8]) {
        match self.buffer {
            Lent::Area => area[self.place] = self.value,
            Lent::Journal => journal[self.place] = self.value,
        }
    }
}

pub type Record = [u8; RECORD];

/// A word of the area: where it begins, and what is to stand there.
#[derive(Clone, Copy, Debug, PartialEq, Eq)]
pub struct Word {
    pub offset: u32,
    pub bytes: [u8; WORD],
}

impl Word {
    /// "Kind at byte 0, three zero bytes, a 4-byte offset, eight data bytes."
    fn record(&self) -> Record {
        let mut record = [0; RECORD];
        record[0] = kind::WORD;
        record[4..8].copy_from_slice(&self.offset.to_le_bytes());
        record[8..].copy_from_slice(&self.bytes);
        record
    }

    fn of(record: &Record) -> Word {
        let (offset, bytes) = (&record[4..8], &record[8..]);
        Word { offset: u32::from_le_bytes(offset.try_into().unwrap()), bytes: bytes.try_into().unwrap() }
    }

    /// Not: "an offset that is no multiple of 8 or offset + 8 exceeds L"; no sum wraps.
    fn stands_in(&self, area_len: usize) -> bool {
        self.offset.is_multiple_of(8) && self.offset as u128 + 8 <= area_len as u128
    }

    /// "Every byte stored, rising, changed or not."
    fn stores(self) -> impl Iterator<Item = Store> {
        (0..WORD).map(move |byte| Store::in_area(self.offset as usize + byte, self.bytes[byte]))
    }
}

/// "One commit record with zeros."
const COMMIT: Record = [kind::COMMIT, 0, 0, 0, 0, 0, 0, 0, 0, 0, 0, 0, 0, 0, 0, 0];

/// "Each record's bytes 1 to 15 rising and its kind last."
fn record_stores(index: usize, record: Record) -> impl Iterator<Item = Store> {
    let start = index * RECORD;
    (1..RECORD).chain([0]).map(move |byte| Store::in_journal(start + byte, record[byte]))
}

/// What a call has decided before its first store: the answer, and all that it is to store. A refused call
/// stores nothing.
#[derive(Clone, Debug, Default)]
pub struct Decided {
    pub done: Done,
    /// The records written, from the first one of the journal on.
    written: Vec<Record>,
    /// The words applied.
    applied: Vec<Word>,
    /// The whole records whose kind is stored as 0.
    cleared: usize,
}

impl Decided {
    fn refusal(done: Done) -> Decided {
        Decided { done, ..Decided::default() }
    }

    /// The stores in their order.
    pub fn each_store(&self) -> impl Iterator<Item = Store> + '_ {
        let written =
            self.written.iter().enumerate().flat_map(|(index, record)| record_stores(index, *record));
        let applied = self.applied.iter().flat_map(|word| word.stores());
        // "Then the kind of every whole record is stored as 0, 0 already or not, first to last."
        let cleared = (0..self.cleared).map(|index| Store::in_journal(index * RECORD, kind::EMPTY));
        written.chain(applied).chain(cleared)
    }

    pub fn stores(&self) -> Vec<Store> {
        self.each_store().collect()
    }

    /// The whole call: all stores, and the answer.
    pub fn run(&self, area: &mut [u8], journal: &mut [u8]) -> Done {
        self.each_store().for_each(|store| store.make(area, journal));
        self.done
    }

    pub fn words(&self) -> &[Word] {
        &self.applied
    }
}

/// The whole records; "odd bytes behind them are never written".
pub fn records(journal: &[u8]) -> Vec<Record> {
    journal.chunks_exact(RECORD).map(|record| record.try_into().unwrap()).collect()
}

/// The plain call; the area becomes the new one where it is accepted.
pub fn plain(area: &mut [u8], base: u64, edit: &Edit) -> Done {
    match *edit {
        Edit::Add { tag, data, use_voids } => model::add(area, base, tag, data, use_voids),
        Edit::AddAligned { tag, data, exponent } => model::add_aligned(area, base, tag, data, exponent),
        Edit::Void { tag, n } => model::void(area, base, tag, n),
    }
}

/// "Forms of add, add aligned and void with a journal."
pub fn edit(area: &[u8], base: u64, edit: &Edit, journal: &[u8]) -> Decided {
    let mut new = area.to_vec();
    let done = plain(&mut new, base, edit);
    after_plain(area, &new, done, journal)
}

/// The same, where the plain call made this area of the old one and gave this answer.
pub fn after_plain(old: &[u8], new: &[u8], done: Done, journal: &[u8]) -> Decided {
    if done.number != 0 {
        return Decided::refusal(done);
    }
    let applied = changed_words(old, new);
    let records = records(journal);
    // "Exactly when some kind is not 0 or the changed words plus one exceed the whole records in the buffer."
    if records.iter().any(|record| record[0] != kind::EMPTY) || applied.len() + 1 > records.len() {
        return Decided::refusal(Done { number: JOURNAL, ..Done::default() });
    }
    let mut written: Vec<Record> = applied.iter().map(Word::record).collect();
    written.push(COMMIT);
    Decided { done, written, applied, cleared: records.len() }
}

/// "Each 8-byte word of the area that changes, in rising order." Words count from the area's first byte; what is
/// left behind the last whole one is no word, and no edit changes it, since total_size is a multiple of 8.
pub fn changed_words(old: &[u8], new: &[u8]) -> Vec<Word> {
    let (old, new) = (old.chunks_exact(WORD), new.chunks_exact(WORD));
    assert_eq!(old.remainder(), new.remainder());
    let pairs = old.zip(new).enumerate().filter(|(_, (old, new))| old != new);
    let word =
        |index: usize, bytes: &[u8]| Word { offset: (index * WORD) as u32, bytes: bytes.try_into().unwrap() };
    pairs.map(|(index, (_, new))| word(index, new)).collect()
}

/// "Recovery applies the words if the first record that is not a word is a commit, and then, applied or not,
/// clears the same way." It "makes no other check: it gives 17 and changes nothing exactly when a kind exceeds 2,
/// or a word it would apply has an offset that is no multiple of 8 or offset + 8 exceeds L".
pub fn recover(area_len: usize, journal: &[u8]) -> Decided {
    let records = records(journal);
    let applied = words_to_apply(&records);
    let has_unknown = records.iter().any(|record| record[0] > kind::COMMIT);
    if has_unknown || applied.iter().any(|word| !word.stands_in(area_len)) {
        return Decided::refusal(Done { number: RECOVERY, ..Done::default() });
    }
    Decided { done: Done::default(), written: Vec::new(), applied, cleared: records.len() }
}

fn words_to_apply(records: &[Record]) -> Vec<Word> {
    let first_other = records.iter().position(|record| record[0] != kind::WORD);
    match first_other {
        Some(index) if records[index][0] == kind::COMMIT => records[..index].iter().map(Word::of).collect(),
        _ => Vec::new(),
    }
}

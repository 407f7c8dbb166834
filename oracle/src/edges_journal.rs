//! The edges of the edits of document 02, request 9, made on purpose on every run: journals of every length around
//! those that are needed, every kind in every record, bytes that are not judged, every other refusal together
//! with a journal that would be refused, areas that end within a word, buffers without a byte, and the longest.

use crate::compare::Bench;
use crate::edges_tidy::{by_hand, change_by, expect, pieces, with_runs, REFUSALS};
use oracle::demand::Edit;
use oracle::lists::{List, MOST_LENT};
use oracle::model::{self, CERTIFICATE_TAG};
use oracle::model_journal::{changed_words, kind, plain, JOURNAL, RECORD};

const HAS_CHECKSUM: u32 = 1;
const NO_CHECKSUM: u32 = 0;
const DATA: [u8; 11] = [1, 2, 3, 4, 5, 6, 7, 8, 9, 10, 11];
/// The first fits the small void behind no data, the second the large one; the aligned ones have no padding, and
/// some.
const EDITS: [Edit; 8] = [
    Edit::Add { tag: 3, data: &[], use_voids: true },
    Edit::Add { tag: 3, data: &DATA, use_voids: true },
    Edit::Add { tag: 3, data: &DATA, use_voids: false },
    Edit::AddAligned { tag: 3, data: &DATA, exponent: 3 },
    Edit::AddAligned { tag: 3, data: &[], exponent: 6 },
    Edit::AddAligned { tag: 3, data: &DATA, exponent: 7 },
    Edit::Void { tag: 1, n: 0 },
    Edit::Void { tag: 2, n: 0 },
];
const KINDS: [u8; 6] = [kind::WORD, kind::COMMIT, 3, 0x10, 0x80, 0xff];

/// Voids without data, with data, a live entry with padding that is not 0 and one without data; room for more.
fn list(flags: u32, rest: usize) -> List {
    let [live, empty, small, _, dirty] = pieces();
    by_hand(3, flags, &[&small[..], &live, &dirty, &empty].concat(), 160, rest)
}

/// So many bytes whose whole records are empty; no other byte is 0.
fn spent(len: usize) -> Vec<u8> {
    let mut journal = vec![0xb7; len];
    journal.chunks_exact_mut(RECORD).for_each(|record| record[0] = kind::EMPTY);
    journal
}

/// How many words an accepted edit changes.
fn words_of(list: &List, edit: &Edit) -> Result<usize, String> {
    let mut new = list.area.clone();
    expect(plain(&mut new, list.base, edit).number, 0)?;
    Ok(changed_words(&list.area, &new).len())
}

/// Journals that every edit refuses: too short, or with a kind that is not 0.
fn refused_journals() -> Vec<Vec<u8>> {
    let with = |record: usize, kind: u8| {
        let mut journal = spent(RECORD * 64);
        journal[RECORD * record] = kind;
        journal
    };
    vec![Vec::new(), spent(15), spent(16), spent(31), with(0, 1), with(63, 2), with(1, 3), vec![0xff; 40]]
}

/// Edits that a list with room refuses for another reason.
const REFUSED: [(u32, Edit); 16] = [
    (model::TAG, Edit::Add { tag: 0, data: &DATA, use_voids: true }),
    (model::TAG, Edit::Add { tag: 0x80_0000, data: &DATA, use_voids: false }),
    (model::SHAPE, Edit::Add { tag: 6, data: &DATA, use_voids: true }),
    (model::SHAPE, Edit::Add { tag: CERTIFICATE_TAG, data: &DATA, use_voids: false }),
    (model::ROOM, Edit::Add { tag: 3, data: &[7; 153], use_voids: true }),
    (model::ROOM, Edit::Add { tag: 3, data: &[7; 4096], use_voids: false }),
    (model::TAG, Edit::AddAligned { tag: 0x100_0003, data: &DATA, exponent: 3 }),
    (model::SHAPE, Edit::AddAligned { tag: 5, data: &[], exponent: 2 }),
    (model::ALIGN, Edit::AddAligned { tag: 3, data: &DATA, exponent: 2 }),
    (model::ALIGN, Edit::AddAligned { tag: 3, data: &[7; 4096], exponent: 22 }),
    (model::ROOM, Edit::AddAligned { tag: 3, data: &[7; 153], exponent: 3 }),
    (model::ROOM, Edit::AddAligned { tag: 3, data: &DATA, exponent: 21 }),
    (model::TAG, Edit::Void { tag: 0, n: 0 }),
    (model::TAG, Edit::Void { tag: 0x100_0001, n: 0 }),
    (model::NONE, Edit::Void { tag: 3, n: 0 }),
    (model::NONE, Edit::Void { tag: 1, n: 1 }),
];

impl Bench {
    pub fn edges_journal(&mut self) -> Result<(), String> {
        for flags in [HAS_CHECKSUM, NO_CHECKSUM] {
            for rest in 0..8 {
                for edit in EDITS {
                    self.journal_lengths(&list(flags, rest), &edit)?;
                }
            }
            for edit in EDITS {
                self.journal_kinds(&list(flags, 3), &edit)?;
                self.journal_bytes(&list(flags, 5), &edit)?;
            }
        }
        self.one_word_alone()?;
        self.refusals_before_16()?;
        self.edits_without_a_byte()?;
        self.longest_journals()
    }

    /// Too short, just long enough, and longer, with odd bytes behind the records; accepted where there are more
    /// whole records than words.
    fn journal_lengths(&mut self, list: &List, edit: &Edit) -> Result<(), String> {
        let words = words_of(list, edit)?;
        let needed = RECORD * (words + 1);
        let around = (needed - RECORD - 1..=needed + RECORD + 1).chain([needed + 90]);
        for len in [0, 1, 15, 16, 17, 31, 32, 33].into_iter().chain(around) {
            let number = if len >= needed { 0 } else { JOURNAL };
            for journal in [spent(len), vec![0; len]] {
                expect(self.edit_with(list, edit, &journal)?.number, number)?;
            }
        }
        Ok(())
    }

    /// Each kind in each record, whether the edit would use it or not; in the odd bytes it is none.
    fn journal_kinds(&mut self, list: &List, edit: &Edit) -> Result<(), String> {
        let words = words_of(list, edit)?;
        for records in [words, words + 1, words + 3] {
            for (index, kind) in (0..records).flat_map(|index| KINDS.map(|kind| (index, kind))) {
                let mut journal = spent(RECORD * records + 4);
                journal[RECORD * index] = kind;
                expect(self.edit_with(list, edit, &journal)?.number, JOURNAL)?;
            }
        }
        for kind in KINDS {
            let mut journal = spent(RECORD * (words + 1) + 9);
            journal[RECORD * (words + 1)] = kind;
            expect(self.edit_with(list, edit, &journal)?.number, 0)?;
        }
        Ok(())
    }

    /// Each of the bytes 1 to 15 of each record, as a journal left it that looks like more than it is.
    fn journal_bytes(&mut self, list: &List, edit: &Edit) -> Result<(), String> {
        let records = words_of(list, edit)? + 2;
        for place in (0..RECORD * records + 5).filter(|place| place % RECORD != 0) {
            let mut journal = vec![0; RECORD * records + 5];
            journal[place] = 2;
            expect(self.edit_with(list, edit, &journal)?.number, 0)?;
        }
        Ok(())
    }

    /// Without has_checksum only the entry's first word changes where one without data is voided; two records are
    /// enough for that.
    fn one_word_alone(&mut self) -> Result<(), String> {
        let list = list(NO_CHECKSUM, 1);
        let edit = Edit::Void { tag: 2, n: 0 };
        expect(words_of(&list, &edit)? as u32, 1)?;
        for (len, number) in [(31, JOURNAL), (32, 0), (33, 0), (48, 0)] {
            expect(self.edit_with(&list, &edit, &spent(len))?.number, number)?;
        }
        Ok(())
    }

    /// "After all others": each other refusal comes first, whatever the journal is like; without it the journal is
    /// refused.
    fn refusals_before_16(&mut self) -> Result<(), String> {
        let edits = [&EDITS[1], &EDITS[2], &EDITS[3], &EDITS[6]];
        for journal in refused_journals().into_iter().chain([spent(RECORD * 64)]) {
            for refusal in REFUSALS {
                let mut list = with_runs();
                change_by(&mut list, refusal);
                for edit in edits {
                    expect(self.edit_with(&list, edit, &journal)?.number, refusal.0)?;
                }
            }
            for (number, edit) in &REFUSED {
                expect(self.edit_with(&list(HAS_CHECKSUM, 0), edit, &journal)?.number, *number)?;
            }
        }
        for (journal, edit) in refused_journals().iter().flat_map(|journal| EDITS.map(|edit| (journal, edit)))
        {
            expect(self.edit_with(&list(HAS_CHECKSUM, 0), &edit, journal)?.number, JOURNAL)?;
        }
        Ok(())
    }

    /// Empty areas, data and journals, each lent as NULL and not.
    fn edits_without_a_byte(&mut self) -> Result<(), String> {
        for start in [0, 1] {
            for edit in EDITS {
                for journal in [&[][..], &spent(RECORD * 40)] {
                    let mut empty = list(HAS_CHECKSUM, 0);
                    empty.area.clear();
                    self.guards.start_at(start);
                    expect(self.edit_with(&empty, &edit, journal)?.number, model::SHORT)?;
                    self.guards.start_at(start);
                    let number = if journal.is_empty() { JOURNAL } else { 0 };
                    expect(self.edit_with(&list(HAS_CHECKSUM, 0), &edit, journal)?.number, number)?;
                }
            }
        }
        Ok(())
    }

    /// 65,536 bytes of journal have 4,096 records: enough for 4,095 words, and too few for one more. Where
    /// has_checksum is not set the header's first word stays.
    fn longest_journals(&mut self) -> Result<(), String> {
        let list = by_hand(3, NO_CHECKSUM, &[], MOST_LENT - 24, 0);
        let journal = spent(MOST_LENT);
        for (words, number) in [(4095, 0), (4096, JOURNAL)] {
            let data = &vec![0x5a; 8 * (words - 2)];
            let edit = Edit::Add { tag: 3, data, use_voids: true };
            expect(words_of(&list, &edit)? as u32, words as u32)?;
            expect(self.edit_with(&list, &edit, &journal)?.number, number)?;
            let edit = Edit::AddAligned { tag: 3, data, exponent: 3 };
            expect(self.edit_with(&list, &edit, &journal)?.number, number)?;
        }
        for (words, number) in [(4095, 0), (4096, JOURNAL)] {
            let entry =
                [&[9, 0, 0, 8][..], &(8 * (words - 1) as u32).to_le_bytes(), &vec![0x5a; 8 * (words - 1)]];
            let list = by_hand(3, NO_CHECKSUM, &entry.concat(), 0, 0);
            expect(self.edit_with(&list, &Edit::Void { tag: 9, n: 0 }, &journal)?.number, number)?;
        }
        Ok(())
    }
}

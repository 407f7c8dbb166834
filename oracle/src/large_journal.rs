//! The calls of document 02, request 9, on the five lengths: recovery and its steps, edits in steps, and the
//! longest journals that an edit of 16 MiB fills.

use crate::compare::Bench;
use crate::edges_tidy::expect;
use crate::job::Job;
use crate::large_lists::{noise, Plan, LARGE, LENGTHS, LONGEST, SMALL};
use oracle::demand::Edit;
use oracle::lists::List;
use oracle::model_journal::{self, changed_words, kind, plain, JOURNAL, RECORD, RECOVERY, WORD};

/// A word of this byte.
fn word(offset: usize, byte: u8) -> [u8; RECORD] {
    let mut record = [byte; RECORD];
    record[..4].copy_from_slice(&[kind::WORD, 0, 0, 0]);
    record[4..8].copy_from_slice(&(offset as u32).to_le_bytes());
    record
}

fn commit() -> [u8; RECORD] {
    let mut record = [0; RECORD];
    record[0] = kind::COMMIT;
    record
}

impl Bench {
    pub fn large_journals(&mut self) -> Result<(), String> {
        for len in LENGTHS {
            self.recovered_large(&noise(len))?;
        }
        for len in &LENGTHS[..4] {
            self.stepped_large(&Plan::current(*len).list(&[]))?;
        }
        self.longest_edits()
    }

    /// The first word and the last, and one behind it; recovery makes no check of the length.
    fn recovered_large(&mut self, area: &[u8]) -> Result<(), String> {
        let end = area.len() / WORD * WORD;
        let journal = [word(0, 1), word(end - WORD, 2), commit()].concat();
        expect(self.recovery(area, &journal)?.number, 0)?;
        let decided = model_journal::recover(area.len(), &journal);
        self.step_through(&Job::Recovery, area, &journal, &decided)?;
        expect(self.recovery(area, &[word(0, 1), word(end, 2), commit()].concat())?.number, RECOVERY)?;
        expect(self.recovery(area, &[word(0, 1), word(end, 2)].concat())?.number, 0)
    }

    fn stepped_large(&mut self, list: &List) -> Result<(), String> {
        let data = &[5; 3];
        for edit in [
            Edit::Add { tag: SMALL, data, use_voids: true },
            Edit::AddAligned { tag: SMALL, data, exponent: 5 },
        ] {
            let journal = vec![0; RECORD * 10];
            let job = Job::Edit(&edit, list.base);
            expect(self.edit_with(list, &edit, &journal)?.number, 0)?;
            let decided = job.decided(&list.area, &journal);
            self.step_through(&job, &list.area, &journal, &decided)?;
        }
        Ok(())
    }

    /// 16,777,184 bytes of data, added, added aligned and voided, with just enough records, and one too few.
    fn longest_edits(&mut self) -> Result<(), String> {
        let empty = Plan::current(LONGEST).list(&[]);
        let data = &noise(LONGEST - 32);
        self.just_enough(&empty, &Edit::Add { tag: LARGE, data, use_voids: false })?;
        self.just_enough(&empty, &Edit::AddAligned { tag: LARGE, data, exponent: 3 })?;
        let mut full = List { area: empty.area.clone(), ..empty };
        plain(&mut full.area, full.base, &Edit::Add { tag: LARGE, data, use_voids: false });
        self.just_enough(&full, &Edit::Void { tag: LARGE, n: 0 })
    }

    fn just_enough(&mut self, list: &List, edit: &Edit) -> Result<(), String> {
        let mut new = list.area.clone();
        expect(plain(&mut new, list.base, edit).number, 0)?;
        let words = changed_words(&list.area, &new).len();
        expect(self.edit_with(list, edit, &vec![0; RECORD * words + 15])?.number, JOURNAL)?;
        expect(self.edit_with(list, edit, &vec![0; RECORD * (words + 1)])?.number, 0)
    }
}

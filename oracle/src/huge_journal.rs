//! Lengths at the limit and over 2^32, lent to the calls of document 02, request 9, as zeros that the system has
//! set: an area with a small list at its start; data; a journal. Recovery makes no check of the length: in an
//! area of more than 2^32 bytes it reaches the word at 0xfffffff8.

use crate::compare::{untouched, Asked, Bench, Buffer};
use crate::edges_tidy::expect;
use crate::huge::{small_list, unwritten, BASE, EDITS, HUGE, SMALL, TAG};
use crate::job::Job;
use crate::lent::Lent;
use crate::library::{self, Three};
use crate::steps::Told;
use oracle::demand::Edit;
use oracle::lists::MOST_LENT;
use oracle::model::{self, Done, LONGEST_AREA};
use oracle::model_journal::{self, kind, JOURNAL, RECORD, RECOVERY, WORD};
use oracle::tally::Call;

/// Enough for each of the edits, and some odd bytes.
const JOURNAL_LEN: usize = RECORD * 40 + 5;
const FAR: u32 = 0xffff_fff8;

/// A word of this byte at the offset, and a commit.
fn one_word(offset: u32, byte: u8) -> Vec<u8> {
    let mut journal = vec![0; 2 * RECORD];
    journal[0] = kind::WORD;
    journal[4..8].copy_from_slice(&offset.to_le_bytes());
    journal[8..16].fill(byte);
    journal[16] = kind::COMMIT;
    journal
}

/// A report where the start of a long area is not this, or the system's zeros behind it are not.
fn holds(area: &mut Lent, wanted: &[u8], what: &str) -> Result<(), String> {
    match area.bytes()[..wanted.len()] == *wanted {
        true => Ok(()),
        false => Err(format!("{what} on {} bytes left other bytes than the model", area.len())),
    }
}

impl Bench {
    pub fn huge_journals(&mut self) -> Result<(), String> {
        let mut area = Lent::zeros(LONGEST_AREA + 1).ok_or("the system lends no 16 MiB")?;
        for len in [LONGEST_AREA + 1, LONGEST_AREA, LONGEST_AREA - 1, MOST_LENT + 1] {
            area.cut(len);
            area = self.journalled_in(area)?;
            area = self.recovered_in(area, FAR, RECOVERY)?;
        }
        let Some(mut huge) = Lent::zeros(HUGE) else {
            return Ok(());
        };
        huge = self.journalled_in(huge)?;
        huge = self.recovered_in(huge, FAR, 0)?;
        huge = self.huge_journal(huge)?;
        self.huge_data(huge)
    }

    /// Each edit of a small list at the start of a long area; AREA where it is too long. The area is handed back
    /// with nothing but zeros.
    fn journalled_in(&mut self, area: Lent) -> Result<Lent, String> {
        let list = small_list();
        let journal = vec![0; JOURNAL_LEN];
        let mut lent = Three { area, data: self.guards.lend(&[]), journal: self.guards.lend(&[]) };
        let number = if lent.area.len() > LONGEST_AREA { model::AREA } else { 0 };
        for edit in EDITS {
            let job = Job::Edit(&edit, BASE);
            lent.area.bytes()[..SMALL].copy_from_slice(&list);
            let plain = model_journal::plain(lent.area.bytes(), BASE, &edit);
            expect(plain.number, number)?;
            let new = lent.area.bytes()[..SMALL].to_vec();
            let decided = model_journal::after_plain(&list, &new, plain, &journal);
            lent.data = self.guards.lend(job.data());
            self.in_steps(&mut lent, &job, &list, &journal, &decided)?;
            lent.area.bytes()[..SMALL].copy_from_slice(&list);
            lent.journal = self.guards.lend(&journal);
            let given = job.whole(&mut lent);
            let mut after = (list.clone(), journal.clone());
            let wanted = decided.run(&mut after.0, &mut after.1);
            self.judge_long_journal(
                job.whole_call(),
                wanted,
                given,
                &lent,
                job.data(),
                (&journal, &after.1),
            )?;
            holds(&mut lent.area, &after.0, job.whole_call().name())?;
        }
        lent.area.bytes()[..SMALL].fill(0);
        unwritten(&lent.area, &[])?;
        Ok(lent.area)
    }

    /// The deciding call, each step and one more, after which the start of the area and the journal are compared.
    fn in_steps(
        &mut self,
        lent: &mut Three,
        job: &Job,
        head: &[u8],
        journal: &[u8],
        decided: &model_journal::Decided,
    ) -> Result<(), String> {
        lent.area.bytes()[..head.len()].copy_from_slice(head);
        lent.journal = self.guards.lend(journal);
        let mut last = job.decide(lent);
        let wanted = Told::first(decided);
        self.judge_long_journal(
            job.deciding_call(),
            wanted,
            Told::by(&last),
            lent,
            job.data(),
            (journal, journal),
        )?;
        holds(&mut lent.area, head, job.deciding_call().name())?;
        let (mut head, mut after) = (head.to_vec(), journal.to_vec());
        let mut left = decided.stores();
        left.reverse();
        loop {
            let is_over = left.is_empty();
            if let Some(store) = left.pop() {
                store.make(&mut head, &mut after);
            }
            last = library::step(last.state, lent);
            let wanted = Told::when(left.len(), decided.done);
            self.judge_long_journal(
                Call::Step,
                wanted,
                Told::by(&last),
                lent,
                job.data(),
                (journal, &after),
            )?;
            holds(&mut lent.area, &head, "a step")?;
            if is_over {
                return Ok(());
            }
        }
    }

    fn judge_long_journal<A: model::Answer>(
        &mut self,
        call: Call,
        wanted: A,
        given: A,
        lent: &Three,
        data: &[u8],
        (before, after): (&[u8], &[u8]),
    ) -> Result<(), String> {
        let numbers = || format!("an area of {} bytes", lent.area.len());
        let journal = Buffer { name: "journal", before, wanted: after, lent: &lent.journal };
        self.judge(
            &Asked { call, numbers: &numbers },
            wanted,
            given,
            &[untouched("data", data, &lent.data), journal],
        )
    }

    /// The first word and the last of a long area, and one so far away that only more than 2^32 bytes hold it. The
    /// area is handed back with nothing but zeros.
    fn recovered_in(&mut self, area: Lent, far: u32, number: u32) -> Result<Lent, String> {
        let last = (area.len() / WORD * WORD - WORD).min(FAR as usize) as u32;
        let mut lent = Three { area, data: self.guards.lend(&[]), journal: self.guards.lend(&[]) };
        for (offset, number) in [(0, 0), (last, 0), (far, number), (last + 4, RECOVERY)] {
            let journal = one_word(offset, 0x5a);
            let mut after = journal.clone();
            if number == 0 {
                after[0] = kind::EMPTY;
                after[RECORD] = kind::EMPTY;
            }
            lent.journal = self.guards.lend(&journal);
            let given = library::recover(&mut lent);
            let wanted = Done { number, ..Done::default() };
            self.judge_long_journal(Call::Recover, wanted, given, &lent, &[], (&journal, &after))?;
            if number == 0 {
                let word = &mut lent.area.bytes()[offset as usize..][..WORD];
                expect(word.iter().filter(|byte| **byte == 0x5a).count() as u32, WORD as u32)?;
                word.fill(0);
            }
        }
        unwritten(&lent.area, &[])?;
        Ok(lent.area)
    }

    /// A journal of more than 2^32 bytes, whose 21st record is not empty: cut to 32 bits it would have 16 records.
    fn huge_journal(&mut self, journal: Lent) -> Result<Lent, String> {
        let list = small_list();
        let place = 20 * RECORD;
        let mut lent = Three { area: self.guards.lend(&list), data: self.guards.lend(&[]), journal };
        lent.journal.bytes()[place] = 3;
        let asked = |call| Asked { call, numbers: &|| "a journal of more than 2^32 bytes".to_string() };
        let refused = |number| Done { number, ..Done::default() };
        for edit in EDITS {
            let job = Job::Edit(&edit, BASE);
            lent.data = self.guards.lend(job.data());
            let (given, first) = (job.whole(&mut lent), job.decide(&mut lent));
            let (area, data) = (&lent.area, &lent.data);
            let buffers = [untouched("area", &list, area), untouched("data", job.data(), data)];
            self.judge(&asked(job.whole_call()), refused(JOURNAL), given, &buffers)?;
            let wanted = Told::when(0, refused(JOURNAL));
            self.judge(&asked(job.deciding_call()), wanted, Told::by(&first), &buffers)?;
        }
        let (given, first) = (library::recover(&mut lent), library::recover_steps(&mut lent));
        let buffers = [untouched("area", &list, &lent.area)];
        self.judge(&asked(Call::Recover), refused(RECOVERY), given, &buffers)?;
        self.judge(&asked(Call::RecoverSteps), Told::when(0, refused(RECOVERY)), Told::by(&first), &buffers)?;
        lent.journal.bytes()[place] = 0;
        unwritten(&lent.journal, &[])?;
        Ok(lent.journal)
    }

    /// Data whose length, cut to 32 bits, would fit the list and the tag table. The longest comes first, since the
    /// buffer is cut.
    fn huge_data(&mut self, data: Lent) -> Result<(), String> {
        let list = small_list();
        let mut lent =
            Three { area: self.guards.lend(&list), data, journal: self.guards.lend(&[0; JOURNAL_LEN]) };
        let numbers = || "data of more than 2^32 bytes".to_string();
        for (tag, length, number) in [(0x104, 16, model::SHAPE), (6, 12, model::SHAPE), (TAG, 4, model::ROOM)]
        {
            lent.data.cut((1 << 32) + length);
            for edit in [
                Edit::Add { tag, data: &[], use_voids: true },
                Edit::AddAligned { tag, data: &[], exponent: 4 },
            ] {
                let job = Job::Edit(&edit, BASE);
                let (given, first) = (job.whole(&mut lent), job.decide(&mut lent));
                let buffers = [
                    untouched("area", &list, &lent.area),
                    untouched("journal", &[0; JOURNAL_LEN], &lent.journal),
                ];
                let wanted = Done { number, ..Done::default() };
                self.judge(&Asked { call: job.whole_call(), numbers: &numbers }, wanted, given, &buffers)?;
                let asked = Asked { call: job.deciding_call(), numbers: &numbers };
                self.judge(&asked, Told::when(0, wanted), Told::by(&first), &buffers)?;
            }
        }
        unwritten(&lent.data, &[])
    }
}

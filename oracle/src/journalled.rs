//! The comparison of the calls of document 02, request 9: the whole call, the deciding call that begins the same
//! thing in steps, and what a step says after the end.

use crate::compare::{untouched, Asked, Bench, Buffer};
use crate::job::Job;
use crate::journal_steps::is_short;
use crate::library::{self, Three};
use crate::steps::{Stepped, Told};
use oracle::demand::Edit;
use oracle::demand_journal::{self, Sight};
use oracle::journals;
use oracle::lists::List;
use oracle::model::Done;
use oracle::model_journal::{self, changed_words, Decided};
use oracle::tally::Call;

/// Of the calls from the seed, one in so many is compared step by step.
const THOROUGH: u64 = 16;

impl Bench {
    pub fn lend_three(&mut self, area: &[u8], data: &[u8], journal: &[u8]) -> Three {
        let (area, data) = (self.guards.lend(area), self.guards.lend(data));
        Three { area, data, journal: self.guards.lend(journal) }
    }

    /// The journalled forms of an edit, with a journal that fits what the plain form made of the list.
    pub fn journalled(&mut self, list: &List, edit: &Edit, new: &[u8], plain: Done) -> Result<(), String> {
        if self.with_journal > 1 && !self.journals.once_in(self.with_journal) {
            return Ok(());
        }
        let words = changed_words(&list.area, new).len();
        let journal = journals::for_edit(&mut self.journals, words);
        let is_thorough = self.journals.once_in(THOROUGH);
        let done = self.edit_after_plain(list, edit, new, plain, &journal, is_thorough)?;
        self.see_large(|large| large.journalled(edit, done.number));
        Ok(())
    }

    /// An edit with this journal; the answer that both gave.
    pub fn edit_with(&mut self, list: &List, edit: &Edit, journal: &[u8]) -> Result<Done, String> {
        let mut new = list.area.clone();
        let plain = model_journal::plain(&mut new, list.base, edit);
        self.edit_after_plain(list, edit, &new, plain, journal, true)
    }

    fn edit_after_plain(
        &mut self,
        list: &List,
        edit: &Edit,
        new: &[u8],
        plain: Done,
        journal: &[u8],
        is_thorough: bool,
    ) -> Result<Done, String> {
        let (job, old) = (Job::Edit(edit, list.base), &list.area[..]);
        let decided = model_journal::after_plain(old, new, plain, journal);
        let (done, mut lent) = self.on_journal(&job, old, journal, &decided, is_thorough)?;
        if plain.number == 0 {
            self.journal_sights.edit(old, &changed_words(old, new), journal, done.number);
        }
        let after = Sight { area: lent.area.bytes(), journal: lent.journal.bytes() };
        let held = match done.number {
            0 => demand_journal::after_edit(old, new, journal, after),
            _ => Ok(()),
        };
        held.map_err(|broken| job.told(old, journal, &broken))?;
        Ok(done)
    }

    /// A recovery of an area with a journal from the seed.
    pub fn any_recovery(&mut self, area: &[u8]) -> Result<(), String> {
        let journal = journals::for_recovery(&mut self.journals, area.len());
        let is_thorough = self.journals.once_in(THOROUGH);
        self.recovery_by(area, &journal, is_thorough)?;
        Ok(())
    }

    /// A recovery of this area with this journal; the answer that both gave.
    pub fn recovery(&mut self, area: &[u8], journal: &[u8]) -> Result<Done, String> {
        self.recovery_by(area, journal, true)
    }

    fn recovery_by(&mut self, area: &[u8], journal: &[u8], is_thorough: bool) -> Result<Done, String> {
        let decided = model_journal::recover(area.len(), journal);
        let (done, mut lent) = self.on_journal(&Job::Recovery, area, journal, &decided, is_thorough)?;
        self.journal_sights.recovery(area, journal, done.number);
        let after = Sight { area: lent.area.bytes(), journal: lent.journal.bytes() };
        let held = demand_journal::after_any_recovery(Sight { area, journal }, after, done.number);
        held.map_err(|broken| Job::Recovery.told(area, journal, &broken))?;
        Ok(done)
    }

    /// Both forms of a call, as the model has decided it: the whole one, and the one that begins its steps; where
    /// that has ended at once, a step more. A thorough comparison makes all steps, where they are not too many.
    fn on_journal(
        &mut self,
        job: &Job,
        area: &[u8],
        journal: &[u8],
        decided: &Decided,
        is_thorough: bool,
    ) -> Result<(Done, Three), String> {
        let whole = self.whole(job, area, journal, decided)?;
        let first = self.decide(job, area, journal, decided)?;
        if first.ended != 0 {
            self.step_after_the_end(job, area, journal, &first)?;
        }
        if is_thorough && first.ended != 0 {
            self.step_on_others(job, &first)?;
        } else if is_thorough && is_short(area.len(), decided) {
            self.step_through(job, area, journal, decided)?;
        }
        Ok(whole)
    }

    /// The answer, and the buffers as the library left them.
    fn whole(
        &mut self,
        job: &Job,
        area: &[u8],
        journal: &[u8],
        decided: &Decided,
    ) -> Result<(Done, Three), String> {
        let mut lent = self.lend_three(area, job.data(), journal);
        self.journal_counts.nulls(job.whole_call(), &lent);
        let (mut area_after, mut journal_after) = (area.to_vec(), journal.to_vec());
        let wanted = decided.run(&mut area_after, &mut journal_after);
        let given = job.whole(&mut lent);
        let buffers = [
            Buffer { name: "area", before: area, wanted: &area_after, lent: &lent.area },
            untouched("data", job.data(), &lent.data),
            Buffer { name: "journal", before: journal, wanted: &journal_after, lent: &lent.journal },
        ];
        let asked = Asked { call: job.whole_call(), numbers: &|| job.numbers() };
        self.judge(&asked, wanted, given, &buffers)?;
        Ok((given, lent))
    }

    /// The deciding call, which stores nothing.
    pub fn decide(
        &mut self,
        job: &Job,
        area: &[u8],
        journal: &[u8],
        decided: &Decided,
    ) -> Result<Stepped, String> {
        let mut lent = self.lend_three(area, job.data(), journal);
        self.journal_counts.nulls(job.deciding_call(), &lent);
        let first = job.decide(&mut lent);
        let asked = Asked { call: job.deciding_call(), numbers: &|| job.numbers() };
        let buffers = [
            untouched("area", area, &lent.area),
            untouched("data", job.data(), &lent.data),
            untouched("journal", journal, &lent.journal),
        ];
        self.judge(&asked, Told::first(decided), Told::by(&first), &buffers)?;
        Ok(first)
    }

    /// "After the end a step stores nothing", and gives the same answer again, whatever it is handed.
    pub fn step_after_the_end(
        &mut self,
        job: &Job,
        area: &[u8],
        journal: &[u8],
        last: &Stepped,
    ) -> Result<(), String> {
        let mut lent = self.lend_three(area, job.data(), journal);
        self.journal_counts.nulls(Call::Step, &lent);
        let given = library::step(last.state, &mut lent);
        let asked = Asked { call: Call::Step, numbers: &|| format!("after the end, {}", job.numbers()) };
        let buffers = [
            untouched("area", area, &lent.area),
            untouched("data", job.data(), &lent.data),
            untouched("journal", journal, &lent.journal),
        ];
        self.judge_step(&asked, Told::by(last), Told::by(&given), &buffers)
    }
}

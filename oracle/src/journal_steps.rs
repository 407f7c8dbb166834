//! Steps one by one, beside the model's stores: after each of them both buffers are those that the model's first
//! stores make (document 02, request 9: "steps of one stored byte each, every step's result fixed").

use crate::compare::{untouched, Asked, Bench, Buffer};
use crate::job::Job;
use crate::library::{self, Three};
use crate::steps::{Stepped, Told};
use oracle::model_journal::{Decided, Store};
use oracle::tally::Call;

/// After each step all bytes are compared, and no more than these in all.
const MOST_COMPARED: usize = 200_000;

/// Whether all steps may be made.
pub fn is_short(area_len: usize, decided: &Decided) -> bool {
    let most = MOST_COMPARED / (area_len + 100);
    decided.each_store().take(most + 1).count() <= most
}

/// An edit or a recovery that the library makes in steps.
pub struct Run<'a> {
    job: &'a Job<'a>,
    first_area: &'a [u8],
    first_journal: &'a [u8],
    decided: &'a Decided,
    stores: Vec<Store>,
    /// How many of them are made.
    pub made: usize,
    /// Both buffers as the stores have made them.
    pub area: Vec<u8>,
    pub journal: Vec<u8>,
    lent: Three,
    pub last: Stepped,
}

impl Run<'_> {
    pub fn is_over(&self) -> bool {
        self.made == self.stores.len()
    }

    pub fn stores(&self) -> usize {
        self.stores.len()
    }
}

impl Bench {
    /// Makes the deciding call, which the model has decided so.
    pub fn begin<'a>(
        &mut self,
        job: &'a Job<'a>,
        area: &'a [u8],
        journal: &'a [u8],
        decided: &'a Decided,
    ) -> Result<Run<'a>, String> {
        let last = self.decide(job, area, journal, decided)?;
        let lent = self.lend_three(area, job.data(), journal);
        Ok(Run {
            job,
            first_area: area,
            first_journal: journal,
            decided,
            stores: decided.stores(),
            made: 0,
            area: area.to_vec(),
            journal: journal.to_vec(),
            lent,
            last,
        })
    }

    /// Makes the next step, or one more after the last.
    pub fn next_step(&mut self, run: &mut Run) -> Result<(), String> {
        self.journal_counts.nulls(Call::Step, &run.lent);
        let before = run.last;
        run.last = library::step(before.state, &mut run.lent);
        if let Some(store) = run.stores.get(run.made) {
            store.make(&mut run.area, &mut run.journal);
            run.made += 1;
        }
        let wanted = Told::when(run.stores.len() - run.made, run.decided.done);
        let numbers = || {
            let (made, all) = (run.made, run.stores.len());
            format!("step {made} of {all}, {}\n  state {:x?}", run.job.numbers(), before.state.numbers())
        };
        let asked = Asked { call: Call::Step, numbers: &numbers };
        let buffers = [
            Buffer { name: "area", before: run.first_area, wanted: &run.area, lent: &run.lent.area },
            untouched("data", run.job.data(), &run.lent.data),
            Buffer {
                name: "journal",
                before: run.first_journal,
                wanted: &run.journal,
                lent: &run.lent.journal,
            },
        ];
        self.judge_step(&asked, wanted, Told::by(&run.last), &buffers)
    }

    /// All steps, and one more. The whole call has been compared with the same stores.
    pub fn step_through(
        &mut self,
        job: &Job,
        area: &[u8],
        journal: &[u8],
        decided: &Decided,
    ) -> Result<(), String> {
        let mut run = self.begin(job, area, journal, decided)?;
        while !run.is_over() {
            self.next_step(&mut run)?;
        }
        self.next_step(&mut run)?;
        self.journal_counts.stepped(matches!(job, Job::Recovery));
        let ended = run.last;
        self.step_on_others(job, &ended)
    }

    /// A step after the end on other buffers than before, and on none.
    pub fn step_on_others(&mut self, job: &Job, last: &Stepped) -> Result<(), String> {
        let len = self.journals.small(7) as usize;
        let (area, journal, data) =
            (self.journals.bytes(len), self.journals.bytes(len), self.journals.bytes(5));
        for (area, data, journal) in [(&area[..], &data[..], &journal[..]), (&[], &[], &[])] {
            let mut lent = self.lend_three(area, data, journal);
            self.journal_counts.nulls(Call::Step, &lent);
            let given = library::step(last.state, &mut lent);
            let numbers = || format!("after the end, on other buffers, {}", job.numbers());
            let asked = Asked { call: Call::Step, numbers: &numbers };
            let buffers = [
                untouched("area", area, &lent.area),
                untouched("data", data, &lent.data),
                untouched("journal", journal, &lent.journal),
            ];
            self.judge_step(&asked, Told::by(last), Told::by(&given), &buffers)?;
        }
        Ok(())
    }

    /// Counts a step; a report where it says something else, or where a buffer does not hold what it should. Of a
    /// refusal 8 that a step gives again the deciding call has said the place.
    pub fn judge_step(
        &mut self,
        asked: &Asked,
        wanted: Told,
        given: Told,
        buffers: &[Buffer],
    ) -> Result<(), String> {
        self.tally.count(Call::Step, wanted.done.number);
        self.see_large(|large| large.call(Call::Step, wanted.done.number, buffers));
        let byte = buffers.iter().find_map(|buffer| self.differing_byte(buffer));
        if wanted == given && byte.is_none() {
            return Ok(());
        }
        let bytes = byte.unwrap_or("every byte as wanted".to_string());
        let inputs = asked.with_inputs(buffers);
        Err(format!("{inputs}\n  model   {wanted:?}\n  library {given:?}\n  {bytes}"))
    }
}

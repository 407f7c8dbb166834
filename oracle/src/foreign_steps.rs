//! Steps that are handed a state or buffers other than the step before left (document 02, request 9): each "stores
//! at most one byte in them or gives 17", and then stores nothing, and no further step does. It ends, stays in
//! the lent memory, and says and stores the same when it is handed the same. How many steps that takes is the
//! library's own matter, so these are not counted among the calls.

use crate::compare::Bench;
use crate::foreign_states::Handed;
use crate::job::Job;
use crate::journal_counts::{Foreign, Foreigners};
use crate::library::{self, Three};
use crate::steps::Stepped;
use crate::watch;
use oracle::journals;
use oracle::lists_journal::{self, Kind};
use oracle::model::Done;
use oracle::model_journal::{RECORD, RECOVERY};
use oracle::rng::Rng;

/// Runs of each sort.
const RUNS: u64 = 1500;
/// No run has more steps than these for each whole record, and some: an edit fills all its records, applies as many
/// words but one, and clears the kinds.
const STEPS_FOR_A_RECORD: usize = 25;
const STEPS_BESIDES: usize = 64;
/// The first steps of a run are made twice, and then one in so many.
const TWICE_FIRST: usize = 4;
const TWICE: usize = 8;

impl Bench {
    pub fn edges_foreign(&mut self, seed: u64) -> Result<(), String> {
        for sort in Foreign::ALL {
            let rng = &mut Rng::new(seed ^ (sort as u64 + 1) << 40);
            for turn in 0..RUNS {
                watch::part(&format!("  foreign steps, sort {}, number {turn}", sort as u64));
                let (mut handed, other) = (self.left_by_steps(rng)?, self.left_by_steps(rng)?);
                handed.become_foreign(rng, sort, other.state);
                let seen = self.run_foreign(rng, handed)?;
                self.journal_counts.foreign[sort as usize].add(&seen);
            }
        }
        watch::part("");
        Ok(())
    }

    /// What some steps of an edit or of a recovery have left.
    fn left_by_steps(&mut self, rng: &mut Rng) -> Result<Handed, String> {
        let kind = rng.pick(&Kind::ALL);
        let case = lists_journal::case(rng, kind);
        let edit = case.given.edit();
        let is_edit = !rng.once_in(4);
        let job = if is_edit { Job::Edit(&edit, case.list.base) } else { Job::Recovery };
        let journal = if is_edit { case.journal } else { journals::for_recovery(rng, case.list.area.len()) };
        let decided = job.decided(&case.list.area, &journal);
        let mut run = self.begin(&job, &case.list.area, &journal, &decided)?;
        for _ in 0..rng.below(run.stores() as u64 + 2) {
            self.next_step(&mut run)?;
        }
        let (state, data) = (run.last.state, job.data().to_vec());
        Ok(Handed { state, area: run.area.clone(), data, journal: run.journal.clone() })
    }

    /// Steps on until it has ended.
    fn run_foreign(&mut self, rng: &mut Rng, mut handed: Handed) -> Result<Foreigners, String> {
        let mut seen = Foreigners { runs: 1, ..Foreigners::default() };
        let most = STEPS_FOR_A_RECORD * (handed.journal.len() / RECORD) + STEPS_BESIDES;
        for made in 0..most {
            let is_twice = made < TWICE_FIRST || made % TWICE == 0;
            let (given, after) = self.foreign_step(&handed, is_twice)?;
            let stored = handed.stored(&after);
            seen.steps += 1;
            seen.stored += stored as u64;
            match (given.ended, given.done) {
                (0, done) if done == Done::default() => {}
                (1, Done { number: RECOVERY, value: 0, at: 0 }) if stored == 0 => {
                    seen.refused += 1;
                    self.after_foreign_end(rng, &after, &given)?;
                    return Ok(seen);
                }
                // The answer that a foreign state carries may be any, 17 too.
                (1, done) if done.number != RECOVERY || done == handed.state.done => {
                    seen.answered += 1;
                    self.after_foreign_end(rng, &after, &given)?;
                    return Ok(seen);
                }
                _ => return handed.broken("no step says this", &given),
            }
            handed = after;
        }
        Err(format!("{}\n  after as many steps as there can be it has not ended", handed.told()))
    }

    /// One step; what it says, and what it leaves.
    fn foreign_step(&mut self, handed: &Handed, is_twice: bool) -> Result<(Stepped, Handed), String> {
        let (given, after) = self.one_foreign_step(handed)?;
        if is_twice {
            let (again, after_again) = self.one_foreign_step(handed)?;
            let same =
                (again, &after_again.area, &after_again.journal) == (given, &after.area, &after.journal);
            if !same {
                return handed.broken(&format!("a second time it is another: {again:?}"), &given);
            }
        }
        Ok((given, after))
    }

    fn one_foreign_step(&mut self, handed: &Handed) -> Result<(Stepped, Handed), String> {
        let mut lent = self.lend_three(&handed.area, &handed.data, &handed.journal);
        let given = library::step(handed.state, &mut lent);
        let Three { area, data, journal } = &mut lent;
        let after = Handed {
            state: given.state,
            area: area.bytes().to_vec(),
            data: handed.data.clone(),
            journal: journal.bytes().to_vec(),
        };
        let kept = [(&*area, &after.area), (&*data, &after.data), (&*journal, &after.journal)];
        if handed.stored(&after) > 1
            || kept.iter().any(|(lent, bytes)| self.guards.first_difference(lent, bytes).is_some())
        {
            return handed
                .broken("a step stores at most one byte, and none of the data or of the guards", &given);
        }
        Ok((given, after))
    }

    /// Once it has ended a step stores nothing and says the same, whatever buffers it is handed.
    fn after_foreign_end(&mut self, rng: &mut Rng, left: &Handed, last: &Stepped) -> Result<(), String> {
        for handed in left.with_others(rng) {
            let (given, after) = self.one_foreign_step(&handed)?;
            let is_same = (given.ended, given.done) == (last.ended, last.done);
            if !is_same || handed.stored(&after) > 0 {
                return handed.broken(&format!("after the end, which was {last:?}"), &given);
            }
        }
        Ok(())
    }
}

impl Foreigners {
    fn add(&mut self, other: &Foreigners) {
        self.runs += other.runs;
        self.steps += other.steps;
        self.stored += other.stored;
        self.refused += other.refused;
        self.answered += other.answered;
    }
}

//! Edits of every kind cut after every stored byte, and before the first, and recovered: document 02, request 9,
//! "a cut after any byte leaves something from which recovery, itself cut any number of times and then run to
//! its end, gives exactly the old area or the new one; the new one once the commit is stored".
//!
//! Each cut has a recovery to its end, and one in steps, which is cut after every byte itself, each time with a
//! second recovery to its end; and some cuts have a row of recoveries that are cut somewhere.

use crate::compare::{hex, Bench, Buffer};
use crate::job::Job;
use crate::journal_counts::{Cuts, LEAST_EDITS};
use crate::library::{self, Three};
use crate::watch;
use oracle::demand;
use oracle::demand_journal::{after_recovery, Sight, Story};
use oracle::lists_journal::{self, Case, Kind};
use oracle::model::Done;
use oracle::model_journal::{self, RECORD, WORD};
use oracle::rng::Rng;
use oracle::tally::Call;

/// One cut in so many has a row of cut recoveries.
const IN_A_ROW: u64 = 16;
const LONGEST_ROW: u64 = 6;

/// What recovery must make of a cut.
struct Cut<'a> {
    old: &'a [u8],
    new: &'a [u8],
    /// Whether the commit's kind was stored before it.
    is_committed: bool,
    /// The edit and the cut, for a report.
    told: &'a dyn Fn() -> String,
}

impl Cut<'_> {
    fn wanted(&self) -> &[u8] {
        if self.is_committed {
            self.new
        } else {
            self.old
        }
    }
}

impl Bench {
    pub fn edges_cuts(&mut self, seed: u64) -> Result<(), String> {
        for kind in Kind::ALL {
            let rng = &mut Rng::new(seed ^ (kind as u64 + 1) << 32);
            for turn in 0..LEAST_EDITS {
                watch::part(&format!("  {}, cut after every byte, number {turn}", kind.name()));
                let case = lists_journal::case(rng, kind);
                let cuts = self.cut_everywhere(rng, &case)?;
                self.journal_counts.cuts[kind as usize].add(&cuts);
            }
        }
        watch::part("");
        Ok(())
    }

    fn cut_everywhere(&mut self, rng: &mut Rng, case: &Case) -> Result<Cuts, String> {
        let (old, edit) = (&case.list.area, case.given.edit());
        let job = Job::Edit(&edit, case.list.base);
        let plain = self.edit(&case.list, &edit)?;
        self.edit_with(&case.list, &edit, &case.journal)?;
        let decided = job.decided(old, &case.journal);
        let (words, records) = (decided.words().len(), case.journal.len() / RECORD);
        let commit = RECORD * (words + 1);
        let mut run = self.begin(&job, old, &case.journal, &decided)?;
        expect_stores(run.stores(), commit + WORD * words + records, case)?;
        let mut story = Story::new(old, &case.new, &case.journal);
        let mut cuts = Cuts { edits: 1, ..Cuts::default() };
        loop {
            let made = run.made;
            let told = || job.told(old, &case.journal, &format!("cut after {made} stored bytes"));
            let cut = Cut { old, new: &case.new, is_committed: made >= commit, told: &told };
            let seen = Sight { area: &run.area, journal: &run.journal };
            self.recover_cut(&cut, seen)?;
            cuts.cuts += 1;
            cuts.second += self.cut_recovery_everywhere(&cut, seen)?;
            if rng.once_in(IN_A_ROW) {
                self.row_of_recoveries(rng, &cut, seen)?;
                cuts.rows += 1;
            }
            if run.is_over() {
                break;
            }
            self.next_step(&mut run)?;
            let seen = Sight { area: &run.area, journal: &run.journal };
            story.step(seen).map_err(|broken| format!("{}\n  {broken}", told()))?;
        }
        self.next_step(&mut run)?;
        let held =
            story.end().and_then(|()| demand::after_edit(old, &run.area, case.list.base, &edit, plain.value));
        held.map_err(|broken| job.told(old, &case.journal, &broken))?;
        self.step_on_others(&job, &run.last)?;
        Ok(cuts)
    }

    /// Recovers copies of what a cut has left; both buffers afterwards.
    fn recover_cut(&mut self, cut: &Cut, seen: Sight) -> Result<(), String> {
        let (mut area, mut journal) = (seen.area.to_vec(), seen.journal.to_vec());
        model_journal::recover(area.len(), &journal).run(&mut area, &mut journal);
        if area != cut.wanted() {
            return Err(format!("{}\n  the model does not recover as it must", (cut.told)()));
        }
        let mut lent = self.lend_three(seen.area, &[], seen.journal);
        let given = library::recover(&mut lent);
        self.judge_recovery(cut, seen, given, &area, &journal, &mut lent)
    }

    /// The answer is 0, every byte is as wanted, and what is demanded holds of the library's own bytes.
    fn judge_recovery(
        &mut self,
        cut: &Cut,
        seen: Sight,
        given: Done,
        area: &[u8],
        journal: &[u8],
        lent: &mut Three,
    ) -> Result<(), String> {
        self.tally.count(Call::Recover, 0);
        let recovered = Sight { area: lent.area.bytes(), journal: lent.journal.bytes() };
        let held = after_recovery(cut.old, cut.new, seen, recovered);
        let buffers = [
            Buffer { name: "area", before: seen.area, wanted: area, lent: &lent.area },
            Buffer { name: "journal", before: seen.journal, wanted: journal, lent: &lent.journal },
        ];
        let byte = buffers.iter().find_map(|buffer| self.differing_byte(buffer));
        if given == Done::default() && byte.is_none() && held.is_ok() {
            return Ok(());
        }
        let bytes = byte.unwrap_or("every byte as wanted".to_string());
        let broken = held.err().unwrap_or_default();
        let (area, journal) = (hex(seen.area), hex(seen.journal));
        let left = format!("left in the area {area}\n  left in the journal {journal}");
        Err(format!("{}\n  {left}\n  tl_recover {given:?}\n  {bytes}\n  {broken}", (cut.told)()))
    }

    /// Cuts the recovery after every byte; how often.
    fn cut_recovery_everywhere(&mut self, cut: &Cut, seen: Sight) -> Result<u64, String> {
        let decided = model_journal::recover(seen.area.len(), seen.journal);
        let mut run = self.begin(&Job::Recovery, seen.area, seen.journal, &decided)?;
        let mut cuts = 0;
        loop {
            let made = run.made;
            let told = || format!("{}\n  its recovery cut after {made} stored bytes", (cut.told)());
            let second = Cut { told: &told, ..*cut };
            self.recover_cut(&second, Sight { area: &run.area, journal: &run.journal })?;
            cuts += 1;
            if run.is_over() {
                self.next_step(&mut run)?;
                return Ok(cuts);
            }
            self.next_step(&mut run)?;
        }
    }

    /// Some recoveries in a row, each cut somewhere, and then one to its end.
    fn row_of_recoveries(&mut self, rng: &mut Rng, cut: &Cut, seen: Sight) -> Result<(), String> {
        let (mut area, mut journal) = (seen.area.to_vec(), seen.journal.to_vec());
        let mut places = Vec::new();
        for _ in 0..rng.range(2, LONGEST_ROW) {
            let decided = model_journal::recover(area.len(), &journal);
            let mut run = self.begin(&Job::Recovery, &area, &journal, &decided)?;
            let place = rng.below(run.stores() as u64 + 1) as usize;
            for _ in 0..place {
                self.next_step(&mut run)?;
            }
            places.push(place);
            (area, journal) = (run.area.clone(), run.journal.clone());
        }
        let told = || format!("{}\n  recoveries in a row cut after {places:?} stored bytes", (cut.told)());
        self.recover_cut(&Cut { told: &told, ..*cut }, Sight { area: &area, journal: &journal })
    }
}

impl Cuts {
    fn add(&mut self, other: &Cuts) {
        self.edits += other.edits;
        self.cuts += other.cuts;
        self.second += other.second;
        self.rows += other.rows;
    }
}

/// With w changed words and R whole records there are 16(w + 1) + 8w + R stores.
fn expect_stores(given: usize, wanted: usize, case: &Case) -> Result<(), String> {
    match given == wanted {
        true => Ok(()),
        false => Err(format!("{given} stores, not {wanted}\n  area {}", hex(&case.list.area))),
    }
}

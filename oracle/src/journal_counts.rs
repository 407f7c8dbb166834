//! How often edits and recoveries were stepped through, cut and recovered, and how often steps were handed what
//! no step before left; which buffers were NULL; and that each must have been (document 02, request 9).

use crate::library::Three;
use oracle::lists_journal::Kind;
use oracle::tally::Call;
use std::fmt::Write;

/// The calls with a journal, and whether they are lent data.
const CALLS: [(Call, bool); 9] = [
    (Call::AddJournalled, true),
    (Call::AddAlignedJournalled, true),
    (Call::VoidJournalled, false),
    (Call::Recover, false),
    (Call::AddSteps, true),
    (Call::AddAlignedSteps, true),
    (Call::VoidSteps, false),
    (Call::RecoverSteps, false),
    (Call::Step, true),
];

const KINDS: usize = Kind::ALL.len();
/// So many edits of each kind are cut.
pub const LEAST_EDITS: u64 = 1000;

/// What is counted of the edits of one kind.
#[derive(Clone, Copy, Default)]
pub struct Cuts {
    /// Cut after every byte, and before the first.
    pub edits: u64,
    /// Such cuts, each with a recovery to its end, and one that is cut in the same way.
    pub cuts: u64,
    /// The cuts of these, each with a second recovery to its end.
    pub second: u64,
    /// Rows of recoveries that were cut somewhere, each with a last one to its end.
    pub rows: u64,
}

/// How a state or buffers differ from what the step before left.
#[derive(Clone, Copy, PartialEq, Eq)]
pub enum Foreign {
    Random,
    Small,
    Flipped,
    OtherJob,
    OtherArea,
    OtherJournal,
    OtherData,
    OtherLengths,
}

impl Foreign {
    pub const ALL: [Foreign; 8] = [
        Foreign::Random,
        Foreign::Small,
        Foreign::Flipped,
        Foreign::OtherJob,
        Foreign::OtherArea,
        Foreign::OtherJournal,
        Foreign::OtherData,
        Foreign::OtherLengths,
    ];

    fn name(self) -> &'static str {
        match self {
            Foreign::Random => "a random state",
            Foreign::Small => "a state of small numbers",
            Foreign::Flipped => "a state with flipped bits",
            Foreign::OtherJob => "a state of something else",
            Foreign::OtherArea => "another area",
            Foreign::OtherJournal => "another journal",
            Foreign::OtherData => "other data",
            Foreign::OtherLengths => "buffers of other lengths",
        }
    }
}

/// What became of foreign states of one sort.
#[derive(Clone, Copy, Default)]
pub struct Foreigners {
    /// Stepped on until they had ended.
    pub runs: u64,
    pub steps: u64,
    /// Steps that changed a byte.
    pub stored: u64,
    /// Ended with 17.
    pub refused: u64,
    /// Ended with another answer.
    pub answered: u64,
}

#[derive(Default)]
pub struct JournalCounts {
    nulls: [[u64; 3]; CALLS.len()],
    stepped: [u64; 2],
    pub cuts: [Cuts; KINDS],
    pub foreign: [Foreigners; Foreign::ALL.len()],
}

impl JournalCounts {
    /// Counts the buffers of a call that are lent as NULL.
    pub fn nulls(&mut self, call: Call, lent: &Three) {
        let row = CALLS.iter().position(|(counted, _)| *counted == call).expect("a call with a journal");
        let nulls = [lent.area.is_null(), CALLS[row].1 && lent.data.is_null(), lent.journal.is_null()];
        for (seen, is_null) in self.nulls[row].iter_mut().zip(nulls) {
            *seen += u64::from(is_null);
        }
    }

    pub fn stepped(&mut self, is_recovery: bool) {
        self.stepped[usize::from(is_recovery)] += 1;
    }

    pub fn table(&self) -> String {
        let mut table = format!("{:<26}{:>9}{:>9}{:>9}", "lent as NULL", "area", "data", "journal");
        for (seen, (call, _)) in self.nulls.iter().zip(CALLS) {
            write!(table, "\n{:<26}{:>9}{:>9}{:>9}", call.name(), seen[0], seen[1], seen[2]).unwrap();
        }
        let [edits, recoveries] = self.stepped;
        write!(table, "\n{:<26}{:>16}{:>16}", "stepped through", "edits", "recoveries").unwrap();
        write!(table, "\n{:<26}{edits:>16}{recoveries:>16}", "").unwrap();
        write!(table, "\n{:<26}", "cut after every byte").unwrap();
        for head in ["edits", "cuts", "recoveries' cuts", "rows of cuts"] {
            write!(table, "{head:>18}").unwrap();
        }
        for (cuts, kind) in self.cuts.iter().zip(Kind::ALL) {
            write!(table, "\n{:<26}", kind.name()).unwrap();
            for seen in [cuts.edits, cuts.cuts, cuts.second, cuts.rows] {
                write!(table, "{seen:>18}").unwrap();
            }
        }
        write!(table, "\n{:<26}", "steps handed").unwrap();
        for head in ["runs", "steps", "that stored", "ended with 17", "or otherwise"] {
            write!(table, "{head:>16}").unwrap();
        }
        for (seen, foreign) in self.foreign.iter().zip(Foreign::ALL) {
            write!(table, "\n{:<26}", foreign.name()).unwrap();
            for seen in [seen.runs, seen.steps, seen.stored, seen.refused, seen.answered] {
                write!(table, "{seen:>16}").unwrap();
            }
        }
        table
    }

    /// How many cuts there were.
    pub fn line(&self) -> String {
        let sum = |count: fn(&Cuts) -> u64| self.cuts.iter().map(count).sum::<u64>();
        let (edits, cuts, second) = (sum(|it| it.edits), sum(|it| it.cuts), sum(|it| it.second));
        format!("{edits} edits cut {cuts} times, and their recoveries {second} times")
    }

    /// What was never made, or not often enough.
    pub fn unseen(&self) -> Vec<String> {
        let mut unseen = Vec::new();
        let mut must = |times: u64, least: u64, what: String| {
            if times < least {
                unseen.push(format!("{what}: {times} times, not {least}"));
            }
        };
        for (seen, (call, has_data)) in self.nulls.iter().zip(CALLS) {
            must(seen[0], 1, format!("{} with NULL for the area", call.name()));
            must(seen[1], u64::from(has_data), format!("{} with NULL for the data", call.name()));
            must(seen[2], 1, format!("{} with NULL for the journal", call.name()));
        }
        must(self.stepped[0], 1, "an edit stepped through".to_string());
        must(self.stepped[1], 1, "a recovery stepped through".to_string());
        for (cuts, kind) in self.cuts.iter().zip(Kind::ALL) {
            must(cuts.edits, LEAST_EDITS, format!("{} cut after every byte", kind.name()));
            must(cuts.rows, 1, format!("{} cut, with a row of cut recoveries", kind.name()));
        }
        for (seen, foreign) in self.foreign.iter().zip(Foreign::ALL) {
            must(seen.runs, 1, format!("a step handed {}", foreign.name()));
        }
        must(self.foreign.iter().map(|seen| seen.stored).sum(), 1, "a foreign step that stored".to_string());
        must(self.foreign.iter().map(|seen| seen.refused).sum(), 1, "a foreign step with 17".to_string());
        unseen
    }
}

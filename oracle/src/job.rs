//! What is asked of an area and a journal by document 02, request 9, as the model decides it and as the library makes
//! it, whole or in steps.

use crate::compare::hex;
use crate::edits::numbers_of;
use crate::library::{self, Three};
use crate::steps::Stepped;
use oracle::demand::Edit;
use oracle::model::Done;
use oracle::model_journal::{self, Decided};
use oracle::tally::Call;

/// An edit of a list at this base, or a recovery.
#[derive(Clone, Copy)]
pub enum Job<'a> {
    Edit(&'a Edit<'a>, u64),
    Recovery,
}

impl<'a> Job<'a> {
    /// By the model.
    pub fn decided(&self, area: &[u8], journal: &[u8]) -> Decided {
        match self {
            Job::Edit(edit, base) => model_journal::edit(area, *base, edit, journal),
            Job::Recovery => model_journal::recover(area.len(), journal),
        }
    }

    pub fn data(&self) -> &'a [u8] {
        match self {
            Job::Edit(Edit::Add { data, .. } | Edit::AddAligned { data, .. }, _) => data,
            Job::Edit(Edit::Void { .. }, _) | Job::Recovery => &[],
        }
    }

    pub fn whole_call(&self) -> Call {
        match self {
            Job::Edit(Edit::Add { .. }, _) => Call::AddJournalled,
            Job::Edit(Edit::AddAligned { .. }, _) => Call::AddAlignedJournalled,
            Job::Edit(Edit::Void { .. }, _) => Call::VoidJournalled,
            Job::Recovery => Call::Recover,
        }
    }

    pub fn deciding_call(&self) -> Call {
        match self {
            Job::Edit(Edit::Add { .. }, _) => Call::AddSteps,
            Job::Edit(Edit::AddAligned { .. }, _) => Call::AddAlignedSteps,
            Job::Edit(Edit::Void { .. }, _) => Call::VoidSteps,
            Job::Recovery => Call::RecoverSteps,
        }
    }

    pub fn numbers(&self) -> String {
        match self {
            Job::Edit(edit, base) => format!("base {base:#x}, {}", numbers_of(edit)),
            Job::Recovery => "recovery".to_string(),
        }
    }

    /// For a report: what was asked, and what is wrong.
    pub fn told(&self, area: &[u8], journal: &[u8], what: &str) -> String {
        let (area, data, journal) = (hex(area), hex(self.data()), hex(journal));
        format!("{}\n  area {area}\n  data {data}\n  journal {journal}\n  {what}", self.numbers())
    }

    /// By the library, whole.
    pub fn whole(&self, lent: &mut Three) -> Done {
        match *self {
            Job::Edit(Edit::Add { tag, use_voids, .. }, base) => {
                library::add_journalled(lent, base, *tag, *use_voids)
            }
            Job::Edit(Edit::AddAligned { tag, exponent, .. }, base) => {
                library::add_aligned_journalled(lent, base, *tag, *exponent)
            }
            Job::Edit(Edit::Void { tag, n }, base) => library::void_journalled(lent, base, *tag, *n),
            Job::Recovery => library::recover(lent),
        }
    }

    /// By the library, as it begins in steps.
    pub fn decide(&self, lent: &mut Three) -> Stepped {
        match *self {
            Job::Edit(Edit::Add { tag, use_voids, .. }, base) => {
                library::add_steps(lent, base, *tag, *use_voids)
            }
            Job::Edit(Edit::AddAligned { tag, exponent, .. }, base) => {
                library::add_aligned_steps(lent, base, *tag, *exponent)
            }
            Job::Edit(Edit::Void { tag, n }, base) => library::void_steps(lent, base, *tag, *n),
            Job::Recovery => library::recover_steps(lent),
        }
    }
}

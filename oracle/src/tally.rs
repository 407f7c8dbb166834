//! How often each call answered each number, and which numbers must have been seen.

use std::fmt::Write;

/// The numbers of refusals that some call can answer, and 0.
const NUMBERS: [u32; 21] = [0, 1, 2, 3, 4, 5, 6, 7, 8, 9, 10, 11, 12, 13, 14, 16, 17, 18, 19, 20, 21];
const CALLS: usize = 23;

#[derive(Clone, Copy, PartialEq, Eq)]
pub enum Call {
    Check,
    Find,
    Create,
    Add,
    AddAligned,
    Void,
    Relocate,
    Tidy,
    Certificate,
    FdtCheck,
    FdtFind,
    Check09,
    Find09,
    Convert09,
    AddJournalled,
    AddAlignedJournalled,
    VoidJournalled,
    Recover,
    AddSteps,
    AddAlignedSteps,
    VoidSteps,
    RecoverSteps,
    Step,
}

impl Call {
    pub const ALL: [Call; CALLS] = [
        Call::Check,
        Call::Find,
        Call::Create,
        Call::Add,
        Call::AddAligned,
        Call::Void,
        Call::Relocate,
        Call::Tidy,
        Call::Certificate,
        Call::FdtCheck,
        Call::FdtFind,
        Call::Check09,
        Call::Find09,
        Call::Convert09,
        Call::AddJournalled,
        Call::AddAlignedJournalled,
        Call::VoidJournalled,
        Call::Recover,
        Call::AddSteps,
        Call::AddAlignedSteps,
        Call::VoidSteps,
        Call::RecoverSteps,
        Call::Step,
    ];

    /// The call's name in the C interface.
    pub fn name(self) -> &'static str {
        match self {
            Call::Check => "tl_check",
            Call::Find => "tl_find",
            Call::Create => "tl_create",
            Call::Add => "tl_add",
            Call::AddAligned => "tl_add_aligned",
            Call::Void => "tl_void",
            Call::Relocate => "tl_relocate",
            Call::Tidy => "tl_tidy",
            Call::Certificate => "tl_certificate",
            Call::FdtCheck => "tl_fdt_check",
            Call::FdtFind => "tl_fdt_find",
            Call::Check09 => "tl09_check",
            Call::Find09 => "tl09_find",
            Call::Convert09 => "tl09_convert",
            Call::AddJournalled => "tl_add_journalled",
            Call::AddAlignedJournalled => "tl_add_aligned_journalled",
            Call::VoidJournalled => "tl_void_journalled",
            Call::Recover => "tl_recover",
            Call::AddSteps => "tl_add_steps",
            Call::AddAlignedSteps => "tl_add_aligned_steps",
            Call::VoidSteps => "tl_void_steps",
            Call::RecoverSteps => "tl_recover_steps",
            Call::Step => "tl_step",
        }
    }

    /// The numbers the call can answer: those of "When a call is turned away" that concern it, and those of
    /// document 02, requests 5, 6 and 9. After a refusal a step gives the same answer again.
    fn possible(self) -> &'static [u32] {
        match self {
            Call::Check | Call::Check09 => &[0, 1, 2, 3, 4, 6, 7, 8],
            Call::Find | Call::Find09 => &[0, 1, 2, 3, 4, 6, 7, 8, 9, 13],
            Call::Create => &[0, 1, 2],
            Call::Add => &[0, 1, 2, 3, 4, 5, 6, 7, 8, 9, 10, 14],
            Call::AddAligned => &[0, 1, 2, 3, 4, 5, 6, 7, 8, 9, 10, 11, 14],
            Call::Void => &[0, 1, 2, 3, 4, 5, 6, 7, 8, 9, 13],
            Call::Tidy => &[0, 1, 2, 3, 4, 5, 6, 7, 8],
            Call::Certificate => &[0, 1, 2, 3, 4, 6, 7, 8, 18, 19, 20],
            Call::FdtCheck => &[0, 21],
            Call::FdtFind => &[0, 13, 21],
            Call::Relocate | Call::Convert09 => &[0, 1, 2, 3, 4, 5, 6, 7, 8, 12, 14],
            Call::AddJournalled | Call::AddSteps => &[0, 1, 2, 3, 4, 5, 6, 7, 8, 9, 10, 14, 16],
            Call::AddAlignedJournalled | Call::AddAlignedSteps => {
                &[0, 1, 2, 3, 4, 5, 6, 7, 8, 9, 10, 11, 14, 16]
            }
            Call::VoidJournalled | Call::VoidSteps => &[0, 1, 2, 3, 4, 5, 6, 7, 8, 9, 13, 16],
            Call::Recover | Call::RecoverSteps => &[0, 17],
            Call::Step => &[0, 1, 2, 3, 4, 5, 6, 7, 8, 9, 10, 11, 13, 14, 16, 17],
        }
    }
}

#[derive(Default)]
pub struct Tally([[u64; NUMBERS.len()]; CALLS]);

impl Tally {
    pub fn count(&mut self, call: Call, number: u32) {
        let column = NUMBERS.iter().position(|known| *known == number);
        self.0[call as usize][column.expect("a number that some call can answer")] += 1;
    }

    /// How often a call was made, and how often it was accepted.
    pub fn made(&self, call: Call) -> (u64, u64) {
        let seen = self.0[call as usize];
        (seen.iter().sum(), seen[0])
    }

    pub fn calls(&self) -> u64 {
        self.0.iter().flatten().sum()
    }

    pub fn table(&self) -> String {
        let mut table = format!("{:<26}", "call");
        for number in NUMBERS {
            write!(table, "{number:>9}").unwrap();
        }
        for call in Call::ALL {
            write!(table, "\n{:<26}", call.name()).unwrap();
            for seen in self.0[call as usize] {
                write!(table, "{seen:>9}").unwrap();
            }
        }
        table
    }

    /// The calls with the numbers they can answer and never did, or cannot and did.
    pub fn unseen(&self) -> Vec<String> {
        let mut unseen = Vec::new();
        for call in Call::ALL {
            for (seen, number) in self.0[call as usize].iter().zip(NUMBERS) {
                match (call.possible().contains(&number), *seen) {
                    (true, 0) => unseen.push(format!("{} never answered {number}", call.name())),
                    (false, 1..) => unseen.push(format!("{} answered {number}", call.name())),
                    _ => {}
                }
            }
        }
        unseen
    }
}

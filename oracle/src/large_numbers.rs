//! The largest numbers that a run on large lists has met. Each must be the largest that there can be by
//! document 02, request 7.

use crate::large_lists::MANY;

/// In the order of `NUMBERS`.
#[derive(Clone, Copy)]
pub enum Largest {
    Added,
    AddedAligned,
    Voided,
    Found,
    Found09,
    Padding,
    Shift,
    Shift09,
    Entries,
    Entries09,
}

const NUMBERS: [(&str, usize); 10] = [
    ("bytes of data added", 16_777_184),
    ("bytes of data added aligned", 16_777_184),
    ("bytes of data voided", 16_777_184),
    ("bytes of data found", 16_777_184),
    ("bytes of data found in edition 0.9", 16_777_192),
    ("bytes of a padding void, its header included", 2_097_144),
    ("bytes of a relocation's shift", 2_097_151),
    ("bytes of a conversion's shift", 2_097_151),
    ("entries in a list", MANY),
    ("entries in a list of edition 0.9", MANY + 1),
];

#[derive(Default)]
pub struct Numbers([usize; NUMBERS.len()]);

impl Numbers {
    pub fn note(&mut self, which: Largest, number: usize) {
        let largest = &mut self.0[which as usize];
        *largest = number.max(*largest);
    }

    pub fn table(&self) -> String {
        let rows = NUMBERS.iter().zip(self.0).map(|((name, _), met)| format!("{name:<54}{met:>10}"));
        let head = format!("{:<54}{:>10}", "the most", "met");
        [head].into_iter().chain(rows).collect::<Vec<_>>().join("\n")
    }

    /// What could have been larger, or should not have been so large.
    pub fn unseen(&self) -> Vec<String> {
        let others = NUMBERS.iter().zip(self.0).filter(|((_, wanted), met)| met != wanted);
        others.map(|((name, wanted), met)| format!("at most {met} {name}, not {wanted}")).collect()
    }
}

//! Lists whose alignment is 13 to 22: every call on them; relocations and conversions with every sort of
//! shift, to targets that just hold them, are a byte short, or reach the limits.

use crate::compare::Bench;
use crate::large_lists::{mixture, Plan, LONGEST};
use oracle::lists::{used_size, List};
use oracle::model::{Edition, ADDRESS_END};

const ALIGNMENTS: std::ops::RangeInclusive<u8> = 13..=22;
/// The bytes of the entries, and what the list has left.
const ENTRIES: usize = 1000;
const LEFT: usize = 48;

/// What a move does with a list: the bytes it writes, and the address that the result's is like.
struct Moving {
    used: usize,
    from: u64,
    boundary: u64,
}

impl Moving {
    /// A conversion's result starts 8 before the old base, and has 8 bytes more.
    fn new(list: &List) -> Moving {
        let more = if list.edition == Edition::Current { 0 } else { 8 };
        let used = used_size(&list.area) as usize + more;
        Moving { used, from: list.base - more as u64, boundary: 1 << list.area[7] }
    }

    /// The target base with this shift, near the list's own base.
    fn low(&self, shift: usize) -> u64 {
        self.from + 2 * self.boundary - shift as u64
    }

    /// The highest one with this shift, if the bytes moved are to stand within the addresses.
    fn high(&self, shift: usize) -> u64 {
        let last = ADDRESS_END as u64 - self.used as u64;
        let highest = last - (last - self.from) % self.boundary;
        highest - shift as u64
    }
}

/// A list of this alignment. A move can take it to the very end of the addresses.
fn list(plan: &Plan, alignment: u8) -> List {
    let mut list = Plan { alignment, ..*plan }.list(&mixture(ENTRIES, true));
    let used = Moving::new(&list).used as u64;
    let more = if list.edition == Edition::Current { 0 } else { 8 };
    list.base = (8 << alignment) - used + more;
    list
}

impl Bench {
    pub fn large_moves(&mut self) -> Result<(), String> {
        for alignment in ALIGNMENTS {
            for has_checksum in [true, false] {
                let plan = Plan { has_checksum, ..Plan::current(24 + ENTRIES + LEFT) };
                let list = list(&plan, alignment);
                self.every_call(&list)?;
                self.each_move(&list)?;
            }
            let list = list(&Plan::old(16 + ENTRIES + LEFT), alignment);
            self.every_call09(&list)?;
            self.each_move(&list)?;
        }
        Ok(())
    }

    fn each_move(&mut self, list: &List) -> Result<(), String> {
        let moving = Moving::new(list);
        let boundary = moving.boundary as usize;
        for shift in [0, 1, 8, boundary / 2, boundary - 8, boundary - 1] {
            let just = shift + moving.used;
            for base in [moving.low(shift), moving.high(shift)] {
                for len in [just - 1, just, just + 1, just + 9, shift, just / 2] {
                    self.a_move(list, len, base)?;
                }
            }
        }
        for len in [LONGEST - 1, LONGEST, LONGEST + 1] {
            self.a_move(list, len, moving.low(boundary - 1))?;
            self.a_move(list, len, ADDRESS_END as u64 - len as u64)?;
            self.a_move(list, len, ADDRESS_END as u64 - len as u64 + 1)?;
        }
        Ok(())
    }

    fn a_move(&mut self, list: &List, len: usize, base: u64) -> Result<(), String> {
        let target = vec![0x5a; len];
        match list.edition {
            Edition::Current => self.relocate(list, &target, base),
            Edition::E09 => self.convert09(list, &target, base),
        }
    }
}

//! Every call on areas and targets of the five lengths: full lists and lists with room, with and without
//! has_checksum, of version 1 and 2, low, in the middle and up to the end of the addresses and beyond it.

use crate::compare::Bench;
use crate::large_lists::{highest_base, mixture, Plan, ABSENT, LARGE, LENGTHS, SMALL};
use oracle::certificate_values;
use oracle::demand::Edit;
use oracle::lists::List;
use oracle::model::ADDRESS_END;

const MIDDLE: u64 = 0x7f12_3456_7890;
/// What a list with room has left.
const LEFT: usize = 4096;
/// Tags and occurrences that are found, and some that are not.
const ASKED: [(u32, u64); 6] = [(SMALL, 0), (SMALL, 1), (LARGE, 0), (LARGE, 1), (ABSENT, 0), (0, 0)];

/// The last one is too high.
fn bases(len: usize) -> [u64; 4] {
    [0, MIDDLE, highest_base(len), highest_base(len) + 8]
}

/// One full list, and one with room.
fn two_lists(plan: &Plan) -> [List; 2] {
    let room = plan.room();
    [plan.list(&mixture(room, false)), plan.list(&mixture(room - LEFT, true))]
}

impl Bench {
    pub fn large_lengths(&mut self) -> Result<(), String> {
        for len in LENGTHS {
            for (version, has_checksum) in [(1, true), (1, false), (2, true), (2, false)] {
                let plan = Plan { version, has_checksum, ..Plan::current(len) };
                self.at_each_base(&plan, Bench::every_call)?;
            }
            for version in [1, 2] {
                let plan = Plan { version, ..Plan::old(len) };
                self.at_each_base(&plan, Bench::every_call09)?;
            }
        }
        self.each_target()
    }

    fn at_each_base(
        &mut self,
        plan: &Plan,
        calls: fn(&mut Bench, &List) -> Result<(), String>,
    ) -> Result<(), String> {
        for mut list in two_lists(plan) {
            for base in bases(plan.len) {
                list.base = base;
                calls(self, &list)?;
            }
        }
        Ok(())
    }

    /// Every call for a current list.
    pub fn every_call(&mut self, list: &List) -> Result<(), String> {
        self.check(list)?;
        for (tag, n) in ASKED {
            self.find(list, tag, n)?;
        }
        self.create(&list.area, list.base, list.base == 0)?;
        let data = [5; 11];
        self.edit(list, &Edit::Add { tag: SMALL, data: &data, use_voids: true })?;
        self.edit(list, &Edit::Add { tag: SMALL, data: &data, use_voids: false })?;
        self.edit(list, &Edit::AddAligned { tag: SMALL, data: &data, exponent: 6 })?;
        for (tag, n) in ASKED {
            self.edit(list, &Edit::Void { tag, n })?;
        }
        self.tidy(list)?;
        let one = certificate_values::stated(1);
        self.certificate(list, one.serial, one.test)?;
        let target = vec![0x5a; list.area.len()];
        self.relocate(list, &target, list.base)?;
        self.relocate(list, &target, list.base + 1)
    }

    /// Every call for a list of edition 0.9.
    pub fn every_call09(&mut self, list: &List) -> Result<(), String> {
        self.check09(list)?;
        for (tag, n) in ASKED {
            self.find09(list, tag, n)?;
        }
        let target = vec![0x5a; list.area.len()];
        self.convert09(list, &target, list.base)?;
        self.convert09(list, &target, list.base + 1)
    }

    /// Targets of the five lengths, low, in the middle and up to the last address and one beyond it.
    fn each_target(&mut self) -> Result<(), String> {
        let [_, list] = two_lists(&Plan::current(LENGTHS[0]));
        let [_, old] = two_lists(&Plan::old(LENGTHS[0]));
        for len in LENGTHS {
            let target = vec![0x5a; len];
            let end = ADDRESS_END as u64 - len as u64;
            for base in [0, MIDDLE + 3, end, end + 1] {
                self.relocate(&list, &target, base)?;
                self.convert09(&old, &target, base)?;
            }
        }
        Ok(())
    }
}

//! Lists of 16 MiB that are full of entries without data: 2,097,149 of them, in edition 0.9 one more.

use crate::compare::Bench;
use crate::large_entries::expect;
use crate::large_lists::{certificate, without_data, Plan, BASE, LONGEST, MANY, SMALL};
use oracle::certificate_values;
use oracle::demand::Edit;
use oracle::lists::List;
use oracle::lists_certificate::entry;
use oracle::model::ROOM;

/// The first, one in the middle, the last, one past it, and what would be the first if it were cut to
/// 32 bits.
const OCCURRENCES: [u64; 5] = [0, 1_000_000, MANY as u64 - 1, MANY as u64, 1 << 32];

/// Voids: every second entry, runs of four and of a thousand, the second half, the last one.
const RUNS: [fn(usize) -> bool; 5] = [
    |index| index % 2 == 1,
    |index| index % 7 < 4,
    |index| (index / 1000) % 3 == 1,
    |index| index >= MANY / 2,
    |index| index == MANY - 1,
];

/// A full list; each entry has the tag that its index gives.
fn full(tag: impl Fn(usize) -> u32) -> List {
    let plan = Plan::current(LONGEST);
    plan.list(&without_data(plan.room(), tag))
}

/// A void where the index is such.
fn with_voids(such: fn(usize) -> bool) -> List {
    full(|index| if such(index) { 0 } else { SMALL })
}

impl Bench {
    pub fn large_full(&mut self) -> Result<(), String> {
        self.full_of_live(&full(|_| SMALL))?;
        self.full_of_voids(&full(|_| 0))?;
        for such in RUNS {
            self.tidy(&with_voids(such))?;
        }
        self.one_void(with_voids(|index| index == 1_999_999))?;
        self.carried_on(full(|_| SMALL))?;
        self.certificate_behind()?;
        self.later_version()?;
        self.full_of_edition09()
    }

    fn full_of_live(&mut self, list: &List) -> Result<(), String> {
        self.check(list)?;
        for n in OCCURRENCES {
            self.find(list, SMALL, n)?;
            self.edit(list, &Edit::Void { tag: SMALL, n })?;
        }
        self.edit(list, &Edit::Add { tag: SMALL, data: &[], use_voids: true })?;
        self.edit(list, &Edit::AddAligned { tag: SMALL, data: &[], exponent: 21 })?;
        self.tidy(list)?;
        self.certificate(list, 1, 2)?;
        for (len, base) in [(LONGEST, 0), (LONGEST, 1), (LONGEST - 1, BASE), (LONGEST + 1, BASE)] {
            self.relocate(list, &vec![0x5a; len], base)?;
        }
        Ok(())
    }

    fn full_of_voids(&mut self, list: &List) -> Result<(), String> {
        self.check(list)?;
        self.find(list, SMALL, 0)?;
        self.edit(list, &Edit::Add { tag: SMALL, data: &[], use_voids: true })?;
        self.edit(list, &Edit::Add { tag: SMALL, data: &[], use_voids: false })?;
        self.edit(list, &Edit::Add { tag: SMALL, data: &[1], use_voids: true })?;
        self.relocate(list, &vec![0x5a; LONGEST], BASE)?;
        self.tidy(list)?;
        Ok(())
    }

    /// An add takes the one void there is, and the next has no room.
    fn one_void(&mut self, mut list: List) -> Result<(), String> {
        let add = Edit::Add { tag: SMALL + 1, data: &[], use_voids: true };
        for number in [0, ROOM] {
            expect(self.edit_on(&mut list, &add)?.number, number, "an add to a full list")?;
        }
        self.find(&list, SMALL + 1, 0)?;
        self.tidy(&list)?;
        Ok(())
    }

    /// Each call on what the library made of the last one: the first entry, a late one and the last are
    /// voided, and the tidy gives the last one's place back; then there is room for just three.
    fn carried_on(&mut self, mut list: List) -> Result<(), String> {
        for n in [0, 1_999_998, MANY as u64 - 3] {
            let done = self.edit_on(&mut list, &Edit::Void { tag: SMALL, n })?;
            expect(done.number, 0, "a void in a full list")?;
        }
        expect(self.tidy_on(&mut list)?.value, LONGEST as u32 - 8, "a tidied list's used size")?;
        for (use_voids, number) in [(false, 0), (false, ROOM), (true, 0), (true, 0), (true, ROOM)] {
            let done = self.edit_on(&mut list, &Edit::Add { tag: SMALL, data: &[], use_voids })?;
            expect(done.number, number, "an add to what was given back, or to a void")?;
        }
        self.check(&list)?;
        self.find(&list, SMALL, MANY as u64 - 1)
    }

    /// The certificate takes the place of eight entries.
    fn certificate_behind(&mut self) -> Result<(), String> {
        let plan = Plan::current(LONGEST);
        let one = certificate_values::stated(1);
        for behind in [certificate(), entry(SMALL, 8, &one.bytes())] {
            let entries = without_data(plan.room() - 64, |_| SMALL);
            let list = plan.list(&[entries, behind].concat());
            self.certificate(&list, one.serial, one.test)?;
        }
        Ok(())
    }

    /// Of version 2, whose header is longer here.
    fn later_version(&mut self) -> Result<(), String> {
        let plan = Plan { version: 2, ..Plan::current(LONGEST) };
        let list = plan.list(&without_data(plan.room(), |_| SMALL));
        self.check(&list)?;
        self.find(&list, SMALL, MANY as u64 - 2)?;
        self.edit(&list, &Edit::Void { tag: SMALL, n: 0 })?;
        Ok(())
    }

    /// A list of edition 0.9 whose size is 16 MiB cannot be converted; one entry less, and it can.
    fn full_of_edition09(&mut self) -> Result<(), String> {
        let plan = Plan::old(LONGEST);
        let list = plan.list(&without_data(plan.room(), |_| SMALL));
        self.check09(&list)?;
        for n in [0, 1_000_000, MANY as u64, MANY as u64 + 1, 1 << 32] {
            self.find09(&list, SMALL, n)?;
        }
        for len in [LONGEST, LONGEST + 8] {
            self.convert09(&list, &vec![0x5a; len], BASE)?;
        }
        let list = plan.list(&without_data(plan.room() - 8, |index| (index % 3) as u32));
        for (len, base) in [(LONGEST, BASE), (LONGEST, BASE - 1), (LONGEST - 1, BASE), (LONGEST + 1, BASE)] {
            self.convert09(&list, &vec![0x5a; len], base)?;
        }
        Ok(())
    }
}

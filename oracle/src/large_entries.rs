//! Entries over 65,536 bytes: added at the end and in a void, just fitting and one byte too long, found,
//! voided, tidied away, moved, converted, and with certificates behind them.

use crate::compare::Bench;
use crate::large_lists::{certificate, entry_of, noise, Plan, BASE, LARGE, LONGEST, SMALL};
use oracle::certificate_values;
use oracle::demand::Edit;
use oracle::lists::List;
use oracle::lists_certificate::entry;
use oracle::model::{CERTIFICATE_TAG, ROOM};

/// The last one fills 16 MiB.
const DATA: [usize; 3] = [65_537, 1 << 20, LONGEST - 32];

/// The bytes that an entry with data of so many bytes covers.
fn cover(length: usize) -> usize {
    (8 + length).next_multiple_of(8)
}

/// A report where an answer is not this one, although the model and the library agree.
pub fn expect(given: u32, wanted: u32, what: &str) -> Result<(), String> {
    match given == wanted {
        true => Ok(()),
        false => Err(format!("{what}: {given}, not {wanted}")),
    }
}

impl Bench {
    pub fn large_entries(&mut self) -> Result<(), String> {
        for length in DATA {
            self.added_at_the_end(length)?;
            self.one_after_the_other(length)?;
            self.added_in_a_void(length)?;
            self.moved(&Plan::current(24 + cover(length)).list(&entry_of(LARGE, length)))?;
            self.converted(&Plan::old(16 + cover(length)).list(&entry_of(LARGE, length)))?;
            self.certificates_behind(length.min(LONGEST - 32 - 128))?;
        }
        self.longest_of_edition09()
    }

    /// On a new list: what just fits, and one byte more.
    fn added_at_the_end(&mut self, length: usize) -> Result<(), String> {
        let list = self.created(&noise(24 + cover(length)), BASE, true)?;
        let most = cover(length) - 8;
        for (length, number) in [(length, 0), (most, 0), (most + 1, ROOM)] {
            let data = &noise(length);
            for use_voids in [false, true] {
                let done = self.edit(&list, &Edit::Add { tag: LARGE, data, use_voids })?;
                expect(done.number, number, "an add of just as many bytes as fit, or of one more")?;
            }
            let done = self.edit(&list, &Edit::AddAligned { tag: LARGE, data, exponent: 3 })?;
            expect(done.number, number, "an aligned add of just as many bytes as fit, or of one more")?;
        }
        Ok(())
    }

    /// Each call on what the library made of the last one: add, void, add in the void, void, tidy, add.
    fn one_after_the_other(&mut self, length: usize) -> Result<(), String> {
        let mut list = self.created(&noise(24 + cover(length)), BASE, true)?;
        let data = &noise(length);
        for use_voids in [false, true, false] {
            let done = self.edit_on(&mut list, &Edit::Add { tag: LARGE, data, use_voids })?;
            expect(done.number, 0, "an add of just as many bytes as fit")?;
            self.check(&list)?;
            self.find(&list, LARGE, 0)?;
            self.find(&list, LARGE, 1)?;
            let done = self.edit_on(&mut list, &Edit::Void { tag: LARGE, n: 0 })?;
            expect(done.number, 0, "a void of the one entry")?;
            let left = list.area[32..].iter().filter(|byte| **byte != 0).count();
            expect(left as u32, 0, "bytes of a voided entry's data that are not 0")?;
            self.check(&list)?;
            self.find(&list, LARGE, 0)?;
            self.tidy(&list)?;
            if use_voids {
                self.tidy_on(&mut list)?;
            }
        }
        Ok(())
    }

    /// A list that is full: the void just fits, or is a byte short; what is left of it is a void again.
    fn added_in_a_void(&mut self, length: usize) -> Result<(), String> {
        let size = length.next_multiple_of(8);
        let void = entry(0, 8, &noise(size));
        let len = (24 + void.len() + 16).min(LONGEST);
        let behind = match len - 24 - void.len() {
            0 => Vec::new(),
            _ => entry(SMALL, 8, &[3; 5]),
        };
        let list = Plan::current(len).list(&[void, behind].concat());
        for length in [size, size - 7, size - 8, size - 65_540, size + 1] {
            let done = self.edit(&list, &Edit::Add { tag: LARGE, data: &noise(length), use_voids: true })?;
            expect(done.number, if length > size { ROOM } else { 0 }, "an add to a void")?;
        }
        let done = self.edit(&list, &Edit::Add { tag: LARGE, data: &[], use_voids: false })?;
        expect(done.number, ROOM, "an add behind a full list")?;
        self.tidy(&list)?;
        Ok(())
    }

    /// To targets that are just long enough, a byte short, longer, and the longest.
    fn moved(&mut self, list: &List) -> Result<(), String> {
        let used = list.area.len();
        for shift in [0, 5] {
            for len in [shift + used, shift + used - 1, shift + used + 9, LONGEST] {
                self.relocate(list, &vec![0x5a; len], BASE + 8 - shift as u64)?;
            }
        }
        Ok(())
    }

    fn converted(&mut self, list: &List) -> Result<(), String> {
        let used = list.area.len() + 8;
        self.check09(list)?;
        self.find09(list, LARGE, 0)?;
        self.find09(list, LARGE, 1)?;
        for shift in [0, 5] {
            for len in [shift + used, shift + used - 1, shift + used + 9, LONGEST] {
                self.convert09(list, &vec![0x5a; len], BASE + 8 - shift as u64)?;
            }
        }
        Ok(())
    }

    /// One certificate, asked for and not, an unsound one, and two, behind the large entry.
    fn certificates_behind(&mut self, length: usize) -> Result<(), String> {
        let large = entry_of(LARGE, length);
        let plan = Plan::current(24 + large.len() + 128);
        let one = certificate_values::stated(1);
        let mut unsound = certificate();
        unsound[8 + 16] = 4;
        for behind in [certificate(), unsound, certificate().repeat(2)] {
            let list = plan.list(&[large.clone(), behind].concat());
            self.certificate(&list, one.serial, one.test)?;
            self.certificate(&list, one.serial, one.test + 1)?;
            self.edit(&list, &Edit::Add { tag: CERTIFICATE_TAG, data: &one.bytes(), use_voids: true })?;
        }
        Ok(())
    }

    /// The longest entry that edition 0.9 can have; its list is too long to be converted.
    fn longest_of_edition09(&mut self) -> Result<(), String> {
        let list = Plan::old(LONGEST).list(&entry_of(LARGE, LONGEST - 24));
        self.check09(&list)?;
        self.find09(&list, LARGE, 0)?;
        for len in [LONGEST, LONGEST + 1, LONGEST + 8] {
            self.convert09(&list, &vec![0x5a; len], BASE)?;
        }
        Ok(())
    }
}

//! Aligned adds with exponents 13 to 22: the padding void is none, the smallest, half a boundary and the
//! largest; it and the entry just fit, are 8 bytes too long, or 1; the alignment field is raised or kept.

use crate::compare::Bench;
use crate::large_lists::{entry_of, noise, Plan, BASE, LONGEST, SMALL};
use oracle::demand::Edit;
use oracle::lists::List;
use oracle::model::{ADDRESS_END, ALIGN, ROOM};

const EXPONENTS: std::ops::RangeInclusive<u32> = 13..=22;
const TOO_HIGH: u32 = 22;
/// These would be good if they were cut to 8 bits or taken modulo 32 or 64.
const OTHERS: [u32; 6] = [23, 32 + 13, 64 + 21, 256 + 21, 1 << 31 | 20, u32::MAX];
/// The entry's data is so long that it has padding, or that it has none.
const DATA: usize = 20;
const FULL_DATA: usize = 24;
const COVER: usize = 32;

/// An aligned add and the list that it is made on.
#[derive(Clone, Copy)]
struct Wanted {
    exponent: u32,
    /// The bytes of the padding void, its header included; 0 for none.
    padding: usize,
    /// The alignment field before.
    alignment: u8,
    /// The data of the one entry that is there before.
    before: usize,
    /// Whether the list stands as high as it can.
    is_high: bool,
}

impl Wanted {
    fn used(&self) -> usize {
        24 + (8 + self.before).next_multiple_of(8)
    }

    /// A list of so many bytes more than the padding void and the entry need. Its base is such that the
    /// padding void is as wanted.
    fn list(&self, more: isize) -> List {
        let boundary = 1 << self.exponent;
        let behind = self.padding + self.used() + 8;
        let data_at = if self.is_high { ADDRESS_END as u64 - boundary } else { 4 * boundary };
        let len = (self.used() + self.padding + COVER).wrapping_add_signed(more);
        let base = data_at - behind as u64;
        let plan = Plan { alignment: self.alignment, base, ..Plan::current(len) };
        plan.list(&entry_of(SMALL, self.before))
    }

    /// Whether the padding void, where there is one, is a void's header and zeros; its bytes were not 0
    /// before.
    fn is_zero_void(&self, area: &[u8]) -> bool {
        let void = &area[self.used()..][..self.padding];
        void.is_empty() || (void[..4] == [0, 0, 0, 8] && void[8..].iter().all(|byte| *byte == 0))
    }

    /// What is answered where all is within the limits.
    fn or_too_high(&self, number: u32) -> u32 {
        if self.exponent == TOO_HIGH {
            ALIGN
        } else {
            number
        }
    }
}

impl Bench {
    pub fn large_alignments(&mut self) -> Result<(), String> {
        for exponent in EXPONENTS {
            let boundary = 1 << exponent;
            for padding in [0, 8, 16, boundary / 2, boundary - 8] {
                let raised = Wanted { exponent, padding, alignment: 3, before: 0, is_high: false };
                let kept = Wanted { alignment: 21, before: 4001, ..raised };
                let same = Wanted { alignment: exponent.min(21) as u8, is_high: true, ..raised };
                let below = Wanted { alignment: exponent as u8 - 1, is_high: true, ..kept };
                for wanted in [raised, kept, same, below] {
                    self.aligned(&wanted)?;
                }
            }
            self.until_there_is_no_room(exponent)?;
        }
        self.other_exponents()
    }

    fn aligned(&mut self, wanted: &Wanted) -> Result<(), String> {
        let fits = wanted.or_too_high(0);
        let room = wanted.or_too_high(ROOM);
        self.add_aligned(wanted, 0, DATA, fits)?;
        self.add_aligned(wanted, 0, FULL_DATA, fits)?;
        self.add_aligned(wanted, 41, FULL_DATA, fits)?;
        self.add_aligned(wanted, 0, FULL_DATA + 1, room)?;
        self.add_aligned(wanted, -8, DATA, room)?;
        self.add_aligned(wanted, -1, DATA, room)
    }

    /// The answer must be as wanted, and so must be the padding void.
    fn add_aligned(&mut self, wanted: &Wanted, more: isize, data: usize, number: u32) -> Result<(), String> {
        let edit = Edit::AddAligned { tag: SMALL, data: &noise(data), exponent: wanted.exponent };
        let mut list = wanted.list(more);
        let done = self.edit_on(&mut list, &edit)?;
        let value = if number == 0 { wanted.used() + wanted.padding + 8 } else { 0 };
        let is_as_wanted = (done.number, done.value as usize) == (number, value);
        if is_as_wanted && (number != 0 || wanted.is_zero_void(&list.area)) {
            return Ok(());
        }
        let (exponent, padding) = (wanted.exponent, wanted.padding);
        Err(format!("an aligned add of exponent {exponent}, padding void {padding}: {done:?}, not {number}"))
    }

    /// In a new list, of 16 MiB for the high exponents, each add on what the library made of the last one.
    fn until_there_is_no_room(&mut self, exponent: u32) -> Result<(), String> {
        let len = if exponent < 19 { 16 << exponent } else { LONGEST };
        let mut list = self.created(&noise(len), BASE + 8, exponent % 2 == 0)?;
        let edit = Edit::AddAligned { tag: SMALL, data: &noise(DATA), exponent };
        while self.edit_on(&mut list, &edit)?.number == 0 {}
        self.check(&list)
    }

    fn other_exponents(&mut self) -> Result<(), String> {
        let list = Plan::current(1 << 20).list(&entry_of(SMALL, 5));
        for exponent in OTHERS {
            let done = self.edit(&list, &Edit::AddAligned { tag: SMALL, data: &[], exponent })?;
            if done.number != ALIGN {
                return Err(format!("exponent {exponent}: {done:?}"));
            }
        }
        Ok(())
    }
}

//! Large lists with one fault each, for every refusal from 1 to 8: at the very end, deep inside, or in sizes
//! that are off by 8 at 16 MiB; and adds of many bytes that TAG and SHAPE refuse.

use crate::compare::Bench;
use crate::large_lists::{highest_base, noise, one_entry, without_data, Plan, LARGE, LONGEST, SMALL};
use oracle::demand::Edit;
use oracle::lists::{restore_checksum, List};
use oracle::model::{field, put_u32, Edition, CERTIFICATE_TAG};
use oracle::model::{AREA, CHECKSUM, ENTRY, READONLY, SHORT, SIGNATURE, SIZES, VERSION};
use oracle::model09;
use oracle::model_tidy;

/// What spoils a list of 16 MiB, and the number that then refuses it.
type Fault = (u32, fn(&mut List));

/// Faults of any list. The checksum is put right afterwards.
const OF_ANY: [Fault; 20] = [
    (AREA, |list| list.base += 4),
    (AREA, |list| list.base = highest_base(LONGEST) + 8),
    (AREA, |list| list.base = u64::MAX - 7),
    (AREA, |list| list.area.push(0)),
    (AREA, |list| list.area.resize(LONGEST + 8, 0)),
    (SIGNATURE, |list| list.area[3] ^= 0x80),
    (VERSION, |list| list.area[field::VERSION] = 0),
    (READONLY, |list| list.area[field::VERSION] = 2),
    (SIZES, |list| list.area[field::HDR_SIZE] += 1),
    (SIZES, |list| list.area[field::ALIGNMENT] = 22),
    (SIZES, |list| list.area[field::ALIGNMENT] = 2),
    (SIZES, |list| put_u32(&mut list.area, field::USED_SIZE, LONGEST as u32 + 8)),
    (SIZES, |list| put_u32(&mut list.area, field::USED_SIZE, LONGEST as u32 - 4)),
    (SIZES, |list| put_u32(&mut list.area, field::USED_SIZE, 8)),
    (SIZES, |list| put_u32(&mut list.area, field::TOTAL_SIZE, LONGEST as u32 + 8)),
    (SIZES, |list| put_u32(&mut list.area, field::TOTAL_SIZE, LONGEST as u32 - 8)),
    (SIZES, |list| put_u32(&mut list.area, field::TOTAL_SIZE, 0xffff_fff8)),
    (SIZES, |list| list.area.truncate(LONGEST - 1)),
    (ENTRY, |list| first(list)[3] = 7),
    (ENTRY, |list| first(list)[4..8].fill(0xff)),
];

/// Faults of one entry that fills the list: its length beside the one it should have.
const OF_ONE: [Fault; 3] = [
    (ENTRY, |list| put_u32(&mut list.area, field::USED_SIZE, LONGEST as u32 - 8)),
    (ENTRY, |list| first(list)[4] += 1),
    (ENTRY, |list| first(list)[4] -= 8),
];

/// Faults of many entries without data: of the 2,000,000th, which is a void, and of the last, which is live.
const OF_MANY: [Fault; 8] = [
    (ENTRY, |list| late(list)[3] = 9),
    (ENTRY, |list| late(list)[3] = 0),
    (ENTRY, |list| late(list)[4] = 4),
    (ENTRY, |list| late(list)[7] = 1),
    (ENTRY, |list| late(list)[4..8].fill(0xff)),
    (ENTRY, |list| late(list)[5..8].fill(0xff)),
    (ENTRY, |list| list.area[LONGEST - 5] = 16),
    (ENTRY, |list| list.area[LONGEST - 4] = 1),
];

/// Faults whose bytes the checksum is over; it is not put right.
const OF_CHECKSUM: [Fault; 5] = [
    (CHECKSUM, |list| list.area[LONGEST - 1] ^= 0x40),
    (CHECKSUM, |list| list.area[field::CHECKSUM] ^= 1),
    (CHECKSUM, |list| list.area[65_536] ^= 1),
    (CHECKSUM, |list| late(list)[0] ^= 2),
    (CHECKSUM, |list| list.area[field::RESERVED] ^= 0x10),
];

/// Cut off within the header.
const OF_LENGTH: [Fault; 3] = [
    (SHORT, |list| list.area.truncate(list.edition.hdr_size() - 1)),
    (SHORT, |list| list.area.truncate(1)),
    (SHORT, |list| list.area.clear()),
];

/// From the first entry on.
fn first(list: &mut List) -> &mut [u8] {
    let start = list.edition.hdr_size();
    &mut list.area[start..]
}

/// From the 2,000,000th entry without data on.
fn late(list: &mut List) -> &mut [u8] {
    &mut first(list)[8 * 1_999_999..]
}

fn one(plan: &Plan) -> List {
    plan.list(&one_entry(LARGE, plan.room()))
}

/// Every fourth entry is a void.
fn many(plan: &Plan) -> List {
    plan.list(&without_data(plan.room(), |index| if index % 4 == 3 { 0 } else { SMALL }))
}

/// The number that refuses an edit or a conversion.
fn number_of(list: &List) -> u32 {
    match list.edition {
        Edition::Current => model_tidy::tidy(&mut list.area.clone(), list.base).number,
        Edition::E09 => model09::convert(&list.area, list.base, &mut [], 0).number,
    }
}

impl Bench {
    pub fn large_refusals(&mut self) -> Result<(), String> {
        for plan in [Plan::current(LONGEST), Plan::old(LONGEST)] {
            self.faults(&OF_ANY, true, &one(&plan))?;
            self.faults(&OF_ANY, true, &many(&plan))?;
            self.faults(&OF_ONE, true, &one(&plan))?;
            self.faults(&OF_MANY, true, &many(&plan))?;
            self.faults(&OF_CHECKSUM, false, &one(&plan))?;
            self.faults(&OF_CHECKSUM, false, &many(&plan))?;
            self.faults(&OF_LENGTH, false, &one(&plan))?;
        }
        let plan = Plan { has_checksum: false, ..Plan::current(LONGEST) };
        self.faults(&[(CHECKSUM, |list| list.area[field::CHECKSUM] = 1)], false, &one(&plan))?;
        self.places_of_bad_entries()?;
        self.tags_and_shapes()
    }

    /// The 2,000,000th of many entries and the last, at their places as they are worked out by hand.
    fn places_of_bad_entries(&mut self) -> Result<(), String> {
        let spoils: [fn(&mut List); 2] = [|list| late(list)[3] = 7, |list| list.area[LONGEST - 4] = 1];
        let (current, old) = ([16_000_016, 16_777_208], [16_000_008, 16_777_208]);
        for (plan, places) in [(Plan::current(LONGEST), current), (Plan::old(LONGEST), old)] {
            for (spoil, place) in spoils.into_iter().zip(places) {
                let mut list = many(&plan);
                spoil(&mut list);
                restore_checksum(list.edition, &mut list.area);
                let checked = match list.edition {
                    Edition::Current => self.checked(&list)?,
                    Edition::E09 => self.checked09(&list)?,
                };
                if (checked.number, checked.at) != (ENTRY, place) {
                    return Err(format!("a large list's bad entry is at {place}: {checked:?}"));
                }
            }
        }
        Ok(())
    }

    /// Tags, and lengths for a tag, that either add refuses, although there would be room.
    fn tags_and_shapes(&mut self) -> Result<(), String> {
        let list = Plan::current(LONGEST).list(&[]);
        let data = &noise(LONGEST - 32);
        for tag in [0, 0x80_0000, 0xff_efff, 0x100_0007, 6, CERTIFICATE_TAG] {
            self.edit(&list, &Edit::Add { tag, data, use_voids: true })?;
            self.edit(&list, &Edit::AddAligned { tag, data, exponent: 3 })?;
        }
        Ok(())
    }

    fn faults(&mut self, faults: &[Fault], puts_checksum: bool, good: &List) -> Result<(), String> {
        for (index, (number, spoil)) in faults.iter().enumerate() {
            let mut list = List { area: good.area.clone(), ..*good };
            spoil(&mut list);
            if puts_checksum {
                restore_checksum(list.edition, &mut list.area);
            }
            let given = number_of(&list);
            if given != *number {
                return Err(format!("fault {index}: a large list is refused with {given}, not {number}"));
            }
            self.each_call(&list)?;
            self.each_call09(&list)?;
        }
        Ok(())
    }

    /// Each call for current lists; those of edition 0.9 it refuses.
    fn each_call(&mut self, list: &List) -> Result<(), String> {
        self.check(list)?;
        self.find(list, LARGE, 0)?;
        self.create(&list.area, list.base, true)?;
        self.edit(list, &Edit::Add { tag: SMALL, data: &[1, 2], use_voids: true })?;
        self.edit(list, &Edit::AddAligned { tag: SMALL, data: &[1, 2], exponent: 21 })?;
        self.edit(list, &Edit::Void { tag: SMALL, n: 0 })?;
        self.tidy(list)?;
        self.certificate(list, 1, 2)?;
        self.relocate(list, &[0x5a; 100], list.base)
    }

    fn each_call09(&mut self, list: &List) -> Result<(), String> {
        self.check09(list)?;
        self.find09(list, LARGE, 0)?;
        self.convert09(list, &[0x5a; 100], list.base)
    }
}

//! Rows of calls on large lists from the seed, each on what the library made of the last one. The lists have
//! from 64 KiB to 16 MiB, as many of up to 128 KiB as of over 8 MiB, and entries of mixed sizes.

use crate::compare::Bench;
use crate::large::again;
use crate::large_lists::{highest_base, Plan, LONGEST};
use crate::watch;
use oracle::certificate_values;
use oracle::demand::Edit;
use oracle::lists::{self, List};
use oracle::lists_certificate;
use oracle::model::{field, Edition, CERTIFICATE_TAG};
use oracle::rng::Rng;

/// Lists from the seed, and the calls made on each.
const LISTS: u64 = 2000;
const CALLS: usize = 16;
/// Of the edits, one in so many is made with a journal too.
const WITH_JOURNAL: u64 = 8;
/// 2^16 and 2^24 bytes.
const BITS: std::ops::Range<u64> = 16..24;

/// A length from 65,537 to 16 MiB.
fn length(rng: &mut Rng) -> usize {
    let bits = rng.range(BITS.start, BITS.end - 1);
    (1 << bits) + rng.range(1, 1 << bits) as usize
}

/// A list of mixed entries that leaves some room. Tiny entries alone are rare in the longer lists: those
/// take much longer then.
fn first_list(rng: &mut Rng) -> List {
    let len = length(rng);
    let edition = if rng.once_in(6) { Edition::E09 } else { Edition::Current };
    let alignment = rng.range(3, 21) as u8;
    let base = rng.below(highest_base(len) / 8) * 8;
    let plan = Plan { edition, version: 1, has_checksum: !rng.once_in(3), alignment, len, base };
    let room = plan.room() - rng.below(plan.room() as u64 / 2) as usize;
    let tiny = if len < 1 << 21 || rng.once_in(8) { 5 } else { 9 };
    let bits = rng.pick(&[tiny, 12, 16, 20, 23]);
    let voids = rng.pick(&[0, 2, 5]);
    let mut entries = Vec::with_capacity(room);
    loop {
        let data = rng.small(bits) as usize;
        let (tag, length) = match rng.below(8) < voids {
            true => (0, data / 8 * 8),
            false => (rng.range(1, 4) as u32, data),
        };
        let entry = lists_certificate::entry(tag, 8, &rng.bytes(length));
        if entries.len() + entry.len() > room {
            return plan.list(&entries);
        }
        entries.extend(entry);
    }
}

/// What an add is to be long: around a void's length, around the room that is left, or anything.
fn data_length(rng: &mut Rng, list: &List, padding: usize) -> usize {
    let area = &list.area;
    let room = (lists::total_size(area) - lists::used_size(area)) as i64 - padding as i64;
    let rows = lists::rows(area);
    let voids: Vec<i64> =
        rows.iter().filter(|row| row.tag_id == 0).map(|row| i64::from(row.data_size)).collect();
    let length = match rng.below(6) {
        0 | 1 if !voids.is_empty() => rng.pick(&voids) + rng.pick(&[-16, -9, -8, -7, -1, 0, 1]),
        0..=2 => room + rng.pick(&[-17, -16, -9, -8, -7, 0]),
        _ => rng.small(22) as i64,
    };
    length.clamp(0, LONGEST as i64) as usize
}

/// The bytes before the entry of an aligned add.
fn padding(list: &List, exponent: u32) -> usize {
    let data_at = list.base + lists::used_size(&list.area) as u64 + 8;
    (data_at.wrapping_neg() % (1 << exponent)) as usize
}

impl Bench {
    pub fn large_rows(&mut self, seed: u64) -> Result<(), String> {
        self.with_journal = WITH_JOURNAL;
        for index in 0..LISTS {
            let seed = seed.wrapping_add(index);
            watch::part(&again(seed, "rows"));
            self.row(seed).map_err(|report| format!("the first list of seed {seed}: {report}"))?;
        }
        Ok(())
    }

    fn row(&mut self, seed: u64) -> Result<(), String> {
        let rng = &mut Rng::new(seed);
        self.journals = Rng::new(!seed);
        let mut list = first_list(rng);
        if list.edition == Edition::E09 {
            self.check09(&list)?;
            self.find09(&list, rng.range(1, 4) as u32, rng.below(8))?;
            self.convert_on(rng, &mut list)?;
        }
        for _ in 0..CALLS {
            self.one_call(rng, &mut list)?;
        }
        self.check(&list)
    }

    fn one_call(&mut self, rng: &mut Rng, list: &mut List) -> Result<(), String> {
        let (tag, n) = (rng.range(1, 4) as u32, rng.small(6));
        match rng.below(18) {
            0..=4 => {
                let length = data_length(rng, list, 0);
                let data = &rng.bytes(length);
                self.edit_on(list, &Edit::Add { tag, data, use_voids: !rng.once_in(3) }).map(drop)
            }
            5..=8 => {
                let exponent = rng.range(3, 22) as u32;
                let length = data_length(rng, list, padding(list, exponent));
                let data = &rng.bytes(length);
                self.edit_on(list, &Edit::AddAligned { tag, data, exponent }).map(drop)
            }
            9..=11 => self.edit_on(list, &Edit::Void { tag, n }).map(drop),
            12 => self.tidy_on(list).map(drop),
            13 | 14 => self.relocate_on(rng, list),
            15 => {
                let (tag, data) = (CERTIFICATE_TAG, &certificate_values::any(rng).bytes());
                self.edit_on(list, &Edit::Add { tag, data, use_voids: true }).map(drop)
            }
            16 => {
                let (serial, test) = lists_certificate::asked(rng, &list.area);
                self.certificate(list, serial, test).map(drop)
            }
            _ => self.find(list, tag, n),
        }
    }

    /// The list is carried on where it is moved to, from the shift on.
    fn relocate_on(&mut self, rng: &mut Rng, list: &mut List) -> Result<(), String> {
        let (len, base) = target(rng, list, 0);
        let (done, mut target) = self.relocated(list, &vec![0x5a; len], base)?;
        if done.number == 0 {
            list.area = target.bytes()[done.value as usize..].to_vec();
            list.base = base + u64::from(done.value);
        }
        Ok(())
    }

    /// A current list is carried on, converted, if there is room, and else a new one.
    fn convert_on(&mut self, rng: &mut Rng, list: &mut List) -> Result<(), String> {
        let (len, base) = target(rng, list, 8);
        let (done, mut target) = self.converted09(list, &vec![0x5a; len], base)?;
        let shift = done.value as usize;
        *list = match done.number {
            0 => List {
                area: target.bytes()[shift..].to_vec(),
                base: base + shift as u64,
                edition: Edition::Current,
            },
            _ => Plan::current(list.area.len()).list(&[]),
        };
        Ok(())
    }
}

/// A target's length and base: mostly it holds the list, just so, or with room; sometimes it does not. The
/// list gets so many bytes longer, and starts as many before the old base.
fn target(rng: &mut Rng, list: &List, longer: u64) -> (usize, u64) {
    let boundary = 1u64 << list.area[field::ALIGNMENT];
    let used = lists::used_size(&list.area) as usize + longer as usize;
    let base = rng.below(1 << 47);
    let shift = list.base.wrapping_sub(longer).wrapping_sub(base) % boundary;
    let more = match rng.below(4) {
        0 => rng.pick(&[-8, -1]),
        1 => rng.pick(&[0, 1, 7, 8]),
        _ => rng.below(used as u64 + 4096) as i64,
    };
    let len = (shift as usize + used).saturating_add_signed(more as isize);
    (len.min(LONGEST + 1), base)
}

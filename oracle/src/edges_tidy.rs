//! The edges of document 02, request 3, made on purpose on every run: every short row of live entries
//! and voids, every refusal, areas without a byte, adds that are ROOM before and not afterwards, and
//! lists that fill the longest buffer. `huge` has the lengths at the limit.

use crate::compare::Bench;
use oracle::demand::Edit;
use oracle::lists::{restore_checksum, List, MOST_LENT};
use oracle::lists09;
use oracle::model::{self, field, put_u32, Edition, ADDRESS_END, HIGHEST_ALIGNMENT};
use oracle::model_tidy;

const BASE: u64 = 0x1000;
const END: u64 = ADDRESS_END as u64;
/// What stands behind used_size.
const BEHIND: u8 = 0xa5;
/// No row of entries that is made in every way has more than these.
const LONGEST_ROW: u32 = 5;

const HAS_CHECKSUM: u32 = 1;
/// Without has_checksum.
const OTHER_FLAGS: u32 = 0x8000_0002;

/// An entry whose data and padding are this byte.
fn entry(tag: u8, data_size: usize, byte: u8) -> Vec<u8> {
    let mut entry = vec![byte; (8 + data_size).next_multiple_of(8)];
    entry[..4].copy_from_slice(&[tag, 0, 0, 8]);
    put_u32(&mut entry, 4, data_size as u32);
    entry
}

/// What a row is made of: a live entry with padding that is not 0 and one without data; a void without
/// data, one whose data is 0, and one whose data is not.
pub fn pieces() -> [Vec<u8>; 5] {
    [entry(1, 3, 0x5a), entry(2, 0, 0), entry(0, 0, 0), entry(0, 8, 0), entry(0, 16, 0xd7)]
}

/// A list of version 1 with these entries, `spare` bytes to grow into and `rest` behind its total.
pub fn by_hand(alignment: u8, flags: u32, entries: &[u8], spare: usize, rest: usize) -> List {
    let used = 24 + entries.len();
    let mut area = vec![BEHIND; used + spare + rest];
    put_u32(&mut area, 0, Edition::Current.signature());
    area[field::VERSION] = 1;
    area[field::HDR_SIZE] = 24;
    area[field::ALIGNMENT] = alignment;
    put_u32(&mut area, field::USED_SIZE, used as u32);
    put_u32(&mut area, field::TOTAL_SIZE, (used + spare) as u32);
    put_u32(&mut area, field::FLAGS, flags);
    put_u32(&mut area, field::RESERVED, 0xdead_beef);
    area[24..used].copy_from_slice(entries);
    restore_checksum(Edition::Current, &mut area);
    List { area, base: BASE, edition: Edition::Current }
}

/// A list with a run at its start, one void alone in the middle and a run at its end, each with data
/// that is not 0; so nothing of a refused tidy stays unseen. The first void is at 24, the first live
/// entry at 56.
pub fn with_runs() -> List {
    let [live, empty, small, _, dirty] = pieces();
    let entries = [&dirty[..], &small, &live, &dirty, &empty, &small, &dirty].concat();
    by_hand(6, HAS_CHECKSUM, &entries, 16, 8)
}

pub type Change = fn(&mut List);

fn put_byte(list: &mut List, offset: usize, byte: u8) {
    list.area[offset] = byte;
}

/// Adds to a byte, which may be the lowest of a size.
fn grow(list: &mut List, offset: usize, by: u8) {
    list.area[offset] = list.area[offset].wrapping_add(by);
}

/// What gives each refusal; the checksum is put right afterwards where that is not the matter.
pub const REFUSALS: [(u32, Change); 40] = [
    (model::AREA, |list| list.base += 4),
    (model::AREA, |list| list.base += 1),
    (model::AREA, |list| list.base = END - list.area.len() as u64 / 8 * 8 + 8),
    (model::AREA, |list| list.base = END),
    (model::AREA, |list| list.base = 0u64.wrapping_sub(list.area.len() as u64 / 8 * 8)),
    (model::SHORT, |list| list.area.truncate(23)),
    (model::SHORT, |list| list.area.truncate(16)),
    (model::SHORT, |list| list.area.truncate(1)),
    (model::SIGNATURE, |list| put_byte(list, 0, 0x0a)),
    (model::SIGNATURE, |list| put_byte(list, 1, 0x0f)),
    (model::SIGNATURE, |list| put_byte(list, 2, 0xb1)),
    (model::SIGNATURE, |list| put_byte(list, 3, 0)),
    (model::SIGNATURE, |list| put_u32(&mut list.area, 0, Edition::E09.signature())),
    (model::VERSION, |list| put_byte(list, field::VERSION, 0)),
    (model::READONLY, |list| put_byte(list, field::VERSION, 2)),
    (model::READONLY, |list| put_byte(list, field::VERSION, 255)),
    (model::SIZES, |list| put_byte(list, field::HDR_SIZE, 16)),
    (model::SIZES, |list| put_byte(list, field::HDR_SIZE, 23)),
    (model::SIZES, |list| put_byte(list, field::HDR_SIZE, 25)),
    (model::SIZES, |list| put_byte(list, field::HDR_SIZE, 32)),
    (model::SIZES, |list| put_byte(list, field::ALIGNMENT, 2)),
    (model::SIZES, |list| put_byte(list, field::ALIGNMENT, 22)),
    (model::SIZES, |list| grow(list, field::USED_SIZE, 4)),
    (model::SIZES, |list| put_u32(&mut list.area, field::USED_SIZE, 16)),
    (model::SIZES, |list| grow(list, field::USED_SIZE, 24)),
    (model::SIZES, |list| put_byte(list, field::USED_SIZE + 3, 1)),
    (model::SIZES, |list| grow(list, field::TOTAL_SIZE, 1)),
    (model::SIZES, |list| grow(list, field::TOTAL_SIZE, 16)),
    (model::SIZES, |list| put_byte(list, field::TOTAL_SIZE + 3, 1)),
    (model::CHECKSUM, |list| grow(list, field::CHECKSUM, 1)),
    (model::CHECKSUM, |list| put_u32(&mut list.area, field::FLAGS, OTHER_FLAGS)),
    (model::CHECKSUM, |list| grow(list, 40, 1)),
    (model::ENTRY, |list| put_byte(list, 24 + 3, 9)),
    (model::ENTRY, |list| put_byte(list, 56 + 3, 7)),
    (model::ENTRY, |list| put_byte(list, 24 + 4, 12)),
    (model::ENTRY, |list| put_u32(&mut list.area, 24 + 4, 0xffff_fff8)),
    (model::ENTRY, |list| put_u32(&mut list.area, 56 + 4, 0xffff_ffff)),
    (model::ENTRY, |list| put_u32(&mut list.area, 24 + 4, 0x1_0000)),
    (model::ENTRY, |list| grow(list, field::USED_SIZE, 8)),
    (model::ENTRY, |list| grow(list, field::USED_SIZE, 248)),
];

/// Makes the change, and puts the checksum right where it is not the refusal and there is a header.
pub fn change_by(list: &mut List, (number, change): (u32, Change)) {
    change(list);
    if number != model::CHECKSUM && list.area.len() >= 24 {
        restore_checksum(Edition::Current, &mut list.area);
    }
}

/// These entries over and over, behind a header up to the end of the longest buffer.
fn full(entries: &[&[u8]]) -> Vec<u8> {
    entries.concat().into_iter().cycle().take(MOST_LENT - 24).collect()
}

pub fn expect(given: u32, wanted: u32) -> Result<(), String> {
    if given == wanted {
        Ok(())
    } else {
        Err(format!("an edge was to answer {wanted} and answered {given}"))
    }
}

impl Bench {
    pub fn edges_tidy(&mut self) -> Result<(), String> {
        for length in 0..=LONGEST_ROW {
            self.rows_of(length)?;
        }
        self.refusals_of_tidy()?;
        self.short_areas_to_tidy()?;
        self.room_by_tidy()?;
        self.full_lists_to_tidy()
    }

    /// Every row of so many entries, without room behind it and with, with has_checksum and without.
    fn rows_of(&mut self, length: u32) -> Result<(), String> {
        let pieces = pieces();
        for code in 0..pieces.len().pow(length) {
            let digit = |at| code / pieces.len().pow(at) % pieces.len();
            let entries: Vec<u8> = (0..length).flat_map(|at| pieces[digit(at)].clone()).collect();
            let alignment = 3 + (code % (HIGHEST_ALIGNMENT as usize - 2)) as u8;
            for flags in [HAS_CHECKSUM, OTHER_FLAGS, OTHER_FLAGS | HAS_CHECKSUM] {
                for (spare, rest) in [(0, 0), (16, 3)] {
                    expect(self.tidy(&by_hand(alignment, flags, &entries, spare, rest))?.number, 0)?;
                }
            }
        }
        Ok(())
    }

    /// Each refusal by itself, and any two changes together.
    fn refusals_of_tidy(&mut self) -> Result<(), String> {
        expect(self.tidy(&with_runs())?.number, 0)?;
        for refusal in REFUSALS {
            let mut list = with_runs();
            change_by(&mut list, refusal);
            expect(self.tidy(&list)?.number, refusal.0)?;
            // What cuts the area comes second.
            if refusal.0 != model::SHORT {
                self.with_each_other(&list)?;
            }
        }
        Ok(())
    }

    fn with_each_other(&mut self, changed: &List) -> Result<(), String> {
        for other in REFUSALS {
            let mut list = List { area: changed.area.clone(), ..*changed };
            change_by(&mut list, other);
            self.tidy(&list)?;
        }
        Ok(())
    }

    /// Areas of 0 to 24 bytes, of a list without entries and of one of edition 0.9. A refused tidy has
    /// one buffer lent, so that of two in a row one has NULL where it is empty and one does not.
    fn short_areas_to_tidy(&mut self) -> Result<(), String> {
        for len in 0..=24 {
            let number = if len < 24 { model::SHORT } else { 0 };
            let mut list = by_hand(3, HAS_CHECKSUM, &[], 0, 0);
            list.area.truncate(len);
            for base in [0, BASE, END - 24] {
                list.base = base;
                for _ in 0..2 {
                    expect(self.tidy(&list)?.number, number)?;
                }
            }
            for base in [4, END, u64::MAX - 7] {
                // Without a byte the area may begin where the addresses end.
                let number = if (len, base) == (0, END) { model::SHORT } else { model::AREA };
                list.base = base;
                for _ in 0..2 {
                    expect(self.tidy(&list)?.number, number)?;
                }
            }
        }
        let area = lists09::by_hand(3, &entry(0, 8, 0xd7), 64);
        let old = List { area, base: BASE, edition: Edition::E09 };
        expect(self.tidy(&old)?.number, model::SIGNATURE)
    }

    /// "An add says ROOM although the space is there in small voids": before a live entry, at the end, or
    /// together with what is free behind them.
    fn room_by_tidy(&mut self) -> Result<(), String> {
        let [live, empty, small, zero, dirty] = pieces();
        let before_live = [&small[..], &dirty, &small, &zero, &live].concat();
        let at_the_end = [&live[..], &small, &dirty, &zero].concat();
        let between = [&empty[..], &small, &small, &empty, &dirty, &empty, &small, &small, &small].concat();
        for (entries, spare, length) in [
            (&before_live, 0, 48),
            (&before_live, 0, 17),
            (&at_the_end, 0, 40),
            (&at_the_end, 0, 17),
            (&at_the_end, 16, 56),
            (&between, 8, 24),
            (&between, 8, 17),
        ] {
            let list = by_hand(3, HAS_CHECKSUM, entries, spare, 0);
            let add = Edit::Add { tag: 1, data: &vec![0x77; length], use_voids: true };
            expect(self.edit(&list, &add)?.number, model::ROOM)?;
            expect(self.tidy(&list)?.number, 0)?;
            let mut tidied = List { area: list.area.clone(), ..list };
            model_tidy::tidy(&mut tidied.area, BASE);
            expect(self.edit(&tidied, &add)?.number, 0)?;
        }
        Ok(())
    }

    /// Lists of 65,536 bytes: of voids of 8 bytes alone, these before a live entry or behind one, every
    /// second entry a void, and one void or one live entry over everything.
    fn full_lists_to_tidy(&mut self) -> Result<(), String> {
        let [_, live, void, _, _] = pieces();
        let dirty = entry(0, 8, 0xd7);
        let voids = full(&[&void]);
        let rows = [
            [&voids[8..], &live].concat(),
            [&live, &voids[8..]].concat(),
            full(&[&void, &live]),
            full(&[&live, &void]),
            full(&[&dirty, &live]),
            entry(0, MOST_LENT - 32, 0xd7),
            entry(1, MOST_LENT - 35, 0x5a),
            voids,
        ];
        for entries in rows {
            let mut list = by_hand(HIGHEST_ALIGNMENT as u8, HAS_CHECKSUM, &entries, 0, 0);
            for base in [0, END - MOST_LENT as u64] {
                list.base = base;
                expect(self.tidy(&list)?.number, 0)?;
            }
        }
        Ok(())
    }
}

//! The edges of document 02, request 1, made on purpose on every run.

use crate::compare::Bench;
use oracle::lists::{List, MOST_LENT};
use oracle::lists09::by_hand;
use oracle::model::{Edition, ADDRESS_END, HIGHEST_ALIGNMENT};

/// A live entry whose padding is not 0, and a void whose data is not 0.
const ENTRIES: [u8; 32] = [
    1, 0, 0, 8, 3, 0, 0, 0, 0xaa, 0xbb, 0xcc, 0xdd, 0xee, 0xff, 1, 2, //
    0, 0, 0, 8, 8, 0, 0, 0, 3, 4, 5, 6, 7, 8, 9, 10,
];
/// size + 8 of a list with these entries.
const USED: usize = 24 + ENTRIES.len();

/// What a target holds before a conversion.
const BEFORE: u8 = 0xa5;

const END: u64 = ADDRESS_END as u64;

fn list(area: Vec<u8>, base: u64) -> List {
    List { area, base, edition: Edition::E09 }
}

/// A list with the entries, without room for more.
fn small(alignment: u8, base: u64) -> List {
    list(by_hand(alignment, &ENTRIES, 16 + ENTRIES.len()), base)
}

impl Bench {
    pub fn edges09(&mut self) -> Result<(), String> {
        self.short_areas()?;
        for alignment in 3..=HIGHEST_ALIGNMENT as u8 {
            self.bases(alignment)?;
            self.ends(alignment)?;
        }
        self.full_lists()
    }

    /// Areas of 0 to 24 bytes, of a list without entries. Every second buffer that is lent is NULL where it is
    /// empty, and an odd number of them is lent for each list, so that each call has both.
    fn short_areas(&mut self) -> Result<(), String> {
        for len in 0..=24 {
            for max_size in [16, 24] {
                let mut area = by_hand(3, &[], max_size);
                area.resize(len, 0);
                let list = list(area, 0);
                self.check09(&list)?;
                self.find09(&list, 1, 0)?;
                self.check(&list)?;
                self.convert09(&list, &[BEFORE; 24], 0)?;
                self.convert09(&list, &[], 0)?;
            }
        }
        Ok(())
    }

    /// Old bases at and beside a boundary, 0 among them, and target bases at and beside the address
    /// looked for, or far below it.
    fn bases(&mut self, alignment: u8) -> Result<(), String> {
        let boundary = 1u64 << alignment;
        for base in [0, 8, boundary - 8, boundary, boundary + 8, 7 * boundary + 16] {
            let list = small(alignment, base);
            let new_base = 3 * boundary + base - 8;
            for target_base in [0, 1, 8, new_base - 8, new_base - 1, new_base, new_base + 1, new_base + 8] {
                let shift = (new_base + boundary - target_base) % boundary;
                self.lengths_at_room(&list, shift as usize, target_base)?;
            }
        }
        Ok(())
    }

    /// Target lengths at ROOM and beside it, or the longest where that is less.
    fn lengths_at_room(&mut self, list: &List, shift: usize, target_base: u64) -> Result<(), String> {
        for target_len in [shift + USED - 1, shift + USED, shift + USED + 7, shift + USED + 8] {
            self.convert09(list, &vec![BEFORE; target_len.min(MOST_LENT)], target_base)?;
        }
        Ok(())
    }

    /// Targets that end at 2^48, a byte before it or behind it, that start there, or that end at 2^64.
    fn ends(&mut self, alignment: u8) -> Result<(), String> {
        for target_len in [USED, USED + 8, MOST_LENT - 1, MOST_LENT] {
            let bytes = vec![BEFORE; target_len];
            let highest = END - target_len as u64;
            let wrapping = 0u64.wrapping_sub(target_len as u64);
            for target_base in [highest - 1, highest, highest + 1, END, wrapping] {
                let base = (target_base.wrapping_add(8) / 8 * 8) % (1 << alignment);
                self.convert09(&small(alignment, base), &bytes, target_base)?;
            }
        }
        Ok(())
    }

    /// Lists that fill the longest buffer, have just the 8 bytes less that a conversion needs, or 8 less
    /// than that.
    fn full_lists(&mut self) -> Result<(), String> {
        for size in [MOST_LENT - 16, MOST_LENT - 8, MOST_LENT] {
            let mut entries = vec![0x77; size - 16];
            entries[..4].copy_from_slice(&[1, 0, 0, 8]);
            entries[4..8].copy_from_slice(&(size as u32 - 24).to_le_bytes());
            let list = list(by_hand(3, &entries, size), 0);
            self.check09(&list)?;
            self.find09(&list, 1, 0)?;
            for target_len in [MOST_LENT - 8, MOST_LENT - 1, MOST_LENT] {
                self.convert09(&list, &vec![BEFORE; target_len], 0)?;
            }
        }
        Ok(())
    }
}

//! The edges of document 02, request 4, made on purpose on every run: "eight bytes at a time, single bytes
//! only where fewer than eight are left, with any start and any length". The starts are those of the lent
//! buffers; within a list no call takes the exclusive or from a place that is no multiple of 8.

use crate::compare::Bench;
use crate::lent::STARTS;
use oracle::demand::Edit;
use oracle::lists::{restore_checksum, List};
use oracle::model::{self, field, Edition};

const BASE: u64 = 0x1000;
const TAG: u32 = 0xff_f001;
const LONGEST: usize = 300;

/// Bytes of which no two neighbours, and no two that stand 8 or 16 apart, are equal.
fn pattern(length: usize) -> Vec<u8> {
    (0..length).map(|i| (i * 167 + 13) as u8).collect()
}

/// A list with this one entry, and room for another as long.
fn with_entry(data: &[u8]) -> List {
    let mut area = vec![0xa5; 64 + 2 * LONGEST];
    model::create(&mut area, BASE, true);
    model::add(&mut area, BASE, TAG, data, false);
    List { area, base: BASE, edition: Edition::Current }
}

impl Bench {
    pub fn edges_words(&mut self) -> Result<(), String> {
        let data = pattern(LONGEST);
        for length in 0..=LONGEST {
            for start in 0..STARTS {
                self.guards.start_at(start);
                self.each_sum(&data[..length])?;
            }
        }
        for length in (0..=LONGEST).step_by(59) {
            self.each_byte_counts(&data[..length])?;
        }
        Ok(())
    }

    /// The exclusive or of the data by an add, of the used bytes by a check, of the entry by a void.
    fn each_sum(&mut self, data: &[u8]) -> Result<(), String> {
        let empty = with_entry(&[]);
        self.edit(&empty, &Edit::Add { tag: TAG, data, use_voids: false })?;
        let list = with_entry(data);
        self.check(&list)?;
        self.edit(&list, &Edit::Void { tag: TAG, n: 0 })?;
        Ok(())
    }

    /// One wrong byte in the data, in the padding or in the checksum, and the same with the checksum made
    /// right again; a word in the place of the next one.
    fn each_byte_counts(&mut self, data: &[u8]) -> Result<(), String> {
        let used = 32 + data.len().div_ceil(8) * 8;
        for offset in (32..used).chain([field::CHECKSUM]) {
            let mut wrong = with_entry(data);
            wrong.area[offset] ^= 0x40;
            self.check(&wrong)?;
            restore_checksum(Edition::Current, &mut wrong.area);
            self.check(&wrong)?;
        }
        for offset in (32..used - 8).step_by(8) {
            let mut doubled = with_entry(data);
            doubled.area.copy_within(offset..offset + 8, offset + 8);
            self.check(&doubled)?;
        }
        Ok(())
    }
}

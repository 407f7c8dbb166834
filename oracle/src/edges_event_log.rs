//! The edges of document 02, request 2, made on purpose on every run: event logs of 0 to 5 bytes by
//! either add, beside other tags, and lists made elsewhere that hold a shorter one.

use crate::compare::Bench;
use oracle::demand::Edit;
use oracle::lists::{restore_checksum, List};
use oracle::lists09::by_hand;
use oracle::model::{self, field, Edition, EVENT_LOG_TAG};

/// 4096 below a boundary of every alignment.
const BASE: u64 = 0x1f_f000;
const BYTES: [u8; 5] = [1, 0, 0, 0, 0x5a];
/// The event log; its neighbours; tags that are 5 once cut to 8 or to 24 bits.
const TAGS: [u32; 5] = [EVENT_LOG_TAG, 4, 6, 0x105, 0x100_0005];

fn list(area: Vec<u8>) -> List {
    List { area, base: BASE, edition: Edition::Current }
}

fn created(len: usize, has_checksum: bool) -> Vec<u8> {
    let mut area = vec![0xa5; len];
    model::create(&mut area, BASE, has_checksum);
    area
}

/// A list whose one entry is a void that any of these lengths fits, without room behind it.
fn with_void() -> Vec<u8> {
    let mut area = created(48, true);
    model::add(&mut area, BASE, 1, &[7; 16], false);
    model::void(&mut area, BASE, 1, 0);
    area
}

/// A list of version 2, which may not be edited.
fn later_version() -> Vec<u8> {
    let mut area = created(64, true);
    area[field::VERSION] = 2;
    restore_checksum(Edition::Current, &mut area);
    area
}

/// An entry that no add of ours writes: an event log of fewer than 4 bytes, with padding that is not 0
/// where there is any.
fn short_log(length: usize) -> Vec<u8> {
    let mut entry = vec![5, 0, 0, 8, length as u8, 0, 0, 0];
    if length > 0 {
        entry.extend_from_slice(&[0x11, 0x22, 0x33, 0x44, 0x55, 0x66, 0x77, 0x88]);
    }
    entry
}

/// A list made elsewhere with this entry and room for more.
fn made_elsewhere(entry: &[u8]) -> Vec<u8> {
    let mut area = created(96, true);
    area[24..24 + entry.len()].copy_from_slice(entry);
    area[field::USED_SIZE] += entry.len() as u8;
    restore_checksum(Edition::Current, &mut area);
    area
}

impl Bench {
    pub fn edges_event_log(&mut self) -> Result<(), String> {
        // Room for every exponent, with and without a checksum; room for 8 bytes, for none; a void; not
        // to be edited; no list.
        let areas = [created(8192, true), created(8192, false), created(32, true), created(24 + 7, true)];
        for area in areas.into_iter().chain([with_void(), later_version(), vec![0; 64]]) {
            self.lengths_by_both_adds(&list(area))?;
        }
        for length in 0..4 {
            self.read_as_before(&short_log(length))?;
        }
        Ok(())
    }

    /// Data of 0 bytes comes twice, an odd number of buffers apart, so that it is lent both as NULL and
    /// not.
    fn lengths_by_both_adds(&mut self, list: &List) -> Result<(), String> {
        for tag in TAGS {
            for length in [0, 0, 1, 2, 3, 4, 5] {
                let data = &BYTES[..length];
                self.check(list)?;
                for use_voids in [false, true] {
                    self.edit(list, &Edit::Add { tag, data, use_voids })?;
                }
                for exponent in [2, 3, 4, 12, 13, 21, 22] {
                    self.edit(list, &Edit::AddAligned { tag, data, exponent })?;
                }
            }
        }
        Ok(())
    }

    /// "Check and find do not use this table", and nothing else but the adds does, in either edition.
    fn read_as_before(&mut self, entry: &[u8]) -> Result<(), String> {
        let current = list(made_elsewhere(entry));
        self.check(&current)?;
        self.find(&current, EVENT_LOG_TAG, 0)?;
        self.edit(&current, &Edit::Void { tag: EVENT_LOG_TAG, n: 0 })?;
        self.relocate(&current, &[0xa5; 128], 0x2008)?;
        self.lengths_by_both_adds(&current)?;
        let old = List { area: by_hand(3, entry, 64), base: BASE, edition: Edition::E09 };
        self.check09(&old)?;
        self.find09(&old, EVENT_LOG_TAG, 0)?;
        self.convert09(&old, &[0xa5; 128], 0x2008)
    }
}

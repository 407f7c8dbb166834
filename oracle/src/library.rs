//! The library under test, through its C interface.

use crate::lent::Lent;
use crate::steps::{Stepped, Steps};
use crate::watch;
use oracle::model::{Checked, Done, Found};
use oracle::model_certificate::Certified;
use oracle::tally::Call;

#[rustfmt::skip]
#[link(name = "transfer_list", kind = "static")]
extern "C" {
    fn tl_check(area: *const u8, len: usize, base: u64) -> Checked;
    fn tl_find(area: *const u8, len: usize, base: u64, tag: u32, n: u64) -> Found;
    fn tl_create(area: *mut u8, len: usize, base: u64, has_checksum: bool) -> Done;
    fn tl_add(area: *mut u8, len: usize, base: u64, tag: u32,
              data: *const u8, data_len: usize, use_voids: bool) -> Done;
    fn tl_add_aligned(area: *mut u8, len: usize, base: u64, tag: u32,
                      data: *const u8, data_len: usize, exponent: u32) -> Done;
    fn tl_void(area: *mut u8, len: usize, base: u64, tag: u32, n: u64) -> Done;
    fn tl_relocate(area: *const u8, len: usize, base: u64,
                   target: *mut u8, target_len: usize, target_base: u64) -> Done;
    fn tl_tidy(area: *mut u8, len: usize, base: u64) -> Done;
    fn tl_add_journalled(area: *mut u8, len: usize, base: u64, tag: u32, data: *const u8, data_len: usize,
                         use_voids: bool, journal: *mut u8, journal_len: usize) -> Done;
    fn tl_add_aligned_journalled(area: *mut u8, len: usize, base: u64, tag: u32, data: *const u8, data_len: usize,
                                 exponent: u32, journal: *mut u8, journal_len: usize) -> Done;
    fn tl_void_journalled(area: *mut u8, len: usize, base: u64, tag: u32, n: u64,
                          journal: *mut u8, journal_len: usize) -> Done;
    fn tl_recover(area: *mut u8, len: usize, journal: *mut u8, journal_len: usize) -> Done;
    fn tl_add_steps(area: *const u8, len: usize, base: u64, tag: u32, data: *const u8, data_len: usize,
                    use_voids: bool, journal: *const u8, journal_len: usize) -> Stepped;
    fn tl_add_aligned_steps(area: *const u8, len: usize, base: u64, tag: u32, data: *const u8, data_len: usize,
                            exponent: u32, journal: *const u8, journal_len: usize) -> Stepped;
    fn tl_void_steps(area: *const u8, len: usize, base: u64, tag: u32, n: u64,
                     journal: *const u8, journal_len: usize) -> Stepped;
    fn tl_recover_steps(area: *const u8, len: usize, journal: *const u8, journal_len: usize) -> Stepped;
    fn tl_step(state: Steps, area: *mut u8, len: usize, data: *const u8, data_len: usize,
               journal: *mut u8, journal_len: usize) -> Stepped;
    fn tl_certificate(area: *const u8, len: usize, base: u64, serial: u64, test: u64) -> Certified;
    fn tl_fdt_check(data: *const u8, len: usize) -> u32;
    fn tl_fdt_find(data: *const u8, len: usize, path: *const u8, path_len: usize,
                   name: *const u8, name_len: usize) -> Found;
    fn tl09_check(area: *const u8, len: usize, base: u64) -> Checked;
    fn tl09_find(area: *const u8, len: usize, base: u64, tag: u32, n: u64) -> Found;
    fn tl09_convert(area: *const u8, len: usize, base: u64,
                    target: *mut u8, target_len: usize, target_base: u64) -> Done;
}

// SAFETY of every call below: a Lent owns the bytes behind its pointer, its length is theirs, and the
// buffers of one call are as many borrowed Lents, which share no byte.

pub fn check(area: &mut Lent, base: u64) -> Checked {
    watch::call(Call::Check);
    unsafe { tl_check(area.pointer(), area.len(), base) }
}

pub fn find(area: &mut Lent, base: u64, tag: u32, n: u64) -> Found {
    watch::call(Call::Find);
    unsafe { tl_find(area.pointer(), area.len(), base, tag, n) }
}

pub fn create(area: &mut Lent, base: u64, has_checksum: bool) -> Done {
    watch::call(Call::Create);
    unsafe { tl_create(area.pointer(), area.len(), base, has_checksum) }
}

pub fn add(area: &mut Lent, base: u64, tag: u32, data: &mut Lent, use_voids: bool) -> Done {
    watch::call(Call::Add);
    unsafe { tl_add(area.pointer(), area.len(), base, tag, data.pointer(), data.len(), use_voids) }
}

pub fn add_aligned(area: &mut Lent, base: u64, tag: u32, data: &mut Lent, exponent: u32) -> Done {
    watch::call(Call::AddAligned);
    unsafe { tl_add_aligned(area.pointer(), area.len(), base, tag, data.pointer(), data.len(), exponent) }
}

pub fn void(area: &mut Lent, base: u64, tag: u32, n: u64) -> Done {
    watch::call(Call::Void);
    unsafe { tl_void(area.pointer(), area.len(), base, tag, n) }
}

pub fn relocate(area: &mut Lent, base: u64, target: &mut Lent, target_base: u64) -> Done {
    watch::call(Call::Relocate);
    unsafe { tl_relocate(area.pointer(), area.len(), base, target.pointer(), target.len(), target_base) }
}

pub fn tidy(area: &mut Lent, base: u64) -> Done {
    watch::call(Call::Tidy);
    unsafe { tl_tidy(area.pointer(), area.len(), base) }
}

pub fn certificate(area: &mut Lent, base: u64, serial: u64, test: u64) -> Certified {
    watch::call(Call::Certificate);
    unsafe { tl_certificate(area.pointer(), area.len(), base, serial, test) }
}

pub fn fdt_check(data: &mut Lent) -> u32 {
    watch::lend([data.bytes(), &[], &[]]);
    watch::call(Call::FdtCheck);
    unsafe { tl_fdt_check(data.pointer(), data.len()) }
}

pub fn fdt_find(data: &mut Lent, path: &mut Lent, name: &mut Lent) -> Found {
    watch::lend([data.bytes(), path.bytes(), name.bytes()]);
    watch::call(Call::FdtFind);
    let (path_len, name_len) = (path.len(), name.len());
    let (path, name) = (path.pointer(), name.pointer());
    unsafe { tl_fdt_find(data.pointer(), data.len(), path, path_len, name, name_len) }
}

pub fn check09(area: &mut Lent, base: u64) -> Checked {
    watch::call(Call::Check09);
    unsafe { tl09_check(area.pointer(), area.len(), base) }
}

pub fn find09(area: &mut Lent, base: u64, tag: u32, n: u64) -> Found {
    watch::call(Call::Find09);
    unsafe { tl09_find(area.pointer(), area.len(), base, tag, n) }
}

pub fn convert09(area: &mut Lent, base: u64, target: &mut Lent, target_base: u64) -> Done {
    watch::call(Call::Convert09);
    unsafe { tl09_convert(area.pointer(), area.len(), base, target.pointer(), target.len(), target_base) }
}

/// The buffers of a call with a journal.
pub struct Three {
    pub area: Lent,
    pub data: Lent,
    pub journal: Lent,
}

pub fn add_journalled(lent: &mut Three, base: u64, tag: u32, use_voids: bool) -> Done {
    watch::call(Call::AddJournalled);
    let Three { area, data, journal } = lent;
    let (len, data_len, journal_len) = (area.len(), data.len(), journal.len());
    let (area, data, journal) = (area.pointer(), data.pointer(), journal.pointer());
    unsafe { tl_add_journalled(area, len, base, tag, data, data_len, use_voids, journal, journal_len) }
}

pub fn add_aligned_journalled(lent: &mut Three, base: u64, tag: u32, exponent: u32) -> Done {
    watch::call(Call::AddAlignedJournalled);
    let Three { area, data, journal } = lent;
    let (len, data_len, journal_len) = (area.len(), data.len(), journal.len());
    let (area, data, journal) = (area.pointer(), data.pointer(), journal.pointer());
    unsafe { tl_add_aligned_journalled(area, len, base, tag, data, data_len, exponent, journal, journal_len) }
}

pub fn void_journalled(lent: &mut Three, base: u64, tag: u32, n: u64) -> Done {
    watch::call(Call::VoidJournalled);
    let Three { area, journal, .. } = lent;
    unsafe { tl_void_journalled(area.pointer(), area.len(), base, tag, n, journal.pointer(), journal.len()) }
}

pub fn recover(lent: &mut Three) -> Done {
    watch::call(Call::Recover);
    let Three { area, journal, .. } = lent;
    unsafe { tl_recover(area.pointer(), area.len(), journal.pointer(), journal.len()) }
}

pub fn add_steps(lent: &mut Three, base: u64, tag: u32, use_voids: bool) -> Stepped {
    watch::call(Call::AddSteps);
    let Three { area, data, journal } = lent;
    let (len, data_len, journal_len) = (area.len(), data.len(), journal.len());
    let (area, data, journal) = (area.pointer(), data.pointer(), journal.pointer());
    unsafe { tl_add_steps(area, len, base, tag, data, data_len, use_voids, journal, journal_len) }
}

pub fn add_aligned_steps(lent: &mut Three, base: u64, tag: u32, exponent: u32) -> Stepped {
    watch::call(Call::AddAlignedSteps);
    let Three { area, data, journal } = lent;
    let (len, data_len, journal_len) = (area.len(), data.len(), journal.len());
    let (area, data, journal) = (area.pointer(), data.pointer(), journal.pointer());
    unsafe { tl_add_aligned_steps(area, len, base, tag, data, data_len, exponent, journal, journal_len) }
}

pub fn void_steps(lent: &mut Three, base: u64, tag: u32, n: u64) -> Stepped {
    watch::call(Call::VoidSteps);
    let Three { area, journal, .. } = lent;
    unsafe { tl_void_steps(area.pointer(), area.len(), base, tag, n, journal.pointer(), journal.len()) }
}

pub fn recover_steps(lent: &mut Three) -> Stepped {
    watch::call(Call::RecoverSteps);
    let Three { area, journal, .. } = lent;
    unsafe { tl_recover_steps(area.pointer(), area.len(), journal.pointer(), journal.len()) }
}

pub fn step(state: Steps, lent: &mut Three) -> Stepped {
    watch::call(Call::Step);
    let Three { area, data, journal } = lent;
    let (len, data_len, journal_len) = (area.len(), data.len(), journal.len());
    let (area, data, journal) = (area.pointer(), data.pointer(), journal.pointer());
    unsafe { tl_step(state, area, len, data, data_len, journal, journal_len) }
}

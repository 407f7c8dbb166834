//! Demand 3 of document 01 ("Demand 3's words", "Named bytes of an add or void"), said a second
//! time. It shares nothing with the model's edits: it walks the bytes by itself and looks only at
//! what stood there before and what stands there afterwards.

use crate::model;
use std::ops::Range;

/// An accepted edit of an area in place.
pub enum Edit<'a> {
    Add { tag: u32, data: &'a [u8], use_voids: bool },
    AddAligned { tag: u32, data: &'a [u8], exponent: u32 },
    Void { tag: u32, n: u64 },
}

/// An accepted relocation or conversion: what was lent, what the target holds afterwards, and the
/// answer.
pub struct Relocation<'a> {
    pub area: &'a [u8],
    pub base: u64,
    pub target: &'a [u8],
    pub target_base: u64,
    pub shift: u32,
}

/// "Tag and data of each live entry in list order."
type Reading<'a> = Vec<(u32, &'a [u8])>;

/// One entry of a walk, live or void.
pub(crate) struct Step<'a> {
    pub(crate) place: usize,
    pub(crate) tag: u32,
    pub(crate) data_offset: usize,
    pub(crate) data: &'a [u8],
}

pub(crate) fn number(bytes: &[u8]) -> usize {
    bytes.iter().rev().fold(0, |sum, byte| sum * 256 + *byte as usize)
}

pub(crate) fn used(area: &[u8]) -> usize {
    number(&area[8..12])
}

fn up_to_8(size: usize) -> usize {
    (size + 7) & !7
}

/// "Walks an area's bytes alone."
pub(crate) fn steps(area: &[u8]) -> Vec<Step<'_>> {
    let mut steps = Vec::new();
    let mut place = up_to_8(area[6] as usize);
    while place != used(area) {
        let data_offset = place + area[place + 3] as usize;
        let data_size = number(&area[place + 4..place + 8]);
        let data = &area[data_offset..data_offset + data_size];
        steps.push(Step { place, tag: number(&area[place..place + 3]) as u32, data_offset, data });
        place = up_to_8(data_offset + data_size);
    }
    steps
}

pub(crate) fn live<'a>(steps: &[Step<'a>]) -> Reading<'a> {
    steps.iter().filter(|step| step.tag != 0).map(|step| (step.tag, step.data)).collect()
}

/// "The checksum worked out afresh is, with has_checksum, the xor of the result's used bytes except
/// byte 4; without it, 0."
fn fresh_checksum(area: &[u8]) -> u8 {
    if area[16] & 1 == 0 {
        return 0;
    }
    let used = &area[..used(area)];
    used[..4].iter().chain(&used[5..]).fold(0, |sum, byte| sum ^ byte)
}

pub(crate) fn demand(holds: bool, what: &str) -> Result<(), String> {
    if holds {
        Ok(())
    } else {
        Err(format!("a demand is broken: {what}"))
    }
}

/// The result of any accepted edit is a list of version 1 with the checksum worked out afresh.
pub(crate) fn is_whole(result: &[u8], base: u64) -> Result<(), String> {
    let checked = model::check(result, base);
    demand(checked.number == 0 && checked.version == 1, "the result is accepted as version 1")?;
    demand(result[4] == fresh_checksum(result), "the checksum equals the fresh one")
}

/// What an edit changes: the reading it leaves and the stretch of the entries written or voided.
struct Change<'a> {
    reading: Reading<'a>,
    stretch: Range<usize>,
}

/// "Either add puts in the given tag and data at a position: the number of live entries before the
/// void taken, or of all live entries where none is taken."
fn put_in<'a>(steps: &[Step<'a>], taken: Option<usize>, tag: u32, data: &'a [u8]) -> Reading<'a> {
    let before = &steps[..taken.unwrap_or(steps.len())];
    let mut reading = live(steps);
    reading.insert(live(before).len(), (tag, data));
    reading
}

/// "Of a void taken, its first align8(8 + n) bytes and the eight header bytes of the void written
/// behind them, if any."
fn stretch_of_void(void: &Step, n: usize) -> Range<usize> {
    let end = void.place + up_to_8(8 + n);
    if void.data.len() > up_to_8(n) {
        void.place..end + 8
    } else {
        void.place..end
    }
}

fn change_by_add<'a>(
    before: &'a [u8],
    after: &[u8],
    tag: u32,
    data: &'a [u8],
    use_voids: bool,
) -> Change<'a> {
    let steps = steps(before);
    let serves = |step: &Step| use_voids && step.tag == 0 && step.data.len() >= data.len();
    let taken = steps.iter().position(serves);
    let stretch = match taken {
        Some(index) => stretch_of_void(&steps[index], data.len()),
        None => used(before)..used(after),
    };
    Change { reading: put_in(&steps, taken, tag, data), stretch }
}

/// "Void takes out occurrence n of the tag"; the stretch is "align8(8 + old data_size) bytes from
/// its start".
fn change_by_void(before: &[u8], tag: u32, n: u64) -> Change<'_> {
    let mut steps = steps(before);
    let of_tag = steps.iter().enumerate().filter(|(_, step)| step.tag == tag);
    let index = of_tag.map(|(index, _)| index).nth(n as usize).expect("an accepted void has its entry");
    let voided = steps.remove(index);
    let stretch = voided.place..voided.place + up_to_8(8 + voided.data.len());
    Change { reading: live(&steps), stretch }
}

fn change<'a>(before: &'a [u8], after: &[u8], edit: &Edit<'a>) -> Change<'a> {
    match *edit {
        Edit::Add { tag, data, use_voids } => change_by_add(before, after, tag, data, use_voids),
        Edit::AddAligned { tag, data, .. } => change_by_add(before, after, tag, data, false),
        Edit::Void { tag, n } => change_by_void(before, tag, n),
    }
}

/// "Named bytes of an add or void: 4, 7 and 8 to 11 of the header, and the stretch of the entries
/// written or voided."
fn only_named_differ(before: &[u8], after: &[u8], stretch: &Range<usize>) -> bool {
    let named = |offset: usize| matches!(offset, 4 | 7 | 8..=11) || stretch.contains(&offset);
    before.len() == after.len()
        && before.iter().zip(after).enumerate().all(|(offset, (old, new))| old == new || named(offset))
}

/// The answered offset and the alignment field, as the jobs say them.
fn answer_holds(after: &[u8], base: u64, edit: &Edit, value: usize) -> bool {
    match *edit {
        Edit::Add { data, .. } => after[value..].starts_with(data),
        Edit::AddAligned { data, exponent, .. } => {
            after[value..].starts_with(data)
                && (base + value as u64).is_multiple_of(1 << exponent)
                && after[7] as u32 >= exponent
        }
        Edit::Void { .. } => after[value..value + 4] == [0, 0, 0, 8],
    }
}

/// Demand 3 for an accepted add, aligned add or void that answered `value`.
pub fn after_edit(before: &[u8], after: &[u8], base: u64, edit: &Edit, value: u32) -> Result<(), String> {
    is_whole(after, base)?;
    let change = change(before, after, edit);
    demand(live(&steps(after)) == change.reading, "the fresh reading changes as said")?;
    demand(only_named_differ(before, after, &change.stretch), "no byte but the named ones differs")?;
    demand(answer_holds(after, base, edit, value as usize), "the answer points at what was written")
}

/// The same for an accepted create, whose result has no entries.
pub fn after_create(area: &[u8], base: u64) -> Result<(), String> {
    is_whole(area, base)?;
    demand(steps(area).is_empty(), "a created list is empty")
}

/// Demand 3 for an accepted relocation.
pub fn after_relocation(moved: &Relocation) -> Result<(), String> {
    let shift = moved.shift as usize;
    let new_base = moved.target_base + shift as u64;
    let result = &moved.target[shift..];
    is_whole(result, new_base)?;
    let (old_steps, new_steps) = (steps(moved.area), steps(result));
    demand(live(&old_steps) == live(&new_steps), "relocation leaves the reading as it was")?;
    demand(used_bytes_kept(moved.area, result), "of the used bytes only 4 and 12 to 15 differ")?;
    demand(rest_is_zero(moved), "every other target byte is 0")?;
    let boundary = 1 << moved.area[7];
    let addresses_keep =
        data_addresses(&old_steps, moved.base, boundary) == data_addresses(&new_steps, new_base, boundary);
    demand(addresses_keep, "data addresses keep their value modulo 2^alignment")
}

/// Whether the target is 0 before the shift and behind the result's used bytes.
pub(crate) fn rest_is_zero(moved: &Relocation) -> bool {
    let (before, result) = moved.target.split_at(moved.shift as usize);
    before.iter().chain(&result[used(result)..]).all(|byte| *byte == 0)
}

/// "In a relocation, of the used bytes only 4 and 12 to 15 may differ from the old list."
fn used_bytes_kept(area: &[u8], result: &[u8]) -> bool {
    let kept = |offset: usize| matches!(offset, 4 | 12..=15) || area[offset] == result[offset];
    used(area) == used(result) && (0..used(area)).all(kept)
}

/// "A data address is the base plus the data's offset", here modulo 2^alignment.
pub(crate) fn data_addresses(steps: &[Step], base: u64, boundary: u64) -> Vec<u64> {
    steps.iter().map(|step| (base + step.data_offset as u64) % boundary).collect()
}

#[cfg(test)]
mod tests {
    //! The frauds that "How tightly it is pinned" names, and some slips, do not pass.

    use super::*;

    const BASE: u64 = 0x1000;
    const DATA: [u8; 3] = [0xaa, 0xbb, 0xcc];
    const ADD: Edit = Edit::Add { tag: 2, data: &DATA, use_voids: true };
    const VOID: Edit = Edit::Void { tag: 1, n: 0 };

    /// A list with one entry whose padding is 0.
    fn before() -> Vec<u8> {
        let mut area = vec![0; 128];
        model::create(&mut area, BASE, true);
        model::add_aligned(&mut area, BASE, 1, &[1, 2, 3], 6);
        area
    }

    fn added() -> Vec<u8> {
        let mut area = before();
        assert_eq!(model::add(&mut area, BASE, 2, &DATA, true).value, 32);
        area
    }

    fn passes(after: &[u8], edit: &Edit, value: u32) -> bool {
        after_edit(&before(), after, BASE, edit, value).is_ok()
    }

    #[test]
    fn honest_edits_pass() {
        assert!(passes(&added(), &ADD, 32));
        let mut area = before();
        let voided = model::void(&mut area, BASE, 1, 0);
        assert!(passes(&area, &VOID, voided.value));
    }

    #[test]
    fn an_edit_that_writes_nothing_fails() {
        assert!(!passes(&before(), &ADD, 32));
        assert!(!passes(&before(), &VOID, 56));
    }

    #[test]
    fn clearing_has_checksum_fails() {
        let mut area = added();
        area[4] = 0;
        area[16] = 0;
        assert_eq!(model::check(&area, BASE).number, 0);
        assert!(!passes(&area, &ADD, 32));
    }

    #[test]
    fn a_checksum_left_behind_fails() {
        let mut area = added();
        area[4] = before()[4];
        assert!(!passes(&area, &ADD, 32));
    }

    #[test]
    fn a_byte_beyond_used_size_is_not_named() {
        let mut area = added();
        area[127] = 1;
        assert_eq!(model::check(&area, BASE).number, 0);
        assert!(!passes(&area, &ADD, 32));
    }

    #[test]
    fn a_relocation_off_its_boundary_fails() {
        let (area, mut target) = (before(), vec![0; 128]);
        assert_eq!(model::relocate(&area, BASE, &mut target, 0x2000).value, 0);
        let moved =
            |target_base| Relocation { area: &area, base: BASE, target: &target, target_base, shift: 0 };
        assert!(after_relocation(&moved(0x2000)).is_ok());
        assert!(after_relocation(&moved(0x2008)).is_err());
    }
}

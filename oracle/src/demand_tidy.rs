//! Demand 3 of document 01 for document 02, request 3, and what else that request says of a tidied
//! list, said a second time. It shares nothing with the model's tidy: it puts no runs together and
//! looks only at each entry and its neighbour, before and afterwards.

use crate::demand::{demand, is_whole, live, steps, used, Step};

/// What holds of an accepted tidy that answered `value`. "An edit that names no entry leaves the
/// reading as it was"; the base is the same, so where the offsets are, the data addresses are.
pub fn after_tidy(before: &[u8], after: &[u8], base: u64, value: u32) -> Result<(), String> {
    is_whole(after, base)?;
    let (old_steps, new_steps) = (steps(before), steps(after));
    demand(live(&old_steps) == live(&new_steps), "tidy leaves the reading as it was")?;
    demand(live_offsets(&old_steps) == live_offsets(&new_steps), "live entries stay at their offsets")?;
    demand(only_named_differ(before, after, &old_steps), "no byte but the named ones differs")?;
    demand(!new_steps.windows(2).any(|two| two.iter().all(is_void)), "no voids are neighbours")?;
    demand(!new_steps.last().is_some_and(is_void), "voids at the end are given back")?;
    demand(void_data_is_zero(&new_steps), "a void's data is zero")?;
    demand(is_zero(&after[used(after)..used(before)]), "the bytes given back are zero")?;
    demand(value as usize == used(after), "the answer is the new used size")
}

fn is_void(step: &Step) -> bool {
    step.tag == 0
}

fn is_zero(bytes: &[u8]) -> bool {
    bytes.iter().all(|byte| *byte == 0)
}

fn void_data_is_zero(steps: &[Step]) -> bool {
    steps.iter().filter(|step| is_void(step)).all(|void| is_zero(void.data))
}

fn live_offsets(steps: &[Step]) -> Vec<usize> {
    steps.iter().filter(|step| !is_void(step)).map(|step| step.data_offset).collect()
}

/// "With the voids' stretches, the checksum and used as the named bytes": the stretches of the list
/// before, byte 4 and bytes 8 to 11. The alignment is not among them.
fn only_named_differ(before: &[u8], after: &[u8], steps: &[Step]) -> bool {
    let mut named = vec![false; before.len()];
    named[4] = true;
    named[8..12].fill(true);
    for void in steps.iter().filter(|step| is_void(step)) {
        named[void.place..void.data_offset + void.data.len()].fill(true);
    }
    let kept = |offset: usize| named[offset] || before[offset] == after[offset];
    before.len() == after.len() && (0..before.len()).all(kept)
}

#[cfg(test)]
mod tests {
    //! Slips and frauds do not pass, whatever their checksum.

    use super::*;
    use crate::lists::restore_checksum;
    use crate::model::{put_u32, Edition};
    use crate::model_tidy;

    const BASE: u64 = 0x1000;
    const LEN: usize = 152;
    /// A run of two at the start, one void alone, and a run of two at the end, with data that is not 0;
    /// two live entries, the first with padding that is not 0.
    const ENTRIES: [u8; 88] = [
        0, 0, 0, 8, 0, 0, 0, 0, //
        0, 0, 0, 8, 8, 0, 0, 0, 1, 2, 3, 4, 5, 6, 7, 8, //
        1, 0, 0, 8, 3, 0, 0, 0, 0xaa, 0xbb, 0xcc, 0xdd, 0xee, 0xff, 1, 2, //
        0, 0, 0, 8, 8, 0, 0, 0, 9, 9, 9, 9, 9, 9, 9, 9, //
        2, 0, 0, 8, 0, 0, 0, 0, //
        0, 0, 0, 8, 8, 0, 0, 0, 7, 7, 7, 7, 7, 7, 7, 7, //
        0, 0, 0, 8, 0, 0, 0, 0,
    ];
    const OLD_USED: usize = 24 + ENTRIES.len();
    const NEW_USED: usize = OLD_USED - 24;

    /// A list of alignment 6 with these entries; none of the bytes behind them is 0.
    fn before() -> Vec<u8> {
        let mut area = vec![0xa5; LEN];
        area[..24].fill(0);
        put_u32(&mut area, 0, Edition::Current.signature());
        area[5..9].copy_from_slice(&[1, 24, 6, OLD_USED as u8]);
        area[12] = 144;
        area[16] = 1;
        area[24..OLD_USED].copy_from_slice(&ENTRIES);
        sealed(area)
    }

    fn sealed(mut area: Vec<u8>) -> Vec<u8> {
        restore_checksum(Edition::Current, &mut area);
        area
    }

    fn tidied() -> Vec<u8> {
        let mut area = before();
        assert_eq!(model_tidy::tidy(&mut area, BASE).value as usize, NEW_USED);
        area
    }

    /// The tidied list with these bytes at the offset and the checksum put right.
    fn changed(offset: usize, bytes: &[u8]) -> Vec<u8> {
        let mut area = tidied();
        area[offset..offset + bytes.len()].copy_from_slice(bytes);
        sealed(area)
    }

    fn broken(after: &[u8]) -> String {
        after_tidy(&before(), after, BASE, NEW_USED as u32).unwrap_err()
    }

    fn breaks(after: &[u8], what: &str) {
        assert!(broken(after).ends_with(what), "{}", broken(after));
    }

    #[test]
    fn an_honest_tidy_passes() {
        assert_eq!(after_tidy(&before(), &tidied(), BASE, NEW_USED as u32), Ok(()));
        assert_eq!(changed(24, &[0]), tidied());
    }

    #[test]
    fn voids_left_as_neighbours_fail() {
        breaks(&before(), "no voids are neighbours");
        breaks(&changed(24, &[0, 0, 0, 8, 0, 0, 0, 0, 0, 0, 0, 8, 8]), "no voids are neighbours");
    }

    #[test]
    fn a_last_run_kept_fails() {
        let mut area = changed(NEW_USED, &[0, 0, 0, 8, 16]);
        area[8] = OLD_USED as u8;
        breaks(&sealed(area), "voids at the end are given back");
    }

    #[test]
    fn void_data_left_behind_fails() {
        for offset in [32, 47, 72, 79] {
            breaks(&changed(offset, &[1]), "a void's data is zero");
        }
    }

    #[test]
    fn bytes_given_back_but_not_zero_fail() {
        breaks(&changed(NEW_USED, &[1]), "the bytes given back are zero");
        breaks(&changed(OLD_USED - 1, &[1]), "the bytes given back are zero");
    }

    #[test]
    fn a_byte_that_is_not_named_fails() {
        let (alignment, total, reserved, padding) = (7, 12, 20, 59);
        for (offset, byte) in [(alignment, 3), (total, 136), (reserved, 1), (padding, 0)] {
            assert_ne!(tidied()[offset], byte);
            breaks(&changed(offset, &[byte]), "no byte but the named ones differs");
        }
        for behind in [OLD_USED, 143, 144, LEN - 1] {
            breaks(&changed(behind, &[0]), "no byte but the named ones differs");
        }
    }

    #[test]
    fn clearing_has_checksum_fails() {
        breaks(&changed(16, &[0]), "no byte but the named ones differs");
    }

    #[test]
    fn a_checksum_of_the_old_used_fails() {
        let mut area = tidied();
        area[4] ^= (OLD_USED ^ NEW_USED) as u8;
        breaks(&area, "the result is accepted as version 1");
    }

    #[test]
    fn a_live_entry_lost_fails() {
        breaks(&changed(48, &[0, 0, 0, 8, 8]), "tidy leaves the reading as it was");
        let mut area = tidied();
        area[8] = NEW_USED as u8 - 8;
        breaks(&sealed(area), "tidy leaves the reading as it was");
    }

    #[test]
    fn a_live_entry_moved_fails() {
        let mut area = tidied();
        area.copy_within(48..NEW_USED, 24);
        area[8] = NEW_USED as u8 - 24;
        breaks(&sealed(area), "live entries stay at their offsets");
    }

    #[test]
    fn the_old_used_as_the_answer_fails() {
        assert!(after_tidy(&before(), &tidied(), BASE, OLD_USED as u32).is_err());
        assert!(after_tidy(&before(), &tidied(), BASE, 0).is_err());
    }
}

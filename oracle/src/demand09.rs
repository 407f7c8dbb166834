//! What document 02, request 1, says of a conversion's result, said a second time. It shares nothing
//! with the model's conversion: it looks only at the list before and at what the target holds.

use crate::demand::{data_addresses, demand, is_whole, live, number, rest_is_zero, steps, used, Relocation};

/// What holds of an accepted conversion.
pub fn after_conversion(made: &Relocation) -> Result<(), String> {
    let new_base = made.target_base + made.shift as u64;
    let result = &made.target[made.shift as usize..];
    is_whole(result, new_base)?;
    let (old_steps, new_steps) = (steps(made.area), steps(result));
    demand(live(&old_steps) == live(&new_steps), "conversion leaves the reading as it was")?;
    demand(made.area[16..used(made.area)] == result[24..used(result)], "entry bytes stand as they were")?;
    demand(result[7] == made.area[7], "the alignment is the old one")?;
    demand(
        number(&result[12..16]) == result.len() / 8 * 8,
        "total is what is left of the target, rounded down",
    )?;
    demand(result[16..24] == [1, 0, 0, 0, 0, 0, 0, 0], "has_checksum is on, other flags and reserved are 0")?;
    demand(rest_is_zero(made), "every other target byte is 0")?;
    let boundary = 1 << made.area[7];
    let addresses_keep =
        data_addresses(&old_steps, made.base, boundary) == data_addresses(&new_steps, new_base, boundary);
    demand(addresses_keep, "data addresses keep their value modulo 2^alignment")?;
    demand(first_place_keeps(made, new_base, boundary), "so does the first entry's place, and no lower one")
}

/// The first entry's place, 16 behind the old base and 24 behind the new one, keeps its value where
/// there is no entry too. Of the addresses that keep it, one stands among the first 2^alignment.
fn first_place_keeps(made: &Relocation, new_base: u64, boundary: u64) -> bool {
    (new_base + 24) % boundary == (made.base + 16) % boundary && (made.shift as u64) < boundary
}

#[cfg(test)]
mod tests {
    //! Slips and frauds do not pass.

    use super::*;
    use crate::{lists09, model09};

    const LEN: usize = 192;
    /// A live entry whose padding is not 0, and a void whose data is not 0.
    const ENTRIES: [u8; 32] = [
        1, 0, 0, 8, 3, 0, 0, 0, 0xaa, 0xbb, 0xcc, 0xdd, 0, 0, 0, 0xee, //
        0, 0, 0, 8, 8, 0, 0, 0, 1, 2, 3, 4, 5, 6, 7, 8,
    ];

    fn old() -> Vec<u8> {
        lists09::by_hand(6, &ENTRIES, 64)
    }

    /// The target after a conversion from base 0 to a target base of 0: 64 - 8 is the shift.
    fn converted() -> Vec<u8> {
        let mut target = vec![0xa5; LEN];
        assert_eq!(model09::convert(&old(), 0, &mut target, 0).value, 56);
        target
    }

    fn passes(target: &[u8], base: u64, shift: u32) -> bool {
        let area = &old();
        after_conversion(&Relocation { area, base, target, target_base: 0, shift }).is_ok()
    }

    /// Changes a byte of the result and puts the checksum right.
    fn changed(offset: usize, value: u8) -> Vec<u8> {
        let mut target = converted();
        let change = target[56 + offset] ^ value;
        target[56 + offset] = value;
        target[56 + 4] ^= change;
        target
    }

    #[test]
    fn an_honest_conversion_passes() {
        assert!(passes(&converted(), 0, 56));
    }

    #[test]
    fn a_base_that_is_not_8_less_fails() {
        assert!(!passes(&converted(), 8, 56));
        assert!(!passes(&converted()[56..], 0, 0));
    }

    #[test]
    fn a_higher_base_fails() {
        let mut target = vec![0; 64];
        target.extend(converted());
        assert!(!passes(&target, 0, 120));
    }

    #[test]
    fn a_fraud_under_a_right_checksum_fails() {
        let (alignment, flags, reserved, padding, void_data) = (7, 16, 20, 35, 50);
        for offset in [alignment, flags, reserved, padding, void_data] {
            assert!(passes(&changed(offset, converted()[56 + offset]), 0, 56));
            assert!(!passes(&changed(offset, converted()[56 + offset] ^ 2), 0, 56));
        }
    }

    #[test]
    fn a_byte_left_behind_fails() {
        for offset in [0, 55, LEN - 1] {
            let mut target = converted();
            target[offset] = 0xa5;
            assert!(!passes(&target, 0, 56));
        }
    }
}

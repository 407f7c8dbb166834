//! The job of document 02, request 3: "each run of neighbouring voids becomes one void over the same
//! stretch, its data zero; voids at the end are given back, used shrinks, and the bytes given back
//! become zero".
//!
//! "Checks 1 to 8 apply, 5 included": the model of document 01 makes them. There is no other refusal.

use crate::model::{self, field, put_u32, Done, Edition, Entry, List, Refusal};
use std::ops::Range;

/// "The answer is the new used size."
pub fn tidy(area: &mut [u8], base: u64) -> Done {
    model::done(try_tidy(area, base))
}

fn try_tidy(area: &mut [u8], base: u64) -> Result<u128, Refusal> {
    let list = List::open_to_edit(Edition::Current, area, base)?;
    let end = list.header.used_size;
    let mut used = end;
    for run in runs(&list.entries) {
        if run.end == end {
            area[run.start as usize..run.end as usize].fill(0);
            used = run.start;
        } else {
            model::put_zero_void(area, run.start, run.end - run.start - 8);
        }
    }
    put_u32(area, field::USED_SIZE, used as u32);
    model::put_checksum(area);
    Ok(used)
}

/// The stretch of each run of neighbouring voids; "one void alone counts as a run".
fn runs(entries: &[Entry]) -> Vec<Range<u128>> {
    let alike = entries.chunk_by(|one, next| one.is_live() == next.is_live());
    alike.filter(|group| !group[0].is_live()).map(stretch).collect()
}

/// From the first entry's start to the last one's end.
fn stretch(group: &[Entry]) -> Range<u128> {
    let last = &group[group.len() - 1];
    group[0].place..last.place + last.stretch()
}

#[cfg(test)]
mod tests {
    use super::*;
    use crate::demand_tidy;
    use crate::lists;
    use crate::rng::Rng;

    /// On many lists the result keeps what is demanded, and "tidying twice is the same as once".
    #[test]
    fn many_lists() {
        let mut tidied = 0;
        for seed in 0..4000 {
            let list = lists::any(&mut Rng::new(seed));
            let mut once = list.area.clone();
            let done = tidy(&mut once, list.base);
            if done.number != 0 {
                assert_eq!((done.value, &once), (0, &list.area));
                continue;
            }
            assert_eq!(demand_tidy::after_tidy(&list.area, &once, list.base, done.value), Ok(()));
            let mut twice = once.clone();
            assert_eq!(tidy(&mut twice, list.base), done);
            assert_eq!(twice, once);
            tidied += 1;
        }
        assert!(tidied > 500);
    }
}

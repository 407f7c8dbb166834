//! What an answer must say of the bad entry's place by document 02, request 8, said a second time. It shares
//! nothing with the model's walk: all places of a list are worked out first, whatever stands there, and each
//! is judged afterwards, by where the entry's data ends.

use crate::demand::demand;
use crate::model::ENTRY;

/// How an entry breaks the row ENTRY, in the order of its words.
#[derive(Clone, Copy, Debug, PartialEq, Eq)]
pub enum Way {
    /// "Entry hdr_size is not 8 (version 1) or under 8 (above)."
    HdrSize,
    /// "align8(hdr_size + data_size) exceeds what is left."
    Length,
    /// "A void's data_size is no multiple of 8."
    VoidSize,
}

/// The bytes of a header that both editions have.
const FIELDS: usize = 16;

fn number(area: &[u8], place: usize) -> u64 {
    u64::from(u32::from_le_bytes([area[place], area[place + 1], area[place + 2], area[place + 3]]))
}

pub fn used(area: &[u8]) -> u64 {
    number(area, 8)
}

pub fn hdr_size(area: &[u8], place: usize) -> u64 {
    u64::from(area[place + 3])
}

/// Where the data of the entry at a place ends, or would end.
pub fn data_end(area: &[u8], place: usize) -> u64 {
    place as u64 + hdr_size(area, place) + number(area, place + 4)
}

/// Where entries stand, sound or not: the first behind the header, each further one behind the data before
/// it, at the next multiple of 8, as long as eight bytes are left.
pub fn places(area: &[u8]) -> Vec<usize> {
    let mut places = Vec::new();
    if area.len() < FIELDS {
        return places;
    }
    let end = used(area).min(area.len() as u64);
    let mut next = (u64::from(area[6]) + 7) & !7;
    while next + 8 <= end {
        let place = next as usize;
        places.push(place);
        next = (data_end(area, place) + 7) & !7;
        if next == place as u64 {
            break;
        }
    }
    places
}

/// The rules that the entry at a place breaks; its first eight bytes are there. Places and used_size are
/// multiples of 8, so what is left holds an entry with its padding where it holds it without.
pub fn ways(area: &[u8], place: usize) -> Vec<Way> {
    let (version, hdr_size) = (area[5], area[place + 3]);
    let is_void = area[place..place + 3] == [0, 0, 0];
    let mut ways = Vec::new();
    if hdr_size < 8 || version == 1 && hdr_size > 8 {
        ways.push(Way::HdrSize);
    }
    if data_end(area, place) > used(area) {
        ways.push(Way::Length);
    }
    if is_void && area[place + 4] & 7 != 0 {
        ways.push(Way::VoidSize);
    }
    ways
}

/// Whether an answer of this number may say this place. The area is that of the list that the call was made
/// on; a call that was made on none cannot be refused with 8.
pub fn after_call(area: Option<&[u8]>, number: u32, at: u32) -> Result<(), String> {
    if number != ENTRY {
        return demand(at == 0, "no answer but refusal 8 says a place");
    }
    let area = area.unwrap_or_default();
    let places = places(area);
    let Some(index) = places.iter().position(|place| *place == at as usize) else {
        return demand(false, "the place that is said is one that the walk reaches");
    };
    let keeps = |place: &usize| ways(area, *place).is_empty();
    demand(places[..index].iter().all(keeps), "every entry before the place keeps the rules")?;
    demand(!keeps(&places[index]), "the entry at the place breaks a rule")
}

#[cfg(test)]
mod tests {
    //! Slips and frauds do not pass.

    use super::*;
    use crate::lists::{any, restore_checksum};
    use crate::model::{self, put_u32, Answer, Edition};
    use crate::rng::Rng;
    use crate::{model09, model_certificate, model_tidy};

    /// Five entries of 16 bytes each, at 24, 40, 56, 72 and 88; the third and the fifth are bad.
    fn two_bad() -> Vec<u8> {
        let mut area = vec![0; 128];
        model::create(&mut area, 0, true);
        for _ in 0..5 {
            model::add(&mut area, 0, 1, &[7; 8], false);
        }
        area[56 + 3] = 9;
        put_u32(&mut area, 88 + 4, 9);
        restore_checksum(Edition::Current, &mut area);
        area
    }

    fn passes(area: &[u8], number: u32, at: u32) -> bool {
        after_call(Some(area), number, at).is_ok()
    }

    #[test]
    fn the_first_bad_entry_passes_and_no_other_place() {
        let area = two_bad();
        let (used, places) = (104, 0..=200);
        assert_eq!(super::used(&area), used);
        let passing: Vec<u32> = places.filter(|at| passes(&area, ENTRY, *at)).collect();
        assert_eq!(passing, [56]);
    }

    #[test]
    fn another_answer_has_no_place() {
        let area = two_bad();
        for number in (0..=21).filter(|number| *number != ENTRY) {
            assert!(passes(&area, number, 0));
            assert!(!passes(&area, number, 4) && !passes(&area, number, 56));
        }
    }

    #[test]
    fn without_a_list_there_is_no_refusal_8() {
        assert!(after_call(None, 0, 0).is_ok() && after_call(None, 21, 0).is_ok());
        for at in [0, 24, 56] {
            assert!(after_call(None, ENTRY, at).is_err() && !passes(&[0; 15], ENTRY, at));
        }
    }

    /// An entry of no bytes, behind which nothing comes, and a list that is longer than its area.
    #[test]
    fn places_end() {
        let mut area = two_bad();
        put_u32(&mut area, 40, 1);
        put_u32(&mut area, 44, 0);
        assert_eq!(places(&area), [24, 40]);
        assert!(passes(&area, ENTRY, 40));
        put_u32(&mut area, 8, 0xffff_fff8);
        area.truncate(47);
        assert_eq!(places(&area), [24]);
    }

    #[test]
    fn each_way() {
        let mut area = two_bad();
        assert_eq!(ways(&area, 40), []);
        assert_eq!(ways(&area, 56), [Way::HdrSize]);
        assert_eq!(ways(&area, 88), [Way::Length]);
        area[72..75].fill(0);
        area[76] = 4;
        assert_eq!(ways(&area, 72), [Way::VoidSize]);
        put_u32(&mut area, 76, 0xffff_fff1);
        area[75] = 0;
        assert_eq!(ways(&area, 72), [Way::HdrSize, Way::Length, Way::VoidSize]);
        area[5] = 2;
        assert_eq!(ways(&area, 56), []);
    }

    /// On many lists the model's answers pass.
    #[test]
    fn as_the_model_has_it() {
        let mut bad = 0;
        for seed in 0..6000 {
            let list = any(&mut Rng::new(seed));
            let (area, base) = (&list.area, list.base);
            let answers = [
                both(model::check(area, base)),
                both(model::find(area, base, 1, 0)),
                both(model::create(&mut area.clone(), base, true)),
                both(model::add(&mut area.clone(), base, 1, &[], true)),
                both(model::add_aligned(&mut area.clone(), base, 1, &[], 4)),
                both(model::void(&mut area.clone(), base, 1, 0)),
                both(model::relocate(area, base, &mut [0; 64], 0)),
                both(model_tidy::tidy(&mut area.clone(), base)),
                both(model_certificate::certificate(area, base, 0, 0)),
                both(model09::check(area, base)),
                both(model09::find(area, base, 1, 0)),
                both(model09::convert(area, base, &mut [0; 64], 0)),
            ];
            for (number, at) in answers {
                assert_eq!(after_call(Some(area), number, at), Ok(()));
                bad += u32::from(number == ENTRY);
            }
        }
        assert!(bad > 1000, "{bad}");
    }

    fn both(answer: impl Answer) -> (u32, u32) {
        (answer.number(), answer.at())
    }
}

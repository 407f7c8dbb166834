//! Small lists, each with an edit that is accepted, of every kind that document 02, request 9, is to be cut in:
//! from a seed. The areas have 64 to 256 bytes, not all of them a multiple of 8.

use crate::demand::Edit;
use crate::journals;
use crate::lists::{self, List};
use crate::model::{self, Edition};
use crate::model_journal::{changed_words, plain};
use crate::rng::Rng;

/// What an edit writes, and where.
#[derive(Clone, Copy, Debug, PartialEq, Eq)]
pub enum Kind {
    AtTheEnd,
    IntoAVoid,
    WithoutVoids,
    Aligned,
    AlignedWithPadding,
    Void,
}

impl Kind {
    pub const ALL: [Kind; 6] = [
        Kind::AtTheEnd,
        Kind::IntoAVoid,
        Kind::WithoutVoids,
        Kind::Aligned,
        Kind::AlignedWithPadding,
        Kind::Void,
    ];

    pub fn name(self) -> &'static str {
        match self {
            Kind::AtTheEnd => "add at the end",
            Kind::IntoAVoid => "add into a void",
            Kind::WithoutVoids => "add, no voids allowed",
            Kind::Aligned => "add aligned, no padding",
            Kind::AlignedWithPadding => "add aligned, padding",
            Kind::Void => "void",
        }
    }

    /// Of an accepted edit of this area that answered this value.
    fn of(area: &[u8], edit: &Edit, value: u32) -> Kind {
        let at_the_end = u128::from(value) == lists::used_size(area) + 8;
        match edit {
            Edit::Add { use_voids: false, .. } => Kind::WithoutVoids,
            Edit::Add { .. } if at_the_end => Kind::AtTheEnd,
            Edit::Add { .. } => Kind::IntoAVoid,
            Edit::AddAligned { .. } if at_the_end => Kind::Aligned,
            Edit::AddAligned { .. } => Kind::AlignedWithPadding,
            Edit::Void { .. } => Kind::Void,
        }
    }
}

/// An edit with data of its own.
pub struct Given {
    data: Vec<u8>,
    kind: Kind,
    tag: u32,
    exponent: u32,
}

impl Given {
    fn any(rng: &mut Rng, kind: Kind) -> Given {
        let length = rng.small(5) as usize;
        Given { data: rng.bytes(length), kind, tag: rng.range(1, 3) as u32, exponent: rng.range(3, 6) as u32 }
    }

    pub fn edit(&self) -> Edit<'_> {
        let (tag, data) = (self.tag, &self.data[..]);
        match self.kind {
            Kind::AtTheEnd | Kind::IntoAVoid => Edit::Add { tag, data, use_voids: true },
            Kind::WithoutVoids => Edit::Add { tag, data, use_voids: false },
            Kind::Aligned | Kind::AlignedWithPadding => {
                Edit::AddAligned { tag, data, exponent: self.exponent }
            }
            Kind::Void => Edit::Void { tag, n: 0 },
        }
    }
}

/// A list, an edit that is accepted, the area it makes, and a journal that is long enough.
pub struct Case {
    pub list: List,
    pub given: Given,
    pub new: Vec<u8>,
    pub journal: Vec<u8>,
}

/// A small list made by create and some edits; what stands behind used_size is not always 0.
fn small_list(rng: &mut Rng) -> List {
    let len = rng.range(64, 256) as usize;
    let base = 0x1000 + 8 * rng.below(64);
    let mut area = vec![0; len];
    model::create(&mut area, base, !rng.once_in(3));
    for _ in 0..rng.below(5) {
        let (tag, length) = (rng.range(1, 3) as u32, rng.small(5) as usize);
        model::add(&mut area, base, tag, &rng.bytes(length), false);
    }
    for _ in 0..rng.below(3) {
        model::void(&mut area, base, rng.range(1, 3) as u32, rng.below(2));
    }
    if rng.once_in(2) {
        let used = lists::used_size(&area) as usize;
        let rest = rng.bytes(len - used);
        area[used..].copy_from_slice(&rest);
    }
    List { area, base, edition: Edition::Current }
}

/// A case of this kind.
pub fn case(rng: &mut Rng, kind: Kind) -> Case {
    loop {
        let (list, given) = (small_list(rng), Given::any(rng, kind));
        let mut new = list.area.clone();
        let done = plain(&mut new, list.base, &given.edit());
        if done.number == 0 && Kind::of(&list.area, &given.edit(), done.value) == kind {
            let journal = journals::accepted(rng, changed_words(&list.area, &new).len());
            return Case { list, given, new, journal };
        }
    }
}

#[cfg(test)]
mod tests {
    use super::*;
    use crate::model_journal;

    /// Every kind is made, and accepted with its journal.
    #[test]
    fn every_kind() {
        for kind in Kind::ALL {
            for seed in 0..50 {
                let case = case(&mut Rng::new(seed), kind);
                let edit = case.given.edit();
                let decided = model_journal::edit(&case.list.area, case.list.base, &edit, &case.journal);
                assert_eq!((decided.done.number, decided.words().is_empty()), (0, false));
                assert_eq!(Kind::of(&case.list.area, &edit, decided.done.value), kind);
            }
        }
    }
}

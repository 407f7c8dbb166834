//! The edges of document 02, request 8, made on purpose on every run: lists of both editions, of version 1
//! and of later ones, whose first, middle or last entry is bad in each of the three ways or in several at
//! once, or of which more than one is; entries that just fit, and such whose header alone does not; full
//! lists. Each call that makes the check is made on each.

use crate::compare::{hex, Bench};
use oracle::demand::Edit;
use oracle::demand_entry::Way;
use oracle::lists::{restore_checksum, List, MOST_LENT};
use oracle::lists_entry::{Made, Piece, Plan, PLANS, TAG};
use oracle::model::{field, put_u32, Answer, Edition, ENTRY, READONLY, SIGNATURE};
use oracle::tally::Call;

const LENGTHS: [usize; 4] = [1, 2, 3, 5];
const LONGEST_ROW: u32 = 5;
const WAYS: [Way; 3] = [Way::HdrSize, Way::Length, Way::VoidSize];

/// What a call answered.
pub struct Said {
    call: Call,
    number: u32,
    at: u32,
}

pub fn said(call: Call, answer: impl Answer) -> Said {
    Said { call, number: answer.number(), at: answer.at() }
}

fn is_for_edition09(call: Call) -> bool {
    matches!(call, Call::Check09 | Call::Find09 | Call::Convert09)
}

/// Whether the call reads lists of later versions.
fn reads(call: Call) -> bool {
    matches!(call, Call::Check | Call::Find | Call::Certificate | Call::Check09 | Call::Find09)
}

impl Said {
    pub fn is_by_its_edition(&self, list: &List) -> bool {
        is_for_edition09(self.call) == (list.edition == Edition::E09)
    }

    /// A report where this is not the number, or not the place, that is wanted.
    pub fn expect(&self, list: &List, number: u32, at: usize) -> Result<(), String> {
        if (self.number, self.at as usize) == (number, at) {
            return Ok(());
        }
        let (call, given) = (self.call.name(), (self.number, self.at));
        let area = hex(&list.area);
        Err(format!("{call}: an edge was to answer {number} at {at} and answered {given:?}\n  area {area}"))
    }

    /// The same of a list that has a cause for this number; a lower one comes first, and says no place.
    pub fn expect_refusal(&self, list: &List, number: u32, at: usize) -> Result<(), String> {
        match self.refusal_before_the_walk(list) {
            Some(lower) if lower < number => self.expect(list, lower, 0),
            _ => self.expect(list, number, at),
        }
    }

    /// A list of the other edition is SIGNATURE, and an edit of a later version READONLY.
    fn refusal_before_the_walk(&self, list: &List) -> Option<u32> {
        let is_later = list.area.get(field::VERSION).is_some_and(|version| *version > 1);
        if !self.is_by_its_edition(list) {
            Some(SIGNATURE)
        } else if is_later && !reads(self.call) {
            Some(READONLY)
        } else {
            None
        }
    }
}

/// The bytes from the start of this entry to the end of the last.
fn left(row: &[Piece], index: usize) -> usize {
    row[index..].iter().map(|piece| piece.bytes).sum()
}

/// The row with another piece in this place.
fn with(row: &[Piece], index: usize, piece: Piece) -> Vec<Piece> {
    let mut row = row.to_vec();
    row[index] = piece;
    row
}

impl Bench {
    pub fn edges_entry(&mut self) -> Result<(), String> {
        for plan in PLANS {
            for length in 1..=LONGEST_ROW {
                self.each_good_or_bad(&plan, length)?;
            }
            for length in LENGTHS {
                for turn in 0..5 {
                    self.each_place(&plan, &plan.row(length, turn))?;
                }
            }
            self.full_lists_with_bad_entries(&plan)?;
        }
        self.header_sizes()?;
        self.edges_entry_refusals()?;
        self.entry_sights.turn_to(Vec::new());
        Ok(())
    }

    /// Each call that makes the check, once, with numbers that a good list would mostly accept.
    pub fn each_check(&mut self, list: &List) -> Result<Vec<Said>, String> {
        let (data, target) = (&[1, 2, 3, 4], &[0x5a; 400]);
        let add = Edit::Add { tag: TAG, data, use_voids: true };
        let add_aligned = Edit::AddAligned { tag: TAG, data, exponent: 4 };
        Ok(vec![
            said(Call::Check, self.checked(list)?),
            said(Call::Find, self.found(list, TAG, 0)?),
            said(Call::Add, self.edit(list, &add)?),
            said(Call::AddAligned, self.edit(list, &add_aligned)?),
            said(Call::Void, self.edit(list, &Edit::Void { tag: TAG, n: 0 })?),
            said(Call::Relocate, self.relocated(list, target, list.base)?.0),
            said(Call::Tidy, self.tidy(list)?),
            said(Call::Certificate, self.certificate(list, 1, 2)?),
            said(Call::Check09, self.checked09(list)?),
            said(Call::Find09, self.found09(list, TAG, 0)?),
            said(Call::Convert09, self.converted09(list, target, list.base - 8)?.0),
        ])
    }

    /// The first bad entry is the one of this index.
    pub fn bad_at(&mut self, made: Made, index: usize) -> Result<(), String> {
        let at = made.places[index];
        self.entry_sights.turn_to(made.places);
        let all = self.each_check(&made.list)?;
        all.iter().try_for_each(|said| said.expect_refusal(&made.list, ENTRY, at))
    }

    /// No entry is bad: the check accepts the list, and no call answers 8.
    fn good(&mut self, list: &List) -> Result<(), String> {
        for said in self.each_check(list)? {
            let is_own = said.is_by_its_edition(list);
            if said.number == ENTRY || is_own && matches!(said.call, Call::Check | Call::Check09) {
                said.expect(list, 0, 0)?;
            }
        }
        Ok(())
    }
}

impl Bench {
    /// Every row of so many entries of which each is good or is bad in one of the three ways: "the first
    /// entry that breaks a rule" counts, whatever stands behind it.
    fn each_good_or_bad(&mut self, plan: &Plan, length: u32) -> Result<(), String> {
        for code in 0..4usize.pow(length) {
            let way = |index: u32| WAYS.get(code / 4usize.pow(index) % 4);
            let is_live = |index: u32| index.is_multiple_of(2);
            let piece = |index: u32| if is_live(index) { plan.live(TAG, 8) } else { plan.void(16) };
            let row = |index: u32| match way(index) {
                Some(way) => plan.bad_in(piece(index), *way),
                None => piece(index),
            };
            let made = plan.list(&(0..length).map(row).collect::<Vec<_>>());
            match (0..length).find(|index| way(*index).is_some()) {
                Some(first) => self.bad_at(made, first as usize)?,
                None => self.good(&made.list)?,
            }
        }
        Ok(())
    }

    fn each_place(&mut self, plan: &Plan, row: &[Piece]) -> Result<(), String> {
        for index in 0..row.len() {
            self.one_bad(plan, row, index)?;
            self.header_past_the_end(plan, row, index)?;
            self.just_fitting(plan, row, index)?;
        }
        Ok(())
    }

    /// A row of good entries of which this one becomes bad in every way, there or just behind the end.
    fn one_bad(&mut self, plan: &Plan, row: &[Piece], index: usize) -> Result<(), String> {
        for bad in plan.bad(row[index], left(row, index)) {
            self.bad_at(plan.list(&with(row, index, bad)), index)?;
            self.behind_the_end(plan.list(&with(row, index, bad)), index)?;
        }
        Ok(())
    }

    /// The header of this entry is longer than what is left; it has no data.
    fn header_past_the_end(&mut self, plan: &Plan, row: &[Piece], index: usize) -> Result<(), String> {
        let least = left(row, index) + 1;
        for hdr_size in [least, least + 7, 255].into_iter().filter(|size| (least..256).contains(size)) {
            let longer = row[index].with_hdr_size(hdr_size as u8).with_data_size(0);
            self.bad_at(plan.list(&with(row, index, longer)), index)?;
        }
        Ok(())
    }

    /// This entry takes all that is left, the others with it.
    fn just_fitting(&mut self, plan: &Plan, row: &[Piece], index: usize) -> Result<(), String> {
        let (piece, left) = (row[index], left(row, index));
        let most = left as u32 - u32::from(piece.hdr_size);
        let fitting =
            if piece.tag == 0 { most / 8 * 8..=most / 8 * 8 } else { most.saturating_sub(7)..=most };
        for data_size in fitting {
            self.good(&plan.list(&with(row, index, piece.with_data_size(data_size))).list)?;
        }
        Ok(())
    }

    /// The list ends where the bad entry starts, and that is not judged.
    fn behind_the_end(&mut self, mut made: Made, index: usize) -> Result<(), String> {
        put_u32(&mut made.list.area, field::USED_SIZE, made.places[index] as u32);
        restore_checksum(made.list.edition, &mut made.list.area);
        self.good(&made.list)
    }

    /// Entries whose headers have 8 bytes or more behind two of 8: a later version allows them, and version 1
    /// says the place of the first.
    fn header_sizes(&mut self) -> Result<(), String> {
        for plan in PLANS {
            for hdr_size in [8, 9, 10, 15, 16, 17, 24, 31, 32, 254, 255] {
                let row = Plan { entry_hdr_size: hdr_size, ..plan }.row(5, 0);
                let (first, second) = (Piece::new(TAG, 8, 8), Piece::new(0, 8, 0));
                let made = plan.list(&[&[first, second], &row[..]].concat());
                if plan.is_first_version() && hdr_size != 8 {
                    self.bad_at(made, 2)?;
                } else {
                    self.good(&made.list)?;
                }
            }
        }
        Ok(())
    }

    /// Lists of nearly 65,536 bytes, of small entries of which the first, the second, a middle one, the last
    /// but one or the last is bad; and a bad entry behind a long one.
    fn full_lists_with_bad_entries(&mut self, plan: &Plan) -> Result<(), String> {
        let small = plan.live(TAG, 8);
        let long = plan.live(TAG, 60_000);
        let most = (MOST_LENT - 512) / small.bytes;
        for way in WAYS {
            for index in [0, 1, most / 2, most - 2, most - 1] {
                let row = with(&vec![small; most], index, plan.bad_in(small, way));
                self.bad_at(plan.list(&row), index)?;
            }
            self.bad_at(plan.list(&[long, plan.bad_in(small, way), small]), 1)?;
        }
        Ok(())
    }
}

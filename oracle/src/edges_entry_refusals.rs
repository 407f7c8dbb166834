//! A bad entry together with every other refusal, made on purpose on every run: those of a lower number come
//! first and say no place, and those behind 8 do not come (document 02, request 8).

use crate::compare::Bench;
use crate::edges_certificate::{good, of_bytes, rubbish};
use crate::edges_entry::{said, Said};
use crate::edges_tidy::expect;
use crate::edits::call_of;
use oracle::certificate::Certificate;
use oracle::demand::Edit;
use oracle::demand_entry::Way;
use oracle::lists::{restore_checksum, List};
use oracle::lists_certificate::{entry, list};
use oracle::lists_entry::{Made, Plan, PLANS, TAG};
use oracle::model::{self, field, put_u32, Edition, ADDRESS_END, CERTIFICATE_TAG, ENTRY};
use oracle::model_certificate::{NOT_ASKED, NOT_ONE, NOT_SOUND};
use oracle::tally::Call;

const END: u64 = ADDRESS_END as u64;
const WAYS: [Way; 3] = [Way::HdrSize, Way::Length, Way::VoidSize];
/// A tag that no entry here has.
const ABSENT: u32 = 9;

fn grow(list: &mut List, field: usize, by: u32) {
    let size = u32::from_le_bytes(list.area[field..field + 4].try_into().unwrap());
    put_u32(&mut list.area, field, size + by);
}

type Change = fn(&mut List);

/// What gives each lower refusal, in a list of any edition and version. The checksum is put right afterwards
/// where that is not the matter.
const LOWER: [(u32, Change); 22] = [
    (model::AREA, |list| list.base += 4),
    (model::AREA, |list| list.base += 1),
    (model::AREA, |list| list.base = END),
    (model::AREA, |list| list.base = u64::MAX - 7),
    (model::SHORT, |list| list.area.truncate(list.edition.hdr_size() - 1)),
    (model::SHORT, |list| list.area.truncate(8)),
    (model::SHORT, |list| list.area.clear()),
    (model::SIGNATURE, |list| list.area[0] ^= 1),
    (model::SIGNATURE, |list| list.area[3] ^= 0x80),
    (model::VERSION, |list| list.area[field::VERSION] = 0),
    (model::SIZES, |list| list.area[field::HDR_SIZE] = list.edition.hdr_size() as u8 - 1),
    (model::SIZES, |list| list.area[field::HDR_SIZE] = 0),
    (model::SIZES, |list| list.area[field::ALIGNMENT] = 2),
    (model::SIZES, |list| list.area[field::ALIGNMENT] = 22),
    (model::SIZES, |list| grow(list, field::USED_SIZE, 4)),
    (model::SIZES, |list| grow(list, field::USED_SIZE, 40)),
    (model::SIZES, |list| put_u32(&mut list.area, field::USED_SIZE, 8)),
    (model::SIZES, |list| grow(list, field::TOTAL_SIZE, 4)),
    (model::SIZES, |list| grow(list, field::TOTAL_SIZE, 16)),
    (model::SIZES, |list| put_u32(&mut list.area, field::TOTAL_SIZE, 0xffff_fff8)),
    (model::CHECKSUM, |list| list.area[field::CHECKSUM] ^= 1),
    (model::CHECKSUM, |list| list.area[field::CHECKSUM] ^= 0x80),
];

fn change_by(list: &mut List, (number, change): (u32, Change)) {
    change(list);
    if number != model::CHECKSUM && list.area.len() >= list.edition.hdr_size() {
        restore_checksum(list.edition, &mut list.area);
    }
}

/// What is asked of a list: a find, an edit, or a relocation or a conversion into so many bytes at this base.
enum Ask {
    Find(u32, u64),
    Edit(Edit<'static>),
    Move(usize, u64),
}

const fn add(tag: u32, data: &'static [u8]) -> Ask {
    Ask::Edit(Edit::Add { tag, data, use_voids: true })
}

const fn add_aligned(tag: u32, data: &'static [u8], exponent: u32) -> Ask {
    Ask::Edit(Edit::AddAligned { tag, data, exponent })
}

/// What a good list of version 1 refuses with a number over 8.
const ASKS: [(u32, Ask); 28] = [
    (model::TAG, Ask::Find(0, 0)),
    (model::TAG, Ask::Find(0x100_0000 + TAG, 0)),
    (model::NONE, Ask::Find(ABSENT, 0)),
    (model::NONE, Ask::Find(TAG, 1)),
    (model::NONE, Ask::Find(TAG, u64::MAX)),
    (model::TAG, add(0, &[])),
    (model::TAG, add(0x80_0000, &[1])),
    (model::TAG, add(0x100_0000 + TAG, &[1])),
    (model::SHAPE, add(6, &[1])),
    (model::SHAPE, add(5, &[])),
    (model::SHAPE, add(CERTIFICATE_TAG, &[1; 55])),
    (model::ROOM, add(TAG, &[1; 25])),
    (model::ROOM, add(TAG, &[1; 4096])),
    (model::TAG, add_aligned(0, &[], 3)),
    (model::TAG, add_aligned(0xff_efff, &[], 22)),
    (model::SHAPE, add_aligned(6, &[1], 3)),
    (model::SHAPE, add_aligned(0x104, &[1], 2)),
    (model::ALIGN, add_aligned(TAG, &[], 2)),
    (model::ALIGN, add_aligned(TAG, &[1; 4096], 22)),
    (model::ROOM, add_aligned(TAG, &[1; 25], 3)),
    (model::ROOM, add_aligned(TAG, &[], 21)),
    (model::TAG, Ask::Edit(Edit::Void { tag: 0, n: 0 })),
    (model::NONE, Ask::Edit(Edit::Void { tag: ABSENT, n: 0 })),
    (model::NONE, Ask::Edit(Edit::Void { tag: TAG, n: 1 })),
    (model::TARGET, Ask::Move(400, END - 399)),
    (model::TARGET, Ask::Move(0, u64::MAX)),
    (model::ROOM, Ask::Move(0, 0)),
    (model::ROOM, Ask::Move(32, 1)),
];

/// Three entries, of which this one is bad in this way, if any.
fn three(plan: &Plan, bad: Option<(usize, Way)>) -> Made {
    let mut row = [plan.live(TAG, 8), plan.void(16), plan.live(TAG + 1, 8)];
    if let Some((index, way)) = bad {
        row[index] = plan.bad_in(row[index], way);
    }
    plan.list(&row)
}

/// An entry of 16 bytes that is bad in this way alone, in every version.
fn bad_bytes(way: Way) -> Vec<u8> {
    let mut bytes = entry(0, 8, &[0x77; 8]);
    match way {
        Way::HdrSize => bytes[3] = 7,
        Way::Length => put_u32(&mut bytes, 4, 0xffff_fff8),
        Way::VoidSize => bytes[4] = 5,
    }
    bytes
}

fn in_a_list(version: u8, row: &[Vec<u8>]) -> List {
    list(version, 24, 1, row, &[0xa5; 8])
}

/// The entries with a bad one put in at this index.
fn with_bad(version: u8, row: &[Vec<u8>], index: usize, way: Way) -> Made {
    let mut row = row.to_vec();
    row.insert(index, bad_bytes(way));
    let places = (0..row.len()).map(|index| 24 + row[..index].concat().len()).collect();
    Made { list: in_a_list(version, &row), places }
}

impl Bench {
    pub fn edges_entry_refusals(&mut self) -> Result<(), String> {
        for plan in PLANS {
            for way in WAYS {
                for index in 0..3 {
                    self.lower_refusals(&plan, index, way)?;
                    self.asks_of_bad(&three(&plan, Some((index, way))), index)?;
                }
            }
            if plan.is_first_version() {
                self.asks_of_good(&three(&plan, None).list)?;
            }
        }
        self.certificates_and_bad_entries()
    }

    /// Each lower refusal says no place; READONLY comes where an edit meets a later version, and there the
    /// calls that read say the place.
    fn lower_refusals(&mut self, plan: &Plan, index: usize, way: Way) -> Result<(), String> {
        for lower in LOWER {
            let Made { mut list, places } = three(plan, Some((index, way)));
            self.entry_sights.turn_to(places);
            change_by(&mut list, lower);
            for said in self.each_check(&list)?.iter().filter(|said| said.is_by_its_edition(&list)) {
                said.expect_refusal(&list, lower.0, 0)?;
            }
        }
        for version in [2, 255] {
            let mut made = three(plan, Some((index, way)));
            made.list.area[field::VERSION] = version;
            restore_checksum(made.list.edition, &mut made.list.area);
            self.bad_at(made, index)?;
        }
        Ok(())
    }

    fn asks_of_bad(&mut self, made: &Made, index: usize) -> Result<(), String> {
        self.entry_sights.turn_to(made.places.clone());
        for (_, ask) in &ASKS {
            if let Some(said) = self.ask(&made.list, ask)? {
                said.expect_refusal(&made.list, ENTRY, made.places[index])?;
            }
        }
        Ok(())
    }

    fn asks_of_good(&mut self, list: &List) -> Result<(), String> {
        for (number, ask) in &ASKS {
            if let Some(said) = self.ask(list, ask)? {
                said.expect(list, *number, 0)?;
            }
        }
        Ok(())
    }

    /// None where the list's edition has no such call.
    fn ask(&mut self, list: &List, ask: &Ask) -> Result<Option<Said>, String> {
        Ok(Some(match (list.edition, ask) {
            (Edition::Current, Ask::Find(tag, n)) => said(Call::Find, self.found(list, *tag, *n)?),
            (Edition::E09, Ask::Find(tag, n)) => said(Call::Find09, self.found09(list, *tag, *n)?),
            (Edition::Current, Ask::Edit(edit)) => said(call_of(edit), self.edit(list, edit)?),
            (Edition::E09, Ask::Edit(_)) => return Ok(None),
            (Edition::Current, Ask::Move(len, base)) => {
                said(Call::Relocate, self.relocated(list, &vec![0x5a; *len], *base)?.0)
            }
            (Edition::E09, Ask::Move(len, base)) => {
                said(Call::Convert09, self.converted09(list, &vec![0x5a; *len], *base)?.0)
            }
        }))
    }

    /// A bad entry before certificates that would pass or be 18, 19 or 20, and behind them.
    fn certificates_and_bad_entries(&mut self) -> Result<(), String> {
        let certificate = |one: &Certificate| entry(CERTIFICATE_TAG, 8, &one.bytes());
        let other = certificate(&Certificate { serial: 1, ..good() });
        let one = certificate(&good());
        let rows = [
            (vec![one.clone()], 0),
            (vec![of_bytes(12)], NOT_ONE),
            (vec![one.clone(), one], NOT_ONE),
            (vec![other], NOT_ASKED),
            (vec![certificate(&rubbish())], NOT_SOUND),
        ];
        for (row, number) in rows {
            self.certificates_with_bad(&row, number)?;
        }
        Ok(())
    }

    /// The number is that of the certificates without the bad entry.
    fn certificates_with_bad(&mut self, row: &[Vec<u8>], number: u32) -> Result<(), String> {
        let Certificate { serial, test, .. } = good();
        for version in [1, 2, 255] {
            expect(self.certificate(&in_a_list(version, row), serial, test)?.number, number)?;
            for way in WAYS {
                for index in 0..=row.len() {
                    let Made { list, places } = with_bad(version, row, index, way);
                    let at = places[index];
                    self.entry_sights.turn_to(places);
                    let answer = self.certificate(&list, serial, test)?;
                    said(Call::Certificate, answer).expect(&list, ENTRY, at)?;
                }
            }
        }
        Ok(())
    }
}

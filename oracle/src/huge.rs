//! Lengths over 2^32, which would be judged otherwise if they were cut to 32 bits, and lengths at the limit
//! of document 02, request 7. They are lent as zeros which the system has set, with a small list at their
//! start and nothing else written. A length over the limit is refused by each call (AREA, TARGET; as data
//! SHAPE, ROOM), so no byte changes. At the limit, a byte below it, and in 65,537 bytes, the small list is read
//! and edited as in a small area.

use crate::compare::{untouched, Asked, Bench, Buffer};
use crate::edges_certificate::good;
use crate::edges_tidy::{change_by, expect, with_runs, REFUSALS};
use crate::edits::{by_library, by_model, call_of, data_of};
use crate::lent::Lent;
use crate::library;
use oracle::demand::Edit;
use oracle::lists::MOST_LENT;
use oracle::model::{self, Answer, CERTIFICATE_TAG, HIGHEST_ALIGNMENT, LONGEST_AREA};
use oracle::model_certificate;
use oracle::model_tidy;
use oracle::tally::Call;

/// Just below the highest boundary, so that an entry of the small list can stand there.
pub const BASE: u64 = (1 << HIGHEST_ALIGNMENT) - 192;
pub const TAG: u32 = 1;
pub const SMALL: usize = 256;
/// Cut to 32 bits this is SMALL.
pub const HUGE: usize = (1 << 32) + SMALL;

const DATA: [u8; 3] = [5, 6, 7];
pub const EDITS: [Edit; 5] = [
    Edit::Add { tag: TAG, data: &DATA, use_voids: false },
    Edit::Add { tag: TAG, data: &DATA, use_voids: true },
    Edit::AddAligned { tag: TAG, data: &DATA, exponent: 4 },
    Edit::AddAligned { tag: TAG, data: &DATA, exponent: HIGHEST_ALIGNMENT },
    Edit::Void { tag: TAG, n: 0 },
];

/// A list with an entry, a certificate and a void, and room for more.
pub fn small_list() -> Vec<u8> {
    let mut list = vec![0; SMALL];
    model::create(&mut list, BASE, true);
    model::add(&mut list, BASE, TAG, &[1, 2, 3], false);
    model::add(&mut list, BASE, CERTIFICATE_TAG, &good().bytes(), false);
    model::add(&mut list, BASE, 2, &[4; 8], false);
    model::void(&mut list, BASE, 2, 0);
    list
}

/// A report where a buffer of zeros behind the list holds something else now.
pub fn unwritten(huge: &Lent, list: &[u8]) -> Result<(), String> {
    if huge.is_zero_behind(list) {
        Ok(())
    } else {
        Err("a call wrote where it should not to a buffer of zeros".to_string())
    }
}

/// A long buffer: a small list at its start, and zeros behind it.
pub struct Long {
    pub lent: Lent,
    pub list: Vec<u8>,
}

impl Long {
    /// Zeros alone. None where the system does not lend so much.
    fn new(len: usize) -> Option<Long> {
        Some(Long { lent: Lent::zeros(len)?, list: Vec::new() })
    }

    /// Puts another list in.
    pub fn hold(&mut self, list: Vec<u8>) {
        self.lent.bytes()[..self.list.len()].fill(0);
        self.list = list;
        self.put_back();
    }

    /// Puts the list back; what stood in its place.
    fn put_back(&mut self) -> Vec<u8> {
        let held = &mut self.lent.bytes()[..self.list.len()];
        let before = held.to_vec();
        held.copy_from_slice(&self.list);
        before
    }

    /// Puts the list back; a report where something else stood in its place.
    fn put_back_from(&mut self, wanted: &[u8]) -> Result<(), String> {
        if self.put_back() == wanted {
            Ok(())
        } else {
            Err(format!("a call on {} bytes left other bytes than the model", self.lent.len()))
        }
    }

    /// Whether areas and targets of the length are refused.
    pub fn is_too_long(&self) -> bool {
        self.lent.len() > LONGEST_AREA
    }
}

impl Bench {
    /// Lends lengths at the limit as area and, where they are refused, as target; and more than 4 GiB as
    /// area, as target and as data, where the system has them to lend.
    pub fn huge_lengths(&mut self) -> Result<(), String> {
        let mut long = Long::new(LONGEST_AREA + 1).ok_or("the system lends no 16 MiB")?;
        self.area_comes_first(&mut long)?;
        for len in [LONGEST_AREA + 1, LONGEST_AREA, LONGEST_AREA - 1, MOST_LENT + 1] {
            long.lent.cut(len);
            self.long_area09(&mut long)?;
            self.long_area(&mut long)?;
            unwritten(&long.lent, &long.list)?;
        }
        let Some(mut huge) = Long::new(HUGE) else {
            println!("lengths over 2^32 are left out: the system lends no 4 GiB");
            return Ok(());
        };
        self.long_area09(&mut huge)?;
        self.long_area(&mut huge)?;
        self.add_huge_data(&mut huge)?;
        unwritten(&huge.lent, &huge.list)
    }

    /// An area a byte over the limit is AREA, whatever else is the matter with its list.
    fn area_comes_first(&mut self, long: &mut Long) -> Result<(), String> {
        for refusal in REFUSALS {
            let mut list = with_runs();
            change_by(&mut list, refusal);
            long.hold(list.area);
            let wanted = model_tidy::tidy(long.lent.bytes(), list.base);
            let given = library::tidy(&mut long.lent, list.base);
            self.judge_long(long, Call::Tidy, wanted, given, &[])?;
            let wanted = model_certificate::certificate(long.lent.bytes(), list.base, 0, 0);
            let given = library::certificate(&mut long.lent, list.base, 0, 0);
            self.judge_long(long, Call::Certificate, wanted, given, &[])?;
            unwritten(&long.lent, &long.list)?;
        }
        Ok(())
    }

    /// A report where the answers differ, or are another than the length gives.
    pub fn judge_long<A: Answer>(
        &mut self,
        long: &Long,
        call: Call,
        wanted: A,
        given: A,
        buffers: &[Buffer],
    ) -> Result<(), String> {
        let numbers = || format!("an area of {} bytes", long.lent.len());
        self.judge(&Asked { call, numbers: &numbers }, wanted, given, buffers)?;
        expect(given.number(), if long.is_too_long() { model::AREA } else { 0 })
    }
}

impl Bench {
    /// All calls on a long area, but none that would write all of it.
    fn long_area(&mut self, long: &mut Long) -> Result<(), String> {
        long.hold(small_list());
        self.read_long_area(long)?;
        self.edit_long_area(long)?;
        self.relocate_long_area(long)?;
        if long.is_too_long() {
            self.create_long_area(long)?;
            self.relocate_to_long_target(long)?;
        }
        Ok(())
    }

    fn read_long_area(&mut self, long: &mut Long) -> Result<(), String> {
        let wanted = model::check(long.lent.bytes(), BASE);
        let given = library::check(&mut long.lent, BASE);
        self.judge_long(long, Call::Check, wanted, given, &[])?;
        let wanted = model::find(long.lent.bytes(), BASE, TAG, 0);
        let given = library::find(&mut long.lent, BASE, TAG, 0);
        self.judge_long(long, Call::Find, wanted, given, &[])?;
        let (serial, test) = (good().serial, good().test);
        let wanted = model_certificate::certificate(long.lent.bytes(), BASE, serial, test);
        let given = library::certificate(&mut long.lent, BASE, serial, test);
        self.judge_long(long, Call::Certificate, wanted, given, &[])
    }

    /// Each edit by the model, and by the library on the same list.
    fn edit_long_area(&mut self, long: &mut Long) -> Result<(), String> {
        for edit in EDITS {
            let mut data = self.guards.lend(data_of(&edit));
            let wanted = by_model(long.lent.bytes(), BASE, &edit);
            let after = long.put_back();
            let given = by_library(&mut long.lent, BASE, &edit, &mut data);
            let buffers = [untouched("data", data_of(&edit), &data)];
            self.judge_long(long, call_of(&edit), wanted, given, &buffers)?;
            long.put_back_from(&after)?;
        }
        let wanted = model_tidy::tidy(long.lent.bytes(), BASE);
        let after = long.put_back();
        let given = library::tidy(&mut long.lent, BASE);
        self.judge_long(long, Call::Tidy, wanted, given, &[])?;
        long.put_back_from(&after)
    }

    fn relocate_long_area(&mut self, long: &mut Long) -> Result<(), String> {
        let (before, mut after) = ([9; SMALL], [9; SMALL]);
        let mut target = self.guards.lend(&before);
        let wanted = model::relocate(long.lent.bytes(), BASE, &mut after, BASE);
        let given = library::relocate(&mut long.lent, BASE, &mut target, BASE);
        let buffer = Buffer { name: "target", before: &before, wanted: &after, lent: &target };
        self.judge_long(long, Call::Relocate, wanted, given, &[buffer])
    }
}

impl Bench {
    /// Over the limit.
    fn create_long_area(&mut self, long: &mut Long) -> Result<(), String> {
        let wanted = model::create(long.lent.bytes(), BASE, true);
        let given = library::create(&mut long.lent, BASE, true);
        self.judge_long(long, Call::Create, wanted, given, &[])
    }

    /// From the small list to a target over the limit.
    fn relocate_to_long_target(&mut self, long: &mut Long) -> Result<(), String> {
        let mut area = self.guards.lend(&long.list);
        let wanted = model::relocate(&long.list, BASE, long.lent.bytes(), BASE);
        let given = library::relocate(&mut area, BASE, &mut long.lent, BASE);
        let numbers = || format!("a target of {} bytes", long.lent.len());
        let asked = Asked { call: Call::Relocate, numbers: &numbers };
        self.judge(&asked, wanted, given, &[untouched("area", &long.list, &area)])?;
        expect(given.number, model::TARGET)
    }

    /// Data whose length, cut to 32 bits, would fit the list and the tag table, or that only then
    /// would be too short for an event log. The longest comes first, since the buffer is cut.
    fn add_huge_data(&mut self, huge: &mut Long) -> Result<(), String> {
        let numbers = || "data of more than 2^32 bytes".to_string();
        let certificate = (CERTIFICATE_TAG, 56);
        let list = &huge.list;
        for (tag, length) in [certificate, (0x104, 16), (6, 12), (0x100, 8), (TAG, 4), (5, 4), (5, 3)] {
            huge.lent.cut((1 << 32) + length);
            let mut area = self.guards.lend(list);
            let wanted = model::add(&mut list.to_vec(), BASE, tag, huge.lent.bytes(), true);
            let given = library::add(&mut area, BASE, tag, &mut huge.lent, true);
            let asked = Asked { call: Call::Add, numbers: &numbers };
            self.judge(&asked, wanted, given, &[untouched("area", list, &area)])?;
            let mut area = self.guards.lend(list);
            let wanted = model::add_aligned(&mut list.to_vec(), BASE, tag, huge.lent.bytes(), 4);
            let given = library::add_aligned(&mut area, BASE, tag, &mut huge.lent, 4);
            let asked = Asked { call: Call::AddAligned, numbers: &numbers };
            self.judge(&asked, wanted, given, &[untouched("area", list, &area)])?;
        }
        Ok(())
    }
}

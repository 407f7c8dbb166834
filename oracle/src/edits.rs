//! The comparisons of create, add, add aligned and void; each edit is made with a journal too (`journalled`).

use crate::compare::{untouched, Asked, Bench, Buffer, Times};
use crate::lent::Lent;
use crate::library;
use oracle::demand::{self, Edit};
use oracle::lists::List;
use oracle::model::{self, Done, Edition};
use oracle::params::{self, Facts};
use oracle::rng::Rng;
use oracle::tally::Call;

impl Bench {
    pub fn edits(&mut self, rng: &mut Rng, list: &List, facts: &Facts, times: &Times) -> Result<(), String> {
        let noise = rng.bytes(list.area.len());
        self.create(&noise, list.base, rng.once_in(2))?;
        for _ in 0..times.adds {
            let tag = params::new_tag(rng);
            let length = params::data_len(rng, facts, tag, 0);
            let use_voids = !rng.once_in(3);
            self.edit(list, &Edit::Add { tag, data: &rng.bytes(length), use_voids })?;
        }
        for _ in 0..times.aligned_adds {
            let tag = params::new_tag(rng);
            let exponent = params::exponent(rng);
            let length = params::data_len(rng, facts, tag, params::padding(facts, exponent));
            self.edit(list, &Edit::AddAligned { tag, data: &rng.bytes(length), exponent })?;
        }
        for _ in 0..times.voids {
            let (tag, n) = params::wanted(rng, facts);
            self.edit(list, &Edit::Void { tag, n })?;
        }
        Ok(())
    }

    pub fn create(&mut self, bytes: &[u8], base: u64, has_checksum: bool) -> Result<(), String> {
        self.created(bytes, base, has_checksum)?;
        Ok(())
    }

    /// The same; the area as the library left it.
    pub fn created(&mut self, bytes: &[u8], base: u64, has_checksum: bool) -> Result<List, String> {
        let mut area = self.guards.lend(bytes);
        let mut after = bytes.to_vec();
        let wanted = model::create(&mut after, base, has_checksum);
        let given = library::create(&mut area, base, has_checksum);
        let numbers = || format!("base {base:#x}, has_checksum {has_checksum}");
        let asked = Asked { call: Call::Create, numbers: &numbers };
        let buffers = [Buffer { name: "area", before: bytes, wanted: &after, lent: &area }];
        self.judge(&asked, wanted, given, &buffers)?;
        if wanted.number == 0 {
            asked.demand(demand::after_create(&after, base), &buffers)?;
        }
        Ok(List { area: area.bytes().to_vec(), base, edition: Edition::Current })
    }

    /// An add, an aligned add or a void on a list; the answer that both gave.
    pub fn edit(&mut self, list: &List, edit: &Edit) -> Result<Done, String> {
        Ok(self.edited(list, edit)?.0)
    }

    /// The same; the list is carried on as the library left it.
    pub fn edit_on(&mut self, list: &mut List, edit: &Edit) -> Result<Done, String> {
        let (done, mut area) = self.edited(list, edit)?;
        list.area = area.bytes().to_vec();
        Ok(done)
    }

    /// The answer, and the area as the library left it.
    fn edited(&mut self, list: &List, edit: &Edit) -> Result<(Done, Lent), String> {
        let call = call_of(edit);
        let mut area = self.guards.lend(&list.area);
        let mut data = self.guards.lend(data_of(edit));
        let mut after = list.area.clone();
        let wanted = by_model(&mut after, list.base, edit);
        let given = by_library(&mut area, list.base, edit, &mut data);
        let numbers = || format!("base {:#x}, {}", list.base, numbers_of(edit));
        let asked = Asked { call, numbers: &numbers };
        let buffers = [
            Buffer { name: "area", before: &list.area, wanted: &after, lent: &area },
            untouched("data", data_of(edit), &data),
        ];
        self.judge(&asked, wanted, given, &buffers)?;
        self.event_logs.count(edit, wanted.number);
        self.added_certificates.count(edit, wanted.number);
        self.alignments.count_add(edit, wanted.number);
        self.see_large(|large| large.edit(&list.area, edit, &wanted));
        if wanted.number == 0 {
            let held = demand::after_edit(&list.area, &after, list.base, edit, wanted.value);
            asked.demand(held, &buffers)?;
        }
        self.journalled(list, edit, &after, wanted)?;
        Ok((wanted, area))
    }
}

pub fn call_of(edit: &Edit) -> Call {
    match edit {
        Edit::Add { .. } => Call::Add,
        Edit::AddAligned { .. } => Call::AddAligned,
        Edit::Void { .. } => Call::Void,
    }
}

pub fn data_of<'a>(edit: &Edit<'a>) -> &'a [u8] {
    match *edit {
        Edit::Add { data, .. } | Edit::AddAligned { data, .. } => data,
        Edit::Void { .. } => &[],
    }
}

pub fn numbers_of(edit: &Edit) -> String {
    match *edit {
        Edit::Add { tag, use_voids, .. } => format!("tag {tag:#x}, use_voids {use_voids}"),
        Edit::AddAligned { tag, exponent, .. } => format!("tag {tag:#x}, exponent {exponent}"),
        Edit::Void { tag, n } => format!("tag {tag:#x}, n {n:#x}"),
    }
}

pub fn by_model(area: &mut [u8], base: u64, edit: &Edit) -> Done {
    match *edit {
        Edit::Add { tag, data, use_voids } => model::add(area, base, tag, data, use_voids),
        Edit::AddAligned { tag, data, exponent } => model::add_aligned(area, base, tag, data, exponent),
        Edit::Void { tag, n } => model::void(area, base, tag, n),
    }
}

pub fn by_library(area: &mut Lent, base: u64, edit: &Edit, data: &mut Lent) -> Done {
    match *edit {
        Edit::Add { tag, use_voids, .. } => library::add(area, base, tag, data, use_voids),
        Edit::AddAligned { tag, exponent, .. } => library::add_aligned(area, base, tag, data, exponent),
        Edit::Void { tag, n } => library::void(area, base, tag, n),
    }
}

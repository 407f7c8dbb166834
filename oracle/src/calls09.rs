//! The comparisons of check, find and convert for lists of edition 0.9.

use crate::compare::{untouched, Asked, Bench, Buffer, Times};
use crate::lent::Lent;
use crate::library;
use oracle::demand::Relocation;
use oracle::demand09;
use oracle::lists::List;
use oracle::model::{Checked, Done, Found};
use oracle::model09;
use oracle::params::{self, Facts};
use oracle::rng::Rng;
use oracle::tally::Call;

impl Bench {
    pub fn edition09(&mut self, rng: &mut Rng, list: &List, times: &Times) -> Result<(), String> {
        let facts = Facts::of(list);
        self.check09(list)?;
        for _ in 0..times.finds {
            let (tag, n) = params::wanted(rng, &facts);
            self.find09(list, tag, n)?;
        }
        let facts = facts.for_conversion();
        for _ in 0..times.conversions {
            let (target_len, target_base) = params::target(rng, &facts);
            self.convert09(list, &rng.bytes(target_len), target_base)?;
        }
        Ok(())
    }

    pub fn check09(&mut self, list: &List) -> Result<(), String> {
        self.checked09(list)?;
        Ok(())
    }

    /// The same; the answer that both gave.
    pub fn checked09(&mut self, list: &List) -> Result<Checked, String> {
        let mut area = self.guards.lend(&list.area);
        let wanted = model09::check(&list.area, list.base);
        let given = library::check09(&mut area, list.base);
        let asked = Asked { call: Call::Check09, numbers: &|| format!("base {:#x}", list.base) };
        self.judge(&asked, wanted, given, &[untouched("area", &list.area, &area)])?;
        Ok(given)
    }

    pub fn find09(&mut self, list: &List, tag: u32, n: u64) -> Result<(), String> {
        self.found09(list, tag, n)?;
        Ok(())
    }

    /// The same; the answer that both gave.
    pub fn found09(&mut self, list: &List, tag: u32, n: u64) -> Result<Found, String> {
        let mut area = self.guards.lend(&list.area);
        let wanted = model09::find(&list.area, list.base, tag, n);
        let given = library::find09(&mut area, list.base, tag, n);
        let numbers = || format!("base {:#x}, tag {tag:#x}, n {n:#x}", list.base);
        let asked = Asked { call: Call::Find09, numbers: &numbers };
        self.judge(&asked, wanted, given, &[untouched("area", &list.area, &area)])?;
        self.see_large(|large| large.found(Call::Find09, &wanted));
        Ok(given)
    }

    pub fn convert09(&mut self, list: &List, bytes: &[u8], target_base: u64) -> Result<(), String> {
        self.converted09(list, bytes, target_base)?;
        Ok(())
    }

    /// The same; the answer that both gave, and the target as the library left it.
    pub fn converted09(
        &mut self,
        list: &List,
        bytes: &[u8],
        target_base: u64,
    ) -> Result<(Done, Lent), String> {
        let mut area = self.guards.lend(&list.area);
        let mut target = self.guards.lend(bytes);
        let mut after = bytes.to_vec();
        let wanted = model09::convert(&list.area, list.base, &mut after, target_base);
        let given = library::convert09(&mut area, list.base, &mut target, target_base);
        let numbers = || format!("base {:#x}, target_base {target_base:#x}", list.base);
        let asked = Asked { call: Call::Convert09, numbers: &numbers };
        let buffers = [
            untouched("area", &list.area, &area),
            Buffer { name: "target", before: bytes, wanted: &after, lent: &target },
        ];
        self.judge(&asked, wanted, given, &buffers)?;
        self.alignments.count_move(Call::Convert09, &list.area, wanted.number);
        self.see_large(|large| large.moved(Call::Convert09, &wanted));
        if wanted.number == 0 {
            let (area, base, shift) = (&list.area[..], list.base, wanted.value);
            let made = Relocation { area, base, target: &after, target_base, shift };
            asked.demand(demand09::after_conversion(&made), &buffers)?;
        }
        Ok((wanted, target))
    }
}

//! The comparison of relocate.

use crate::compare::{untouched, Asked, Bench, Buffer, Times};
use crate::lent::Lent;
use crate::library;
use oracle::demand::{self, Relocation};
use oracle::lists::List;
use oracle::model::{self, Done};
use oracle::params::{self, Facts};
use oracle::rng::Rng;
use oracle::tally::Call;

impl Bench {
    pub fn relocations(
        &mut self,
        rng: &mut Rng,
        list: &List,
        facts: &Facts,
        times: &Times,
    ) -> Result<(), String> {
        for _ in 0..times.relocations {
            let (target_len, target_base) = params::target(rng, facts);
            self.relocate(list, &rng.bytes(target_len), target_base)?;
        }
        Ok(())
    }

    pub fn relocate(&mut self, list: &List, bytes: &[u8], target_base: u64) -> Result<(), String> {
        self.relocated(list, bytes, target_base)?;
        Ok(())
    }

    /// The same; the answer that both gave, and the target as the library left it.
    pub fn relocated(&mut self, list: &List, bytes: &[u8], target_base: u64) -> Result<(Done, Lent), String> {
        let mut area = self.guards.lend(&list.area);
        let mut target = self.guards.lend(bytes);
        let mut after = bytes.to_vec();
        let wanted = model::relocate(&list.area, list.base, &mut after, target_base);
        let given = library::relocate(&mut area, list.base, &mut target, target_base);
        let numbers = || format!("base {:#x}, target_base {target_base:#x}", list.base);
        let asked = Asked { call: Call::Relocate, numbers: &numbers };
        let buffers = [
            untouched("area", &list.area, &area),
            Buffer { name: "target", before: bytes, wanted: &after, lent: &target },
        ];
        self.judge(&asked, wanted, given, &buffers)?;
        self.alignments.count_move(Call::Relocate, &list.area, wanted.number);
        self.see_large(|large| large.moved(Call::Relocate, &wanted));
        if wanted.number == 0 {
            let (area, base, shift) = (&list.area[..], list.base, wanted.value);
            let moved = Relocation { area, base, target: &after, target_base, shift };
            asked.demand(demand::after_relocation(&moved), &buffers)?;
        }
        Ok((wanted, target))
    }
}

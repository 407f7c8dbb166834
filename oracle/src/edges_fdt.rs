//! Device trees from the seed: good ones, each way to break one alone, and random damage: document 02,
//! request 6.

use crate::calls_fdt::Examined;
use crate::compare::{hex, Bench};
use crate::edges_fdt_large::SOME;
use oracle::fdt_asked;
use oracle::fdt_breaks::{self, Kind};
use oracle::fdt_damage::damaged;
use oracle::fdt_tree::Tree;
use oracle::fdt_trees;
use oracle::model_fdt::BROKEN;
use oracle::rng::Rng;

/// Trees from the seed.
pub const TREES: u64 = 200_000;
/// How many properties each of them is asked for.
const FINDS: usize = 4;

/// A report where a tree has not this answer, although the model and the library agree.
pub fn expect(given: u32, wanted: u32, data: &[u8]) -> Result<(), String> {
    match given == wanted {
        true => Ok(()),
        false => Err(format!("a device tree is {given}, not {wanted}\n  data {}", hex(data))),
    }
}

impl Bench {
    /// All that is done with device trees within 64 KiB, and with lengths over 2^32.
    pub fn device_trees(&mut self, seed: u64) -> Result<(), String> {
        self.edges_fdt(seed)?;
        self.edges_fdt_small()?;
        self.edges_fdt_paths()?;
        self.edges_fdt_large(SOME)?;
        self.huge_lengths_fdt()
    }

    fn edges_fdt(&mut self, seed: u64) -> Result<(), String> {
        let kinds: Vec<&Kind> = fdt_breaks::kinds().collect();
        for index in 0..TREES {
            let mut rng = Rng::new(seed.wrapping_add(index));
            let tree = fdt_trees::any(&mut rng);
            self.good_tree(&mut rng, &tree)?;
            let kind = index as usize % kinds.len();
            self.broken_tree(&mut rng, tree, kind, kinds[kind])?;
        }
        Ok(())
    }

    fn good_tree(&mut self, rng: &mut Rng, tree: &Tree) -> Result<(), String> {
        let data = tree.bytes();
        let good = Examined::new(&data);
        expect(self.fdt_check(&good)?, 0, &data)?;
        self.fdt_sights.count(tree);
        let listing = good.listing.as_ref().expect("what both accept is listed");
        for _ in 0..FINDS {
            let (path, name) = fdt_asked::any(rng, listing);
            self.fdt_find(&good, &path, &name)?;
        }
        let data = damaged(rng, good.data);
        let damaged = Examined::new(&data);
        self.fdt_check(&damaged)?;
        let (path, name) = fdt_asked::any(rng, listing);
        self.fdt_find(&damaged, &path, &name)?;
        Ok(())
    }

    /// The break, in a tree that is accepted without it; what is looked up is 21 first.
    fn broken_tree(&mut self, rng: &mut Rng, tree: Tree, index: usize, kind: &Kind) -> Result<(), String> {
        let Some(pair) = fdt_breaks::pair(rng, kind, tree)? else {
            return Ok(());
        };
        let (good, broken) = (Examined::new(&pair.good), Examined::new(&pair.broken));
        expect(self.fdt_check(&good)?, 0, &pair.good)?;
        expect(self.fdt_check(&broken)?, BROKEN, &pair.broken)?;
        let listing = good.listing.as_ref().expect("what both accept is listed");
        let (path, name) = fdt_asked::any(rng, listing);
        expect(self.fdt_find(&broken, &path, &name)?.number, BROKEN, &pair.broken)?;
        self.fdt_breaks.count(index);
        Ok(())
    }
}

//! The comparisons of the two calls for device trees. The model's answers must also be those that the list
//! of all properties gives.

use crate::compare::{untouched, Asked, Bench};
use crate::library;
use oracle::demand_fdt::{after_check, after_find};
use oracle::fdt_listing::{self, Listing};
use oracle::model::Found;
use oracle::model_fdt::{self, Node};
use oracle::tally::Call;

/// A device tree's data, as the model reads it and as it is listed.
pub struct Examined<'a> {
    pub data: &'a [u8],
    pub root: Option<Node<'a>>,
    pub listing: Option<Listing<'a>>,
}

impl<'a> Examined<'a> {
    pub fn new(data: &'a [u8]) -> Examined<'a> {
        Examined { data, root: model_fdt::read(data), listing: fdt_listing::list(data, &[]) }
    }

    pub fn number(&self) -> u32 {
        if self.root.is_some() {
            0
        } else {
            model_fdt::BROKEN
        }
    }
}

impl Bench {
    /// Checks a device tree; the number that both answered.
    pub fn fdt_check(&mut self, tree: &Examined) -> Result<u32, String> {
        let mut data = self.guards.lend(tree.data);
        let wanted = tree.number();
        let given = library::fdt_check(&mut data);
        let asked = Asked { call: Call::FdtCheck, numbers: &|| format!("len {}", tree.data.len()) };
        let buffers = [untouched("data", tree.data, &data)];
        self.judge(&asked, wanted, given, &buffers)?;
        asked.demand(after_check(tree.root.as_ref(), tree.listing.as_ref()), &buffers)?;
        Ok(given)
    }

    /// Looks a property up; the answer that both gave.
    pub fn fdt_find(&mut self, tree: &Examined, path: &[u8], name: &[u8]) -> Result<Found, String> {
        let mut data = self.guards.lend(tree.data);
        let mut lent_path = self.guards.lend(path);
        let mut lent_name = self.guards.lend(name);
        let wanted = model_fdt::answer(tree.root.as_ref(), path, name);
        let given = library::fdt_find(&mut data, &mut lent_path, &mut lent_name);
        let text = |bytes: &[u8]| bytes.escape_ascii().to_string();
        let numbers = || format!("path \"{}\", name \"{}\"", text(path), text(name));
        let asked = Asked { call: Call::FdtFind, numbers: &numbers };
        let buffers = [
            untouched("data", tree.data, &data),
            untouched("path", path, &lent_path),
            untouched("name", name, &lent_name),
        ];
        self.judge(&asked, wanted, given, &buffers)?;
        asked.demand(after_find(tree.data, tree.listing.as_ref(), (path, name), &given), &buffers)?;
        if let Some(listing) = &tree.listing {
            self.fdt_finds.count(listing, path, name);
        }
        Ok(given)
    }
}

//! Every way to break the grammar of document 02, request 6, alone: how often each was refused in a tree
//! that is accepted without it, and that each must have been.

use crate::fdt_breaks_blocks as blocks;
use crate::fdt_breaks_names as names;
use crate::fdt_breaks_reservation as reservation;
use crate::fdt_breaks_tokens as tokens;
use crate::fdt_listing;
use crate::fdt_rules::Rule;
use crate::fdt_tree::Tree;
use crate::rng::Rng;
use std::fmt::Write;

/// Makes the tree suit the break, where it does not yet; gives the broken tree's bytes, or None where the
/// tree cannot be made to suit it.
pub type Make = fn(&mut Rng, &mut Tree) -> Option<Vec<u8>>;

/// Its name, the rules that it breaks, and how it is made. These are more than one where the other rules
/// do not let the first be broken by itself.
pub type Kind = (&'static str, &'static [Rule], Make);

const TABLES: [&[Kind]; 4] = [&blocks::KINDS, &reservation::KINDS, &tokens::KINDS, &names::KINDS];

pub fn kinds() -> impl Iterator<Item = &'static Kind> {
    TABLES.into_iter().flatten()
}

/// A tree, and the same with a break.
pub struct Pair {
    pub good: Vec<u8>,
    pub broken: Vec<u8>,
}

/// A pair of this kind from the tree; a report where more is broken than the kind says.
pub fn pair(rng: &mut Rng, kind: &Kind, mut tree: Tree) -> Result<Option<Pair>, String> {
    let (name, forgiven, make) = kind;
    let Some(broken) = make(rng, &mut tree) else {
        return Ok(None);
    };
    let is_alone = *forgiven == [Rule::HeaderInData] || fdt_listing::list(&broken, forgiven).is_some();
    if !is_alone {
        return Err(format!("{name} is not the only break in {broken:02x?}"));
    }
    Ok(Some(Pair { good: tree.bytes(), broken }))
}

/// How often each kind was seen refused.
pub struct Breaks(Vec<u64>);

impl Default for Breaks {
    fn default() -> Breaks {
        Breaks(vec![0; kinds().count()])
    }
}

impl Breaks {
    pub fn count(&mut self, kind: usize) {
        self.0[kind] += 1;
    }

    pub fn table(&self) -> String {
        let mut table = format!("{:<48}{:>9}", "21, for alone", "trees");
        for ((name, ..), seen) in kinds().zip(&self.0) {
            write!(table, "\n{name:<48}{seen:>9}").unwrap();
        }
        table
    }

    /// What was never the only break.
    pub fn unseen(&self) -> Vec<String> {
        let never = kinds().zip(&self.0).filter(|(_, seen)| **seen == 0);
        never.map(|((name, ..), _)| format!("no device tree was refused for {name} alone")).collect()
    }
}

#[cfg(test)]
mod tests {
    use super::*;
    use crate::fdt_trees;
    use crate::model_fdt::{check, BROKEN};

    /// Each kind is made in many trees; with it the model refuses them, without it not.
    #[test]
    fn each_kind() {
        for (index, kind) in kinds().enumerate() {
            let mut made = 0;
            for seed in 0..200 {
                let mut rng = Rng::new(1000 * index as u64 + seed);
                let tree = fdt_trees::any(&mut rng);
                if let Some(pair) = pair(&mut rng, kind, tree).unwrap() {
                    assert_eq!((check(&pair.good), check(&pair.broken)), (0, BROKEN), "{}", kind.0);
                    made += 1;
                }
            }
            assert!(made > 20, "{}", kind.0);
        }
    }
}

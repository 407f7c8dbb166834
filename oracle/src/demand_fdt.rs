//! What the answers about a device tree must be by document 02, request 6, said a second time, over the
//! list of all its properties; and what a found value must be, seen from its own place in the bytes.

use crate::demand::demand;
use crate::fdt_listing::Listing;
use crate::model::{Found, NONE};
use crate::model_fdt::{Node, BROKEN, PROPERTY};

/// Path names, property name, offset and size.
type Place<'a> = (Vec<&'a [u8]>, &'a [u8], usize, usize);

/// All properties below a node, its own before its subnodes' as they stand in the block.
fn places<'a>(node: &Node<'a>, names: &[&'a [u8]], places_so_far: &mut Vec<Place<'a>>) {
    for property in &node.properties {
        places_so_far.push((names.to_vec(), property.name, property.offset, property.value.len()));
    }
    for below in &node.nodes {
        places(below, &[names, &[below.name]].concat(), places_so_far);
    }
}

/// Whether the tree that was read has just the listed properties, in this order; or whether there is
/// neither.
pub fn after_check(root: Option<&Node>, listing: Option<&Listing>) -> Result<(), String> {
    let (Some(root), Some(listing)) = (root, listing) else {
        return demand(root.is_none() && listing.is_none(), "a tree is read where it can be listed");
    };
    let mut read = Vec::new();
    places(root, &[], &mut read);
    let names = |node: usize| listing.nodes[node].names.clone();
    let listed = listing.rows.iter().map(|row| (names(row.node), row.name, row.offset, row.size));
    demand(listed.eq(read), "the tree's properties are the listed ones")
}

/// Whether find's answer is the one that the list gives, and its value that of a property.
pub fn after_find(
    data: &[u8],
    listing: Option<&Listing>,
    (path, name): (&[u8], &[u8]),
    found: &Found,
) -> Result<(), String> {
    let wanted = match listing.map(|listing| listing.first(path, name)) {
        None => (BROKEN, 0, 0),
        Some(None) => (NONE, 0, 0),
        Some(Some(row)) => (0, row.offset, row.size),
    };
    let given = (found.number, found.offset as usize, found.size as usize);
    if given != wanted {
        return Err(format!("number, offset and size {wanted:?}, not {found:?}"));
    }
    match found.number {
        0 => demand(is_value_of(data, name, found), "the value's own property has the name"),
        _ => Ok(()),
    }
}

/// Whether a property's three numbers stand before the value, with its size and this name's place, and
/// all of it lies inside the structure.
fn is_value_of(data: &[u8], name: &[u8], found: &Found) -> bool {
    let word = |at: usize| u32::from_be_bytes(data[at..at + 4].try_into().unwrap());
    let field = |index: usize| word(4 * index) as usize;
    let (start, strings) = (field(2), field(3));
    let end = start + field(9);
    let (offset, size) = (found.offset as usize, found.size as usize);
    let is_inside = start + 12 <= offset && offset + size <= end;
    is_inside && (word(offset - 12), word(offset - 8)) == (PROPERTY, found.size) && {
        let text = &data[strings + word(offset - 4) as usize..strings + field(8)];
        text.starts_with(name) && text.get(name.len()) == Some(&0)
    }
}

#[cfg(test)]
mod tests {
    use super::*;
    use crate::examples_fdt::SMALL;
    use crate::fdt_asked;
    use crate::fdt_damage::damaged;
    use crate::fdt_listing::list;
    use crate::fdt_trees;
    use crate::model_fdt::{answer, read};
    use crate::rng::Rng;

    /// On many trees, good and damaged, the model says the same.
    #[test]
    fn as_the_model_has_it() {
        for seed in 0..3000 {
            let mut rng = Rng::new(seed);
            let good = fdt_trees::any(&mut rng).bytes();
            let listing = list(&good, &[]).expect("a tree from a seed is a good one");
            for data in [good.clone(), damaged(&mut rng, &good)] {
                let (root, other) = (read(&data), list(&data, &[]));
                assert_eq!(after_check(root.as_ref(), other.as_ref()), Ok(()));
                for _ in 0..5 {
                    let (path, name) = fdt_asked::any(&mut rng, &listing);
                    let found = answer(root.as_ref(), &path, &name);
                    assert_eq!(after_find(&data, other.as_ref(), (&path, &name), &found), Ok(()));
                }
            }
        }
    }

    /// Another place, another size and another number do not pass, nor does another property's value.
    #[test]
    fn other_answers_fail() {
        let listing = list(&SMALL, &[]);
        let asked = (&b"/"[..], &b"x"[..]);
        let right = Found { number: 0, offset: 76, size: 3, at: 0 };
        assert_eq!(after_find(&SMALL, listing.as_ref(), asked, &right), Ok(()));
        for (number, offset, size) in
            [(0, 20, 3), (0, 80, 3), (0, 76, 4), (0, 100, 0), (13, 0, 0), (21, 0, 0)]
        {
            let found = Found { number, offset, size, at: 0 };
            assert!(after_find(&SMALL, listing.as_ref(), asked, &found).is_err());
            assert!(number != 0 || !is_value_of(&SMALL, b"x", &found));
        }
        assert!(!is_value_of(&SMALL, b"", &right));
        assert!(is_value_of(&SMALL, b"y", &Found { number: 0, offset: 100, size: 0, at: 0 }));
        assert!(after_check(None, listing.as_ref()).is_err());
        assert!(after_check(read(&SMALL).as_ref(), None).is_err());
    }
}

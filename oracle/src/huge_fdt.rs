//! Lengths and places over 2^31 and 2^32 lent to the calls for device trees: there is "no limit on its
//! length", and "no sum wraps".

use crate::compare::{untouched, Asked, Bench};
use crate::edges_fdt_small::{begin, property};
use crate::huge::unwritten;
use crate::lent::Lent;
use crate::library;
use oracle::fdt_tree::{field, Piece, Tree};
use oracle::model::{Found, NONE};
use oracle::model_fdt::{self, BROKEN, HEADER};
use oracle::tally::Call;

/// Cut to 32 bits this is less than any tree has.
const HUGE: usize = (1 << 32) + 39;

/// A root and a node, a property in each.
fn tree() -> Tree {
    let pieces = [
        begin(b""),
        property(0, &[1, 2, 3]),
        begin(b"a"),
        property(0, &[4]),
        Piece::EndNode,
        Piece::EndNode,
        Piece::End,
    ];
    Tree::plain(&pieces, b"x\0")
}

/// What stands where in a buffer of zeros.
type Parts = Vec<(usize, Vec<u8>)>;

/// The tree with its structure and strings at the end of the highest totalsize.
fn at_the_top(total: u32) -> Parts {
    let tree = tree();
    let mut written = tree.written();
    let (structure, strings) = (tree.structure(), tree.strings);
    let strings_at = total - strings.len() as u32;
    let structure_at = (strings_at - structure.len() as u32) / 4 * 4;
    written.header[field::TOTAL] = total;
    written.header[field::STRUCTURE] = structure_at;
    written.header[field::STRINGS] = strings_at;
    let header = written.bytes()[..HEADER].to_vec();
    vec![(0, header), (structure_at as usize, structure), (strings_at as usize, strings)]
}

/// The tree with a value of so many bytes in the root, all of them zero, and the rest behind it.
fn with_value(length: u32) -> Parts {
    let tree = tree();
    let mut written = tree.written();
    let mut structure = tree.structure();
    let rest = structure.split_off(24);
    structure.truncate(20);
    structure[12..16].copy_from_slice(&length.to_be_bytes());
    let longer = length.next_multiple_of(4) - 4;
    written.header[field::STRUCTURE_SIZE] += longer;
    written.header[field::STRINGS] += longer;
    written.header[field::TOTAL] += longer;
    let start = written.header[field::STRUCTURE] as usize;
    let behind = start + 20 + length.next_multiple_of(4) as usize;
    let strings = (written.header[field::STRINGS] as usize, tree.strings);
    vec![(0, written.bytes()[..HEADER].to_vec()), (start, structure), (behind, rest), strings]
}

/// The tree with another number in its header or its structure.
fn with_word(place: usize, word: u32) -> Parts {
    let mut data = tree().bytes();
    data[place..place + 4].copy_from_slice(&word.to_be_bytes());
    vec![(0, data)]
}

/// Trees in a buffer of more than 2^32 bytes, and whether they are good ones.
fn trees() -> Vec<(&'static str, Parts, bool)> {
    let plain = vec![(0, tree().bytes())];
    let first_value = tree().written().header[field::STRUCTURE] as usize + 12;
    let field = |field: usize| 4 * field;
    vec![
        ("more than 2^32 bytes behind it", plain, true),
        ("blocks up to 0xffffffff", at_the_top(0xffff_ffff), true),
        ("blocks around 2^31", at_the_top(0x8000_0010), true),
        ("a value of 0x7fffffff bytes", with_value(0x7fff_ffff), true),
        ("a value of 0x80000001 bytes", with_value(0x8000_0001), true),
        ("a value of 0xffffff00 bytes", with_value(0xffff_ff00), true),
        ("a value beyond the structure", with_word(first_value, 0x8000_0000), false),
        ("a value of 0xfffffff4 bytes beyond it", with_word(first_value, 0xffff_fff4), false),
        ("strings of 2^32 - 80 bytes", with_word(field(field::STRINGS_SIZE), 0xffff_ffb0), false),
        ("a structure of 2^32 - 4 bytes", with_word(field(field::STRUCTURE_SIZE), 0xffff_fffc), false),
        ("totalsize 0xffffffff", with_word(field(field::TOTAL), 0xffff_ffff), true),
    ]
}

fn put(huge: &mut Lent, parts: &Parts) {
    for (place, bytes) in parts {
        huge.bytes()[*place..place + bytes.len()].copy_from_slice(bytes);
    }
}

fn take(huge: &mut Lent, parts: &Parts) -> Result<(), String> {
    for (place, bytes) in parts {
        let held = &mut huge.bytes()[*place..place + bytes.len()];
        if held != bytes {
            return Err("a call wrote to a device tree of more than 2^32 bytes".to_string());
        }
        held.fill(0);
    }
    Ok(())
}

impl Bench {
    /// Lends more than 4 GiB as data, as path and as name, where the system has them to lend.
    pub fn huge_lengths_fdt(&mut self) -> Result<(), String> {
        let Some(mut huge) = Lent::zeros(HUGE) else {
            return Ok(());
        };
        for (what, parts, is_good) in trees() {
            put(&mut huge, &parts);
            self.huge_tree(&mut huge, what, is_good)?;
            take(&mut huge, &parts)?;
        }
        self.huge_path_and_name(&mut huge)?;
        unwritten(&huge, &[])
    }

    fn huge_tree(&mut self, huge: &mut Lent, what: &str, is_good: bool) -> Result<(), String> {
        let numbers = || format!("a device tree with {what}");
        let wanted = model_fdt::check(huge.bytes());
        if wanted != if is_good { 0 } else { BROKEN } {
            return Err(format!("{}: {wanted}", numbers()));
        }
        let given = library::fdt_check(huge);
        self.judge(&Asked { call: Call::FdtCheck, numbers: &numbers }, wanted, given, &[])?;
        for path in [&b"/"[..], b"/a", b"/b"] {
            let (mut lent_path, mut lent_name) = (self.guards.lend(path), self.guards.lend(b"x"));
            let wanted = model_fdt::find(huge.bytes(), path, b"x");
            let given = library::fdt_find(huge, &mut lent_path, &mut lent_name);
            let buffers = [untouched("path", path, &lent_path), untouched("name", b"x", &lent_name)];
            self.judge(&Asked { call: Call::FdtFind, numbers: &numbers }, wanted, given, &buffers)?;
        }
        Ok(())
    }

    /// A path and a name whose lengths, cut to 32 bits, would be those of a property; zeros follow, and "a
    /// zero byte in a path or a name never matches".
    fn huge_path_and_name(&mut self, huge: &mut Lent) -> Result<(), String> {
        let data = tree().bytes();
        let none = Found { number: NONE, ..Found::default() };
        let numbers = || "a path or a name of more than 2^32 bytes".to_string();
        let asked = Asked { call: Call::FdtFind, numbers: &numbers };
        for (text, is_path) in [(&b"/a"[..], true), (b"x", false)] {
            huge.cut((1 << 32) + text.len());
            put(huge, &vec![(0, text.to_vec())]);
            let mut lent = self.guards.lend(&data);
            let given = match is_path {
                true => library::fdt_find(&mut lent, huge, &mut self.guards.lend(b"x")),
                false => library::fdt_find(&mut lent, &mut self.guards.lend(b"/a"), huge),
            };
            self.judge(&asked, none, given, &[untouched("data", &data, &lent)])?;
            take(huge, &vec![(0, text.to_vec())])?;
        }
        Ok(())
    }
}

//! The jobs of document 02, request 6: the check of a flattened device tree, "given the data of tag 1
//! alone", and the lookup of a property by path and name.
//!
//! The structure is read downwards, as its grammar is said: the tree, a node, its members. Every number
//! has 32 bits and every sum is made in usize, which has 64, so "no sum wraps".

use crate::model::{Answer, Found, NONE};

/// "Refusal 21 exactly when this grammar is broken or the nesting is deeper."
pub const BROKEN: u32 = 21;

pub const MAGIC: u32 = 0xd00d_feed;
pub const VERSION: u32 = 17;
pub const LAST_COMPATIBLE: u32 = 16;
pub const HEADER: usize = 40;
/// "Nesting up to 16 nodes, the root counted."
pub const DEEPEST: usize = 16;

pub const BEGIN_NODE: u32 = 1;
pub const END_NODE: u32 = 2;
pub const PROPERTY: u32 = 3;
pub const NOP: u32 = 4;
pub const END: u32 = 9;

/// The check answers no more than the number.
impl Answer for u32 {
    fn number(&self) -> u32 {
        *self
    }

    fn at(&self) -> u32 {
        0
    }
}

/// "A node holds members, and a member may be a node."
#[derive(Debug)]
pub struct Node<'a> {
    pub name: &'a [u8],
    pub properties: Vec<Property<'a>>,
    pub nodes: Vec<Node<'a>>,
}

#[derive(Debug)]
pub struct Property<'a> {
    pub name: &'a [u8],
    /// Where the value starts, "from the data's start".
    pub offset: usize,
    pub value: &'a [u8],
}

pub fn check(data: &[u8]) -> u32 {
    match read(data) {
        Some(_) => 0,
        None => BROKEN,
    }
}

pub fn find(data: &[u8], path: &[u8], name: &[u8]) -> Found {
    answer(read(data).as_ref(), path, name)
}

/// What find answers of a tree that was read: "21 comes first, then NONE".
pub fn answer(root: Option<&Node>, path: &[u8], name: &[u8]) -> Found {
    let Some(root) = root else {
        return Found { number: BROKEN, ..Found::default() };
    };
    match names(path).and_then(|names| root.first(&names, name)) {
        None => Found { number: NONE, ..Found::default() },
        Some(it) => Found { offset: it.offset as u32, size: it.value.len() as u32, ..Found::default() },
    }
}

/// The node names that a path asks for below the root: "`/` is the root, else `/` before each full name,
/// none empty; it is cut at every `/`, and any other path finds nothing".
fn names(path: &[u8]) -> Option<Vec<&[u8]>> {
    if path == b"/" {
        return Some(Vec::new());
    }
    let names: Vec<&[u8]> = path.strip_prefix(b"/")?.split(|byte| *byte == b'/').collect();
    holds(names.iter().all(|name| !name.is_empty()))?;
    Some(names)
}

impl<'a> Node<'a> {
    /// "The first property in block order that has this name and stands under exactly these node names."
    fn first(&self, names: &[&[u8]], wanted: &[u8]) -> Option<&Property<'a>> {
        match names {
            [] => self.properties.iter().find(|property| property.name == wanted),
            [name, below @ ..] => {
                let mut alike = self.nodes.iter().filter(|node| node.name == *name);
                alike.find_map(|node| node.first(below, wanted))
            }
        }
    }
}

/// The root of the tree that the data holds, where its grammar is kept.
pub fn read(data: &[u8]) -> Option<Node<'_>> {
    Reader::open(data)?.tree()
}

fn holds(holds: bool) -> Option<()> {
    holds.then_some(())
}

/// "Numbers are big-endian."
fn number(bytes: &[u8], offset: usize) -> Option<usize> {
    let four = bytes.get(offset..offset + 4)?;
    Some(u32::from_be_bytes(four.try_into().unwrap()) as usize)
}

fn is_zero(bytes: &[u8]) -> bool {
    bytes.iter().all(|byte| *byte == 0)
}

/// The bytes before the first zero byte, where there is one.
fn up_to_zero(bytes: &[u8]) -> Option<&[u8]> {
    let end = bytes.iter().position(|byte| *byte == 0)?;
    Some(&bytes[..end])
}

/// What is left to read of the structure block.
struct Reader<'a> {
    rest: &'a [u8],
    /// Where the structure block ends, from the data's start.
    end: usize,
    strings: &'a [u8],
}

impl<'a> Reader<'a> {
    /// The whole structure block, where the header and the blocks' places are right.
    fn open(data: &'a [u8]) -> Option<Reader<'a>> {
        let header = data.get(..HEADER)?;
        let field = |index: usize| number(header, 4 * index);
        let (magic, totalsize, structure, strings) = (field(0)?, field(1)?, field(2)?, field(3)?);
        let (reservation, version, last_compatible) = (field(4)?, field(5)?, field(6)?);
        // Field 7 is the boot cpu, which is not judged.
        let (strings_size, structure_size) = (field(8)?, field(9)?);
        holds(magic == MAGIC as usize)?;
        holds(version == VERSION as usize && last_compatible == LAST_COMPATIBLE as usize)?;
        holds(reservation.is_multiple_of(8))?;
        holds(structure.is_multiple_of(4) && structure_size.is_multiple_of(4))?;
        // "The blocks stand in the order header (40 bytes), reservation, structure, strings, without
        // overlap, within totalsize, and totalsize lies within the data."
        let end = structure + structure_size;
        holds(HEADER <= reservation && reservation <= structure)?;
        holds(end <= strings && strings + strings_size <= totalsize && totalsize <= data.len())?;
        holds(is_ended(&data[reservation..structure]))?;
        Some(Reader { rest: &data[structure..end], end, strings: &data[strings..strings + strings_size] })
    }

    /// Where the rest starts, from the data's start.
    fn offset(&self) -> usize {
        self.end - self.rest.len()
    }

    fn take(&mut self, count: usize) -> Option<&'a [u8]> {
        let (taken, rest) = self.rest.split_at_checked(count)?;
        self.rest = rest;
        Some(taken)
    }

    fn number(&mut self) -> Option<usize> {
        number(self.take(4)?, 0)
    }

    /// "NOP tokens may stand before any token."
    fn token(&mut self) -> Option<u32> {
        loop {
            let token = self.number()? as u32;
            if token != NOP {
                return Some(token);
            }
        }
    }

    /// "Padding to 4 is zero."
    fn padding(&mut self) -> Option<()> {
        let offset = self.offset();
        let padding = self.take(offset.next_multiple_of(4) - offset)?;
        holds(is_zero(padding))
    }

    /// "One root, its name empty, is followed by END, which fills the structure's size exactly."
    fn tree(mut self) -> Option<Node<'a>> {
        holds(self.token()? == BEGIN_NODE)?;
        let root = self.node(1)?;
        holds(root.name.is_empty())?;
        holds(self.token()? == END)?;
        holds(self.rest.is_empty())?;
        Some(root)
    }

    /// A node behind its first token: "properties come before subnodes".
    fn node(&mut self, nesting: usize) -> Option<Node<'a>> {
        holds(nesting <= DEEPEST)?;
        let name = self.node_name()?;
        let (mut properties, mut nodes) = (Vec::new(), Vec::new());
        let mut token = self.token()?;
        while token == PROPERTY {
            properties.push(self.property()?);
            token = self.token()?;
        }
        while token == BEGIN_NODE {
            nodes.push(self.node(nesting + 1)?);
            token = self.token()?;
        }
        holds(token == END_NODE)?;
        Some(Node { name, properties, nodes })
    }

    /// "Names end in a zero byte inside their block."
    fn node_name(&mut self) -> Option<&'a [u8]> {
        let name = up_to_zero(self.rest)?;
        self.take(name.len() + 1)?;
        self.padding()?;
        Some(name)
    }

    /// A property behind its token: the value's length, the name's offset in the strings, the value.
    fn property(&mut self) -> Option<Property<'a>> {
        let (length, name) = (self.number()?, self.number()?);
        let name = up_to_zero(self.strings.get(name..)?)?;
        let offset = self.offset();
        let value = self.take(length)?;
        self.padding()?;
        Some(Property { name, offset, value })
    }
}

/// "The block ends with the first pair whose 16 bytes are all 0, at or before the structure offset." The
/// bytes are those from the reservation offset to the structure offset.
fn is_ended(reservation: &[u8]) -> bool {
    reservation.chunks_exact(16).any(is_zero)
}

//! The grammar of document 02, request 6, said a second time: one loop over the tokens, with a row of open
//! nodes where the model calls itself, and a list of all properties in block order, each with its node's
//! whole path put together. It shares with the model the tokens' numbers alone.
//!
//! Each rule can be forgiven. A tree that is only then listed breaks this rule alone.

use crate::fdt_rules::Rule;
use crate::model_fdt::{BEGIN_NODE, END, END_NODE, NOP, PROPERTY};

/// A node: where its token stands, and the names from the root's, which is left out, down to its own.
#[derive(Clone, Debug, PartialEq)]
pub struct Stands<'a> {
    pub place: usize,
    pub names: Vec<&'a [u8]>,
    /// The one path that finds it: none where a name is empty or has a slash.
    pub path: Option<Vec<u8>>,
}

#[derive(Clone, Debug, PartialEq)]
pub struct Row<'a> {
    /// The index of its node.
    pub node: usize,
    pub name: &'a [u8],
    pub offset: usize,
    pub size: usize,
}

/// All nodes and all properties, in block order.
#[derive(Default)]
pub struct Listing<'a> {
    pub nodes: Vec<Stands<'a>>,
    pub rows: Vec<Row<'a>>,
}

impl<'a> Listing<'a> {
    pub fn first(&self, path: &[u8], name: &[u8]) -> Option<&Row<'a>> {
        self.rows.iter().find(|row| self.nodes[row.node].path.as_deref() == Some(path) && row.name == name)
    }
}

/// The path of a node of this name in a node of that path.
fn joined(parent: &Stands, name: &[u8]) -> Option<Vec<u8>> {
    let can_be_asked = !name.is_empty() && !name.contains(&b'/');
    match parent.path.as_deref().filter(|_| can_be_asked)? {
        b"/" => Some([b"/", name].concat()),
        path => Some([path, b"/", name].concat()),
    }
}

/// A node that is not ended yet.
struct Open {
    node: usize,
    has_subnode: bool,
}

struct Walk<'a> {
    data: &'a [u8],
    forgiven: &'a [Rule],
    /// The structure block, and what may be read of it.
    start: usize,
    end: usize,
    limit: usize,
    strings: &'a [u8],
    place: usize,
    open: Vec<Open>,
    root_is_ended: bool,
    listing: Listing<'a>,
}

/// All that stands in a tree, unless it breaks a rule that is not forgiven.
pub fn list<'a>(data: &'a [u8], forgiven: &'a [Rule]) -> Option<Listing<'a>> {
    Walk::new(data, forgiven)?.walk()
}

fn word(data: &[u8], place: usize) -> Option<usize> {
    let bytes = data.get(place..place.checked_add(4)?)?;
    Some(bytes.iter().fold(0, |sum, byte| sum * 256 + *byte as usize))
}

fn all_zero(bytes: &[u8]) -> bool {
    !bytes.iter().any(|byte| *byte > 0)
}

fn keeps(forgiven: &[Rule], rule: Rule, kept: bool) -> Option<()> {
    if kept || forgiven.contains(&rule) {
        Some(())
    } else {
        None
    }
}

/// Looks at one pair after the other, wherever they lead to.
fn reservation_end(data: &[u8], start: usize, forgiven: &[Rule]) -> Option<usize> {
    let is_end = |pair: &[u8]| match forgiven.contains(&Rule::BothHalves) {
        true => all_zero(&pair[..8]) || all_zero(&pair[8..]),
        false => all_zero(pair),
    };
    let step = if forgiven.contains(&Rule::StepsOf16) { 8 } else { 16 };
    let mut pair = start;
    while !is_end(data.get(pair..pair + 16)?) {
        pair += step;
    }
    Some(pair + 16)
}

impl<'a> Walk<'a> {
    fn new(data: &'a [u8], forgiven: &'a [Rule]) -> Option<Walk<'a>> {
        let keep = |rule, kept| keeps(forgiven, rule, kept);
        keep(Rule::HeaderInData, data.len() >= 40)?;
        let field = |place| word(data, place);
        let (total, start, strings, reservation) = (field(4)?, field(8)?, field(12)?, field(16)?);
        let (strings_size, size) = (field(32)?, field(36)?);
        let (end, strings_end) = (start + size, strings + strings_size);
        keep(Rule::Magic, data[..4] == [0xd0, 0x0d, 0xfe, 0xed])?;
        keep(Rule::Version, data[20..24] == [0, 0, 0, 17])?;
        keep(Rule::LastCompatible, data[24..28] == [0, 0, 0, 16])?;
        keep(Rule::TotalInData, total <= data.len())?;
        keep(Rule::StringsInTotal, strings_end <= total)?;
        keep(Rule::StructureBeforeStrings, end <= strings)?;
        keep(Rule::ReservationBehindHeader, reservation >= 40)?;
        keep(Rule::ReservationMultiple, reservation % 8 == 0)?;
        keep(Rule::StructureMultiple, start % 4 == 0)?;
        keep(Rule::SizeMultiple, size % 4 == 0)?;
        let before = reservation_end(data, reservation, forgiven);
        keep(Rule::ReservationEnds, before.is_some())?;
        keep(Rule::ReservationBeforeStructure, before.is_none_or(|before| before <= start))?;
        let beyond = forgiven.contains(&Rule::InsideStructure) || end > data.len();
        let limit = if beyond { data.len() } else { end };
        let strings = data.get(strings..strings_end.min(data.len())).unwrap_or(&[]);
        let (open, listing) = (Vec::new(), Listing::default());
        let (place, root_is_ended) = (start, false);
        Some(Walk { data, forgiven, start, end, limit, strings, place, open, root_is_ended, listing })
    }

    fn keep(&self, rule: Rule, kept: bool) -> Option<()> {
        keeps(self.forgiven, rule, kept)
    }

    /// What may be read from this place on.
    fn from(&self, place: usize) -> Option<&'a [u8]> {
        self.data.get(place..self.limit)
    }

    fn token(&self) -> Option<u32> {
        let word = word(self.from(self.place)?, 0)? as u32;
        if self.forgiven.contains(&Rule::WholeToken) {
            return Some(word & 0xff);
        }
        let swapped = self.forgiven.contains(&Rule::BigEndianTokens);
        Some(if swapped && word > 0xff { word.swap_bytes() } else { word })
    }

    fn walk(mut self) -> Option<Listing<'a>> {
        loop {
            if self.place == self.end && self.limit == self.end {
                self.keep(Rule::EndIsThere, false)?;
                return self.finish();
            }
            match self.token()? {
                BEGIN_NODE => self.begin_node()?,
                END_NODE => self.end_node()?,
                PROPERTY => self.property()?,
                NOP => self.place += 4,
                END => {
                    self.keep(Rule::EndFills, self.place + 4 == self.end)?;
                    return self.finish();
                }
                _ => {
                    self.keep(Rule::KnownToken, false)?;
                    self.place += 4;
                }
            }
        }
    }

    fn finish(self) -> Option<Listing<'a>> {
        self.keep(Rule::EndInsideNoNode, self.open.is_empty())?;
        self.keep(Rule::RootIsThere, !self.listing.nodes.is_empty())?;
        Some(self.listing)
    }

    /// Goes on behind so many bytes from `from`, and the padding there.
    fn step_over(&mut self, from: usize, count: usize, rule: Rule) -> Option<()> {
        let end = from + count;
        self.place = self.start + (end - self.start).div_ceil(4) * 4;
        self.keep(rule, all_zero(self.from(end)?.get(..self.place - end)?))
    }

    fn begin_node(&mut self) -> Option<()> {
        self.keep(Rule::OneRoot, !self.root_is_ended || !self.open.is_empty())?;
        self.keep(Rule::Nesting, self.open.len() < 16)?;
        let place = self.place;
        let text = self.from(place + 4)?;
        let name = text.split(|byte| *byte == 0).next()?;
        if name.len() == text.len() {
            return None;
        }
        let node = match self.open.last_mut() {
            None => {
                self.keep(Rule::RootName, name.is_empty())?;
                Stands { place, names: Vec::new(), path: Some(b"/".to_vec()) }
            }
            Some(open) => {
                open.has_subnode = true;
                let parent = &self.listing.nodes[open.node];
                let names = [&parent.names[..], &[name]].concat();
                Stands { place, names, path: joined(parent, name) }
            }
        };
        self.open.push(Open { node: self.listing.nodes.len(), has_subnode: false });
        self.listing.nodes.push(node);
        self.step_over(place + 4, name.len() + 1, Rule::NamePadding)
    }

    fn end_node(&mut self) -> Option<()> {
        self.keep(Rule::EndNodeInsideNode, !self.open.is_empty())?;
        self.root_is_ended |= self.open.len() == 1;
        self.open.pop();
        self.place += 4;
        Some(())
    }

    fn property(&mut self) -> Option<()> {
        self.keep(Rule::PropertyInsideNode, !self.open.is_empty())?;
        let numbers = self.from(self.place)?;
        let (length, name) = (word(numbers, 4)?, word(numbers, 8)?);
        let offset = self.place + 12;
        let is_inside = length <= self.limit - offset;
        self.keep(Rule::ValueInside, is_inside)?;
        let size = if is_inside { length } else { 0 };
        let name = self.property_name(name)?;
        if let Some(node) = self.open.last() {
            self.keep(Rule::PropertiesFirst, !node.has_subnode)?;
            self.listing.rows.push(Row { node: node.node, name, offset, size });
        }
        self.step_over(offset, size, Rule::ValuePadding)
    }

    fn property_name(&self, offset: usize) -> Option<&'a [u8]> {
        self.keep(Rule::NameOffset, offset < self.strings.len())?;
        let text = &self.strings[offset.min(self.strings.len())..];
        let name = text.split(|byte| *byte == 0).next()?;
        self.keep(Rule::NameEnds, name.len() < text.len() || text.is_empty())?;
        Some(name)
    }
}

//! Lists laid out by hand whose entries are bad on purpose (document 02, request 8). Wherever no other byte
//! has to be, in the entries' data, before the first one and behind used_size, there are bytes that would be
//! bad entries in every way.

use crate::demand_entry::Way;
use crate::lists::{restore_checksum, List};
use crate::lists_certificate::BASE;
use crate::model::{field, put_u32, Edition};

/// A void with a wrong header size, far too long, and no multiple of 8.
pub const LOOKS_BAD: [u8; 8] = [0, 0, 0, 7, 0xf1, 0xff, 0xff, 0xff];
/// Free bytes that the list may grow into, and bytes behind these.
const SPARE: usize = 32;
const REST: usize = 11;

/// The tag of a live entry, and of another one.
pub const TAG: u32 = 1;
pub const OTHER_TAG: u32 = 2;

/// An entry: the three numbers as they stand in its bytes, and how many bytes it was made over, which a fault
/// leaves alone.
#[derive(Clone, Copy, Debug)]
pub struct Piece {
    pub tag: u32,
    pub hdr_size: u8,
    pub data_size: u32,
    pub bytes: usize,
}

impl Piece {
    /// A sound one.
    pub fn new(tag: u32, hdr_size: u8, data_size: u32) -> Piece {
        let bytes = (hdr_size as usize + data_size as usize).next_multiple_of(8);
        Piece { tag, hdr_size, data_size, bytes }
    }

    pub fn with_hdr_size(self, hdr_size: u8) -> Piece {
        Piece { hdr_size, ..self }
    }

    pub fn with_data_size(self, data_size: u32) -> Piece {
        Piece { data_size, ..self }
    }

    fn is_void(&self) -> bool {
        self.tag == 0
    }
}

/// How a list is laid out, but for its entries.
#[derive(Clone, Copy, Debug)]
pub struct Plan {
    pub edition: Edition,
    pub version: u8,
    /// Of the list's header.
    pub hdr_size: u8,
    /// Of the header of each sound entry.
    pub entry_hdr_size: u8,
    pub flags: u32,
}

const fn current(version: u8, hdr_size: u8, entry_hdr_size: u8, flags: u32) -> Plan {
    Plan { edition: Edition::Current, version, hdr_size, entry_hdr_size, flags }
}

const fn old(version: u8, hdr_size: u8, entry_hdr_size: u8) -> Plan {
    Plan { edition: Edition::E09, version, hdr_size, entry_hdr_size, flags: 0 }
}

/// Lists of both editions, of version 1 and of later ones with longer headers; with has_checksum and without.
pub const PLANS: [Plan; 14] = [
    current(1, 24, 8, 1),
    current(1, 24, 8, 0),
    current(1, 24, 8, 0x8000_0003),
    current(1, 24, 8, 0x8000_0002),
    current(2, 24, 8, 1),
    current(2, 29, 9, 0),
    current(255, 24, 16, 0),
    current(255, 40, 24, 1),
    current(2, 255, 8, 1),
    old(1, 16, 8),
    old(2, 16, 8),
    old(2, 21, 9),
    old(255, 16, 16),
    old(255, 32, 24),
];

/// A list as it is lent, and where the entries stand that it was made with.
pub struct Made {
    pub list: List,
    pub places: Vec<usize>,
}

impl Plan {
    pub fn is_first_version(&self) -> bool {
        self.version == 1
    }

    pub fn live(&self, tag: u32, data_size: u32) -> Piece {
        Piece::new(tag, self.entry_hdr_size, data_size)
    }

    pub fn void(&self, data_size: u32) -> Piece {
        Piece::new(0, self.entry_hdr_size, data_size)
    }

    /// The list with these entries; the checksum is right.
    pub fn list(&self, row: &[Piece]) -> Made {
        let first = usize::from(self.hdr_size).next_multiple_of(8);
        let used = first + row.iter().map(|piece| piece.bytes).sum::<usize>();
        let mut area: Vec<u8> = LOOKS_BAD.into_iter().cycle().take(used + SPARE + REST).collect();
        self.put_header(&mut area, used);
        let mut places = Vec::new();
        let mut place = first;
        for piece in row {
            put_u32(&mut area, place, piece.tag);
            area[place + 3] = piece.hdr_size;
            put_u32(&mut area, place + 4, piece.data_size);
            places.push(place);
            place += piece.bytes;
        }
        restore_checksum(self.edition, &mut area);
        Made { list: List { area, base: BASE, edition: self.edition }, places }
    }

    fn put_header(&self, area: &mut [u8], used: usize) {
        put_u32(area, 0, self.edition.signature());
        area[field::VERSION] = self.version;
        area[field::HDR_SIZE] = self.hdr_size;
        area[field::ALIGNMENT] = 3;
        put_u32(area, field::USED_SIZE, used as u32);
        put_u32(area, field::TOTAL_SIZE, (used + SPARE) as u32);
        if self.edition == Edition::Current {
            put_u32(area, field::FLAGS, self.flags);
        }
    }

    /// Sound entries, so many, of every sort by turns from this one on.
    pub fn row(&self, length: usize, turn: usize) -> Vec<Piece> {
        let sorts =
            [self.live(TAG, 3), self.void(16), self.live(OTHER_TAG, 0), self.void(0), self.live(TAG, 8)];
        sorts.into_iter().cycle().skip(turn).take(length).collect()
    }

    /// Header sizes that no entry may have; those of later versions are under 8.
    fn bad_hdr_sizes(&self) -> &'static [u8] {
        if self.is_first_version() {
            &[7, 9, 0, 1, 16, 255]
        } else {
            &[7, 0, 1]
        }
    }

    /// The piece made bad in each way and in several at once, where so many bytes are left for it.
    pub fn bad(&self, piece: Piece, left: usize) -> Vec<Piece> {
        let mut bad = Vec::new();
        for hdr_size in self.bad_hdr_sizes() {
            let wrong = piece.with_hdr_size(*hdr_size);
            bad.extend([wrong, wrong.with_data_size(0xffff_ffff), wrong.with_data_size(4)]);
        }
        let sizes = bad_data_sizes(&piece, left);
        bad.extend(sizes.into_iter().map(|data_size| piece.with_data_size(data_size)));
        bad
    }

    /// The piece made bad in this way alone. It has at least 8 bytes of data, and so 8 left.
    pub fn bad_in(&self, piece: Piece, way: Way) -> Piece {
        match way {
            Way::HdrSize => piece.with_hdr_size(7),
            Way::Length => piece.with_data_size(0xffff_fff8),
            Way::VoidSize => Piece { tag: 0, ..piece.with_data_size(piece.data_size - 3) },
        }
    }
}

/// Data sizes that exceed what is left, by as little as can be or by so much that sums in 32 bits wrap; and,
/// in a void, those that are no multiple of 8.
fn bad_data_sizes(piece: &Piece, left: usize) -> Vec<u32> {
    let most = left as u32 - u32::from(piece.hdr_size);
    if piece.is_void() {
        let longer = (most + 1).next_multiple_of(8);
        let huge = [0xffff_fff8, 0xffff_fff0, 0x8000_0000, 0xffff_ffff, 0xffff_fff1];
        [1, 4, 7, 9, 12, 15, 17, longer, longer + 1].into_iter().chain(huge).collect()
    } else {
        vec![most + 1, most + 8, 0xffff_ffff, 0xffff_fff8, 0xffff_fff1, 0x7fff_ffff, 0x8000_0000]
    }
}

#[cfg(test)]
mod tests {
    use super::*;
    use crate::demand_entry::ways;
    use crate::{model, model09};

    /// The ways in which each of the entries is bad.
    fn ways_of(made: &Made) -> Vec<Vec<Way>> {
        made.places.iter().map(|place| ways(&made.list.area, *place)).collect()
    }

    fn check(made: &Made) -> (u32, u32) {
        let List { area, base, edition } = &made.list;
        let checked = match edition {
            Edition::Current => model::check(area, *base),
            Edition::E09 => model09::check(area, *base),
        };
        (checked.number, checked.at)
    }

    #[test]
    fn rows_are_sound() {
        for plan in PLANS {
            for (length, turn) in [(0, 0), (1, 0), (1, 1), (2, 3), (3, 2), (5, 4), (7, 0)] {
                assert_eq!(check(&plan.list(&plan.row(length, turn))), (0, 0));
            }
        }
    }

    /// Each of them is bad, in each of the seven unions of ways, and the place is that of its own.
    #[test]
    fn bad_pieces_are_bad() {
        for plan in PLANS {
            let mut met = Vec::new();
            for index in 0..5 {
                let row = plan.row(5, 0);
                let left = row[index..].iter().map(|piece| piece.bytes).sum();
                for bad in plan.bad(row[index], left) {
                    let mut row = row.clone();
                    row[index] = bad;
                    let made = plan.list(&row);
                    let ways = ways_of(&made);
                    assert_eq!(check(&made), (model::ENTRY, made.places[index] as u32), "{plan:?} {bad:?}");
                    assert!(ways.iter().enumerate().all(|(at, ways)| ways.is_empty() == (at != index)));
                    met.push(ways[index].clone());
                }
            }
            met.sort_by_key(|ways| format!("{ways:?}"));
            met.dedup();
            assert_eq!(met.len(), 7, "{plan:?} {met:?}");
        }
    }

    #[test]
    fn one_way_alone() {
        for plan in PLANS {
            for way in [Way::HdrSize, Way::Length, Way::VoidSize] {
                for piece in [plan.live(TAG, 8), plan.void(16)] {
                    let made = plan.list(&[plan.bad_in(piece, way)]);
                    assert_eq!(ways_of(&made), [[way]]);
                }
            }
        }
    }
}

//! Large lists, laid out byte by byte: document 02, request 7.

use oracle::certificate_values;
use oracle::lists::{restore_checksum, used_size, List};
use oracle::lists_certificate::entry;
use oracle::model::{field, put_u32, Edition, ADDRESS_END, CERTIFICATE_TAG};
use oracle::rng::Rng;

/// The lengths that each call is made with: the first that was too long before, 1 MiB, the limit and
/// both beside it.
pub const LENGTHS: [usize; 5] = [65_537, 1_048_576, 16_777_215, 16_777_216, 16_777_217];
/// The longest area and the longest target.
pub const LONGEST: usize = 16_777_216;
/// So many entries without data fill 16 MiB.
pub const MANY: usize = 2_097_149;

/// Tags of the entries laid out here.
pub const SMALL: u32 = 7;
pub const LARGE: u32 = 8;
/// A tag that none of them has.
pub const ABSENT: u32 = 9;
pub const BASE: u64 = 0x4000_0000;

/// How a list is laid out, but for its entries.
#[derive(Clone, Copy)]
pub struct Plan {
    pub edition: Edition,
    pub version: u8,
    pub has_checksum: bool,
    pub alignment: u8,
    /// Of the area; the list may grow to fill it.
    pub len: usize,
    pub base: u64,
}

impl Plan {
    /// A current list of version 1 with a checksum.
    pub fn current(len: usize) -> Plan {
        let edition = Edition::Current;
        Plan { edition, version: 1, has_checksum: true, alignment: 3, len, base: BASE }
    }

    pub fn old(len: usize) -> Plan {
        Plan { edition: Edition::E09, ..Plan::current(len) }
    }

    /// Later versions have a longer header here.
    fn hdr_size(&self) -> usize {
        let longer = if self.version == 1 { 0 } else { 5 };
        self.edition.hdr_size() + longer
    }

    /// How many bytes of entries there can be.
    pub fn room(&self) -> usize {
        self.len / 8 * 8 - self.hdr_size().next_multiple_of(8)
    }

    /// The list with these entries, whose bytes it takes; no byte behind them is 0.
    pub fn list(&self, entries: &[u8]) -> List {
        let mut area = vec![0x3c; self.hdr_size().next_multiple_of(8)];
        put_u32(&mut area, 0, self.edition.signature());
        area[field::VERSION] = self.version;
        area[field::HDR_SIZE] = self.hdr_size() as u8;
        area[field::ALIGNMENT] = self.alignment;
        put_u32(&mut area, field::TOTAL_SIZE, (self.len / 8 * 8) as u32);
        if self.edition == Edition::Current {
            put_u32(&mut area, field::FLAGS, u32::from(self.has_checksum));
        }
        area.reserve_exact(self.len - area.len());
        area.extend_from_slice(entries);
        let used = area.len() as u32;
        put_u32(&mut area, field::USED_SIZE, used);
        area.resize(self.len, 0xa5);
        restore_checksum(self.edition, &mut area);
        List { area, base: self.base, edition: self.edition }
    }
}

/// The highest base of an area of so many bytes.
pub fn highest_base(len: usize) -> u64 {
    (ADDRESS_END as u64 - len as u64) / 8 * 8
}

/// Entries without data over so many bytes; each has the tag that its index gives.
pub fn without_data(bytes: usize, tag: impl Fn(usize) -> u32) -> Vec<u8> {
    let mut entries = vec![0; bytes];
    for (index, entry) in entries.chunks_exact_mut(8).enumerate() {
        put_u32(entry, 0, tag(index));
        entry[3] = 8;
    }
    entries
}

/// An entry over just so many bytes, its data without rule.
pub fn one_entry(tag: u32, bytes: usize) -> Vec<u8> {
    entry_of(tag, bytes - 8)
}

/// An entry with data of so many bytes, without rule; its padding is not 0.
pub fn entry_of(tag: u32, length: usize) -> Vec<u8> {
    entry(tag, 8, &noise(length))
}

/// So many bytes without rule, the same ones each time.
pub fn noise(length: usize) -> Vec<u8> {
    Rng::new(length as u64).bytes(length)
}

/// The entry of a certificate that passes.
pub fn certificate() -> Vec<u8> {
    entry(CERTIFICATE_TAG, 8, &certificate_values::stated(1).bytes())
}

/// Entries of every sort over just so many bytes: a certificate, voids alone and side by side, small ones,
/// and a large one that takes the rest; a void at the end, if `ends_in_void`.
pub fn mixture(bytes: usize, ends_in_void: bool) -> Vec<u8> {
    let void = |length: usize| entry(0, 8, &vec![0x77; length]);
    let small = |data: &[u8]| entry(SMALL, 8, data);
    let front = [small(&[1, 2, 3]), void(24), certificate(), void(0), void(8), small(&[])].concat();
    let last = if ends_in_void { void(40) } else { small(&[4; 13]) };
    let middle = bytes - front.len() - last.len();
    [front, one_entry(LARGE, middle), last].concat()
}

/// How many entries an accepted list has, and the length of the longest data of a live one.
pub fn entries_of(area: &[u8]) -> (usize, usize) {
    let word = |place: usize| u32::from_le_bytes(area[place..place + 4].try_into().unwrap());
    let used = used_size(area) as usize;
    let mut place = usize::from(area[field::HDR_SIZE]).next_multiple_of(8);
    let (mut entries, mut longest) = (0, 0);
    while place < used {
        let data_size = word(place + 4) as usize;
        if word(place) & 0xff_ffff != 0 {
            longest = data_size.max(longest);
        }
        place += (usize::from(area[place + 3]) + data_size).next_multiple_of(8);
        entries += 1;
    }
    (entries, longest)
}

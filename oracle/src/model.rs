//! The seven jobs of document 01, each sentence written down plainly; the tag table as document 02,
//! requests 2 and 5, amends it, the longest area and the highest alignment as request 7 does, and what a
//! refusal answers as request 8 does. The checks 1 to 8, check and find serve lists of edition 0.9 too
//! (document 02, request 1); `model09` has what is theirs alone, `model_tidy` the job of request 3, and
//! `model_certificate` that of request 5.
//!
//! "All sums here are whole-number sums; none wraps": every sum is made in u128, where the largest
//! address and the largest length together stay far below the limit.

use std::ops::RangeInclusive;

// The numbers of "When a call is turned away".
pub const AREA: u32 = 1;
pub const SHORT: u32 = 2;
pub const SIGNATURE: u32 = 3;
pub const VERSION: u32 = 4;
pub const READONLY: u32 = 5;
pub const SIZES: u32 = 6;
pub const CHECKSUM: u32 = 7;
pub const ENTRY: u32 = 8;
pub const TAG: u32 = 9;
pub const SHAPE: u32 = 10;
pub const ALIGN: u32 = 11;
pub const TARGET: u32 = 12;
pub const NONE: u32 = 13;
pub const ROOM: u32 = 14;

/// What turns a call away: its number, and "the offset of the first entry that breaks a rule"; "other
/// refusals answer 0 there" (document 02, request 8).
#[derive(Clone, Copy, Debug, PartialEq, Eq)]
pub(crate) struct Refusal {
    pub(crate) number: u32,
    pub(crate) at: u32,
}

/// Every refusal but that of the walk.
impl From<u32> for Refusal {
    fn from(number: u32) -> Refusal {
        Refusal { number, at: 0 }
    }
}

/// Every answer holds the number, 0 or that of the refusal, and says where the bad entry is.
pub trait Answer: Copy + PartialEq + std::fmt::Debug {
    fn number(&self) -> u32;
    fn at(&self) -> u32;
}

/// What check answers.
#[repr(C)]
#[derive(Clone, Copy, Debug, Default, PartialEq, Eq)]
pub struct Checked {
    pub number: u32,
    pub version: u32,
    pub used: u32,
    pub total: u32,
    pub alignment: u32,
    pub live: u32,
    pub voids: u32,
    pub at: u32,
}

/// What find answers.
#[repr(C)]
#[derive(Clone, Copy, Debug, Default, PartialEq, Eq)]
pub struct Found {
    pub number: u32,
    pub offset: u32,
    pub size: u32,
    pub at: u32,
}

/// What an edit answers.
#[repr(C)]
#[derive(Clone, Copy, Debug, Default, PartialEq, Eq)]
pub struct Done {
    pub number: u32,
    pub value: u32,
    pub at: u32,
}

impl Answer for Checked {
    fn number(&self) -> u32 {
        self.number
    }

    fn at(&self) -> u32 {
        self.at
    }
}

impl Answer for Found {
    fn number(&self) -> u32 {
        self.number
    }

    fn at(&self) -> u32 {
        self.at
    }
}

impl Answer for Done {
    fn number(&self) -> u32 {
        self.number
    }

    fn at(&self) -> u32 {
        self.at
    }
}

/// Offsets of the header's fields.
pub mod field {
    pub const CHECKSUM: usize = 4;
    pub const VERSION: usize = 5;
    pub const HDR_SIZE: usize = 6;
    pub const ALIGNMENT: usize = 7;
    pub const USED_SIZE: usize = 8;
    pub const TOTAL_SIZE: usize = 12;
    pub const FLAGS: usize = 16;
    pub const RESERVED: usize = 20;
}

pub const ADDRESS_END: u128 = 1 << 48;

// Document 02, request 7: "L and the target length may be up to 16 MiB (16,777,216), and alignment up to
// 21. AREA, SIZES, ALIGN and TARGET change accordingly."

/// The most bytes of an area (AREA) and of a target (TARGET).
pub const LONGEST_AREA: usize = 16_777_216;
/// The highest alignment of a list (SIZES) and the highest exponent of an aligned add (ALIGN).
pub const HIGHEST_ALIGNMENT: u32 = 21;

/// The edition that a list is laid out by. The first sixteen bytes hold the same fields in both;
/// 0.9 calls used_size `size` and total_size `max_size`, and has no more than these.
#[derive(Clone, Copy, Debug, PartialEq, Eq)]
pub enum Edition {
    /// Source 001, which document 01 builds.
    Current,
    /// Source 000, edition 0.9.
    E09,
}

impl Edition {
    pub fn signature(self) -> u32 {
        match self {
            Edition::Current => 0x4a0f_b10b,
            Edition::E09 => 0x006e_d0ff,
        }
    }

    /// The bytes of a header of version 1: "with 16 for 24".
    pub fn hdr_size(self) -> usize {
        match self {
            Edition::Current => 24,
            Edition::E09 => 16,
        }
    }
}

// "The header's own numbers: 24 bytes, version 1, alignment 3 when new, smallest entry header 8."
const TL_VERSION: u8 = 1;
const NEW_ALIGNMENT: u8 = 3;
const TE_HDR_SIZE: u8 = 8;

const VOID_TAG: u32 = 0;
pub const EVENT_LOG_TAG: u32 = 5;
pub const CERTIFICATE_TAG: u32 = 0xff_f010;
const HAS_CHECKSUM: u32 = 1;

pub fn align8(x: u128) -> u128 {
    x.div_ceil(8) * 8
}

pub(crate) fn round_down8(x: u128) -> u128 {
    x / 8 * 8
}

// "Numbers are little-endian."

pub(crate) fn read_u32(area: &[u8], offset: usize) -> u32 {
    u32::from_le_bytes(area[offset..offset + 4].try_into().unwrap())
}

pub fn put_u32(area: &mut [u8], offset: usize, value: u32) {
    area[offset..offset + 4].copy_from_slice(&value.to_le_bytes());
}

fn xor(bytes: &[u8]) -> u8 {
    bytes.iter().fold(0, |sum, byte| sum ^ byte)
}

/// "The sum modulo 256."
fn sum(bytes: &[u8]) -> u8 {
    bytes.iter().fold(0, |sum, byte| sum.wrapping_add(*byte))
}

pub(crate) fn refuse_if(refused: bool, number: u32) -> Result<(), u32> {
    if refused {
        Err(number)
    } else {
        Ok(())
    }
}

/// "An area is usable when its base is a multiple of 8, base + L is at most 2^48, and L is at most"
/// 16,777,216, as amended by request 7.
pub(crate) fn usable(len: usize, base: u64) -> bool {
    base.is_multiple_of(8) && within_limits(len, base)
}

/// The part of the rule above that the target of a relocation or of a conversion must keep too.
pub(crate) fn within_limits(len: usize, base: u64) -> bool {
    base as u128 + len as u128 <= ADDRESS_END && len <= LONGEST_AREA
}

/// SIZES: "alignment is outside 3 to" 21, and ALIGN: "aligned add with exponent outside 3 to" 21, as amended
/// by request 7, read the other way round.
pub(crate) fn alignment_holds(exponent: u32) -> bool {
    (3..=HIGHEST_ALIGNMENT).contains(&exponent)
}

/// The fields of the list's header that both editions have.
pub(crate) struct Header {
    edition: Edition,
    signature: u32,
    checksum: u8,
    version: u8,
    hdr_size: u128,
    pub(crate) alignment: u8,
    pub(crate) used_size: u128,
    total_size: u128,
}

impl Header {
    fn read(area: &[u8], edition: Edition) -> Header {
        Header {
            edition,
            signature: read_u32(area, 0),
            checksum: area[field::CHECKSUM],
            version: area[field::VERSION],
            hdr_size: area[field::HDR_SIZE] as u128,
            alignment: area[field::ALIGNMENT],
            used_size: read_u32(area, field::USED_SIZE) as u128,
            total_size: read_u32(area, field::TOTAL_SIZE) as u128,
        }
    }

    /// "The first entry is at align8(header hdr_size)."
    fn first_place(&self) -> u128 {
        align8(self.hdr_size)
    }

    /// The row SIZES, read the other way round.
    fn sizes_hold(&self, len: usize) -> bool {
        let least = self.edition.hdr_size() as u128;
        let hdr_size_holds = match self.version {
            1 => self.hdr_size == least,
            _ => self.hdr_size >= least,
        };
        hdr_size_holds
            && alignment_holds(self.alignment as u32)
            && self.used_size.is_multiple_of(8)
            && self.total_size.is_multiple_of(8)
            && self.used_size >= self.first_place()
            && self.used_size <= self.total_size
            && self.total_size <= len as u128
    }

    /// "With has_checksum the xor of all used bytes, checksum byte included, is 0. Without it the
    /// checksum byte is 0." In edition 0.9 it is "equal to the sum modulo 256 of the other bytes of
    /// `size`", always.
    fn checksum_holds(&self, area: &[u8]) -> bool {
        let used = &area[..self.used_size as usize];
        match self.edition {
            Edition::Current if has_checksum(area) => xor(used) == 0,
            Edition::Current => self.checksum == 0,
            Edition::E09 => {
                let (before, behind) = (&used[..field::CHECKSUM], &used[field::CHECKSUM + 1..]);
                self.checksum == sum(before).wrapping_add(sum(behind))
            }
        }
    }

    /// The row ENTRY, read the other way round.
    fn entry_holds(&self, entry: &Entry) -> bool {
        let hdr_size_holds = match self.version {
            1 => entry.hdr_size == 8,
            _ => entry.hdr_size >= 8,
        };
        hdr_size_holds
            && entry.stretch() <= self.used_size - entry.place
            && (entry.is_live() || entry.data_size.is_multiple_of(8))
    }

    /// Walks from the first entry; "the list ends where the place equals used_size". "The walk's refusal is
    /// to carry the offset of the first entry that breaks a rule."
    fn walk(&self, area: &[u8]) -> Result<Vec<Entry>, Refusal> {
        let mut entries = Vec::new();
        let mut place = self.first_place();
        while place < self.used_size {
            let entry = Entry::read(area, place);
            if !self.entry_holds(&entry) {
                return Err(Refusal { number: ENTRY, at: place as u32 });
            }
            place += entry.stretch();
            entries.push(entry);
        }
        Ok(entries)
    }

    fn room(&self) -> u128 {
        self.total_size - self.used_size
    }
}

/// "An entry is tag (3 bytes), hdr_size (1), data_size (4), then data."
pub(crate) struct Entry {
    pub(crate) place: u128,
    pub(crate) tag_id: u32,
    hdr_size: u128,
    pub(crate) data_size: u128,
}

impl Entry {
    fn read(area: &[u8], place: u128) -> Entry {
        let start = place as usize;
        Entry {
            place,
            tag_id: read_u32(area, start) & 0xff_ffff,
            hdr_size: area[start + 3] as u128,
            data_size: read_u32(area, start + 4) as u128,
        }
    }

    /// "The next [entry is] at align8(entry hdr_size + data_size) further on."
    pub(crate) fn stretch(&self) -> u128 {
        align8(self.hdr_size + self.data_size)
    }

    /// "Tag 0 is a void; every other entry is live."
    pub(crate) fn is_live(&self) -> bool {
        self.tag_id != VOID_TAG
    }

    pub(crate) fn data_offset(&self) -> u128 {
        self.place + self.hdr_size
    }
}

/// A list that has passed checks 1 to 8.
pub(crate) struct List {
    pub(crate) header: Header,
    pub(crate) entries: Vec<Entry>,
}

impl List {
    /// "All other calls make 1 to 8 on the given list", in the order of the numbers.
    fn open(edition: Edition, area: &[u8], base: u64, edits: bool) -> Result<List, Refusal> {
        refuse_if(!usable(area.len(), base), AREA)?;
        refuse_if(area.len() < edition.hdr_size(), SHORT)?;
        let header = Header::read(area, edition);
        refuse_if(header.signature != edition.signature(), SIGNATURE)?;
        refuse_if(header.version == 0, VERSION)?;
        refuse_if(edits && header.version > 1, READONLY)?;
        refuse_if(!header.sizes_hold(area.len()), SIZES)?;
        refuse_if(!header.checksum_holds(area), CHECKSUM)?;
        let entries = header.walk(area)?;
        Ok(List { header, entries })
    }

    pub(crate) fn open_to_read(edition: Edition, area: &[u8], base: u64) -> Result<List, Refusal> {
        List::open(edition, area, base, false)
    }

    /// READONLY is for "add, add aligned, void or relocate", for a conversion and for tidy.
    pub(crate) fn open_to_edit(edition: Edition, area: &[u8], base: u64) -> Result<List, Refusal> {
        List::open(edition, area, base, true)
    }

    fn count(&self, live: bool) -> u32 {
        self.entries.iter().filter(|entry| entry.is_live() == live).count() as u32
    }

    /// "An occurrence n counted from 0 in list order"; NONE where there is "no such occurrence of
    /// the tag".
    fn occurrence(&self, tag: u32, n: u64) -> Result<&Entry, u32> {
        let mut of_tag = self.entries.iter().filter(|entry| entry.tag_id == tag);
        usize::try_from(n).ok().and_then(|n| of_tag.nth(n)).ok_or(NONE)
    }

    /// "The first void in list order with data_size v at least n."
    fn first_void_for(&self, n: u128) -> Option<&Entry> {
        self.entries.iter().find(|entry| !entry.is_live() && entry.data_size >= n)
    }
}

/// TAG: "tag is 0 or over 0xffffff".
fn check_tag(tag: u32) -> Result<(), u32> {
    refuse_if(tag == VOID_TAG || tag > 0xff_ffff, TAG)
}

/// TAG: "for both adds also 0x800000 to 0xffefff".
fn check_new_tag(tag: u32) -> Result<(), u32> {
    check_tag(tag)?;
    refuse_if((0x80_0000..=0xff_efff).contains(&tag), TAG)
}

/// "What a known tag may carry"; "a tag not listed may carry any length". Document 02, request 2, for
/// tag 5: "a length under 4 is SHAPE from now on; 4 is accepted"; request 5: "tag 0xfff010 carries exactly
/// 56 bytes", and "adds of this tag with another length are SHAPE".
pub fn lengths(tag: u32) -> RangeInclusive<usize> {
    match tag {
        EVENT_LOG_TAG => 4..=usize::MAX,
        6 => 12..=12,
        0x100 => 8..=8,
        0x104 => 16..=16,
        CERTIFICATE_TAG => 56..=56,
        _ => 0..=usize::MAX,
    }
}

/// SHAPE: "an add's data length breaks the tag table".
fn check_shape(tag: u32, data: &[u8]) -> Result<(), u32> {
    refuse_if(!lengths(tag).contains(&data.len()), SHAPE)
}

fn put_entry_header(area: &mut [u8], place: u128, tag_id: u32, data_size: u128) {
    let start = place as usize;
    put_u32(area, start, tag_id);
    area[start + 3] = TE_HDR_SIZE;
    put_u32(area, start + 4, data_size as u32);
}

/// The bytes a new entry covers: "the entry covers align8(8 + n) bytes".
fn cover(n: u128) -> u128 {
    align8(TE_HDR_SIZE as u128 + n)
}

/// Writes an entry over its whole cover; "padding bytes are written 0".
fn put_entry(area: &mut [u8], place: u128, tag_id: u32, data: &[u8]) {
    let end = place + cover(data.len() as u128);
    area[place as usize..end as usize].fill(0);
    put_entry_header(area, place, tag_id, data.len() as u128);
    let data_start = place as usize + TE_HDR_SIZE as usize;
    area[data_start..data_start + data.len()].copy_from_slice(data);
}

/// Writes a void whose data is 0.
pub(crate) fn put_zero_void(area: &mut [u8], place: u128, data_size: u128) {
    let end = place + cover(data_size);
    area[place as usize..end as usize].fill(0);
    put_entry_header(area, place, VOID_TAG, data_size);
}

fn has_checksum(list: &[u8]) -> bool {
    read_u32(list, field::FLAGS) & HAS_CHECKSUM != 0
}

/// "After every edit the checksum byte is the one that the rule above gives for the whole result."
pub(crate) fn put_checksum(list: &mut [u8]) {
    list[field::CHECKSUM] = 0;
    if has_checksum(list) {
        let used = read_u32(list, field::USED_SIZE) as usize;
        list[field::CHECKSUM] = xor(&list[..used]);
    }
}

/// "An accepted call answers number 0. A refusal answers its number with every other number in the
/// answer 0", amended by request 8 "for refusal 8 only".
pub(crate) fn done(result: Result<u128, Refusal>) -> Done {
    match result {
        Ok(value) => Done { value: value as u32, ..Done::default() },
        Err(Refusal { number, at }) => Done { number, at, ..Done::default() },
    }
}

/// "Check answers version, used, total, alignment, and the numbers of live and void entries."
pub fn check(area: &[u8], base: u64) -> Checked {
    check_by(Edition::Current, area, base)
}

pub(crate) fn check_by(edition: Edition, area: &[u8], base: u64) -> Checked {
    match List::open_to_read(edition, area, base) {
        Err(Refusal { number, at }) => Checked { number, at, ..Checked::default() },
        Ok(list) => Checked {
            number: 0,
            version: list.header.version as u32,
            used: list.header.used_size as u32,
            total: list.header.total_size as u32,
            alignment: list.header.alignment as u32,
            live: list.count(true),
            voids: list.count(false),
            at: 0,
        },
    }
}

/// "Find takes a tag and an occurrence n. It answers the data's offset and size."
pub fn find(area: &[u8], base: u64, tag: u32, n: u64) -> Found {
    find_by(Edition::Current, area, base, tag, n)
}

pub(crate) fn find_by(edition: Edition, area: &[u8], base: u64, tag: u32, n: u64) -> Found {
    match try_find(edition, area, base, tag, n) {
        Ok((offset, size)) => Found { offset: offset as u32, size: size as u32, ..Found::default() },
        Err(Refusal { number, at }) => Found { number, at, ..Found::default() },
    }
}

fn try_find(edition: Edition, area: &[u8], base: u64, tag: u32, n: u64) -> Result<(u128, u128), Refusal> {
    let list = List::open_to_read(edition, area, base)?;
    check_tag(tag)?;
    let entry = list.occurrence(tag, n)?;
    Ok((entry.data_offset(), entry.data_size))
}

/// "Create writes the header, used 24, total L rounded down to a multiple of 8, and zero in every
/// further byte of the area." It "makes checks 1 and 2 only" and "answers the total".
pub fn create(area: &mut [u8], base: u64, has_checksum: bool) -> Done {
    done(try_create(area, base, has_checksum))
}

fn try_create(area: &mut [u8], base: u64, has_checksum: bool) -> Result<u128, Refusal> {
    refuse_if(!usable(area.len(), base), AREA)?;
    refuse_if(area.len() <= 24, SHORT)?;
    area.fill(0);
    put_new_header(area, has_checksum);
    put_checksum(area);
    Ok(round_down8(area.len() as u128))
}

/// Writes create's header, but for the checksum, into an area of zeros that holds it.
pub(crate) fn put_new_header(area: &mut [u8], has_checksum: bool) {
    let hdr_size = Edition::Current.hdr_size();
    let total = round_down8(area.len() as u128);
    put_u32(area, 0, Edition::Current.signature());
    area[field::VERSION] = TL_VERSION;
    area[field::HDR_SIZE] = hdr_size as u8;
    area[field::ALIGNMENT] = NEW_ALIGNMENT;
    put_u32(area, field::USED_SIZE, hdr_size as u32);
    put_u32(area, field::TOTAL_SIZE, total as u32);
    put_u32(area, field::FLAGS, if has_checksum { HAS_CHECKSUM } else { 0 });
}

/// "Add takes tag, data of n bytes, and whether voids may be used"; it answers "the new data's
/// offset".
pub fn add(area: &mut [u8], base: u64, tag: u32, data: &[u8], use_voids: bool) -> Done {
    done(try_add(area, base, tag, data, use_voids))
}

fn try_add(area: &mut [u8], base: u64, tag: u32, data: &[u8], use_voids: bool) -> Result<u128, Refusal> {
    let list = List::open_to_edit(Edition::Current, area, base)?;
    check_new_tag(tag)?;
    check_shape(tag, data)?;
    let void = if use_voids { list.first_void_for(data.len() as u128) } else { None };
    let place = match void {
        Some(void) => add_in_void(area, void, tag, data),
        None => add_at_end(area, &list.header, tag, data)?,
    };
    put_checksum(area);
    Ok(place + TE_HDR_SIZE as u128)
}

/// "When v - align8(n) is 8 or more, a void of data_size v - align8(n) - 8 follows; only its eight
/// header bytes are written."
fn add_in_void(area: &mut [u8], void: &Entry, tag: u32, data: &[u8]) -> u128 {
    let n = data.len() as u128;
    put_entry(area, void.place, tag, data);
    let rest = void.data_size - align8(n);
    if rest >= 8 {
        put_entry_header(area, void.place + cover(n), VOID_TAG, rest - 8);
    }
    void.place
}

/// "Otherwise the entry goes at used_size, which grows by align8(8 + n). ROOM: no allowed void
/// serves and total - used is under align8(8 + n)."
fn add_at_end(area: &mut [u8], header: &Header, tag: u32, data: &[u8]) -> Result<u128, u32> {
    let cover = cover(data.len() as u128);
    refuse_if(header.room() < cover, ROOM)?;
    put_entry(area, header.used_size, tag, data);
    put_u32(area, field::USED_SIZE, (header.used_size + cover) as u32);
    Ok(header.used_size)
}

/// "Add aligned never uses a void"; it answers "the new data's offset".
pub fn add_aligned(area: &mut [u8], base: u64, tag: u32, data: &[u8], exponent: u32) -> Done {
    done(try_add_aligned(area, base, tag, data, exponent))
}

fn try_add_aligned(
    area: &mut [u8],
    base: u64,
    tag: u32,
    data: &[u8],
    exponent: u32,
) -> Result<u128, Refusal> {
    let header = List::open_to_edit(Edition::Current, area, base)?.header;
    check_new_tag(tag)?;
    check_shape(tag, data)?;
    refuse_if(!alignment_holds(exponent), ALIGN)?;
    let padding = padding_void(base, header.used_size, exponent);
    let place = header.used_size + padding.map_or(0, cover);
    let used = place + cover(data.len() as u128);
    // "ROOM: both together exceed total - used; then neither is written."
    refuse_if(used - header.used_size > header.room(), ROOM)?;
    if let Some(data_size) = padding {
        put_zero_void(area, header.used_size, data_size);
    }
    put_entry(area, place, tag, data);
    put_u32(area, field::USED_SIZE, used as u32);
    // "The alignment field becomes the larger of itself and a."
    area[field::ALIGNMENT] = header.alignment.max(exponent as u8);
    put_checksum(area);
    Ok(place + TE_HDR_SIZE as u128)
}

/// "Let p be (base + used + 8) modulo 2^a. If p is not 0, a void of data_size 2^a - p - 8, data 0,
/// is appended first." The base and used_size are multiples of 8, and so is p.
fn padding_void(base: u64, used_size: u128, exponent: u32) -> Option<u128> {
    let boundary = 1u128 << exponent;
    match (base as u128 + used_size + 8) % boundary {
        0 => None,
        p => Some(boundary - p - 8),
    }
}

/// "Void turns occurrence n of a tag into a void of data_size align8(old data_size). Its data and
/// old padding become 0. Used and alignment stay." It answers "the voided entry's offset".
pub fn void(area: &mut [u8], base: u64, tag: u32, n: u64) -> Done {
    done(try_void(area, base, tag, n))
}

fn try_void(area: &mut [u8], base: u64, tag: u32, n: u64) -> Result<u128, Refusal> {
    let list = List::open_to_edit(Edition::Current, area, base)?;
    check_tag(tag)?;
    let entry = list.occurrence(tag, n)?;
    put_zero_void(area, entry.place, align8(entry.data_size));
    put_checksum(area);
    Ok(entry.place)
}

/// "Relocate reads one area and writes a target"; it answers "the shift".
pub fn relocate(area: &[u8], base: u64, target: &mut [u8], target_base: u64) -> Done {
    done(try_relocate(area, base, target, target_base))
}

fn try_relocate(area: &[u8], base: u64, target: &mut [u8], target_base: u64) -> Result<u128, Refusal> {
    let header = List::open_to_edit(Edition::Current, area, base)?.header;
    refuse_if(!within_limits(target.len(), target_base), TARGET)?;
    let shift = new_base(base, target_base, header.alignment) - target_base as u128;
    refuse_if(shift + header.used_size > target.len() as u128, ROOM)?;
    let used = header.used_size as usize;
    // "The used bytes go to the shift; every other target byte is 0."
    target.fill(0);
    let result = &mut target[shift as usize..];
    result[..used].copy_from_slice(&area[..used]);
    // "Total becomes (target length - shift) rounded down to a multiple of 8; the checksum follows."
    let total = round_down8(result.len() as u128);
    put_u32(result, field::TOTAL_SIZE, total as u32);
    put_checksum(result);
    Ok(shift)
}

/// "The lowest address at or above the target base that equals the old base modulo 2^alignment."
fn new_base(base: u64, target_base: u64, alignment: u8) -> u128 {
    let boundary = 1u128 << alignment;
    let target_base = target_base as u128;
    let candidate = target_base / boundary * boundary + base as u128 % boundary;
    if candidate >= target_base {
        candidate
    } else {
        candidate + boundary
    }
}

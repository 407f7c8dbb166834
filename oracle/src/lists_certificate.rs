//! Lists that hold certificates: ones laid out by hand to carry one certificate after the other, and what
//! a list from a seed gets of them.

use crate::certificate_values as values;
use crate::lists::{laid_out_entry, longer_header, restore_checksum, rows, List, Row};
use crate::model::{field, put_u32, Edition, CERTIFICATE_TAG};
use crate::model_certificate::LENGTH;
use crate::rng::Rng;

/// 4096 below a boundary of every alignment.
pub const BASE: u64 = 0x1f_f000;
pub const HAS_CHECKSUM: u32 = 1;

/// An entry with this data; the rest of its header and its padding are not 0.
pub fn entry(tag: u32, hdr_size: u8, data: &[u8]) -> Vec<u8> {
    let mut entry = vec![0xc3; hdr_size as usize];
    put_u32(&mut entry, 0, tag);
    entry[3] = hdr_size;
    put_u32(&mut entry, 4, data.len() as u32);
    entry.extend(data);
    entry.resize(entry.len().next_multiple_of(8), 0x99);
    entry
}

/// A list with these entries, and these bytes behind them that it may grow into.
pub fn list(version: u8, hdr_size: u8, flags: u32, entries: &[Vec<u8>], behind: &[u8]) -> List {
    let mut area = vec![0x3c; (hdr_size as usize).next_multiple_of(8)];
    area.extend(entries.concat());
    let used = area.len();
    area.extend(behind);
    put_u32(&mut area, 0, Edition::Current.signature());
    area[field::VERSION] = version;
    area[field::HDR_SIZE] = hdr_size;
    area[field::ALIGNMENT] = 3;
    put_u32(&mut area, field::USED_SIZE, used as u32);
    put_u32(&mut area, field::TOTAL_SIZE, (used + behind.len() / 8 * 8) as u32);
    put_u32(&mut area, field::FLAGS, flags);
    restore_checksum(Edition::Current, &mut area);
    List { area, base: BASE, edition: Edition::Current }
}

/// A list with one certificate that can be exchanged.
pub struct Carrier {
    pub list: List,
    /// Where the certificate's data starts.
    start: usize,
}

impl Carrier {
    /// A list of which one entry has the tag and 56 bytes.
    fn new(list: List) -> Carrier {
        let start = first_certificate(&list.area).expect("a carrier holds a certificate");
        Carrier { list, start }
    }

    pub fn put(&mut self, certificate: &[u8]) {
        self.list.area[self.start..self.start + LENGTH].copy_from_slice(certificate);
        restore_checksum(Edition::Current, &mut self.list.area);
    }
}

/// Where the data of the first entry of the tag starts.
fn first_certificate(area: &[u8]) -> Option<usize> {
    let start = |row: &Row| row.place + row.hdr_size as usize;
    rows(area).iter().find(|row| row.tag_id == CERTIFICATE_TAG).map(start)
}

/// Carriers of version 1 and of later ones, with and without a checksum; the certificate alone, first,
/// last and in between, beside voids of as many bytes, beside tags that are like its own, beside data of
/// other entries and free bytes that look like an entry of it, and at odd places.
pub fn carriers() -> Vec<Carrier> {
    let data = values::stated(1).bytes();
    let one = entry(CERTIFICATE_TAG, 8, &data);
    let void = entry(0, 8, &data);
    let within = entry(7, 8, &one);
    let void_around = entry(0, 8, &one);
    let alike = |tag: u32| entry(tag, 8, &data);
    let later = |hdr_size: u8| entry(CERTIFICATE_TAG, hdr_size, &data);
    let small = entry(1, 8, &[1, 2, 3]);
    let none: &[u8] = &[];
    [
        list(1, 24, HAS_CHECKSUM, &[one.clone()], none),
        list(1, 24, 0, &[one.clone()], none),
        list(1, 24, 0x8000_0003, &[one.clone(), small.clone()], &[0xa5; 19]),
        list(1, 24, HAS_CHECKSUM, &[small.clone(), one.clone()], &one),
        list(1, 24, 2, &[void.clone(), one.clone(), void.clone()], &one),
        list(1, 24, HAS_CHECKSUM, &[within.clone(), one.clone(), void_around.clone()], none),
        list(1, 24, HAS_CHECKSUM, &[alike(0xff_f011), one.clone(), alike(0xff_f00f)], none),
        list(1, 24, HAS_CHECKSUM, &[alike(0x00_f010), alike(0xff_e010), one.clone(), alike(0x7f_f010)], none),
        list(1, 24, HAS_CHECKSUM, &[alike(0xff_f000), alike(0xff_f110), alike(0x10), one], none),
        list(2, 25, HAS_CHECKSUM, &[later(9)], &later(9)),
        list(255, 24, 0, &[later(11), entry(1, 255, &[4; 5])], none),
        list(3, 41, HAS_CHECKSUM, &[entry(2, 13, &[1]), later(255), entry(0, 12, &data)], none),
        list(17, 255, HAS_CHECKSUM, &[void_around, within, later(8)], none),
    ]
    .map(Carrier::new)
    .into()
}

/// Puts certificates into a list that is being laid out: one mostly; or two, one of another length, or
/// one of each, as other tools may make them.
pub fn lay_out(rng: &mut Rng, version: u8, area: &mut Vec<u8>) {
    let lengths = match rng.below(8) {
        0 => vec![LENGTH, LENGTH],
        1 => vec![other_length(rng)],
        2 => vec![LENGTH, other_length(rng)],
        3 => vec![other_length(rng), LENGTH],
        _ => vec![LENGTH],
    };
    for length in lengths {
        let hdr_size = if version == 1 { 8 } else { longer_header(rng, 8) };
        let mut entry = laid_out_entry(rng, CERTIFICATE_TAG, hdr_size, length as u32);
        let certificate = values::any(rng).bytes();
        let both = length.min(LENGTH);
        entry[hdr_size as usize..][..both].copy_from_slice(&certificate[..both]);
        area.extend(entry);
    }
}

fn other_length(rng: &mut Rng) -> usize {
    match rng.below(4) {
        0 => rng.below(LENGTH as u64) as usize,
        1 => rng.pick(&[55, 57]),
        _ => rng.pick(&[0, 8, 12, 16, 48, 64, 112]),
    }
}

/// Serial and test to ask a list for: those of its first certificate, or of what stands there, mostly.
pub fn asked(rng: &mut Rng, area: &[u8]) -> (u64, u64) {
    match first_certificate(area).and_then(|start| area.get(start..start + 16)) {
        None => (rng.word(), rng.word()),
        Some(both) => {
            let word = |bytes: &[u8]| u64::from_le_bytes(bytes.try_into().unwrap());
            values::asked(rng, word(&both[..8]), word(&both[8..]))
        }
    }
}

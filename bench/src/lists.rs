//! The lists that are timed.
use crate::{plain, SERIAL, TEST};

/// The tag of an entry that is looked for.
pub const LAST: u32 = 0xff_f001;

/// A list of this many bytes with checksums on: entries with a tag and a data size each, in order, from 24 on.
pub fn list(length: usize, entries: impl IntoIterator<Item = (u32, usize)>) -> Vec<u8> {
    let mut a = vec![0u8; length];
    a[..4].copy_from_slice(&0x4a0f_b10bu32.to_le_bytes());
    a[5..8].copy_from_slice(&[1, 24, 3]);
    a[12..16].copy_from_slice(&(length as u32).to_le_bytes());
    a[16] = 1;
    let used = put_entries(&mut a, 24, entries);
    a[4] = a[..used].iter().fold(0, |x, b| x ^ b);
    a
}

/// A full list of one entry.
pub fn one_entry(length: usize) -> Vec<u8> {
    list(length, [(1, length - 32)])
}

/// A full list of entries of 8 bytes with this tag, 0 for voids.
pub fn of_8_bytes(length: usize, tag: u32) -> Vec<u8> {
    list(length, (0..(length - 24) / 8).map(|_| (tag, 0)))
}

/// The same with a wrong header size in the last of them.
pub fn last_bad(length: usize) -> Vec<u8> {
    let mut a = of_8_bytes(length, 1);
    a[length - 5] ^= 1;
    a[4] ^= 1;
    a
}

/// Entries of 32 bytes each up to 72 bytes before the end, then one with the tag that is looked for if `ended`, else room.
pub fn of_32_bytes(length: usize, ended: bool) -> Vec<u8> {
    list(length, (0..(length - 96) / 32).map(|_| (1, 24)).chain(ended.then_some((LAST, 64))))
}

/// Voids of 24 bytes each, then one of 72.
pub fn many_voids(length: usize) -> Vec<u8> {
    list(length, (0..(length - 96) / 24).map(|_| (0, 16)).chain([(0, 64)]))
}

/// A full list of entries of 16 bytes, one of 8 behind them. Every second one is a void, whose data are not 0.
pub fn every_second_void(length: usize) -> Vec<u8> {
    let mut a = list(length, (0..(length - 32) / 16).map(|_| (1, 8)).chain([(1, 0)]));
    for at in (24..length - 8).step_by(32) {
        a[at] = 0;
    }
    a[4] = 0;
    a[4] = a.iter().fold(0, |x, b| x ^ b);
    a
}

/// A list with one entry more, a certificate that passes a band.
pub fn certified(length: usize, entries: impl IntoIterator<Item = (u32, usize)>) -> Vec<u8> {
    let mut a = list(length, entries.into_iter().chain([(plain::CERTIFICATE, 56)]));
    let used = used(&a);
    let numbers = [SERIAL, TEST, 4000 << 32 | 1].into_iter().chain([0.25f64, -100.0, 880.0, 920.0].map(f64::to_bits));
    for (to, number) in a[used - 56..used].chunks_exact_mut(8).zip(numbers) {
        to.copy_from_slice(&number.to_le_bytes());
    }
    a[4] = 0;
    a[4] = a[..used].iter().fold(0, |x, b| x ^ b);
    a
}

/// A list of edition 0.9 with one entry up to byte `size`.
pub fn one_entry09(length: usize, size: usize) -> Vec<u8> {
    let mut a = vec![0u8; length];
    a[..4].copy_from_slice(&0x006e_d0ffu32.to_le_bytes());
    a[5..8].copy_from_slice(&[1, 16, 3]);
    a[12..16].copy_from_slice(&(length as u32).to_le_bytes());
    put_entries(&mut a, 16, [(1, size - 24)]);
    a[4] = a[..size].iter().fold(0, |sum, b| sum.wrapping_add(*b));
    a
}

/// Writes the entries, and the used size, which it answers.
fn put_entries(a: &mut [u8], first: usize, entries: impl IntoIterator<Item = (u32, usize)>) -> usize {
    let mut at = first;
    for (tag, size) in entries {
        a[at..at + 3].copy_from_slice(&tag.to_le_bytes()[..3]);
        a[at + 3] = 8;
        a[at + 4..at + 8].copy_from_slice(&(size as u32).to_le_bytes());
        for (i, byte) in a[at + 8..at + 8 + size].iter_mut().enumerate() {
            *byte = if tag == 0 { 0 } else { i as u8 };
        }
        at += (8 + size).div_ceil(8) * 8;
    }
    a[8..12].copy_from_slice(&(at as u32).to_le_bytes());
    at
}

/// The used size of a list of either edition.
pub fn used(area: &[u8]) -> usize {
    u32::from_le_bytes(area[8..12].try_into().unwrap()) as usize
}

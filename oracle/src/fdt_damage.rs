//! What spoils a device tree by chance; it may stay a good one.

use crate::rng::Rng;

/// Tokens, and numbers that are too large in one way or another.
const WORDS: [u32; 16] =
    [0, 1, 2, 3, 4, 5, 8, 9, 16, 17, 40, 56, 0x7fff_ffff, 0x8000_0000, 0xffff_fff4, 0xffff_ffff];

fn byte(rng: &mut Rng, old: u8) -> u8 {
    match rng.below(4) {
        0 => old ^ 1 << rng.below(8),
        1 => rng.pick(&[0, 1, 2, 3, 4, 9, 0xff]),
        2 => old.wrapping_add(rng.pick(&[1, 4, 8, 0xfc, 0xff])),
        _ => rng.word() as u8,
    }
}

fn place(rng: &mut Rng, length: usize) -> usize {
    match rng.below(4) {
        0 => rng.below(length.min(40) as u64) as usize,
        _ => rng.below(length as u64) as usize,
    }
}

fn change_word(rng: &mut Rng, data: &mut [u8]) {
    let start = place(rng, data.len()) / 4 * 4;
    let Some(bytes) = data.get_mut(start..start + 4) else { return };
    let old = u32::from_be_bytes(bytes.try_into().unwrap());
    let new = match rng.below(3) {
        0 => old.wrapping_add(rng.range(1, 16) as u32),
        1 => old.wrapping_sub(rng.range(1, 16) as u32),
        _ => rng.pick(&WORDS),
    };
    bytes.copy_from_slice(&new.to_be_bytes());
}

/// Some words over others, as of a piece that stands there twice.
fn copy(rng: &mut Rng, data: &mut [u8]) {
    let words = data.len() as u64 / 4;
    let count = rng.range(1, 4).min(words);
    let from = rng.below(words - count + 1) as usize * 4;
    let to = rng.below(words - count + 1) as usize * 4;
    data.copy_within(from..from + 4 * count as usize, to);
}

/// A tree of at least 40 bytes with some damage.
pub fn damaged(rng: &mut Rng, good: &[u8]) -> Vec<u8> {
    let mut data = good.to_vec();
    for _ in 0..rng.pick(&[1, 1, 1, 2, 3]) {
        match rng.below(10) {
            0 => copy(rng, &mut data),
            1..4 => change_word(rng, &mut data),
            _ => {
                let place = place(rng, data.len());
                data[place] = byte(rng, data[place]);
            }
        }
    }
    if rng.once_in(16) {
        let length = rng.below(data.len() as u64 + 1) as usize;
        data.truncate(length);
    }
    data
}

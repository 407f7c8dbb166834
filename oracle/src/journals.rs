//! A seeded source of journals (document 02, request 9): such as an edit accepts, such as it refuses, and such
//! as recovery finds, whatever left them behind.

use crate::lists::MOST_LENT;
use crate::model_journal::{kind, RECORD, WORD};
use crate::rng::Rng;

/// What stands in bytes 1 to 15 of records that are empty.
fn spent(rng: &mut Rng, len: usize) -> Vec<u8> {
    match rng.below(4) {
        0 => vec![0; len],
        1 => vec![0xff; len],
        _ => rng.bytes(len),
    }
}

/// So many bytes, the kinds of whole records all 0.
pub fn empty(rng: &mut Rng, len: usize) -> Vec<u8> {
    let mut journal = spent(rng, len);
    journal.chunks_exact_mut(RECORD).for_each(|record| record[0] = kind::EMPTY);
    journal
}

fn odd_bytes(rng: &mut Rng) -> usize {
    rng.pick(&[0, 0, 0, 1, 7, 8, 15])
}

/// Lengths that are made on purpose.
const SHORT: [usize; 5] = [0, 15, 16, 31, 32];

/// A length for an edit that changes so many words: mostly enough, often just enough, and now and then one
/// record too few.
fn length(rng: &mut Rng, words: usize) -> usize {
    let records = match rng.below(12) {
        0 => return rng.pick(&SHORT),
        1 | 2 => words,
        3 => rng.below(words as u64 + 1) as usize,
        4..=8 => words + 1,
        9 | 10 => words + 1 + rng.below(4) as usize,
        _ => words + 1 + rng.small(6) as usize,
    };
    (RECORD * records + odd_bytes(rng)).min(MOST_LENT)
}

/// A kind that is not 0.
fn other_kind(rng: &mut Rng) -> u8 {
    match rng.below(4) {
        0 => kind::WORD,
        1 => kind::COMMIT,
        2 => rng.pick(&[3, 4, 0x80, 0xff]),
        _ => rng.range(1, 255) as u8,
    }
}

/// A journal for an edit that changes so many words: of six one has a kind that is not 0, or more.
pub fn for_edit(rng: &mut Rng, words: usize) -> Vec<u8> {
    let len = length(rng, words);
    let mut journal = empty(rng, len);
    let records = (len / RECORD) as u64;
    if records > 0 && rng.once_in(6) {
        for _ in 0..rng.range(1, 2) {
            journal[RECORD * rng.below(records) as usize] = other_kind(rng);
        }
    }
    journal
}

/// A journal that an edit which changes so many words accepts: just enough records, or some more.
pub fn accepted(rng: &mut Rng, words: usize) -> Vec<u8> {
    let more = if rng.once_in(2) { 0 } else { rng.below(4) as usize };
    let len = RECORD * (words + 1 + more) + odd_bytes(rng);
    empty(rng, len)
}

/// A record of this kind for an area of so many bytes; as a word it mostly stands in there.
fn record(rng: &mut Rng, kind: u8, area_len: usize) -> [u8; RECORD] {
    let mut record = [0; RECORD];
    if rng.once_in(3) {
        record.copy_from_slice(&rng.bytes(RECORD));
    } else if kind != kind::COMMIT {
        record[8..].copy_from_slice(&rng.bytes(WORD));
    }
    record[0] = kind;
    if kind == kind::WORD {
        record[4..8].copy_from_slice(&offset(rng, area_len).to_le_bytes());
    }
    record
}

/// Where a word is to go: in the area, where there is one, and often to the same places.
fn offset(rng: &mut Rng, area_len: usize) -> u32 {
    let words = (area_len / WORD) as u64;
    let index = if rng.once_in(3) { rng.below(4) } else { rng.word() };
    (index % words.max(1)) as u32 * WORD as u32
}

/// An offset that no area of so many bytes has: no multiple of 8, or too far.
pub fn bad_offset(rng: &mut Rng, area_len: usize) -> u32 {
    let end = area_len as u32 / 8 * 8;
    match rng.below(8) {
        0 => offset(rng, area_len) + rng.range(1, 7) as u32,
        1 => offset(rng, area_len) | 4,
        2 => end,
        3 => end + 8,
        4 => area_len as u32 + rng.below(9) as u32,
        5 => (area_len as u32).wrapping_sub(rng.range(1, 7) as u32),
        6 => rng.pick(&[0xffff_fff8, 0xffff_fff0, 0x8000_0000, 0xffff_ffff]),
        _ => rng.word() as u32,
    }
}

/// A journal for recovery, over an area of so many bytes: words, and a commit mostly, and what may stand
/// behind it; of three one with something in it that recovery refuses, or would if it looked there; and noise.
pub fn for_recovery(rng: &mut Rng, area_len: usize) -> Vec<u8> {
    if rng.once_in(12) {
        let len = rng.small(8) as usize;
        return rng.bytes(len);
    }
    let mut kinds = vec![kind::WORD; rng.small(4) as usize];
    if !rng.once_in(4) {
        kinds.push(kind::COMMIT);
    }
    for _ in 0..rng.small(3) {
        kinds.push(rng.pick(&[kind::EMPTY, kind::EMPTY, kind::WORD, kind::COMMIT]));
    }
    let mut journal: Vec<u8> = kinds.iter().flat_map(|kind| record(rng, *kind, area_len)).collect();
    if rng.once_in(3) {
        spoil(rng, area_len, &mut journal);
    }
    let odd = odd_bytes(rng);
    journal.extend(rng.bytes(odd));
    journal
}

/// Another kind in some record, or a bad offset.
fn spoil(rng: &mut Rng, area_len: usize, journal: &mut [u8]) {
    let records = journal.len() / RECORD;
    if records == 0 {
        return;
    }
    let start = RECORD * rng.below(records as u64) as usize;
    match rng.below(3) {
        0 => journal[start] = rng.pick(&[3, 3, 4, 0x80, 0x81, 0xff]),
        1 => journal[start] = rng.below(3) as u8,
        _ => journal[start + 4..start + 8].copy_from_slice(&bad_offset(rng, area_len).to_le_bytes()),
    }
}

#[cfg(test)]
mod tests {
    use super::*;
    use crate::model_journal::{recover, RECOVERY};

    #[test]
    fn empty_journals_have_no_kinds() {
        for seed in 0..500 {
            let rng = &mut Rng::new(seed);
            let len = rng.below(200) as usize;
            let journal = empty(rng, len);
            assert_eq!(journal.len(), len);
            assert!(journal.chunks_exact(RECORD).all(|record| record[0] == kind::EMPTY));
        }
    }

    /// Recovery refuses some and applies words of some, and does neither of others.
    #[test]
    fn recovery_meets_every_answer() {
        let (mut refused, mut applied, mut cleared) = (0, 0, 0);
        for seed in 0..3000 {
            let rng = &mut Rng::new(seed);
            let len = rng.below(100) as usize;
            let decided = recover(len, &for_recovery(rng, len));
            match (decided.done.number, decided.words().len()) {
                (RECOVERY, _) => refused += 1,
                (_, 1..) => applied += 1,
                _ => cleared += 1,
            }
        }
        assert!(refused > 500 && applied > 500 && cleared > 500, "{refused} {applied} {cleared}");
    }
}

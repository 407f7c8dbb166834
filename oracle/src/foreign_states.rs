//! States and buffers other than a step has left (document 02, request 9): how they are made, from a seed.

use crate::compare::hex;
use crate::journal_counts::Foreign;
use crate::steps::{Stepped, Steps, NUMBERS};
use oracle::model_journal::RECORD;
use oracle::rng::Rng;

/// A state, and the buffers that it is handed with.
#[derive(Clone)]
pub struct Handed {
    pub state: Steps,
    pub area: Vec<u8>,
    pub data: Vec<u8>,
    pub journal: Vec<u8>,
}

fn changes_of(before: &[u8], after: &[u8]) -> usize {
    if before == after {
        return 0;
    }
    before.iter().zip(after).filter(|(before, after)| before != after).count()
}

impl Handed {
    pub fn told(&self) -> String {
        let (area, data, journal) = (hex(&self.area), hex(&self.data), hex(&self.journal));
        let state = self.state.numbers();
        format!("a foreign step, state {state:x?}\n  area {area}\n  data {data}\n  journal {journal}")
    }

    pub fn broken<T>(&self, what: &str, given: &Stepped) -> Result<T, String> {
        Err(format!("{}\n  {what}\n  library {given:?}", self.told()))
    }

    /// How many bytes of both buffers are others afterwards.
    pub fn stored(&self, after: &Handed) -> usize {
        changes_of(&self.area, &after.area) + changes_of(&self.journal, &after.journal)
    }

    /// Makes what some steps have left a foreign one of this sort; `other` is the state of something else.
    pub fn become_foreign(&mut self, rng: &mut Rng, sort: Foreign, other: Steps) {
        match sort {
            Foreign::Random => self.state = Steps::of([(); NUMBERS].map(|()| rng.word() as u32)),
            Foreign::Small => self.state = small(rng, self),
            Foreign::Flipped => self.state = flipped(rng, self.state),
            Foreign::OtherJob => self.state = other,
            Foreign::OtherArea => altered(rng, &mut self.area),
            Foreign::OtherJournal => altered(rng, &mut self.journal),
            Foreign::OtherData => {
                self.data.resize(rng.small(6) as usize, 0x77);
                altered(rng, &mut self.data);
            }
            Foreign::OtherLengths => self.resize(rng),
        }
    }

    fn resize(&mut self, rng: &mut Rng) {
        for bytes in [&mut self.area, &mut self.journal, &mut self.data] {
            resized(rng, bytes);
        }
    }

    /// The same state with the same buffers, with others, with others of other lengths, and with none.
    pub fn with_others(&self, rng: &mut Rng) -> [Handed; 4] {
        let (mut others, mut lengths) = (self.clone(), self.clone());
        altered(rng, &mut others.area);
        altered(rng, &mut others.journal);
        lengths.resize(rng);
        let none = Handed { state: self.state, area: Vec::new(), data: Vec::new(), journal: Vec::new() };
        [self.clone(), others, lengths, none]
    }
}

/// A state of small numbers: in part the given one's, in part around the lengths of the buffers.
fn small(rng: &mut Rng, handed: &Handed) -> Steps {
    let mut numbers = handed.state.numbers();
    let (words, records) = (handed.area.len() as u32 / 8, (handed.journal.len() / RECORD) as u32);
    let keeps = rng.below(4);
    for (at, number) in numbers.iter_mut().enumerate() {
        let any = rng.below(300) as u32;
        let fresh = match at {
            0 => rng.below(u64::from(records) + 2) as u32,
            2 => rng.below(u64::from(words) + 2) as u32,
            1 | 3 => 0,
            4 => rng.below(10) as u32,
            5 => rng.below(18) as u32,
            _ => rng.pick(&[0, 1, 8, 24, words * 8, records, any, u32::MAX]),
        };
        if rng.below(4) >= keeps {
            *number = fresh;
        }
    }
    Steps::of(numbers)
}

fn flipped(rng: &mut Rng, state: Steps) -> Steps {
    let mut numbers = state.numbers();
    for _ in 0..rng.range(1, 3) {
        numbers[rng.below(NUMBERS as u64) as usize] ^= 1 << rng.below(32);
    }
    Steps::of(numbers)
}

/// Other bytes: some, or all.
fn altered(rng: &mut Rng, bytes: &mut [u8]) {
    if bytes.is_empty() {
        return;
    }
    if rng.once_in(3) {
        bytes.copy_from_slice(&rng.bytes(bytes.len()));
        return;
    }
    for _ in 0..rng.range(1, 4) {
        let (place, any) = (rng.below(bytes.len() as u64) as usize, rng.word() as u8);
        bytes[place] = rng.pick(&[0, 1, 2, 3, 0xff, bytes[place] ^ 1, any]);
    }
}

/// Another length: none, a little less or more, or anything.
fn resized(rng: &mut Rng, bytes: &mut Vec<u8>) {
    let len = match rng.below(5) {
        0 => 0,
        1 => bytes.len().saturating_sub(rng.range(1, 20) as usize),
        2 => bytes.len() + rng.range(1, 20) as usize,
        3 => rng.below(bytes.len() as u64 + 1) as usize,
        _ => bytes.len(),
    };
    bytes.resize(len, 0x77);
}

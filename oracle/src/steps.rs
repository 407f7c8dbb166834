//! The state that the library hands out and takes back with each step (document 02, request 9). It is the
//! library's own: nothing here looks into it but to make foreign ones.

use oracle::model::{Answer, Done};
use oracle::model_journal::Decided;

#[repr(C)]
#[derive(Clone, Copy, Debug, Default, PartialEq, Eq)]
pub struct Steps {
    pub index: u64,
    pub word: u64,
    pub phase: u32,
    pub byte: u32,
    pub done: Done,
    pub checksum: u32,
    pub alignment: u32,
    pub used_size: u32,
    pub at: u32,
    pub padding: u32,
    pub tag_id: u32,
    pub data_size: u32,
    pub zeros: u32,
    pub behind: u32,
}

/// What a deciding call and a step answer.
#[repr(C)]
#[derive(Clone, Copy, Debug, Default, PartialEq, Eq)]
pub struct Stepped {
    pub state: Steps,
    pub ended: u32,
    pub done: Done,
}

const _: () = assert!(size_of::<Steps>() == 72 && size_of::<Stepped>() == 88);

/// A state as numbers of 32 bits, two for each of the first two fields.
pub const NUMBERS: usize = 18;

impl Steps {
    pub fn numbers(&self) -> [u32; NUMBERS] {
        let [index, word] = [self.index, self.word].map(|long| [long as u32, (long >> 32) as u32]);
        let Done { number, value, at } = self.done;
        let front = [index[0], index[1], word[0], word[1], self.phase, self.byte, number, value, at];
        let (size, entry) = (self.used_size, [self.at, self.padding, self.tag_id, self.data_size]);
        let behind = [
            self.checksum,
            self.alignment,
            size,
            entry[0],
            entry[1],
            entry[2],
            entry[3],
            self.zeros,
            self.behind,
        ];
        let mut numbers = [0; NUMBERS];
        numbers[..9].copy_from_slice(&front);
        numbers[9..].copy_from_slice(&behind);
        numbers
    }

    pub fn of(numbers: [u32; NUMBERS]) -> Steps {
        let long = |at: usize| u64::from(numbers[at]) | u64::from(numbers[at + 1]) << 32;
        Steps {
            index: long(0),
            word: long(2),
            phase: numbers[4],
            byte: numbers[5],
            done: Done { number: numbers[6], value: numbers[7], at: numbers[8] },
            checksum: numbers[9],
            alignment: numbers[10],
            used_size: numbers[11],
            at: numbers[12],
            padding: numbers[13],
            tag_id: numbers[14],
            data_size: numbers[15],
            zeros: numbers[16],
            behind: numbers[17],
        }
    }
}

/// What a deciding call and a step say, the state aside.
#[derive(Clone, Copy, Debug, PartialEq, Eq)]
pub struct Told {
    pub ended: u32,
    pub done: Done,
}

impl Told {
    pub fn by(stepped: &Stepped) -> Told {
        Told { ended: stepped.ended, done: stepped.done }
    }

    /// As long as more is to be stored the answer is all zeros; it comes once nothing is left.
    pub fn when(left: usize, done: Done) -> Told {
        match left {
            0 => Told { ended: 1, done },
            _ => Told { ended: 0, done: Done::default() },
        }
    }

    /// What the deciding call says.
    pub fn first(decided: &Decided) -> Told {
        Told::when(decided.each_store().take(1).count(), decided.done)
    }
}

impl Answer for Told {
    fn number(&self) -> u32 {
        self.done.number
    }

    fn at(&self) -> u32 {
        self.done.at
    }
}

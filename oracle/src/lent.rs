//! Buffers lent to the library, with guard bytes before and behind them.

use oracle::lists::MOST_LENT;
use oracle::rng::Rng;
use std::alloc::{alloc_zeroed, Layout};

const GUARD: usize = 64;
/// The guard in front is longer by less than this, so that the buffers' real addresses vary.
pub const STARTS: usize = 8;

/// A buffer between its guards.
pub struct Lent {
    held: Vec<u8>,
    start: usize,
    len: usize,
}

impl Lent {
    pub fn len(&self) -> usize {
        self.len
    }

    /// Whether it is lent as NULL.
    pub fn is_null(&self) -> bool {
        self.len == 0 && self.start.is_multiple_of(2)
    }

    /// Where the library finds the bytes. It may write where it should not, to a buffer it only
    /// reads or to a guard, and that must be seen; so the pointer is good for writing everywhere.
    /// Every second empty buffer is lent as NULL, as C code does that has nothing to lend.
    pub fn pointer(&mut self) -> *mut u8 {
        if self.is_null() {
            return std::ptr::null_mut();
        }
        self.held.as_mut_ptr().wrapping_add(self.start)
    }

    pub fn bytes(&mut self) -> &mut [u8] {
        &mut self.held[self.start..][..self.len]
    }

    /// Makes the buffer shorter; what is cut off belongs to the guard behind.
    pub fn cut(&mut self, len: usize) {
        assert!(len <= self.len);
        self.len = len;
    }

    /// A buffer of zeros between guards of zeros, however long: the system hands out its pages only
    /// once they are touched. None where it hands out none.
    pub fn zeros(len: usize) -> Option<Lent> {
        let layout = Layout::array::<u8>(GUARD + len + GUARD).ok()?;
        // SAFETY: the layout is not empty, and a Vec of bytes takes over memory of just this layout
        // whose bytes are all set.
        let held = unsafe {
            let memory = alloc_zeroed(layout);
            if memory.is_null() {
                return None;
            }
            Vec::from_raw_parts(memory, layout.size(), layout.size())
        };
        Some(Lent { held, start: GUARD, len })
    }

    /// Whether buffer and guards are all zero but for `head` at the buffer's start.
    pub fn is_zero_behind(&self, head: &[u8]) -> bool {
        let zero_chunk = |chunk: &[u8]| chunk.iter().fold(0, |sum, byte| sum | byte) == 0;
        let zero = |bytes: &[u8]| bytes.chunks(4096).all(zero_chunk);
        let (front, rest) = self.held.split_at(self.start);
        zero(front) && rest.starts_with(head) && zero(&rest[head.len()..])
    }
}

/// The pattern of the guard bytes and the turn of the real addresses.
pub struct Guards {
    pattern: Vec<u8>,
    turn: usize,
    /// Whether buffers over 64 KiB are lent: "test programs keep their own buffers within 64 KiB", and only
    /// the comparison of large lists does not.
    is_large: bool,
}

impl Guards {
    pub fn new(seed: u64) -> Guards {
        Guards { pattern: Rng::new(seed).bytes(GUARD + STARTS), turn: 0, is_large: false }
    }

    /// For the comparison of large lists.
    pub fn of_any_length(seed: u64) -> Guards {
        Guards { is_large: true, ..Guards::new(seed) }
    }

    /// The next buffer starts at this one of the places.
    pub fn start_at(&mut self, start: usize) {
        self.turn = (start + STARTS - 1) % STARTS;
    }

    /// A copy of `bytes` between guards.
    pub fn lend(&mut self, bytes: &[u8]) -> Lent {
        assert!(self.is_large || bytes.len() <= MOST_LENT, "a buffer of {} bytes", bytes.len());
        self.turn = (self.turn + 1) % STARTS;
        let start = GUARD + self.turn;
        let mut held = Vec::with_capacity(start + bytes.len() + GUARD);
        held.extend_from_slice(&self.pattern[..start]);
        held.extend_from_slice(bytes);
        held.extend_from_slice(&self.pattern[..GUARD]);
        Lent { held, start, len: bytes.len() }
    }

    /// The first byte that is not as wanted, counted from the buffer's start (a guard byte in front
    /// has a negative place), with what should stand there and what does.
    pub fn first_difference(&self, lent: &Lent, wanted: &[u8]) -> Option<(isize, u8, u8)> {
        let (front, rest) = lent.held.split_at(lent.start);
        let (bytes, behind) = rest.split_at(lent.len);
        let (front_wanted, behind_wanted) = (&self.pattern[..lent.start], &self.pattern[..GUARD]);
        if front == front_wanted && bytes == wanted && behind == behind_wanted {
            return None;
        }
        let all_wanted = [front_wanted, wanted, behind_wanted].concat();
        let place = lent.held.iter().zip(&all_wanted).position(|(given, wanted)| given != wanted)?;
        Some((place as isize - lent.start as isize, all_wanted[place], lent.held[place]))
    }
}

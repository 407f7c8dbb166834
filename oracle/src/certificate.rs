//! A certificate's eight fields as whole numbers, the floats as their 64 bits; what floats are, by these
//! bits.

use crate::demand::number;

/// "Valve serial (8), test number (8), kind (4), counts (4), then gain, offset, low and high as f64."
#[derive(Clone, Copy, Debug, Default, PartialEq, Eq)]
pub struct Certificate {
    pub serial: u64,
    pub test: u64,
    pub kind: u32,
    pub counts: u32,
    pub gain: u64,
    pub offset: u64,
    pub low: u64,
    pub high: u64,
}

pub const BAND: u32 = 1;
pub const CEILING: u32 = 2;
pub const FLOOR: u32 = 3;

pub const MINUS_ZERO: u64 = 1 << 63;
/// The bits of what is infinite, and of the least number above 0, the least that is not subnormal, and the
/// highest.
pub const INFINITE: u64 = 0x7ff0_0000_0000_0000;
pub const LEAST: u64 = 1;
pub const LEAST_NORMAL: u64 = 1 << 52;
pub const HIGHEST: u64 = INFINITE - 1;

impl Certificate {
    /// The fields of 56 bytes.
    pub fn of(data: &[u8]) -> Certificate {
        let field = |start: usize, length: usize| number(&data[start..start + length]) as u64;
        Certificate {
            serial: field(0, 8),
            test: field(8, 8),
            kind: field(16, 4) as u32,
            counts: field(20, 4) as u32,
            gain: field(24, 8),
            offset: field(32, 8),
            low: field(40, 8),
            high: field(48, 8),
        }
    }

    pub fn bytes(&self) -> Vec<u8> {
        let mut bytes = [self.serial.to_le_bytes(), self.test.to_le_bytes()].concat();
        bytes.extend([self.kind.to_le_bytes(), self.counts.to_le_bytes()].concat());
        for float in self.floats() {
            bytes.extend(float.to_le_bytes());
        }
        bytes
    }

    pub fn floats(&self) -> [u64; 4] {
        [self.gain, self.offset, self.low, self.high]
    }
}

/// The bits without the sign.
pub fn size(bits: u64) -> u64 {
    bits & !MINUS_ZERO
}

pub fn is_finite(bits: u64) -> bool {
    size(bits) < INFINITE
}

pub fn is_no_number(bits: u64) -> bool {
    size(bits) > INFINITE
}

pub fn is_subnormal(bits: u64) -> bool {
    size(bits) != 0 && size(bits) < LEAST_NORMAL
}

/// The place of a number among all floats: neighbours are one apart, and both zeros stand at 0.
pub fn rank(bits: u64) -> i64 {
    let size = size(bits) as i64;
    if bits & MINUS_ZERO == 0 {
        size
    } else {
        -size
    }
}

/// The number of this rank; of zeros +0.
pub fn ranked(rank: i64) -> u64 {
    let sign = if rank < 0 { MINUS_ZERO } else { 0 };
    sign | rank.unsigned_abs()
}

//! The job of document 02, request 5: the test certificate that a list holds, its reading, and whether it
//! passes. The arithmetic is this machine's own; `exact` has it once more, on whole numbers.
//!
//! "Refusals after 1 to 8": the model of document 01 makes those, and 5 is none of them, since nothing is
//! edited.

use crate::model::{read_u32, refuse_if, Answer, Edition, List, Refusal, CERTIFICATE_TAG};

// The three refusals that are this call's own.
/// "Unless exactly one entry of the list has this tag and that one is 56 bytes long."
pub const NOT_ONE: u32 = 18;
/// "Unless serial and test equal the ones asked for."
pub const NOT_ASKED: u32 = 19;
/// "If the kind is unknown", and whatever else is wrong in the certificate itself.
pub const NOT_SOUND: u32 = 20;

pub const MOST_COUNTS: u32 = 1 << 24;
pub const LENGTH: usize = 56;

/// What the call answers: "the reading, and pass or fail".
#[repr(C)]
#[derive(Clone, Copy, Debug, Default)]
pub struct Certified {
    pub number: u32,
    pub pass: u32,
    pub reading: f64,
    pub at: u32,
}

/// Equal in every bit of the reading too.
impl PartialEq for Certified {
    fn eq(&self, other: &Certified) -> bool {
        let whole = |answer: &Certified| (answer.number, answer.pass, answer.reading.to_bits(), answer.at);
        whole(self) == whole(other)
    }
}

impl Answer for Certified {
    fn number(&self) -> u32 {
        self.number
    }

    fn at(&self) -> u32 {
        self.at
    }
}

/// "The gauge's gain and offset travel together as one calibration."
#[derive(Clone, Copy)]
struct Calibration {
    gain: f64,
    offset: f64,
}

impl Calibration {
    /// "Gain times counts, then plus offset, each rounded once." Rust rounds either to an f64, to nearest
    /// and ties to even, and makes no fused product of the two.
    fn reading(self, counts: u32) -> f64 {
        let product = self.gain * f64::from(counts);
        product + self.offset
    }
}

/// "A band with low and high, a ceiling with high, or a floor with low (kinds 1, 2, 3)."
enum Gate {
    Band { low: f64, high: f64 },
    Ceiling { high: f64 },
    Floor { low: f64 },
}

impl Gate {
    /// The gate of a certificate, unless "the kind is unknown", "an unused limit is not eight zero bytes,
    /// or a band's low exceeds its high".
    fn read(data: &[u8]) -> Option<Gate> {
        let (low, high) = (read_f64(data, 40), read_f64(data, 48));
        let (low_is_zero, high_is_zero) = (data[40..48] == [0; 8], data[48..56] == [0; 8]);
        match read_u32(data, 16) {
            1 if low > high => None,
            1 => Some(Gate::Band { low, high }),
            2 if low_is_zero => Some(Gate::Ceiling { high }),
            3 if high_is_zero => Some(Gate::Floor { low }),
            _ => None,
        }
    }

    /// "Limits included in the pass."
    fn passes(&self, reading: f64) -> bool {
        match *self {
            Gate::Band { low, high } => low <= reading && reading <= high,
            Gate::Ceiling { high } => reading <= high,
            Gate::Floor { low } => low <= reading,
        }
    }
}

fn read_u64(data: &[u8], offset: usize) -> u64 {
    u64::from_le_bytes(data[offset..offset + 8].try_into().unwrap())
}

fn read_f64(data: &[u8], offset: usize) -> f64 {
    f64::from_le_bytes(data[offset..offset + 8].try_into().unwrap())
}

pub fn certificate(area: &[u8], base: u64, serial: u64, test: u64) -> Certified {
    match try_certificate(area, base, serial, test) {
        Ok((reading, passes)) => Certified { pass: u32::from(passes), reading, ..Certified::default() },
        Err(Refusal { number, at }) => Certified { number, at, ..Certified::default() },
    }
}

fn try_certificate(area: &[u8], base: u64, serial: u64, test: u64) -> Result<(f64, bool), Refusal> {
    let list = List::open_to_read(Edition::Current, area, base)?;
    let start = lone_certificate(&list)? as usize;
    let data = &area[start..start + LENGTH];
    refuse_if(read_u64(data, 0) != serial || read_u64(data, 8) != test, NOT_ASKED)?;
    Ok(judge(data).ok_or(NOT_SOUND)?)
}

/// Where the data of the one certificate starts.
fn lone_certificate(list: &List) -> Result<u128, u32> {
    let mut of_tag = list.entries.iter().filter(|entry| entry.tag_id == CERTIFICATE_TAG);
    match (of_tag.next(), of_tag.next()) {
        (Some(one), None) if one.data_size == LENGTH as u128 => Ok(one.data_offset()),
        _ => Err(NOT_ONE),
    }
}

/// Reading and pass, unless something in the certificate is wrong.
fn judge(data: &[u8]) -> Option<(f64, bool)> {
    let floats = [24, 32, 40, 48].map(|offset| read_f64(data, offset));
    let [gain, offset, ..] = floats;
    let counts = read_u32(data, 20);
    let gate = Gate::read(data)?;
    let reading = Calibration { gain, offset }.reading(counts);
    let sound = counts <= MOST_COUNTS
        && floats.iter().all(|float| float.is_finite())
        && reading.is_finite()
        && gain > 0.0;
    sound.then(|| (reading, gate.passes(reading)))
}

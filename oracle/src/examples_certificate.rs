//! Document 02, request 5, on the model, worked out by hand: "gain 0.25, offset -100, counts 4000 reads
//! exactly 900", passes and fails, and each refusal.

use crate::model::*;
use crate::model_certificate::*;

const BASE: u64 = 0x1000;
const SERIAL: u64 = 0x1122_3344_5566_7788;
const TEST: u64 = 7;

// Where the fields stand.
const KIND: usize = 16;
const COUNTS: usize = 20;
const GAIN: usize = 24;
const OFFSET: usize = 32;
const LOW: usize = 40;
const HIGH: usize = 48;

/// A band from 800 to 1000 with the stated numbers. 0.25 is 2^-2, 0x3fd and no fraction; -100 is -1.5625
/// * 2^6, 0xc05 and 0.5625 = 9/16; 800 is 1.5625 * 2^9; 1000 is 1.953125 * 2^9, 0x408 and 0xf4 / 0x100.
const BAND: [u8; 56] = [
    0x88, 0x77, 0x66, 0x55, 0x44, 0x33, 0x22, 0x11, // serial
    7, 0, 0, 0, 0, 0, 0, 0, // test
    1, 0, 0, 0, // kind
    0xa0, 0x0f, 0, 0, // counts
    0, 0, 0, 0, 0, 0, 0xd0, 0x3f, // gain
    0, 0, 0, 0, 0, 0, 0x59, 0xc0, // offset
    0, 0, 0, 0, 0, 0, 0x89, 0x40, // low
    0, 0, 0, 0, 0, 0x40, 0x8f, 0x40, // high
];

fn put(mut data: [u8; 56], offset: usize, bytes: &[u8]) -> [u8; 56] {
    data[offset..offset + bytes.len()].copy_from_slice(bytes);
    data
}

fn put_f64(data: [u8; 56], offset: usize, value: f64) -> [u8; 56] {
    put(data, offset, &value.to_bits().to_le_bytes())
}

/// The same with a ceiling of 1000, or with a floor of 800.
fn ceiling() -> [u8; 56] {
    put(put(BAND, KIND, &[2]), LOW, &[0; 8])
}

fn floor() -> [u8; 56] {
    put(put(BAND, KIND, &[3]), HIGH, &[0; 8])
}

/// A list with an entry of the tag for each of these data.
fn list(data: &[&[u8]]) -> Vec<u8> {
    let mut area = vec![0; 512];
    create(&mut area, BASE, true);
    for data in data {
        // A tag that may carry any length, so that the model adds what other tools may.
        let entry = add(&mut area, BASE, 0xff_f000, data, false).value as usize - 8;
        area[entry] = 0x10;
        area[4] ^= 0x10;
    }
    area
}

fn judge(data: &[u8]) -> Certified {
    certificate(&list(&[data]), BASE, SERIAL, TEST)
}

fn accepted(pass: u32, reading: f64) -> Certified {
    Certified { number: 0, pass, reading, at: 0 }
}

fn refused(number: u32) -> Certified {
    Certified { number, pass: 0, reading: 0.0, at: 0 }
}

#[test]
fn exactly_900() {
    assert_eq!(judge(&BAND), accepted(1, 900.0));
    // 900 is 1.7578125 * 2^9.
    assert_eq!(judge(&BAND).reading.to_bits(), 0x408c_2000_0000_0000);
    assert_eq!(judge(&put(BAND, COUNTS, &[0xa1])), accepted(1, 900.25));
    assert_eq!(judge(&put(BAND, COUNTS, &[0x9f])), accepted(1, 899.75));
}

#[test]
fn limits_are_included() {
    let (above, below) = (900f64.next_up(), 900f64.next_down());
    for (low, high, pass) in [(900.0, 1000.0, 1), (above, 1000.0, 0), (800.0, 900.0, 1), (800.0, below, 0)] {
        assert_eq!(judge(&put_f64(put_f64(BAND, LOW, low), HIGH, high)), accepted(pass, 900.0));
    }
    assert_eq!(judge(&put_f64(put_f64(BAND, LOW, 900.0), HIGH, 900.0)), accepted(1, 900.0));
    for (limit, at_ceiling, at_floor) in [(below, 0, 1), (900.0, 1, 1), (above, 1, 0), (-0.0, 0, 1)] {
        assert_eq!(judge(&put_f64(ceiling(), HIGH, limit)), accepted(at_ceiling, 900.0));
        assert_eq!(judge(&put_f64(floor(), LOW, limit)), accepted(at_floor, 900.0));
    }
}

/// Counts 0 give the offset, and -0 plus +0 is +0; limits of either zero hold it.
#[test]
fn zeros() {
    let zero = put_f64(put(BAND, COUNTS, &[0, 0]), OFFSET, -0.0);
    for (low, high) in [(0.0, 0.0), (0.0, -0.0), (-0.0, 0.0), (-0.0, -0.0)] {
        let given = judge(&put_f64(put_f64(zero, LOW, low), HIGH, high));
        assert_eq!(given, accepted(1, 0.0));
        assert_eq!(given.reading.to_bits(), 0);
    }
}

#[test]
fn kinds() {
    for kind in [0u32, 4, 255, 257, 258, 259, 0x1_0001, 0x100_0000, 0x8000_0002] {
        for data in [BAND, ceiling(), floor()] {
            assert_eq!(judge(&put(data, KIND, &kind.to_le_bytes())), refused(NOT_SOUND));
        }
    }
}

/// 2^24 * 0.25 - 100 is 4194204.
#[test]
fn counts() {
    let with = |counts: u32| judge(&put(ceiling(), COUNTS, &counts.to_le_bytes()));
    assert_eq!(with(1 << 24), accepted(0, 4_194_204.0));
    assert_eq!(with((1 << 24) + 1), refused(NOT_SOUND));
    assert_eq!(with(1 << 31), refused(NOT_SOUND));
    assert_eq!(with(u32::MAX), refused(NOT_SOUND));
}

#[test]
fn floats_that_are_none() {
    // Infinite; quiet, as 0x7ff8.. is, and signalling; each of either sign.
    for top in [[0xf0, 0x7f], [0xf0, 0xff], [0xf8, 0x7f], [0xf8, 0xff]] {
        for lowest in [0, 1] {
            let bytes = [lowest, 0, 0, 0, 0, 0, top[0], top[1]];
            for offset in [GAIN, OFFSET, LOW, HIGH] {
                assert_eq!(judge(&put(BAND, offset, &bytes)), refused(NOT_SOUND));
            }
            assert_eq!(judge(&put(ceiling(), HIGH, &bytes)), refused(NOT_SOUND));
            assert_eq!(judge(&put(floor(), LOW, &bytes)), refused(NOT_SOUND));
        }
    }
}

#[test]
fn gain_is_above_zero() {
    for gain in [0.0, -0.0, -0.25, -5e-324] {
        assert_eq!(judge(&put_f64(BAND, GAIN, gain)), refused(NOT_SOUND));
    }
    // The least float times 4000 is lost beside -100.
    assert_eq!(judge(&put_f64(BAND, GAIN, 5e-324)), accepted(0, -100.0));
    assert_eq!(judge(&put_f64(put_f64(ceiling(), GAIN, 5e-324), OFFSET, 0.0)), accepted(1, 4000.0 * 5e-324));
}

#[test]
fn unused_limits_are_zero_bytes() {
    for limit in [-0.0, 5e-324, 800.0, 1000.0] {
        assert_eq!(judge(&put_f64(ceiling(), LOW, limit)), refused(NOT_SOUND));
        assert_eq!(judge(&put_f64(floor(), HIGH, limit)), refused(NOT_SOUND));
    }
}

#[test]
fn low_does_not_exceed_high() {
    for (low, high) in [(1000f64.next_up(), 1000.0), (0.0, -5e-324), (-1.0, -2.0), (2.0, -2.0)] {
        assert_eq!(judge(&put_f64(put_f64(BAND, LOW, low), HIGH, high)), refused(NOT_SOUND));
    }
}

/// 2^1000 * 2^24 is infinite as a float, whatever the offset; so are the highest float and half a step of
/// it.
#[test]
fn readings_that_are_infinite() {
    let most = put(ceiling(), COUNTS, &[0, 0, 0, 1]);
    let huge = put_f64(most, GAIN, 2f64.powi(1000));
    assert_eq!(judge(&huge), refused(NOT_SOUND));
    assert_eq!(judge(&put_f64(huge, OFFSET, f64::MIN)), refused(NOT_SOUND));
    let highest = put_f64(put(ceiling(), COUNTS, &[1, 0, 0, 0]), GAIN, f64::MAX);
    let half_step = 2f64.powi(970);
    assert_eq!(judge(&put_f64(highest, OFFSET, half_step)), refused(NOT_SOUND));
    assert_eq!(judge(&put_f64(highest, OFFSET, half_step.next_down())), accepted(0, f64::MAX));
}

/// 3 * (2^52 + 1) is rounded to 3 * 2^52 + 4, and with 3 more, half way again, to 3 * 2^52 + 8; rounded
/// once it would be 3 * 2^52 + 6.
#[test]
fn each_is_rounded_once() {
    let data = put(put_f64(ceiling(), GAIN, 4_503_599_627_370_497.0), COUNTS, &[3, 0]);
    assert_eq!(judge(&put_f64(data, OFFSET, 0.0)), accepted(0, 13_510_798_882_111_492.0));
    assert_eq!(judge(&put_f64(data, OFFSET, 3.0)), accepted(0, 13_510_798_882_111_496.0));
}

#[test]
fn exactly_one_of_56_bytes() {
    let ask = |data: &[&[u8]]| certificate(&list(data), BASE, SERIAL, TEST);
    assert_eq!(ask(&[]), refused(NOT_ONE));
    assert_eq!(ask(&[&BAND, &BAND]), refused(NOT_ONE));
    assert_eq!(ask(&[&BAND, &BAND[..12]]), refused(NOT_ONE));
    assert_eq!(ask(&[&BAND[..12], &BAND]), refused(NOT_ONE));
    assert_eq!(ask(&[&BAND[..55]]), refused(NOT_ONE));
    assert_eq!(ask(&[&[&BAND[..], &[0]].concat()]), refused(NOT_ONE));
    // A void does not count.
    let mut area = list(&[&BAND, &BAND]);
    void(&mut area, BASE, CERTIFICATE_TAG, 0);
    assert_eq!(certificate(&area, BASE, SERIAL, TEST), accepted(1, 900.0));
}

/// 18 before 19 before 20, and 1 to 8 before them; 5 does not apply.
#[test]
fn order_of_refusals() {
    let rubbish = put(put(BAND, KIND, &[0]), GAIN, &[0xff; 32]);
    assert_eq!(judge(&rubbish), refused(NOT_SOUND));
    assert_eq!(certificate(&list(&[&rubbish]), BASE, SERIAL ^ 1 << 63, TEST), refused(NOT_ASKED));
    assert_eq!(certificate(&list(&[&rubbish]), BASE, SERIAL, TEST ^ 1 << 32), refused(NOT_ASKED));
    assert_eq!(certificate(&list(&[&rubbish, &rubbish]), BASE, 0, 0), refused(NOT_ONE));
    let mut area = list(&[]);
    assert_eq!(certificate(&area, BASE + 4, 0, 0), refused(AREA));
    area[4] ^= 1;
    assert_eq!(certificate(&area, BASE, 0, 0), refused(CHECKSUM));
    let mut later = list(&[&BAND]);
    later[5] = 2;
    later[4] ^= 3;
    assert_eq!(certificate(&later, BASE, SERIAL, TEST), accepted(1, 900.0));
}

#[test]
fn adds_carry_56_bytes() {
    for length in [0, 55, 57, 112] {
        let mut area = list(&[]);
        let shape = Done { number: SHAPE, value: 0, at: 0 };
        assert_eq!(add(&mut area, BASE, CERTIFICATE_TAG, &vec![1; length], true), shape);
        assert_eq!(add_aligned(&mut area, BASE, CERTIFICATE_TAG, &vec![1; length], 22), shape);
        assert_eq!(area, list(&[]));
    }
    // What they carry is not judged, and a second one may be added.
    let mut area = list(&[]);
    assert_eq!(
        add(&mut area, BASE, CERTIFICATE_TAG, &[0xff; 56], true),
        Done { number: 0, value: 32, at: 0 }
    );
    assert_eq!(add_aligned(&mut area, BASE, CERTIFICATE_TAG, &BAND, 3), Done { number: 0, value: 96, at: 0 });
    assert_eq!(certificate(&area, BASE, SERIAL, TEST), refused(NOT_ONE));
}

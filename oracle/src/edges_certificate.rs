//! The edges of document 02, request 5, but for its adds and its numbers, made on purpose on every run:
//! every refusal before and among 18, 19 and 20, how many entries there are and of which length, each bit
//! of serial and test, entries with headers of every size, full lists, and areas without a byte.

use crate::compare::Bench;
use crate::edges_tidy::{by_hand, change_by, expect, pieces, REFUSALS};
use oracle::certificate::{Certificate, BAND};
use oracle::certificate_values::stated;
use oracle::lists::{List, MOST_LENT};
use oracle::lists09;
use oracle::lists_certificate::{entry, list, BASE, HAS_CHECKSUM};
use oracle::model::{self, Edition, ADDRESS_END, CERTIFICATE_TAG};
use oracle::model_certificate::{LENGTH, NOT_ASKED, NOT_ONE, NOT_SOUND};

const END: u64 = ADDRESS_END as u64;
/// Lengths around 56, and others.
pub const LENGTHS: [usize; 14] = [0, 0, 1, 8, 12, 16, 48, 55, 56, 57, 58, 64, 112, 312];

pub fn good() -> Certificate {
    stated(BAND)
}

/// A certificate in which every float is rubbish, and the kind and the counts too.
pub fn rubbish() -> Certificate {
    Certificate { serial: good().serial, test: good().test, ..Certificate::of(&[0xff; LENGTH]) }
}

/// An entry of the tag with so many bytes of data, which begin as the good certificate does.
pub fn of_bytes(length: usize) -> Vec<u8> {
    let data: Vec<u8> = good().bytes().into_iter().cycle().take(length).collect();
    entry(CERTIFICATE_TAG, 8, &data)
}

fn with_entries(entries: &[Vec<u8>]) -> List {
    list(1, 24, HAS_CHECKSUM, entries, &[0xa5; 32])
}

/// A list with voids at 24 and 48 and this entry at 56, as the changes of `REFUSALS` need it.
fn to_be_refused(certificate: &[u8]) -> List {
    let [live, empty, small, _, dirty] = pieces();
    let entries = [&dirty[..], &small, certificate, &dirty, &empty, &live, &dirty].concat();
    by_hand(6, HAS_CHECKSUM, &entries, 16, 8)
}

impl Bench {
    pub fn edges_certificate(&mut self) -> Result<(), String> {
        self.refusals_of_certificates()?;
        self.how_many()?;
        self.each_bit_asked_for()?;
        self.places()?;
        self.full_lists_with_certificates()?;
        self.short_areas_for_certificates()
    }

    /// Asks for the good certificate.
    pub fn expect_number(&mut self, list: &List, wanted: u32) -> Result<(), String> {
        let Certificate { serial, test, .. } = good();
        expect(self.certificate(list, serial, test)?.number, wanted)
    }

    /// Each refusal of 1 to 8, and any two, in lists that would be accepted or be 18, 19 or 20; 5 is none
    /// of them, for a list of a later version is read.
    fn refusals_of_certificates(&mut self) -> Result<(), String> {
        let other = Certificate { serial: 1, ..rubbish() };
        let accepted = entry(CERTIFICATE_TAG, 8, &good().bytes());
        let entries = [
            (accepted, 0),
            (of_bytes(12), NOT_ONE),
            (entry(CERTIFICATE_TAG, 8, &other.bytes()), NOT_ASKED),
            (entry(CERTIFICATE_TAG, 8, &rubbish().bytes()), NOT_SOUND),
        ];
        for (entry, number) in entries {
            self.expect_number(&to_be_refused(&entry), number)?;
            for refusal in REFUSALS {
                let mut list = to_be_refused(&entry);
                change_by(&mut list, refusal);
                let wanted = if refusal.0 == model::READONLY { number } else { refusal.0 };
                self.expect_number(&list, wanted)?;
                // What cuts the area comes second.
                if refusal.0 != model::SHORT {
                    self.certificate_with_each_other(&list)?;
                }
            }
        }
        Ok(())
    }

    fn certificate_with_each_other(&mut self, changed: &List) -> Result<(), String> {
        for other in REFUSALS {
            let mut list = List { area: changed.area.clone(), ..*changed };
            change_by(&mut list, other);
            self.certificate(&list, good().serial, good().test)?;
        }
        Ok(())
    }

    /// "18 unless exactly one entry of the list has this tag and that one is 56 bytes long": one of every
    /// length, any two lengths in either order, three; voids of such lengths do not count. 18 comes
    /// before 19.
    fn how_many(&mut self) -> Result<(), String> {
        let void = entry(0, 8, &good().bytes());
        self.expect_number(&with_entries(&[]), NOT_ONE)?;
        self.expect_number(&with_entries(&[void.clone()]), NOT_ONE)?;
        // The low byte of the last two is 56.
        for length in (0..=128).chain([255, 256, 312, 65_080]) {
            let number = if length == LENGTH { 0 } else { NOT_ONE };
            self.expect_number(&with_entries(&[of_bytes(length)]), number)?;
            self.expect_number(&with_entries(&[void.clone(), of_bytes(length), void.clone()]), number)?;
        }
        for one in LENGTHS {
            for other in LENGTHS {
                let two = with_entries(&[of_bytes(one), of_bytes(other)]);
                self.expect_number(&two, NOT_ONE)?;
                expect(self.certificate(&two, 0, 0)?.number, NOT_ONE)?;
                let apart = with_entries(&[of_bytes(one), void.clone(), of_bytes(other)]);
                self.expect_number(&apart, NOT_ONE)?;
                self.expect_number(&with_entries(&[of_bytes(one), of_bytes(56), of_bytes(other)]), NOT_ONE)?;
            }
        }
        Ok(())
    }

    /// "19 unless serial and test equal the ones asked for": each of their bits counts, whatever else
    /// stands there.
    fn each_bit_asked_for(&mut self) -> Result<(), String> {
        for (certificate, number) in [(good(), 0), (rubbish(), NOT_SOUND)] {
            let list = with_entries(&[entry(CERTIFICATE_TAG, 8, &certificate.bytes())]);
            let Certificate { serial, test, .. } = certificate;
            expect(self.certificate(&list, serial, test)?.number, number)?;
            for bit in (0..64).map(|bit| 1 << bit) {
                for (serial, test) in [(serial ^ bit, test), (serial, test ^ bit), (serial ^ bit, test ^ bit)]
                {
                    expect(self.certificate(&list, serial, test)?.number, NOT_ASKED)?;
                }
            }
            for (serial, test) in [(test, serial), (0, 0), (serial, serial), (test, test)] {
                expect(self.certificate(&list, serial, test)?.number, NOT_ASKED)?;
            }
        }
        Ok(())
    }

    /// Lists of later versions with headers and entry headers of every size.
    fn places(&mut self) -> Result<(), String> {
        for hdr_size in 8..=255 {
            let one = entry(CERTIFICATE_TAG, hdr_size, &good().bytes());
            for version in [2, 255] {
                let header = hdr_size.max(24);
                self.expect_number(&list(version, header, HAS_CHECKSUM, &[one.clone()], &[]), 0)?;
                let behind = [entry(3, hdr_size, &[1]), one.clone()];
                self.expect_number(&list(version, 24, 0, &behind, &[]), 0)?;
            }
        }
        Ok(())
    }
}

impl Bench {
    /// Lists of 65,536 bytes, of entries without data and a certificate before, behind or among them.
    fn full_lists_with_certificates(&mut self) -> Result<(), String> {
        let one = of_bytes(LENGTH);
        let fillers = (MOST_LENT - 24 - one.len()) / 8;
        for before in [0, 1, fillers / 2, fillers - 1, fillers] {
            let filler = |count: usize| entry(0xff_f011, 8, &[]).repeat(count);
            let mut list =
                list(1, 24, HAS_CHECKSUM, &[filler(before), one.clone(), filler(fillers - before)], &[]);
            for base in [0, END - MOST_LENT as u64] {
                list.base = base;
                self.expect_number(&list, 0)?;
            }
        }
        Ok(())
    }

    /// Areas of 0 to 24 bytes, of a list without entries and of one of edition 0.9. One buffer is lent,
    /// so that of two calls in a row one has NULL where it is empty and one does not.
    fn short_areas_for_certificates(&mut self) -> Result<(), String> {
        for len in 0..=24 {
            let number = if len < 24 { model::SHORT } else { NOT_ONE };
            let mut list = by_hand(3, HAS_CHECKSUM, &[], 0, 0);
            list.area.truncate(len);
            // Without a byte the area may begin where the addresses end.
            let at_the_end = if len == 0 { model::SHORT } else { model::AREA };
            let bases = [(0, number), (BASE, number), (END - 24, number), (END, at_the_end)];
            for (base, number) in bases.into_iter().chain([(4, model::AREA), (u64::MAX - 7, model::AREA)]) {
                list.base = base;
                self.expect_number(&list, number)?;
                self.expect_number(&list, number)?;
            }
        }
        let area = lists09::by_hand(3, &of_bytes(LENGTH), 96);
        self.expect_number(&List { area, base: BASE, edition: Edition::E09 }, model::SIGNATURE)
    }
}

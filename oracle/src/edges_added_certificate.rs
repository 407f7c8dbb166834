//! The edges of document 02, request 5, at its adds, made on purpose on every run: data of many lengths
//! by either add, beside other tags; and what was added, once and twice, judged.

use crate::compare::Bench;
use crate::edges_certificate::{good, of_bytes, rubbish, LENGTHS};
use crate::edges_tidy::expect;
use oracle::demand::Edit;
use oracle::lists::List;
use oracle::lists_certificate::{entry, list, BASE, HAS_CHECKSUM};
use oracle::model::{self, CERTIFICATE_TAG};
use oracle::model_certificate::{LENGTH, NOT_ONE};

/// The certificate's; its neighbours; tags that are like it once some of their bits are left out.
const TAGS: [u32; 7] = [CERTIFICATE_TAG, 0xff_f00f, 0xff_f011, 0xff_e010, 0x1ff_f010, 0x10, 0x7f_f010];

impl Bench {
    /// "Adds of this tag with another length are SHAPE"; what stands in the 56 bytes is not judged, and a
    /// second certificate may be added.
    pub fn edges_added_certificate(&mut self) -> Result<(), String> {
        let void = entry(0, 8, &[0; LENGTH]);
        let lists = [
            // With room; with just enough and with too little; with a void that is just enough.
            list(1, 24, HAS_CHECKSUM, &[], &[0xa5; 8192]),
            list(1, 24, 0, &[], &[0xa5; 64]),
            list(1, 24, HAS_CHECKSUM, &[], &[0xa5; 63]),
            list(1, 24, HAS_CHECKSUM, &[void, of_bytes(3)], &[]),
            // With one already; not to be edited.
            list(1, 24, HAS_CHECKSUM, &[of_bytes(LENGTH)], &[0xa5; 512]),
            list(2, 24, HAS_CHECKSUM, &[of_bytes(LENGTH)], &[0xa5; 512]),
        ];
        for list in &lists {
            for tag in TAGS {
                for length in LENGTHS {
                    self.add_by_both(list, tag, &rubbish().bytes().repeat(6)[..length])?;
                }
            }
        }
        self.add_one_and_another()
    }

    /// Data of 0 bytes comes twice, and the check lends an odd number of buffers, so that it is lent both
    /// as NULL and not.
    fn add_by_both(&mut self, list: &List, tag: u32, data: &[u8]) -> Result<(), String> {
        self.check(list)?;
        for use_voids in [false, true] {
            self.edit(list, &Edit::Add { tag, data, use_voids })?;
        }
        for exponent in [2, 3, 6, 13, 21, 22] {
            self.edit(list, &Edit::AddAligned { tag, data, exponent })?;
        }
        Ok(())
    }

    /// What an add has put in is judged; after a second add there are two, and after a void one again. Up
    /// to exponent 15 there is room for two.
    fn add_one_and_another(&mut self) -> Result<(), String> {
        let data = good().bytes();
        for exponent in 3..=15 {
            let mut list = list(1, 24, HAS_CHECKSUM, &[], &[0xa5; 40_000]);
            for number in [0, NOT_ONE] {
                let add = Edit::AddAligned { tag: CERTIFICATE_TAG, data: &data, exponent };
                expect(self.edit(&list, &add)?.number, 0)?;
                model::add_aligned(&mut list.area, BASE, CERTIFICATE_TAG, &data, exponent);
                self.expect_number(&list, number)?;
            }
            expect(self.edit(&list, &Edit::Void { tag: CERTIFICATE_TAG, n: 0 })?.number, 0)?;
            model::void(&mut list.area, BASE, CERTIFICATE_TAG, 0);
            self.expect_number(&list, 0)?;
            let unfit = rubbish().bytes();
            let add = Edit::Add { tag: CERTIFICATE_TAG, data: &unfit, use_voids: true };
            expect(self.edit(&list, &add)?.number, 0)?;
            model::add(&mut list.area, BASE, CERTIFICATE_TAG, &unfit, true);
            self.expect_number(&list, NOT_ONE)?;
        }
        Ok(())
    }
}

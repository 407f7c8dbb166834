//! Lengths over 2^32, and at the limit, lent to the calls for lists of edition 0.9. AREA and TARGET refuse
//! each that is over the limit.

use crate::compare::{untouched, Asked, Bench, Buffer};
use crate::edges_tidy::expect;
use crate::huge::{unwritten, Long, BASE, SMALL, TAG};
use crate::library;
use oracle::lists09::by_hand;
use oracle::model;
use oracle::model09;
use oracle::tally::Call;

/// An entry of the tag without data.
const ENTRY: [u8; 8] = [TAG as u8, 0, 0, 8, 0, 0, 0, 0];

impl Bench {
    /// All calls on a long area, but none that would write a long target.
    pub fn long_area09(&mut self, long: &mut Long) -> Result<(), String> {
        long.hold(by_hand(3, &ENTRY, SMALL));
        self.read_long_area09(long)?;
        self.convert_long_area(long)?;
        if long.is_too_long() {
            self.convert_to_long_target(long)?;
        }
        unwritten(&long.lent, &long.list)
    }

    fn read_long_area09(&mut self, long: &mut Long) -> Result<(), String> {
        let wanted = model09::check(long.lent.bytes(), BASE);
        let given = library::check09(&mut long.lent, BASE);
        self.judge_long(long, Call::Check09, wanted, given, &[])?;
        let wanted = model09::find(long.lent.bytes(), BASE, TAG, 0);
        let given = library::find09(&mut long.lent, BASE, TAG, 0);
        self.judge_long(long, Call::Find09, wanted, given, &[])
    }

    fn convert_long_area(&mut self, long: &mut Long) -> Result<(), String> {
        let (before, mut after) = ([9; SMALL], [9; SMALL]);
        let mut target = self.guards.lend(&before);
        let wanted = model09::convert(long.lent.bytes(), BASE, &mut after, BASE);
        let given = library::convert09(&mut long.lent, BASE, &mut target, BASE);
        let buffer = Buffer { name: "target", before: &before, wanted: &after, lent: &target };
        self.judge_long(long, Call::Convert09, wanted, given, &[buffer])
    }

    /// From the small list to a target over the limit.
    fn convert_to_long_target(&mut self, long: &mut Long) -> Result<(), String> {
        let mut area = self.guards.lend(&long.list);
        let wanted = model09::convert(&long.list, BASE, long.lent.bytes(), BASE);
        let given = library::convert09(&mut area, BASE, &mut long.lent, BASE);
        let numbers = || format!("a target of {} bytes", long.lent.len());
        let asked = Asked { call: Call::Convert09, numbers: &numbers };
        self.judge(&asked, wanted, given, &[untouched("area", &long.list, &area)])?;
        expect(given.number, model::TARGET)
    }
}

//! The comparison of tidy, by itself, twice over, and with the adds that it makes room for.

use crate::compare::{hex, untouched, Asked, Bench, Buffer};
use crate::lent::Lent;
use crate::library;
use oracle::demand::Edit;
use oracle::demand_tidy;
use oracle::lists::List;
use oracle::model::Done;
use oracle::model_tidy;
use oracle::runs::{self, Place};
use oracle::tally::Call;

impl Bench {
    /// Tidies a list; the answer that both gave.
    pub fn tidy(&mut self, list: &List) -> Result<Done, String> {
        Ok(self.tidied(list)?.0)
    }

    /// The same; the list is carried on as the library left it.
    pub fn tidy_on(&mut self, list: &mut List) -> Result<Done, String> {
        let (done, mut area) = self.tidied(list)?;
        list.area = area.bytes().to_vec();
        Ok(done)
    }

    /// The answer, and the area as the library left it.
    fn tidied(&mut self, list: &List) -> Result<(Done, Lent), String> {
        let mut area = self.guards.lend(&list.area);
        let mut after = list.area.clone();
        let wanted = model_tidy::tidy(&mut after, list.base);
        let given = library::tidy(&mut area, list.base);
        let accepted = wanted.number == 0 && given.number == 0;
        // What is demanded is asked of the library's own bytes, whether or not the model has the same.
        let held = match accepted {
            true => demand_tidy::after_tidy(&list.area, area.bytes(), list.base, given.value),
            false => Ok(()),
        };
        let asked = Asked { call: Call::Tidy, numbers: &|| format!("base {:#x}", list.base) };
        let buffers = [Buffer { name: "area", before: &list.area, wanted: &after, lent: &area }];
        let judged = self.judge(&asked, wanted, given, &buffers);
        judged.map_err(|report| match &held {
            Ok(()) => report,
            Err(broken) => format!("{report}\n  {broken}"),
        })?;
        asked.demand(held, &buffers)?;
        if accepted {
            let tidied = List { area: area.bytes().to_vec(), ..*list };
            self.tidy_again(&tidied, given)?;
            self.adds_around(list, &tidied)?;
            self.runs.count(&list.area, &tidied.area);
        }
        Ok((given, area))
    }

    /// "Tidying twice is the same as once": the same answer, and no byte changes.
    fn tidy_again(&mut self, tidied: &List, once: Done) -> Result<(), String> {
        let mut area = self.guards.lend(&tidied.area);
        let twice = library::tidy(&mut area, tidied.base);
        let numbers = || format!("base {:#x}, on what it has tidied", tidied.base);
        let asked = Asked { call: Call::Tidy, numbers: &numbers };
        self.judge(&asked, once, twice, &[untouched("area", &tidied.area, &area)])
    }

    /// "An add says ROOM although the space is there in small voids": adds that just fill what the tidy
    /// made are not refused any more.
    fn adds_around(&mut self, list: &List, tidied: &List) -> Result<(), String> {
        for (place, length) in runs::lengths_gained(&list.area, &tidied.area) {
            let use_voids = matches!(place, Place::InAVoid);
            let add = Edit::Add { tag: 1, data: &vec![0x5a; length], use_voids };
            let before = self.edit(list, &add)?;
            let after = self.edit(tidied, &add)?;
            if after.number != 0 {
                let area = hex(&tidied.area);
                return Err(format!("an add of {length} bytes fits a tidied list: {after:?}\n  area {area}"));
            }
            self.runs.count_add(place, before.number);
        }
        Ok(())
    }
}

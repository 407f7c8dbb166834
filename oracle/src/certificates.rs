//! The comparison of the certificate's call. The model's answer must also be the one that document 02,
//! request 5, gives on whole numbers alone.

use crate::compare::{untouched, Asked, Bench};
use crate::library;
use oracle::demand_certificate::{after_certificate, Examined};
use oracle::lists::List;
use oracle::model_certificate::{self, Certified};
use oracle::tally::Call;

impl Bench {
    /// Judges a list's certificate; the answer that both gave.
    pub fn certificate(&mut self, list: &List, serial: u64, test: u64) -> Result<Certified, String> {
        let mut area = self.guards.lend(&list.area);
        let wanted = model_certificate::certificate(&list.area, list.base, serial, test);
        let given = library::certificate(&mut area, list.base, serial, test);
        let numbers = || format!("base {:#x}, serial {serial:#x}, test {test:#x}", list.base);
        let asked = Asked { call: Call::Certificate, numbers: &numbers };
        let buffers = [untouched("area", &list.area, &area)];
        self.judge(&asked, wanted, given, &buffers)?;
        let examined = Examined::new(&list.area, list.base, serial, test);
        asked.demand(after_certificate(&examined, &wanted), &buffers)?;
        if let Ok(examined) = &examined {
            self.sights.count(examined);
        }
        Ok(wanted)
    }
}

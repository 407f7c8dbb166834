//! The numbers of document 02, request 5, in lists that carry one certificate after the other: every
//! cause of refusal 20 by itself on every run, and more than a million certificates from the seed.

use crate::compare::Bench;
use oracle::certificate::Certificate;
use oracle::certificate_values as values;
use oracle::lists_certificate::{carriers, Carrier};
use oracle::rng::Rng;

/// Certificates from the seed.
const CERTIFICATES: usize = 1_200_000;

impl Bench {
    pub fn edges_reading(&mut self, seed: u64) -> Result<(), String> {
        let mut carriers = carriers();
        for one in values::one_cause_each() {
            for carrier in &mut carriers {
                self.carried(carrier, &one, (one.serial, one.test))?;
            }
        }
        self.zeros(&mut carriers[0])?;
        let mut rng = Rng::new(seed);
        for index in 0..CERTIFICATES {
            let carrier = index % carriers.len();
            let one = values::any(&mut rng);
            let asked = values::asked(&mut rng, one.serial, one.test);
            self.carried(&mut carriers[carrier], &one, asked)?;
        }
        Ok(())
    }

    fn carried(&mut self, carrier: &mut Carrier, one: &Certificate, asked: (u64, u64)) -> Result<(), String> {
        carrier.put(&one.bytes());
        self.certificate(&carrier.list, asked.0, asked.1)?;
        Ok(())
    }

    /// Readings of zero and of the floats beside it, by no counts and by numbers that cancel, at limits
    /// of both zeros and of the floats beside them.
    fn zeros(&mut self, carrier: &mut Carrier) -> Result<(), String> {
        let limits = [0.0, -0.0, 5e-324, -5e-324, f64::MIN_POSITIVE].map(f64::to_bits);
        for (counts, offset) in [(0, 0.0), (0, -0.0), (4000, -1000.0), (0, 5e-324), (0, -5e-324)] {
            for kind in 1..=3 {
                for low in limits {
                    for high in limits {
                        let offset = f64::to_bits(offset);
                        let one = Certificate { counts, offset, low, high, ..values::stated(kind) };
                        self.carried(carrier, &one, (one.serial, one.test))?;
                    }
                }
            }
        }
        Ok(())
    }
}

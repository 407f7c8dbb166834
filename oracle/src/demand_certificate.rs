//! What a certificate's answer must be by document 02, request 5, said a second time: of
//! the model's it shares the checks 1 to 8 and the certificate's tag and length; it walks the bytes by
//! itself and works on whole numbers alone.

use crate::causes::{causes, Worked};
use crate::certificate::{rank, Certificate, BAND, CEILING};
use crate::demand::{demand, steps};
use crate::model::{self, refuse_if, CERTIFICATE_TAG};
use crate::model_certificate::{Certified, LENGTH};

/// A list that passes checks 1 to 8, as far as certificates are concerned.
pub struct Examined {
    /// The data length of each entry of the tag.
    pub lengths: Vec<usize>,
    /// "Exactly one entry of the list has this tag and that one is 56 bytes long": its certificate.
    pub one: Option<Worked>,
    /// What is asked for.
    pub serial: u64,
    pub test: u64,
    /// What makes the certificate unfit.
    pub causes: Vec<usize>,
}

impl Examined {
    /// The number of the check where one refuses the list.
    pub fn new(area: &[u8], base: u64, serial: u64, test: u64) -> Result<Examined, u32> {
        let number = model::check(area, base).number;
        refuse_if(number != 0, number)?;
        let steps = steps(area);
        let of_tag: Vec<_> = steps.iter().filter(|step| step.tag == CERTIFICATE_TAG).collect();
        let one = match of_tag[..] {
            [step] if step.data.len() == LENGTH => Some(Worked::new(Certificate::of(step.data))),
            _ => None,
        };
        let lengths = of_tag.iter().map(|step| step.data.len()).collect();
        let causes = one.as_ref().map_or(Vec::new(), causes);
        Ok(Examined { lengths, one, serial, test, causes })
    }

    pub fn is_asked_for(&self, one: &Certificate) -> bool {
        (one.serial, one.test) == (self.serial, self.test)
    }

    /// Number, pass and the reading's bits; the latter two are 0 in a refusal.
    fn answer(&self) -> (u32, u32, u64) {
        match &self.one {
            None => (18, 0, 0),
            Some(it) if !self.is_asked_for(&it.one) => (19, 0, 0),
            Some(_) if !self.causes.is_empty() => (20, 0, 0),
            Some(it) => {
                let reading = it.reading.expect("what has no cause has a reading").sum;
                (0, u32::from(passes(&it.one, reading)), reading)
            }
        }
    }
}

/// "Limits included in the pass"; the kind is a known one.
pub fn passes(one: &Certificate, reading: u64) -> bool {
    let from_low = rank(one.low) <= rank(reading);
    let up_to_high = rank(reading) <= rank(one.high);
    match one.kind {
        BAND => from_low && up_to_high,
        CEILING => up_to_high,
        _ => from_low,
    }
}

/// Whether the answer is the one that the list must have, examined or refused by a check.
pub fn after_certificate(examined: &Result<Examined, u32>, answer: &Certified) -> Result<(), String> {
    let given = (answer.number, answer.pass, answer.reading.to_bits());
    let wanted = match examined {
        Ok(examined) => examined.answer(),
        Err(number) => (*number, 0, 0),
    };
    let (number, pass, reading) = wanted;
    demand(given == wanted, &format!("number {number}, pass {pass}, reading {reading:#x}, not {answer:?}"))
}

#[cfg(test)]
mod tests {
    use super::*;
    use crate::certificate_values as values;
    use crate::lists_certificate::carriers;
    use crate::model_certificate::certificate;
    use crate::rng::Rng;

    /// On many certificates the model says the same.
    #[test]
    fn as_the_model_has_it() {
        let mut rng = Rng::new(2);
        let mut carriers = carriers();
        for _ in 0..5000 {
            for carrier in &mut carriers {
                let one = values::any(&mut rng);
                let (serial, test) = values::asked(&mut rng, one.serial, one.test);
                carrier.put(&one.bytes());
                let (area, base) = (&carrier.list.area, carrier.list.base);
                let examined = Examined::new(area, base, serial, test);
                let answer = certificate(area, base, serial, test);
                assert_eq!(after_certificate(&examined, &answer), Ok(()));
            }
        }
    }
}

//! Makes each call on the library and on the model and compares the whole answer and every byte of
//! every buffer lent, guard bytes included.

use crate::journal_counts::JournalCounts;
use crate::large_sights;
use crate::lent::{Guards, Lent};
use crate::library;
use oracle::add_lengths::AddLengths;
use oracle::alignments::Alignments;
use oracle::demand_entry;
use oracle::entry_sights::EntrySights;
use oracle::fdt_breaks::Breaks;
use oracle::fdt_found::Finds;
use oracle::fdt_sights;
use oracle::journal_sights::JournalSights;
use oracle::lists::{List, MOST_LENT};
use oracle::lists_certificate;
use oracle::model::{self, Answer, Checked, Edition, Found};
use oracle::params::{self, Facts};
use oracle::rng::Rng;
use oracle::runs::Runs;
use oracle::sights::Sights;
use oracle::tally::{Call, Tally};
use std::fmt::Write;

/// How often each call is made on a list; a check, a create and a tidy once. A tidy is made once more on
/// its own result, with up to two adds before and after it. Each edit is made with a journal too.
pub struct Times {
    pub finds: usize,
    pub adds: usize,
    pub aligned_adds: usize,
    pub voids: usize,
    pub relocations: usize,
    pub certificates: usize,
    pub conversions: usize,
}

/// Calls of the list's own edition.
const OWN: Times =
    Times { finds: 5, adds: 6, aligned_adds: 4, voids: 4, relocations: 4, certificates: 2, conversions: 8 };
/// Calls of the other edition, which mostly look no further than the signature.
const OTHER: Times =
    Times { finds: 1, adds: 1, aligned_adds: 1, voids: 1, relocations: 1, certificates: 1, conversions: 1 };
/// Recoveries of a list's area, which look at nothing in it.
const RECOVERIES: usize = 2;

pub struct Bench {
    pub tally: Tally,
    pub event_logs: AddLengths,
    pub added_certificates: AddLengths,
    pub alignments: Alignments,
    pub runs: Runs,
    pub sights: Sights,
    pub entry_sights: EntrySights,
    pub fdt_sights: fdt_sights::Sights,
    pub fdt_breaks: Breaks,
    pub fdt_finds: Finds,
    /// What the journals hold that edits and recoveries are given; each list has its own seed.
    pub journals: Rng,
    /// Of the edits, one in so many is made with a journal too.
    pub with_journal: u64,
    pub journal_sights: JournalSights,
    pub journal_counts: JournalCounts,
    pub guards: Guards,
    /// What a run on large lists has met; none in a run on many lists.
    pub large: Option<large_sights::Sights>,
}

/// A call as a report names it.
pub struct Asked<'a> {
    pub call: Call,
    pub numbers: &'a dyn Fn() -> String,
}

/// A buffer lent to a call: its bytes before, those wanted afterwards, and those that came back.
pub struct Buffer<'a> {
    pub name: &'static str,
    pub before: &'a [u8],
    pub wanted: &'a [u8],
    pub lent: &'a Lent,
}

impl Bench {
    pub fn new(seed: u64) -> Bench {
        Bench {
            tally: Tally::default(),
            event_logs: AddLengths::of_event_logs(),
            added_certificates: AddLengths::of_certificates(),
            alignments: Alignments::default(),
            runs: Runs::default(),
            sights: Sights::default(),
            entry_sights: EntrySights::default(),
            fdt_sights: fdt_sights::Sights::default(),
            fdt_breaks: Breaks::default(),
            fdt_finds: Finds::default(),
            journals: Rng::new(seed),
            with_journal: 1,
            journal_sights: JournalSights::default(),
            journal_counts: JournalCounts::default(),
            guards: Guards::new(seed),
            large: None,
        }
    }

    /// For large lists, whose buffers may be of any length.
    pub fn for_large_lists(seed: u64) -> Bench {
        let large = Some(large_sights::Sights::default());
        Bench { guards: Guards::of_any_length(seed), large, ..Bench::new(seed) }
    }

    /// All calls on one list, those of the other edition too.
    pub fn list(&mut self, rng: &mut Rng, list: &List) -> Result<(), String> {
        let (current, old) = match list.edition {
            Edition::Current => (OWN, OTHER),
            Edition::E09 => (OTHER, OWN),
        };
        self.current(rng, list, &current)?;
        self.edition09(rng, list, &old)
    }

    fn current(&mut self, rng: &mut Rng, list: &List, times: &Times) -> Result<(), String> {
        let facts = Facts::of(list);
        self.check(list)?;
        for _ in 0..times.finds {
            let (tag, n) = params::wanted(rng, &facts);
            self.find(list, tag, n)?;
        }
        self.edits(rng, list, &facts, times)?;
        self.relocations(rng, list, &facts, times)?;
        self.tidy(list)?;
        for _ in 0..times.certificates {
            let (serial, test) = lists_certificate::asked(rng, &list.area);
            self.certificate(list, serial, test)?;
        }
        for _ in 0..RECOVERIES {
            self.any_recovery(&list.area)?;
        }
        Ok(())
    }

    pub fn check(&mut self, list: &List) -> Result<(), String> {
        self.checked(list)?;
        Ok(())
    }

    /// The same; the answer that both gave.
    pub fn checked(&mut self, list: &List) -> Result<Checked, String> {
        let mut area = self.guards.lend(&list.area);
        let wanted = model::check(&list.area, list.base);
        let given = library::check(&mut area, list.base);
        let asked = Asked { call: Call::Check, numbers: &|| format!("base {:#x}", list.base) };
        self.judge(&asked, wanted, given, &[untouched("area", &list.area, &area)])?;
        Ok(given)
    }

    pub fn find(&mut self, list: &List, tag: u32, n: u64) -> Result<(), String> {
        self.found(list, tag, n)?;
        Ok(())
    }

    /// The same; the answer that both gave.
    pub fn found(&mut self, list: &List, tag: u32, n: u64) -> Result<Found, String> {
        let mut area = self.guards.lend(&list.area);
        let wanted = model::find(&list.area, list.base, tag, n);
        let given = library::find(&mut area, list.base, tag, n);
        let numbers = || format!("base {:#x}, tag {tag:#x}, n {n:#x}", list.base);
        let asked = Asked { call: Call::Find, numbers: &numbers };
        self.judge(&asked, wanted, given, &[untouched("area", &list.area, &area)])?;
        self.see_large(|large| large.found(Call::Find, &wanted));
        Ok(given)
    }

    /// Lets a run on large lists count what it has met.
    pub fn see_large(&mut self, count: impl FnOnce(&mut large_sights::Sights)) {
        if let Some(large) = &mut self.large {
            count(large);
        }
    }

    /// Counts the call; a report where the answers differ, where the library's own does not say the bad
    /// entry's place as it must, or where a buffer does not hold what it should.
    pub fn judge<A: Answer>(
        &mut self,
        asked: &Asked,
        wanted: A,
        given: A,
        buffers: &[Buffer],
    ) -> Result<(), String> {
        self.tally.count(asked.call, wanted.number());
        self.see_large(|large| large.call(asked.call, wanted.number(), buffers));
        let area = buffers.iter().find(|buffer| buffer.name == "area").map(|buffer| buffer.before);
        let place = demand_entry::after_call(area, given.number(), given.at());
        let byte = buffers.iter().find_map(|buffer| self.differing_byte(buffer));
        if wanted == given && place.is_ok() && byte.is_none() {
            self.entry_sights.count(asked.call, area, &given);
            return Ok(());
        }
        let bytes = byte.unwrap_or("every byte as wanted".to_string());
        let place = place.err().map_or(String::new(), |broken| format!("\n  {broken}"));
        let inputs = asked.with_inputs(buffers);
        Err(format!("{inputs}\n  model   {wanted:?}\n  library {given:?}\n  {bytes}{place}"))
    }

    pub fn differing_byte(&self, buffer: &Buffer) -> Option<String> {
        let (place, wanted, given) = self.guards.first_difference(buffer.lent, buffer.wanted)?;
        Some(format!("{}, byte {place}: model {wanted:02x}, library {given:02x}", buffer.name))
    }
}

impl Asked<'_> {
    /// A report where a result does not keep what is demanded.
    pub fn demand(&self, held: Result<(), String>, buffers: &[Buffer]) -> Result<(), String> {
        held.map_err(|broken| format!("{}\n  {broken}", self.with_inputs(buffers)))
    }

    /// The call with all its inputs.
    pub fn with_inputs(&self, buffers: &[Buffer]) -> String {
        let mut report = format!("difference in {}\n  {}", self.call.name(), (self.numbers)());
        for buffer in buffers {
            write!(report, "\n  {} {}", buffer.name, hex(buffer.before)).unwrap();
        }
        report
    }
}

/// A buffer whose bytes must stay.
pub fn untouched<'a>(name: &'static str, bytes: &'a [u8], lent: &'a Lent) -> Buffer<'a> {
    Buffer { name, before: bytes, wanted: bytes, lent }
}

/// A buffer of up to 64 KiB is shown whole, of a longer one the start.
const SHOWN_OF_LONGER: usize = 512;

pub fn hex(bytes: &[u8]) -> String {
    let is_whole = bytes.len() <= MOST_LENT;
    let shown = if is_whole { bytes.len() } else { SHOWN_OF_LONGER };
    let mut text = format!("({} bytes) ", bytes.len());
    for byte in &bytes[..shown] {
        write!(text, "{byte:02x}").unwrap();
    }
    if !is_whole {
        text.push_str(" ..");
    }
    text
}

//! Compares libtransfer_list.a with the model of document 01 and of document 02, requests 1 to 3 and 5 to 9,
//! on many lists and device trees; and on large ones.
//!
//! `oracle [LISTS [SEED]]`; the list after that of seed S is the one of seed S + 1.
//! `oracle large [SEED [PART]]`; all parts, or this one alone.

mod calls09;
mod calls_fdt;
mod certificates;
mod compare;
mod edges09;
mod edges_added_certificate;
mod edges_certificate;
mod edges_entry;
mod edges_entry_refusals;
mod edges_event_log;
mod edges_fdt;
mod edges_fdt_large;
mod edges_fdt_paths;
mod edges_fdt_small;
mod edges_journal;
mod edges_reading;
mod edges_recovery;
mod edges_tidy;
mod edges_words;
mod edits;
mod foreign_states;
mod foreign_steps;
mod huge;
mod huge09;
mod huge_fdt;
mod huge_journal;
mod job;
mod journal_counts;
mod journal_cuts;
mod journal_steps;
mod journalled;
mod large;
mod large_alignments;
mod large_entries;
mod large_fdt;
mod large_full;
mod large_journal;
mod large_lengths;
mod large_lists;
mod large_moves;
mod large_numbers;
mod large_refusals;
mod large_rows;
mod large_sights;
mod lent;
mod library;
mod relocations;
mod steps;
mod tidies;
mod watch;

use compare::Bench;
use oracle::lists;
use oracle::rng::Rng;
use oracle::tally::Call;
use std::env;
use std::process::ExitCode;

const LISTS: u64 = 200_000;
const SEED: u64 = 1;

const USAGE: &str = "usage: oracle [LISTS [SEED]] or oracle large [SEED [PART]]";

fn main() -> ExitCode {
    match run_as_asked() {
        Ok(()) => ExitCode::SUCCESS,
        Err(report) => {
            println!("{report}");
            ExitCode::FAILURE
        }
    }
}

fn run_as_asked() -> Result<(), String> {
    let given: Vec<String> = env::args().skip(1).collect();
    let given: Vec<&str> = given.iter().map(String::as_str).collect();
    match given[..] {
        ["large"] => large::run(SEED, None),
        ["large", seed] => large::run(number(seed)?, None),
        ["large", seed, part] => large::run(number(seed)?, Some(part)),
        [] => run(LISTS, SEED),
        [lists] => run(number(lists)?, SEED),
        [lists, seed] => run(number(lists)?, number(seed)?),
        _ => Err(USAGE.to_string()),
    }
}

fn number(text: &str) -> Result<u64, String> {
    text.parse().map_err(|_| format!("{text} is no number\n{USAGE}"))
}

fn run(lists: u64, seed: u64) -> Result<(), String> {
    let mut bench = Bench::new(seed);
    watch::start();
    for index in 0..lists {
        one_list(&mut bench, seed.wrapping_add(index)).map_err(|report| format!("list {index}: {report}"))?;
    }
    // The edges have their runs of voids, alignments and bad entries on purpose; these were met by chance.
    let (runs, alignments) = (std::mem::take(&mut bench.runs), std::mem::take(&mut bench.alignments));
    let bad_entries = std::mem::take(&mut bench.entry_sights);
    bench.edges09()?;
    bench.edges_event_log()?;
    bench.edges_tidy()?;
    bench.edges_words()?;
    bench.edges_certificate()?;
    bench.edges_added_certificate()?;
    bench.edges_reading(seed)?;
    bench.huge_lengths()?;
    bench.device_trees(seed)?;
    bench.edges_entry()?;
    bench.edges_journal()?;
    bench.edges_recovery()?;
    bench.edges_cuts(seed)?;
    bench.edges_foreign(seed)?;
    bench.huge_journals()?;
    println!("{}\n{}\n{}", bench.tally.table(), alignments.table(), bench.event_logs.table());
    println!("{}\n{}\n{}", bench.added_certificates.table(), runs.table(), bench.sights.table());
    println!("{}\n{}\n{}", bench.fdt_sights.table(), bench.fdt_finds.table(), bench.fdt_breaks.table());
    println!("{}\n{}", bad_entries.table("8, by chance"), bench.entry_sights.table("8, on purpose"));
    println!("{}\n{}", bench.journal_sights.table(), bench.journal_counts.table());
    let adds = [alignments.unseen(), bench.event_logs.unseen(), bench.added_certificates.unseen()].concat();
    let trees = [bench.fdt_sights.unseen(), bench.fdt_finds.unseen(), bench.fdt_breaks.unseen()].concat();
    let entries = [runs.unseen(), bench.entry_sights.unseen(), bench.sights.unseen()].concat();
    let journals = [bench.journal_sights.unseen(), bench.journal_counts.unseen()].concat();
    let unseen = [bench.tally.unseen(), adds, entries, trees, journals].concat();
    if !unseen.is_empty() {
        return Err(unseen.join("\n"));
    }
    println!("{} certificates judged", bench.sights.judged());
    let (trees, accepted) = bench.tally.made(Call::FdtCheck);
    println!("{trees} device trees checked, {accepted} of them accepted");
    println!("{}", bench.journal_counts.line());
    println!("{lists} lists, {} calls, no difference", bench.tally.calls());
    Ok(())
}

fn one_list(bench: &mut Bench, seed: u64) -> Result<(), String> {
    watch::list(seed);
    let mut rng = Rng::new(seed);
    let (list, made) = lists::any_as_made(&mut rng);
    bench.entry_sights.turn_to(made);
    bench.journals = Rng::new(!seed);
    bench.list(&mut rng, &list).map_err(|report| format!("{report}\n{}", again(seed)))
}

/// How to make the calls on one list once more.
fn again(seed: u64) -> String {
    format!("  once more: oracle 1 {seed}")
}

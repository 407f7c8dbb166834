//! The run on large lists, part by part: document 02, request 7. Only here buffers over 64 KiB are filled.

use crate::compare::Bench;
use crate::watch;

type Part = fn(&mut Bench, u64) -> Result<(), String>;

/// Each with its name on the command line; the number is the seed, which only the last one uses for more
/// than the guards.
const PARTS: [(&str, Part); 9] = [
    ("lengths", |bench, _| bench.large_lengths()),
    ("entries", |bench, _| bench.large_entries()),
    ("full", |bench, _| bench.large_full()),
    ("alignments", |bench, _| bench.large_alignments()),
    ("moves", |bench, _| bench.large_moves()),
    ("refusals", |bench, _| bench.large_refusals()),
    ("trees", |bench, _| bench.large_trees()),
    ("journals", |bench, _| bench.large_journals()),
    ("rows", |bench, seed| bench.large_rows(seed)),
];

/// Makes all parts, or the one named alone; only of all of them something must have been met.
pub fn run(seed: u64, part: Option<&str>) -> Result<(), String> {
    let asked_for = |name: &str| part.is_none_or(|part| part == name);
    let parts: Vec<_> = PARTS.iter().filter(|(name, _)| asked_for(name)).collect();
    if parts.is_empty() {
        return Err(format!("the parts are {}", PARTS.map(|(name, _)| name).join(", ")));
    }
    let mut bench = Bench::for_large_lists(seed);
    watch::start();
    for (name, make) in parts {
        let again = again(seed, name);
        watch::part(&again);
        let before = bench.tally.calls();
        make(&mut bench, seed).map_err(|report| format!("{report}\n{again}"))?;
        println!("{name:<12}{:>9} calls", bench.tally.calls() - before);
    }
    println!("{}", bench.tally.table());
    if let Some(sights) = &bench.large {
        println!("{}", sights.table());
        let unseen = [bench.tally.unseen(), sights.unseen()].concat();
        if part.is_none() && !unseen.is_empty() {
            return Err(unseen.join("\n"));
        }
    }
    println!("large lists, {} calls, no difference", bench.tally.calls());
    Ok(())
}

/// How to make a part once more.
pub fn again(seed: u64, name: &str) -> String {
    format!("  once more: oracle large {seed} {name}")
}

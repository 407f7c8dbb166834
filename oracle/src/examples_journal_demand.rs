//! What document 02, request 9, demands, of an honest edit and its recoveries, and of slips and frauds, which do
//! not pass.

use crate::demand::Edit;
use crate::demand_journal::{after_any_recovery, after_edit, after_recovery, Sight, Story};
use crate::model;
use crate::model_journal::{self, Lent, Store};

const BASE: u64 = 0x1000;

struct Case {
    old: Vec<u8>,
    new: Vec<u8>,
    journal: Vec<u8>,
    stores: Vec<Store>,
}

/// An add that changes four words, with two records more than it needs and odd bytes behind them.
fn case() -> Case {
    let mut old = vec![0; 68];
    model::create(&mut old, BASE, true);
    let edit = Edit::Add { tag: 1, data: &[0xaa, 0xbb, 0xcc], use_voids: true };
    let mut journal = vec![0x5a; 16 * 7 + 5];
    (0..7).for_each(|index| journal[16 * index] = 0);
    let decided = model_journal::edit(&old, BASE, &edit, &journal);
    let mut new = old.clone();
    assert_eq!(model_journal::plain(&mut new, BASE, &edit), decided.done);
    assert_eq!(decided.words().len(), 4);
    Case { old, new, journal, stores: decided.stores() }
}

fn told(case: &Case) -> Result<(), String> {
    let (mut area, mut journal) = (case.old.clone(), case.journal.clone());
    let mut story = Story::new(&case.old, &case.new, &case.journal);
    for store in &case.stores {
        store.make(&mut area, &mut journal);
        story.step(Sight { area: &area, journal: &journal })?;
    }
    story.end()
}

fn breaks(change: impl FnOnce(&mut Vec<Store>), what: &str) {
    let mut case = case();
    change(&mut case.stores);
    let broken = told(&case).unwrap_err();
    assert!(broken.ends_with(what), "{broken}");
}

fn in_journal(place: usize, value: u8) -> Store {
    Store { buffer: Lent::Journal, place, value }
}

/// The stores: 5 records of 16 bytes, 4 words of 8, 7 kinds.
const COMMIT: usize = 79;
const APPLIED: usize = 80;
const CLEARED: usize = 112;

#[test]
fn an_honest_edit_passes() {
    assert_eq!(told(&case()), Ok(()));
    assert_eq!(case().stores.len(), CLEARED + 7);
}

#[test]
fn the_kind_stored_first_fails() {
    for record in 0..5 {
        let start = 16 * record;
        let what = if record < 4 { "a word's record is whole" } else { "the commit has zeros" };
        breaks(|stores| stores[start..start + 16].rotate_right(1), what);
    }
}

#[test]
fn the_commit_before_the_last_word_fails() {
    breaks(|stores| stores[48..80].rotate_left(16), "the commit comes behind the last word");
    breaks(|stores| stores[63..80].rotate_right(1), "the commit comes behind the last word");
}

#[test]
fn a_word_applied_before_the_commit_fails() {
    breaks(|stores| stores[COMMIT..APPLIED + 8].rotate_left(1), "stays until the commit is stored");
}

#[test]
fn kinds_cleared_too_early_fail() {
    breaks(|stores| stores[APPLIED..CLEARED + 1].rotate_right(1), "once the area is the new one");
}

#[test]
fn only_used_records_cleared_fails() {
    breaks(|stores| stores.truncate(CLEARED + 5), "every byte that is to be stored is a step");
    breaks(|stores| stores.truncate(CLEARED + 4), "a finished edit leaves all kinds 0");
}

#[test]
fn an_unchanged_byte_not_stored_fails() {
    let what = "every byte that is to be stored is a step";
    let old = case().old;
    let unchanged = |store: &Store| store.buffer == Lent::Area && old[store.place] == store.value;
    let first = case().stores.iter().position(unchanged).unwrap();
    breaks(|stores| drop(stores.remove(first)), what);
}

#[test]
fn other_bytes_stored_fail() {
    breaks(
        |stores| stores.insert(0, in_journal(16 * 7, 1)),
        "odd bytes behind the records are never written",
    );
    breaks(|stores| stores.push(in_journal(1, 1)), "nothing but kinds is stored in the journal");
    breaks(|stores| stores.insert(0, in_journal(0, 3)), "until the commit is");
    breaks(|stores| stores.insert(0, in_journal(16 * 6 + 1, 1)), "other records keep all their bytes");
}

/// At each cut recovery gives what it must, and neither the other area nor a mixture passes.
#[test]
fn each_cut_and_its_recovery() {
    let case = case();
    let (mut area, mut journal) = (case.old.clone(), case.journal.clone());
    for cut in 0..=case.stores.len() {
        let (mut again, mut cleared) = (area.clone(), journal.clone());
        model_journal::recover(area.len(), &journal).run(&mut again, &mut cleared);
        let judged = |area_then: &[u8], journal_then: &[u8]| {
            let before = Sight { area: &area, journal: &journal };
            let then = Sight { area: area_then, journal: journal_then };
            after_recovery(&case.old, &case.new, before, then).is_ok()
        };
        assert_eq!((judged(&again, &cleared), again == case.new), (true, cut > COMMIT));
        let other = if cut > COMMIT { &case.old } else { &case.new };
        let mixture = [&case.new[..32], &case.old[32..]].concat();
        assert!(!judged(other, &cleared) && !judged(&mixture, &cleared));
        let mut wiped = cleared.clone();
        wiped[16 * 6 + 3] = 0;
        assert!(!judged(&again, &wiped) && (cleared == journal || !judged(&again, &journal)));
        if let Some(store) = case.stores.get(cut) {
            store.make(&mut area, &mut journal);
        }
    }
}

/// A whole edit: of its result only the new area and the spent records pass.
#[test]
fn a_whole_edit() {
    let case = case();
    let (mut area, mut journal) = (case.old.clone(), case.journal.clone());
    case.stores.iter().for_each(|store| store.make(&mut area, &mut journal));
    let judged = |area: &[u8], journal: &[u8]| {
        after_edit(&case.old, &case.new, &case.journal, Sight { area, journal }).is_ok()
    };
    assert!(judged(&area, &journal));
    assert!(!judged(&case.old, &journal) && !judged(&area, &case.journal));
    for place in 0..journal.len() {
        let mut other = journal.clone();
        other[place] ^= 1;
        assert!(!judged(&area, &other), "{place}");
    }
}

/// Any recovery: what it makes passes, and no byte else of either buffer; nor does a word behind the commit that is
/// applied, nor 17 after a store.
#[test]
fn any_recovery() {
    let record = |kind: u8, offset: u8, byte: u8| {
        let mut record = [byte; 16];
        record[..8].copy_from_slice(&[kind, 0, 0, 0, offset, 0, 0, 0]);
        record
    };
    let (area, journal) = ([0x11; 30], [record(1, 8, 2), record(2, 0, 0), record(1, 16, 3)].concat());
    let (mut after, mut cleared) = (area.to_vec(), journal.clone());
    model_journal::recover(area.len(), &journal).run(&mut after, &mut cleared);
    let judged = |after: &[u8], cleared: &[u8], number: u32| {
        let before = Sight { area: &area, journal: &journal };
        after_any_recovery(before, Sight { area: after, journal: cleared }, number).is_ok()
    };
    assert!(judged(&after, &cleared, 0) && judged(&area, &journal, 17));
    for place in 0..after.len() {
        let mut other = after.clone();
        other[place] ^= 1;
        assert!(!judged(&other, &cleared, 0));
    }
    for place in 0..cleared.len() {
        let mut other = cleared.clone();
        other[place] ^= 1;
        assert!(!judged(&after, &other, 0));
    }
    let mut too_many = after.clone();
    too_many[16..24].fill(3);
    assert!(!judged(&too_many, &cleared, 0) && !judged(&area, &cleared, 0) && !judged(&area, &cleared, 17));
}

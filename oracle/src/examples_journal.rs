//! Document 02, request 9, on the model, worked out by hand.

use crate::demand::Edit;
use crate::model::{self, Done};
use crate::model_journal::*;

const BASE: u64 = 0x1000;
const B_ADD: Edit = Edit::Add { tag: 1, data: &[0xaa, 0xbb, 0xcc], use_voids: true };
const C_VOID: Edit = Edit::Void { tag: 1, n: 0 };
const D_ADD: Edit = Edit::Add { tag: 2, data: &[], use_voids: true };

fn hex(text: &str) -> Vec<u8> {
    text.split_whitespace().map(|byte| u8::from_str_radix(byte, 16).unwrap()).collect()
}

fn filled(text: &str, last: u8, len: usize) -> Vec<u8> {
    let mut bytes = hex(text);
    bytes.resize(len, last);
    bytes
}

// The bench examples of document 01, 64 bytes each.

fn a() -> Vec<u8> {
    filled("0b b1 0f 4a bc 01 18 03 18 00 00 00 40 00 00 00 01 00 00 00 00 00 00 00", 0, 64)
}

fn b() -> Vec<u8> {
    let text = "0b b1 0f 4a 5b 01 18 03 28 00 00 00 40 00 00 00 01 00 00 00 00 00 00 00 \
                01 00 00 08 03 00 00 00 aa bb cc 00 00 00 00 00";
    filled(text, 0, 64)
}

fn c() -> Vec<u8> {
    let text = "0b b1 0f 4a 8c 01 18 03 28 00 00 00 40 00 00 00 01 00 00 00 00 00 00 00 \
                00 00 00 08 08 00 00 00";
    filled(text, 0, 64)
}

/// The journal once the commit is stored.
const B_JOURNAL: &str = "01 00 00 00 00 00 00 00 0b b1 0f 4a 5b 01 18 03 \
                         01 00 00 00 08 00 00 00 28 00 00 00 40 00 00 00 \
                         01 00 00 00 18 00 00 00 01 00 00 08 03 00 00 00 \
                         01 00 00 00 20 00 00 00 aa bb cc 00 00 00 00 00 \
                         02 00 00 00 00 00 00 00 00 00 00 00 00 00 00 00";

fn number(number: u32) -> Done {
    Done { number, ..Done::default() }
}

fn after(stores: &[Store], area: &[u8], journal: &[u8]) -> (Vec<u8>, Vec<u8>) {
    let (mut area, mut journal) = (area.to_vec(), journal.to_vec());
    stores.iter().for_each(|store| store.make(&mut area, &mut journal));
    (area, journal)
}

fn recovered(area: &[u8], journal: &[u8]) -> (Done, Vec<u8>, Vec<u8>) {
    let (mut area, mut journal) = (area.to_vec(), journal.to_vec());
    let done = recover(area.len(), &journal).run(&mut area, &mut journal);
    (done, area, journal)
}

/// A to B: the checksum, used_size, the entry's header and its data are in four words. The journal has a record
/// more, whose bytes stay, and two odd bytes.
#[test]
fn from_a_to_b() {
    let journal =
        vec![0x5a; 98].into_iter().enumerate().map(|(at, byte)| if at % 16 == 0 { 0 } else { byte });
    let mut journal: Vec<u8> = journal.collect();
    journal[96] = 0x5a;
    let decided = edit(&a(), BASE, &B_ADD, &journal);
    assert_eq!(decided.done, Done { number: 0, value: 32, at: 0 });
    let offsets: Vec<u32> = decided.words().iter().map(|word| word.offset).collect();
    assert_eq!(offsets, [0, 8, 24, 32]);
    let stores = decided.stores();
    assert_eq!(stores.len(), 16 * 5 + 8 * 4 + 6);
    let whole = [&hex(B_JOURNAL)[..], &journal[80..]].concat();
    assert_eq!(after(&stores[..79], &a(), &journal).0, a());
    assert_eq!(after(&stores[..80], &a(), &journal), (a(), whole.clone()));
    assert_eq!(after(&stores[..112], &a(), &journal), (b(), whole.clone()));
    let mut cleared = whole;
    (0..6).for_each(|index| cleared[16 * index] = 0);
    assert_eq!(after(&stores, &a(), &journal), (b(), cleared));
}

/// The order of the stores, byte by byte: bytes 1 to 15 rising, the kind last; each byte of a word; each kind.
#[test]
fn the_order_of_the_stores() {
    let decided = edit(&a(), BASE, &B_ADD, &[0; 96]);
    let stores = decided.stores();
    let places =
        |from: usize, to: usize| stores[from..to].iter().map(|store| store.place).collect::<Vec<_>>();
    assert_eq!(places(0, 16), [1, 2, 3, 4, 5, 6, 7, 8, 9, 10, 11, 12, 13, 14, 15, 0]);
    assert_eq!(places(64, 80), [65, 66, 67, 68, 69, 70, 71, 72, 73, 74, 75, 76, 77, 78, 79, 64]);
    assert_eq!(places(80, 96), [0, 1, 2, 3, 4, 5, 6, 7, 8, 9, 10, 11, 12, 13, 14, 15]);
    assert_eq!(places(96, 112), [24, 25, 26, 27, 28, 29, 30, 31, 32, 33, 34, 35, 36, 37, 38, 39]);
    assert_eq!(places(112, 118), [0, 16, 32, 48, 64, 80]);
    assert!(stores[..80].iter().all(|store| store.buffer == Lent::Journal));
    assert!(stores[80..112].iter().all(|store| store.buffer == Lent::Area));
    assert!(stores[112..].iter().all(|store| store.buffer == Lent::Journal && store.value == 0));
    assert_eq!(stores[15], Store { buffer: Lent::Journal, place: 0, value: 1 });
    assert_eq!(stores[79], Store { buffer: Lent::Journal, place: 64, value: 2 });
    assert_eq!(stores[84], Store { buffer: Lent::Area, place: 4, value: 0x5b });
}

/// B to C: used_size stays, and so word 8 has no record.
#[test]
fn word_8_only_if_it_changes() {
    let decided = edit(&b(), BASE, &C_VOID, &[0; 64]);
    let offsets: Vec<u32> = decided.words().iter().map(|word| word.offset).collect();
    assert_eq!((decided.done.value, &offsets[..]), (24, &[0, 24, 32][..]));
    assert_eq!(after(&decided.stores(), &b(), &[0; 64]).0, c());
    let decided = edit(&c(), BASE, &D_ADD, &[0; 64]);
    let offsets: Vec<u32> = decided.words().iter().map(|word| word.offset).collect();
    assert_eq!((decided.done.value, &offsets[..]), (32, &[0, 24, 32][..]));
}

/// Without has_checksum the checksum byte stays 0, and so does word 0: an entry without data changes one word
/// where it is voided.
#[test]
fn one_word_changed() {
    let mut area = vec![0; 43];
    model::create(&mut area, BASE, false);
    model::add(&mut area, BASE, 7, &[], true);
    let mut journal = filled("00 ff ff ff ff ff ff ff ff ff ff ff ff ff ff ff", 0xee, 37);
    journal[16] = 0;
    let stores = edit(&area, BASE, &Edit::Void { tag: 7, n: 0 }, &journal).stores();
    let word = hex("01 00 00 00 18 00 00 00 00 00 00 08 00 00 00 00");
    let mut wanted: Vec<(Lent, usize, u8)> = Vec::new();
    (1..16).for_each(|byte| wanted.push((Lent::Journal, byte, word[byte])));
    wanted.push((Lent::Journal, 0, 1));
    (17..32).for_each(|place| wanted.push((Lent::Journal, place, 0)));
    wanted.push((Lent::Journal, 16, 2));
    (0..8).for_each(|byte| wanted.push((Lent::Area, 24 + byte, word[8 + byte])));
    wanted.extend([(Lent::Journal, 0, 0), (Lent::Journal, 16, 0)]);
    let given: Vec<_> = stores.iter().map(|store| (store.buffer, store.place, store.value)).collect();
    assert_eq!(given, wanted);
}

#[test]
fn refusal_16() {
    let refused = |journal: &[u8]| {
        let decided = edit(&a(), BASE, &B_ADD, journal);
        assert!(decided.done.number == 0 || decided.stores().is_empty());
        decided.done == number(JOURNAL)
    };
    for (len, is_refused) in
        [(0, true), (15, true), (16, true), (32, true), (79, true), (80, false), (95, false)]
    {
        assert_eq!(refused(&vec![0; len]), is_refused, "{len}");
    }
    for (place, kind) in (0..7).flat_map(|index| [1, 2, 3, 255].map(|kind| (16 * index, kind))) {
        let mut journal = vec![0; 112];
        journal[place] = kind;
        assert!(refused(&journal));
        assert!(!refused(&journal[..place.max(80)]) || place < 80);
    }
    let mut odd = vec![9; 95];
    (0..5).for_each(|index| odd[16 * index] = 0);
    assert!(!refused(&odd));
}

/// "After all others."
#[test]
fn other_refusals_come_before_16() {
    let mut bad = b();
    bad[27] = 9;
    bad[4] ^= 1;
    let entry = Done { number: model::ENTRY, value: 0, at: 24 };
    assert_eq!(edit(&bad, BASE, &B_ADD, &[]).done, entry);
    assert_eq!(edit(&a(), 4, &B_ADD, &[]).done, number(model::AREA));
    assert_eq!(edit(&a(), BASE, &C_VOID, &[1; 16]).done, number(model::NONE));
    let full = Edit::AddAligned { tag: 1, data: &[0; 33], exponent: 3 };
    assert_eq!(edit(&a(), BASE, &full, &[]).done, number(model::ROOM));
}

fn record(kind: u8, offset: u32, byte: u8) -> [u8; 16] {
    let mut record = [byte; 16];
    record[..4].copy_from_slice(&[kind, 0, 0, 0]);
    record[4..8].copy_from_slice(&offset.to_le_bytes());
    record
}

#[test]
fn what_recovery_applies() {
    let (w, commit, empty) = (|offset, byte| record(1, offset, byte), record(2, 0, 0), record(0, 0, 0));
    let area = [0x11; 20];
    let both = [[2; 8], [3; 8]].concat();
    for (row, front) in [
        (vec![w(0, 2), w(8, 3), commit], both.clone()),
        (vec![w(8, 3), w(0, 9), w(0, 2), commit, w(0, 4)], both.clone()),
        (vec![w(0, 2), w(8, 3), record(2, 77, 7), record(1, 3, 3)], both),
        (vec![w(0, 2), w(8, 3)], vec![0x11; 16]),
        (vec![w(0, 2), empty, commit], vec![0x11; 16]),
        (vec![commit, w(0, 2)], vec![0x11; 16]),
        (vec![w(3, 2), w(16, 3), empty], vec![0x11; 16]),
        (vec![], vec![0x11; 16]),
    ] {
        let mut journal = row.as_flattened().to_vec();
        journal.extend([1, 2, 3]);
        let (done, after, cleared) = recovered(&area, &journal);
        assert_eq!((done, &after[..16], &after[16..]), (number(0), &front[..], &[0x11; 4][..]));
        (0..row.len()).for_each(|index| journal[16 * index] = 0);
        assert_eq!(cleared, journal);
    }
}

#[test]
fn refusal_17() {
    let (commit, empty) = (record(2, 0, 0), record(0, 0, 0));
    for (row, area_len) in [
        (vec![record(3, 0, 0)], 8),
        (vec![record(1, 0, 0), commit, record(255, 0, 0)], 8),
        (vec![empty, record(3, 0, 0)], 8),
        (vec![record(1, 4, 0), commit], 64),
        (vec![record(1, 8, 0), commit], 15),
        (vec![record(1, 8, 0), commit], 8),
        (vec![record(1, 0xffff_fff8, 0), commit], 64),
        (vec![record(1, 0, 0), record(1, 0, 0), record(1, 8, 0), commit], 9),
        (vec![record(1, 0, 0), commit], 0),
    ] {
        let area = vec![0x11; area_len];
        let journal = row.as_flattened();
        assert_eq!(recovered(&area, journal), (number(RECOVERY), area.clone(), journal.to_vec()));
    }
    assert_eq!(recover(16, [record(1, 8, 0), commit].as_flattened()).done, number(0));
    assert_eq!(recover(0, &[0; 40]).stores().len(), 2);
    assert!(recover(8, &[3; 15]).stores().is_empty());
}

/// Every cut, and every cut of the recovery after it, leaves what recovery makes the old area or the new one of.
#[test]
fn every_cut() {
    let journal = [0; 16 * 6 + 3];
    let stores = edit(&a(), BASE, &B_ADD, &journal).stores();
    for cut in 0..=stores.len() {
        let wanted = if cut >= 80 { b() } else { a() };
        let (area, left) = after(&stores[..cut], &a(), &journal);
        let again = recover(area.len(), &left).stores();
        for second in 0..=again.len() {
            let (area, left) = after(&again[..second], &area, &left);
            let (done, area, left) = recovered(&area, &left);
            assert_eq!((done, &area), (number(0), &wanted));
            assert!(left.chunks_exact(16).all(|record| record[0] == 0));
        }
    }
}

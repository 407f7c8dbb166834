//! The edges of recovery, made on purpose on every run (document 02, request 9): every row of up to four records
//! out of eleven sorts, every kind at every place, every offset around the end of areas of every short length,
//! the bytes that are not judged, words for the same place, buffers without a byte, and the longest.

use crate::compare::{hex, Bench};
use crate::edges_tidy::expect;
use oracle::lists::MOST_LENT;
use oracle::model_journal::{kind, RECORD, RECOVERY};

/// What stands in the areas: they are no lists.
const BYTE: u8 = 0xc3;
/// No row of records that is made in every way has more than these.
const LONGEST_ROW: u32 = 4;
const AREAS: [usize; 7] = [0, 7, 8, 9, 16, 21, 24];

type Record = [u8; RECORD];

fn record(kind: u8, offset: u32, byte: u8) -> Record {
    let mut record = [byte; RECORD];
    record[..4].copy_from_slice(&[kind, 0, 0, 0]);
    record[4..8].copy_from_slice(&offset.to_le_bytes());
    record
}

fn word(offset: u32, byte: u8) -> Record {
    record(kind::WORD, offset, byte)
}

const EMPTY: Record = [0; RECORD];
const COMMIT: Record = [kind::COMMIT, 0, 0, 0, 0, 0, 0, 0, 0, 0, 0, 0, 0, 0, 0, 0];

/// A record of these bytes everywhere but for the kind.
fn filled(kind: u8, byte: u8) -> Record {
    let mut record = [byte; RECORD];
    record[0] = kind;
    record
}

/// A word whose bytes 1 to 3 are not 0.
fn dirty_word(offset: u32, byte: u8) -> Record {
    let mut record = word(offset, byte);
    record[1..4].copy_from_slice(&[0xff, 1, 2]);
    record
}

/// What a row is made of.
fn sorts() -> [Record; 11] {
    [
        EMPTY,
        filled(kind::EMPTY, 0x11),
        word(0, 0x22),
        word(8, 0x33),
        dirty_word(0, 0x44),
        word(4, 0x55),
        word(16, 0x66),
        COMMIT,
        filled(kind::COMMIT, 0x77),
        record(3, 0, 0x88),
        record(0xff, 8, 0x99),
    ]
}

/// Whether a word of this offset may be applied in an area of so many bytes.
fn fits(offset: u64, area_len: usize) -> bool {
    offset.is_multiple_of(8) && offset + 8 <= area_len as u64
}

impl Bench {
    pub fn edges_recovery(&mut self) -> Result<(), String> {
        for length in 0..=LONGEST_ROW {
            self.rows_of_records(length)?;
        }
        self.each_kind_at_each_place()?;
        self.each_offset()?;
        self.applied_by_hand()?;
        self.recoveries_without_a_byte()?;
        self.longest_recoveries()
    }

    fn rows_of_records(&mut self, length: u32) -> Result<(), String> {
        let sorts = sorts();
        for code in 0..sorts.len().pow(length) {
            let digit = |at| code / sorts.len().pow(at) % sorts.len();
            let mut journal: Vec<u8> = (0..length).flat_map(|at| sorts[digit(at)]).collect();
            journal.resize(journal.len() + code % 3, 2);
            // The longest rows take turns with the areas.
            let areas = if length < LONGEST_ROW { &AREAS[..] } else { &AREAS[code % AREAS.len()..][..1] };
            for area_len in areas {
                self.recovery(&vec![BYTE; *area_len], &journal)?;
            }
        }
        Ok(())
    }

    /// 17 comes for each kind over 2, in front, among words, instead of the commit and behind it.
    fn each_kind_at_each_place(&mut self) -> Result<(), String> {
        let row = [word(0, 1), word(8, 2), COMMIT, word(0, 3), EMPTY, EMPTY];
        for kind in 0..=255 {
            let number = if kind > 2 { RECOVERY } else { 0 };
            for place in 0..row.len() {
                let mut row = row;
                row[place][0] = kind;
                expect(self.recovery(&[BYTE; 20], row.as_flattened())?.number, number)?;
                // Without a commit, and with none but an empty record before it.
                let mut uncommitted = row;
                uncommitted[2 - usize::from(place == 2)][0] = kind::EMPTY;
                self.recovery(&[BYTE; 20], uncommitted.as_flattened())?;
            }
        }
        Ok(())
    }

    /// A word that would be applied, alone, first or last of three, for each short area and each offset around
    /// it; the same words where there is no commit, or it comes first, are not judged.
    fn each_offset(&mut self) -> Result<(), String> {
        let far = [0x7fff_fff8, 0x8000_0000, 0xffff_fff0, 0xffff_fff7, 0xffff_fff8, 0xffff_ffff];
        for area_len in 0..=33 {
            let area = vec![BYTE; area_len];
            for offset in (0..=area_len as u32 + 9).chain(far) {
                let one = word(offset, 0x5a);
                let number = if fits(offset.into(), area_len) { 0 } else { RECOVERY };
                expect(self.recovery(&area, [one, COMMIT].as_flattened())?.number, number)?;
                expect(self.recovery(&area, [one, EMPTY, COMMIT].as_flattened())?.number, 0)?;
                expect(self.recovery(&area, [COMMIT, one].as_flattened())?.number, 0)?;
                expect(self.recovery(&area, &one)?.number, 0)?;
                if area_len >= 8 {
                    let (before, behind) =
                        ([word(0, 1), word(0, 2), one, COMMIT], [one, word(0, 1), COMMIT, EMPTY]);
                    expect(self.recovery(&area, before.as_flattened())?.number, number)?;
                    expect(self.recovery(&area, behind.as_flattened())?.number, number)?;
                }
            }
        }
        Ok(())
    }

    /// What becomes of an area, as it is worked out by hand.
    fn applied_by_hand(&mut self) -> Result<(), String> {
        let area = [BYTE; 27];
        let with = |words: &[(usize, u8)]| {
            let mut area = area;
            words.iter().for_each(|(offset, byte)| area[*offset..offset + 8].fill(*byte));
            area
        };
        let dirty = filled(kind::COMMIT, 0x77);
        for (row, after) in [
            (vec![word(0, 1), word(16, 2), COMMIT], with(&[(0, 1), (16, 2)])),
            (vec![word(16, 2), word(0, 1), COMMIT], with(&[(0, 1), (16, 2)])),
            (vec![word(8, 1), word(8, 2), COMMIT], with(&[(8, 2)])),
            (vec![word(8, 2), word(0, 3), word(8, 1), COMMIT], with(&[(0, 3), (8, 1)])),
            (vec![dirty_word(8, 1), dirty], with(&[(8, 1)])),
            (vec![word(8, 1), COMMIT, word(16, 2), COMMIT], with(&[(8, 1)])),
            (vec![word(8, 1), COMMIT, word(9, 2), word(24, 3)], with(&[(8, 1)])),
            (vec![word(8, 1), EMPTY, COMMIT], area),
            (vec![word(8, 1), filled(kind::EMPTY, 2), word(16, 2), COMMIT], area),
            (vec![COMMIT, word(8, 1), COMMIT], area),
            (vec![word(8, 1), word(16, 2)], area),
            (vec![word(9, 1), word(24, 2)], area),
            (vec![EMPTY, EMPTY], area),
            (vec![EMPTY, word(8, 1), COMMIT], area),
        ] {
            let journal = row.as_flattened();
            expect(self.recovery(&area, journal)?.number, 0)?;
            let mut lent = self.lend_three(&area, &[], journal);
            crate::library::recover(&mut lent);
            if lent.area.bytes() != after || lent.journal.bytes().chunks_exact(RECORD).any(|one| one[0] != 0)
            {
                let (given, wanted, journal) = (hex(lent.area.bytes()), hex(&after), hex(journal));
                return Err(format!("a recovery\n  journal {journal}\n  made {given}\n  not  {wanted}"));
            }
        }
        Ok(())
    }

    /// Journals and areas of no byte, lent as NULL and not, and journals without a whole record.
    fn recoveries_without_a_byte(&mut self) -> Result<(), String> {
        for start in [0, 1] {
            for len in [0, 1, 15, 16, 17, 31, 32, 33] {
                for area_len in [0, 8] {
                    for byte in [0, 2] {
                        self.guards.start_at(start);
                        expect(self.recovery(&vec![BYTE; area_len], &vec![byte; len])?.number, 0)?;
                    }
                    let number = if len < RECORD { 0 } else { RECOVERY };
                    self.guards.start_at(start);
                    expect(self.recovery(&vec![BYTE; area_len], &vec![3; len])?.number, number)?;
                }
            }
        }
        Ok(())
    }

    /// 4,095 words and a commit fill 65,536 bytes; areas of as many, and the last word of them.
    fn longest_recoveries(&mut self) -> Result<(), String> {
        let area = vec![BYTE; MOST_LENT];
        let mut row: Vec<Record> = (0..4095).map(|index| word(16 * index, index as u8)).collect();
        row.push(COMMIT);
        expect(self.recovery(&area, row.as_flattened())?.number, 0)?;
        for (offset, number) in [(MOST_LENT as u32 - 8, 0), (MOST_LENT as u32, RECOVERY)] {
            row[4094] = word(offset, 0x5a);
            expect(self.recovery(&area, row.as_flattened())?.number, number)?;
            expect(self.recovery(&area, [word(offset, 1), COMMIT].as_flattened())?.number, number)?;
        }
        row[4095] = EMPTY;
        expect(self.recovery(&area, row.as_flattened())?.number, 0)?;
        row[4095] = word(0, 1);
        expect(self.recovery(&area, row.as_flattened())?.number, 0)?;
        row[4095] = record(3, 0, 1);
        expect(self.recovery(&area, row.as_flattened())?.number, RECOVERY)
    }
}

//! "Accepted means derivable": of all rows of up to six tokens the model accepts just those that the
//! grammar gives when it is used to make rows and not to read them.

use crate::fdt_tree::{Piece, Tree};
use crate::model_fdt::check;
use std::collections::BTreeSet;

/// A NOP, a node's start without and with a name, a property, END_NODE and END.
const LETTERS: &[u8] = b".rapeE";
const LONGEST: usize = 6;

type Rows = BTreeSet<Vec<u8>>;

fn letter(letter: u8) -> Rows {
    Rows::from([vec![letter]])
}

/// One row of each kind after the other.
fn in_turn(kinds: &[&Rows]) -> Rows {
    let mut all = Rows::from([Vec::new()]);
    for kind in kinds {
        let longer = all.iter().flat_map(|front| kind.iter().map(move |row| [&front[..], row].concat()));
        all = longer.filter(|row| row.len() <= LONGEST).collect();
    }
    all
}

/// Any number of rows of a kind, which are not empty.
fn any_number(kind: &Rows) -> Rows {
    let mut all = Rows::from([Vec::new()]);
    for _ in 0..LONGEST {
        all.extend(in_turn(&[&all, kind]));
    }
    all
}

fn derivable() -> Rows {
    let nops = any_number(&letter(b'.'));
    let properties = any_number(&in_turn(&[&nops, &letter(b'p')]));
    let mut node = Rows::new();
    let mut members = Rows::new();
    for _ in 0..LONGEST {
        let nodes = any_number(&in_turn(&[&nops, &node]));
        members = in_turn(&[&properties, &nodes, &nops, &letter(b'e')]);
        node = in_turn(&[&[b"r".to_vec(), b"a".to_vec()].into(), &members]);
    }
    in_turn(&[&nops, &letter(b'r'), &members, &nops, &letter(b'E')])
}

fn written(row: &[u8]) -> Vec<u8> {
    let piece = |letter: &u8| match letter {
        b'.' => Piece::Nop,
        b'r' => Piece::Begin(Vec::new()),
        b'a' => Piece::Begin(b"a".to_vec()),
        b'p' => Piece::Property { name: 0, value: vec![1] },
        b'e' => Piece::EndNode,
        _ => Piece::End,
    };
    Tree::plain(&row.iter().map(piece).collect::<Vec<Piece>>(), b"x\0").bytes()
}

#[test]
fn accepted_means_derivable() {
    let derivable = derivable();
    let mut accepted = 0;
    for length in 0..=LONGEST {
        for mut index in 0..LETTERS.len().pow(length as u32) {
            let mut row = Vec::new();
            for _ in 0..length {
                row.push(LETTERS[index % LETTERS.len()]);
                index /= LETTERS.len();
            }
            let is_accepted = check(&written(&row)) == 0;
            assert_eq!(is_accepted, derivable.contains(&row), "{}", row.escape_ascii());
            accepted += usize::from(is_accepted);
        }
    }
    assert_eq!(accepted, derivable.len());
    assert!(accepted > 20);
}

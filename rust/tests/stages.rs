//! Widening table after table: the order and the number of the stages change no document let in.
#[allow(dead_code)] // each test uses a part of it
mod common;

use cogarrune::*;
use common::*;

const SIZES: [Size; 3] = [Size::Small, Size::Standard, Size::Large];

type Widen = for<'a> fn(Size, &Classes, &[u8], &[u8], &'a mut [u8], &mut [u32]) -> Result<&'a [u8], Refusal>;
const KINDS: [Widen; 2] = [widen_local_by_table, widen_single_type_by_table];

/// The table after widening by each addition in turn.
fn by_stages(size: Size, widen: Widen, old: &[u8], additions: &[&[u8]]) -> Vec<u8> {
    additions.iter().fold(old.to_vec(), |table, addition| {
        widen(
            size,
            ASCII,
            &table,
            addition,
            &mut vec![0; MOST_BYTES],
            &mut new_work(size),
        )
        .unwrap()
        .to_vec()
    })
}

fn let_in(size: Size, table: &[u8], document: &[u8]) -> bool {
    lets_in(size, ASCII, table, FILE, document, &mut new_work(size))
        .unwrap()
        .is_yes()
}

/// A list of rows, each with its leaves.
fn list(rows: &[(&str, &[&str])]) -> Vec<u8> {
    let rows: Vec<Vec<u8>> = rows
        .iter()
        .map(|(name, leaves)| node(name, &leaves.iter().map(|leaf| node(leaf, &[])).collect::<Vec<_>>()))
        .collect();
    document(node("list", &rows))
}

/// The old table: a list of one card with a name. A: a list of one visitor with a name or none. B: a list of two cards, each with a zone.
fn tables() -> [Vec<u8>; 3] {
    let old = table(&[0], &[(0, "list", &t(1)), (1, "card", &t(2)), (2, "name", EMPTY)]);
    let a = table(
        &[0],
        &[
            (0, "list", &t(1)),
            (1, "visitor", &choice(&[&t(2), EMPTY])),
            (2, "name", EMPTY),
        ],
    );
    let b = table(
        &[0],
        &[
            (0, "list", &sequence(&[&t(1), &t(1)])),
            (1, "card", &t(2)),
            (2, "zone", EMPTY),
        ],
    );
    [old, a, b]
}

/// Every list of at most three rows: cards and visitors with a name, a zone, both or neither.
fn lists() -> Vec<Vec<u8>> {
    let leaves: [&[&str]; 4] = [&[], &["name"], &["zone"], &["name", "zone"]];
    let rows: Vec<(&str, &[&str])> = ["card", "visitor"]
        .into_iter()
        .flat_map(|name| leaves.map(|leaf| (name, leaf)))
        .collect();
    let mut all: Vec<Vec<(&str, &[&str])>> = vec![vec![]];
    let mut longest = all.clone();
    for _ in 0..3 {
        longest = longest
            .iter()
            .flat_map(|short| rows.iter().map(move |row| [&short[..], &[*row]].concat()))
            .collect();
        all.extend(longest.clone());
    }
    all.iter().map(|rows| list(rows)).collect()
}

#[test]
fn either_order_lets_in_the_same_lists() {
    let [old, a, b] = tables();
    for size in SIZES {
        for widen in KINDS {
            let ab = by_stages(size, widen, &old, &[&a, &b]);
            let ba = by_stages(size, widen, &old, &[&b, &a]);
            assert_ne!(ab, ba, "labels come in the order in which they are met");
            let verdicts: Vec<bool> = lists().iter().map(|list| let_in(size, &ab, list)).collect();
            assert_eq!(
                verdicts,
                lists().iter().map(|list| let_in(size, &ba, list)).collect::<Vec<_>>()
            );
            // one card in two ways, one visitor in two, two cards in four
            assert_eq!(verdicts.iter().filter(|yes| **yes).count(), 2 + 2 + 4);
        }
    }
}

#[test]
fn the_empty_table_changes_nothing() {
    let [old, a, _] = tables();
    for size in SIZES {
        for widen in KINDS {
            let after = by_stages(size, widen, &old, &[&a, E]);
            let before = by_stages(size, widen, &old, &[&a]);
            for list in lists() {
                assert_eq!(let_in(size, &after, &list), let_in(size, &before, &list));
            }
        }
    }
}

#[test]
fn a_document_counts_as_its_sample() {
    let [old, a, _] = tables();
    let zones = list(&[("card", &["zone"]), ("card", &["zone"])]);
    for size in SIZES {
        let (mut out, mut work) = (vec![0; MOST_BYTES], new_work(size));
        let sampled = sample(size, ASCII, FILE, &zones, &mut out, &mut work).unwrap().to_vec();
        let first = by_stages(size, widen_local_by_table, &old, &[&a]);
        let by_document = widen_local_by_document(size, ASCII, &first, FILE, &zones, &mut out, &mut work)
            .unwrap()
            .to_vec();
        let by_sample_first = by_stages(size, widen_local_by_table, &old, &[&sampled, &a]);
        for list in lists() {
            assert_eq!(let_in(size, &by_document, &list), let_in(size, &by_sample_first, &list));
        }
        assert!(let_in(size, &by_sample_first, &zones));
    }
}

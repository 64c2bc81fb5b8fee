//! The limits of each size, at their edges.
#[allow(dead_code)] // each test uses a part of it
mod common;

use cogarrune::*;
use common::*;

/// Each size with its limit on rules, labels, starts and types, on nodes, and on levels.
const LIMITS: [(Size, u8, usize, usize); 3] = [
    (Size::Small, 16, 256, 16),
    (Size::Standard, 64, 1024, 64),
    (Size::Large, 128, 2048, 64),
];

/// A table of so many rules of one label.
fn rules(count: u8) -> Vec<u8> {
    let rules: Vec<(u8, &str, &[u8])> = (0..count).map(|_| (0, "list", EMPTY)).collect();
    table(&[0], &rules)
}

/// A document of so many nodes, on three levels at most.
fn nodes(count: usize) -> Vec<u8> {
    let mut left = count - 1;
    let mut groups = Vec::new();
    while left > 0 {
        let children = (left - 1).min(199);
        groups.push(node("group", &vec![node("card", &[]); children]));
        left -= 1 + children;
    }
    document(node("list", &groups))
}

/// A document of so many levels.
fn levels(count: usize) -> Vec<u8> {
    document((1..count).fold(node("a", &[]), |below, _| node("a", &[below])))
}

#[test]
fn rules_to_the_limit() {
    for (size, most, _, _) in LIMITS {
        let reads = |count| table_reads(size, ASCII, &rules(count), &mut new_work(size));
        assert_eq!(reads(most), Ok(()));
        assert_eq!(reads(most + 1), Err(Refusal::TooMany));
    }
}

#[test]
fn types_below_the_limit() {
    for (size, most, _, _) in LIMITS {
        let reads = |start, rule, inner| {
            let table = table(&[start], &[(rule, "list", &t(inner))]);
            table_reads(size, ASCII, &table, &mut new_work(size))
        };
        let (last, next) = (most - 1, most);
        assert_eq!(reads(last, last, last), Ok(()));
        assert_eq!(reads(next, last, last), Err(Refusal::OutOfRange));
        assert_eq!(reads(last, next, last), Err(Refusal::OutOfRange));
        assert_eq!(reads(last, last, next), Err(Refusal::BadContent));
    }
}

#[test]
fn one_start_too_many() {
    for (size, most, _, _) in LIMITS {
        let starts = |last| {
            let starts: Vec<u8> = (0..most).chain([last]).collect();
            table_reads(size, ASCII, &table(&starts, &[]), &mut new_work(size))
        };
        assert_eq!(starts(0), Err(Refusal::Repeated));
        assert_eq!(starts(most), Err(Refusal::TooMany));
        assert_eq!(starts(255), Err(Refusal::TooMany));
    }
}

#[test]
fn nodes_and_levels_to_the_limit() {
    for (size, _, most_nodes, most_levels) in LIMITS {
        let reads = |document: Vec<u8>| document_reads(size, ASCII, FILE, &document, &mut new_work(size));
        assert_eq!(reads(nodes(most_nodes)), Ok(()));
        assert_eq!(reads(nodes(most_nodes + 1)), Err(Refusal::BadTree));
        assert_eq!(reads(levels(most_levels)), Ok(()));
        assert_eq!(reads(levels(most_levels + 1)), Err(Refusal::BadTree));
    }
}

#[test]
fn a_sample_has_as_many_types_as_its_size_allows() {
    for (size, most, _, _) in LIMITS {
        let taken = |children| {
            let children: Vec<Vec<u8>> = (0..children).map(|i| node(&format!("c{i}"), &[])).collect();
            let document = document(node("list", &children));
            sample(
                size,
                ASCII,
                FILE,
                &document,
                &mut vec![0; MOST_BYTES],
                &mut new_work(size),
            )
            .map(<[u8]>::to_vec)
        };
        let table = taken(most - 1).unwrap();
        assert_eq!(table_reads(size, ASCII, &table, &mut new_work(size)), Ok(()));
        assert_eq!(taken(most), Err(Refusal::ResultTooLarge));
    }
}

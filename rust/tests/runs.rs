//! A run of neighbours of one name is one or more of it in a sample: a list of nine lets in ten.
#[allow(dead_code)] // each test uses a part of it
mod common;

use cogarrune::*;
use common::*;

const SIZES: [Size; 3] = [Size::Small, Size::Standard, Size::Large];

/// A node and its leaves, a letter each.
fn row(name: &str, leaves: &str) -> Vec<u8> {
    let leaves: Vec<Vec<u8>> = leaves.chars().map(|leaf| node(&leaf.to_string(), &[])).collect();
    node(name, &leaves)
}

/// A list of so many cards.
fn list(count: usize) -> Vec<u8> {
    document(node("list", &vec![node("card", &[]); count]))
}

/// A table of lists with that content, in which type 1 is a card.
fn cards(content: &[u8]) -> Vec<u8> {
    table(&[0], &[(0, "list", content), (1, "card", EMPTY)])
}

fn sampled(size: Size, document: &[u8]) -> Result<Vec<u8>, Refusal> {
    sample(
        size,
        ASCII,
        FILE,
        document,
        &mut vec![0; MOST_BYTES],
        &mut new_work(size),
    )
    .map(<[u8]>::to_vec)
}

/// The widenings by a document, to local and to single-type.
fn wider(size: Size, old: &[u8], list: &[u8]) -> [Result<Vec<u8>, Refusal>; 2] {
    let (mut out, mut work) = (vec![0; MOST_BYTES], new_work(size));
    [
        widen_local_by_document(size, ASCII, old, FILE, list, &mut out, &mut work).map(<[u8]>::to_vec),
        widen_single_type_by_document(size, ASCII, old, FILE, list, &mut out, &mut work).map(<[u8]>::to_vec),
    ]
}

/// The widenings by a table.
fn wider_by_table(size: Size, old: &[u8], addition: &[u8]) -> [Result<Vec<u8>, Refusal>; 2] {
    let (mut out, mut work) = (vec![0; MOST_BYTES], new_work(size));
    [
        widen_local_by_table(size, ASCII, old, addition, &mut out, &mut work).map(<[u8]>::to_vec),
        widen_single_type_by_table(size, ASCII, old, addition, &mut out, &mut work).map(<[u8]>::to_vec),
    ]
}

fn let_in(size: Size, table: &[u8], document: &[u8]) -> bool {
    lets_in(size, ASCII, table, FILE, document, &mut new_work(size))
        .unwrap()
        .is_yes()
}

#[test]
fn a_list_of_nine_lets_in_ten() {
    for size in SIZES {
        for table in wider(size, E, &list(9)).map(Result::unwrap) {
            assert_eq!(table, cards(&[6, 2, 1]));
            assert!([1, 2, 8, 9, 10, 200]
                .iter()
                .all(|count| let_in(size, &table, &list(*count))));
            assert!(!let_in(size, &table, &list(0)));
        }
        // one of one stays one
        for table in wider(size, E, &list(1)).map(Result::unwrap) {
            assert_eq!(table, cards(&[2, 1]));
            assert!(let_in(size, &table, &list(1)));
            assert!(![0, 2, 9].iter().any(|count| let_in(size, &table, &list(*count))));
        }
    }
}

/// Where a run stands, how many there are, and what is none.
#[test]
fn runs_of_neighbours() {
    let (a, b, c) = (t(1), t(2), t(3));
    let (some_a, some_b) = (some(&a), some(&b));
    let contents = [
        ("aa", some_a.clone()),
        ("aaa", some_a.clone()),
        ("aaab", sequence(&[&some_a, &b])),
        ("abb", sequence(&[&a, &some_b])),
        ("abbc", sequence(&[&a, &some_b, &c])),
        ("aabb", sequence(&[&some_a, &some_b])),
        ("aba", sequence(&[&a, &b, &a])),
        ("aabaa", sequence(&[&some_a, &b, &some_a])),
        ("aAb", sequence(&[&some_a, &b])),
    ];
    for (leaves, content) in &contents {
        let mut rules: Vec<(u8, &str, &[u8])> = vec![(0, "r", content)];
        let named = [(1, "a", EMPTY), (2, "b", EMPTY), (3, "c", EMPTY)];
        rules.extend(named.iter().filter(|(_, name, _)| leaves.contains(name)));
        let taken = sampled(Size::Standard, &document(row("r", leaves)));
        assert_eq!(taken, Ok(table(&[0], &rules)), "{leaves}");
    }
}

/// The count byte is the number of operands.
#[test]
fn two_hundred_children() {
    let two = |content: &[u8]| table(&[0], &[(0, "r", content), (1, "a", EMPTY), (2, "b", EMPTY)]);
    let taken = |leaves: &str| sampled(Size::Small, &document(row("r", leaves)));
    let pairs = [t(1), t(2)].concat();
    assert_eq!(
        taken(&"ab".repeat(100)),
        Ok(two(&[&[3, 200][..], &pairs.repeat(100)].concat()))
    );
    let last = [&[3, 199][..], &pairs.repeat(99), &some(&t(1))].concat();
    assert_eq!(taken(&("ab".repeat(99) + "aa")), Ok(two(&last)));
    assert_eq!(
        taken(&("a".repeat(199) + "b")),
        Ok(two(&sequence(&[&some(&t(1)), &t(2)])))
    );
    assert_eq!(sampled(Size::Small, &list(200)), Ok(cards(&some(&t(1)))));
    assert_eq!(sampled(Size::Small, &list(201)), Err(Refusal::BadTree));
}

/// aa and aaa are one sequence, a and aa are two.
#[test]
fn sequences_are_told_apart_with_their_runs() {
    let taken = |groups: &[&str]| {
        let groups: Vec<Vec<u8>> = groups.iter().map(|leaves| row("g", leaves)).collect();
        sampled(Size::Standard, &document(node("r", &groups))).unwrap()
    };
    let told = |content: &[u8]| table(&[0], &[(0, "r", &some(&t(1))), (1, "g", content), (2, "a", EMPTY)]);
    assert_eq!(taken(&["aa", "aaa"]), told(&some(&t(2))));
    assert_eq!(taken(&["a", "aa"]), told(&choice(&[&t(2), &some(&t(2))])));
    assert_eq!(taken(&["aaa", "a", "aa"]), told(&choice(&[&some(&t(2)), &t(2)])));
}

#[test]
fn a_document_is_added_through_its_sample() {
    let (one, run) = (t(1), some(&t(1)));
    let old_and_new = [
        ([&[5][..], &one].concat(), choice(&[&[5, 2, 1], &run])),
        (run.clone(), run.clone()),
        (sequence(&[&one, &one]), choice(&[&sequence(&[&one, &one]), &run])),
        (one.clone(), choice(&[&one, &run])),
    ];
    for size in SIZES {
        let taken = sampled(size, &list(9)).unwrap();
        for (old, new) in &old_and_new {
            let tables = wider(size, &cards(old), &list(9));
            assert_eq!(tables, wider_by_table(size, &cards(old), &taken));
            for table in tables.map(Result::unwrap) {
                assert_eq!(table, cards(new));
                assert!(let_in(size, &table, &list(9)) && let_in(size, &table, &list(10)));
            }
        }
    }
}

//! Names are equal up to letter case: A to Z as a to z, and no other bytes. The first spelling met is kept.
#[allow(dead_code)] // each test uses a part of it
mod common;

use cogarrune::*;
use common::*;

const STANDARD: Size = Size::Standard;

/// The ASCII classes with others for some bytes.
fn loaded(changes: &[(u8, u8)]) -> Classes {
    let mut classes = *Classes::ASCII.as_bytes();
    for (byte, class) in changes {
        classes[usize::from(*byte)] = *class;
    }
    Classes::load(&classes).unwrap()
}

/// A list of cards.
fn cards(list: &str, card: &str) -> Vec<u8> {
    table(&[0], &[(0, list, &[&[5][..], &t(1)].concat()), (1, card, EMPTY)])
}

/// A table with one empty element.
fn alone(name: &str) -> Vec<u8> {
    table(&[0], &[(0, name, EMPTY)])
}

/// Two elements, the second below the first.
fn below(one: &str, other: &str) -> Vec<u8> {
    table(&[0], &[(0, one, &t(1)), (1, other, EMPTY)])
}

fn reads(classes: &Classes, table: &[u8]) -> Result<(), Refusal> {
    table_reads(STANDARD, classes, table, &mut new_work(STANDARD))
}

fn answer(classes: &Classes, table: &[u8], document: &[u8]) -> Result<Verdict, Refusal> {
    lets_in(STANDARD, classes, table, FILE, document, &mut new_work(STANDARD))
}

fn sampled(classes: &Classes, document: &[u8]) -> Result<Vec<u8>, Refusal> {
    let mut out = vec![0; MOST_BYTES];
    sample(STANDARD, classes, FILE, document, &mut out, &mut new_work(STANDARD)).map(<[u8]>::to_vec)
}

#[test]
fn a_document_is_read_up_to_letter_case() {
    let mixed = document(node("LIST", &[node("Card", &[]), node("card", &[]), node("CARD", &[])]));
    for table in [cards("list", "card"), cards("LIST", "CARD"), cards("liST", "cArD")] {
        assert_eq!(answer(ASCII, &table, &mixed), Ok(Verdict::Yes));
        assert_eq!(answer(ASCII, &table, &document(node("LISTS", &[]))), Ok(Verdict::No));
        assert_eq!(answer(ASCII, &table, &document(node("CARD", &[]))), Ok(Verdict::No));
    }
}

#[test]
fn labels_that_differ_in_case_repeat() {
    for (one, other) in [
        ("card", "CARD"),
        ("Card", "cARD"),
        ("a", "A"),
        ("Z", "z"),
        ("x-1", "X-1"),
    ] {
        assert_eq!(reads(ASCII, &below(one, other)), Err(Refusal::Repeated));
    }
    assert_eq!(reads(ASCII, &below("card", "CARDS")), Ok(()));
    assert_eq!(reads(ASCII, &below("card1", "CARD2")), Ok(()));
}

/// One path, one label and one type, spelled as the first node of the file.
#[test]
fn a_sample_keeps_the_first_spelling() {
    let twice = document(node("list", &[node("card", &[]), node("CARD", &[])]));
    let taken = table(&[0], &[(0, "list", &some(&t(1))), (1, "card", EMPTY)]);
    assert_eq!(sampled(ASCII, &twice), Ok(taken));

    // on whichever path that node is
    let paths = document(node("list", &[node("A", &[node("card", &[])]), node("Card", &[])]));
    let taken = table(
        &[0],
        &[
            (0, "list", &sequence(&[&t(1), &t(3)])),
            (1, "A", &t(2)),
            (2, "card", EMPTY),
            (3, "card", EMPTY),
        ],
    );
    assert_eq!(sampled(ASCII, &paths), Ok(taken));

    // two paths, one label
    let nested = document(node("LIST", &[node("list", &[])]));
    let taken = table(&[0], &[(0, "LIST", &t(1)), (1, "LIST", EMPTY)]);
    assert_eq!(sampled(ASCII, &nested), Ok(taken));
}

#[test]
fn a_widening_keeps_the_old_spelling() {
    let mut work = new_work(STANDARD);
    let mut out = vec![0; MOST_BYTES];
    // no rule of the old table reaches Card
    let old = table(&[0], &[(0, "list", EMPTY), (1, "Card", EMPTY)]);
    let addition = below("LIST", "CARD");
    let list = document(node("LIST", &[node("CARD", &[])]));
    let wide = table(&[0], &[(0, "list", &choice(&[EMPTY, &t(1)])), (1, "Card", EMPTY)]);

    assert_eq!(
        widen_local_by_table(STANDARD, ASCII, &old, &addition, &mut out, &mut work),
        Ok(&wide[..])
    );
    assert_eq!(
        widen_local_by_document(STANDARD, ASCII, &old, FILE, &list, &mut out, &mut work),
        Ok(&wide[..])
    );
    assert_eq!(
        widen_single_type_by_table(STANDARD, ASCII, &old, &addition, &mut out, &mut work),
        Ok(&wide[..])
    );
    assert_eq!(
        widen_single_type_by_document(STANDARD, ASCII, &old, FILE, &list, &mut out, &mut work),
        Ok(&wide[..])
    );
    // a name that is new is spelled as it came
    assert_eq!(
        widen_local_by_document(STANDARD, ASCII, E, FILE, &list, &mut out, &mut work),
        Ok(&addition[..])
    );
}

#[test]
fn a_name_comes_back_as_its_table_spells_it() {
    let mut work = new_work(STANDARD);
    let table = below("LIST", "Card");
    assert_eq!(label_name(STANDARD, ASCII, &table, 0, &mut work), Ok(&b"LIST"[..]));
    assert_eq!(label_name(STANDARD, ASCII, &table, 1, &mut work), Ok(&b"Card"[..]));
}

/// Bytes that differ as A and a do, but are no letters.
#[test]
fn no_other_bytes_are_letters() {
    let classes = loaded(&[
        (b'@', 2),
        (b'`', 2),
        (b'[', 2),
        (b'{', 2),
        (0xC3, 2),
        (0x89, 1),
        (0xA9, 1),
    ]);
    for (one, other) in [("@", "`"), ("[", "{"), ("É", "é")] {
        let both = below(one, other);
        assert_eq!(reads(&classes, &both), Ok(()));
        assert_eq!(
            answer(&classes, &alone(one), &document(node(other, &[]))),
            Ok(Verdict::No)
        );
        assert_eq!(sampled(&classes, &document(node(one, &[node(other, &[])]))), Ok(both));
    }
}

/// The name rule is on bytes: A is a letter here and a is in no name.
#[test]
fn a_bad_name_comes_before_a_repeated_one() {
    let classes = loaded(&[(b'a', 0)]);
    let bad = Err(Refusal::BadName);
    assert_eq!(reads(&classes, &below("A", "a")), bad);
    assert_eq!(reads(&classes, &below("a", "A")), bad);
    assert_eq!(reads(&classes, &below("B", "b")), Err(Refusal::Repeated));
    assert_eq!(
        answer(&classes, &alone("A"), &document(node("a", &[]))),
        Err(Refusal::BadName)
    );
    assert_eq!(
        answer(&classes, &alone("A"), &document(node("A", &[]))),
        Ok(Verdict::Yes)
    );
}

//! The paper's examples, at the standard size.
#[allow(dead_code)] // each test uses a part of it
mod common;

use cogarrune::*;
use common::*;

const STANDARD: Size = Size::Standard;
const P1: [u8; 17] = [0x10, 0, 1, b'a', 0x11, 0, 1, 0, 0x12, 0, 3, 0, 0, 1, 0x1F, 0, 0];
const P2: [u8; 8] = [0x30, 0, 2, 0, b'a', 0x3F, 0, 0];

#[test]
fn p1_is_a_table() {
    assert_eq!(table_reads(STANDARD, ASCII, &P1, &mut new_work(STANDARD)), Ok(()));
    assert_eq!(
        label_name(STANDARD, ASCII, &P1, 0, &mut new_work(STANDARD)),
        Ok(&b"a"[..])
    );
    assert_eq!(
        label_name(STANDARD, ASCII, &P1, 1, &mut new_work(STANDARD)),
        Err(Refusal::OutOfRange)
    );
}

#[test]
fn p2_is_let_in() {
    assert_eq!(
        document_reads(STANDARD, ASCII, FILE, &P2, &mut new_work(STANDARD)),
        Ok(())
    );
    assert_eq!(
        lets_in(STANDARD, ASCII, &P1, FILE, &P2, &mut new_work(STANDARD)),
        Ok(Verdict::Yes)
    );
    let other = document(node("b", &[]));
    assert_eq!(
        lets_in(STANDARD, ASCII, &P1, FILE, &other, &mut new_work(STANDARD)),
        Ok(Verdict::No)
    );
}

#[test]
fn p3_no_bytes_are_refused() {
    assert_eq!(
        table_reads(STANDARD, ASCII, &[], &mut new_work(STANDARD)),
        Err(Refusal::FieldPastEnd)
    );
    assert_eq!(
        document_reads(STANDARD, ASCII, FILE, &[], &mut new_work(STANDARD)),
        Err(Refusal::FieldPastEnd)
    );
    assert_eq!(Refusal::FieldPastEnd.number(), 3);
}

#[test]
fn p4_no_document() {
    assert_eq!(local(E, E), Err(Refusal::NoDocument));
    assert_eq!(single_type(E, E), Err(Refusal::NoDocument));
}

#[test]
fn p5_doors_merge_in_local_work_only() {
    let door = |inner: &str| node("door", &[node(inner, &[])]);
    let crossed = document(node(
        "block",
        &[node("floor", &[door("code")]), node("lift", &[door("time")])],
    ));
    assert_eq!(
        lets_in(
            STANDARD,
            ASCII,
            &local(&p5(), E).unwrap(),
            FILE,
            &crossed,
            &mut new_work(STANDARD)
        ),
        Ok(Verdict::Yes)
    );
    assert_eq!(
        lets_in(
            STANDARD,
            ASCII,
            &single_type(&p5(), E).unwrap(),
            FILE,
            &crossed,
            &mut new_work(STANDARD)
        ),
        Ok(Verdict::No)
    );
}

#[test]
fn p6_groups() {
    let pair = sequence(&[&t(0), &t(0)]);
    let wide = table(&[0], &[(0, "group", &choice(&[&pair, &t(1)])), (1, "card", EMPTY)]);
    assert_eq!(local(&p6(), E), Ok(wide));
}

#[test]
fn p7_unfruitful_types_go_first() {
    let less = table(&[0], &[(0, "list", &t(1)), (1, "door", &t(2)), (2, "code", EMPTY)]);
    // the result's labels keep the order of the table: list, door, code
    assert_eq!(local(&p7(), E), Ok(less.clone()));
    assert_eq!(single_type(&p7(), E), Ok(less));
}

#[test]
fn p8_two_labels_of_one_type_do_not_compete() {
    let apart = table(
        &[0],
        &[
            (0, "list", &choice(&[&t(1), &t(2)])),
            (1, "door", EMPTY),
            (2, "lift", EMPTY),
        ],
    );
    assert_eq!(local(&p8(), E), Ok(apart.clone()));
    assert_eq!(single_type(&p8(), E), Ok(apart));
}

#[test]
fn a_widening_by_a_document_lets_it_in() {
    let added = document(node("list", &[node("door", &[]), node("zone", &[])]));
    let mut out = vec![0; MOST_BYTES];
    let mut work = new_work(STANDARD);
    let wider = widen_local_by_document(STANDARD, ASCII, &p8(), FILE, &added, &mut out, &mut work)
        .unwrap()
        .to_vec();
    assert_eq!(is_local(STANDARD, ASCII, &wider, &mut work), Ok(Verdict::Yes));
    assert_eq!(
        lets_in(STANDARD, ASCII, &wider, FILE, &added, &mut work),
        Ok(Verdict::Yes)
    );
    let wider = widen_single_type_by_document(STANDARD, ASCII, &p8(), FILE, &added, &mut out, &mut work)
        .unwrap()
        .to_vec();
    assert_eq!(is_single_type(STANDARD, ASCII, &wider, &mut work), Ok(Verdict::Yes));
    assert_eq!(
        lets_in(STANDARD, ASCII, &wider, FILE, &added, &mut work),
        Ok(Verdict::Yes)
    );
    let taken = sample(STANDARD, ASCII, FILE, &added, &mut out, &mut work)
        .unwrap()
        .to_vec();
    assert_eq!(
        lets_in(STANDARD, ASCII, &taken, FILE, &added, &mut work),
        Ok(Verdict::Yes)
    );
    assert_eq!(
        sample(STANDARD, ASCII, FILE, &added, &mut out[..3], &mut work),
        Err(Refusal::OutputTooShort)
    );
}

/// The local widening by a table.
fn local(old: &[u8], addition: &[u8]) -> Result<Vec<u8>, Refusal> {
    widen_local_by_table(
        STANDARD,
        ASCII,
        old,
        addition,
        &mut vec![0; MOST_BYTES],
        &mut new_work(STANDARD),
    )
    .map(<[u8]>::to_vec)
}

/// The single-type widening by a table.
fn single_type(old: &[u8], addition: &[u8]) -> Result<Vec<u8>, Refusal> {
    widen_single_type_by_table(
        STANDARD,
        ASCII,
        old,
        addition,
        &mut vec![0; MOST_BYTES],
        &mut new_work(STANDARD),
    )
    .map(<[u8]>::to_vec)
}

#[test]
fn kinds_of_p5_to_p8() {
    let both = |bytes: &[u8]| {
        (
            is_local(STANDARD, ASCII, bytes, &mut new_work(STANDARD)).unwrap(),
            is_single_type(STANDARD, ASCII, bytes, &mut new_work(STANDARD)).unwrap(),
        )
    };
    assert_eq!(both(&p5()), (Verdict::No, Verdict::Yes));
    assert_eq!(both(&p6()), (Verdict::No, Verdict::Yes));
    assert_eq!(both(&p7()), (Verdict::No, Verdict::No));
    assert_eq!(both(&p8()), (Verdict::Yes, Verdict::Yes));
}

fn p5() -> Vec<u8> {
    table(
        &[0],
        &[
            (0, "block", &sequence(&[&t(1), &t(2)])),
            (1, "floor", &t(3)),
            (2, "lift", &t(4)),
            (3, "door", &t(5)),
            (4, "door", &t(6)),
            (5, "time", EMPTY),
            (6, "code", EMPTY),
        ],
    )
}

fn p6() -> Vec<u8> {
    table(
        &[0],
        &[
            (0, "group", &sequence(&[&t(1), &t(1)])),
            (1, "group", &t(2)),
            (2, "card", EMPTY),
        ],
    )
}

fn p7() -> Vec<u8> {
    table(
        &[0],
        &[
            (0, "list", &choice(&[&sequence(&[&t(1), &t(2)]), &t(3)])),
            (1, "door", &t(4)),
            (2, "card", &t(2)),
            (3, "door", &t(5)),
            (4, "time", EMPTY),
            (5, "code", EMPTY),
        ],
    )
}

fn p8() -> Vec<u8> {
    table(&[0], &[(0, "list", &t(1)), (1, "door", EMPTY), (1, "lift", EMPTY)])
}

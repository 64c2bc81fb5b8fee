//! Rules for text and nodes with text: tags 13 and 32 in place of 12 and 30. A name with † after it stands for either.
#[allow(dead_code)] // each test uses a part of it
mod common;

use cogarrune::*;
use common::*;

const SIZES: [Size; 3] = [Size::Small, Size::Standard, Size::Large];

fn answer(size: Size, table: &[u8], document: &[u8]) -> Result<Verdict, Refusal> {
    lets_in(size, ASCII, table, FILE, document, &mut new_work(size))
}

fn let_in(table: &[u8], root: Vec<u8>) -> bool {
    answer(Size::Standard, table, &document(root)).unwrap().is_yes()
}

fn sampled(document: &[u8]) -> Vec<u8> {
    let (mut out, mut work) = (vec![0; MOST_BYTES], new_work(Size::Standard));
    sample(Size::Standard, ASCII, FILE, document, &mut out, &mut work)
        .unwrap()
        .to_vec()
}

/// The widenings by a table, to local and to single-type.
fn wider(size: Size, old: &[u8], addition: &[u8]) -> [Vec<u8>; 2] {
    let (mut out, mut work) = (vec![0; MOST_BYTES], new_work(size));
    let local = widen_local_by_table(size, ASCII, old, addition, &mut out, &mut work)
        .unwrap()
        .to_vec();
    let single = widen_single_type_by_table(size, ASCII, old, addition, &mut out, &mut work)
        .unwrap()
        .to_vec();
    [local, single]
}

/// The widenings by a document.
fn wider_by_document(size: Size, old: &[u8], list: &[u8]) -> [Vec<u8>; 2] {
    let (mut out, mut work) = (vec![0; MOST_BYTES], new_work(size));
    let local = widen_local_by_document(size, ASCII, old, FILE, list, &mut out, &mut work)
        .unwrap()
        .to_vec();
    let single = widen_single_type_by_document(size, ASCII, old, FILE, list, &mut out, &mut work)
        .unwrap()
        .to_vec();
    [local, single]
}

#[test]
fn text_needs_a_rule_for_text() {
    for size in SIZES {
        for (rule, root, verdict) in [
            ("a", "a", Verdict::Yes),
            ("a", "a†", Verdict::No),
            ("a†", "a", Verdict::Yes),
            ("a†", "a†", Verdict::Yes),
            ("a†", "A†", Verdict::Yes),
            ("a†", "b†", Verdict::No),
        ] {
            let found = answer(size, &table(&[0], &[(0, rule, EMPTY)]), &document(node(root, &[])));
            assert_eq!(found, Ok(verdict), "{rule} {root}");
        }
    }
    let cards = table(
        &[0],
        &[(0, "list", &[5, 2, 1]), (1, "card", &t(2)), (2, "name†", EMPTY)],
    );
    let list = |list: &str, card: &str, name: &str| node(list, &[node(card, &[node(name, &[])])]);
    assert!(let_in(&cards, list("list", "card", "name†")) && let_in(&cards, list("list", "card", "name")));
    assert!(!let_in(&cards, list("list", "card†", "name†")) && !let_in(&cards, list("list†", "card", "name")));
}

/// Each tag belongs to its own file, any mixture reads, and lengths are those of the other tag.
#[test]
fn tags() {
    let mut work = new_work(Size::Standard);
    let mut reads = |fields: &[&[u8]]| table_reads(Size::Standard, ASCII, &fields.concat(), &mut work);
    let (head, plain, marked) = ([0x10, 0, 1, b'a'], [0x12, 0, 3, 0, 0, 1], [0x13, 0, 3, 0, 0, 1]);
    assert_eq!(reads(&[&head, &marked, &plain, &marked, E]), Ok(()));
    assert_eq!(reads(&[&head, &[0x32, 0, 3, 0, 0, 1], E]), Err(Refusal::BadField));
    assert_eq!(reads(&[&head, &[0x13, 0, 2, 0, 0], E]), Err(Refusal::BadField));
    assert_eq!(reads(&[&head, &marked, &[0x11, 0, 1, 0], E]), Err(Refusal::BadField));
    assert_eq!(reads(&[&head, &[0x13, 0, 3, 0, 1, 1], E]), Err(Refusal::OutOfRange));
    assert_eq!(reads(&[&head, &[0x13, 0, 3, 0, 0, 8], E]), Err(Refusal::BadContent));
    let reads = |tag: u8| {
        let bytes = [tag, 0, 2, 0, b'a', 0x3F, 0, 0];
        document_reads(Size::Standard, ASCII, FILE, &bytes, &mut new_work(Size::Standard))
    };
    assert_eq!([reads(0x30), reads(0x32)], [Ok(()), Ok(())]);
    assert_eq!([reads(0x13), reads(0x31)], [Err(Refusal::BadField); 2]);
}

/// A rule for text and one that is not are two rules, also of one type and label.
#[test]
fn kinds() {
    for (rules, local, single) in [
        (&[(0, "a†", EMPTY), (1, "b", EMPTY)][..], true, true),
        (&[(0, "a", EMPTY), (0, "a†", EMPTY)][..], false, false),
        (&[(0, "a", EMPTY), (1, "a†", EMPTY)][..], false, true),
    ] {
        let (made, mut work) = (table(&[0], rules), new_work(Size::Standard));
        assert_eq!(
            is_local(Size::Standard, ASCII, &made, &mut work).unwrap().is_yes(),
            local
        );
        assert_eq!(
            is_single_type(Size::Standard, ASCII, &made, &mut work)
                .unwrap()
                .is_yes(),
            single
        );
    }
}

/// A path with any node that holds text is for text, whichever member of a run and in whatever spelling.
#[test]
fn samples() {
    let taken = |leaves: &[&str]| {
        let leaves: Vec<Vec<u8>> = leaves.iter().map(|leaf| node(leaf, &[])).collect();
        sampled(&document(node("r", &leaves)))
    };
    let told = |content: &[u8], leaf: &str| table(&[0], &[(0, "r", content), (1, leaf, EMPTY)]);
    assert_eq!(taken(&["a", "a"]), told(&some(&t(1)), "a"));
    for leaves in [["a†", "a", "a"], ["a", "a†", "a"], ["a", "a", "a†"], ["a", "A†", "a"]] {
        assert_eq!(taken(&leaves), told(&some(&t(1)), "a†"), "{leaves:?}");
    }
    assert_eq!(taken(&["a†"]), told(&t(1), "a†"));
    let root = sampled(&document(node("r†", &[node("a", &[])])));
    assert_eq!(root, table(&[0], &[(0, "r†", &t(1)), (1, "a", EMPTY)]));
    // one name on two paths
    let two = sampled(&document(node(
        "r",
        &[node("p", &[node("x†", &[])]), node("q", &[node("x", &[])])],
    )));
    let rules: [(u8, &str, &[u8]); 5] = [
        (0, "r", &[3, 2, 2, 1, 2, 3]),
        (1, "p", &t(2)),
        (2, "x†", EMPTY),
        (3, "q", &t(4)),
        (4, "x", EMPTY),
    ];
    assert_eq!(two, table(&[0], &rules));
}

/// A rule for text marks its pair if its own content is not none; equal contents are dropped, the mark stays.
#[test]
fn joined_rules() {
    for size in SIZES {
        for (plain, own, content, name) in [
            (EMPTY, EMPTY, EMPTY, "a†"),
            (EMPTY, &[5, 0][..], EMPTY, "a†"), // any number of none
            (EMPTY, &[7, 0][..], EMPTY, "a†"), // optional none
            (EMPTY, NONE, EMPTY, "a"),
            (EMPTY, &[2, 9][..], EMPTY, "a"),    // a type without a rule
            (EMPTY, &[6, 2, 9][..], EMPTY, "a"), // one or more of it
            (EMPTY, &[2, 0][..], &[4, 2, 1, 2, 0][..], "a†"),
        ] {
            let told = table(&[0], &[(0, name, content)]);
            let joined = table(&[0], &[(0, "a", plain), (0, "a†", own)]);
            assert_eq!(wider(size, &joined, E), [told.clone(), told.clone()], "{own:?}");
            assert_eq!(wider(size, E, &joined), [told.clone(), told], "{own:?}");
        }
    }
}

/// Marks of either input stay; what is not behind a result marks nothing.
#[test]
fn widenings() {
    let alone = |name: &str| table(&[0], &[(0, name, EMPTY)]);
    for size in SIZES {
        for (old, new) in [("a", "a†"), ("a†", "a"), ("a†", "A†"), ("a", "A†")] {
            assert_eq!(wider(size, &alone(old), &alone(new)), [alone("a†"), alone("a†")]);
            let list = document(node(new, &[]));
            assert_eq!(wider_by_document(size, &alone(old), &list), [alone("a†"), alone("a†")]);
        }
        assert_eq!(wider(size, &alone("a"), &alone("a")), [alone("a"), alone("a")]);
    }
    // of two types of one name the one for text is not reached
    let unreached = table(&[0], &[(0, "r", &t(1)), (1, "a", EMPTY), (2, "a†", EMPTY)]);
    let told = table(&[0], &[(0, "r", &t(1)), (1, "a", EMPTY)]);
    assert_eq!(wider(Size::Standard, &unreached, E), [told.clone(), told]);
    // local has one type for a name, single-type one for each path
    let two: [(u8, &str, &[u8]); 5] = [
        (0, "r", &[3, 2, 2, 1, 2, 2]),
        (1, "p", &t(3)),
        (2, "q", &t(4)),
        (3, "x", EMPTY),
        (4, "x†", EMPTY),
    ];
    let one: [(u8, &str, &[u8]); 4] = [
        (0, "r", &[3, 2, 2, 1, 2, 2]),
        (1, "p", &t(3)),
        (2, "q", &t(3)),
        (3, "x†", EMPTY),
    ];
    assert_eq!(
        wider(Size::Standard, &table(&[0], &two), E),
        [table(&[0], &one), table(&[0], &two)]
    );
}

//! Which classes load, and names under classes of one's own.
#[allow(dead_code)] // each test uses a part of it
mod common;

use cogarrune::*;
use common::*;
use std::fs;
use std::path::Path;

const STANDARD: Size = Size::Standard;

/// Bytes that are in no name besides 00 to 20.
const SIGNS: &[u8] = b"()|,*+?!<>/=";

fn in_no_name(byte: u8) -> bool {
    byte <= 0x20 || SIGNS.contains(&byte)
}

/// The ASCII classes with others for some bytes.
fn with(changes: &[(u8, u8)]) -> [u8; 256] {
    let mut classes = *Classes::ASCII.as_bytes();
    for (byte, class) in changes {
        classes[usize::from(*byte)] = *class;
    }
    classes
}

fn loaded(changes: &[(u8, u8)]) -> Classes {
    Classes::load(&with(changes)).unwrap()
}

/// Every byte that can be a letter is one.
fn all_letters() -> Classes {
    let classes: Vec<u8> = (0..=255).map(|byte| if in_no_name(byte) { 0 } else { 2 }).collect();
    Classes::load(&classes).unwrap()
}

/// The paper's first table and document, with this byte for a name.
fn named(byte: u8) -> ([u8; 17], [u8; 8]) {
    (
        [0x10, 0, 1, byte, 0x11, 0, 1, 0, 0x12, 0, 3, 0, 0, 1, 0x1F, 0, 0],
        [0x30, 0, 2, 0, byte, 0x3F, 0, 0],
    )
}

#[test]
fn the_ascii_classes_load() {
    assert_eq!(Classes::load(Classes::ASCII.as_bytes()), Ok(Classes::ASCII));
}

#[test]
fn the_header_has_the_ascii_classes() {
    let path = Path::new(env!("CARGO_MANIFEST_DIR")).join("../include/cogarrune.h");
    let header = fs::read_to_string(path).unwrap();
    let macro_text = header.split("#define COGARRUNE_ASCII_CLASSES").nth(1).unwrap();
    let rows = macro_text.split(['{', '}']).nth(1).unwrap();
    // a row ends where its comment begins
    let classes: Vec<u8> = rows
        .lines()
        .flat_map(|row| row.split("/*").next().unwrap().split([',', ' ', '\\']))
        .filter(|word| !word.is_empty())
        .map(|word| word.parse().unwrap())
        .collect();
    assert_eq!(classes, Classes::ASCII.as_bytes());
}

#[test]
fn another_length_does_not_load() {
    let long = [*Classes::ASCII.as_bytes(), *Classes::ASCII.as_bytes()].concat();
    for length in [0, 1, 128, 255, 257, 512] {
        assert_eq!(Classes::load(&long[..length]), Err(Refusal::BadClasses), "{length}");
    }
    assert!(Classes::load(&long[..256]).is_ok());
}

#[test]
fn a_class_above_2_does_not_load() {
    for byte in 0..=255 {
        for class in [3, 4, 128, 255] {
            assert_eq!(Classes::load(&with(&[(byte, class)])), Err(Refusal::BadClasses));
        }
    }
}

#[test]
fn one_class_is_2() {
    assert_eq!(Classes::load(&[0; 256]), Err(Refusal::BadClasses));
    assert_eq!(
        Classes::load(&Classes::ASCII.as_bytes().map(|class| class.min(1))),
        Err(Refusal::BadClasses)
    );
    for byte in (0..=255).filter(|byte| !in_no_name(*byte)) {
        let mut classes = [0; 256];
        classes[usize::from(byte)] = 2;
        assert!(Classes::load(&classes).is_ok(), "{byte:02X}");
    }
}

#[test]
fn bytes_that_are_in_no_name_have_class_0() {
    assert_eq!((0..=255).filter(|byte| in_no_name(*byte)).count(), 45);
    for byte in 0..=255 {
        for class in [1, 2] {
            let changed = with(&[(byte, class)]);
            let loads = Classes::load(&changed).map(|classes| *classes.as_bytes());
            let wanted = if in_no_name(byte) {
                Err(Refusal::BadClasses)
            } else {
                Ok(changed)
            };
            assert_eq!(loads, wanted, "{byte:02X} as {class}");
        }
    }
}

#[test]
fn every_letter_is_a_name() {
    let classes = all_letters();
    let mut work = new_work(STANDARD);
    for byte in 0..=255 {
        let (table, document) = named(byte);
        let wanted = if in_no_name(byte) {
            Err(Refusal::BadName)
        } else {
            Ok(Verdict::Yes)
        };
        assert_eq!(
            lets_in(STANDARD, &classes, &table, FILE, &document, &mut work),
            wanted,
            "{byte:02X}"
        );
    }
}

/// A name above 7F, as UTF-8 has it, through every call.
#[test]
fn names_above_7f_go_through_every_call() {
    let classes = all_letters();
    let mut work = new_work(STANDARD);
    let old = table(&[0], &[(0, "menü", &t(1)), (1, "größe", EMPTY)]);
    let seen = document(node("menü", &[node("größe", &[])]));
    let added = document(node("menü", &[node("größe", &[]), node("straße", &[])]));
    let wide = table(
        &[0],
        &[
            (0, "menü", &choice(&[&t(1), &sequence(&[&t(1), &t(2)])])),
            (1, "größe", EMPTY),
            (2, "straße", EMPTY),
        ],
    );
    let taken = table(
        &[0],
        &[
            (0, "menü", &sequence(&[&t(1), &t(2)])),
            (1, "größe", EMPTY),
            (2, "straße", EMPTY),
        ],
    );
    let mut out = vec![0; MOST_BYTES];

    assert_eq!(table_reads(STANDARD, &classes, &old, &mut work), Ok(()));
    assert_eq!(document_reads(STANDARD, &classes, FILE, &seen, &mut work), Ok(()));
    for (label, name) in ["menü", "größe"].iter().enumerate() {
        assert_eq!(
            label_name(STANDARD, &classes, &old, label, &mut work),
            Ok(name.as_bytes())
        );
    }
    assert_eq!(
        lets_in(STANDARD, &classes, &old, FILE, &seen, &mut work),
        Ok(Verdict::Yes)
    );
    assert_eq!(
        lets_in(STANDARD, &classes, &old, FILE, &added, &mut work),
        Ok(Verdict::No)
    );
    assert_eq!(is_local(STANDARD, &classes, &old, &mut work), Ok(Verdict::Yes));
    assert_eq!(is_single_type(STANDARD, &classes, &old, &mut work), Ok(Verdict::Yes));
    assert_eq!(
        sample(STANDARD, &classes, FILE, &added, &mut out, &mut work),
        Ok(&taken[..])
    );
    assert_eq!(
        widen_local_by_table(STANDARD, &classes, &old, &taken, &mut out, &mut work),
        Ok(&wide[..])
    );
    assert_eq!(
        widen_local_by_document(STANDARD, &classes, &old, FILE, &added, &mut out, &mut work),
        Ok(&wide[..])
    );
    assert_eq!(
        widen_single_type_by_table(STANDARD, &classes, &old, &taken, &mut out, &mut work),
        Ok(&wide[..])
    );
    assert_eq!(
        widen_single_type_by_document(STANDARD, &classes, &old, FILE, &added, &mut out, &mut work),
        Ok(&wide[..])
    );
    // on pages a column is a byte: ü, ö and ß take two, so the content of `menü` stands a character before the usual column
    let mut out = vec![0; STANDARD.pages_bytes()];
    let printed = pages(STANDARD, &classes, &old, &mut out, &mut work).unwrap();
    let rows: Vec<&str> = std::str::from_utf8(printed).unwrap().lines().collect();
    assert_eq!(rows[0].trim_end(), "t0  menü                   t1");
    assert_eq!(rows[1].trim_end(), "t1  größe                 ()");
    assert!(rows.len() == 60 && rows.iter().all(|row| row.len() == 72));
}

/// The same names under the ASCII classes, in either input.
#[test]
fn names_are_read_under_the_lent_classes() {
    let mut work = new_work(STANDARD);
    let mut out = vec![0; MOST_BYTES];
    let (ours, our_list) = (table(&[0], &[(0, "menü", EMPTY)]), document(node("menü", &[])));
    let (plain, plain_list) = (table(&[0], &[(0, "menu", EMPTY)]), document(node("menu", &[])));
    let bad = Err(Refusal::BadName);

    assert_eq!(table_reads(STANDARD, ASCII, &ours, &mut work), Err(Refusal::BadName));
    assert_eq!(
        document_reads(STANDARD, ASCII, FILE, &our_list, &mut work),
        Err(Refusal::BadName)
    );
    assert_eq!(label_name(STANDARD, ASCII, &ours, 0, &mut work), Err(Refusal::BadName));
    assert_eq!(
        lets_in(STANDARD, ASCII, &ours, FILE, &plain_list, &mut work),
        Err(Refusal::BadName)
    );
    assert_eq!(
        lets_in(STANDARD, ASCII, &plain, FILE, &our_list, &mut work),
        Err(Refusal::BadName)
    );
    assert_eq!(is_local(STANDARD, ASCII, &ours, &mut work), Err(Refusal::BadName));
    assert_eq!(is_single_type(STANDARD, ASCII, &ours, &mut work), Err(Refusal::BadName));
    assert_eq!(sample(STANDARD, ASCII, FILE, &our_list, &mut out, &mut work), bad);
    assert_eq!(pages(STANDARD, ASCII, &ours, &mut out, &mut work), bad);
    for (old, addition) in [(&ours, &plain), (&plain, &ours)] {
        assert_eq!(
            widen_local_by_table(STANDARD, ASCII, old, addition, &mut out, &mut work),
            bad
        );
        assert_eq!(
            widen_single_type_by_table(STANDARD, ASCII, old, addition, &mut out, &mut work),
            bad
        );
    }
    for (old, list) in [(&ours, &plain_list), (&plain, &our_list)] {
        assert_eq!(
            widen_local_by_document(STANDARD, ASCII, old, FILE, list, &mut out, &mut work),
            bad
        );
        assert_eq!(
            widen_single_type_by_document(STANDARD, ASCII, old, FILE, list, &mut out, &mut work),
            bad
        );
    }
}

#[test]
fn a_class_says_where_a_byte_stands() {
    let reads = |changes: &[(u8, u8)], name: &str| {
        let table = table(&[0], &[(0, name, EMPTY)]);
        table_reads(STANDARD, &loaded(changes), &table, &mut new_work(STANDARD))
    };
    // a digit stands first where it is a letter
    assert_eq!(reads(&[], "4th"), Err(Refusal::BadName));
    assert_eq!(reads(&[(b'4', 2)], "4th"), Ok(()));
    // a sign of class 1 stands anywhere but first
    assert_eq!(reads(&[(b'#', 1)], "a#b#"), Ok(()));
    assert_eq!(reads(&[(b'#', 1)], "#a"), Err(Refusal::BadName));
    // a letter taken away
    assert_eq!(reads(&[], "card"), Ok(()));
    assert_eq!(reads(&[(b'a', 0)], "card"), Err(Refusal::BadName));
    assert_eq!(reads(&[(b'c', 1)], "card"), Err(Refusal::BadName));
}

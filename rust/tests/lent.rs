//! Lent slices after a call, at each size, and the refusals as numbers.
#[allow(dead_code)] // each test uses a part of it
mod common;

use cogarrune::*;
use common::*;
use std::fs;
use std::path::Path;

const SIZES: [Size; 3] = [Size::Small, Size::Standard, Size::Large];

#[test]
fn a_size_has_its_words() {
    assert_eq!(SIZES.map(Size::words), [12_288, 16_384, 32_768]);
    assert_eq!(SIZES.map(|size| new_work(size).len()), [12_288, 16_384, 32_768]);
}

#[test]
fn work_is_zero_after_a_call_and_kept_beyond() {
    let table = table(&[0], &[(0, "list", NONE)]);
    for size in SIZES {
        // as many as the largest size needs, and some more
        let mut work = vec![7; Size::Large.words() + 3];
        assert_eq!(table_reads(size, ASCII, &table, &mut work), Ok(()));
        assert!(work[..size.words()].iter().all(|word| *word == 0));
        assert!(work[size.words()..].iter().all(|word| *word == 7));
    }
}

#[test]
fn a_widening_keeps_the_words_beyond() {
    let table = table(&[0], &[(0, "list", &t(1)), (1, "card", EMPTY)]);
    for size in SIZES {
        let mut work = vec![7; Size::Large.words() + 3];
        let mut out = vec![0; MOST_BYTES];
        let wider = widen_single_type_by_table(size, ASCII, &table, E, &mut out, &mut work);
        assert_eq!(wider, Ok(&table[..]));
        assert!(work[..size.words()].iter().all(|word| *word == 0));
        assert!(work[size.words()..].iter().all(|word| *word == 7));
    }
}

#[test]
fn too_little_work_is_refused_and_unchanged() {
    for size in SIZES {
        let mut work = vec![7; size.words() - 1];
        assert_eq!(is_local(size, ASCII, E, &mut work), Err(Refusal::WorkTooShort));
        assert!(work.iter().all(|word| *word == 7));
    }
}

#[test]
fn refusals_have_their_numbers() {
    for number in 1..=18 {
        assert_eq!(u64::from(Refusal::from_number(number).unwrap().number()), number);
    }
    for number in [0, 19, 1 << 8 | 18, u64::MAX] {
        assert_eq!(Refusal::from_number(number), None);
    }
    assert_eq!([Refusal::BadText, Refusal::BadEndTag].map(Refusal::number), [16, 17]);
    assert_eq!(Refusal::BadClasses.to_string(), "refused 18");
    assert_eq!(Refusal::TooMany.to_string(), "refused 7");
}

/// Refusals, sizes and formats: names and numbers.
#[test]
fn the_header_has_the_same_enums() {
    let path = Path::new(env!("CARGO_MANIFEST_DIR")).join("../include/cogarrune.h");
    let header = fs::read_to_string(path).unwrap();
    let values = |name: &str| -> Vec<(String, u64)> {
        let listed = header
            .split(&format!("enum {name} {{"))
            .nth(1)
            .unwrap()
            .split("};")
            .next()
            .unwrap();
        let code = listed.lines().map(|line| line.split("/*").next().unwrap());
        code.flat_map(|line| line.split(','))
            .filter_map(|item| item.split_once(" = "))
            .map(|(name, number)| (of_header(name), number.trim().parse().unwrap()))
            .collect()
    };
    let refusals = values("cogarrune_refusal");
    assert_eq!(refusals.len(), 18);
    for (name, number) in refusals {
        assert_eq!(format!("{:?}", Refusal::from_number(number).unwrap()), name);
    }
    let of_size = |size: Size| (format!("{size:?}"), size as u64);
    assert_eq!(values("cogarrune_size"), SIZES.map(of_size));
    let of_format = |format: Format| (format!("{format:?}"), format as u64);
    assert_eq!(
        values("cogarrune_format"),
        [Format::DocumentFile, Format::XmlText].map(of_format)
    );
}

/// COGARRUNE_BAD_NAME as BadName.
fn of_header(name: &str) -> String {
    let words = name.trim().strip_prefix("COGARRUNE_").unwrap().split('_');
    words
        .map(|word| word[..1].to_string() + &word[1..].to_lowercase())
        .collect()
}

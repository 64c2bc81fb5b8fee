//! A table on printed pages. Rows stand here as they are printed, 72 columns each; behind the last one come the blank rows of its page.
#[allow(dead_code)] // each test uses a part of it
mod common;

use cogarrune::*;
use common::*;
use std::fs;
use std::path::{Path, PathBuf};

const SIZES: [Size; 3] = [Size::Small, Size::Standard, Size::Large];

const BLANK: &str = "                                                                        ";

/// A name of 63 bytes; bytes 10, 20, 30 and so on are letters.
const LONG: &str = "a23456789b123456789c123456789d123456789e123456789f123456789g123";

/// Pages of these rows, and so many blank ones behind them.
fn paper(rows: &[&str], blank: usize) -> String {
    let rows = [rows, &vec![BLANK; blank]].concat();
    assert!(rows.iter().all(|row| row.len() == 72) && rows.len() % 60 == 0);
    rows.iter().map(|row| format!("{row}\n")).collect()
}

fn printed(size: Size, table: &[u8]) -> Result<String, Refusal> {
    let (mut out, mut work) = (vec![0; size.pages_bytes()], new_work(size));
    let pages = pages(size, ASCII, table, &mut out, &mut work)?;
    Ok(String::from_utf8(pages.to_vec()).unwrap())
}

fn of_repository(path: &str) -> PathBuf {
    Path::new(env!("CARGO_MANIFEST_DIR")).join("..").join(path)
}

/// So many empty elements named `a`, types from 0.
fn empties(count: u8) -> Vec<(u8, &'static str, &'static [u8])> {
    (0..count).map(|number| (number, "a", EMPTY)).collect()
}

/// Their rows.
fn rows_of_empties(count: u8) -> Vec<String> {
    let row = |number| format!("t{number:<2} a                       ()                                          ");
    (0..count).map(row).collect()
}

fn as_texts(rows: &[String]) -> Vec<&str> {
    rows.iter().map(String::as_str).collect()
}

#[test]
fn one_rule() {
    let one = table(&[0], &[(0, "a", EMPTY)]);
    let row = "t0  a                       ()                                          ";
    for size in SIZES {
        assert_eq!(printed(size, &one), Ok(paper(&[row], 59)));
    }
}

/// The page that README.md shows, its rows without the padding.
#[test]
fn the_shipped_table() {
    let rows = [
        "t0  list                    t1*                                         ",
        "t1  card                    (t2,t3?)                                    ",
        "t2  name                    ()                                          ",
        "t3  door                    ()                                          ",
    ];
    let old = fs::read(of_repository("examples/cards/old.tbl")).unwrap();
    assert_eq!(printed(Size::Standard, &old), Ok(paper(&rows, 56)));
    let readme = fs::read_to_string(of_repository("README.md")).unwrap();
    let shown: String = rows.iter().map(|row| format!("    {}\n", row.trim_end())).collect();
    assert!(readme.contains(&shown));
}

/// As the file has them: unsorted, twice, of types without rules, not reached, with no document; names in their table's spelling. Labels
/// and starts have no rows.
#[test]
fn rules_as_they_are_read() {
    let rules: [(u8, &str, &[u8]); 5] = [
        (9, "CaRd", &t(4)),
        (0, "list†", NONE),
        (9, "CaRd", &t(4)),
        (9, "CaRd†", &t(4)),
        (3, "list", &choice(&[NONE, NONE])),
    ];
    let rows = [
        "t9  CaRd                    t4                                          ",
        "t0  list                    !#                                          ",
        "t9  CaRd                    t4                                          ",
        "t9  CaRd                    t4#                                         ",
        "t3  list                    (!|!)                                       ",
    ];
    let door = [0x10, 0, 4, b'd', b'o', b'o', b'r'];
    for size in SIZES {
        let made = table(&[2, 0, 1], &rules);
        assert_eq!(printed(size, &made), Ok(paper(&rows, 55)));
        // with a label that no rule has, behind the two others
        let labels = 2 * (3 + 4);
        let more = [&made[..labels], &door, &made[labels..]].concat();
        assert_eq!(printed(size, &more), Ok(paper(&rows, 55)));
    }
}

#[test]
fn contents_as_the_lister_writes_them() {
    let any = |content: &[u8]| [&[5], content].concat();
    let optional = |content: &[u8]| [&[7], content].concat();
    let pair = sequence(&[&any(&t(1)), &some(&choice(&[EMPTY, &t(10), NONE]))]);
    let rules: [(u8, &str, &[u8]); 3] = [
        (0, "a", &pair),
        (1, "b", &optional(&some(&any(EMPTY)))),
        (2, "c†", &any(&optional(&sequence(&[&choice(&[&t(3), &t(3)]), NONE])))),
    ];
    let rows = [
        "t0  a                       (t1*,(()|t10|!)+)                           ",
        "t1  b                       ()*+?                                       ",
        "t2  c                       ((t3|t3),!)?*#                              ",
    ];
    for size in SIZES {
        assert_eq!(printed(size, &table(&[0], &rules)), Ok(paper(&rows, 57)));
    }
}

#[test]
fn long_names() {
    assert_eq!(LONG.len(), 63);
    let named = |length: usize| table(&[0], &[(0, &LONG[..length], EMPTY), (1, "b", EMPTY)]);
    let first = "t0  a23456789b123456789c123 ()                                          ";
    let last = "t1  b                       ()                                          ";
    let four = "    4                                                                   ";
    let second = "    456789d123456789e123456                                             ";
    let seven = "    7                                                                   ";
    let third = "    789f123456789g123                                                   ";
    for (length, more) in [
        (23, &[][..]),
        (24, &[four]),
        (46, &[second]),
        (47, &[second, seven]),
        (63, &[second, third]),
    ] {
        let rows = [&[first], more, &[last]].concat();
        for size in SIZES {
            let wanted = paper(&rows, 60 - rows.len());
            assert_eq!(printed(size, &named(length)), Ok(wanted), "{length}");
        }
    }
}

/// 43 characters with an operator more or two, and with the mark: 44 take one row, 45 two. The mark, or the operator, stands alone then.
#[test]
fn contents_of_44_and_45_characters() {
    let list = sequence(&[&t(1)[..]; 14]);
    let (any, optional) = ([&[5], &list[..]].concat(), [&[7, 5], &list[..]].concat());
    let rules: [(u8, &str, &[u8]); 6] = [
        (0, "a", &list),
        (1, "b†", &list),
        (2, "c", &any),
        (3, "d†", &any),
        (4, "e", &optional),
        (5, "f†", &optional),
    ];
    let rows = [
        "t0  a                       (t1,t1,t1,t1,t1,t1,t1,t1,t1,t1,t1,t1,t1,t1) ",
        "t1  b                       (t1,t1,t1,t1,t1,t1,t1,t1,t1,t1,t1,t1,t1,t1)#",
        "t2  c                       (t1,t1,t1,t1,t1,t1,t1,t1,t1,t1,t1,t1,t1,t1)*",
        "t3  d                       (t1,t1,t1,t1,t1,t1,t1,t1,t1,t1,t1,t1,t1,t1)*",
        "                            #                                           ",
        "t4  e                       (t1,t1,t1,t1,t1,t1,t1,t1,t1,t1,t1,t1,t1,t1)*",
        "                            ?                                           ",
        "t5  f                       (t1,t1,t1,t1,t1,t1,t1,t1,t1,t1,t1,t1,t1,t1)*",
        "                            ?#                                          ",
    ];
    for size in SIZES {
        assert_eq!(printed(size, &table(&[0], &rules)), Ok(paper(&rows, 51)));
    }
}

/// Each text goes on in its own columns. At the large size a type can take two rows.
#[test]
fn columns_of_different_lengths() {
    let list = sequence(&[&t(127)[..]; 18]);
    let rules: [(u8, &str, &[u8]); 4] = [
        (127, "a", &t(127)),
        (100, LONG, EMPTY),
        (99, "b", &list),
        (101, &LONG[..24], &list),
    ];
    let rows = [
        "t12 a                       t127                                        ",
        "7                                                                       ",
        "t10 a23456789b123456789c123 ()                                          ",
        "0   456789d123456789e123456                                             ",
        "    789f123456789g123                                                   ",
        "t99 b                       (t127,t127,t127,t127,t127,t127,t127,t127,t12",
        "                            7,t127,t127,t127,t127,t127,t127,t127,t127,t1",
        "                            27)                                         ",
        "t10 a23456789b123456789c123 (t127,t127,t127,t127,t127,t127,t127,t127,t12",
        "1   4                       7,t127,t127,t127,t127,t127,t127,t127,t127,t1",
        "                            27)                                         ",
    ];
    assert_eq!(printed(Size::Large, &table(&[127], &rules)), Ok(paper(&rows, 49)));
    assert_eq!(
        printed(Size::Standard, &table(&[127], &rules)),
        Err(Refusal::OutOfRange)
    );
}

#[test]
fn sixty_rows_and_one_more() {
    let (sixty, more) = (rows_of_empties(60), rows_of_empties(61));
    let made = |count: u8| printed(Size::Standard, &table(&[0], &empties(count)));
    assert_eq!(made(59), Ok(paper(&as_texts(&sixty[..59]), 1)));
    assert_eq!(made(60), Ok(paper(&as_texts(&sixty), 0)));
    assert_eq!(made(61), Ok(paper(&as_texts(&more), 59)));
    assert_eq!([60, 61].map(|count| made(count).unwrap().len()), [4_380, 8_760]);
}

/// The rows of one rule, with nothing between them at the page's end.
#[test]
fn a_rule_on_two_pages() {
    let rules = [&empties(58)[..], &[(58, LONG, &[5, 1]), (59, "b", EMPTY)]].concat();
    let before = rows_of_empties(58);
    let rows = [
        &as_texts(&before)[..],
        &[
            "t58 a23456789b123456789c123 ()*                                         ",
            "    456789d123456789e123456                                             ",
            "    789f123456789g123                                                   ",
            "t59 b                       ()                                          ",
        ],
    ]
    .concat();
    assert_eq!(rows.len(), 62);
    assert_eq!(printed(Size::Standard, &table(&[0], &rules)), Ok(paper(&rows, 58)));
}

/// Also where no byte is lent, and where labels and starts are there.
#[test]
fn no_rules() {
    let without: [&[u8]; 2] = [E, &[0x10, 0, 1, b'a', 0x11, 0, 1, 0, 0x1F, 0, 0]];
    for size in SIZES {
        for table in without {
            assert_eq!(pages(size, ASCII, table, &mut [], &mut new_work(size)), Ok(&[][..]));
            let mut out = [9; 5];
            assert_eq!(pages(size, ASCII, table, &mut out, &mut new_work(size)), Ok(&[][..]));
            assert_eq!(out, [9; 5]);
        }
    }
}

/// A byte too few for one page and for two; none at all; and bytes past the pages.
#[test]
fn room() {
    let list = sequence(&[&t(1)[..]; 60]); // 181 characters, five rows
    for size in SIZES {
        for (rules, wanted) in [(empties(16), 4_380), (vec![(0, "a", &list[..]); 16], 8_760)] {
            let made = table(&[0], &rules);
            for length in [0, 1, 73, wanted - 73, wanted - 1] {
                let (mut out, mut work) = (vec![9; length], new_work(size));
                let found = pages(size, ASCII, &made, &mut out, &mut work);
                assert_eq!(found, Err(Refusal::OutputTooShort), "{length}");
                assert!(out.iter().all(|byte| *byte == 9), "{length}");
            }
            let all = printed(size, &made).unwrap();
            for beyond in [0, 1, 100] {
                let (mut out, mut work) = (vec![9; wanted + beyond], new_work(size));
                let found = pages(size, ASCII, &made, &mut out, &mut work);
                assert_eq!(found, Ok(all.as_bytes()));
                assert!(all.len() == wanted && out[wanted..].iter().all(|byte| *byte == 9));
            }
        }
    }
}

/// Each refusal of a table, whether or not there is room, before that for want of room; words too few before all.
#[test]
fn refusals() {
    for (size, most) in SIZES.into_iter().zip([16, 64, 128]) {
        let label = [0x10, 0, 1, b'a'];
        let with = |fields: &[u8]| [&label, fields, E].concat();
        let deep = [&[0x12, 0, 35, 0, 0][..], &[5; 32], EMPTY].concat();
        for (made, refusal) in [
            (vec![0; MOST_BYTES + 1], Refusal::InputTooLong),
            (vec![], Refusal::FieldPastEnd),
            (with(&[0x12, 0, 9, 0, 0, 1]), Refusal::FieldPastEnd),
            (with(&[0x30, 0, 2, 0, b'a']), Refusal::BadField),
            (with(&[0x10, 0, 1, b'1']), Refusal::BadName),
            (with(&[0x10, 0, 1, b'A']), Refusal::Repeated),
            (table(&[0], &vec![(0, "a", EMPTY); most + 1]), Refusal::TooMany),
            (with(&[0x12, 0, 3, most as u8, 0, 1]), Refusal::OutOfRange),
            (with(&[0x12, 0, 3, 0, 1, 1]), Refusal::OutOfRange),
            (with(&[0x12, 0, 4, 0, 0, 2, most as u8]), Refusal::BadContent),
            (with(&deep), Refusal::NestedTooDeep),
            (with(E), Refusal::BytesAfterEnd),
        ] {
            for length in [0, size.pages_bytes()] {
                let (mut out, mut work) = (vec![9; length], vec![7; size.words() + 3]);
                assert_eq!(pages(size, ASCII, &made, &mut out, &mut work), Err(refusal));
                assert!(out.iter().all(|byte| *byte == 9));
                assert!(work[..size.words()].iter().all(|word| *word == 0) && work[size.words()..] == [7; 3]);
                let mut work = vec![7; size.words() - 1];
                assert_eq!(
                    pages(size, ASCII, &made, &mut out, &mut work),
                    Err(Refusal::WorkTooShort)
                );
                assert!(out.iter().all(|byte| *byte == 9) && work.iter().all(|word| *word == 7));
            }
        }
    }
    // 18 is met before any call: classes are had by loading only
    assert_eq!(Classes::load(&[0; 256]), Err(Refusal::BadClasses));
}

#[test]
fn words_after_pages() {
    let made = table(&[0], &empties(16));
    for size in SIZES {
        for length in [0, size.pages_bytes()] {
            // as many as the largest size needs, and some more
            let (mut out, mut work) = (vec![9; length], vec![7; Size::Large.words() + 3]);
            assert_eq!(pages(size, ASCII, &made, &mut out, &mut work).is_ok(), length > 0);
            assert!(work[..size.words()].iter().all(|word| *word == 0));
            assert!(work[size.words()..].iter().all(|word| *word == 7));
        }
    }
}

/// Tables that take as many bytes as any: 70 rows a rule where contents of 1,024 bytes are written longest, three rows by the name.
#[test]
fn the_most_pages() {
    let empties = |count: usize| vec![EMPTY; count];
    let longest = (0..3).fold(sequence(&empties(254)), |inner, _| {
        sequence(&[&empties(254)[..], &[&inner]].concat())
    });
    assert_eq!(longest.len(), 1_024);
    let longer = sequence(&empties(254));
    let marked = format!("{LONG}†");
    for (size, rules, count) in [
        (Size::Small, [16, 0, 0], 19),
        (Size::Standard, [31, 1, 32], 39),
        (Size::Large, [31, 0, 97], 42),
    ] {
        let contents = [
            vec![&longest[..]; rules[0]],
            vec![&longer; rules[1]],
            vec![EMPTY; rules[2]],
        ]
        .concat();
        let rules: Vec<(u8, &str, &[u8])> = contents.iter().map(|content| (0, &marked[..], *content)).collect();
        let made = table(&[0], &rules);
        assert_eq!(size.pages_bytes(), count * 4_380);
        let (mut out, mut work) = (vec![0; size.pages_bytes()], new_work(size));
        let found = pages(size, ASCII, &made, &mut out, &mut work).map(<[u8]>::len);
        assert_eq!(found, Ok(size.pages_bytes()));
        let found = pages(size, ASCII, &made, &mut out[1..], &mut work);
        assert_eq!(found, Err(Refusal::OutputTooShort));
    }
}

#[test]
fn the_header_has_the_same_numbers() {
    let header = fs::read_to_string(of_repository("include/cogarrune.h")).unwrap();
    for size in SIZES {
        let named = format!("#define COGARRUNE_PAGES_BYTES_{} ", format!("{size:?}").to_uppercase());
        let number = header.split(&named).nth(1).unwrap().lines().next().unwrap();
        assert_eq!(number.parse(), Ok(size.pages_bytes()));
    }
}

/// A number below a limit, by a seed that goes on (xorshift).
fn below(seed: &mut u64, limit: usize) -> usize {
    *seed ^= *seed << 13;
    *seed ^= *seed >> 7;
    *seed ^= *seed << 17;
    (*seed >> 32) as usize % limit
}

/// A content of types below a limit, in bytes and as a text.
fn content(seed: &mut u64, types: usize, levels: usize) -> (Vec<u8>, String) {
    let operator = below(seed, if levels == 0 { 3 } else { 8 });
    let (number, several) = (below(seed, types) as u8, 2 + below(seed, 8) as u8);
    let count = [0, 0, 0, several, several, 1, 1, 1][operator];
    let (inner, texts): (Vec<_>, Vec<_>) = (0..count).map(|_| content(seed, types, levels - 1)).unzip();
    let (head, text) = match operator {
        0 | 1 => (vec![operator as u8], ["!", "()"][operator].to_string()),
        2 => (vec![2, number], format!("t{number}")),
        3 => (vec![3, count], format!("({})", texts.join(","))),
        4 => (vec![4, count], format!("({})", texts.join("|"))),
        _ => (vec![operator as u8], texts.concat() + ["*", "+", "?"][operator - 5]),
    };
    ([head, inner.concat()].concat(), text)
}

/// Pages by another way: each byte is put in its place, on a new page where there is none yet.
fn laid(rules: &[[String; 3]]) -> String {
    let (mut paper, mut top) = (Vec::new(), 0);
    for texts in rules {
        let mut next = top;
        for (text, (column, width)) in texts.iter().zip([(1, 3), (5, 23), (29, 44)]) {
            for (i, byte) in text.bytes().enumerate() {
                let place = (top + i / width) * 73 + column - 1 + i % width;
                if place >= paper.len() {
                    paper.extend(format!("{BLANK}\n").repeat(60).bytes());
                }
                paper[place] = byte;
                next = next.max(place / 73 + 1);
            }
        }
        top = next;
    }
    String::from_utf8(paper).unwrap()
}

#[test]
fn random_tables() {
    let seed = &mut 20_261_117;
    for round in 0..600 {
        let (size, most) = [(Size::Small, 16), (Size::Standard, 64), (Size::Large, 128)][round % 3];
        let (mut rules, mut texts) = (Vec::new(), Vec::new());
        for _ in 0..below(seed, most + 1) {
            let (number, name, levels) = (below(seed, most), &LONG[..1 + below(seed, 63)], below(seed, 4));
            let (dagger, mark) = [("", ""), ("†", "#")][below(seed, 2)];
            let (bytes, text) = content(seed, most, levels);
            // no table gets too long
            if bytes.len() <= 200 {
                texts.push([format!("t{number}"), name.to_string(), text + mark]);
                rules.push((number as u8, name.to_string() + dagger, bytes));
            }
        }
        let rules: Vec<_> = rules.iter().map(|rule| (rule.0, &rule.1[..], &rule.2[..])).collect();
        assert_eq!(printed(size, &table(&[], &rules)), Ok(laid(&texts)), "round {round}");
    }
}

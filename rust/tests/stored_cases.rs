//! The second validator's stored cases (crates/vectors), through this wrapper: the answers, the lent slices and the parts of names.

use cogarrune::*;
use std::fs;
use std::path::{Path, PathBuf};

/// The case file, read front to back. tests/second_validator/README.md describes it.
struct Cases {
    bytes: Vec<u8>,
    at: usize,
}

impl Cases {
    fn byte(&mut self) -> u8 {
        self.at += 1;
        self.bytes[self.at - 1]
    }

    fn number(&mut self) -> u32 {
        (0..4).fold(0, |number, _| number << 8 | u32::from(self.byte()))
    }

    fn slice(&mut self) -> Vec<u8> {
        let length = self.number();
        self.bytes_of(length)
    }

    /// Lent classes; one number stands for the usual ones.
    fn classes(&mut self) -> Vec<u8> {
        match self.number() {
            0xFFFF_FFFF => Classes::ASCII.as_bytes().to_vec(),
            length => self.bytes_of(length),
        }
    }

    fn bytes_of(&mut self, length: u32) -> Vec<u8> {
        let from = self.at;
        self.at += length as usize;
        self.bytes[from..self.at].to_vec()
    }
}

struct Case {
    call: u8,
    size: Size,
    classes: Vec<u8>,
    label: usize,
    format: Format,
    first: Vec<u8>,
    second: Vec<u8>,
    out: Vec<u8>,
    work: Vec<u32>,
}

/// The size of a number; any other number counts as the standard size.
fn size_of(number: u32) -> Size {
    match number {
        0 => Size::Small,
        2 => Size::Large,
        _ => Size::Standard,
    }
}

/// The format of a number; any other number counts as a document file.
fn format_of(number: u32) -> Format {
    match number {
        1 => Format::XmlText,
        _ => Format::DocumentFile,
    }
}

fn next_case(cases: &mut Cases) -> Option<Case> {
    let call = cases.byte();
    if call == 0 {
        return None;
    }
    let size = size_of(cases.number());
    let classes = cases.classes();
    let (words, fill, out_length, label) = (cases.number(), cases.number(), cases.number(), cases.number());
    let out = (0..out_length).map(|i| ((165 + 7 * i) % 256) as u8).collect();
    let work = vec![fill; words as usize];
    Some(Case {
        call,
        size,
        classes,
        label: label as usize,
        format: format_of(cases.number()),
        first: cases.slice(),
        second: cases.slice(),
        out,
        work,
    })
}

fn checksum(items: impl Iterator<Item = u32>) -> u32 {
    items.fold(17, |sum: u32, item| sum.wrapping_mul(31).wrapping_add(item))
}

fn of_verdict(answer: Result<Verdict, Refusal>) -> Result<usize, Refusal> {
    answer.map(|verdict| verdict.is_yes() as usize)
}

/// The value and the checksum of what was written, or of the part that came back.
fn answered(case: &mut Case, classes: &Classes) -> (Result<usize, Refusal>, u32) {
    let (size, first, second, out, work) = (case.size, &case.first, &case.second, &mut case.out, &mut case.work);
    let value = match case.call {
        1 => table_reads(size, classes, first, work).map(|()| 1),
        2 => document_reads(size, classes, case.format, first, work).map(|()| 1),
        3 => {
            let name = label_name(size, classes, first, case.label, work);
            let sum = checksum(name.unwrap_or(&[]).iter().map(|byte| u32::from(*byte)));
            let place = |name: &[u8]| (name.as_ptr() as usize - first.as_ptr() as usize) * 65_536 + name.len();
            return (name.map(place), sum);
        }
        4 => of_verdict(lets_in(size, classes, first, case.format, second, work)),
        5 => of_verdict(is_local(size, classes, first, work)),
        6 => of_verdict(is_single_type(size, classes, first, work)),
        7 => sample(size, classes, case.format, first, out, work).map(<[u8]>::len),
        8 => widen_local_by_table(size, classes, first, second, out, work).map(<[u8]>::len),
        9 => widen_local_by_document(size, classes, first, case.format, second, out, work).map(<[u8]>::len),
        10 => widen_single_type_by_table(size, classes, first, second, out, work).map(<[u8]>::len),
        11 => widen_single_type_by_document(size, classes, first, case.format, second, out, work).map(<[u8]>::len),
        12 => pages(size, classes, first, out, work).map(<[u8]>::len),
        other => panic!("no call {other}"),
    };
    (value, checksum(out.iter().map(|byte| u32::from(*byte))))
}

fn line(case: &mut Case, classes: &Classes) -> String {
    let (value, outsum) = answered(case, classes);
    let worksum = checksum(case.work.iter().copied());
    let (refusal, value) = match value {
        Ok(value) => (0, value),
        Err(refusal) => (refusal.number(), 0),
    };
    format!("{} {} {} {} {}", case.call, refusal, value, outsum, worksum)
}

/// Call, refusal and value, where the classes do not load. No call can be lent them, so no slice can be looked at; the working memory
/// is tried before them.
fn unloaded(case: &Case, refusal: Refusal) -> String {
    let short = case.work.len() < case.size.words();
    let refusal = if short { Refusal::WorkTooShort } else { refusal };
    format!("{} {} 0 ", case.call, refusal.number())
}

#[test]
fn every_stored_case_has_its_line() {
    let vectors: PathBuf = Path::new(env!("CARGO_MANIFEST_DIR")).join("../crates/vectors");
    let mut cases = Cases {
        bytes: fs::read(vectors.join("stdin")).unwrap(),
        at: 0,
    };
    let expected = fs::read_to_string(vectors.join("stdout")).unwrap();
    let mut lines = expected.lines();
    let (mut count, mut unlent) = (0, 0);
    while let Some(mut case) = next_case(&mut cases) {
        let wanted = lines.next().unwrap();
        match Classes::load(&case.classes) {
            Ok(classes) => assert_eq!(line(&mut case, &classes), wanted, "case {count}"),
            Err(refusal) => {
                assert!(wanted.starts_with(&unloaded(&case, refusal)), "case {count}: {wanted}");
                unlent += 1;
            }
        }
        count += 1;
    }
    assert_eq!(lines.next(), None);
    println!("{count} cases, {unlent} of them with classes that do not load");
}

//! Schema tables for card lists: a safe wrapper over the verified library (crate `exports` of this repository).
//!
//! A call picks its limits by a [`Size`], is lent the [`Classes`] of the bytes in names, takes its inputs as bytes and is lent working
//! memory of as many words as the size needs ([`Size::words`]), with any content. Afterwards those words are zero, and words beyond them
//! are as they came.
//!
//! Before each document stands its [`Format`]: a document file, or XML text of tags and white space alone.
//!
//! Two names are equal when they agree after A to Z become a to z: CARD and card are one name, under any classes. All other bytes are
//! equal to themselves alone. The first spelling met is kept: in a result the old table's, else the addition's, in a sample that of the
//! first node.
//!
//! A document is added to a table through its [`sample`], in which a run of neighbours of one name is one or more of it: a list of nine
//! cards lets in ten.
//!
//! A result can be widened again. As long as every call gives a table, the stages don't matter: in whatever order the additions come, and
//! also as one table that lets in just what they do, the last result lets in the same documents and is least over the first table and
//! all of them. Its bytes may differ, since types and labels are numbered as they are met.
//!
//! A rule with tag 13 (hexadecimal) in place of 12 is for nodes that may hold text, and a node with tag 32 in place of 30 does hold some;
//! no node of XML text does. A node with text needs a rule for text; one without takes either. Widening keeps such marks: a result's
//! rule is for text if one of the rules behind it is that has a document of its own.
//!
//! A table can be printed: [`pages`] gives its rules in rows of three columns, as text of 60 rows a page.
//!
//! ```
//! use cogarrune::{lets_in, new_work, Classes, Format, Size, Verdict};
//!
//! let (size, classes, file) = (Size::Standard, &Classes::ASCII, Format::DocumentFile);
//! let table = [0x10, 0, 1, b'a', 0x11, 0, 1, 0, 0x12, 0, 3, 0, 0, 1, 0x1F, 0, 0];
//! let document = [0x30, 0, 2, 0, b'a', 0x3F, 0, 0];
//! let mut work = new_work(size);
//! assert_eq!(lets_in(size, classes, &table, file, &document, &mut work), Ok(Verdict::Yes));
//!
//! // the same as XML text
//! assert_eq!(lets_in(size, classes, &table, Format::XmlText, b"<a/>\n", &mut work), Ok(Verdict::Yes));
//!
//! // with text, which needs a rule for it
//! let with_text = [0x32, 0, 2, 0, b'a', 0x3F, 0, 0];
//! let for_text = [0x10, 0, 1, b'a', 0x11, 0, 1, 0, 0x13, 0, 3, 0, 0, 1, 0x1F, 0, 0];
//! assert_eq!(lets_in(size, classes, &table, file, &with_text, &mut work), Ok(Verdict::No));
//! assert_eq!(lets_in(size, classes, &for_text, file, &with_text, &mut work), Ok(Verdict::Yes));
//! ```
#![deny(unsafe_code)]

mod answer;
mod classes;
mod ffi;
mod format;
mod size;

use answer::{value_of, verdict_of};
pub use answer::{Refusal, Verdict};
pub use classes::Classes;
pub use format::Format;
pub use size::Size;

/// No input is longer, and no table written: an output of this many bytes is never too short for a table. For pages it may be; see
/// [`Size::pages_bytes`].
pub const MOST_BYTES: usize = 32_768;

/// Working memory for any call of a size.
pub fn new_work(size: Size) -> Vec<u32> {
    vec![0; size.words()]
}

/// Does a table read?
pub fn table_reads(size: Size, classes: &Classes, table: &[u8], work: &mut [u32]) -> Result<(), Refusal> {
    value_of(ffi::table_reads(size, classes.as_bytes(), table, work)).map(|_| ())
}

/// Does a document read?
pub fn document_reads(
    size: Size,
    classes: &Classes,
    format: Format,
    document: &[u8],
    work: &mut [u32],
) -> Result<(), Refusal> {
    value_of(ffi::document_reads(size, classes.as_bytes(), format, document, work)).map(|_| ())
}

/// The name of a label, counted from 0, as a part of its table's own bytes, so in its spelling.
pub fn label_name<'a>(
    size: Size,
    classes: &Classes,
    table: &'a [u8],
    label: usize,
    work: &mut [u32],
) -> Result<&'a [u8], Refusal> {
    let place = value_of(ffi::label_name(size, classes.as_bytes(), table, label, work))?;
    let (offset, length) = (place / 65_536, place % 65_536);
    Ok(&table[offset..offset + length])
}

/// Does the table let in the document? A name that the table does not know, in whatever spelling, means no, and so does text in a node
/// that no rule for text takes.
pub fn lets_in(
    size: Size,
    classes: &Classes,
    table: &[u8],
    format: Format,
    document: &[u8],
    work: &mut [u32],
) -> Result<Verdict, Refusal> {
    verdict_of(ffi::lets_in(size, classes.as_bytes(), table, format, document, work))
}

/// Is the table local: has no label two rules? Two rules are two whether or not they are for text.
pub fn is_local(size: Size, classes: &Classes, table: &[u8], work: &mut [u32]) -> Result<Verdict, Refusal> {
    verdict_of(ffi::is_local(size, classes.as_bytes(), table, work))
}

/// Is the table single-type: do no two rules share type and label, and neither among the starts nor within one content two
/// different types have rules with one label?
pub fn is_single_type(size: Size, classes: &Classes, table: &[u8], work: &mut [u32]) -> Result<Verdict, Refusal> {
    verdict_of(ffi::is_single_type(size, classes.as_bytes(), table, work))
}

/// Writes the sample table of a document, each name as its first node spells it, and gives its part of the output. It lets in the
/// document. Two or more neighbouring children of one name are one or more of it there. The rule of a path is for text if any of its nodes
/// holds some.
pub fn sample<'a>(
    size: Size,
    classes: &Classes,
    format: Format,
    document: &[u8],
    out: &'a mut [u8],
    work: &mut [u32],
) -> Result<&'a [u8], Refusal> {
    let answer = ffi::sample(size, classes.as_bytes(), format, document, out, work);
    written(answer, out)
}

/// Writes the least local table that lets in all of the old table and of the addition. Gives its part of the output.
pub fn widen_local_by_table<'a>(
    size: Size,
    classes: &Classes,
    old: &[u8],
    addition: &[u8],
    out: &'a mut [u8],
    work: &mut [u32],
) -> Result<&'a [u8], Refusal> {
    let answer = ffi::widen_local_by_table(size, classes.as_bytes(), old, addition, out, work);
    written(answer, out)
}

/// Writes the least local table that lets in all of the old table and of the document's sample, the document itself among them. Gives
/// its part of the output.
pub fn widen_local_by_document<'a>(
    size: Size,
    classes: &Classes,
    old: &[u8],
    format: Format,
    document: &[u8],
    out: &'a mut [u8],
    work: &mut [u32],
) -> Result<&'a [u8], Refusal> {
    let answer = ffi::widen_local_by_document(size, classes.as_bytes(), old, format, document, out, work);
    written(answer, out)
}

/// Writes the least single-type table that lets in all of the old table and of the addition. Gives its part of the output.
pub fn widen_single_type_by_table<'a>(
    size: Size,
    classes: &Classes,
    old: &[u8],
    addition: &[u8],
    out: &'a mut [u8],
    work: &mut [u32],
) -> Result<&'a [u8], Refusal> {
    let answer = ffi::widen_single_type_by_table(size, classes.as_bytes(), old, addition, out, work);
    written(answer, out)
}

/// Writes the least single-type table that lets in all of the old table and of the document's sample, the document itself among them.
/// Gives its part of the output.
pub fn widen_single_type_by_document<'a>(
    size: Size,
    classes: &Classes,
    old: &[u8],
    format: Format,
    document: &[u8],
    out: &'a mut [u8],
    work: &mut [u32],
) -> Result<&'a [u8], Refusal> {
    let answer = ffi::widen_single_type_by_document(size, classes.as_bytes(), old, format, document, out, work);
    written(answer, out)
}

/// Writes a table on printed pages and gives their part of the output: its rules as they are read, in the order of the file, nothing
/// reduced or sorted, and nothing but rules.
///
/// A page is 60 rows of 72 columns, and a column is a byte. The type stands in columns 1 to 3, the name in 5 to 27, as the table spells
/// it, and the content in 29 to 72, as the lister writes it, with `#` behind it for a rule for text. A longer text goes on in further rows
/// of its own columns, each row filled first. A rule takes as many rows as its longest text, also over a page's end. Each row is padded
/// with spaces and ends in a line feed: 73 bytes, so a page is 4,380. Blank rows, padded too, fill the last page.
///
/// No rules take no page, so any output will do for them. Pages can be longer than any table: [`Size::pages_bytes`].
///
/// ```
/// use cogarrune::{new_work, pages, Classes, Size};
///
/// let size = Size::Standard;
/// let table = [0x10, 0, 1, b'a', 0x11, 0, 1, 0, 0x12, 0, 3, 0, 0, 1, 0x1F, 0, 0];
/// let mut out = vec![0; size.pages_bytes()];
/// let printed = pages(size, &Classes::ASCII, &table, &mut out, &mut new_work(size)).unwrap();
/// let rows: Vec<&str> = std::str::from_utf8(printed).unwrap().lines().collect();
/// assert_eq!(rows.len(), 60);
/// assert_eq!(rows[0].trim_end(), "t0  a                       ()");
/// assert!(rows.iter().all(|row| row.len() == 72));
/// assert!(rows[1..].iter().all(|row| row.trim_end().is_empty()));
/// ```
pub fn pages<'a>(
    size: Size,
    classes: &Classes,
    table: &[u8],
    out: &'a mut [u8],
    work: &mut [u32],
) -> Result<&'a [u8], Refusal> {
    let answer = ffi::pages(size, classes.as_bytes(), table, out, work);
    written(answer, out)
}

/// The part of the output that a table or pages take, or the refusal.
fn written(answer: u64, out: &[u8]) -> Result<&[u8], Refusal> {
    value_of(answer).map(|length| &out[..length])
}

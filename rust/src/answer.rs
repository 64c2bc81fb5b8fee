//! The answers of the calls.

use std::fmt;

/// Why a call turned its input back, in the order in which the reasons are tried. It is not that of the numbers.
#[derive(Clone, Copy, Debug, PartialEq, Eq, Hash)]
#[repr(u8)]
pub enum Refusal {
    /// Fewer words are lent than the [`Size`](crate::Size) needs.
    WorkTooShort = 1,
    /// The classes do not load; the answer of [`Classes::load`](crate::Classes::load) alone.
    BadClasses = 18,
    /// An input is longer than 32,768 bytes.
    InputTooLong = 2,
    /// A field runs past the input's end, or the input stops before an end field.
    FieldPastEnd,
    /// A tag is foreign to this file or out of order, or its length is not one of its own.
    BadField,
    /// A byte outside names that XML text does not take there, or a text that stops inside a tag.
    BadText = 16,
    /// An end tag of XML text that does not name the innermost open element, byte for byte, or with none open.
    BadEndTag = 17,
    /// A name has a byte of class 0, or its first byte is not of class 2; in XML text also a name of no bytes or over 63.
    BadName = 5,
    /// A label name, in whatever spelling, or a start type repeats an earlier one of its table.
    Repeated,
    /// A label, start or rule more than the size allows.
    TooMany,
    /// A start or rule type not below the size's limit, or a label number that is not among the labels.
    OutOfRange,
    /// A content is not exactly one expression, or names a type not below the size's limit.
    BadContent,
    /// A content nests more than 32 deep.
    NestedTooDeep,
    /// A node too many, too many children, too deep, after the tree is complete, or an end before it is; so no bytes at all as XML
    /// text.
    BadTree,
    /// Bytes follow the end field.
    BytesAfterEnd,
    /// The united tables derive no document.
    NoDocument,
    /// The sample or the result breaks a limit of table files of that size.
    ResultTooLarge,
    /// The lent output is shorter than what is to be written.
    OutputTooShort,
}

/// All refusals.
const REFUSALS: [Refusal; 18] = [
    Refusal::WorkTooShort,
    Refusal::BadClasses,
    Refusal::InputTooLong,
    Refusal::FieldPastEnd,
    Refusal::BadField,
    Refusal::BadText,
    Refusal::BadEndTag,
    Refusal::BadName,
    Refusal::Repeated,
    Refusal::TooMany,
    Refusal::OutOfRange,
    Refusal::BadContent,
    Refusal::NestedTooDeep,
    Refusal::BadTree,
    Refusal::BytesAfterEnd,
    Refusal::NoDocument,
    Refusal::ResultTooLarge,
    Refusal::OutputTooShort,
];

impl Refusal {
    /// The number of the refusal: 1 to 18.
    pub fn number(self) -> u8 {
        self as u8
    }

    /// The refusal of a number.
    pub fn from_number(number: u64) -> Option<Refusal> {
        REFUSALS
            .into_iter()
            .find(|refusal| u64::from(refusal.number()) == number)
    }
}

impl fmt::Display for Refusal {
    fn fmt(&self, to: &mut fmt::Formatter<'_>) -> fmt::Result {
        write!(to, "refused {}", self.number())
    }
}

impl std::error::Error for Refusal {}

/// Membership and kind.
#[derive(Clone, Copy, Debug, PartialEq, Eq, Hash)]
pub enum Verdict {
    Yes,
    No,
}

impl Verdict {
    /// Is it yes?
    pub fn is_yes(self) -> bool {
        self == Verdict::Yes
    }
}

/// The value of an answer `refusal * 2^32 + value`, or the refusal.
pub(crate) fn value_of(answer: u64) -> Result<usize, Refusal> {
    match Refusal::from_number(answer >> 32) {
        Some(refusal) => Err(refusal),
        None => Ok((answer & 0xFFFF_FFFF) as usize),
    }
}

/// Yes or no, or the refusal.
pub(crate) fn verdict_of(answer: u64) -> Result<Verdict, Refusal> {
    value_of(answer).map(|value| if value == 1 { Verdict::Yes } else { Verdict::No })
}

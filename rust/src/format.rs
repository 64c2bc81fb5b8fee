//! What a document can be read as.

/// What a document is read as. The caller says it; it is never guessed from the bytes.
///
/// XML text is start tags, end tags and empty-element tags, with white space (20, 09, 0D, 0A hexadecimal) around them and behind a name
/// in a tag, and nothing else: no attributes, text, comments, declarations or references. A name ends at white space, `/` or `>`. An end
/// tag has the bytes of its start tag's name, so `</CARD>` does not end `<card>`. No node of XML text holds text.
///
/// A file and a text of the same nodes, neither longer than [`MOST_BYTES`](crate::MOST_BYTES), are both read or neither is; if both
/// are, every call answers alike.
#[derive(Clone, Copy, Debug, PartialEq, Eq, Hash)]
#[repr(u32)]
pub enum Format {
    /// Fields, one after the other: nodes and an end.
    DocumentFile = 0,
    /// Tags and white space.
    XmlText = 1,
}

impl Format {
    /// The number by which the archive knows it.
    pub(crate) const fn number(self) -> u32 {
        self as u32
    }
}

//! Which bytes stand in names.

use crate::answer::value_of;
use crate::{ffi, new_work, Refusal, Size};

/// The class of each byte: 0 never in a name, 1 in a name but not first, 2 anywhere in a name.
///
/// Classes are had by loading only, so a call that takes them is never refused for them. They load if there are 256, each is 0, 1
/// or 2, at least one is 2, and bytes 00 to 20 (hexadecimal) and `( ) | , * + ? ! < > / =` have class 0. Every other byte may have
/// any class. A letter and its capital may have different ones: whether bytes are a name is asked of the bytes as they are spelled.
///
/// ```
/// use cogarrune::{Classes, Refusal};
///
/// let mut classes = *Classes::ASCII.as_bytes();
/// classes[0x80..].fill(2);
/// assert!(Classes::load(&classes).is_ok());
/// classes[usize::from(b'=')] = 1;
/// assert_eq!(Classes::load(&classes), Err(Refusal::BadClasses));
/// ```
#[derive(Clone, Debug, PartialEq, Eq, Hash)]
pub struct Classes([u8; 256]);

impl Classes {
    /// Those of plain ASCII names: letters and underscore anywhere, digits, hyphen and period not first, no other byte.
    pub const ASCII: Classes = Classes(ascii());

    /// The classes with these bytes, that of byte 00 first. Bytes that do not load are [`Refusal::BadClasses`]. Working memory of the
    /// smallest size is made for the time of the call.
    pub fn load(classes: &[u8]) -> Result<Classes, Refusal> {
        // The library says whether they load, so the rules stand here in words only: `table_reads` on the table of the end field alone.
        // It has words enough and the table reads under all classes, so it answers 18 or that the table reads.
        const END_ALONE: [u8; 3] = [0x1F, 0, 0];
        let size = Size::Small;
        value_of(ffi::table_reads(size, classes, &END_ALONE, &mut new_work(size)))?;
        Ok(Classes(classes.try_into().expect("classes that load are 256")))
    }

    /// The class of each byte, in order.
    pub const fn as_bytes(&self) -> &[u8; 256] {
        &self.0
    }
}

const fn ascii() -> [u8; 256] {
    let mut classes = [0; 256];
    let mut byte = 0;
    while byte < classes.len() {
        classes[byte] = match byte as u8 {
            b'A'..=b'Z' | b'a'..=b'z' | b'_' => 2,
            b'0'..=b'9' | b'-' | b'.' => 1,
            _ => 0,
        };
        byte += 1;
    }
    classes
}

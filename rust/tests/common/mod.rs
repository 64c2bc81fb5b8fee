//! Tables and documents in bytes, and the classes and the format that most tests take.

use cogarrune::{Classes, Format};

pub const ASCII: &Classes = &Classes::ASCII;
pub const FILE: Format = Format::DocumentFile;

pub const NONE: &[u8] = &[0];
pub const EMPTY: &[u8] = &[1];

/// The table of the end field alone.
pub const E: &[u8] = &[0x1F, 0, 0];

fn field(tag: u8, value: &[u8]) -> Vec<u8> {
    let mut bytes = vec![tag, (value.len() / 256) as u8, (value.len() % 256) as u8];
    bytes.extend_from_slice(value);
    bytes
}

pub fn t(number: u8) -> Vec<u8> {
    vec![2, number]
}

fn listed(operator: u8, operands: &[&[u8]]) -> Vec<u8> {
    let mut bytes = vec![operator, operands.len() as u8];
    bytes.extend(operands.concat());
    bytes
}

pub fn sequence(operands: &[&[u8]]) -> Vec<u8> {
    listed(3, operands)
}

pub fn choice(operands: &[&[u8]]) -> Vec<u8> {
    listed(4, operands)
}

/// One or more of an operand.
pub fn some(operand: &[u8]) -> Vec<u8> {
    [&[6], operand].concat()
}

/// After a rule's name in `table`: the rule is for text. After a node's in `node`: it holds some. In no name of the tests.
pub const TEXT: char = '†';

/// The tag, which is the other one for a name with text, and the name.
fn tagged(plain: u8, for_text: u8, name: &str) -> (u8, &str) {
    name.strip_suffix(TEXT).map_or((plain, name), |name| (for_text, name))
}

/// A table with these starts and rules; labels are numbered as they first appear.
pub fn table(starts: &[u8], rules: &[(u8, &str, &[u8])]) -> Vec<u8> {
    let mut labels: Vec<&str> = Vec::new();
    for (_, name, _) in rules {
        let (_, name) = tagged(0x12, 0x13, name);
        if !labels.contains(&name) {
            labels.push(name);
        }
    }
    let mut bytes = Vec::new();
    for name in &labels {
        bytes.extend(field(0x10, name.as_bytes()));
    }
    for start in starts {
        bytes.extend(field(0x11, &[*start]));
    }
    for (number, name, content) in rules {
        let (tag, name) = tagged(0x12, 0x13, name);
        let label = labels.iter().position(|other| *other == name).unwrap() as u8;
        bytes.extend(field(tag, &[&[*number, label], *content].concat()));
    }
    bytes.extend(E);
    bytes
}

/// The fields of a node and its children.
pub fn node(name: &str, children: &[Vec<u8>]) -> Vec<u8> {
    let (tag, name) = tagged(0x30, 0x32, name);
    let mut bytes = field(tag, &[&[children.len() as u8], name.as_bytes()].concat());
    bytes.extend(children.concat());
    bytes
}

pub fn document(root: Vec<u8>) -> Vec<u8> {
    [root, field(0x3F, &[])].concat()
}

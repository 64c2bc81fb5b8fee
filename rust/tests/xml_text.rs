//! Documents as XML text: tags and white space alone. They are answered as document files of the same nodes.
#[allow(dead_code)] // each test uses a part of it
mod common;

use cogarrune::*;
use common::*;
use std::fs;
use std::path::Path;

const SIZES: [Size; 3] = [Size::Small, Size::Standard, Size::Large];
const XML: Format = Format::XmlText;

/// A name and the children.
struct Tree(&'static str, Vec<Tree>);

fn leaf(name: &'static str) -> Tree {
    Tree(name, Vec::new())
}

impl Tree {
    /// The fields of its nodes.
    fn fields(&self) -> Vec<u8> {
        let children: Vec<Vec<u8>> = self.1.iter().map(Tree::fields).collect();
        node(self.0, &children)
    }

    fn file(&self) -> Vec<u8> {
        document(self.fields())
    }

    /// With this white space around every tag and behind every name, and leaves as one tag or as two.
    fn text(&self, space: &str, leaves_in_two: bool) -> String {
        let Tree(name, children) = self;
        if children.is_empty() && !leaves_in_two {
            return format!("{space}<{name}{space}/>{space}");
        }
        let inner: String = children.iter().map(|child| child.text(space, leaves_in_two)).collect();
        format!("{space}<{name}{space}>{inner}{space}</{name}{space}>{space}")
    }

    /// In several ways.
    fn texts(&self) -> Vec<String> {
        let ways = [("", false), ("", true), (" ", true), ("\r\n\t ", false)];
        ways.map(|(space, in_two)| self.text(space, in_two)).to_vec()
    }
}

/// Lists, doors and zones in several shapes and spellings.
fn trees() -> Vec<Tree> {
    vec![
        leaf("a"),
        leaf("list"),
        Tree("list", vec![leaf("card")]),
        Tree("list", (0..9).map(|_| Tree("card", vec![leaf("name")])).collect()),
        Tree("list", vec![Tree("card", vec![leaf("name"), leaf("zone")])]),
        Tree(
            "LIST",
            vec![
                Tree("card", vec![leaf("NAME"), leaf("door")]),
                Tree("Card", vec![leaf("name")]),
            ],
        ),
        Tree(
            "list",
            vec![
                Tree("list", vec![Tree("list", vec![leaf("_-.9")])]),
                leaf("x"),
                leaf("x"),
            ],
        ),
    ]
}

/// A list of cards with a name and perhaps a door.
fn cards() -> Vec<u8> {
    let card = sequence(&[&t(2), &[7, 2, 3]]);
    let rules: [(u8, &str, &[u8]); 4] = [
        (0, "list", &[5, 2, 1]),
        (1, "card", &card),
        (2, "name", EMPTY),
        (3, "door", EMPTY),
    ];
    table(&[0], &rules)
}

/// The number of the refusal, 0 for none.
fn refused(size: Size, text: &[u8]) -> u8 {
    document_reads(size, ASCII, XML, text, &mut new_work(size)).map_or_else(Refusal::number, |()| 0)
}

/// An answer of each call on a document: verdict, sample, the widenings to local and to single-type.
type Answers = (Result<Verdict, Refusal>, [Result<Vec<u8>, Refusal>; 3]);

fn answers(size: Size, classes: &Classes, table: &[u8], format: Format, document: &[u8]) -> Answers {
    let (mut out, mut work) = (vec![0; MOST_BYTES], new_work(size));
    (
        lets_in(size, classes, table, format, document, &mut work),
        [
            sample(size, classes, format, document, &mut out, &mut work).map(<[u8]>::to_vec),
            widen_local_by_document(size, classes, table, format, document, &mut out, &mut work).map(<[u8]>::to_vec),
            widen_single_type_by_document(size, classes, table, format, document, &mut out, &mut work)
                .map(<[u8]>::to_vec),
        ],
    )
}

fn example(path: &str) -> Vec<u8> {
    fs::read(Path::new(env!("CARGO_MANIFEST_DIR")).join("../examples").join(path)).unwrap()
}

#[test]
fn what_is_taken() {
    for text in [
        "<a/>",
        "<a></a>",
        "<a />",
        "<a\t\r\n ></a\t\r\n >",
        " \t\r\n<a> <b/>\n<b></b>\r\n</a>\t ",
        "<a><a><a/></a></a>",
        "<A><a></a></A>",
        "<_a-1.b/>",
    ] {
        assert_eq!(SIZES.map(|size| refused(size, text.as_bytes())), [0; 3], "{text}");
    }
}

/// Examples with the number of their refusal.
#[test]
fn what_is_not_taken() {
    for (text, number) in [
        // other parts of XML
        ("<!-- x -->", 16),
        ("<!--x-->", 5),
        ("<a><!-- x --></a>", 16),
        ("<?xml?>", 5),
        ("<?xml version=\"1.0\"?><a/>", 16),
        ("<!DOCTYPE a><a/>", 16),
        ("<a b=\"c\">", 16),
        ("<a b='c'/>", 16),
        ("<a>x</a>", 16),
        ("<a>&amp;</a>", 16),
        ("<a><![CDATA[x]]></a>", 5),
        ("\u{FEFF}<a/>", 16),
        ("x", 16),
        ("\0<a/>", 16),
        ("\u{B}<a/>", 16),
        // tags that are none
        ("<>", 5),
        ("< a>", 16),
        ("< />", 5),
        ("</>", 17),
        ("</a/>", 16),
        ("<a></a/>", 16),
        ("<a / >", 16),
        ("<a//>", 16),
        ("<a<b>", 5),
        ("<a><b</a>", 16),
        ("<1/>", 5),
        ("<a:b/>", 5),
        // a text that stops inside a tag
        ("<", 16),
        ("<a", 16),
        ("<a ", 16),
        ("<a/", 16),
        ("<a></", 16),
        ("<a></a", 16),
        // end tags
        ("</a>", 17),
        ("<a></b>", 17),
        ("<a><b></a></b>", 17),
        ("<a></aa>", 17),
        ("<aa></a>", 17),
        ("<a/></a>", 17),
        ("<a></a></a>", 17),
        // trees
        ("", 11),
        (" \n", 11),
        ("<a>", 11),
        ("<a><b></b>", 11),
        ("<a/><b/>", 11),
        ("<a></a><a>", 11),
        ("<a/>x", 16),
    ] {
        assert_eq!(SIZES.map(|size| refused(size, text.as_bytes())), [number; 3], "{text}");
    }
}

/// The first tag at fault decides; a tag is tried 16, 17, 5, 11.
#[test]
fn the_first_fault() {
    for (text, number) in [
        ("</1 x>", 16),
        ("<1 x>", 16),
        ("</1>", 17),
        ("<a/><1/>", 5),
        ("<a/><1 x/>", 16),
        ("<a/><b/>x", 11),
        ("<a/><b/><1/>", 11),
        ("<a><1></b>", 5),
        ("<a></b><1>", 17),
        ("<a>x</b>", 16),
    ] {
        assert_eq!(refused(Size::Standard, text.as_bytes()), number, "{text}");
    }
}

/// End tags match by bytes, names of elements up to letter case.
#[test]
fn end_tags_and_letter_case() {
    for text in [
        "<card></CARD>",
        "<card></Card>",
        "<CARD></card>",
        "<list><card></carD></list>",
    ] {
        assert_eq!(refused(Size::Standard, text.as_bytes()), 17, "{text}");
    }
    let text = b"<LIST><card><NAME></NAME></card><Card><name/></Card></LIST>";
    let found = lets_in(
        Size::Standard,
        ASCII,
        &cards(),
        XML,
        text,
        &mut new_work(Size::Standard),
    );
    assert_eq!(found, Ok(Verdict::Yes));
}

#[test]
fn a_text_and_a_file_of_the_same_nodes() {
    let tables = [
        cards(),
        E.to_vec(),
        table(&[0], &[(0, "a", EMPTY)]),
        table(&[0], &[(0, "list†", &[5, 2, 0])]),
    ];
    for size in SIZES {
        for tree in trees() {
            for table in &tables {
                let of_file = answers(size, ASCII, table, FILE, &tree.file());
                assert!(of_file.0.is_ok() && of_file.1.iter().all(Result::is_ok));
                for text in tree.texts() {
                    assert_eq!(answers(size, ASCII, table, XML, text.as_bytes()), of_file, "{text}");
                }
            }
        }
    }
}

/// No number and no first byte makes a text of a file, or a file of a text.
#[test]
fn the_caller_says_the_format() {
    let (file, text) = (leaf("a").file(), leaf("a").text("", false));
    let reads =
        |format, bytes: &[u8]| document_reads(Size::Standard, ASCII, format, bytes, &mut new_work(Size::Standard));
    assert_eq!([reads(FILE, &file), reads(XML, text.as_bytes())], [Ok(()); 2]);
    assert_eq!(reads(XML, &file), Err(Refusal::BadText));
    assert_eq!(reads(FILE, text.as_bytes()), Err(Refusal::FieldPastEnd));
    assert_eq!(
        [reads(FILE, &[]), reads(XML, &[])],
        [Err(Refusal::FieldPastEnd), Err(Refusal::BadTree)]
    );
}

/// So many elements, each in the one before.
fn nested(count: usize) -> String {
    "<a>".repeat(count) + &"</a>".repeat(count)
}

/// A text of so many nodes, on three levels at most, with as many children as can be.
fn nodes(count: usize) -> String {
    let mut left = count - 1;
    let mut text = String::from("<list>");
    while left > 0 {
        let children = (left - 1).min(199);
        text += &format!("<group>{}</group>", "<card/>".repeat(children));
        left -= 1 + children;
    }
    text + "</list>"
}

#[test]
fn limits_of_each_size() {
    for (size, most_nodes, most_levels) in [
        (Size::Small, 256, 16),
        (Size::Standard, 1024, 64),
        (Size::Large, 2048, 64),
    ] {
        let at = |text: String| refused(size, text.as_bytes());
        assert_eq!([at(nodes(most_nodes)), at(nodes(most_nodes + 1))], [0, 11]);
        assert_eq!([at(nested(most_levels)), at(nested(most_levels + 1))], [0, 11]);
        let children = |count: usize, last: &str| format!("<list>{}{last}</list>", "<card/>".repeat(count));
        assert_eq!([at(children(200, "")), at(children(201, ""))], [0, 11]);
        // at the tag of the 201st child
        assert_eq!([at(children(200, "x<card/>")), at(children(201, "x"))], [16, 11]);
        let named = |length: usize| format!("<{}/>", "n".repeat(length));
        assert_eq!(
            [at(named(1)), at(named(63)), at(named(64)), at(named(255))],
            [0, 0, 5, 5]
        );
        // the text's own length
        let spaced = |length: usize| "<a/>".to_string() + &" ".repeat(length - 4);
        assert_eq!([at(spaced(MOST_BYTES)), at(spaced(MOST_BYTES + 1))], [0, 2]);
        assert_eq!(at("x".repeat(MOST_BYTES + 1)), 2);
    }
}

/// The text is short enough, the file of its nodes is not.
#[test]
fn a_text_whose_file_would_be_too_long() {
    const NAME: &str = "a23456789012345678901234567890123456789012345678901234567890123";
    let group = |count: usize| Tree(NAME, (0..count).map(|_| leaf(NAME)).collect());
    let tree = Tree(NAME, vec![group(162), group(162), group(162)]);
    let (file, text) = (tree.file(), tree.text("", false));
    assert!(file.len() > MOST_BYTES && text.len() <= MOST_BYTES);
    let any = table(&[0], &[(0, NAME, &[5, 2, 0])]);
    let size = Size::Standard;
    let told = answers(size, ASCII, &any, XML, text.as_bytes());
    assert_eq!(told.0, Ok(Verdict::Yes));
    assert!(told.1.iter().all(Result::is_ok));
    assert_eq!(answers(size, ASCII, &any, FILE, &file).0, Err(Refusal::InputTooLong));
}

/// The lister's example, its document as text.
#[test]
fn the_listers_example() {
    let (old, file) = (example("cards/old.tbl"), example("cards/new.doc"));
    let text = b"<list>\n  <card><name/><zone/></card>\n</list>\n";
    let told = answers(Size::Standard, ASCII, &old, XML, text);
    assert_eq!(told, answers(Size::Standard, ASCII, &old, FILE, &file));
    assert_eq!(told.0, Ok(Verdict::No));
    let card = choice(&[&sequence(&[&t(2), &[7, 2, 3]]), &sequence(&[&t(2), &t(4)])]);
    let rules: [(u8, &str, &[u8]); 5] = [
        (0, "list", &choice(&[&[5, 2, 1], &t(1)])),
        (1, "card", &card),
        (2, "name", EMPTY),
        (3, "door", EMPTY),
        (4, "zone", EMPTY),
    ];
    assert_eq!(told.1[1], Ok(table(&[0], &rules)));
}

/// No node of a text holds text: the document of that example has a mark, the same tags have none.
#[test]
fn no_marks() {
    let (old, file) = (example("text/old.tbl"), example("text/new.doc"));
    let text = b"<list><card><name/></card></list>";
    let taken = |name: &str| table(&[0], &[(0, "list", &t(1)), (1, "card", &t(2)), (2, name, EMPTY)]);
    assert_eq!(
        answers(Size::Standard, ASCII, &old, FILE, &file).1[0],
        Ok(taken("name†"))
    );
    assert_eq!(answers(Size::Standard, ASCII, &old, XML, text).1[0], Ok(taken("name")));
}

/// The shipped list, which its table lets in, and which is no document file.
#[test]
fn the_shipped_list() {
    let (old, list) = (example("xml/old.tbl"), example("xml/list.xml"));
    assert_eq!(old, example("cards/old.tbl"));
    assert_eq!(answers(Size::Standard, ASCII, &old, XML, &list).0, Ok(Verdict::Yes));
    assert!(answers(Size::Standard, ASCII, &old, FILE, &list).0.is_err());
}

/// Names under classes of one's own.
#[test]
fn names_above_7f() {
    let mut classes = *Classes::ASCII.as_bytes();
    classes[0x80..].fill(2);
    let classes = Classes::load(&classes).unwrap();
    let tree = Tree("menü", vec![leaf("größe"), leaf("Größe")]);
    let old = table(&[0], &[(0, "menü", EMPTY)]);
    for text in tree.texts() {
        let found = answers(Size::Small, &classes, &old, XML, text.as_bytes());
        assert_eq!(found, answers(Size::Small, &classes, &old, FILE, &tree.file()));
        assert_eq!(refused(Size::Small, text.as_bytes()), 5);
    }
}

/// Words, output and the order of inputs: as for document files.
#[test]
fn lent_slices_and_the_input_before() {
    let bad = [
        (&b"x"[..], Refusal::BadText),
        (b"</a>", Refusal::BadEndTag),
        (b"<1/>", Refusal::BadName),
        (b"<a>", Refusal::BadTree),
    ];
    for size in SIZES {
        for (text, refusal) in bad {
            let (mut out, mut work) = (vec![9; 100], vec![7; size.words() + 3]);
            let wider = widen_local_by_document(size, ASCII, &cards(), XML, text, &mut out, &mut work);
            assert_eq!(wider, Err(refusal));
            assert!(out.iter().all(|byte| *byte == 9));
            assert!(work[..size.words()].iter().all(|word| *word == 0));
            assert!(work[size.words()..].iter().all(|word| *word == 7));
            // the table first, and before it the words
            let found = lets_in(size, ASCII, &[], XML, text, &mut work);
            assert_eq!(found, Err(Refusal::FieldPastEnd));
            let found = lets_in(size, ASCII, &cards(), XML, text, &mut vec![7; size.words() - 1]);
            assert_eq!(found, Err(Refusal::WorkTooShort));
        }
        let (mut out, mut work) = (vec![9; 10], new_work(size));
        assert_eq!(
            sample(size, ASCII, XML, b"<a/>", &mut out, &mut work),
            Err(Refusal::OutputTooShort)
        );
    }
}

// Asks the Rust: reads a file of questions, writes a file of answers. All numbers are u32, low byte first.
//
// question: what (0 tokens, 1 layout, 2 call), source length, outline words, width, indent, the source, the outline
// answer:   how (see below), length, bytes

use dogwood_syntax::{Document, Item, ItemKind, Span};
use std::panic::{catch_unwind, AssertUnwindSafe};

const ANSWERED: u32 = 0;
const UNTERMINATED: u32 = 1;
const PANICKED: u32 = 2;
const NO_RECORDS: u32 = 3;
const NO_TEXT: u32 = 4;

const SPACES: &str = "                                                                ";

struct Question<'a> {
    what: u32,
    source: &'a [u8],
    outline: Vec<u32>,
    width: usize,
    indent: usize,
}

struct Input<'a> {
    rest: &'a [u8],
}

impl<'a> Input<'a> {
    fn bytes(&mut self, count: usize) -> &'a [u8] {
        let (taken, rest) = self.rest.split_at(count);
        self.rest = rest;
        taken
    }

    fn word(&mut self) -> u32 {
        u32::from_le_bytes(self.bytes(4).try_into().expect("four bytes"))
    }

    fn question(&mut self) -> Question<'a> {
        let what = self.word();
        let length = self.word() as usize;
        let words = self.word();
        let width = self.word() as usize;
        let indent = self.word() as usize;
        let source = self.bytes(length);
        let outline = (0..words).map(|_| self.word()).collect();
        Question { what, source, outline, width, indent }
    }
}

fn document(words: &[u32]) -> Option<Document> {
    let mut items = Vec::new();
    let mut rest = words;
    while !rest.is_empty() {
        let (head, after) = rest.split_at_checked(4)?;
        let (parts, after) = after.split_at_checked(2 * head[3] as usize)?;
        items.push(Item {
            kind: if head[0] == 0 { ItemKind::Definition } else { ItemKind::Policy },
            span: Span::new(head[1] as usize, head[2] as usize),
            line_parts: parts.chunks(2).map(|part| Span::new(part[0] as usize, part[1] as usize)).collect(),
        });
        rest = after;
    }
    Some(Document { items })
}

fn place(at: usize) -> Vec<u8> {
    (at as u32).to_le_bytes().to_vec()
}

fn tokens(source: &str) -> (u32, Vec<u8>) {
    let (_, text) = dogwood_syntax::split_bom(source);
    match dogwood_syntax::tokenize(text) {
        Err(unterminated) => (UNTERMINATED, place(unterminated.span.start)),
        Ok(tokens) => {
            let words = tokens.iter().flat_map(|token| [token.kind as usize, token.span.start, token.span.end]);
            (ANSWERED, words.flat_map(place).collect())
        }
    }
}

fn layout(source: &str) -> (u32, Vec<u8>) {
    match dogwood_syntax::tokenize(source) {
        Err(unterminated) => (UNTERMINATED, place(unterminated.span.start)),
        Ok(tokens) => (ANSWERED, dogwood_formatter::lay_out_whole(&tokens).into_bytes()),
    }
}

fn call(source: &str, outline: &[u32]) -> (u32, Vec<u8>) {
    let Some(document) = document(outline) else {
        return (NO_RECORDS, Vec::new());
    };
    dogwood_syntax::supply(document);
    (ANSWERED, dogwood_formatter::format_policies(source).into_bytes())
}

fn answer(question: &Question<'_>) -> (u32, Vec<u8>) {
    let source = match std::str::from_utf8(question.source) {
        Ok(source) => source,
        Err(fault) => return (NO_TEXT, place(fault.valid_up_to())),
    };
    dogwood_formatter::set(question.width, &SPACES[..question.indent]);
    let asked = AssertUnwindSafe(|| match question.what {
        0 => tokens(source),
        1 => layout(source),
        _ => call(source, &question.outline),
    });
    catch_unwind(asked).unwrap_or((PANICKED, Vec::new()))
}

fn main() {
    std::panic::set_hook(Box::new(|_| {}));
    let arguments: Vec<String> = std::env::args().collect();
    let asked = std::fs::read(&arguments[1]).expect("the file of questions");
    let mut input = Input { rest: &asked };
    let mut output = Vec::new();
    while !input.rest.is_empty() {
        let (how, bytes) = answer(&input.question());
        output.extend(how.to_le_bytes());
        output.extend((bytes.len() as u32).to_le_bytes());
        output.extend(bytes);
    }
    std::fs::write(&arguments[2], output).expect("the file of answers");
}

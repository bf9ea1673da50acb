//! The text of a sheet by the Rust and by Skriduhol.
use crate::{
    library::{ask, Lent},
    sheets::steps,
    timing::{grouped, in_rounds, Effort, Pair, Times},
};
use alice::generate_proof_term_from_proof_tree;
use oracle::{answer::Question, generate::Named, sheet::decode};
use std::{cell::RefCell, rc::Rc};

pub struct Text {
    what: String,
    steps: usize,
    labels: usize,
    sheet_bytes: usize,
    text_bytes: usize,
    rust: Times,
    ours: Times,
}

impl Text {
    /// The texts must be equal.
    fn new((what, bytes): &Named, theirs: &str, pair: &Pair, lent: &mut Lent) -> Self {
        let labels = ask(Question::LabelCount, bytes, lent).unwrap();
        let text_bytes = ask(Question::PlainText, bytes, lent).unwrap();
        assert!(theirs.as_bytes() == &lent.bytes[..text_bytes], "the texts differ: {what}");
        let (rust, ours) = pair.times();
        Text { what: what.clone(), steps: steps(bytes), labels, sheet_bytes: bytes.len(), text_bytes, rust, ours }
    }

    /// The Rust's nanoseconds.
    pub fn rust_time(&self) -> f64 {
        self.rust.fastest
    }

    pub fn ratio(&self) -> f64 {
        self.rust.fastest / self.ours.fastest
    }

    fn per_byte(&self, times: &Times) -> f64 {
        times.fastest / self.text_bytes as f64
    }

    /// Skriduhol's nanoseconds for a byte of the text.
    pub fn ours_per_byte(&self) -> f64 {
        self.per_byte(&self.ours)
    }

    fn line(&self) -> String {
        let numbers = [self.steps, self.labels, self.sheet_bytes, self.text_bytes].map(grouped).join(" | ");
        let times = [&self.rust, &self.ours].map(|times| format!("{times} | {}", times.spread())).join(" | ");
        let per_byte = format!("{:.1} | {:.2}", self.per_byte(&self.rust), self.ours_per_byte());
        format!("| {} | {numbers} | {times} | {:.1} | {per_byte} |", self.what, self.ratio())
    }
}

const HEAD: &str = "\
| sheet | steps | labels | sheet bytes | text bytes | Rust ns | batches | Skriduhol ns | batches | ratio | Rust ns/byte | Skriduhol ns/byte |
|---|--:|--:|--:|--:|--:|--:|--:|--:|--:|--:|--:|";

/// What is timed on a sheet, and where the Rust's text is left. The Rust starts from its tree, Skriduhol from the sheet's
/// bytes, with a question.
fn pair((_, bytes): &Named, question: Question) -> (Rc<RefCell<String>>, Pair<'_>) {
    let sheet = decode(bytes).unwrap();
    let (tree, goal) = (sheet.tree(sheet.root()), sheet.prop(&sheet.props[sheet.goal]));
    let theirs = Rc::new(RefCell::new(String::new()));
    let left = Rc::clone(&theirs);
    let rust = Box::new(move |_: &mut Lent| *left.borrow_mut() = generate_proof_term_from_proof_tree(&tree, &goal));
    let ours = Box::new(move |lent: &mut Lent| {
        ask(question, bytes, lent).unwrap();
    });
    (theirs, Pair::new(rust, ours))
}

/// How many times the Rust's speed a text has: the Rust's is of version 1, Skriduhol's answers any question.
pub fn speed(effort: &Effort, named: &Named, question: Question, lent: &mut Lent) -> f64 {
    let (_, pair) = pair(named, question);
    let mut pairs = [pair];
    in_rounds(effort, &mut pairs, lent);
    let (rust, ours) = pairs[0].times();
    rust.fastest / ours.fastest
}

/// The texts of these sheets, a line for each.
pub fn texts(effort: &Effort, all: &[Named], lent: &mut Lent) -> Vec<Text> {
    let (theirs, mut pairs): (Vec<_>, Vec<_>) = all.iter().map(|named| pair(named, Question::PlainText)).unzip();
    in_rounds(effort, &mut pairs, lent);
    let sheets = all.iter().zip(theirs).zip(&pairs);
    let texts: Vec<Text> =
        sheets.map(|((named, theirs), pair)| Text::new(named, &theirs.borrow(), pair, lent)).collect();
    println!("{HEAD}");
    texts.iter().for_each(|text| println!("{}", text.line()));
    texts
}

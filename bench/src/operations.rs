//! The operations besides the plain text.
use crate::{
    library::{ask, question, Lent},
    sheets::steps,
    timing::{grouped, in_rounds, Effort, Pair, Run},
};
use alice::proof_tree_conclusion_alpha_eq;
use oracle::{
    answer::{Operation, Question},
    generate::Named,
    sheet::{decode, Sheet},
};
use std::hint::black_box;

/// The Rust's part in an answer, where it has one: the whole export for the lists and the count. A comparison is asked of a sheet's
/// bytes and two steps, so the oracle's reading of the sheet stands before the Rust's comparison.
fn rust_part(question: Question, bytes: &[u8], sheet: &Sheet) -> Option<Run<'static>> {
    let tree = sheet.tree(sheet.root());
    Some(match question {
        Question::AtomList | Question::DatatypeList => Box::new(move |_: &mut Lent| {
            black_box(tree.as_proof());
        }),
        Question::LabelCount => Box::new(move |_: &mut Lent| {
            black_box(tree.as_proof().proof_term.annotation_count());
        }),
        Question::Comparison(i, j) => {
            let bytes = bytes.to_vec();
            Box::new(move |_: &mut Lent| {
                let sheet = decode(black_box(&bytes)).expect("the sheet is one");
                black_box(proof_tree_conclusion_alpha_eq(sheet.conclusion(i), sheet.conclusion(j)));
            })
        }
        _ => return None,
    })
}

/// A question on a sheet.
struct Asked<'a> {
    what: &'a str,
    question: Question,
    bytes: &'a [u8],
    in_the_rust: bool,
}

impl Asked<'_> {
    /// How many times the Rust's speed, where the Rust has a part in the answer.
    fn ratio(&self, pair: &Pair) -> Option<f64> {
        let (rust, ours) = pair.times();
        self.in_the_rust.then_some(rust.fastest / ours.fastest)
    }

    fn line(&self, pair: &Pair, lent: &mut Lent) -> String {
        let answer = grouped(ask(self.question, self.bytes, lent).unwrap());
        let (rust, ours) = pair.times();
        let (rust, ratio) = match self.ratio(pair) {
            Some(ratio) => (rust.to_string(), format!("{ratio:.1}")),
            None => Default::default(),
        };
        format!("| {} | {} | {answer} | {rust} | {ours} | {ratio} |", self.what, self.question.operation())
    }
}

/// Every operation but the plain text on a sheet, with what is timed of it.
fn of_sheet((what, bytes): &Named) -> Vec<(Asked<'_>, Pair<'_>)> {
    let sheet = decode(bytes).unwrap();
    let others = Operation::ALL.into_iter().filter(|operation| *operation != Operation::PlainText);
    let pair = |operation| {
        let question = question(operation, steps(bytes));
        let rust = rust_part(question, bytes, &sheet);
        let ours = Box::new(move |lent: &mut Lent| {
            black_box(ask(question, bytes, lent).unwrap());
        });
        let asked = Asked { what, question, bytes, in_the_rust: rust.is_some() };
        (asked, Pair::new(rust.unwrap_or_else(|| Box::new(|_| ())), ours))
    };
    others.map(pair).collect()
}

/// Each operation on these sheets; how many times the Rust's speed those have in which the Rust has a part.
pub fn operations(effort: &Effort, all: &[Named], lent: &mut Lent) -> Vec<f64> {
    let (asked, mut pairs): (Vec<_>, Vec<_>) = all.iter().flat_map(of_sheet).unzip();
    in_rounds(effort, &mut pairs, lent);
    println!("| sheet | operation | answer | Rust ns | Skriduhol ns | ratio |\n|---|---|--:|--:|--:|--:|");
    for (asked, pair) in asked.iter().zip(&pairs) {
        println!("{}", asked.line(pair, lent));
    }
    asked.iter().zip(&pairs).filter_map(|(asked, pair)| asked.ratio(pair)).collect()
}

//! What a version of the handout costs beside another: the text, and the datatype list.
use crate::{
    library::{ask, Lent},
    timing::{grouped, in_rounds, Effort, Pair, Run},
};
use oracle::{
    answer::{Operation, Question},
    generate::Named,
};
use std::hint::black_box;

/// Two versions of the plain text and of the datatype list on these sheets; how many times as long the later one's text takes,
/// at the most.
pub fn handouts(effort: &Effort, all: &[Named], [earlier, later]: [usize; 2], lent: &mut Lent) -> f64 {
    let asked: Vec<(&Named, fn(usize) -> Question)> = all
        .iter()
        .flat_map(|named| [(named, Question::HandoutPlain as _), (named, Question::HandoutDatatypes as _)])
        .collect();
    let run = |bytes: &'_ [u8], question: Question| -> Run {
        let bytes = bytes.to_vec();
        Box::new(move |lent: &mut Lent| {
            black_box(ask(question, &bytes, lent).unwrap());
        })
    };
    let mut pairs: Vec<Pair> =
        asked.iter().map(|((_, bytes), of)| Pair::new(run(bytes, of(earlier)), run(bytes, of(later)))).collect();
    in_rounds(effort, &mut pairs, lent);
    println!("| sheet | operation | version {earlier} | ns | version {later} | ns | batches | ns/element |");
    println!("|---|---|--:|--:|--:|--:|--:|--:|");
    let mut longest: f64 = 0.0;
    for (((what, bytes), of), pair) in asked.iter().zip(&pairs) {
        let (first, second) = pair.times();
        let [one, two] = [earlier, later].map(|version| ask(of(version), bytes, lent).unwrap());
        let each = second.fastest / two as f64;
        if of(later).operation() == Operation::HandoutPlain {
            longest = longest.max(second.fastest / first.fastest);
        }
        println!(
            "| {what} | {} | {} | {first} | {} | {second} | {} | {each:.2} |",
            of(later).operation(),
            grouped(one),
            grouped(two),
            second.spread(),
        );
    }
    longest
}

//! What the board's output costs where it has lines with a number in decimal.
use crate::{
    library::{ask, Lent},
    timing::{grouped, in_rounds, Effort, Pair},
};
use oracle::{answer::Question, generate::Named};
use std::hint::black_box;

/// The board's output on these sheets.
pub fn lines(effort: &Effort, all: &[Named], lent: &mut Lent) {
    let output = |bytes: &[u8], lent: &mut Lent| ask(Question::BoardOutput, bytes, lent).unwrap();
    let pair = |(_, bytes): &'_ Named| {
        let bytes = bytes.clone();
        let ours = Box::new(move |lent: &mut Lent| {
            black_box(output(&bytes, lent));
        });
        Pair::new(Box::new(|_| ()), ours)
    };
    let mut pairs: Vec<Pair> = all.iter().map(pair).collect();
    in_rounds(effort, &mut pairs, lent);
    println!("| sheet | output bytes | Skriduhol ns | batches |\n|---|--:|--:|--:|");
    for ((what, bytes), pair) in all.iter().zip(&pairs) {
        let (_, ours) = pair.times();
        println!("| {what} | {} | {ours} | {} |", grouped(output(bytes, lent)), ours.spread());
    }
}

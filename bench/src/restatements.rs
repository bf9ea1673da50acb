//! What a restatement costs, by the sheet, beside the oracle's with an index of names, which is plain Rust, and the stack that it takes.
use crate::{
    library::{restate, Lent},
    plain,
    required::{at_least, Required, LEAST_RATIO},
    stack::Stack,
    timing::{grouped, in_rounds, Effort, Pair},
};
use oracle::{
    restate::{givens, restate as expected, sheets, Given},
    rng::Rng,
};
use std::hint::black_box;

/// Of each kind of sheet one, with a conclusion that is accepted where there is one.
const SHEETS: [&str; 4] = ["proposition 0", "proposition 0 among gaps", "255 levels", "1023 steps"];

fn asked() -> Vec<(String, Vec<u8>, Given)> {
    let chosen = sheets().into_iter().filter(|(name, _)| SHEETS.contains(&name.as_str()));
    let with_given = |(name, sheet): (String, Vec<u8>)| {
        let all = givens(&sheet, &mut Rng::new(1, 0));
        let accepted = all.iter().find(|given| expected(&sheet, **given, None).is_ok());
        let given = *accepted.expect("a conclusion is restated");
        (name, sheet, given)
    };
    chosen.map(with_given).collect()
}

pub fn restatements(effort: &Effort, lent: &mut Lent) -> Vec<Required> {
    let asked = asked();
    let pair = |(_, sheet, given): &(String, Vec<u8>, Given)| {
        let (ours, theirs, given) = (sheet.clone(), sheet.clone(), *given);
        Pair::new(
            Box::new(move |_| {
                black_box(plain::restate(black_box(&theirs), given));
            }),
            Box::new(move |lent: &mut Lent| {
                let _ = black_box(restate(black_box(&ours), given, lent));
            }),
        )
    };
    let mut pairs: Vec<Pair> = asked.iter().map(pair).collect();
    in_rounds(effort, &mut pairs, lent);
    println!("| sheet | bytes | plain Rust ns | Skriduhol ns | ratio | batches | stack bytes |\n|---|--:|--:|--:|--:|--:|--:|");
    let mut ratios = vec![];
    for ((name, sheet, given), pair) in asked.iter().zip(&pairs) {
        let (rust, ours) = pair.times();
        let ratio = rust.fastest / ours.fastest;
        let bytes = restate(sheet, *given, lent).map_or_else(|refusal| refusal.to_string(), grouped);
        let stack = Stack::new().used_by_restatement(sheet, *given, lent);
        println!("| {name} | {bytes} | {rust} | {ours} | {ratio:.1} | {} | {} |", ours.spread(), grouped(stack));
        ratios.push(ratio);
    }
    vec![at_least("restatements, beside plain Rust", LEAST_RATIO, ratios)]
}

//! What an exercise costs, by its ordinal, and the stack that it takes.
use crate::{
    library::{exercise, Lent},
    stack::Stack,
    timing::{grouped, in_rounds, Effort, Pair},
};
use std::hint::black_box;

/// Over three names with n of 3: the first and the last of each number of connectives, and the first past the end.
const ORDINALS: [usize; 9] = [0, 4, 5, 79, 80, 2_329, 2_330, 86_704, 86_705];

pub fn exercises(effort: &Effort, lent: &mut Lent) {
    let pair = |ordinal| {
        let ours = Box::new(move |lent: &mut Lent| {
            let _ = black_box(exercise(ordinal, lent));
        });
        Pair::new(Box::new(|_| ()), ours)
    };
    let mut pairs: Vec<Pair> = ORDINALS.into_iter().map(pair).collect();
    in_rounds(effort, &mut pairs, lent);
    println!("| ordinal | code bytes | Skriduhol ns | batches | stack bytes |\n|--:|--:|--:|--:|--:|");
    for (ordinal, pair) in ORDINALS.into_iter().zip(&pairs) {
        let (_, ours) = pair.times();
        let code = exercise(ordinal, lent).map_or_else(|refusal| refusal.to_string(), grouped);
        let stack = Stack::new().used_by_exercise(ordinal, lent);
        println!("| {} | {code} | {ours} | {} | {} |", grouped(ordinal), ours.spread(), grouped(stack));
    }
}

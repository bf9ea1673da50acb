//! What a graft costs, by the two sheets, beside the oracle's with an index of names, which is plain Rust, and the stack that it takes.
use crate::{
    library::{graft, Lent},
    plain,
    required::{at_least, Required, LEAST_RATIO},
    stack::Stack,
    timing::{grouped, in_rounds, Effort, Pair},
};
use oracle::{
    draw::{and, atom, code, step},
    grafts::{fixed, Graft},
    index::colliding,
    sheet::{rule, Plain},
};
use std::hint::black_box;

/// Of those by hand: the smallest, and such as meet a limit.
const BY_HAND: [&str; 7] = [
    "A by Ident u",
    "a pair under fst",
    "512 names, the same backwards",
    "511 and 1 propositions",
    "512 and 513 steps",
    "100 levels above 156",
    "all limits met",
];

/// A sheet of so many names, propositions and steps, all names of its own but the first.
fn sized(letter: char, n: usize) -> Plain {
    let names = (0..n).map(|i| if i == 0 { "A".into() } else { format!("{letter}{i}").into_bytes() }).collect();
    let prop = |i: usize| if i == 0 { atom(0) } else { and(atom(i as u16), atom(0)) };
    let mut steps = vec![step(rule::SORRY, 0, &[], 0)];
    steps.extend((2..n as u16).map(|i| step(rule::IDENT, 0, &[i], i)));
    steps.push(step(rule::ALPHA, steps.len(), &[], 0));
    Plain { names, props: (0..n).map(|i| code(&prop(i))).collect(), steps, goal: 0 }
}

/// More and more of everything, up to half of what a sheet may have; and names that all start at one slot.
fn growing() -> Vec<Graft> {
    let pair =
        |what: String, host: Plain, donor: Plain| Graft { what, host: host.bytes(), step: 0, donor: donor.bytes() };
    let mut all: Vec<Graft> = [4, 16, 64, 254]
        .into_iter()
        .map(|n| pair(format!("{n} names, propositions and steps each"), sized('h', n), sized('d', n)))
        .collect();
    let names = colliding(448);
    let (mut host, mut donor) = (sized('h', 1), sized('d', 1));
    host.names.extend_from_slice(&names[..224]);
    donor.names.extend_from_slice(&names[224..]);
    all.push(pair("224 names each that start alike".into(), host, donor));
    all
}

pub fn grafts(effort: &Effort, lent: &mut Lent) -> Vec<Required> {
    let mut asked: Vec<Graft> = fixed().into_iter().filter(|asked| BY_HAND.contains(&asked.what.as_str())).collect();
    asked.extend(growing());
    let pair = |asked: &Graft| {
        let (ours, theirs) = (asked.clone(), asked.clone());
        Pair::new(
            Box::new(move |_| {
                black_box(plain::graft(black_box(&theirs)));
            }),
            Box::new(move |lent: &mut Lent| {
                let _ = black_box(graft(black_box(&ours), lent));
            }),
        )
    };
    let mut pairs: Vec<Pair> = asked.iter().map(pair).collect();
    in_rounds(effort, &mut pairs, lent);
    println!("| two sheets | bytes | plain Rust ns | Skriduhol ns | ratio | batches | stack bytes |");
    println!("|---|--:|--:|--:|--:|--:|--:|");
    let (mut ratios, mut most) = (vec![], 0);
    for (asked, pair) in asked.iter().zip(&pairs) {
        let (rust, ours) = pair.times();
        let bytes = graft(asked, lent).map_or_else(|refusal| refusal.to_string(), grouped);
        let stack = Stack::new().used_by_graft(asked, lent);
        let ratio = rust.fastest / ours.fastest;
        println!(
            "| {} | {bytes} | {rust} | {ours} | {ratio:.1} | {} | {} |",
            asked.what,
            ours.spread(),
            grouped(stack)
        );
        ratios.push(ratio);
        most = most.max(stack);
    }
    let (bound, measured) = ("below 262,144 bytes".into(), format!("{} bytes", grouped(most)));
    vec![
        at_least("grafts, beside plain Rust", LEAST_RATIO, ratios),
        Required { what: "stack of a graft", bound, measured, met: most < 256 << 10 },
    ]
}

//! What the judgement of a sheet's term costs, and the reading of a term, beside the oracle's checker and reader, which are plain
//! Rust, and the stack that each takes.
use crate::{
    library::{judge, read_term, Lent},
    required::{at_least, Required, LEAST_RATIO},
    sheets::{for_the_stack, sound},
    stack::Stack,
    timing::{grouped, in_rounds, Effort, Pair},
};
use oracle::{
    draw::{and, atom, code, implies, or, step},
    formula::Formula,
    generate::{
        texts::{exported, limits, Text},
        Named,
    },
    judging::{self, Verdict},
    memory::{read_into, Memory},
    sheet::{decode, rule, Plain, Step},
    terms::nodes,
    walk::export,
};
use skriduhol::{Judged, NAME_ROOM};
use std::hint::black_box;

/// So many generated sound sheets, of about 1,000 steps each.
const SOUND: u64 = 4;

/// The conclusion of the last step, as the number of a proposition.
fn root(sheet: &[u8]) -> usize {
    let root = decode(sheet).ok().and_then(|sheet| sheet.steps.last().map(|step| step.conclusion[0]));
    root.unwrap_or(0).into()
}

fn drawn(names: Vec<Vec<u8>>, props: &[Formula], steps: Vec<Step>) -> Vec<u8> {
    Plain { names, props: props.iter().map(code).collect(), steps, goal: 0 }.bytes()
}

fn named(names: &[&str]) -> Vec<Vec<u8>> {
    names.iter().map(|name| name.as_bytes().to_vec()).collect()
}

/// So many cases, each in the last one's second branch, over as many names in scope.
fn branching(n: usize) -> Named {
    let a = atom(0);
    let sides = or(a.clone(), a.clone());
    let mut names = named(&["A", "h", "x"]);
    names.extend((0..n).map(|i| format!("y{i}").into_bytes()));
    let mut steps = [step(rule::IDENT, 0, &[1], 1), step(rule::IDENT, 0, &[2], 2)].repeat(n);
    steps.push(step(rule::IDENT, 0, &[2 + n as u16], 2));
    steps.extend((0..n as u16).rev().map(|i| step(rule::OR_ELIM, 3, &[2, 3 + i], 2)));
    steps.push(step(rule::IMPL_INTRO, 1, &[1], 0));
    let sheet = drawn(names, &[implies(sides.clone(), a.clone()), sides, a], steps);
    (format!("{n} cases, each in a branch of the last"), sheet)
}

/// So many cases, each in an ascribed injection that is the head of the last one.
fn heading(n: usize) -> Named {
    let a = atom(0);
    let mut steps = vec![step(rule::IDENT, 0, &[1], 2)];
    let case = [
        step(rule::OR_INTRO_FST, 1, &[], 1),
        step(rule::IDENT, 0, &[2], 2),
        step(rule::IDENT, 0, &[3], 2),
        step(rule::OR_ELIM, 3, &[2, 3], 2),
    ];
    steps.extend(case.repeat(n));
    steps.push(step(rule::IMPL_INTRO, 1, &[1], 0));
    let props = [implies(a.clone(), a.clone()), or(a.clone(), a.clone()), a];
    (format!("{n} cases, each in the head of the last"), drawn(named(&["A", "h", "x", "y"]), &props, steps))
}

/// So many functions with one label of 2,559 bytes of code, applied one to the other.
fn labelling(n: usize) -> Named {
    let label = (0..9).fold(atom(0), |side, _| and(side.clone(), side));
    let mut steps = [step(rule::IDENT, 0, &[1], 1), step(rule::IMPL_INTRO, 1, &[1], 0)].repeat(n);
    steps.push(step(rule::IDENT, 0, &[2], 1));
    steps.extend(vec![step(rule::IMPL_ELIM, 2, &[], 1); n]);
    steps.push(step(rule::IMPL_INTRO, 1, &[2], 0));
    let props = [implies(label.clone(), label.clone()), label];
    (format!("{n} functions with labels of 2,559 bytes"), drawn(named(&["A", "u", "h"]), &props, steps))
}

/// Sound sheets: generated ones, and more and more of one form up to the deepest.
fn judged() -> Vec<Named> {
    let mut all = sound(SOUND);
    all.extend([16, 64, 254].map(branching));
    all.extend([16, 64, 127].map(heading));
    all.extend([16, 64, 253].map(labelling));
    all
}

fn plain_judge(sheet: &[u8], proposition: usize) -> Option<Verdict> {
    judging::judge(sheet, judging::Judged::Own, &[], proposition).ok()
}

pub fn judgements(effort: &Effort, random_sheets: usize, lent: &mut Lent) -> Vec<Required> {
    println!("## Judgements of a sheet's term against its last step's proposition, from no hypotheses\n");
    let all = judged();
    let pair = |(_, sheet): &Named| {
        let (ours, theirs, proposition) = (sheet.clone(), sheet.clone(), root(sheet));
        Pair::new(
            Box::new(move |_| {
                black_box(plain_judge(black_box(&theirs), proposition));
            }),
            Box::new(move |_: &mut Lent| {
                let _ = black_box(judge(black_box(&ours), proposition));
            }),
        )
    };
    let mut pairs: Vec<Pair> = all.iter().map(pair).collect();
    in_rounds(effort, &mut pairs, lent);
    println!(
        "| sheet | bytes | nodes | plain Rust ns | Skriduhol ns | ratio | batches | Skriduhol ns/node | stack bytes |"
    );
    println!("|---|--:|--:|--:|--:|--:|--:|--:|--:|");
    let mut ratios = vec![];
    for ((what, sheet), pair) in all.iter().zip(&pairs) {
        let proposition = root(sheet);
        assert_eq!(plain_judge(sheet, proposition), Some(Verdict::Yes), "the checker does not take {what}");
        assert_eq!(judge(sheet, proposition), Ok(Judged::Yes), "the library does not take {what}");
        let term = decode(sheet).and_then(|sheet| export(&sheet)).expect("the sheet has a term").term;
        let (rust, ours) = pair.times();
        let (nodes, ratio) = (nodes(&term), rust.fastest / ours.fastest);
        println!(
            "| {what} | {} | {} | {rust} | {ours} | {ratio:.1} | {} | {:.1} | {} |",
            grouped(sheet.len()),
            grouped(nodes),
            ours.spread(),
            ours.fastest / nodes as f64,
            grouped(Stack::new().used_by_judgement(sheet, proposition, lent))
        );
        ratios.push(ratio);
    }
    vec![at_least("judgements, beside plain Rust", LEAST_RATIO, ratios), judgement_stack(&all, random_sheets, lent)]
}

/// The most over the judged sheets and those of the other operations.
fn judgement_stack(judged: &[Named], random_sheets: usize, lent: &mut Lent) -> Required {
    let mut stack = Stack::new();
    let mut used = |(_, sheet): &Named| stack.used_by_judgement(sheet, root(sheet), lent);
    let others = for_the_stack(random_sheets);
    let sheets = judged.iter().chain(&others);
    let (bytes, what) = sheets.map(|named| (used(named), &named.0)).max_by_key(|(bytes, _)| *bytes).unwrap();
    println!("\nMost stack: {} bytes, {what}.", grouped(bytes));
    let (bound, measured) = ("below 262,144 bytes".into(), format!("{} bytes", grouped(bytes)));
    Required { what: "stack of a judgement", bound, measured, met: bytes < 256 << 10 }
}

/// The seeds of the generated sound sheets whose terms are read.
const SEEDS: u64 = 12;

/// Texts at the limits: the largest, the deepest, those of the most names and of the longest labels.
const AT_THE_LIMITS: [&str; 10] = [
    "2048 nodes",
    "512 levels of functions",
    "512 levels of second branches",
    "512 levels of cases and ascriptions",
    "512 names, repeated",
    "512 names in a label",
    "512 names, datatypes",
    "8190 bytes of code",
    "13 long labels",
    "65536 bytes",
];

/// A balanced pair of so many names, each with a label.
fn paired(leaves: usize) -> String {
    match leaves {
        1 => "x: P(a, b) ∧ (A ∨ ¬B) ⊃ (Q(a) ⊃ C ∧ D) ⊃ ¬(E ∨ F) ∧ (∀y:T. P(y, a)) ∧ (G ⊃ H)".into(),
        _ => format!("({}, {})", paired(leaves / 2), paired(leaves - leaves / 2)),
    }
}

/// More and more of one form, those terms of sound sheets whose names are admitted in a text, and texts at the limits.
fn read() -> Vec<(String, Text)> {
    let growing = [1, 8, 64, 512].map(|n| (format!("{n} labelled names in pairs"), Text::new("", paired(n))));
    let texts = sound(SEEDS).into_iter().map(|(what, sheet)| (what, exported(&sheet).expect("the sheet has a term")));
    let sound = texts.filter(|(_, asked)| plain_read(asked).is_some());
    let limits = limits().into_iter().filter(|(what, _)| AT_THE_LIMITS.contains(&what.as_str()));
    growing.into_iter().chain(sound).chain(limits).collect()
}

fn plain_read(Text { list, text }: &Text) -> Option<Memory> {
    read_into(list, text, None).ok()
}

/// The library's answer has to stand in the memory as the oracle has it.
fn assert_same(what: &str, asked: &Text, lent: &mut Lent) {
    let theirs = plain_read(asked).expect("the text is read");
    let ours = read_term(asked, lent).expect("the library reads it");
    assert_eq!(
        (ours.nodes, ours.names, ours.code),
        (theirs.records.len() / 7, theirs.names.len() / 4, theirs.code.len())
    );
    let (names, code) = lent.bytes.split_at(NAME_ROOM);
    assert!(theirs.records == lent.numbers[..theirs.records.len()], "other records: {what}");
    assert!(theirs.names == names[..theirs.names.len()], "other names: {what}");
    let mut bytes = theirs.code.iter().zip(code);
    assert!(bytes.all(|(theirs, ours)| theirs.is_none_or(|theirs| theirs == *ours)), "other code: {what}");
}

pub fn readings(effort: &Effort, lent: &mut Lent) -> Vec<Required> {
    println!("## Terms read from their strict text\n");
    let all = read();
    let pair = |(_, asked): &(String, Text)| {
        let (ours, theirs) = (asked.clone(), asked.clone());
        Pair::new(
            Box::new(move |_| {
                black_box(plain_read(black_box(&theirs)));
            }),
            Box::new(move |lent: &mut Lent| {
                let _ = black_box(read_term(black_box(&ours), lent));
            }),
        )
    };
    let mut pairs: Vec<Pair> = all.iter().map(pair).collect();
    in_rounds(effort, &mut pairs, lent);
    println!(
        "| text | bytes | nodes | plain Rust ns | Skriduhol ns | ratio | batches | Skriduhol ns/byte | stack bytes |"
    );
    println!("|---|--:|--:|--:|--:|--:|--:|--:|--:|");
    let mut ratios = vec![];
    for ((what, asked), pair) in all.iter().zip(&pairs) {
        assert_same(what, asked, lent);
        let (rust, ours) = pair.times();
        let ratio = rust.fastest / ours.fastest;
        println!(
            "| {what} | {} | {} | {rust} | {ours} | {ratio:.1} | {} | {:.1} | {} |",
            grouped(asked.text.len()),
            grouped(read_term(asked, lent).map_or(0, |read| read.nodes)),
            ours.spread(),
            ours.fastest / asked.text.len() as f64,
            grouped(Stack::new().used_by_reading(asked, lent))
        );
        ratios.push(ratio);
    }
    vec![at_least("readings, beside plain Rust", LEAST_RATIO, ratios), reading_stack(lent)]
}

/// The most over all texts at the limits, those past them too.
fn reading_stack(lent: &mut Lent) -> Required {
    let mut stack = Stack::new();
    let texts = limits().into_iter().map(|(what, asked)| (stack.used_by_reading(&asked, lent), what));
    let (bytes, what) = texts.max_by_key(|(bytes, _)| *bytes).expect("there are texts at the limits");
    println!("\nMost stack: {} bytes, {what}.", grouped(bytes));
    let (bound, measured) = ("below 262,144 bytes".into(), format!("{} bytes", grouped(bytes)));
    Required { what: "stack of a reading", bound, measured, met: bytes < 256 << 10 }
}

//! Fixed sheets that take the longest times we know how to ask for.
use crate::{
    draw::*,
    formula::{Formula, Parameter},
    generate::Named,
    sheet::{rule, Plain, Step, CODE, NAMES, PARAMETERS, STEP_NESTING},
};

/// Names of one width that differ at their end.
fn wide_names(n: usize, width: usize) -> Vec<Vec<u8>> {
    (0..n).map(|i| format!("n{i:_>w$}", w = width - 1).into_bytes()).collect()
}

/// The leaves as a balanced conjunction, as many as fit this many bytes of code.
pub fn conjunction(leaves: &[Formula], room: usize) -> Formula {
    let mut size = 0;
    let fit = leaves.iter().take_while(|f| {
        size += code(f).len() + 1;
        size <= room + 1
    });
    let mut row: Vec<Formula> = fit.cloned().collect();
    while row.len() > 1 {
        row = row.chunks(2).map(|two| two.iter().cloned().reduce(and).unwrap()).collect();
    }
    row.pop().unwrap()
}

fn concluding(prop: Formula, names: Vec<Vec<u8>>, steps: Vec<Step>) -> Plain {
    Plain { names, props: vec![code(&prop)], steps, goal: 0 }
}

/// The most labels that four chains of functions have, 252 in each.
const LABELS: usize = 1008;

/// Four chains of labelled functions, so many in all, joined by pairs, in an inferring place.
pub fn labelled(label: Formula, names: Vec<Vec<u8>>, labels: usize) -> Plain {
    let mut steps = Vec::new();
    for (chain, pairs) in [0, 1, 0, 2].into_iter().enumerate() {
        let functions = (chain + 1) * labels / 4 - chain * labels / 4;
        steps.push(step(rule::IDENT, 0, &[0], 0));
        steps.extend(vec![step(rule::IMPL_INTRO, 1, &[0], 0); functions]);
        steps.extend(vec![step(rule::AND_INTRO, 2, &[], 0); pairs]);
    }
    steps.push(step(rule::AND_ELIM_FST, 1, &[], 0));
    concluding(implies(label, Formula::False), names, steps)
}

/// Applications nested on the left as deep as may be.
fn applications(argument: &[Step]) -> Plain {
    let mut steps = vec![step(rule::IDENT, 0, &[1], 0)];
    for _ in 0..STEP_NESTING - argument.len() {
        steps.extend(argument);
        steps.push(step(rule::IMPL_ELIM, 2, &[], 0));
    }
    concluding(implies(atom(1), atom(2)), wide_names(3, 32), steps)
}

/// A balanced tree of pairs over 511 sorries, in an inferring place.
fn sorries(label: Formula) -> Plain {
    let (sorry, pair) = (step(rule::SORRY, 0, &[], 0), step(rule::AND_INTRO, 2, &[], 0));
    let mut steps = vec![sorry];
    for i in 1..511usize {
        steps.push(sorry);
        steps.extend(vec![pair; i.trailing_ones() as usize]);
    }
    steps.extend(vec![pair; 511usize.count_ones() as usize - 1]);
    steps.push(step(rule::AND_ELIM_FST, 1, &[], 0));
    concluding(label, wide_names(2, 32), steps)
}

/// The first so many names as atoms of a parameter count.
fn atoms(names: usize, count: usize) -> impl Iterator<Item = Formula> {
    (0..names as u16).map(move |n| Formula::Atom(n, vec![Parameter::Uninstantiated(0); count]))
}

/// As many different atoms as there are names, with up to three parameter counts.
fn different() -> Vec<Formula> {
    (0..3).flat_map(|count| atoms(NAMES, count)).collect()
}

/// A goal of different atoms over these names, as many as fit, and a term without a label, `unit`.
fn goal_of_different_atoms(names: Vec<Vec<u8>>) -> Plain {
    let different: Vec<Formula> = (0..=PARAMETERS).flat_map(|count| atoms(names.len(), count)).collect();
    let props = [&conjunction(&different, CODE - 1), &Formula::True].map(code).to_vec();
    Plain { names, props, steps: vec![step(rule::TRUE_INTRO, 0, &[], 1)], goal: 0 }
}

/// So many times an atom with eight parameters.
pub fn wide_atoms(count: usize) -> Vec<Formula> {
    vec![Formula::Atom(0, vec![Parameter::Uninstantiated(1); PARAMETERS]); count]
}

fn named(list: Vec<(&str, Plain)>) -> Vec<Named> {
    list.into_iter().map(|(what, sheet)| (what.into(), sheet.bytes())).collect()
}

/// The most declarations that a sheet has, 1,210 pairs of name and count in 8,190 bytes of code: each name with two counts
/// or three, in the label of a sorry. The names differ at their end, and are met by the bits of their rank read backwards, so
/// that halves of the declarations interleave.
pub fn most_declarations() -> Plain {
    const WITH_THREE: usize = 186;
    let counts = |n| if n < WITH_THREE { 3 } else { 2 };
    let uses =
        |n| (0..counts(n)).rev().map(move |count| Formula::Atom(n as u16, vec![Parameter::Uninstantiated(0); count]));
    let mut sorted = wide_names(NAMES, 16);
    sorted.sort();
    let names = (0..NAMES as u16).map(|n| sorted[n.reverse_bits() as usize / (65536 / NAMES)].clone()).collect();
    let mut steps = Vec::new();
    for n in 0..NAMES {
        steps.push(step(rule::SORRY, 0, &[], n as u16));
        steps.extend(vec![step(rule::AND_INTRO, 2, &[], 0); (n + 1).trailing_zeros() as usize]);
    }
    steps.push(step(rule::AND_ELIM_FST, 1, &[], 0));
    Plain { names, props: (0..NAMES).map(|n| code(&uses(n).reduce(and).unwrap())).collect(), steps, goal: 0 }
}

/// Those that the Rust answers in seconds; the sixth to the eighth have labels and stay within the board's room.
pub fn worst() -> Vec<Named> {
    let ident = step(rule::IDENT, 0, &[1], 0);
    let argument = [ident, step(rule::ALPHA, 1, &[], 0), step(rule::OR_INTRO_FST, 1, &[], 0)];
    let right = [vec![ident; 256], vec![step(rule::IMPL_ELIM, 2, &[], 0); 255]].concat();
    let deep = (0..62).fold(atom(1), |f, i| if i % 2 == 0 { or(f, atom(2)) } else { and(f, atom(1)) });
    let short = (0..8).fold(atom(0), |f, _| and(f, atom(0)));
    let one = [step(rule::SORRY, 0, &[], 0), step(rule::AND_ELIM_FST, 1, &[], 0)];
    let names = (0..NAMES).map(|i| format!("n{i}").into_bytes()).collect();
    let mut three = labelled(conjunction(&different(), CODE - 2), names, 4);
    three.steps[1] = step(rule::ALPHA, 1, &[], 0);
    named(vec![
        ("applications nested 256 on the left", applications(&[ident])),
        ("applications nested 256 on the left, arguments of three steps", applications(&argument)),
        ("applications nested 256 on the right", concluding(implies(atom(1), atom(2)), wide_names(3, 32), right)),
        ("1,008 labels nested 63, functions nested 253", labelled(deep, wide_names(3, 32), LABELS)),
        ("511 sorries labelled with 8,192 bytes, balanced", sorries(conjunction(&wide_atoms(400), CODE))),
        ("1,008 labels within the board's room", labelled(short, vec![b"A".to_vec()], LABELS)),
        (
            "one label of 58,000 bytes",
            concluding(conjunction(&vec![atom(0); 2000], CODE), wide_names(1, 30), one.to_vec()),
        ),
        ("three labels of 1,163 different atoms", three),
        ("1,210 declarations, in 512 labels", most_declarations()),
        ("a goal of 1,163 different atoms, names of 16 bytes", goal_of_different_atoms(wide_names(NAMES, 16))),
        ("a goal of 914 different atoms, names of 32 bytes", goal_of_different_atoms(wide_names(NAMES / 2, 32))),
        (
            "one label of 1,163 different atoms, names of 16 bytes",
            concluding(conjunction(&different(), CODE), wide_names(NAMES, 16), one.to_vec()),
        ),
    ])
}

/// Those for which the Rust needs a minute and more each.
pub fn slowest() -> Vec<Named> {
    let late: Vec<Formula> = atoms(NAMES, 0).chain(vec![atom(NAMES as u16 - 1); 2000]).collect();
    let sheet = |leaves: &[Formula], names: Vec<Vec<u8>>| labelled(conjunction(leaves, CODE - 2), names, LABELS);
    named(vec![
        ("1,008 labels of 8,190 bytes, wide atoms", sheet(&wide_atoms(400), wide_names(2, 32))),
        ("1,008 labels of 8,190 bytes, bare atoms", sheet(&vec![atom(0); 2000], wide_names(2, 32))),
        ("1,008 labels of 1,163 different atoms", sheet(&different(), wide_names(NAMES, 16))),
        ("1,008 labels of 512 different atoms, the last repeated", sheet(&late, wide_names(NAMES, 16))),
    ])
}

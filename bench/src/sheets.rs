//! The sheets that are measured.
use oracle::{
    draw::{and, atom, code, exists, forall, implies, or, step},
    formula::{Formula, Parameter},
    generate::{Kind, Named, Sheets},
    sheet::{rule, Plain, CODE, PROP_NESTING, STEPS, STEP_NESTING},
    worst::{conjunction, labelled, most_declarations, wide_atoms},
};

/// The steps that a sheet's header gives.
pub fn steps(sheet: &[u8]) -> usize {
    sheet.get(8..10).map_or(0, |two| u16::from_le_bytes([two[0], two[1]]) as usize)
}

/// The fewest steps that count as about 1,000.
pub const ABOUT_1000: usize = 950;

/// For each seed from 1, the first generated sound sheet of about 1,000 steps.
pub fn sound(seeds: u64) -> Vec<Named> {
    let all = |seed| Sheets::new(Kind::Sound, seed, usize::MAX);
    let large = |named: &Named| steps(&named.1) >= ABOUT_1000;
    (1..=seeds).map(|seed| all(seed).iter().find(large).unwrap()).collect()
}

/// The oracle's worst cases.
pub fn worst() -> Vec<Named> {
    [Kind::Worst, Kind::Slowest].into_iter().flat_map(fixed).collect()
}

fn fixed(kind: Kind) -> Vec<Named> {
    Sheets::new(kind, 0, usize::MAX).iter().collect()
}

/// What a wide atom adds to a conjunction's text and to its code, in bytes.
const LEAF_TEXT: usize = 311;
const LEAF_CODE: usize = 29;

/// A sheet with a text of about so many bytes: one large proposition as the label of as many functions as it takes.
fn grown(text: usize) -> Vec<u8> {
    let most = (CODE - 2) / LEAF_CODE;
    let labels = text.div_ceil(most * LEAF_TEXT);
    let label = conjunction(&wide_atoms(text / labels / LEAF_TEXT), CODE - 2);
    labelled(label, vec![vec![b'A'; 32], vec![b'x'; 32]], labels).bytes()
}

/// Texts from 64 KB, doubling, up to 80 MB, or as far as the limit goes.
pub fn growth(limit: usize) -> Vec<Named> {
    const LARGEST: usize = 80_000_000;
    let sizes = (0..).map(|i| 64_000 << i).take_while(|size| *size < LARGEST).chain([LARGEST]);
    sizes.take_while(|size| *size <= limit).map(|size| (format!("{} KB", size / 1000), grown(size))).collect()
}

/// A sheet that declares one name with each of so many parameter counts, from one on; its term is `unit`.
fn declaring(counts: usize) -> Vec<u8> {
    let wide = |count| Formula::Atom(0, vec![Parameter::Instantiated(1, 0); count]);
    let goal = (1..=counts).map(wide).reduce(and).unwrap_or(Formula::True);
    let names = [b"P", b"a"].map(|name| name.to_vec()).to_vec();
    let props = [&goal, &Formula::True].map(code).to_vec();
    Plain { names, props, steps: vec![step(rule::TRUE_INTRO, 0, &[], 1)], goal: 0 }.bytes()
}

/// One proposition of some 800 quantifiers as the label of more and more functions.
pub fn quantified() -> Vec<Named> {
    let label = conjunction(&vec![forall(1, 2, atom(0)); CODE], CODE - 2);
    let names = [b"A", b"x", b"T"].map(|name| name.to_vec()).to_vec();
    let sheet = |labels| labelled(label.clone(), names.clone(), labels).bytes();
    [1, 4, 16, 64, 256, 1008]
        .map(|labels| (format!("819 quantifiers in a label, {labels} times"), sheet(labels)))
        .to_vec()
}

/// The most declarations, in an order that makes a merge compare the most.
pub fn most_declared() -> Named {
    ("1,210 declarations, in 512 labels".into(), most_declarations().bytes())
}

/// No byte at all, which is refused with a line, and sheets with and without declarations that have a count.
pub fn with_numbers() -> Vec<Named> {
    let named = |what: &str, bytes| (what.to_string(), bytes);
    vec![
        named("no byte: `refused 1 at 0`", vec![]),
        named("no declaration", declaring(0)),
        named("`atom P(1);` to `atom P(8);`", declaring(8)),
    ]
}

/// A rule, the number of its premisses, and the one of them in which the tree goes on.
type Level = (u8, usize, usize);

const LEVELS: [Level; 20] = [
    (rule::AND_INTRO, 2, 0),
    (rule::AND_INTRO, 2, 1),
    (rule::AND_ELIM_FST, 1, 0),
    (rule::IMPL_INTRO, 1, 0),
    (rule::IMPL_ELIM, 2, 0),
    (rule::IMPL_ELIM, 2, 1),
    (rule::OR_INTRO_FST, 1, 0),
    (rule::OR_ELIM, 3, 0),
    (rule::OR_ELIM, 3, 1),
    (rule::OR_ELIM, 3, 2),
    (rule::FALSUM_ELIM, 1, 0),
    (rule::FORALL_INTRO, 1, 0),
    (rule::FORALL_ELIM, 2, 0),
    (rule::FORALL_ELIM, 2, 1),
    (rule::EXISTS_INTRO, 2, 0),
    (rule::EXISTS_INTRO, 2, 1),
    (rule::EXISTS_ELIM, 2, 0),
    (rule::EXISTS_ELIM, 2, 1),
    (rule::ALPHA, 1, 0),
    (rule::SORRY, 1, 0),
];

/// Levels in words.
fn in_words(row: &[Level]) -> String {
    let level = |(rule, _, position): &Level| {
        format!("by {} in its {} premiss", rule::name(*rule), ["first", "second", "third"][*position])
    };
    row.iter().map(level).collect::<Vec<String>>().join(" and ")
}

/// Whether a rule is ascribed in an inferring place.
fn ascribed((rule, ..): Level) -> bool {
    [rule::OR_INTRO_FST, rule::FALSUM_ELIM, rule::EXISTS_INTRO].contains(&rule)
}

/// A tree of the deepest nesting below a projection. Its levels are this row over and over, its leaves sorries. The
/// propositions are one for most steps, an implication and a ∀.
fn deep(row: &[Level], props: &[Formula; 3]) -> Vec<u8> {
    let conclusion = |rule| match rule {
        rule::IMPL_INTRO => 1,
        rule::FORALL_INTRO => 2,
        _ => 0,
    };
    let leaf = step(rule::SORRY, 0, &[], 0);
    let levels: Vec<Level> = row.iter().copied().cycle().take(STEP_NESTING - 2).collect();
    let before: usize = levels.iter().map(|(_, _, position)| position).sum();
    let mut steps = vec![leaf; before + 1];
    for (rule, count, position) in levels.into_iter().rev() {
        steps.extend(vec![leaf; count - 1 - position]);
        steps.push(step(rule, count, &[2, 2][..rule::idents(rule)], conclusion(rule)));
    }
    steps.push(step(rule::AND_ELIM_FST, 1, &[], 0));
    assert!(steps.len() <= STEPS);
    let names = [b"A", b"T", b"x"].map(|name| name.to_vec()).to_vec();
    Plain { names, props: props.iter().map(code).collect(), steps, goal: 0 }.bytes()
}

type Nesting = fn(Formula) -> Formula;

/// Ways to nest a proposition.
const NESTINGS: [(&str, Nesting); 6] = [
    ("left of ∧", |f| and(f, atom(0))),
    ("right of ∨", |f| or(atom(0), f)),
    ("left of ⊃", |f| implies(f, atom(0))),
    ("¬", |f| implies(f, Formula::False)),
    ("∀", |f| forall(2, 1, f)),
    ("∃ and ∧ in turn", |f| match f {
        Formula::Quantified(..) => and(atom(0), f),
        _ => exists(2, 1, f),
    }),
];

/// Trees nested as deep as may be over propositions nested as deep as may be: each rule, going on in each premiss; and
/// each such level in turn with one that is ascribed, since the premisses of an ascribed step are in checking places.
fn deepest() -> Vec<Named> {
    let (second, first): (Vec<Level>, Vec<Level>) = LEVELS.iter().partition(|level| ascribed(**level));
    let pairs = first.iter().flat_map(|first| second.iter().map(move |second| vec![*first, *second]));
    let rows: Vec<Vec<Level>> = LEVELS.iter().map(|level| vec![*level]).chain(pairs).collect();
    let mut all = Vec::new();
    for (what, nest) in NESTINGS {
        let leaf = Formula::Atom(0, vec![Parameter::Instantiated(2, 0); 8]);
        let part = (2..PROP_NESTING).fold(leaf, |f, _| nest(f));
        let props = [nest(part.clone()), implies(part.clone(), atom(0)), forall(2, 1, part)];
        let named = |row: &Vec<Level>| format!("nested {}, propositions by {what}", in_words(row));
        all.extend(rows.iter().map(|row| (named(row), deep(row, &props))));
    }
    all
}

/// The sheets on which the stack is measured: the deepest, those at every limit, the worst, and random ones.
pub fn for_the_stack(random: usize) -> Vec<Named> {
    let mut all = [deepest(), fixed(Kind::Limits), worst()].concat();
    for kind in [Kind::Random, Kind::Quantified, Kind::Damaged] {
        all.extend(Sheets::new(kind, 1, random).iter());
    }
    all
}

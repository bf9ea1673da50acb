//! Fixed sheets: at and one past every limit of document 01, the order of its refusals, every rule with every count and
//! conclusion, and one letter with two arities.
use crate::{
    answer::examine,
    draw::*,
    formula::{Formula, Parameter},
    generate::Named,
    sheet::{
        rule, Layout, Plain, Step, BOARD_ROOM, CODE, LAST_COLUMN, NAMES, NAME_BYTES, PARAMETERS, PROPS, PROP_NESTING,
        STEPS, STEP_NESTING, TEXT,
    },
};

/// The list in the making.
#[derive(Default)]
struct List(Vec<Named>);

impl List {
    fn add(&mut self, what: impl Into<String>, bytes: Vec<u8>) {
        self.0.push((what.into(), bytes));
    }

    /// The second drawing with its parts changed.
    fn edited(&mut self, what: impl Into<String>, edit: impl Fn(&mut Layout)) {
        let mut layout = second().layout();
        edit(&mut layout);
        self.add(what, layout.bytes());
    }

    /// The second drawing with a further proposition.
    fn coded(&mut self, what: impl Into<String>, code: Vec<u8>) {
        let mut sheet = second();
        sheet.props.push(code);
        self.add(what, sheet.bytes());
    }
}

pub fn limits() -> Vec<Named> {
    let mut list = List::default();
    header(&mut list);
    counts(&mut list);
    list.add("everything at its limit", full().bytes());
    name_pairs(&mut list);
    name_bytes(&mut list);
    prop_pairs(&mut list);
    codes(&mut list);
    nesting(&mut list);
    records(&mut list);
    columns(&mut list);
    trees(&mut list);
    tree_nesting(&mut list);
    rules(&mut list);
    arities(&mut list);
    for n in [BOARD_ROOM, BOARD_ROOM + 1] {
        list.add(format!("text of {n} bytes"), sized(n).bytes());
    }
    list.0
}

/// Refusals 1 to 3.
fn header(list: &mut List) {
    let least = smallest().bytes();
    for n in [0, 1, 11, 12, 13, 34, 35, 36] {
        list.add(format!("first {n} bytes of the smallest sheet"), least[..n].to_vec());
    }
    list.add("smallest sheet", least.clone());
    list.add("smallest sheet and a byte", [&least[..], &[0]].concat());
    list.add("smallest sheet and 70,000 bytes", [&least[..], &vec![0; 70000]].concat());
    for t in [0, 1, TEXT, TEXT + 1, 65535] {
        let mut layout = smallest().layout();
        (layout.header[0], layout.text) = (t as u16, vec![b'!'; t]);
        list.add(format!("text length {t}, no names"), layout.bytes());
    }
    for c in [0, 1, CODE, CODE + 1, 65535] {
        let mut layout = smallest().layout();
        layout.header[2] = c as u16;
        layout.code.resize(c, 0xff);
        list.add(format!("code length {c}, one proposition"), layout.bytes());
    }
    for goal in [0, 1, 2, 3, 4, 65535] {
        list.add(format!("goal {goal} of 3 propositions"), Plain { goal, ..second() }.bytes());
    }
    for (field, name) in ["T", "N", "C", "P", "S", "goal"].iter().enumerate() {
        list.edited(format!("header {name} one more"), |l| l.header[field] = l.header[field].wrapping_add(1));
        list.edited(format!("header {name} one less"), |l| l.header[field] = l.header[field].wrapping_sub(1));
    }
}

/// How many names, propositions and steps there are.
fn counts(list: &mut List) {
    for n in [0, 1, NAMES, NAMES + 1] {
        let names = (0..n).map(|i| format!("n{i}").into_bytes()).collect();
        list.add(format!("{n} names"), Plain { names, ..smallest() }.bytes());
    }
    for p in [0, 1, PROPS, PROPS + 1] {
        list.add(format!("{p} propositions"), Plain { props: vec![vec![0]; p], ..smallest() }.bytes());
    }
    // Chains of 254 steps, closed by the last one.
    let link = |i: usize| match i % 254 {
        0 => step(rule::TRUE_INTRO, 0, &[], 0),
        _ => step(rule::ALPHA, 1, &[], 0),
    };
    for s in [0, 1, STEPS, STEPS + 1] {
        let mut steps: Vec<Step> = (0..s).map(link).collect();
        if s > 254 {
            steps[s - 1] = step(rule::SORRY, (s - 1).div_ceil(254), &[], 0);
        }
        list.add(format!("{s} steps"), Plain { steps, ..smallest() }.bytes());
    }
}

/// Refusal 4, and that it comes before 5.
fn name_pairs(list: &mut List) {
    for length in [1, NAME_BYTES, NAME_BYTES + 1] {
        for (at, which) in [(2, "last"), (0, "first")] {
            let mut sheet = second();
            sheet.names[at] = vec![b'u'; length];
            list.add(format!("{which} name of {length} bytes"), sheet.bytes());
        }
    }
    let pairs: [(&str, usize, (u16, u16)); 11] = [
        ("length 0", 1, (1, 0)),
        ("length 0 at the end", 2, (3, 0)),
        ("starts at the last one's start", 1, (0, 1)),
        ("starts before the last one's end", 2, (1, 1)),
        ("ends at T", 2, (2, 1)),
        ("ends past T", 2, (2, 2)),
        ("starts at T", 2, (3, 1)),
        ("offset 65535", 2, (65535, 1)),
        ("offset and length 65535", 2, (65535, 65535)),
        ("reaches over the next", 0, (0, 2)),
        ("length 65535", 0, (0, 65535)),
    ];
    for (what, at, pair) in pairs {
        list.edited(format!("name {at} {what}"), |l| l.names[at] = pair);
        list.edited(format!("name {at} {what}, name 0 holds a wrong byte"), |l| {
            l.names[at] = pair;
            l.text[0] = b'0';
        });
    }
}

/// Refusal 5: every byte where a name begins, goes on and ends.
fn name_bytes(list: &mut List) {
    for byte in 0..=255 {
        for (at, which) in [(0, "first"), (1, "later"), (NAME_BYTES - 1, "last")] {
            let mut sheet = second();
            sheet.names[1] = vec![b'B'; NAME_BYTES];
            sheet.names[1][at] = byte;
            list.add(format!("byte {byte} as {which} of a name"), sheet.bytes());
        }
    }
    list.edited("wrong bytes in names 1 and 2", |l| l.text[1..].fill(b'_'));
    list.edited("wrong byte in a gap before a name", |l| {
        l.text.insert(0, b'!');
        l.header[0] += 1;
        l.names.iter_mut().for_each(|n| n.0 += 1);
    });
    list.edited("name 2 holds a wrong byte, proposition 0 of length 0", |l| {
        l.text[2] = b'_';
        l.props[0].1 = 0;
    });
}

/// Refusal 6, and that it comes before 7.
fn prop_pairs(list: &mut List) {
    let Layout { props, code, .. } = second().layout();
    let pairs = [
        ("length 0", 0, (0, 0)),
        ("length 0 at the end", 2, (code.len() as u16, 0)),
        ("starts before the last one's end", 1, (props[1].0 - 1, props[1].1)),
        ("starts after a gap", 2, (props[2].0 + 1, props[2].1 - 1)),
        ("ends past C", 2, (props[2].0, props[2].1 + 1)),
        ("one byte short", 0, (0, props[0].1 - 1)),
        ("one byte long", 1, (props[1].0, props[1].1 + 1)),
        ("offset 65535", 2, (65535, 1)),
        ("length 65535", 2, (0, 65535)),
    ];
    for (what, at, pair) in pairs {
        list.edited(format!("proposition {at} {what}"), |l| l.props[at] = pair);
        list.edited(format!("proposition {at} {what}, 0 is no code"), |l| {
            l.props[at] = pair;
            l.code[0] = 9;
        });
    }
}

/// Refusal 7.
fn codes(list: &mut List) {
    for byte in 0..=255 {
        list.coded(format!("code byte {byte} alone"), vec![byte]);
        list.coded(format!("code byte {byte} before two leaves"), vec![byte, 0, 1]);
    }
    let atom_of = |count: usize, rest: &[u8]| [&[5, 0, 0, count as u8][..], rest].concat();
    for count in 0..=PARAMETERS + 2 {
        list.coded(format!("{count} parameters"), atom_of(count, &[0, 1, 0].repeat(count)));
        list.coded(format!("{count} parameters with ids"), atom_of(count, &[1, 1, 0, 255, 255].repeat(count)));
        list.coded(format!("{count} parameters counted, 8 there"), atom_of(count, &[0, 1, 0].repeat(PARAMETERS)));
    }
    for tag in 0..=3 {
        list.coded(format!("parameter byte {tag}, 5 bytes"), atom_of(1, &[tag, 1, 0, 0, 0]));
        list.coded(format!("parameter byte {tag}, 3 bytes"), atom_of(1, &[tag, 1, 0]));
    }
    for n in [2, 3, 255, 256, 65535] {
        list.coded(format!("atom name {n} of 3"), code(&atom(n)));
        list.coded(format!("object name {n} of 3"), code(&forall(n, 0, Formula::True)));
        list.coded(format!("datatype name {n} of 3"), code(&exists(0, n, Formula::True)));
        let uninstantiated = Formula::Atom(0, vec![Parameter::Uninstantiated(n)]);
        list.coded(format!("parameter name {n} of 3"), code(&uninstantiated));
        let instantiated = Formula::Atom(0, vec![Parameter::Instantiated(n, 9)]);
        list.coded(format!("instantiated parameter name {n} of 3"), code(&instantiated));
    }
    let parameters = vec![Parameter::Uninstantiated(0), Parameter::Instantiated(1, 300)];
    let rich = code(&and(forall(0, 1, Formula::Atom(2, parameters)), implies(atom(0), Formula::False)));
    for n in 1..=rich.len() {
        list.coded(format!("{n} bytes of a code of {}", rich.len()), rich[..n].to_vec());
    }
    list.coded("a code and a byte", [&rich[..], &[0]].concat());
}

type Wrap = fn(Formula) -> Formula;

const WRAPS: [(&str, Wrap); 5] = [
    ("left of ∧", |f| and(f, Formula::False)),
    ("right of ∨", |f| or(Formula::False, f)),
    ("left of ⊃", |f| implies(f, Formula::False)),
    ("∀", |f| forall(0, 1, f)),
    ("∃", |f| exists(0, 1, f)),
];

/// A leaf nested `n` deep.
fn nested(n: usize, leaf: Formula, wrap: Wrap) -> Formula {
    (1..n).fold(leaf, |f, _| wrap(f))
}

/// Refusal 8, and that it comes after 7 and before 9.
fn nesting(list: &mut List) {
    for (what, wrap) in WRAPS {
        for n in [PROP_NESTING, PROP_NESTING + 1] {
            list.coded(format!("proposition nested {n} by {what}"), code(&nested(n, Formula::True, wrap)));
        }
    }
    let atom = Formula::Atom(0, vec![Parameter::Uninstantiated(1); PARAMETERS]);
    list.coded("atom with parameters at nesting 64", code(&nested(PROP_NESTING, atom, |f| and(Formula::True, f))));
    for (what, connectives, leaves) in [("whole", 4095, 4096), ("one leaf short", 4095, 4095), ("one over", 4094, 4096)]
    {
        let props = vec![[vec![2; connectives], vec![0; leaves]].concat()];
        list.add(format!("proposition nested {connectives}, {what}"), Plain { props, ..smallest() }.bytes());
    }
    let deep = code(&nested(65, Formula::True, WRAPS[0].1));
    let mut sheet = Plain { props: vec![deep.clone(), vec![8]], ..smallest() };
    list.add("proposition 0 nested 65, 1 no code", sheet.bytes());
    sheet.props = vec![vec![0], deep.clone(), deep];
    list.add("propositions 1 and 2 nested 65", sheet.bytes());
    sheet.steps[0].rule = 17;
    list.add("proposition 1 nested 65, step 0 with rule 17", sheet.bytes());
}

/// Ticket 7 of document 02: steps 0 and 1 conclude propositions that differ in the number of P's parameters. That is a
/// no, whatever the parameters are, unless two unbound ones come before.
fn arities(list: &mut List) {
    let (a, x) = (Parameter::Instantiated(1, 0), Parameter::Uninstantiated(1));
    let of = |parameter, count| Formula::Atom(0, vec![parameter; count]);
    let unbound = || Formula::Atom(3, vec![x]);
    let ways: [(&str, &dyn Fn(usize) -> Formula); 5] = [
        ("instantiated", &|count| of(a, count)),
        ("not instantiated", &|count| of(x, count)),
        ("bound", &|count| forall(1, 2, of(x, count))),
        ("before two unbound", &|count| and(of(a, count), unbound())),
        ("after two unbound", &|count| and(unbound(), of(a, count))),
    ];
    let steps = [step(rule::SORRY, 0, &[], 0), step(rule::SORRY, 0, &[], 1), step(rule::AND_INTRO, 2, &[], 0)];
    for (what, with) in ways {
        for (m, n) in [(0, 1), (1, 0), (1, 2), (2, 1), (PARAMETERS - 1, PARAMETERS), (PARAMETERS, PARAMETERS - 1)] {
            let sheet = plain(&["P", "x", "T", "Q"], &[with(m), with(n)], &steps);
            list.add(format!("{m} and {n} parameters, {what}"), sheet.bytes());
        }
    }
}

/// Refusal 9: every field of a step of every rule.
fn records(list: &mut List) {
    for rule in (0..=18).chain([255]) {
        let mut concluding = step(rule, 0, &[], 0);
        concluding.idents[..rule::idents(rule)].fill((2, 65535));
        let mut judging = judging(concluding, 2, 1);
        judging.conclusion[1] = 65535;
        for (how, record) in [("concluding", concluding), ("judging", judging)] {
            let alone = |record: Step| Plain { steps: vec![record], ..second() }.bytes();
            list.add(format!("rule {rule} {how}"), alone(record));
            let columns = [LAST_COLUMN, LAST_COLUMN + 1, u16::MAX].map(|column| (8, column));
            let fields = (0..8).flat_map(|field| [1, 2, 3, 256, 65535].map(|value| (field, value)));
            for (field, value) in fields.chain(columns) {
                let mut record = record;
                match field {
                    0 | 2 => record.idents[field / 2].0 = value,
                    1 | 3 => record.idents[field / 2].1 = value,
                    4 => record.kind = value,
                    8 => record.column = value,
                    _ => record.conclusion[field - 5] = value,
                }
                list.add(format!("rule {rule} {how}, field {field} is {value}"), alone(record));
            }
        }
    }
    list.edited("step 2 with rule 17, step 0 with a premiss", |l| {
        l.steps[2].rule = 17;
        l.steps[0].count = 1;
    });
}

/// Refusal 9 by a column, which step it names, and that it comes after 8 and before 10.
fn columns(list: &mut List) {
    for column in [1, 255, 256, 2048, LAST_COLUMN, LAST_COLUMN + 1, 8191, 8192, 32768, 61440, u16::MAX] {
        list.edited(format!("all steps in column {column}"), |l| {
            l.steps.iter_mut().for_each(|step| step.column = column)
        });
        for at in 0..3 {
            list.edited(format!("step {at} in column {column}"), |l| l.steps[at].column = column);
        }
    }
    for column in [LAST_COLUMN, LAST_COLUMN + 1] {
        list.edited(format!("step 2 in column {column}, step 0 with a premiss"), |l| {
            l.steps[2].column = column;
            l.steps[0].count = 1;
        });
        list.edited(format!("step 1 in column {column}, step 2 with rule 17"), |l| {
            l.steps[1].column = column;
            l.steps[2].rule = 17;
        });
        list.edited(format!("step 1 with rule 17, step 2 in column {column}"), |l| {
            l.steps[1].rule = 17;
            l.steps[2].column = column;
        });
        let mut sheet = second();
        sheet.props[0] = code(&nested(PROP_NESTING + 1, Formula::True, WRAPS[0].1));
        sheet.steps[0].column = column;
        list.add(format!("proposition 0 nested 65, step 0 in column {column}"), sheet.bytes());
    }
}

/// Refusal 10.
fn trees(list: &mut List) {
    for (at, count) in [(0, 1), (0, 255), (1, 0), (1, 2), (2, 0), (2, 2), (2, 255)] {
        list.edited(format!("step {at} of 3 with {count} premisses"), |l| l.steps[at].count = count);
    }
    for n in [254, 255, 256] {
        let mut steps = vec![step(rule::TRUE_INTRO, 0, &[], 0); n];
        steps.push(step(rule::TRUE_INTRO, 255, &[], 0));
        list.add(format!("255 premisses over {n} trees"), Plain { steps, ..smallest() }.bytes());
    }
}

/// A tree nested `n` deep by one rule, with leaves as further premisses before and after the deep one.
fn deep(n: usize, rule: u8, idents: &[u16], before: usize, after: usize) -> Plain {
    let leaf = step(rule::TRUE_INTRO, 0, &[], 1);
    let mut steps = vec![leaf; before * (n - 1) + 1];
    for _ in 1..n {
        steps.extend(vec![leaf; after]);
        steps.push(step(rule, 1 + before + after, idents, 0));
    }
    plain(&["A", "B", "x"], &[implies(atom(0), atom(1)), Formula::True], &steps)
}

/// Refusal 11, and that it comes after 10.
fn tree_nesting(list: &mut List) {
    for n in [STEP_NESTING, STEP_NESTING + 1] {
        list.add(format!("{n} deep by AlphaEquivalent"), deep(n, rule::ALPHA, &[], 0, 0).bytes());
        list.add(format!("{n} deep by ImplIntro"), deep(n, rule::IMPL_INTRO, &[2], 0, 0).bytes());
        list.add(format!("{n} deep by AndIntro, left"), deep(n, rule::AND_INTRO, &[], 0, 1).bytes());
        list.add(format!("{n} deep by ImplElim, right"), deep(n, rule::IMPL_ELIM, &[], 1, 0).bytes());
        list.add(format!("{n} deep by OrElim, middle"), deep(n, rule::OR_ELIM, &[2, 2], 1, 1).bytes());
        list.add(format!("{n} deep by unread premisses"), deep(n, rule::SORRY, &[], 0, 0).bytes());
        let mut sheet = deep(n, rule::ALPHA, &[], 0, 0);
        sheet.steps.push(step(rule::TRUE_INTRO, 0, &[], 1));
        list.add(format!("{n} deep and a second tree"), sheet.bytes());
        sheet.steps.push(step(rule::AND_INTRO, 2, &[], 1));
        list.add(format!("{n} deep under AndIntro"), sheet.bytes());
    }
}

/// Refusals 12 to 15: every rule, count, place and conclusion.
fn rules(list: &mut List) {
    const JUDGEMENT: u16 = 4;
    let props = [Formula::True, implies(atom(0), atom(1)), forall(2, 0, atom(1)), exists(2, 0, atom(1))];
    let conclusions = [("⊤", 0), ("A ⊃ B", 1), ("∀x:A. B", 2), ("∃x:A. B", 3), ("a judgement", JUDGEMENT)];
    let project = step(rule::AND_ELIM_FST, 1, &[], 0);
    for (rule, count) in (0..=rule::ALPHA).flat_map(|rule| (0..=4).map(move |count| (rule, count))) {
        for (what, conclusion) in conclusions {
            let names = &[2, 1][..rule::idents(rule)];
            let tested = match conclusion {
                JUDGEMENT => judging(step(rule, count, names, 0), 2, 0),
                _ => step(rule, count, names, conclusion),
            };
            let mut steps = vec![step(rule::SORRY, 0, &[], 1); count];
            steps.push(tested);
            let sheet = plain(&["A", "B", "x"], &props, &steps);
            list.add(format!("rule {rule} over {count}, {what}, checking"), sheet.bytes());
            steps.push(project);
            let sheet = plain(&["A", "B", "x"], &props, &steps);
            list.add(format!("rule {rule} over {count}, {what}, inferring"), sheet.bytes());
        }
    }
}

/// Header, names, propositions and steps all at their limits, and accepted.
fn full() -> Plain {
    let names: Vec<Vec<u8>> = (0..NAMES).map(|i| format!("n{i:_>15}").into_bytes()).collect();
    // 16 bytes each
    let prop = |i: u16| or(and(atom(i), atom(511 - i)), and(atom(i / 2), Formula::False));
    let props = (0..PROPS as u16).map(|i| code(&prop(i))).collect();
    let mut steps = Vec::new();
    for _ in 0..4 {
        steps.push(step(rule::IDENT, 0, &[511], 511));
        steps.extend(vec![step(rule::ALPHA, 1, &[], 511); 254]);
    }
    steps.extend([step(rule::TRUE_INTRO, 0, &[], 0); 3]);
    steps.push(step(rule::SORRY, 7, &[], 0));
    let steps = steps.into_iter().map(|step| in_column(LAST_COLUMN, step)).collect();
    Plain { names, props, steps, goal: 511 }
}

/// Pairs of sorries labelled with a long proposition, and of idents with names of the given lengths.
fn padded(sorries: usize, idents: &[usize]) -> Plain {
    let long = (0..40).fold(atom(0), |f, _| and(atom(1), f));
    let mut names = vec![vec![b'A'; NAME_BYTES], vec![b'B'; NAME_BYTES]];
    names.extend(idents.iter().map(|n| vec![b'i'; *n]));
    let pair = step(rule::AND_INTRO, 2, &[], 0);
    let mut steps = vec![step(rule::SORRY, 0, &[], 0)];
    for _ in 1..sorries {
        steps.extend([step(rule::SORRY, 0, &[], 0), pair]);
    }
    for i in 0..idents.len() {
        steps.extend([step(rule::IDENT, 0, &[2 + i as u16], 0), pair]);
    }
    steps.push(step(rule::AND_ELIM_FST, 1, &[], 0));
    Plain { names, props: vec![code(&long)], steps, goal: 0 }
}

/// A sheet whose text has exactly `n` bytes.
fn sized(n: usize) -> Plain {
    let length = |sheet: &Plain| examine(&sheet.bytes()).unwrap().exported.unwrap().plain.len();
    let (one, two) = (length(&padded(1, &[])), length(&padded(2, &[])));
    let sorries = 1 + (n - 10 - one) / (two - one);
    let mut left = n - length(&padded(sorries, &[]));
    let mut idents = Vec::new();
    // A further pair costs `(`, `, `, `)` and the name.
    while left > 0 {
        let name = if left <= 36 { left - 4 } else { (left - 4 - 5).min(NAME_BYTES) };
        idents.push(name);
        left -= name + 4;
    }
    let sheet = padded(sorries, &idents);
    assert_eq!(length(&sheet), n);
    sheet
}

//! A restated conclusion by document 02, ticket 9: the old sheet with one more step, AlphaEquivalent over the old root.
use crate::{
    draw::{forall, in_column, judging, plain, step},
    formula::{Formula, Parameter},
    generate::Named,
    reference,
    rng::Rng,
    sheet::{
        decode, refuse, rule, Refusal, Sheet, Step, HEADER_BYTES, LAST_COLUMN, PAIR_BYTES, STEPS, STEP_BYTES,
        STEP_NESTING,
    },
    walk,
};

/// A conclusion in the form of a step record, and a column.
#[derive(Clone, Copy, PartialEq, Eq, Default, Debug)]
pub struct Given {
    pub kind: u16,
    pub numbers: [u16; 3],
    pub column: u16,
}

impl Given {
    /// As a caller in C gives it.
    pub fn row(self) -> [u16; 5] {
        let [first, second, third] = self.numbers;
        [self.kind, first, second, third, self.column]
    }

    fn of(step: &Step) -> Self {
        Given { kind: step.kind, numbers: step.conclusion, column: step.column }
    }

    /// 23: a proposition of the sheet and two zeros, or two names of the sheet around any id; a column of the grid.
    fn breaks_the_rules(self, sheet: &Sheet) -> bool {
        let [first, second, third] = self.numbers;
        let conclusion = match self.kind {
            0 => usize::from(first) < sheet.props.len() && (second, third) == (0, 0),
            1 => usize::from(first.max(third)) < sheet.names.len(),
            _ => false,
        };
        !conclusion || self.column > LAST_COLUMN
    }
}

/// How many levels the tree of a step has.
fn levels(sheet: &Sheet) -> usize {
    let mut levels: Vec<usize> = vec![];
    for premisses in &sheet.premisses {
        levels.push(1 + premisses.iter().map(|premiss| levels[*premiss]).max().unwrap_or(0));
    }
    levels[sheet.root()]
}

/// The old sheet with one more step at its end.
fn with_step(sheet: &Sheet, given: Given) -> Sheet {
    let mut new = sheet.clone();
    new.premisses.push(vec![sheet.root()]);
    new.steps.push(Step {
        rule: rule::ALPHA,
        count: 1,
        kind: given.kind,
        conclusion: given.numbers,
        column: given.column,
        ..Step::default()
    });
    new
}

/// The bytes of the new sheet, in a room or in one that is large enough.
pub fn restate(bytes: &[u8], given: Given, room: Option<usize>) -> Result<Vec<u8>, Refusal> {
    let sheet = decode(bytes)?;
    if given.breaks_the_rules(&sheet) {
        return refuse(23, 0);
    }
    if sheet.steps.len() >= STEPS || levels(&sheet) >= STEP_NESTING {
        return refuse(24, 0);
    }
    let new = with_step(&sheet, given);
    if !walk::compare(&new, sheet.root(), new.root())? {
        return refuse(25, 0);
    }
    let record = new.steps[new.root()].bytes();
    let steps_end =
        HEADER_BYTES + PAIR_BYTES * (sheet.names.len() + sheet.props.len()) + STEP_BYTES * sheet.steps.len();
    let mut out = [&bytes[..steps_end], &record, &bytes[steps_end..]].concat();
    out[8..10].copy_from_slice(&(new.steps.len() as u16).to_le_bytes());
    match room {
        Some(room) if room < out.len() => refuse(16, 0),
        _ => Ok(out),
    }
}

/// Does the Rust's `create_alphq_eq_tree` make the tree of the new sheet where that is accepted, and panic where it is
/// refused with 25 or 19? It has no tree to make where 23 comes, and no limit for 24.
pub fn agrees_with_the_rust(bytes: &[u8], given: Given) -> bool {
    let Ok(sheet) = decode(bytes) else { return true };
    let expected = match restate(bytes, given, None) {
        Ok(_) => true,
        Err(refusal) if refusal.number == 25 || refusal.number == 19 => false,
        Err(_) => return true,
    };
    let new = with_step(&sheet, given);
    let made = reference::caught(|| sheet.tree(sheet.root()).create_alphq_eq_tree(new.conclusion(new.root())));
    match made {
        Ok(tree) => expected && tree == new.tree(new.root()),
        Err(_) => !expected,
    }
}

/// What is asked of a sheet: the root's own conclusion, those of other steps and other propositions, and such as break a
/// rule of a step by one number, with columns in and out of range.
pub fn givens(bytes: &[u8], rng: &mut Rng) -> Vec<Given> {
    let Ok(sheet) = decode(bytes) else {
        return vec![Given::default(), Given { kind: 1, numbers: [1, 2, 3], column: rng.below(5000) as u16 }];
    };
    let (names, props) = (sheet.names.len() as u16, sheet.props.len() as u16);
    let root = Given::of(&sheet.steps[sheet.root()]);
    let [first, second, third] = root.numbers;
    let mut all = vec![
        root,
        Given { column: LAST_COLUMN, ..root },
        Given { column: LAST_COLUMN + 1, ..root },
        Given { column: u16::MAX, ..root },
        Given { kind: root.kind ^ 1, ..root },
        Given { kind: *rng.pick(&[2, 3, 256, u16::MAX]), ..root },
        Given { numbers: [first, second ^ 1, third], ..root },
        Given { numbers: [first, second, third ^ 1], ..root },
        Given { kind: 0, numbers: [props, 0, 0], ..root },
        Given { kind: 0, numbers: [u16::MAX, 0, 0], ..root },
        Given { kind: 1, numbers: [names, second, 0], ..root },
        Given { kind: 1, numbers: [0, second, names], ..root },
    ];
    let step = Given::of(&sheet.steps[rng.below(sheet.steps.len())]);
    all.extend([step, Given { column: rng.below(4200) as u16, ..step }]);
    let equal = (0..props).filter(|prop| {
        let given = Given { kind: 0, numbers: [*prop, 0, 0], column: 0 };
        walk::compare(&with_step(&sheet, given), sheet.root(), sheet.steps.len()) == Ok(true)
    });
    all.extend(equal.take(4).map(|prop| Given { kind: 0, numbers: [prop, 0, 0], column: rng.below(4096) as u16 }));
    for _ in 0..3 {
        all.push(Given {
            kind: 0,
            numbers: [rng.below(usize::from(props)) as u16, 0, 0],
            column: rng.below(4096) as u16,
        });
        let name = |rng: &mut Rng| rng.below(usize::from(names.max(1))) as u16;
        all.push(Given { kind: 1, numbers: [name(rng), second, name(rng)], column: rng.below(4096) as u16 });
    }
    all
}

/// ∀ an object : T. P(that object), by the numbers of their names.
fn all(object: u16, of: u16) -> Formula {
    forall(object, 1, Formula::Atom(0, vec![Parameter::Uninstantiated(of)]))
}

/// A sheet over P, T, x, y and x again, whose propositions are equal up to the bound object, but for the last two.
fn renamed(steps: &[Step]) -> Vec<u8> {
    let closed = [all(2, 2), all(3, 3), all(4, 4), all(2, 4)];
    let open = [all(2, 3), Formula::Atom(0, vec![Parameter::Uninstantiated(2)])];
    plain(&["P", "T", "x", "y", "x"], &[&closed[..], &open].concat(), steps).bytes()
}

/// So many steps and few levels: leaves, joined as soon as there are 200.
fn wide(count: usize) -> Vec<u8> {
    let (mut steps, mut open) = (vec![], 0);
    while steps.len() + 1 < count {
        let joined = if open == 200 { open } else { 0 };
        steps.push(step(rule::AND_INTRO, joined, &[], 0));
        open = open + 1 - joined;
    }
    steps.push(step(rule::AND_INTRO, open, &[], 1));
    renamed(&steps)
}

/// As many levels as steps.
fn deep(levels: usize) -> Vec<u8> {
    let mut steps = vec![step(rule::SORRY, 0, &[], 0)];
    steps.resize(levels, in_column(77, step(rule::ALPHA, 1, &[], 1)));
    renamed(&steps)
}

/// A sheet with gaps in its text and its code, whose goal is its third proposition.
fn with_gaps(steps: &[Step]) -> Vec<u8> {
    let sheet = renamed(steps);
    let mut layout = crate::sheet::Layout::read(&sheet).expect("the sheet is laid out");
    for (pairs, bytes, length) in [(&mut layout.names, &mut layout.text, 0), (&mut layout.props, &mut layout.code, 2)] {
        for (i, (offset, _)) in pairs.iter_mut().enumerate() {
            bytes.insert(usize::from(*offset) + i, 0xa0 + i as u8);
            *offset += 1 + i as u16;
        }
        bytes.extend([0xff; 3]);
        layout.header[length] = bytes.len() as u16;
    }
    layout.header[5] = 2;
    layout.bytes()
}

/// Sheets at the limits of a restatement: 1,022 to 1,024 steps, 254 to 256 levels; bound objects to rename, with and without
/// gaps; a conclusion with an unbound parameter; type judgements; and roots that export refuses, each in its column.
pub fn sheets() -> Vec<Named> {
    let sorry = |prop| in_column(6, step(rule::SORRY, 0, &[], prop));
    let mut list: Vec<Named> = vec![];
    list.extend((STEPS - 2..=STEPS).map(|count| (format!("{count} steps"), wide(count))));
    list.extend((STEP_NESTING - 2..=STEP_NESTING).map(|count| (format!("{count} levels"), deep(count))));
    list.extend((0..6).map(|prop| (format!("proposition {prop}"), renamed(&[sorry(prop)]))));
    list.extend((0..6).map(|prop| (format!("proposition {prop} among gaps"), with_gaps(&[sorry(prop)]))));
    let judged = judging(in_column(5, step(rule::IDENT, 0, &[2], 0)), 2, 1);
    list.push(("a judgement".into(), with_gaps(&[judged])));
    list.push(("a judgement under fst".into(), renamed(&[judged, in_column(9, step(rule::AND_ELIM_FST, 1, &[], 0))])));
    list.push(("AlphaEquivalent alone".into(), renamed(&[in_column(40, step(rule::ALPHA, 0, &[], 0))])));
    let deeper = [sorry(5), step(rule::ALPHA, 1, &[], 5), in_column(4095, step(rule::IMPL_ELIM, 1, &[], 0))];
    list.push(("too few premisses".into(), renamed(&deeper)));
    list
}

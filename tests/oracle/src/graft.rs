//! One sheet grafted into another by document 02, ticket 11: the donor's steps replace a Sorry step of the host that has no
//! premisses.
use crate::{
    formula::{Formula, Parameter},
    sheet::{decode, laid_out, rule, Layout, Refusal, Sheet, Step, CODE, NAMES, PROPS, STEPS, STEP_NESTING, TEXT},
};
use std::collections::HashMap;

/// Whose sheet a refusal speaks of, in the order in which the list and a caller in C number them.
#[derive(Clone, Copy, PartialEq, Eq, Debug)]
pub enum Whose {
    Neither,
    Host,
    Donor,
}

/// A refusal of a graft. Its place and its column are those of the sheet whose it is.
#[derive(Clone, Copy, PartialEq, Eq, Debug)]
pub struct Refused {
    pub whose: Whose,
    pub refusal: Refusal,
}

impl Refused {
    pub fn of_neither(number: u8) -> Self {
        Refused { whose: Whose::Neither, refusal: Refusal { number, place: 0, column: 0 } }
    }
}

/// The merged sheet, in a room or in one that is large enough: "the host's 1 to 11 come first, then the donor's, each saying
/// whose it is, then these, then 16".
pub fn graft(host: &[u8], step: usize, donor: &[u8], room: Option<usize>) -> Result<Vec<u8>, Refused> {
    let of = |whose, bytes| decode(bytes).map_err(|refusal| Refused { whose, refusal });
    let (one, other) = (of(Whose::Host, host)?, of(Whose::Donor, donor)?);
    if !is_open(&one, step) {
        return Err(Refused::of_neither(26));
    }
    if !same_conclusion(&one, step, &other) {
        return Err(Refused::of_neither(27));
    }
    let merged = merged(laid_out(host).expect("the host is a sheet"), &one, step, &other);
    if passes_a_limit(&merged) {
        return Err(Refused::of_neither(28));
    }
    let bytes = merged.bytes();
    match room {
        Some(room) if room < bytes.len() => Err(Refused::of_neither(16)),
        _ => Ok(bytes),
    }
}

/// 26: is the step a Sorry of the sheet that has no premisses?
pub fn is_open(sheet: &Sheet, step: usize) -> bool {
    sheet.steps.get(step).is_some_and(|step| (step.rule, step.count) == (rule::SORRY, 0))
}

/// 27: do the step of the host and the donor's root conclude the same, names taken by bytes?
fn same_conclusion(host: &Sheet, step: usize, donor: &Sheet) -> bool {
    let (one, other) = (host.steps[step], donor.steps[donor.root()]);
    match (host.concluded(step), donor.concluded(donor.root())) {
        (Some(l), Some(r)) => same(host, l, donor, r),
        (None, None) => {
            let ([object, id, datatype], [y, j, u]) = (one.conclusion, other.conclusion);
            same_name(host, object, donor, y) && id == j && same_name(host, datatype, donor, u)
        }
        _ => false,
    }
}

fn same_name(host: &Sheet, n: u16, donor: &Sheet, m: u16) -> bool {
    host.names[usize::from(n)] == donor.names[usize::from(m)]
}

/// "The same shape, name bytes and ids".
fn same(host: &Sheet, l: &Formula, donor: &Sheet, r: &Formula) -> bool {
    let name = |n: &u16, m: &u16| same_name(host, *n, donor, *m);
    match (l, r) {
        (Formula::True, Formula::True) | (Formula::False, Formula::False) => true,
        (Formula::Binary(one, l1, l2), Formula::Binary(other, r1, r2)) => {
            one == other && same(host, l1, donor, r1) && same(host, l2, donor, r2)
        }
        (Formula::Atom(n, ls), Formula::Atom(m, rs)) => {
            let parameter = |(l, r): (&Parameter, &Parameter)| match (l, r) {
                (Parameter::Uninstantiated(n), Parameter::Uninstantiated(m)) => name(n, m),
                (Parameter::Instantiated(n, i), Parameter::Instantiated(m, j)) => name(n, m) && i == j,
                _ => false,
            };
            name(n, m) && ls.len() == rs.len() && ls.iter().zip(rs).all(parameter)
        }
        (Formula::Quantified(q, x, t, l), Formula::Quantified(p, y, u, r)) => {
            q == p && name(x, y) && name(t, u) && same(host, l, donor, r)
        }
        _ => false,
    }
}

/// The merged sheet, whether or not it passes a limit: the host as it stands, and after its parts "donor names missing by
/// bytes, each once, and all donor propositions .. in their order and without gaps, renumbered".
pub fn merged(mut new: Layout, host: &Sheet, step: usize, donor: &Sheet) -> Layout {
    let numbers = renumbered(&mut new, host, donor);
    let name = |n: u16| numbers[usize::from(n)];
    for prop in &donor.props {
        let start = new.code.len();
        prop.code(&mut |n| name(n), &mut new.code);
        new.props.push((start as u16, (new.code.len() - start) as u16));
    }
    let moved = |own: &Step| {
        let mut step = *own;
        step.idents[..rule::idents(step.rule)].iter_mut().for_each(|(n, _)| *n = name(*n));
        let [first, second, third] = step.conclusion;
        step.conclusion = match step.kind {
            0 => [host.props.len() as u16 + first, second, third],
            _ => [name(first), second, name(third)],
        };
        step
    };
    new.steps.splice(step..=step, donor.steps.iter().map(moved));
    let lengths = [new.text.len(), new.names.len(), new.code.len(), new.props.len(), new.steps.len(), host.goal];
    new.header = lengths.map(|length| length as u16);
    new
}

/// The merged number of each donor name, "the lowest of equal bytes". Those that are missing enter the sheet.
fn renumbered(new: &mut Layout, host: &Sheet, donor: &Sheet) -> Vec<u16> {
    let mut lowest: HashMap<&str, u16> = HashMap::new();
    for (number, name) in (0..).zip(&host.names) {
        lowest.entry(name).or_insert(number);
    }
    let mut number = |name: &'_ String| {
        new.names.push((new.text.len() as u16, name.len() as u16));
        new.text.extend(name.bytes());
        new.names.len() as u16 - 1
    };
    donor.names.iter().map(|name| *lowest.entry(name).or_insert_with(|| number(name))).collect()
}

/// 28: the ranges of the header, and how deep trees may nest.
fn passes_a_limit(merged: &Layout) -> bool {
    let Layout { text, names, code, props, steps, .. } = merged;
    let long = text.len() > TEXT || code.len() > CODE;
    long || names.len() > NAMES || props.len() > PROPS || steps.len() > STEPS || levels(steps) > STEP_NESTING
}

/// How many levels the tree of the last step has.
fn levels(steps: &[Step]) -> usize {
    let mut trees: Vec<usize> = vec![];
    for step in steps {
        let premisses = trees.split_off(trees.len() - usize::from(step.count));
        trees.push(1 + premisses.into_iter().max().unwrap_or(0));
    }
    *trees.last().expect("there is a step")
}

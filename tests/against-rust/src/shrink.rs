//! Makes a sheet smaller for as long as something holds of it, by dropping steps, names, propositions and bytes.
use oracle::{
    draw::code,
    formula::Formula,
    sheet::{decode, rule, Layout, Plain, Sheet, Step},
};
use std::{
    iter::successors,
    ops::{Range, RangeInclusive},
};

/// How many bytes the sheets that are tried have together.
const BYTES: usize = 2_000_000;

/// The smallest sheet found of which `holds` says something, and what it says.
pub fn shrunk<T>(sheet: Vec<u8>, said: T, holds: impl Fn(&[u8]) -> Option<T>) -> (Vec<u8>, T) {
    let mut search = Search { best: sheet, said, holds, bytes: BYTES };
    while search.round() {}
    (search.best, search.said)
}

struct Search<T, H> {
    best: Vec<u8>,
    said: T,
    holds: H,
    bytes: usize,
}

/// What shrinks: shorter comes first, then smaller bytes.
fn size(sheet: &[u8]) -> (usize, usize) {
    (sheet.len(), sheet.iter().map(|byte| *byte as usize).sum())
}

impl<T, H: Fn(&[u8]) -> Option<T>> Search<T, H> {
    /// Tries the families of edits, coarse ones first, until one helps.
    fn round(&mut self) -> bool {
        let sheet_edits = |search: &mut Self| {
            let edit = |edit: &SheetEdit| search.pass(|bytes, k| Some(bytes_of(&edit(&decode(bytes).ok()?, k)?)));
            SHEET_EDITS.iter().map(edit).fold(false, |helped, more| helped | more)
        };
        let layout_edits = |search: &mut Self| {
            let edit = |edit: &LayoutEdit| search.pass(|bytes, k| Some(edit(&Layout::read(bytes)?, k)?.bytes()));
            LAYOUT_EDITS.iter().map(edit).fold(false, |helped, more| helped | more)
        };
        sheet_edits(self) || layout_edits(self) || self.pass(without_bytes) || self.pass(with_zero)
    }

    /// Tries the edits of a family in turn, each for as long as it helps. Did one help?
    fn pass(&mut self, edit: impl Fn(&[u8], usize) -> Option<Vec<u8>>) -> bool {
        let (mut k, mut helped) = (0, false);
        while let Some(edited) = edit(&self.best, k).filter(|edited| edited.len() <= self.bytes) {
            if size(&edited) < size(&self.best) {
                self.bytes -= edited.len();
                if let Some(said) = (self.holds)(&edited) {
                    (self.best, self.said, helped) = (edited, said, true);
                    continue;
                }
            }
            k += 1;
        }
        helped
    }
}

type SheetEdit = fn(&Sheet, usize) -> Option<Sheet>;
type LayoutEdit = fn(&Layout, usize) -> Option<Layout>;

/// Edits of a sheet that 1 to 11 accept. The k-th of a family, or none if there are fewer.
const SHEET_EDITS: [SheetEdit; 10] = [
    only_tree,
    with_premiss_for_step,
    with_leaf_for_step,
    without_premiss,
    without_props,
    with_smaller_equals,
    with_smaller_prop,
    without_names,
    with_first_letter,
    with_first_goal,
];

/// Edits of bytes that are as long as their header says.
const LAYOUT_EDITS: [LayoutEdit; 5] =
    [without_records, without_name_pairs, without_prop_pairs, without_text, without_code];

fn bytes_of(sheet: &Sheet) -> Vec<u8> {
    let names = sheet.names.iter().map(|name| name.clone().into_bytes()).collect();
    let props = sheet.props.iter().map(code).collect();
    Plain { names, props, steps: sheet.steps.clone(), goal: sheet.goal as u16 }.bytes()
}

/// The steps of a step's tree.
fn tree(sheet: &Sheet, step: usize) -> RangeInclusive<usize> {
    let first = sheet.premisses[step].first().map_or(step, |premiss| *tree(sheet, *premiss).start());
    first..=step
}

/// The sheet with other steps in the place of some.
fn with_steps(sheet: &Sheet, range: RangeInclusive<usize>, steps: &[Step]) -> Sheet {
    let mut sheet = sheet.clone();
    sheet.steps.splice(range, steps.iter().copied());
    sheet
}

/// Steps with their premisses, one pair for each.
fn premiss(sheet: &Sheet, k: usize) -> Option<(usize, usize)> {
    let pairs = |(step, premisses): (usize, &Vec<usize>)| premisses.clone().into_iter().map(move |p| (step, p));
    sheet.premisses.iter().enumerate().flat_map(pairs).nth(k)
}

fn only_tree(sheet: &Sheet, k: usize) -> Option<Sheet> {
    let mut trees: Vec<_> = (0..sheet.root()).map(|step| tree(sheet, step)).collect();
    trees.sort_by_key(|tree| tree.end() - tree.start());
    let steps = sheet.steps[trees.get(k)?.clone()].to_vec();
    Some(Sheet { steps, ..sheet.clone() })
}

fn with_premiss_for_step(sheet: &Sheet, k: usize) -> Option<Sheet> {
    let (step, premiss) = premiss(sheet, k)?;
    Some(with_steps(sheet, tree(sheet, step), &sheet.steps[tree(sheet, premiss)]))
}

fn with_leaf_for_step(sheet: &Sheet, k: usize) -> Option<Sheet> {
    let Step { kind, conclusion, column, .. } = *sheet.steps.get(k)?;
    let leaf = Step { rule: rule::TRUE_INTRO, kind, conclusion, column, ..Step::default() };
    Some(with_steps(sheet, tree(sheet, k), &[leaf]))
}

fn without_premiss(sheet: &Sheet, k: usize) -> Option<Sheet> {
    let (step, premiss) = premiss(sheet, k)?;
    let mut edited = sheet.clone();
    edited.steps[step].count -= 1;
    Some(with_steps(&edited, tree(sheet, premiss), &[]))
}

/// A number once those in a run are gone; they themselves become the first.
fn renumbered(n: u16, gone: &Range<usize>) -> u16 {
    match n as usize {
        n if n < gone.start => n as u16,
        n if n < gone.end => 0,
        n => (n - gone.len()) as u16,
    }
}

fn without_props(sheet: &Sheet, k: usize) -> Option<Sheet> {
    let gone = run(sheet.props.len(), k)?;
    let mut sheet = sheet.clone();
    sheet.props.drain(gone.clone());
    sheet.goal = renumbered(sheet.goal as u16, &gone) as usize;
    for step in sheet.steps.iter_mut().filter(|step| step.kind == 0) {
        step.conclusion[0] = renumbered(step.conclusion[0], &gone);
    }
    Some(sheet)
}

/// What a proposition becomes when its head goes.
fn smaller_props(prop: &Formula) -> Vec<Formula> {
    match prop {
        Formula::True => vec![],
        Formula::False => vec![Formula::True],
        Formula::Binary(connective, l, r) => {
            let mut all = vec![Formula::True, (**l).clone(), (**r).clone()];
            all.extend(smaller_props(l).into_iter().map(|l| Formula::binary(*connective, l, (**r).clone())));
            all.extend(smaller_props(r).into_iter().map(|r| Formula::binary(*connective, (**l).clone(), r)));
            all
        }
        Formula::Atom(name, parameters) => {
            let fewer = (0..parameters.len()).map(|k| {
                let mut parameters = parameters.clone();
                parameters.remove(k);
                Formula::Atom(*name, parameters)
            });
            [Formula::True].into_iter().chain(fewer).collect()
        }
        Formula::Quantified(quantifier, object, datatype, body) => {
            let mut all = vec![Formula::True, (**body).clone()];
            let under = |body| Formula::Quantified(*quantifier, *object, *datatype, Box::new(body));
            all.extend(smaller_props(body).into_iter().map(under));
            all
        }
    }
}

/// A proposition's number, and a smaller one for it.
fn smaller_prop(sheet: &Sheet, k: usize) -> Option<(usize, Formula)> {
    let smaller = |(at, prop): (usize, &Formula)| smaller_props(prop).into_iter().map(move |smaller| (at, smaller));
    sheet.props.iter().enumerate().flat_map(smaller).nth(k)
}

/// Makes all equal propositions smaller at once.
fn with_smaller_equals(sheet: &Sheet, k: usize) -> Option<Sheet> {
    let (at, smaller) = smaller_prop(sheet, k)?;
    let mut sheet = sheet.clone();
    let old = sheet.props[at].clone();
    sheet.props.iter_mut().filter(|prop| **prop == old).for_each(|prop| *prop = smaller.clone());
    Some(sheet)
}

fn with_smaller_prop(sheet: &Sheet, k: usize) -> Option<Sheet> {
    let (at, smaller) = smaller_prop(sheet, k)?;
    let mut sheet = sheet.clone();
    sheet.props[at] = smaller;
    Some(sheet)
}

fn without_names(sheet: &Sheet, k: usize) -> Option<Sheet> {
    let gone = run(sheet.names.len(), k)?;
    let mut sheet = sheet.clone();
    sheet.names.drain(gone.clone());
    for prop in &mut sheet.props {
        prop.rename(&|n| renumbered(n, &gone));
    }
    for step in &mut sheet.steps {
        let used = rule::idents(step.rule);
        step.idents[..used].iter_mut().for_each(|(name, _)| *name = renumbered(*name, &gone));
        if step.kind == 1 {
            step.conclusion[0] = renumbered(step.conclusion[0], &gone);
            step.conclusion[2] = renumbered(step.conclusion[2], &gone);
        }
    }
    Some(sheet)
}

fn with_first_letter(sheet: &Sheet, k: usize) -> Option<Sheet> {
    let mut sheet = sheet.clone();
    sheet.names.get_mut(k)?.truncate(1);
    Some(sheet)
}

fn with_first_goal(sheet: &Sheet, k: usize) -> Option<Sheet> {
    (k == 0).then(|| Sheet { goal: 0, ..sheet.clone() })
}

/// The k-th run of so many things: first halves, then quarters, and at last each alone.
fn run(length: usize, k: usize) -> Option<Range<usize>> {
    let halves = successors(Some(length.div_ceil(2).max(1)), |size| (*size > 1).then(|| size.div_ceil(2)));
    halves.flat_map(|size| (0..length).step_by(size).map(move |from| from..length.min(from + size))).nth(k)
}

fn without_records(layout: &Layout, k: usize) -> Option<Layout> {
    let mut layout = layout.clone();
    layout.steps.drain(run(layout.steps.len(), k)?);
    layout.header[4] = layout.steps.len() as u16;
    Some(layout)
}

fn without_name_pairs(layout: &Layout, k: usize) -> Option<Layout> {
    let mut layout = layout.clone();
    layout.names.drain(run(layout.names.len(), k)?);
    layout.header[1] = layout.names.len() as u16;
    Some(layout)
}

fn without_prop_pairs(layout: &Layout, k: usize) -> Option<Layout> {
    let mut layout = layout.clone();
    layout.props.drain(run(layout.props.len(), k)?);
    layout.header[3] = layout.props.len() as u16;
    Some(layout)
}

/// Drops bytes, and moves the pairs behind them.
fn close_up(pairs: &mut [(u16, u16)], bytes: &mut Vec<u8>, k: usize) -> Option<()> {
    let run = run(bytes.len(), k)?;
    for (offset, _) in pairs.iter_mut().filter(|(offset, _)| *offset as usize >= run.end) {
        *offset -= run.len() as u16;
    }
    bytes.drain(run);
    Some(())
}

fn without_text(layout: &Layout, k: usize) -> Option<Layout> {
    let mut layout = layout.clone();
    close_up(&mut layout.names, &mut layout.text, k)?;
    layout.header[0] = layout.text.len() as u16;
    Some(layout)
}

fn without_code(layout: &Layout, k: usize) -> Option<Layout> {
    let mut layout = layout.clone();
    close_up(&mut layout.props, &mut layout.code, k)?;
    layout.header[2] = layout.code.len() as u16;
    Some(layout)
}

fn without_bytes(bytes: &[u8], k: usize) -> Option<Vec<u8>> {
    let mut bytes = bytes.to_vec();
    bytes.drain(run(bytes.len(), k)?);
    Some(bytes)
}

fn with_zero(bytes: &[u8], k: usize) -> Option<Vec<u8>> {
    let mut bytes = bytes.to_vec();
    *bytes.get_mut(k)? = 0;
    Some(bytes)
}

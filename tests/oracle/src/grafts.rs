//! Pairs of sheets for document 02, ticket 11: sheets cut in two, two sheets of which one is made to conclude what the other
//! leaves open, such as nearly do, damaged ones, and a fixed list at and past every limit.
mod fixed;

use crate::{
    formula::parse,
    generate::{Kind, Sheets},
    graft::is_open,
    rng::Rng,
    sheet::{decode, rule, Layout, Plain, Sheet, Step, CODE, LAST_COLUMN, NAMES, TEXT},
};
pub use fixed::fixed;
use std::collections::BTreeSet;

/// A host with the number of the step that a donor is to replace.
#[derive(Clone, Debug)]
pub struct Graft {
    pub what: String,
    pub host: Vec<u8>,
    pub step: usize,
    pub donor: Vec<u8>,
}

/// A column within range.
fn column(rng: &mut Rng) -> u16 {
    rng.below(usize::from(LAST_COLUMN) + 1) as u16
}

/// Parts laid out with gaps of unread bytes, as far as the sheet has room.
fn spread(plain: &Plain, rng: &mut Rng) -> Layout {
    let mut layout = plain.layout();
    let gaps = *rng.pick(&[0, 0, 15, 60]);
    for (pairs, all, most, length) in
        [(&mut layout.names, &mut layout.text, TEXT, 0), (&mut layout.props, &mut layout.code, CODE, 2)]
    {
        let mut shift = 0;
        for (offset, _) in pairs.iter_mut() {
            let unread = if rng.chance(gaps) { rng.below(6) } else { 0 };
            if all.len() + unread <= most {
                let at = usize::from(*offset) + shift;
                all.splice(at..at, rng.bytes(unread));
                shift += unread;
            }
            *offset += shift as u16;
        }
        if rng.chance(gaps) && all.len() + 9 <= most {
            all.extend(rng.bytes(9));
        }
        layout.header[length] = all.len() as u16;
    }
    layout
}

/// A donor's names: a name is called by any of the numbers that its bytes have.
struct Named<'a> {
    names: &'a mut Vec<Vec<u8>>,
    rng: &'a mut Rng,
}

impl Named<'_> {
    fn number(&mut self, name: &str) -> u16 {
        let has = |other: &&u16| self.names[usize::from(**other)] == name.as_bytes();
        let all: Vec<u16> = (0..self.names.len() as u16).collect();
        let equal: Vec<u16> = all.iter().filter(has).copied().collect();
        let bytes: usize = self.names.iter().map(Vec::len).sum();
        let fits = self.names.len() < NAMES && bytes + name.len() <= TEXT;
        if equal.is_empty() || fits && self.rng.chance(5) {
            self.names.push(name.as_bytes().to_vec());
            return self.names.len() as u16 - 1;
        }
        *self.rng.pick(&equal)
    }

    /// The code of another sheet's proposition.
    fn code(&mut self, sheet: &Sheet, prop: usize) -> Vec<u8> {
        let mut code = vec![];
        sheet.props[prop].code(&mut |n| self.number(&sheet.name(n)), &mut code);
        code
    }

    /// Another sheet's step, where that concludes a type judgement; the proposition is given where it does not.
    fn step(&mut self, sheet: &Sheet, own: &Step, prop: u16) -> Step {
        let mut step = *own;
        for (name, _) in &mut step.idents[..rule::idents(own.rule)] {
            *name = self.number(&sheet.name(*name));
        }
        let [object, id, datatype] = own.conclusion;
        step.conclusion = match own.kind {
            0 => [prop, 0, 0],
            _ => [self.number(&sheet.name(object)), id, self.number(&sheet.name(datatype))],
        };
        step
    }
}

/// The steps of a step's tree.
fn tree_steps(sheet: &Sheet, step: usize) -> std::ops::RangeInclusive<usize> {
    let mut first = step;
    while let Some(premiss) = sheet.premisses[first].first() {
        first = *premiss;
    }
    first..=step
}

/// A step to cut at: any, or one on the way from the root to a leaf.
fn cutting(sheet: &Sheet, rng: &mut Rng) -> usize {
    if rng.chance(40) {
        return rng.below(sheet.steps.len());
    }
    let mut at = sheet.root();
    while !sheet.premisses[at].is_empty() && rng.chance(80) {
        at = *rng.pick(&sheet.premisses[at]);
    }
    at
}

/// The sheet with a Sorry in the place of a step's tree, and that tree as a donor over names and propositions of its own:
/// the donor grafted into the host is the old drawing again.
fn cut_in_two(bytes: &[u8], rng: &mut Rng) -> Option<(Vec<u8>, usize, Vec<u8>)> {
    let sheet = decode(bytes).ok()?;
    let cut = cutting(&sheet, rng);
    let steps = tree_steps(&sheet, cut);
    let mut host = Layout::read(bytes)?;
    let Step { kind, conclusion, .. } = sheet.steps[cut];
    let sorry = Step { rule: rule::SORRY, kind, conclusion, column: column(rng), ..Step::default() };
    host.steps.splice(steps.clone(), [sorry]);
    host.header[4] = host.steps.len() as u16;
    Some((host.bytes(), *steps.start(), donor_of(&sheet, steps, rng)))
}

/// Some steps of a sheet over names and propositions of their own: those that they use and some more, in any order.
fn donor_of(sheet: &Sheet, steps: std::ops::RangeInclusive<usize>, rng: &mut Rng) -> Vec<u8> {
    let steps = &sheet.steps[steps];
    let mut props: Vec<usize> =
        steps.iter().filter(|step| step.kind == 0).map(|step| step.conclusion[0].into()).collect();
    props.extend((0..rng.below(3)).map(|_| rng.below(sheet.props.len())));
    if props.is_empty() {
        props.push(rng.below(sheet.props.len()));
    }
    props.sort();
    props.dedup();
    rng.shuffle(&mut props);
    // Unused names come first: some of the sheet's, some that it has not.
    let mut names: Vec<Vec<u8>> =
        (0..rng.below(4)).map(|i| format!("{}{i}", *rng.pick(&["d", "A", "T_"])).into()).collect();
    let unused = rng.below(3).min(sheet.names.len());
    names.extend((0..unused).map(|_| rng.pick(&sheet.names).clone().into_bytes()));
    let mut named = Named { names: &mut names, rng };
    let codes = props.iter().map(|prop| named.code(sheet, *prop)).collect();
    let moved = |named: &mut Named, step: &Step| {
        let prop = props.iter().position(|prop| step.kind == 0 && *prop == usize::from(step.conclusion[0]));
        named.step(sheet, step, prop.unwrap_or(0) as u16)
    };
    let steps = steps.iter().map(|step| moved(&mut named, step)).collect();
    let goal = rng.below(props.len()) as u16;
    spread(&Plain { names, props: codes, steps, goal }, rng).bytes()
}

/// A host with a step that is open: one of its own, or a leaf made so.
fn opened(bytes: &[u8], rng: &mut Rng) -> Option<(Vec<u8>, usize)> {
    let sheet = decode(bytes).ok()?;
    let open: Vec<usize> = (0..sheet.steps.len()).filter(|step| is_open(&sheet, *step)).collect();
    if !open.is_empty() && rng.chance(60) {
        return Some((bytes.to_vec(), *rng.pick(&open)));
    }
    let leaves: Vec<usize> = (0..sheet.steps.len()).filter(|step| sheet.steps[*step].count == 0).collect();
    let leaf = *rng.pick(&leaves);
    let mut host = Layout::read(bytes)?;
    (host.steps[leaf].rule, host.steps[leaf].idents) = (rule::SORRY, [(0, 0); 2]);
    Some((host.bytes(), leaf))
}

/// A sheet whose root is made to conclude what a step of the host does.
fn concluding(bytes: &[u8], host: &[u8], step: usize, rng: &mut Rng) -> Option<Vec<u8>> {
    let (one, _) = (decode(host).ok()?, decode(bytes).ok()?);
    let mut donor = Layout::read(bytes)?.plain();
    let (mut root, own) = (*donor.steps.last()?, one.steps[step]);
    let mut named = Named { names: &mut donor.names, rng };
    let Step { kind, conclusion, .. } = named.step(&one, &own, donor.props.len() as u16);
    (root.kind, root.conclusion) = (kind, conclusion);
    if kind == 0 {
        donor.props.push(named.code(&one, own.conclusion[0].into()));
    }
    *donor.steps.last_mut()? = root;
    Some(spread(&donor, rng).bytes())
}

/// The sheet with its root's conclusion changed in one thing, if it is still a sheet: another proposition, a name, or a byte
/// of the code or of the judgement.
fn nearly(bytes: &[u8], rng: &mut Rng) -> Vec<u8> {
    for _ in 0..30 {
        let Some(layout) = Layout::read(bytes).filter(|_| decode(bytes).is_ok()) else { break };
        let mut changed = layout.plain();
        let (names, props) = (changed.names.len(), changed.props.len());
        let root = changed.steps.last_mut().expect("there is a step");
        match (root.kind, rng.below(4)) {
            (0, 0) => root.conclusion[0] = rng.below(props) as u16,
            (0, 1) => {
                let code = &mut changed.props[usize::from(root.conclusion[0])];
                let mut formula = parse(code, names).expect("it is a proposition");
                let (from, to) = (rng.below(names.max(1)) as u16, rng.below(names.max(1)) as u16);
                formula.rename(&|n| if n == from { to } else { n });
                code.clear();
                formula.code(&mut |n| n, code);
            }
            (0, _) => {
                let code = &mut changed.props[usize::from(root.conclusion[0])];
                let (at, any) = (rng.below(code.len()), rng.below(8) as u8);
                code[at] = *rng.pick(&[code[at] ^ 1, code[at].wrapping_add(1), any]);
            }
            (_, 0) => (root.kind, root.conclusion) = (0, [rng.below(props) as u16, 0, 0]),
            (_, field) => root.conclusion[field - 1] ^= 1 + rng.below(2) as u16,
        }
        let changed = changed.bytes();
        if changed != bytes && decode(&changed).is_ok() {
            return changed;
        }
    }
    bytes.to_vec()
}

/// One byte of a sheet changed, or its end cut off.
fn damaged(bytes: &[u8], rng: &mut Rng) -> Vec<u8> {
    let mut bytes = bytes.to_vec();
    match rng.below(bytes.len() + 2) {
        at if at < bytes.len() => bytes[at] = bytes[at].wrapping_add(*rng.pick(&[1, 255, 128])),
        _ => bytes.truncate(rng.below(bytes.len())),
    }
    bytes
}

/// Grafts that depend on the kind, the seed and the index alone: of one pair of sheets, at the step that is meant and at some
/// others.
pub fn random(kind: Kind, seed: u64, index: usize) -> Vec<Graft> {
    let mut rng = Rng::new(seed ^ 0x6772_6166, index as u64);
    let own = Sheets::new(kind, seed, index + 1).get(index).1;
    let other_kind = *rng.pick(&[Kind::Sound, Kind::Random, Kind::Quantified, kind]);
    let other = Sheets::new(other_kind, seed ^ 1, index + 1).get(index).1;
    let (how, (mut host, step, mut donor)) = pair(&own, &other, &mut rng);
    let mut what = format!("{kind} {index} of seed {seed}, {how}");
    if rng.chance(15) {
        (donor, what) = (nearly(&donor, &mut rng), what + ", nearly");
    }
    match rng.below(30) {
        0 => host = damaged(&host, &mut rng),
        1 => donor = damaged(&donor, &mut rng),
        2 => (host, donor) = (damaged(&host, &mut rng), damaged(&donor, &mut rng)),
        _ => {}
    }
    let steps = decode(&host).map_or(1, |sheet| sheet.steps.len());
    let past = [steps, steps + 1, 65536 + step, (1 << 32) + step, usize::MAX];
    let asked: BTreeSet<usize> = [step, rng.below(steps), *rng.pick(&past)].into();
    let at = |step| Graft { what: what.clone(), host: host.clone(), step, donor: donor.clone() };
    asked.into_iter().map(at).collect()
}

/// A host, a step and a donor, and how they were made.
fn pair(own: &[u8], other: &[u8], rng: &mut Rng) -> (&'static str, (Vec<u8>, usize, Vec<u8>)) {
    if rng.chance(50) {
        if let Some(parts) = cut_in_two(own, rng) {
            return ("cut in two", parts);
        }
    }
    let Some((host, step)) = opened(own, rng) else { return ("as it is", (own.to_vec(), 0, other.to_vec())) };
    match (rng.below(10), concluding(other, &host, step, rng)) {
        (0, _) => ("another donor", (host, step, other.to_vec())),
        (1, _) => ("itself", (host.clone(), step, host)),
        (_, Some(donor)) => ("a donor that concludes it", (host, step, donor)),
        (_, None) => ("another donor", (host, step, other.to_vec())),
    }
}

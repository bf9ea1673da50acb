//! Questions whether a term checks (document 02, ticket 5): sheets with a term of their own or one beside them, hypotheses and a
//! proposition.
use super::{
    judgements::{judgement, Judgement},
    texts::{self, Text},
    Kind, Sheets,
};
use crate::{
    formula::{Binary, Formula, Parameter},
    judging::Judged,
    rng::Rng,
    sheet::{decode, rule, Layout, Plain, Sheet, Step},
    terms::{label, nodes, part_at, parts, replaced, Form},
    text::{strict, term},
    walk::export,
};
use alice::kernel::{
    proof_term::{ProofTerm, Type},
    prop::{Prop, PropParameter},
};

#[derive(Clone, PartialEq, Eq, Debug)]
pub struct Asked {
    pub sheet: Vec<u8>,
    /// The text that is read beside the sheet; none for the sheet's own term.
    pub read: Option<Text>,
    /// Numbers of a name and of a proposition by turns.
    pub hypotheses: Vec<u16>,
    pub prop: usize,
}

impl Asked {
    pub fn judged(&self) -> Judged<'_> {
        self.read.as_ref().map_or(Judged::Own, |Text { list, text }| Judged::Read { list, text })
    }
}

/// A sound sheet with one field of one step changed to what another might have.
pub fn nearly_sound(seed: u64, index: usize) -> Vec<u8> {
    let (_, sheet) = Sheets::new(Kind::Sound, seed, index + 1).get(index);
    let mut rng = Rng::new(!seed, index as u64);
    let mut layout = Layout::read(&sheet).expect("a sound sheet is laid out");
    let (names, props) = (layout.names.len().max(1), layout.props.len());
    let at = rng.below(layout.steps.len());
    let step = &mut layout.steps[at];
    match (rng.below(4), rule::idents(step.rule)) {
        (0, _) => step.rule = twin(step.rule),
        (1, 1..) => step.idents[0].0 = rng.below(names) as u16,
        (2, 2) => step.idents.swap(0, 1),
        _ => step.conclusion[0] = rng.below(props) as u16,
    }
    layout.bytes()
}

/// Another rule of as many premisses and identifiers, or the same.
fn twin(rule: u8) -> u8 {
    match rule {
        rule::AND_ELIM_FST => rule::AND_ELIM_SND,
        rule::AND_ELIM_SND => rule::OR_INTRO_FST,
        rule::OR_INTRO_FST => rule::OR_INTRO_SND,
        rule::OR_INTRO_SND => rule::FALSUM_ELIM,
        rule::FALSUM_ELIM => rule::AND_ELIM_FST,
        rule::TRUE_INTRO => rule::SORRY,
        rule::SORRY => rule::TRUE_INTRO,
        rule::AND_INTRO => rule::IMPL_ELIM,
        rule::IMPL_ELIM => rule::AND_INTRO,
        other => other,
    }
}

/// A judgement as a sheet that has its names and propositions, some of them twice, and as a term beside it.
pub fn beside(rng: &mut Rng) -> Asked {
    let (budget, changes) = (rng.range(1, 30), rng.below(3));
    let Judgement { hypotheses, term: t, prop } = judgement(rng.fork(), budget, changes);
    let mut made = Made { rng: rng.fork(), plain: Plain::default() };
    let mut numbers = vec![];
    for (name, prop) in &hypotheses {
        numbers.extend([made.name(name), made.prop(prop)]);
    }
    let prop = usize::from(made.prop(&prop));
    let mut plain = made.plain;
    plain.steps = vec![Step { rule: rule::SORRY, ..Step::default() }];
    Asked { sheet: plain.bytes(), read: Some(Text::new("", term(&t, strict))), hypotheses: numbers, prop }
}

struct Made {
    rng: Rng,
    plain: Plain,
}

impl Made {
    /// A number of a name: one that it has, or a new one.
    fn name(&mut self, name: &str) -> u16 {
        let known: Vec<usize> =
            (0..self.plain.names.len()).filter(|at| self.plain.names[*at] == name.as_bytes()).collect();
        if !known.is_empty() && self.rng.chance(70) {
            return *self.rng.pick(&known) as u16;
        }
        self.plain.names.push(name.into());
        self.plain.names.len() as u16 - 1
    }

    fn prop(&mut self, prop: &Prop) -> u16 {
        let code = crate::draw::code(&self.formula(prop));
        self.plain.props.push(code);
        self.plain.props.len() as u16 - 1
    }

    fn formula(&mut self, prop: &Prop) -> Formula {
        let (connective, l, r) = match prop {
            Prop::True => return Formula::True,
            Prop::And(l, r) => (Binary::And, l, r),
            Prop::Or(l, r) => (Binary::Or, l, r),
            Prop::Impl(l, r) => (Binary::Impl, l, r),
            Prop::Atom(name, parameters) => {
                let name = self.name(name);
                let parameter = |parameter: &PropParameter| match parameter {
                    PropParameter::Uninstantiated(name) => Parameter::Uninstantiated(self.name(name)),
                    PropParameter::Instantiated(object) => {
                        Parameter::Instantiated(self.name(object.name()), object.unique_id() as u16)
                    }
                };
                return Formula::Atom(name, parameters.iter().map(parameter).collect());
            }
            _ => return Formula::False,
        };
        Formula::binary(connective, self.formula(l), self.formula(r))
    }
}

/// Hypotheses that a sheet's own term may want: the name of each Ident step for what that step concludes.
fn wanted(sheet: &Sheet) -> Vec<[u16; 2]> {
    let idents = sheet.steps.iter().filter(|step| step.rule == rule::IDENT && step.kind == 0);
    let mut wanted: Vec<[u16; 2]> = idents.map(|step| [step.idents[0].0, step.conclusion[0]]).collect();
    wanted.dedup();
    wanted.truncate(40);
    wanted
}

/// A part of a term put in the place of another, or a label in that of another.
fn changed(t: &ProofTerm, rng: &mut Rng) -> ProofTerm {
    let (from, to) = (rng.below(nodes(t)), rng.below(nodes(t)));
    let (old, new) = (part_at(t, to), part_at(t, from));
    let labelled: Vec<Type> = (0..nodes(t)).filter_map(|node| label(part_at(t, node)).cloned()).collect();
    let form = match Form::of(old) {
        Form::Function(name, Some(_)) if !labelled.is_empty() => {
            Form::Function(name, Some(rng.pick(&labelled).clone()))
        }
        Form::Ascription(_) if !labelled.is_empty() => Form::Ascription(rng.pick(&labelled).clone()),
        Form::Fst => Form::Snd,
        Form::Inl => Form::Inr,
        _ => return replaced(t, to, new),
    };
    replaced(t, to, &form.over(parts(old).into_iter().cloned().collect()))
}

/// Sheets whose term has more nodes are not asked with a changed text beside them.
const LARGE: usize = 300;

/// What is asked of a sheet.
pub fn questions(bytes: &[u8], rng: &mut Rng) -> Vec<Asked> {
    let ask =
        |read: Option<Text>, hypotheses: Vec<u16>, prop: usize| Asked { sheet: bytes.to_vec(), read, hypotheses, prop };
    let Ok(sheet) = decode(bytes) else {
        let text = Text::new("", *rng.pick(&["x", "("]));
        return vec![ask(None, vec![], 0), ask(Some(text), vec![9, 9, 9], 9)];
    };
    let (names, props) = (sheet.names.len(), sheet.props.len());
    let root = usize::from(sheet.steps[sheet.root()].conclusion[0]).min(props - 1);
    let wanted = wanted(&sheet);
    let flat = |wanted: &[[u16; 2]]| wanted.concat();
    let mut some = wanted.clone();
    rng.shuffle(&mut some);
    let mut hidden = some.clone();
    if let Some([name, _]) = some.first() {
        let other = [*name, rng.below(props) as u16];
        hidden.insert(if rng.chance(50) { 0 } else { hidden.len() }, other);
    }
    let random = |rng: &mut Rng| [rng.below(names.max(1)) as u16, rng.below(props) as u16];
    let mut all = vec![
        ask(None, vec![], root),
        ask(None, flat(&wanted), root),
        ask(None, flat(&some), sheet.goal),
        ask(None, flat(&hidden), root),
        ask(None, [flat(&some), random(rng).to_vec()].concat(), rng.below(props)),
    ];
    // Numbers that are not the sheet's, also such as wrap to one, and a last name alone.
    let past = *rng.pick(&[props, props + 1, 65_535, 65_536 + root, (1 << 32) + root, usize::MAX]);
    let [name, prop] = random(rng);
    all.push(ask(None, flat(&wanted), past));
    all.push(ask(None, [flat(&wanted), vec![names as u16, prop]].concat(), root));
    all.push(ask(None, [vec![name, props as u16], flat(&wanted)].concat(), root));
    all.push(ask(None, [flat(&wanted), vec![name]].concat(), root));
    let bad = Text::new("", *rng.pick(&["(x)", "x ", "", "in"]));
    all.push(ask(Some(bad), flat(&wanted), past));
    let Ok(export) = export(&sheet) else { return all };
    let own = texts::exported(bytes).expect("the sheet is exported");
    all.push(ask(Some(own.clone()), flat(&wanted), root));
    all.push(ask(Some(own.clone()), flat(&some), rng.below(props)));
    all.push(ask(Some(own.clone()), flat(&wanted), past));
    if nodes(&export.term) <= LARGE {
        for _ in 0..3 {
            let text = term(&changed(&export.term, rng), strict).into_bytes();
            all.push(ask(Some(Text { list: own.list.clone(), text }), flat(&wanted), root));
        }
    }
    all
}

/// Hands over questions of every kind, as long as that goes well: on judgements beside a sheet, on sheets that are nearly sound or
/// sound, and on others, of those at the limits on every fifth.
pub fn asked<E>(seed: u64, count: usize, see: &mut impl FnMut(Asked) -> Result<(), E>) -> Result<(), E> {
    let mut rng = Rng::new(seed, 5);
    for index in 0..count {
        (0..8).try_for_each(|_| see(beside(&mut rng)))?;
        questions(&nearly_sound(seed, index), &mut rng).into_iter().try_for_each(&mut *see)?;
    }
    let kinds =
        [(Kind::Sound, count), (Kind::Random, count / 2), (Kind::Quantified, count / 4), (Kind::Damaged, count / 8)];
    for (kind, count) in kinds {
        for (_, sheet) in Sheets::new(kind, seed, count).iter() {
            questions(&sheet, &mut rng).into_iter().try_for_each(&mut *see)?;
        }
    }
    for (_, sheet) in Sheets::new(Kind::Limits, seed, 0).iter().step_by(5) {
        questions(&sheet, &mut rng).into_iter().try_for_each(&mut *see)?;
    }
    Ok(())
}

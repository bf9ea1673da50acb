//! Judgements that the rules derive, and such as are near to one: hypotheses, a term and a proposition.
use crate::{
    judging::Hypothesis,
    rng::Rng,
    terms::{every, nodes, part_at, replaced, Form},
};
use alice::kernel::{
    checker::identifier::Identifier,
    proof_term::{ProofTerm, Type},
    prop::{Prop, PropParameter},
};

#[derive(Clone, Debug)]
pub struct Judgement {
    pub hypotheses: Vec<Hypothesis>,
    pub term: ProofTerm,
    pub prop: Prop,
}

const NAMES: [&str; 4] = ["u", "v", "w", "x"];

fn parameter(name: &str, id: usize) -> PropParameter {
    PropParameter::Instantiated(Identifier::new(name.into(), id))
}

/// Atoms that are alike: by name, by parameter count, and by an id.
fn atoms() -> Vec<Prop> {
    vec![
        Prop::Atom("A".into(), vec![]),
        Prop::Atom("B".into(), vec![]),
        Prop::Atom("P".into(), vec![parameter("a", 0)]),
        Prop::Atom("P".into(), vec![parameter("a", 1)]),
        Prop::Atom("P".into(), vec![parameter("a", 0), parameter("a", 0)]),
    ]
}

/// A proposition of at most so many connectives.
fn prop(rng: &mut Rng, size: usize) -> Prop {
    if size == 0 || rng.chance(20) {
        return match rng.below(8) {
            0 => Prop::True,
            1 => Prop::False,
            2..=5 => rng.pick(&atoms()[..2]).clone(),
            _ => rng.pick(&atoms()).clone(),
        };
    }
    let left = rng.below(size);
    let (l, r) = (prop(rng, left), prop(rng, size - 1 - left));
    rng.pick(&[Prop::And as Join, Prop::Or, Prop::Impl])(Box::new(l), Box::new(r))
}

type Join = fn(Box<Prop>, Box<Prop>) -> Prop;

/// One who draws terms, with the hypotheses in scope.
struct Drawing {
    rng: Rng,
    scope: Vec<Hypothesis>,
}

impl Drawing {
    fn name(&mut self) -> String {
        (*self.rng.pick(&NAMES)).into()
    }

    fn under(&mut self, name: &str, prop: &Prop, draw: impl FnOnce(&mut Self) -> ProofTerm) -> ProofTerm {
        self.scope.push((name.into(), prop.clone()));
        let drawn = draw(self);
        self.scope.pop();
        drawn
    }

    /// A proposition that the wanted one does not determine: mostly one that a hypothesis has.
    fn side(&mut self) -> Prop {
        if !self.scope.is_empty() && self.rng.chance(60) {
            return self.rng.pick(&self.scope).1.clone();
        }
        let size = self.rng.below(3);
        prop(&mut self.rng, size)
    }

    /// A term that checks against the proposition.
    fn checking(&mut self, wanted: &Prop, budget: usize) -> ProofTerm {
        if budget == 0 {
            return Form::Sorry.over(vec![]);
        }
        let form = self.rng.below(10);
        match (wanted, form) {
            (Prop::Impl(l, r), 0..=5) => {
                let (name, label) = (self.name(), self.rng.chance(30).then(|| Type::Prop((**l).clone())));
                let body = self.under(&name, l, |drawing| drawing.checking(r, budget - 1));
                Form::Function(name, label).over(vec![body])
            }
            (Prop::And(l, r), 0..=5) => {
                let parts = vec![self.checking(l, (budget - 1) / 2), self.checking(r, budget / 2)];
                Form::Pair.over(parts)
            }
            (Prop::Or(l, _), 0..=2) => Form::Inl.over(vec![self.checking(l, budget - 1)]),
            (Prop::Or(_, r), 3..=5) => Form::Inr.over(vec![self.checking(r, budget - 1)]),
            (_, 6) => self.case(budget, |drawing, share| drawing.checking(wanted, share)),
            (_, 7) => Form::Abort.over(vec![self.checking(&Prop::False, budget - 1)]),
            (_, 8) if self.rng.chance(30) => Form::Sorry.over(vec![]),
            _ => self.inferring(wanted, budget),
        }
    }

    fn case(&mut self, budget: usize, branch: impl Fn(&mut Self, usize) -> ProofTerm) -> ProofTerm {
        let (l, r) = (self.side(), self.side());
        let (first, second, share) = (self.name(), self.name(), budget / 3);
        let head = self.inferring(&Prop::Or(l.boxed(), r.boxed()), share);
        let left = self.under(&first, &l, |drawing| branch(drawing, share));
        let right = self.under(&second, &r, |drawing| branch(drawing, share));
        Form::Case(first, second).over(vec![head, left, right])
    }

    /// A term that infers the proposition.
    fn inferring(&mut self, wanted: &Prop, budget: usize) -> ProofTerm {
        let visible = |name: &str| self.scope.iter().rfind(|(bound, _)| bound == name);
        let fitting: Vec<&str> =
            NAMES.into_iter().filter(|name| visible(name).is_some_and(|(_, prop)| prop == wanted)).collect();
        if !fitting.is_empty() && (budget < 2 || self.rng.chance(60)) {
            return Form::Ident((*self.rng.pick(&fitting)).into()).over(vec![]);
        }
        if budget < 2 {
            let body = if *wanted == Prop::True { Form::Unit } else { Form::Sorry };
            return Form::Ascription(Type::Prop(wanted.clone())).over(vec![body.over(vec![])]);
        }
        match (self.rng.below(9), wanted) {
            (0, _) | (1, Prop::True) => match wanted {
                Prop::True => Form::Unit.over(vec![]),
                _ => Form::Ascription(Type::Prop(wanted.clone())).over(vec![self.checking(wanted, budget - 1)]),
            },
            (1..=3, Prop::Impl(l, r)) => {
                let name = self.name();
                let body = self.under(&name, l, |drawing| drawing.inferring(r, budget - 1));
                Form::Function(name, Some(Type::Prop((**l).clone()))).over(vec![body])
            }
            (1..=3, Prop::And(l, r)) => {
                let parts = vec![self.inferring(l, (budget - 1) / 2), self.inferring(r, budget / 2)];
                Form::Pair.over(parts)
            }
            (4, _) => {
                let other = self.side();
                Form::Fst.over(vec![self.inferring(&Prop::And(wanted.boxed(), other.boxed()), budget - 1)])
            }
            (5, _) => {
                let other = self.side();
                Form::Snd.over(vec![self.inferring(&Prop::And(other.boxed(), wanted.boxed()), budget - 1)])
            }
            (6, _) => {
                let left = self.side();
                let function = self.inferring(&Prop::Impl(left.boxed(), wanted.boxed()), budget / 2);
                Form::Application.over(vec![function, self.checking(&left, budget / 2)])
            }
            (7, _) => self.case(budget, |drawing, share| drawing.inferring(wanted, share)),
            _ => Form::Ascription(Type::Prop(wanted.clone())).over(vec![self.checking(wanted, budget - 1)]),
        }
    }

    /// Another form in the place of one, of as many parts, with other names and labels.
    fn other_form(&mut self, form: &Form) -> Form {
        let (name, second) = (self.name(), self.name());
        let label = Type::Prop(self.side());
        match form.parts() {
            0 => self.rng.pick(&[Form::Sorry, Form::Unit, Form::Ident(name.clone()), Form::Ident(name)]).clone(),
            1 => {
                let labelled = Form::Function(name.clone(), Some(label.clone()));
                let forms = [Form::Fst, Form::Snd, Form::Inl, Form::Inr, Form::Abort, Form::Function(name, None)];
                let more = [labelled, Form::Ascription(label)];
                self.rng.pick(&[&forms[..], &more].concat()).clone()
            }
            2 => self.rng.pick(&[Form::Pair, Form::Application]).clone(),
            _ => Form::Case(name, second),
        }
    }

    /// The term with one part changed: another form over the same parts, another part, or another of the term's own parts.
    fn changed(&mut self, term: &ProofTerm) -> ProofTerm {
        let node = self.rng.below(nodes(term));
        let old = part_at(term, node);
        let new = match self.rng.below(5) {
            0 | 1 => {
                let parts = crate::terms::parts(old).into_iter().cloned().collect();
                self.other_form(&Form::of(old)).over(parts)
            }
            2 => part_at(term, self.rng.below(nodes(term))).clone(),
            3 => {
                let wanted = self.side();
                self.checking(&wanted, 3)
            }
            _ => {
                let wanted = self.side();
                self.inferring(&wanted, 3)
            }
        };
        replaced(term, node, &new)
    }
}

/// A judgement by its seed: derivable where `changes` is 0, else with so many parts changed. The term has at most some `budget`
/// nodes and their labels' worth.
pub fn judgement(rng: Rng, budget: usize, changes: usize) -> Judgement {
    let mut drawing = Drawing { rng, scope: vec![] };
    for _ in 0..drawing.rng.below(5) {
        let (name, size) = (drawing.name(), drawing.rng.below(4));
        let prop = prop(&mut drawing.rng, size);
        drawing.scope.push((name, prop));
    }
    let size = drawing.rng.below(5);
    let prop = prop(&mut drawing.rng, size);
    let mut term = drawing.checking(&prop, budget);
    for _ in 0..changes {
        term = drawing.changed(&term);
    }
    Judgement { hypotheses: drawing.scope, term, prop }
}

/// Propositions, and hypotheses of two names, over which every small term is judged.
pub fn small_props() -> Vec<Prop> {
    let [a, b] = [atoms()[0].clone(), atoms()[1].clone()];
    let joined = |join: Join, l: &Prop, r: &Prop| join(l.boxed(), r.boxed());
    vec![
        a.clone(),
        Prop::True,
        Prop::False,
        joined(Prop::And, &a, &b),
        joined(Prop::Or, &a, &b),
        joined(Prop::Impl, &a, &a),
        joined(Prop::Impl, &joined(Prop::Or, &a, &a), &a),
        joined(Prop::And, &joined(Prop::Impl, &a, &b), &Prop::True),
    ]
}

pub fn small_scopes() -> Vec<Vec<Hypothesis>> {
    let props = small_props();
    let of =
        |pairs: &[(&str, usize)]| pairs.iter().map(|(name, prop)| ((*name).into(), props[*prop].clone())).collect();
    vec![of(&[]), of(&[("u", 0), ("v", 4)]), of(&[("u", 7), ("v", 0)]), of(&[("u", 4), ("v", 6), ("u", 2)])]
}

/// The forms of every small term.
fn small_forms() -> Vec<Form> {
    let labels: Vec<Type> = [0, 3, 4, 5].map(|prop| Type::Prop(small_props()[prop].clone())).to_vec();
    let mut forms = vec![
        Form::Sorry,
        Form::Unit,
        Form::Ident("u".into()),
        Form::Ident("v".into()),
        Form::Pair,
        Form::Fst,
        Form::Snd,
        Form::Application,
        Form::Inl,
        Form::Inr,
        Form::Abort,
        Form::Case("u".into(), "v".into()),
        Form::Case("v".into(), "u".into()),
        Form::Function("u".into(), None),
        Form::Function("v".into(), None),
    ];
    forms.extend(labels.iter().map(|label| Form::Function("u".into(), Some(label.clone()))));
    forms.extend(labels.into_iter().map(Form::Ascription));
    forms
}

/// Hands over every small term of so many nodes.
pub fn every_small(nodes: usize, see: &mut impl FnMut(ProofTerm)) {
    every(&small_forms(), nodes, see);
}

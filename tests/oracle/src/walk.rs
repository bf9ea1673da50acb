//! Document 01's own reading of export and comparison, beside the Rust: refusals 12 to 15 with
//! their step, the term, the lists by name number, and refusal 19.
use crate::{
    formula::{Binary, Formula, Parameter, Quantifier},
    sheet::{refuse, refuse_step, rule, Refusal, Sheet, Step},
};
use alice::kernel::proof_term::{
    Abort, Application, Case, Function, Ident, LetIn, OrLeft, OrRight, Pair, ProjectFst, ProjectSnd, ProofTerm, Type,
    TypeAscription,
};

#[derive(Clone, Copy, PartialEq, Eq, Debug)]
pub enum Place {
    Checking,
    Inferring,
}

pub enum Count {
    Any,
    Exactly(usize),
    OneOrMore,
}

/// A premiss's place as the table writes it: the step's own, or a fixed one.
#[derive(Clone, Copy)]
pub enum At {
    M,
    Fixed(Place),
}

#[derive(Clone, Copy, PartialEq, Eq)]
pub enum Label {
    Bare,
    Ascribed,
    Parameter,
    Premiss,
}

/// The table of "Places and labels", one row for each rule.
pub fn row(rule: u8) -> (Count, &'static [At], Label) {
    use At::*;
    use Label::*;
    const C: At = Fixed(Place::Checking);
    const I: At = Fixed(Place::Inferring);
    match rule {
        rule::TRUE_INTRO | rule::IDENT => (Count::Any, &[], Bare),
        rule::SORRY => (Count::Any, &[], Ascribed),
        rule::AND_INTRO => (Count::Exactly(2), &[M, M], Bare),
        rule::AND_ELIM_FST | rule::AND_ELIM_SND => (Count::Exactly(1), &[I], Bare),
        rule::IMPL_INTRO | rule::FORALL_INTRO => (Count::Exactly(1), &[M], Parameter),
        rule::IMPL_ELIM | rule::FORALL_ELIM => (Count::Exactly(2), &[I, C], Bare),
        rule::OR_INTRO_FST | rule::OR_INTRO_SND | rule::FALSUM_ELIM => (Count::Exactly(1), &[C], Ascribed),
        rule::OR_ELIM => (Count::Exactly(3), &[I, M, M], Bare),
        rule::EXISTS_INTRO => (Count::Exactly(2), &[C, C], Ascribed),
        rule::EXISTS_ELIM => (Count::Exactly(2), &[I, M], Bare),
        _ => (Count::OneOrMore, &[M], Premiss),
    }
}

pub fn place(at: At, own: Place) -> Place {
    match at {
        At::M => own,
        At::Fixed(place) => place,
    }
}

#[derive(PartialEq, Eq, Debug)]
pub struct Export {
    pub term: ProofTerm,
    pub atoms: Vec<(u16, u16)>,
    /// Document 01's datatype list: a ∀ label's datatype, and none of a proposition label.
    pub datatypes: Vec<u16>,
    /// Document 02, ticket 3: every datatype of every label.
    pub every_datatype: Vec<u16>,
    /// How many labels the term has.
    pub labels: usize,
    /// How many pairs of brackets strict text has more than plain text: around a case or let on either side of an
    /// application, and around an ascription within a function, a case or a let.
    pub strict_brackets: usize,
}

struct Walk<'a> {
    sheet: &'a Sheet,
    atoms: Vec<(u16, u16)>,
    datatypes: Vec<u16>,
    every_datatype: Vec<u16>,
    labels: usize,
    strict_brackets: usize,
}

pub fn export(sheet: &Sheet) -> Result<Export, Refusal> {
    let mut walk =
        Walk { sheet, atoms: vec![], datatypes: vec![], every_datatype: vec![], labels: 0, strict_brackets: 0 };
    let term = walk.step(sheet.root(), Place::Checking)?;
    let Walk { atoms, datatypes, every_datatype, labels, strict_brackets, .. } = walk;
    Ok(Export { term, atoms, datatypes, every_datatype, labels, strict_brackets })
}

/// Whether strict text alone brackets a part in the term of a step's rule.
fn strictly_bracketed(rule: u8, part: &ProofTerm) -> bool {
    match rule {
        rule::IMPL_ELIM | rule::FORALL_ELIM => matches!(part, ProofTerm::Case(_) | ProofTerm::LetIn(_)),
        rule::IMPL_INTRO | rule::FORALL_INTRO | rule::OR_ELIM | rule::EXISTS_ELIM => {
            matches!(part, ProofTerm::TypeAscription(_))
        }
        _ => false,
    }
}

impl Walk<'_> {
    /// Count on entering, premisses in order, conclusion and lists last.
    fn step(&mut self, i: usize, own: Place) -> Result<ProofTerm, Refusal> {
        let (step, premisses) = (&self.sheet.steps[i], &self.sheet.premisses[i]);
        let (count, places, label) = row(step.rule);
        let right = match count {
            Count::Any => true,
            Count::Exactly(n) => premisses.len() == n,
            Count::OneOrMore => !premisses.is_empty(),
        };
        if !right {
            return refuse_step(12, i, &self.sheet.steps);
        }
        let mut parts = Vec::new();
        for (premiss, at) in premisses.iter().zip(places) {
            parts.push(self.step(*premiss, place(*at, own))?);
        }
        self.strict_brackets += parts.iter().filter(|part| strictly_bracketed(step.rule, part)).count();
        let inferring = own == Place::Inferring;
        let parameter = if inferring && label == Label::Parameter { Some(self.parameter(i)?) } else { None };
        let term = self.term(step, parts, parameter);
        if inferring && label == Label::Ascribed {
            self.ascribed(i, term)
        } else {
            Ok(term)
        }
    }

    /// The term of a step's rule over the terms of the premisses that it reads.
    fn term(&self, step: &Step, parts: Vec<ProofTerm>, param_type: Option<Type>) -> ProofTerm {
        let mut parts = parts.into_iter().map(Box::new);
        let mut next = || parts.next().unwrap();
        let name = |k: usize| self.sheet.name(step.idents[k].0);
        let span = None;
        match step.rule {
            rule::AND_INTRO | rule::EXISTS_INTRO => ProofTerm::Pair(Pair(next(), next(), span)),
            rule::AND_ELIM_FST => ProofTerm::ProjectFst(ProjectFst(next(), span)),
            rule::AND_ELIM_SND => ProofTerm::ProjectSnd(ProjectSnd(next(), span)),
            rule::TRUE_INTRO => ProofTerm::Unit(span),
            rule::IMPL_INTRO | rule::FORALL_INTRO => {
                ProofTerm::Function(Function { param_ident: name(0), param_type, body: next(), span })
            }
            rule::IMPL_ELIM | rule::FORALL_ELIM => {
                let (function, applicant) = (next(), next());
                ProofTerm::Application(Application { function, applicant, span })
            }
            rule::IDENT => ProofTerm::Ident(Ident(name(0), span)),
            rule::OR_INTRO_FST => ProofTerm::OrLeft(OrLeft(next(), span)),
            rule::OR_INTRO_SND => ProofTerm::OrRight(OrRight(next(), span)),
            rule::OR_ELIM => {
                let (head, fst_term, snd_term) = (next(), next(), next());
                ProofTerm::Case(Case { head, fst_ident: name(0), fst_term, snd_ident: name(1), snd_term, span })
            }
            rule::FALSUM_ELIM => ProofTerm::Abort(Abort(next(), span)),
            rule::EXISTS_ELIM => {
                let (head, body) = (next(), next());
                ProofTerm::LetIn(LetIn { head, fst_ident: name(0), snd_ident: name(1), body, span })
            }
            rule::SORRY => ProofTerm::Sorry(span),
            _ => *next(),
        }
    }

    fn ascribed(&mut self, i: usize, term: ProofTerm) -> Result<ProofTerm, Refusal> {
        let Some(prop) = self.sheet.concluded(i) else {
            return refuse_step(13, i, &self.sheet.steps);
        };
        self.labels += 1;
        prop.atoms(&mut self.atoms);
        prop.datatypes(&mut self.every_datatype);
        let ascription = Type::Prop(self.sheet.prop(prop));
        Ok(ProofTerm::TypeAscription(TypeAscription { proof_term: Box::new(term), ascription, span: None }))
    }

    fn parameter(&mut self, i: usize) -> Result<Type, Refusal> {
        let label = match (self.sheet.steps[i].rule, self.sheet.concluded(i)) {
            (rule::IMPL_INTRO, Some(Formula::Binary(Binary::Impl, left, _))) => {
                left.atoms(&mut self.atoms);
                left.datatypes(&mut self.every_datatype);
                Type::Prop(self.sheet.prop(left))
            }
            (rule::FORALL_INTRO, Some(Formula::Quantified(Quantifier::ForAll, _, datatype, _))) => {
                self.datatypes.push(*datatype);
                self.every_datatype.push(*datatype);
                Type::Datatype(self.sheet.name(*datatype))
            }
            (rule::IMPL_INTRO, _) => return refuse_step(14, i, &self.sheet.steps),
            _ => return refuse_step(15, i, &self.sheet.steps),
        };
        self.labels += 1;
        Ok(label)
    }
}

/// Are the conclusions of steps `a` and `b` alpha equal?
pub fn compare(sheet: &Sheet, a: usize, b: usize) -> Result<bool, Refusal> {
    if a.max(b) > sheet.root() {
        return refuse(17, 0);
    }
    match (sheet.concluded(a), sheet.concluded(b)) {
        (Some(l), Some(r)) => alpha(sheet, l, r, &mut vec![]),
        (None, None) => {
            let [object, id, datatype] = sheet.steps[a].conclusion;
            let [other_object, other_id, other_datatype] = sheet.steps[b].conclusion;
            Ok(same(sheet, object, other_object) && id == other_id && same(sheet, datatype, other_datatype))
        }
        _ => Ok(false),
    }
}

fn same(sheet: &Sheet, n: u16, m: u16) -> bool {
    sheet.names[n as usize] == sheet.names[m as usize]
}

/// Are two propositions alpha equal where these objects are bound, the latest last?
pub fn alpha(sheet: &Sheet, l: &Formula, r: &Formula, bound: &mut Vec<(u16, u16)>) -> Result<bool, Refusal> {
    match (l, r) {
        (Formula::True, Formula::True) | (Formula::False, Formula::False) => Ok(true),
        (Formula::Binary(one, l1, l2), Formula::Binary(other, r1, r2)) if one == other => {
            Ok(alpha(sheet, l1, r1, bound)? && alpha(sheet, l2, r2, bound)?)
        }
        (Formula::Quantified(q, x, t, l), Formula::Quantified(p, y, u, r)) if q == p => {
            if !same(sheet, *t, *u) {
                return Ok(false);
            }
            bound.push((*x, *y));
            let answer = alpha(sheet, l, r, bound);
            bound.pop();
            answer
        }
        (Formula::Atom(n, ls), Formula::Atom(m, rs)) => {
            if !same(sheet, *n, *m) {
                return Ok(false);
            }
            if ls.len() != rs.len() {
                return Ok(false);
            }
            for (l, r) in ls.iter().zip(rs) {
                let agree = match (*l, *r) {
                    (Parameter::Uninstantiated(n), Parameter::Uninstantiated(m)) => {
                        let on_its_side = |(x, y): &(u16, u16)| (same(sheet, *x, n), same(sheet, *y, m));
                        match bound.iter().rev().map(on_its_side).find(|(x, y)| *x || *y) {
                            Some((x, y)) => x && y,
                            None => return refuse(19, 0),
                        }
                    }
                    (Parameter::Instantiated(n, i), Parameter::Instantiated(m, j)) => same(sheet, n, m) && i == j,
                    _ => false,
                };
                if !agree {
                    return Ok(false);
                }
            }
            Ok(true)
        }
        _ => Ok(false),
    }
}

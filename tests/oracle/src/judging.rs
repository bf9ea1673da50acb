//! Document 02, ticket 5: a term is judged by the rules of document 01, as two functions that call each other. A no carries
//! the node at which the rules stop: nodes are counted from 0 as they are entered, a node before its parts.
use crate::{
    formula::Formula,
    reading::read,
    sheet::{decode, refuse, Refusal, Sheet},
    terms::{label, parts},
    walk::export,
};
use alice::kernel::{
    proof_term::*,
    prop::{Prop, PropParameter},
};

#[derive(Clone, Copy, PartialEq, Eq, Debug)]
pub enum Verdict {
    Yes,
    /// The node at which the rules stop.
    No(usize),
}

/// Hypotheses, "a later one hiding earlier ones of its name".
pub type Hypothesis = (String, Prop);

/// Do the rules check a term against a proposition?
pub fn check(hypotheses: &[Hypothesis], term: &ProofTerm, prop: &Prop) -> Verdict {
    let mut judge = Judge { scope: hypotheses.to_vec(), entered: 0 };
    judge.check(term, prop).map_or_else(Verdict::No, |()| Verdict::Yes)
}

/// What the rules infer for a term, or the node at which they stop.
pub fn infer(hypotheses: &[Hypothesis], term: &ProofTerm) -> Result<Prop, usize> {
    Judge { scope: hypotheses.to_vec(), entered: 0 }.infer(term)
}

struct Judge {
    scope: Vec<Hypothesis>,
    /// How many nodes were entered.
    entered: usize,
}

fn fits(fits: bool, node: usize) -> Result<(), usize> {
    fits.then_some(()).ok_or(node)
}

impl Judge {
    fn enter(&mut self) -> usize {
        self.entered += 1;
        self.entered - 1
    }

    /// Judges a part under one more hypothesis.
    fn under<T>(&mut self, name: &str, prop: &Prop, judge: impl FnOnce(&mut Self) -> T) -> T {
        self.scope.push((name.into(), prop.clone()));
        let judged = judge(self);
        self.scope.pop();
        judged
    }

    fn infer(&mut self, term: &ProofTerm) -> Result<Prop, usize> {
        let node = self.enter();
        self.infer_at(node, term)
    }

    /// "Inferred: names (latest binding), unit, fst, snd, application with a checked argument, an ascribed term whose body
    /// checks, a labelled function with an inferred body, a pair or case whose parts are inferred (case branches equal)."
    fn infer_at(&mut self, node: usize, term: &ProofTerm) -> Result<Prop, usize> {
        match term {
            ProofTerm::Ident(Ident(name, _)) => {
                let latest = self.scope.iter().rfind(|(bound, _)| bound == name);
                latest.map(|(_, prop)| prop.clone()).ok_or(node)
            }
            ProofTerm::Unit(_) => Ok(Prop::True),
            ProofTerm::ProjectFst(ProjectFst(body, _)) => match self.infer(body)? {
                Prop::And(l, _) => Ok(*l),
                _ => Err(node),
            },
            ProofTerm::ProjectSnd(ProjectSnd(body, _)) => match self.infer(body)? {
                Prop::And(_, r) => Ok(*r),
                _ => Err(node),
            },
            ProofTerm::Application(Application { function, applicant, .. }) => match self.infer(function)? {
                Prop::Impl(l, r) => self.check(applicant, &l).map(|()| *r),
                _ => Err(node),
            },
            ProofTerm::TypeAscription(TypeAscription { proof_term, ascription: Type::Prop(prop), .. }) => {
                self.check(proof_term, prop).map(|()| prop.clone())
            }
            ProofTerm::Function(Function { param_ident, param_type: Some(Type::Prop(left)), body, .. }) => {
                let right = self.under(param_ident, left, |judge| judge.infer(body))?;
                Ok(Prop::Impl(left.boxed(), right.boxed()))
            }
            ProofTerm::Pair(Pair(fst, snd, _)) => Ok(Prop::And(self.infer(fst)?.boxed(), self.infer(snd)?.boxed())),
            ProofTerm::Case(Case { head, fst_ident, fst_term, snd_ident, snd_term, .. }) => {
                let Prop::Or(l, r) = self.infer(head)? else {
                    return Err(node);
                };
                let fst = self.under(fst_ident, &l, |judge| judge.infer(fst_term))?;
                let snd = self.under(snd_ident, &r, |judge| judge.infer(snd_term))?;
                fits(fst == snd, node).map(|()| fst)
            }
            _ => Err(node),
        }
    }

    /// "Checked: function against ⊃ (a label must equal its left side), pair against ∧, injection against ∨, case with checked
    /// branches, abort with its body checked against ⊥, sorry, and whatever infers that same proposition": "a form with a
    /// checked rule of its own is checked by that alone, any other inferred whole and then compared".
    fn check(&mut self, term: &ProofTerm, prop: &Prop) -> Result<(), usize> {
        let node = self.enter();
        match (term, prop) {
            (ProofTerm::Function(Function { param_ident, param_type, body, .. }), Prop::Impl(l, r)) => {
                let label = param_type.as_ref().is_none_or(|label| *label == Type::Prop((**l).clone()));
                fits(label, node)?;
                self.under(param_ident, l, |judge| judge.check(body, r))
            }
            (ProofTerm::Pair(Pair(fst, snd, _)), Prop::And(l, r)) => {
                self.check(fst, l)?;
                self.check(snd, r)
            }
            (ProofTerm::OrLeft(OrLeft(body, _)), Prop::Or(l, _)) => self.check(body, l),
            (ProofTerm::OrRight(OrRight(body, _)), Prop::Or(_, r)) => self.check(body, r),
            (ProofTerm::Function(_) | ProofTerm::Pair(_) | ProofTerm::OrLeft(_) | ProofTerm::OrRight(_), _) => {
                Err(node)
            }
            (ProofTerm::Case(Case { head, fst_ident, fst_term, snd_ident, snd_term, .. }), _) => {
                let Prop::Or(l, r) = self.infer(head)? else {
                    return Err(node);
                };
                self.under(fst_ident, &l, |judge| judge.check(fst_term, prop))?;
                self.under(snd_ident, &r, |judge| judge.check(snd_term, prop))
            }
            (ProofTerm::Abort(Abort(body, _)), _) => self.check(body, &Prop::False),
            (ProofTerm::Sorry(_), _) => Ok(()),
            _ => {
                let inferred = self.infer_at(node, term)?;
                fits(inferred == *prop, node)
            }
        }
    }
}

/// The term that is judged: the sheet's own, or one that is read beside it from a text with a list of datatypes.
#[derive(Clone, Copy, PartialEq, Eq, Debug)]
pub enum Judged<'a> {
    Own,
    Read { list: &'a [u8], text: &'a [u8] },
}

/// The answer on a sheet: names and propositions of the hypotheses by turns, and the proposition, are numbers of the sheet.
pub fn judge(bytes: &[u8], judged: Judged, hypotheses: &[u16], prop: usize) -> Result<Verdict, Refusal> {
    let sheet = decode(bytes)?;
    let term = match judged {
        Judged::Own => export(&sheet)?.term,
        Judged::Read { list, text } => read(list, text).map_or(refuse(20, 0), Ok)?,
    };
    let Some((scope, asked)) = of_sheet(&sheet, hypotheses, prop) else {
        return refuse(31, 0);
    };
    let formulas = scope.iter().map(|(_, formula)| *formula).chain([asked]);
    if !formulas.into_iter().all(Formula::quantifier_free) || !is_checkable(&term) {
        return refuse(22, 0);
    }
    let scope: Vec<Hypothesis> = scope.into_iter().map(|(name, formula)| (name, sheet.prop(formula))).collect();
    Ok(check(&scope, &term, &sheet.prop(asked)))
}

/// The hypotheses and the proposition that numbers name; none where "such a number is not the sheet's", or where the last name has
/// no proposition.
fn of_sheet<'a>(
    sheet: &'a Sheet,
    hypotheses: &[u16],
    prop: usize,
) -> Option<(Vec<(String, &'a Formula)>, &'a Formula)> {
    let hypothesis = |pair: &[u16]| match pair {
        [name, prop] => Some((sheet.names.get(usize::from(*name))?.clone(), sheet.props.get(usize::from(*prop))?)),
        _ => None,
    };
    Some((hypotheses.chunks(2).map(hypothesis).collect::<Option<_>>()?, sheet.props.get(prop)?))
}

/// Has the term no "quantifier, an uninstantiated parameter, a let or a datatype label"?
pub fn is_checkable(term: &ProofTerm) -> bool {
    let label = match label(term) {
        None => true,
        Some(Type::Datatype(_)) => false,
        Some(Type::Prop(prop)) => quantifier_free(prop),
    };
    label && !matches!(term, ProofTerm::LetIn(_)) && parts(term).into_iter().all(is_checkable)
}

fn quantifier_free(prop: &Prop) -> bool {
    match prop {
        Prop::True | Prop::False => true,
        Prop::And(l, r) | Prop::Or(l, r) | Prop::Impl(l, r) => quantifier_free(l) && quantifier_free(r),
        Prop::ForAll { .. } | Prop::Exists { .. } => false,
        Prop::Atom(_, parameters) => parameters.iter().all(|p| matches!(p, PropParameter::Instantiated(_))),
    }
}

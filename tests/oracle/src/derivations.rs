//! The rules of document 01 as a search in which nothing is chosen by form: to every judgement every rule is put, and a
//! judgement is derived where one of them derives it. `judging` has the same rules as two functions.
use crate::{
    judging::{check, infer, Hypothesis, Verdict},
    terms::nodes,
};
use alice::kernel::{proof_term::*, prop::Prop};
use std::collections::HashMap;

/// What each name stands for.
pub type Scope = HashMap<String, Prop>;

/// A rule that infers, with all that it infers for a term.
type Inferring = fn(&Scope, &ProofTerm) -> Vec<Prop>;
/// A rule that checks.
type Checking = fn(&Scope, &ProofTerm, &Prop) -> bool;

const INFERRING: [Inferring; 9] = [
    name_inferred,
    unit_inferred,
    fst_inferred,
    snd_inferred,
    application_inferred,
    ascription_inferred,
    function_inferred,
    pair_inferred,
    case_inferred,
];

const CHECKING: [Checking; 8] = [
    function_checked,
    pair_checked,
    inl_checked,
    inr_checked,
    case_checked,
    abort_checked,
    sorry_checked,
    inferred_checked,
];

/// Every proposition that some rule infers for the term.
pub fn inferred(scope: &Scope, term: &ProofTerm) -> Vec<Prop> {
    let mut all = vec![];
    for prop in INFERRING.iter().flat_map(|rule| rule(scope, term)) {
        if !all.contains(&prop) {
            all.push(prop);
        }
    }
    all
}

/// Does some rule check the term against the proposition?
pub fn checked(scope: &Scope, term: &ProofTerm, prop: &Prop) -> bool {
    CHECKING.iter().any(|rule| rule(scope, term, prop))
}

fn with(scope: &Scope, name: &str, prop: &Prop) -> Scope {
    let mut scope = scope.clone();
    scope.insert(name.into(), prop.clone());
    scope
}

fn name_inferred(scope: &Scope, term: &ProofTerm) -> Vec<Prop> {
    match term {
        ProofTerm::Ident(Ident(name, _)) => scope.get(name).into_iter().cloned().collect(),
        _ => vec![],
    }
}

fn unit_inferred(_: &Scope, term: &ProofTerm) -> Vec<Prop> {
    match term {
        ProofTerm::Unit(_) => vec![Prop::True],
        _ => vec![],
    }
}

fn fst_inferred(scope: &Scope, term: &ProofTerm) -> Vec<Prop> {
    let ProofTerm::ProjectFst(ProjectFst(body, _)) = term else { return vec![] };
    let side = |prop| if let Prop::And(left, _) = prop { Some(*left) } else { None };
    inferred(scope, body).into_iter().filter_map(side).collect()
}

fn snd_inferred(scope: &Scope, term: &ProofTerm) -> Vec<Prop> {
    let ProofTerm::ProjectSnd(ProjectSnd(body, _)) = term else { return vec![] };
    let side = |prop| if let Prop::And(_, right) = prop { Some(*right) } else { None };
    inferred(scope, body).into_iter().filter_map(side).collect()
}

fn application_inferred(scope: &Scope, term: &ProofTerm) -> Vec<Prop> {
    let ProofTerm::Application(Application { function, applicant, .. }) = term else { return vec![] };
    let applied = |prop| match prop {
        Prop::Impl(left, right) if checked(scope, applicant, &left) => Some(*right),
        _ => None,
    };
    inferred(scope, function).into_iter().filter_map(applied).collect()
}

fn ascription_inferred(scope: &Scope, term: &ProofTerm) -> Vec<Prop> {
    match term {
        ProofTerm::TypeAscription(TypeAscription { proof_term, ascription: Type::Prop(prop), .. })
            if checked(scope, proof_term, prop) =>
        {
            vec![prop.clone()]
        }
        _ => vec![],
    }
}

fn function_inferred(scope: &Scope, term: &ProofTerm) -> Vec<Prop> {
    let ProofTerm::Function(Function { param_ident, param_type: Some(Type::Prop(left)), body, .. }) = term else {
        return vec![];
    };
    let rights = inferred(&with(scope, param_ident, left), body).into_iter();
    rights.map(|right| Prop::Impl(left.boxed(), right.boxed())).collect()
}

fn pair_inferred(scope: &Scope, term: &ProofTerm) -> Vec<Prop> {
    let ProofTerm::Pair(Pair(fst, snd, _)) = term else { return vec![] };
    let (lefts, rights) = (inferred(scope, fst), inferred(scope, snd));
    lefts.iter().flat_map(|left| rights.iter().map(|right| Prop::And(left.boxed(), right.boxed()))).collect()
}

fn case_inferred(scope: &Scope, term: &ProofTerm) -> Vec<Prop> {
    let ProofTerm::Case(Case { head, fst_ident, fst_term, snd_ident, snd_term, .. }) = term else { return vec![] };
    let mut all = vec![];
    for prop in inferred(scope, head) {
        if let Prop::Or(left, right) = prop {
            let (fst, snd) = (with(scope, fst_ident, &left), with(scope, snd_ident, &right));
            let seconds = inferred(&snd, snd_term);
            all.extend(inferred(&fst, fst_term).into_iter().filter(|prop| seconds.contains(prop)));
        }
    }
    all
}

fn function_checked(scope: &Scope, term: &ProofTerm, prop: &Prop) -> bool {
    match (term, prop) {
        (ProofTerm::Function(Function { param_ident, param_type, body, .. }), Prop::Impl(left, right)) => {
            let labels = [None, Some(Type::Prop((**left).clone()))];
            labels.contains(param_type) && checked(&with(scope, param_ident, left), body, right)
        }
        _ => false,
    }
}

fn pair_checked(scope: &Scope, term: &ProofTerm, prop: &Prop) -> bool {
    match (term, prop) {
        (ProofTerm::Pair(Pair(fst, snd, _)), Prop::And(l, r)) => checked(scope, fst, l) && checked(scope, snd, r),
        _ => false,
    }
}

fn inl_checked(scope: &Scope, term: &ProofTerm, prop: &Prop) -> bool {
    match (term, prop) {
        (ProofTerm::OrLeft(OrLeft(body, _)), Prop::Or(left, _)) => checked(scope, body, left),
        _ => false,
    }
}

fn inr_checked(scope: &Scope, term: &ProofTerm, prop: &Prop) -> bool {
    match (term, prop) {
        (ProofTerm::OrRight(OrRight(body, _)), Prop::Or(_, right)) => checked(scope, body, right),
        _ => false,
    }
}

fn case_checked(scope: &Scope, term: &ProofTerm, prop: &Prop) -> bool {
    let ProofTerm::Case(Case { head, fst_ident, fst_term, snd_ident, snd_term, .. }) = term else { return false };
    inferred(scope, head).into_iter().any(|head| match head {
        Prop::Or(left, right) => {
            checked(&with(scope, fst_ident, &left), fst_term, prop)
                && checked(&with(scope, snd_ident, &right), snd_term, prop)
        }
        _ => false,
    })
}

fn abort_checked(scope: &Scope, term: &ProofTerm, _: &Prop) -> bool {
    matches!(term, ProofTerm::Abort(Abort(body, _)) if checked(scope, body, &Prop::False))
}

fn sorry_checked(_: &Scope, term: &ProofTerm, _: &Prop) -> bool {
    matches!(term, ProofTerm::Sorry(_))
}

/// "Whatever infers that same proposition."
fn inferred_checked(scope: &Scope, term: &ProofTerm, prop: &Prop) -> bool {
    inferred(scope, term).contains(prop)
}

/// Do the two functions and the search say the same of a judgement, node and all? Whether it is derived, or how they differ.
pub fn agrees(hypotheses: &[Hypothesis], term: &ProofTerm, wanted: Option<&Prop>) -> Result<bool, String> {
    let scope: Scope = hypotheses.iter().cloned().collect();
    let asked = wanted.map_or(Asked::Infer, Asked::Check);
    let node = match wanted {
        Some(wanted) => match check(hypotheses, term, wanted) {
            Verdict::Yes => None,
            Verdict::No(node) => Some(node),
        },
        None => {
            let (one, all) = (infer(hypotheses, term), inferred(&scope, term));
            if all.iter().ne(one.as_ref().ok()) {
                return Err(format!("inferred {one:?}, by search {all:?}"));
            }
            one.err()
        }
    };
    let derives = derived(&scope, term, asked);
    if derives != node.is_none() {
        return Err(format!("stops at {node:?}, derived by search: {derives}"));
    }
    let searched = stop(&scope, term, asked, 0);
    if searched != node {
        return Err(format!("stops at {node:?}, by search at {searched:?}"));
    }
    Ok(derives)
}

/// What is asked of a term: to infer, or to check against a proposition.
#[derive(Clone, Copy)]
enum Asked<'a> {
    Infer,
    Check(&'a Prop),
}

/// The judgement of a part.
struct Posed<'a> {
    scope: Scope,
    part: &'a ProofTerm,
    /// None where it is to be inferred.
    prop: Option<Prop>,
}

impl Posed<'_> {
    fn asked(&self) -> Asked<'_> {
        self.prop.as_ref().map_or(Asked::Infer, Asked::Check)
    }
}

fn derived(scope: &Scope, term: &ProofTerm, asked: Asked) -> bool {
    match asked {
        Asked::Infer => !inferred(scope, term).is_empty(),
        Asked::Check(prop) => checked(scope, term, prop),
    }
}

/// The node at which the rules stop, if they do: of the judgements that are put to the nodes, a node's parts before the node and
/// left to right, the first that no rule derives. A node is numbered from that of the term by what stands before it.
fn stop(scope: &Scope, term: &ProofTerm, asked: Asked, node: usize) -> Option<usize> {
    if derived(scope, term, asked) {
        return None;
    }
    let mut number = node + 1;
    for posed in posed(scope, term, asked) {
        if let Some(stopped) = stop(&posed.scope, posed.part, posed.asked(), number) {
            return Some(stopped);
        }
        number += nodes(posed.part);
    }
    Some(node)
}

/// The judgements that a node puts to its parts, as far as what is known of it fits a rule.
fn posed<'a>(scope: &Scope, term: &'a ProofTerm, asked: Asked) -> Vec<Posed<'a>> {
    let pose = |part: &'a ProofTerm, prop: Option<&Prop>| Posed { scope: scope.clone(), part, prop: prop.cloned() };
    let bound = |name: &str, left: &Prop, part: &'a ProofTerm, prop: Option<&Prop>| Posed {
        scope: with(scope, name, left),
        part,
        prop: prop.cloned(),
    };
    match (term, asked) {
        (ProofTerm::Sorry(_) | ProofTerm::Unit(_) | ProofTerm::Ident(_) | ProofTerm::LetIn(_), _) => vec![],
        (ProofTerm::ProjectFst(ProjectFst(body, _)) | ProofTerm::ProjectSnd(ProjectSnd(body, _)), _) => {
            vec![pose(body, None)]
        }
        (ProofTerm::Application(Application { function, applicant, .. }), _) => {
            let argument = inferred(scope, function).into_iter().find_map(|prop| match prop {
                Prop::Impl(left, _) => Some(pose(applicant, Some(&left))),
                _ => None,
            });
            [pose(function, None)].into_iter().chain(argument).collect()
        }
        (ProofTerm::TypeAscription(TypeAscription { proof_term, ascription, .. }), _) => match ascription {
            Type::Prop(prop) => vec![pose(proof_term, Some(prop))],
            Type::Datatype(_) => vec![],
        },
        (ProofTerm::Function(Function { param_ident, param_type, body, .. }), Asked::Infer) => match param_type {
            Some(Type::Prop(left)) => vec![bound(param_ident, left, body, None)],
            _ => vec![],
        },
        (ProofTerm::Function(Function { param_ident, param_type, body, .. }), Asked::Check(Prop::Impl(l, r))) => {
            let fits = [None, Some(Type::Prop((**l).clone()))].contains(param_type);
            fits.then(|| bound(param_ident, l, body, Some(r))).into_iter().collect()
        }
        (ProofTerm::Pair(Pair(fst, snd, _)), Asked::Infer) => vec![pose(fst, None), pose(snd, None)],
        (ProofTerm::Pair(Pair(fst, snd, _)), Asked::Check(Prop::And(l, r))) => {
            vec![pose(fst, Some(l)), pose(snd, Some(r))]
        }
        (ProofTerm::OrLeft(OrLeft(body, _)), Asked::Check(Prop::Or(l, _))) => vec![pose(body, Some(l))],
        (ProofTerm::OrRight(OrRight(body, _)), Asked::Check(Prop::Or(_, r))) => vec![pose(body, Some(r))],
        (ProofTerm::Abort(Abort(body, _)), Asked::Check(_)) => vec![pose(body, Some(&Prop::False))],
        (ProofTerm::Case(Case { head, fst_ident, fst_term, snd_ident, snd_term, .. }), _) => {
            let prop = if let Asked::Check(prop) = asked { Some(prop) } else { None };
            let branches = inferred(scope, head).into_iter().find_map(|head| match head {
                Prop::Or(l, r) => Some([bound(fst_ident, &l, fst_term, prop), bound(snd_ident, &r, snd_term, prop)]),
                _ => None,
            });
            [pose(head, None)].into_iter().chain(branches.into_iter().flatten()).collect()
        }
        _ => vec![],
    }
}

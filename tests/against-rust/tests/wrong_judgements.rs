//! Libraries that check terms wrongly in one thing each: the comparison must find every one of them.
use against_rust::judgements::{compare, Library, Told};
use alice::kernel::{
    checker::identifier::Identifier,
    proof_term::*,
    prop::{Prop, PropParameter},
};
use oracle::{
    generate::asked::Asked as Question,
    judging::{is_checkable, judge, Hypothesis, Judged, Verdict},
    reading::read,
    sheet::{decode, refuse, Refusal, Sheet},
    terms::{label, nodes, parts, Form},
    walk::export,
};
use std::{
    sync::atomic::{AtomicUsize, Ordering::SeqCst},
    thread,
};

const FAULTS: [&str; 43] = [
    "every judgement is a yes",
    "every judgement is a no",
    "node 0 for every no",
    "nodes from 1",
    "a node after its parts",
    "a label is a node",
    "an ascription is no node",
    "the second part is numbered as the first",
    "the form decides after the parts",
    "forms with a rule of their own are inferred",
    "the earliest binding",
    "a binder hides nothing",
    "bound names stay in scope",
    "the second branch comes first",
    "a pair from the right",
    "an argument before its function",
    "a label is not compared",
    "a label is compared after the body",
    "an unlabelled function is inferred as ⊤ ⊃",
    "branches are not compared",
    "a branch is enough",
    "an injection takes the other side",
    "projections exchanged",
    "abort against what is asked",
    "abort infers ⊥",
    "sorry stops",
    "sorry infers ⊤",
    "an ascription is compared before its body",
    "an ascription is taken at its word",
    "whatever is inferred is taken",
    "an argument is not checked",
    "a unit is everything",
    "ids do not count",
    "parameters do not count",
    "31 after 22",
    "31 before 20",
    "31 before 12",
    "a last name alone is dropped",
    "numbers wrap at 65,536",
    "22 without the hypotheses",
    "22 for visible hypotheses alone",
    "22 without the term",
    "the goal for the given proposition",
];

/// Which fault the library has now; none past the last.
static FAULT: AtomicUsize = AtomicUsize::new(usize::MAX);

fn has(fault: &str) -> bool {
    FAULTS.get(FAULT.load(SeqCst)) == Some(&fault)
}

struct Judge {
    scope: Vec<Hypothesis>,
}

type Stopped<T> = Result<T, usize>;

impl Judge {
    fn under<T>(&mut self, name: &str, prop: &Prop, judge: impl FnOnce(&mut Self) -> T) -> T {
        let at = if has("a binder hides nothing") { 0 } else { self.scope.len() };
        self.scope.insert(at, (name.into(), prop.clone()));
        let judged = judge(self);
        if !has("bound names stay in scope") {
            self.scope.remove(at);
        }
        judged
    }

    /// The node of a part, behind those before it.
    fn part(&self, node: usize, term: &ProofTerm, k: usize) -> usize {
        let before = parts(term)[..k].iter().map(|part| nodes(part)).sum::<usize>();
        node + 1 + if has("the second part is numbered as the first") { 0 } else { before }
    }

    fn infer(&mut self, node: usize, term: &ProofTerm) -> Stopped<Prop> {
        let part = |judge: &Self, k: usize| judge.part(node, term, k);
        match term {
            ProofTerm::Ident(Ident(name, _)) => {
                let named = |(bound, _): &&Hypothesis| bound == name;
                let found = match has("the earliest binding") {
                    true => self.scope.iter().find(named),
                    false => self.scope.iter().rfind(named),
                };
                found.map(|(_, prop)| prop.clone()).ok_or(node)
            }
            ProofTerm::Unit(_) => Ok(Prop::True),
            ProofTerm::ProjectFst(ProjectFst(body, _)) => match self.infer(node + 1, body)? {
                Prop::And(l, r) => Ok(*(if has("projections exchanged") { r } else { l })),
                _ => Err(node),
            },
            ProofTerm::ProjectSnd(ProjectSnd(body, _)) => match self.infer(node + 1, body)? {
                Prop::And(l, r) => Ok(*(if has("projections exchanged") { l } else { r })),
                _ => Err(node),
            },
            ProofTerm::Application(Application { function, applicant, .. }) => {
                if has("an argument before its function") && matches!(**applicant, ProofTerm::Ident(_)) {
                    self.infer(part(self, 1), applicant)?;
                }
                match self.infer(node + 1, function)? {
                    Prop::Impl(_, r) if has("an argument is not checked") => Ok(*r),
                    Prop::Impl(l, r) => self.check(part(self, 1), applicant, &l).map(|()| *r),
                    _ => Err(node),
                }
            }
            ProofTerm::TypeAscription(TypeAscription { proof_term, ascription: Type::Prop(prop), .. }) => {
                if !has("an ascription is taken at its word") {
                    self.check(node + 1, proof_term, prop)?;
                }
                Ok(prop.clone())
            }
            ProofTerm::Function(Function { param_ident, param_type, body, .. }) => {
                let left = match param_type {
                    Some(Type::Prop(left)) => left.clone(),
                    None if has("an unlabelled function is inferred as ⊤ ⊃") => Prop::True,
                    _ => return Err(node),
                };
                let right = self.under(param_ident, &left, |judge| judge.infer(node + 1, body))?;
                Ok(Prop::Impl(left.boxed(), right.boxed()))
            }
            ProofTerm::Pair(Pair(fst, snd, _)) => {
                Ok(Prop::And(self.infer(node + 1, fst)?.boxed(), self.infer(part(self, 1), snd)?.boxed()))
            }
            ProofTerm::Case(Case { head, fst_ident, fst_term, snd_ident, snd_term, .. }) => {
                let Prop::Or(l, r) = self.infer(node + 1, head)? else {
                    return Err(node);
                };
                let (first, second) = (part(self, 1), part(self, 2));
                let fst = self.under(fst_ident, &l, |judge| judge.infer(first, fst_term))?;
                let snd = self.under(snd_ident, &r, |judge| judge.infer(second, snd_term))?;
                (fst == snd || has("branches are not compared")).then_some(fst).ok_or(node)
            }
            ProofTerm::Sorry(_) if has("sorry infers ⊤") => Ok(Prop::True),
            ProofTerm::Abort(Abort(body, _)) if has("abort infers ⊥") => {
                self.check(node + 1, body, &Prop::False).map(|()| Prop::False)
            }
            _ => Err(node),
        }
    }

    fn check(&mut self, node: usize, term: &ProofTerm, prop: &Prop) -> Stopped<()> {
        let part = |judge: &Self, k: usize| judge.part(node, term, k);
        let own = !matches!(term, ProofTerm::Abort(_) | ProofTerm::Sorry(_));
        if own && has("forms with a rule of their own are inferred") {
            if let Ok(inferred) = self.infer(node, term) {
                return (inferred == *prop).then_some(()).ok_or(node);
            }
        }
        match (term, prop) {
            (ProofTerm::Function(Function { param_ident, param_type, body, .. }), Prop::Impl(l, r)) => {
                let fits = param_type.as_ref().is_none_or(|label| *label == Type::Prop((**l).clone()));
                let fits = fits || has("a label is not compared");
                if !fits && !has("a label is compared after the body") {
                    return Err(node);
                }
                self.under(param_ident, l, |judge| judge.check(node + 1, body, r))?;
                fits.then_some(()).ok_or(node)
            }
            (ProofTerm::Pair(Pair(fst, snd, _)), Prop::And(l, r)) => {
                if has("a pair from the right") {
                    self.check(part(self, 1), snd, r)?;
                }
                self.check(node + 1, fst, l)?;
                self.check(part(self, 1), snd, r)
            }
            (ProofTerm::OrLeft(OrLeft(body, _)), Prop::Or(l, r)) => {
                self.check(node + 1, body, if has("an injection takes the other side") { r } else { l })
            }
            (ProofTerm::OrRight(OrRight(body, _)), Prop::Or(_, r)) => self.check(node + 1, body, r),
            (ProofTerm::Function(_) | ProofTerm::Pair(_) | ProofTerm::OrLeft(_) | ProofTerm::OrRight(_), _) => {
                if has("the form decides after the parts") {
                    for (k, inner) in parts(term).into_iter().enumerate() {
                        self.infer(part(self, k), inner)?;
                    }
                }
                Err(node)
            }
            (ProofTerm::Case(Case { head, fst_ident, fst_term, snd_ident, snd_term, .. }), _) => {
                let Prop::Or(l, r) = self.infer(node + 1, head)? else {
                    return Err(node);
                };
                let (first, second) = (part(self, 1), part(self, 2));
                if has("the second branch comes first") {
                    self.under(snd_ident, &r, |judge| judge.check(second, snd_term, prop))?;
                }
                self.under(fst_ident, &l, |judge| judge.check(first, fst_term, prop))?;
                if has("a branch is enough") {
                    return Ok(());
                }
                self.under(snd_ident, &r, |judge| judge.check(second, snd_term, prop))
            }
            (ProofTerm::Abort(Abort(body, _)), _) => {
                self.check(node + 1, body, if has("abort against what is asked") { prop } else { &Prop::False })
            }
            (ProofTerm::Sorry(_), _) => (!has("sorry stops")).then_some(()).ok_or(node),
            (ProofTerm::Unit(_), _) if has("a unit is everything") => Ok(()),
            (ProofTerm::TypeAscription(TypeAscription { ascription: Type::Prop(given), .. }), _)
                if has("an ascription is compared before its body") && given != prop =>
            {
                Err(node)
            }
            _ => {
                let inferred = self.infer(node, term)?;
                (inferred == *prop || has("whatever is inferred is taken")).then_some(()).ok_or(node)
            }
        }
    }
}

/// The number that the wrong library has for a node: of its nodes in another order, or with others counted.
fn numbered(term: &ProofTerm, node: usize) -> usize {
    let mut all = vec![];
    fn walk<'a>(t: &'a ProofTerm, all: &mut Vec<&'a ProofTerm>) {
        all.push(t);
        parts(t).into_iter().for_each(|part| walk(part, all));
    }
    walk(term, &mut all);
    let before = |counts: fn(&ProofTerm) -> bool| all[..node].iter().filter(|t| counts(t)).count();
    match () {
        _ if has("node 0 for every no") => 0,
        _ if has("nodes from 1") => node + 1,
        // A node stands behind all nodes before it but those above it, and behind its own parts.
        _ if has("a node after its parts") => {
            let above = (0..node).filter(|at| at + nodes(all[*at]) > node).count();
            node - above + nodes(all[node]) - 1
        }
        _ if has("a label is a node") => node + before(|t| label(t).is_some()),
        _ if has("an ascription is no node") => node - before(|t| matches!(t, ProofTerm::TypeAscription(_))),
        _ => node,
    }
}

/// A proposition as the wrong library compares it.
fn seen(prop: Prop) -> Prop {
    let part = |part: Box<Prop>| Box::new(seen(*part));
    match prop {
        Prop::And(l, r) => Prop::And(part(l), part(r)),
        Prop::Or(l, r) => Prop::Or(part(l), part(r)),
        Prop::Impl(l, r) => Prop::Impl(part(l), part(r)),
        Prop::Atom(name, _) if has("parameters do not count") => Prop::Atom(name, vec![]),
        Prop::Atom(name, parameters) if has("ids do not count") => {
            let object =
                |parameter: PropParameter| PropParameter::Instantiated(Identifier::new(parameter.name().clone(), 0));
            Prop::Atom(name, parameters.into_iter().map(object).collect())
        }
        prop => prop,
    }
}

fn relabelled(t: &ProofTerm) -> ProofTerm {
    let change = |label: Type| match label {
        Type::Prop(prop) => Type::Prop(seen(prop)),
        label => label,
    };
    let form = match Form::of(t) {
        Form::Function(name, label) => Form::Function(name, label.map(change)),
        Form::Ascription(label) => Form::Ascription(change(label)),
        form => form,
    };
    form.over(parts(t).into_iter().map(relabelled).collect())
}

/// The hypotheses and the proposition by their numbers, or none for 31.
fn numbers(sheet: &Sheet, hypotheses: &[u16], prop: usize) -> Option<(Vec<Hypothesis>, usize)> {
    let lone = hypotheses.len() % 2 == 1 && !has("a last name alone is dropped");
    let pairs = hypotheses.chunks_exact(2);
    let hypothesis = |pair: &[u16]| {
        let name = sheet.names.get(usize::from(pair[0]))?.clone();
        Some((name, sheet.prop(sheet.props.get(usize::from(pair[1]))?)))
    };
    let all: Option<Vec<Hypothesis>> = pairs.map(hypothesis).collect();
    let prop = if has("numbers wrap at 65,536") { prop % 65_536 } else { prop };
    (!lone && prop < sheet.props.len()).then_some((all?, prop))
}

fn free_of_quantifiers(prop: &Prop) -> bool {
    let sorry = Form::Sorry.over(vec![]);
    is_checkable(&Form::Ascription(Type::Prop(prop.clone())).over(vec![sorry]))
}

fn wrong(question: &Question) -> Result<Verdict, Refusal> {
    let Question { sheet: bytes, hypotheses, prop, .. } = question;
    let sheet = decode(bytes)?;
    let given = numbers(&sheet, hypotheses, *prop);
    let (own, early) = (question.judged() == Judged::Own, given.is_none());
    if early && (own && has("31 before 12") || !own && has("31 before 20")) {
        return refuse(31, 0);
    }
    let term = match question.judged() {
        Judged::Own => export(&sheet)?.term,
        Judged::Read { list, text } => read(list, text).map_or(refuse(20, 0), Ok)?,
    };
    if has("31 after 22") && !is_checkable(&term) {
        return refuse(22, 0);
    }
    let Some((scope, mut prop)) = given else {
        return refuse(31, 0);
    };
    if has("the goal for the given proposition") {
        prop = sheet.goal;
    }
    let asked = sheet.prop(&sheet.props[prop]);
    let visible = |at: usize| scope[at + 1..].iter().all(|(name, _)| *name != scope[at].0);
    let looked_at = |at: &usize| match () {
        _ if has("22 without the hypotheses") => false,
        _ if has("22 for visible hypotheses alone") => visible(*at),
        _ => true,
    };
    let free = (0..scope.len()).filter(looked_at).all(|at| free_of_quantifiers(&scope[at].1));
    if !free || !free_of_quantifiers(&asked) || !is_checkable(&term) && !has("22 without the term") {
        return refuse(22, 0);
    }
    let scope = scope.into_iter().map(|(name, prop)| (name, seen(prop))).collect();
    let (term, asked) = (relabelled(&term), seen(asked));
    let mut checker = Judge { scope };
    Ok(match checker.check(0, &term, &asked) {
        _ if has("every judgement is a yes") => Verdict::Yes,
        _ if has("every judgement is a no") => Verdict::No(0),
        Ok(()) => Verdict::Yes,
        Err(node) => Verdict::No(numbered(&term, node)),
    })
}

const LIBRARY: Library = Library { judge: |question| Told::of(&wrong(question)), beside: true };

#[test]
fn every_wrong_checker_is_found() {
    let run = || {
        for (fault, what) in FAULTS.iter().enumerate() {
            FAULT.store(fault, SeqCst);
            assert!(compare(&LIBRARY, 5, 150).is_err(), "not found: {what}");
        }
        FAULT.store(usize::MAX, SeqCst);
        let asked = compare(&LIBRARY, 5, 150).unwrap_or_else(|difference| panic!("{difference}"));
        println!("{asked}");
        assert!(asked.yes > 500 && asked.no > 500 && asked.refused[&31] > 100 && asked.refused[&22] > 100);
        let smallest = oracle::draw::smallest().bytes();
        assert_eq!(judge(&smallest, Judged::Own, &[], 0), Ok(Verdict::Yes));
    };
    thread::Builder::new().stack_size(1 << 28).spawn(run).unwrap().join().unwrap();
}

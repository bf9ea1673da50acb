//! Terms by their forms: taken apart, put together, one part replaced by another, and every term of so many nodes.
use alice::kernel::proof_term::*;

/// A term without its parts.
#[derive(Clone, PartialEq, Eq, Debug)]
pub enum Form {
    Sorry,
    Unit,
    Ident(String),
    Pair,
    Fst,
    Snd,
    Function(String, Option<Type>),
    Application,
    LetIn(String, String),
    Inl,
    Inr,
    Case(String, String),
    Abort,
    Ascription(Type),
}

impl Form {
    /// How many parts a term of this form has.
    pub fn parts(&self) -> usize {
        match self {
            Form::Sorry | Form::Unit | Form::Ident(_) => 0,
            Form::Fst | Form::Snd | Form::Inl | Form::Inr | Form::Abort | Form::Function(..) | Form::Ascription(_) => 1,
            Form::Pair | Form::Application | Form::LetIn(..) => 2,
            Form::Case(..) => 3,
        }
    }

    /// The term of this form over its parts, left to right.
    pub fn over(self, parts: Vec<ProofTerm>) -> ProofTerm {
        let span = None;
        let mut parts = parts.into_iter().map(Box::new);
        let mut part = || parts.next().expect("a form has its parts");
        match self {
            Form::Sorry => ProofTerm::Sorry(span),
            Form::Unit => ProofTerm::Unit(span),
            Form::Ident(name) => ProofTerm::Ident(Ident(name, span)),
            Form::Pair => ProofTerm::Pair(Pair(part(), part(), span)),
            Form::Fst => ProofTerm::ProjectFst(ProjectFst(part(), span)),
            Form::Snd => ProofTerm::ProjectSnd(ProjectSnd(part(), span)),
            Form::Function(param_ident, param_type) => {
                ProofTerm::Function(Function { param_ident, param_type, body: part(), span })
            }
            Form::Application => {
                let (function, applicant) = (part(), part());
                ProofTerm::Application(Application { function, applicant, span })
            }
            Form::LetIn(fst_ident, snd_ident) => {
                let (head, body) = (part(), part());
                ProofTerm::LetIn(LetIn { fst_ident, snd_ident, head, body, span })
            }
            Form::Inl => ProofTerm::OrLeft(OrLeft(part(), span)),
            Form::Inr => ProofTerm::OrRight(OrRight(part(), span)),
            Form::Case(fst_ident, snd_ident) => {
                let (head, fst_term, snd_term) = (part(), part(), part());
                ProofTerm::Case(Case { head, fst_ident, fst_term, snd_ident, snd_term, span })
            }
            Form::Abort => ProofTerm::Abort(Abort(part(), span)),
            Form::Ascription(ascription) => {
                ProofTerm::TypeAscription(TypeAscription { proof_term: part(), ascription, span })
            }
        }
    }

    pub fn of(t: &ProofTerm) -> Form {
        match t {
            ProofTerm::Sorry(_) => Form::Sorry,
            ProofTerm::Unit(_) => Form::Unit,
            ProofTerm::Ident(Ident(name, _)) => Form::Ident(name.clone()),
            ProofTerm::Pair(_) => Form::Pair,
            ProofTerm::ProjectFst(_) => Form::Fst,
            ProofTerm::ProjectSnd(_) => Form::Snd,
            ProofTerm::Function(f) => Form::Function(f.param_ident.clone(), f.param_type.clone()),
            ProofTerm::Application(_) => Form::Application,
            ProofTerm::LetIn(l) => Form::LetIn(l.fst_ident.clone(), l.snd_ident.clone()),
            ProofTerm::OrLeft(_) => Form::Inl,
            ProofTerm::OrRight(_) => Form::Inr,
            ProofTerm::Case(c) => Form::Case(c.fst_ident.clone(), c.snd_ident.clone()),
            ProofTerm::Abort(_) => Form::Abort,
            ProofTerm::TypeAscription(a) => Form::Ascription(a.ascription.clone()),
        }
    }
}

/// The parts of a term, left to right.
pub fn parts(t: &ProofTerm) -> Vec<&ProofTerm> {
    match t {
        ProofTerm::Sorry(_) | ProofTerm::Unit(_) | ProofTerm::Ident(_) => vec![],
        ProofTerm::Pair(Pair(fst, snd, _)) => vec![fst, snd],
        ProofTerm::Function(f) => vec![&f.body],
        ProofTerm::Application(a) => vec![&a.function, &a.applicant],
        ProofTerm::LetIn(l) => vec![&l.head, &l.body],
        ProofTerm::Case(c) => vec![&c.head, &c.fst_term, &c.snd_term],
        ProofTerm::TypeAscription(a) => vec![&a.proof_term],
        ProofTerm::ProjectFst(ProjectFst(body, _))
        | ProofTerm::ProjectSnd(ProjectSnd(body, _))
        | ProofTerm::OrLeft(OrLeft(body, _))
        | ProofTerm::OrRight(OrRight(body, _))
        | ProofTerm::Abort(Abort(body, _)) => vec![body],
    }
}

/// The label of a function or an ascription.
pub fn label(t: &ProofTerm) -> Option<&Type> {
    match t {
        ProofTerm::Function(f) => f.param_type.as_ref(),
        ProofTerm::TypeAscription(a) => Some(&a.ascription),
        _ => None,
    }
}

pub fn nodes(t: &ProofTerm) -> usize {
    1 + parts(t).into_iter().map(nodes).sum::<usize>()
}

/// A leaf nests 1.
pub fn nesting(t: &ProofTerm) -> usize {
    1 + parts(t).into_iter().map(nesting).max().unwrap_or(0)
}

/// The part at a node, counted from 0, a node before its parts.
pub fn part_at(t: &ProofTerm, node: usize) -> &ProofTerm {
    if node == 0 {
        return t;
    }
    let mut before = 1;
    for part in parts(t) {
        if node < before + nodes(part) {
            return part_at(part, node - before);
        }
        before += nodes(part);
    }
    panic!("a term has no node past its last")
}

/// The term with another in the place of the part at a node.
pub fn replaced(t: &ProofTerm, node: usize, by: &ProofTerm) -> ProofTerm {
    if node == 0 {
        return by.clone();
    }
    let mut before = 1;
    let replaced = parts(t).into_iter().map(|part| {
        let (start, end) = (before, before + nodes(part));
        before = end;
        if (start..end).contains(&node) {
            replaced(part, node - start, by)
        } else {
            part.clone()
        }
    });
    Form::of(t).over(replaced.collect())
}

/// Hands over every term of so many nodes whose forms are among these.
pub fn every(forms: &[Form], nodes: usize, see: &mut impl FnMut(ProofTerm)) {
    let mut smaller: Vec<Vec<ProofTerm>> = vec![vec![]];
    for size in 1..nodes {
        let mut all = vec![];
        of_size(forms, size, &smaller, &mut |t| all.push(t));
        smaller.push(all);
    }
    of_size(forms, nodes, &smaller, see);
}

/// Every term of a size, those of each smaller size being given.
fn of_size(forms: &[Form], size: usize, smaller: &[Vec<ProofTerm>], see: &mut impl FnMut(ProofTerm)) {
    for form in forms {
        if form.parts() == 0 && size == 1 {
            see(form.clone().over(vec![]));
        }
        for sizes in shares(size - 1, form.parts()) {
            each_choice(&sizes, smaller, &mut vec![], &mut |parts| see(form.clone().over(parts.to_vec())));
        }
    }
}

/// The ways of dividing so many nodes among so many parts, at least one for each.
fn shares(nodes: usize, parts: usize) -> Vec<Vec<usize>> {
    match parts {
        0 => vec![],
        1 if nodes > 0 => vec![vec![nodes]],
        _ => (1..nodes)
            .flat_map(|first| {
                shares(nodes - first, parts - 1).into_iter().map(move |rest| [vec![first], rest].concat())
            })
            .collect(),
    }
}

fn each_choice(
    sizes: &[usize],
    smaller: &[Vec<ProofTerm>],
    chosen: &mut Vec<ProofTerm>,
    see: &mut impl FnMut(&[ProofTerm]),
) {
    let Some((size, rest)) = sizes.split_first() else {
        return see(chosen);
    };
    for part in &smaller[*size] {
        chosen.push(part.clone());
        each_choice(rest, smaller, chosen, see);
        chosen.pop();
    }
}

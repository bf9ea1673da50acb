//! Short words for writing a sheet by hand, and two of document 01's drawings.
use crate::{
    formula::{Binary, Formula, Quantifier},
    sheet::{rule, Plain, Step},
};

pub fn atom(name: u16) -> Formula {
    Formula::Atom(name, vec![])
}

pub fn and(l: Formula, r: Formula) -> Formula {
    Formula::binary(Binary::And, l, r)
}

pub fn or(l: Formula, r: Formula) -> Formula {
    Formula::binary(Binary::Or, l, r)
}

pub fn implies(l: Formula, r: Formula) -> Formula {
    Formula::binary(Binary::Impl, l, r)
}

pub fn forall(object: u16, datatype: u16, body: Formula) -> Formula {
    Formula::Quantified(Quantifier::ForAll, object, datatype, Box::new(body))
}

pub fn exists(object: u16, datatype: u16, body: Formula) -> Formula {
    Formula::Quantified(Quantifier::Exists, object, datatype, Box::new(body))
}

pub fn code(f: &Formula) -> Vec<u8> {
    let mut out = Vec::new();
    f.code(&mut |n| n, &mut out);
    out
}

/// A step in column 0 that concludes a proposition; its identifiers are names with id 0.
pub fn step(rule: u8, count: usize, names: &[u16], prop: u16) -> Step {
    let mut idents = [(0, 0); 2];
    for (to, name) in idents.iter_mut().zip(names) {
        to.0 = *name;
    }
    Step { rule, count: count as u8, idents, kind: 0, conclusion: [prop, 0, 0], column: 0 }
}

/// The same step concluding that the named object is of a datatype.
pub fn judging(step: Step, object: u16, datatype: u16) -> Step {
    Step { kind: 1, conclusion: [object, 0, datatype], ..step }
}

/// The same step drawn in another column.
pub fn in_column(column: u16, step: Step) -> Step {
    Step { column, ..step }
}

pub fn plain(names: &[&str], props: &[Formula], steps: &[Step]) -> Plain {
    Plain {
        names: names.iter().map(|n| n.as_bytes().to_vec()).collect(),
        props: props.iter().map(code).collect(),
        steps: steps.to_vec(),
        goal: 0,
    }
}

pub fn smallest() -> Plain {
    plain(&[], &[Formula::True], &[step(rule::TRUE_INTRO, 0, &[], 0)])
}

/// The second drawing: ImplIntro u, OrIntroFst, Ident u; goal A ⊃ A ∨ B.
pub fn second() -> Plain {
    let (a, b) = (atom(0), atom(1));
    let props = [implies(a.clone(), or(a.clone(), b.clone())), or(a.clone(), b), a];
    let steps =
        [step(rule::IDENT, 0, &[2], 2), step(rule::OR_INTRO_FST, 1, &[], 1), step(rule::IMPL_INTRO, 1, &[2], 0)];
    plain(&["A", "B", "u"], &props, &steps)
}

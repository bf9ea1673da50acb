//! The brackets of plain and strict text, part by part, on terms made by hand: no sheet has an ascribed argument.
use alice::kernel::proof_term::*;
use oracle::text::{plain, strict, term};

type Whole = fn(Box<ProofTerm>) -> ProofTerm;

fn name(name: &str) -> Box<ProofTerm> {
    Box::new(ProofTerm::Ident(Ident(name.into(), None)))
}

fn function(body: Box<ProofTerm>) -> ProofTerm {
    ProofTerm::Function(Function { param_ident: "u".into(), param_type: None, body, span: None })
}

fn application(function: Box<ProofTerm>, applicant: Box<ProofTerm>) -> ProofTerm {
    ProofTerm::Application(Application { function, applicant, span: None })
}

fn case(head: Box<ProofTerm>, fst_term: Box<ProofTerm>, snd_term: Box<ProofTerm>) -> ProofTerm {
    let (fst_ident, snd_ident) = ("x".into(), "y".into());
    ProofTerm::Case(Case { head, fst_ident, fst_term, snd_ident, snd_term, span: None })
}

fn let_in(head: Box<ProofTerm>, body: Box<ProofTerm>) -> ProofTerm {
    ProofTerm::LetIn(LetIn { head, fst_ident: "x".into(), snd_ident: "y".into(), body, span: None })
}

fn ascription(proof_term: Box<ProofTerm>) -> ProofTerm {
    let ascription = Type::Datatype("A".into());
    ProofTerm::TypeAscription(TypeAscription { proof_term, ascription, span: None })
}

/// The parts, in the order of the columns below.
fn parts() -> [(&'static str, ProofTerm); 6] {
    [
        ("case h of inl x => a, inr y => b", case(name("h"), name("a"), name("b"))),
        ("let (x, y) = h in b", let_in(name("h"), name("b"))),
        ("sorry: A", ascription(Box::new(ProofTerm::Sorry(None)))),
        ("fn u => b", function(name("b"))),
        ("f c", application(name("f"), name("c"))),
        ("b", *name("b")),
    ]
}

/// Each position with the text around its part, and for a case, a let, an ascription, a function, an application and a
/// name there: `b` bracketed by `Display`, `s` in strict text alone, `-` not at all.
const ROWS: &[(&str, &str, Whole)] = &[
    ("_", "------", |part| *part),
    ("_ c", "ssbb--", |part| application(part, name("c"))),
    ("f _", "ssbbb-", |part| application(name("f"), part)),
    ("fst _", "bbbbb-", |part| ProofTerm::ProjectFst(ProjectFst(part, None))),
    ("snd _", "bbbbb-", |part| ProofTerm::ProjectSnd(ProjectSnd(part, None))),
    ("inl _", "bbbbb-", |part| ProofTerm::OrLeft(OrLeft(part, None))),
    ("inr _", "bbbbb-", |part| ProofTerm::OrRight(OrRight(part, None))),
    ("abort _", "bbbbb-", |part| ProofTerm::Abort(Abort(part, None))),
    ("_: A", "bbbb--", ascription),
    ("(_, b)", "------", |part| ProofTerm::Pair(Pair(part, name("b"), None))),
    ("(a, _)", "------", |part| ProofTerm::Pair(Pair(name("a"), part, None))),
    ("fn u => _", "--s---", function),
    ("case _ of inl x => a, inr y => b", "--s---", |part| case(part, name("a"), name("b"))),
    ("case h of inl x => _, inr y => b", "--s---", |part| case(name("h"), part, name("b"))),
    ("case h of inl x => a, inr y => _", "--s---", |part| case(name("h"), name("a"), part)),
    ("let (x, y) = _ in b", "--s---", |part| let_in(part, name("b"))),
    ("let (x, y) = h in _", "--s---", |part| let_in(name("h"), part)),
];

#[test]
fn every_part_in_every_position() {
    for (around, marks, whole) in ROWS {
        for (mark, (text, part)) in marks.chars().zip(parts()) {
            let bare = around.replace('_', text);
            let bracketed = around.replace('_', &format!("({text})"));
            let whole = whole(Box::new(part));
            assert_eq!(whole.to_string(), term(&whole, plain));
            assert_eq!(term(&whole, plain), if mark == 'b' { &bracketed } else { &bare }.as_str());
            assert_eq!(term(&whole, strict), if mark == '-' { &bare } else { &bracketed }.as_str());
        }
    }
}

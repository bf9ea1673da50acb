//! The Rust tree that a sheet stands for.
use crate::{
    formula::{Binary, Formula, Parameter, Quantifier},
    sheet::{rule, Sheet, Step},
};
use alice::kernel::{
    checker::identifier::Identifier,
    proof_tree::{ProofTree, ProofTreeConclusion, ProofTreeRule},
    prop::{Prop, PropParameter},
};

impl Sheet {
    fn ident(&self, (name, id): (u16, u16)) -> Identifier {
        Identifier::new(self.name(name), id as usize)
    }

    pub fn prop(&self, f: &Formula) -> Prop {
        let boxed = |f: &Formula| Box::new(self.prop(f));
        match f {
            Formula::True => Prop::True,
            Formula::False => Prop::False,
            Formula::Binary(Binary::And, l, r) => Prop::And(boxed(l), boxed(r)),
            Formula::Binary(Binary::Or, l, r) => Prop::Or(boxed(l), boxed(r)),
            Formula::Binary(Binary::Impl, l, r) => Prop::Impl(boxed(l), boxed(r)),
            Formula::Atom(n, params) => {
                let param = |p: &Parameter| match *p {
                    Parameter::Uninstantiated(n) => PropParameter::Uninstantiated(self.name(n)),
                    Parameter::Instantiated(n, id) => PropParameter::Instantiated(self.ident((n, id))),
                };
                Prop::Atom(self.name(*n), params.iter().map(param).collect())
            }
            Formula::Quantified(q, object, datatype, body) => {
                let (object_ident, object_type_ident, body) = (self.name(*object), self.name(*datatype), boxed(body));
                match q {
                    Quantifier::ForAll => Prop::ForAll { object_ident, object_type_ident, body },
                    Quantifier::Exists => Prop::Exists { object_ident, object_type_ident, body },
                }
            }
        }
    }

    pub fn conclusion(&self, step: usize) -> ProofTreeConclusion {
        let [name, id, datatype] = self.steps[step].conclusion;
        match self.concluded(step) {
            Some(f) => ProofTreeConclusion::PropIsTrue(self.prop(f)),
            None => ProofTreeConclusion::TypeJudgement(self.ident((name, id)), self.name(datatype)),
        }
    }

    pub fn rule(&self, step: usize) -> ProofTreeRule {
        let Step { rule, idents, .. } = self.steps[step];
        let [first, second] = idents;
        use ProofTreeRule::*;
        match rule {
            rule::AND_INTRO => AndIntro,
            rule::AND_ELIM_FST => AndElimFst,
            rule::AND_ELIM_SND => AndElimSnd,
            rule::TRUE_INTRO => TrueIntro,
            rule::IMPL_INTRO => ImplIntro(self.ident(first)),
            rule::IMPL_ELIM => ImplElim,
            rule::IDENT => Ident(self.ident(first)),
            rule::OR_INTRO_FST => OrIntroFst,
            rule::OR_INTRO_SND => OrIntroSnd,
            rule::OR_ELIM => OrElim(self.ident(first), self.ident(second)),
            rule::FALSUM_ELIM => FalsumElim,
            rule::FORALL_INTRO => ForAllIntro(self.ident(first)),
            rule::FORALL_ELIM => ForAllElim,
            rule::EXISTS_INTRO => ExistsIntro,
            rule::EXISTS_ELIM => ExistsElim(self.ident(first), self.ident(second)),
            rule::SORRY => Sorry,
            _ => AlphaEquivalent,
        }
    }

    pub fn tree(&self, step: usize) -> ProofTree {
        ProofTree {
            premisses: self.premisses[step].iter().map(|i| self.tree(*i)).collect(),
            rule: self.rule(step),
            conclusion: self.conclusion(step),
        }
    }
}

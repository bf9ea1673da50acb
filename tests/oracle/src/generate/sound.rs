//! Sound derivations without quantifiers, from one step to the limits.
use super::draft::{scale, Conclusion, Draft};
use crate::{
    formula::{Binary, Formula},
    rng::Rng,
    sheet::{rule, NAMES, STEP_NESTING},
};

/// What a sound derivation leans to.
struct Style {
    atoms: Vec<(u16, usize)>,
    /// Chance to stop before the budget is spent.
    leaf: usize,
    skewed: bool,
    sorry: usize,
    /// Connectives of a side proposition.
    side: usize,
    /// Weights: AlphaEquivalent, introduction, projection, application, case, abort.
    weights: [usize; 6],
}

/// Name, id and proposition.
#[derive(Clone)]
struct Hypothesis {
    ident: (u16, u16),
    prop: Formula,
}

type Scope = Vec<Hypothesis>;

/// A rule, its identifiers, and its premisses with the hypothesis that each is under.
struct Inference {
    rule: u8,
    idents: Vec<(u16, u16)>,
    premisses: Vec<(Formula, Option<Hypothesis>)>,
}

impl Inference {
    fn new<const N: usize>(rule: u8, premisses: [Formula; N]) -> Self {
        Inference { rule, idents: vec![], premisses: premisses.into_iter().map(|premiss| (premiss, None)).collect() }
    }

    /// Puts a premiss under a hypothesis, which is the rule's next identifier.
    fn under(mut self, premiss: usize, ident: (u16, u16), prop: Formula) -> Self {
        self.idents.push(ident);
        self.premisses[premiss].1 = Some(Hypothesis { ident, prop });
        self
    }
}

pub fn sound(mut rng: Rng) -> Vec<u8> {
    let budget = scale(&mut rng);
    let words = match rng.below(10) {
        0 => rng.range(0, 1),
        1..=6 => rng.range(2, 12),
        7 | 8 => rng.range(8, 40),
        _ => rng.range(40, NAMES),
    };
    let mut draft = Draft::new(rng, words);
    let style = draft.style(budget);
    let size = draft.rng.below(7);
    let root = draft.formula(size, &style.atoms, &mut None, 0);
    let number = draft.intern(&root).unwrap();
    if draft.rng.chance(15) {
        let size = draft.rng.below(20);
        let other = draft.formula(size, &style.atoms, &mut None, 0);
        draft.intern(&other);
    }
    draft.prove(&style, &root, budget, STEP_NESTING, &mut vec![]);
    let goal = if draft.rng.chance(60) { number } else { draft.rng.below(draft.props.len()) as u16 };
    draft.finish(goal)
}

impl Draft {
    fn style(&mut self, budget: usize) -> Style {
        let parameters = self.rng.chance(30);
        Style {
            atoms: self.atoms(4, parameters),
            leaf: if budget > 250 { 0 } else { *self.rng.pick(&[0, 0, 5, 20]) },
            skewed: self.rng.chance(40),
            sorry: *self.rng.pick(&[0, 10, 50]),
            side: if budget > 60 { 1 } else { self.rng.range(0, 3) },
            weights: *self.rng.pick(&[
                [1, 8, 3, 3, 3, 1],
                [1, 8, 6, 1, 1, 1],
                [1, 8, 1, 6, 1, 1],
                [1, 8, 2, 2, 6, 1],
                [4, 2, 2, 2, 2, 2],
            ]),
        }
    }

    /// Adds a sound tree of at most `budget` steps for a proposition that is interned.
    fn prove(&mut self, style: &Style, goal: &Formula, budget: usize, depth: usize, scope: &mut Scope) {
        if budget > 1 && depth > 1 && !self.rng.chance(style.leaf) {
            for _ in 0..6 {
                if self.attempt(style, goal, budget - 1, depth - 1, scope) {
                    return;
                }
            }
        }
        self.close(style, goal, scope);
    }

    /// A step without premisses.
    fn close(&mut self, style: &Style, goal: &Formula, scope: &Scope) {
        let conclusion = Conclusion::Prop(self.intern(goal).unwrap());
        let fitting: Vec<(u16, u16)> = scope.iter().filter(|h| h.prop == *goal).map(|h| h.ident).collect();
        let sorry = self.rng.chance(style.sorry);
        if *goal == Formula::True && !sorry && (fitting.is_empty() || self.rng.chance(50)) {
            self.step(rule::TRUE_INTRO, 0, &[], conclusion);
        } else if !fitting.is_empty() && !sorry {
            let ident = *self.rng.pick(&fitting);
            self.step(rule::IDENT, 0, &[ident], conclusion);
        } else {
            self.step(rule::SORRY, 0, &[], conclusion);
        }
    }

    /// One random rule over `budget` further steps; false, and nothing done, if it does not fit.
    fn attempt(&mut self, style: &Style, goal: &Formula, budget: usize, depth: usize, scope: &mut Scope) -> bool {
        let Some(Inference { rule, idents, premisses }) = self.inference(style, goal, scope) else {
            return false;
        };
        if premisses.len() > budget || !premisses.iter().all(|(f, _)| self.intern(f).is_some()) {
            return false;
        }
        let shares = self.split(budget, premisses.len(), style.skewed);
        for ((premiss, hypothesis), share) in premisses.iter().zip(shares) {
            scope.extend(hypothesis.clone());
            self.prove(style, premiss, share, depth, scope);
            scope.truncate(scope.len() - hypothesis.iter().len());
        }
        let conclusion = Conclusion::Prop(self.intern(goal).unwrap());
        self.step(rule, premisses.len(), &idents, conclusion);
        true
    }

    fn inference(&mut self, style: &Style, goal: &Formula, scope: &Scope) -> Option<Inference> {
        match self.rng.weighted(&style.weights) {
            0 => Some(Inference::new(rule::ALPHA, [goal.clone()])),
            1 => self.introduction(goal, scope),
            2 => Some(self.projection(style, goal, scope)),
            3 => Some(self.application(style, goal, scope)),
            4 => self.case(style, goal, scope),
            _ => Some(Inference::new(rule::FALSUM_ELIM, [Formula::False])),
        }
    }

    fn introduction(&mut self, goal: &Formula, scope: &Scope) -> Option<Inference> {
        let Formula::Binary(connective, l, r) = goal else { return None };
        let (l, r) = ((**l).clone(), (**r).clone());
        Some(match connective {
            Binary::And => Inference::new(rule::AND_INTRO, [l, r]),
            Binary::Or if self.rng.chance(50) => Inference::new(rule::OR_INTRO_FST, [l]),
            Binary::Or => Inference::new(rule::OR_INTRO_SND, [r]),
            Binary::Impl => Inference::new(rule::IMPL_INTRO, [r]).under(0, self.fresh(scope)?, l),
        })
    }

    fn projection(&mut self, style: &Style, goal: &Formula, scope: &Scope) -> Inference {
        let first = self.rng.chance(50);
        let whole =
            |f: &Formula| matches!(f, Formula::Binary(Binary::And, l, r) if **(if first { l } else { r }) == *goal);
        let conjunction = self.known(scope, whole).unwrap_or_else(|| {
            let (l, r) = (goal.clone(), self.side(style, scope));
            let (l, r) = if first { (l, r) } else { (r, l) };
            Formula::binary(Binary::And, l, r)
        });
        Inference::new(if first { rule::AND_ELIM_FST } else { rule::AND_ELIM_SND }, [conjunction])
    }

    fn application(&mut self, style: &Style, goal: &Formula, scope: &Scope) -> Inference {
        let whole = |f: &Formula| matches!(f, Formula::Binary(Binary::Impl, _, r) if **r == *goal);
        let function = self
            .known(scope, whole)
            .unwrap_or_else(|| Formula::binary(Binary::Impl, self.side(style, scope), goal.clone()));
        let Formula::Binary(_, argument, _) = &function else { unreachable!() };
        let argument = (**argument).clone();
        Inference::new(rule::IMPL_ELIM, [function, argument])
    }

    fn case(&mut self, style: &Style, goal: &Formula, scope: &Scope) -> Option<Inference> {
        let head = self
            .known(scope, |f| matches!(f, Formula::Binary(Binary::Or, ..)))
            .unwrap_or_else(|| Formula::binary(Binary::Or, self.side(style, scope), self.side(style, scope)));
        let Formula::Binary(_, l, r) = &head else { unreachable!() };
        let (l, r) = ((**l).clone(), (**r).clone());
        let (first, second) = (self.fresh(scope)?, self.fresh(scope)?);
        let inference = Inference::new(rule::OR_ELIM, [head, goal.clone(), goal.clone()]);
        Some(inference.under(1, first, l).under(2, second, r))
    }

    /// An identifier whose name no hypothesis in scope has.
    fn fresh(&mut self, scope: &Scope) -> Option<(u16, u16)> {
        let free = |w: &u16| scope.iter().all(|h| h.ident.0 != *w);
        let free: Vec<u16> = (0..self.words.len() as u16).filter(free).collect();
        if free.is_empty() {
            return None;
        }
        Some((*self.rng.pick(&free), self.id()))
    }

    /// A proposition that the goal does not determine.
    fn side(&mut self, style: &Style, scope: &Scope) -> Formula {
        match self.rng.below(10) {
            0..=5 if !scope.is_empty() => self.rng.pick(scope).prop.clone(),
            0..=7 => {
                let known = self.rng.pick(&self.props);
                if known.nesting() < 6 {
                    known.clone()
                } else {
                    Formula::False
                }
            }
            _ => {
                let size = self.rng.range(0, style.side);
                self.formula(size, &style.atoms, &mut None, 0)
            }
        }
    }

    /// A proposition of this shape among the hypotheses or the sheet's, most of the time.
    fn known(&mut self, scope: &Scope, shape: impl Fn(&Formula) -> bool) -> Option<Formula> {
        if self.rng.chance(25) {
            return None;
        }
        let near: Vec<&Formula> = scope.iter().map(|h| &h.prop).filter(|f| shape(f)).collect();
        if !near.is_empty() && self.rng.chance(70) {
            return Some((*self.rng.pick(&near)).clone());
        }
        let all: Vec<&Formula> = self.props.iter().filter(|f| shape(f)).collect();
        if all.is_empty() {
            None
        } else {
            Some((*self.rng.pick(&all)).clone())
        }
    }
}

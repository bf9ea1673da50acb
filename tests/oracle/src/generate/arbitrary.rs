//! Sheets that 1 to 11 accept and that may be wrong in anything else, with or without quantifiers.
use super::draft::{scale, Conclusion, Draft};
use crate::{
    formula::{Binary, Formula, Quantifier},
    rng::Rng,
    sheet::{rule::*, NAMES, STEP_NESTING},
    walk::{row, Count, Label},
};

/// What an arbitrary sheet leans to.
struct Style {
    quantified: bool,
    /// Chance in a thousand that a step is wrong, and in a hundred that it is then its count.
    wrong: usize,
    slips: usize,
    skewed: bool,
    /// Are there steps with many premisses that nobody reads?
    wide: bool,
    /// Chance of a type judgement where one does no harm.
    judgements: usize,
    /// The numbers of the propositions that fit ImplIntro and ForAllIntro.
    implications: Vec<u16>,
    universals: Vec<u16>,
}

pub fn arbitrary(mut rng: Rng, quantified: bool) -> Vec<u8> {
    let heavy = rng.chance(3);
    let budget = if heavy { rng.range(20, 200) } else { scale(&mut rng) };
    let words = match rng.below(12) {
        0 => 0,
        1..=8 => rng.range(1, 10),
        9 | 10 => rng.range(8, 60),
        _ => rng.range(60, NAMES),
    };
    let mut draft = Draft::new(rng, words);
    draft.propositions(quantified, heavy);
    let style = draft.arbitrary_style(quantified);
    draft.grow(&style, budget, STEP_NESTING);
    let goal = draft.rng.below(draft.props.len()) as u16;
    draft.finish(goal)
}

impl Draft {
    /// Families of propositions: each a formula and some that may be equal to it, or nearly.
    fn propositions(&mut self, quantified: bool, heavy: bool) {
        let parameters = quantified || self.rng.chance(40);
        let atoms = self.atoms(if quantified { 3 } else { 6 }, parameters);
        let families = self.rng.range(1, if quantified { 3 } else { 12 });
        let loose = if quantified { *self.rng.pick(&[0, 0, 5, 30]) } else { 30 };
        for _ in 0..families {
            let most = if self.rng.chance(10) { 60 } else { 9 };
            let size = if heavy { self.rng.range(100, 400) } else { self.rng.below(most) };
            let base = self.formula(size, &atoms, &mut quantified.then(Vec::new), loose);
            self.intern(&base);
            let variants = self.rng.below(if quantified { 10 } else { 2 });
            for _ in 0..variants {
                let variant = self.variant(&base);
                self.intern(&variant);
            }
        }
        if self.props.is_empty() {
            self.intern(&Formula::True);
        }
    }

    fn arbitrary_style(&mut self, quantified: bool) -> Style {
        let numbered = |shape: fn(&Formula) -> bool| -> Vec<u16> {
            (0..self.props.len() as u16).filter(|i| shape(&self.props[*i as usize])).collect()
        };
        let implications = numbered(|f| matches!(f, Formula::Binary(Binary::Impl, ..)));
        let universals = numbered(|f| matches!(f, Formula::Quantified(Quantifier::ForAll, ..)));
        Style {
            quantified,
            wrong: *self.rng.pick(&[0, 20, 60, 200, 400, 800]),
            slips: *self.rng.pick(&[0, 0, 10, 50]),
            skewed: self.rng.chance(40),
            wide: self.rng.chance(5),
            judgements: if quantified { 15 } else { *self.rng.pick(&[0, 5]) },
            implications,
            universals,
        }
    }

    /// Adds a tree of at most `budget` steps.
    fn grow(&mut self, style: &Style, budget: usize, depth: usize) {
        let wrong = self.rng.below(1000) < style.wrong;
        let slip = wrong && self.rng.chance(style.slips);
        let (mut rule, mut count) = self.rule_and_count(style, budget, depth, wrong);
        if slip {
            count = self.rng.below(5);
        } else if style.wide && matches!(rule, TRUE_INTRO | IDENT | SORRY | ALPHA) && self.rng.chance(20) {
            count = self.rng.range(1, 255);
        }
        let room = if depth == 1 { 0 } else { budget - 1 };
        if count > room && slip {
            count = room;
        } else if count > room {
            let leaves: &[u8] = if self.words.is_empty() { &[TRUE_INTRO, SORRY] } else { &[TRUE_INTRO, IDENT, SORRY] };
            (rule, count) = (*self.rng.pick(leaves), 0);
        }
        if count > 0 {
            for share in self.split(room, count, style.skewed) {
                self.grow(style, share, depth - 1);
            }
        }
        let conclusion = self.conclusion(style, rule, wrong && !slip);
        let idents: Vec<(u16, u16)> = (0..idents(rule)).map(|_| (self.word(), self.id())).collect();
        self.step(rule, count, &idents, conclusion);
    }

    /// A rule that can be drawn here, and a premiss count that is right for it.
    fn rule_and_count(&mut self, style: &Style, budget: usize, depth: usize, wrong: bool) -> (u8, usize) {
        loop {
            let rule = self.rule(style, budget == 1 || depth == 1);
            let unfit = (rule == IMPL_INTRO && style.implications.is_empty())
                || (rule == FORALL_INTRO && style.universals.is_empty());
            let nameless = self.words.is_empty() && idents(rule) > 0;
            let count = match row(rule).0 {
                Count::Exactly(n) => n,
                Count::Any if self.rng.chance(10) => self.rng.below(4),
                Count::Any => 0,
                Count::OneOrMore if self.rng.chance(20) => self.rng.range(1, 4),
                Count::OneOrMore => 1,
            };
            let early = count == 0 && depth > 1 && (budget > 60 || (budget > 5 && self.rng.chance(85)));
            if !early && !nameless && (wrong || !unfit) {
                return (rule, count);
            }
        }
    }

    fn rule(&mut self, style: &Style, leaf: bool) -> u8 {
        match self.rng.below(100) {
            _ if leaf => *self.rng.pick(&[TRUE_INTRO, IDENT, IDENT, SORRY]),
            0..=1 => *self.rng.pick(&[TRUE_INTRO, IDENT, SORRY]),
            2..=40 if style.quantified => {
                *self.rng.pick(&[FORALL_INTRO, FORALL_INTRO, FORALL_ELIM, EXISTS_INTRO, EXISTS_ELIM])
            }
            2..=15 => *self.rng.pick(&[AND_ELIM_FST, AND_ELIM_SND, IMPL_ELIM, OR_ELIM]),
            16..=25 => *self.rng.pick(&[IMPL_INTRO, FORALL_INTRO, OR_INTRO_FST, FALSUM_ELIM]),
            _ => self.rng.below(ALPHA as usize + 1) as u8,
        }
    }

    fn conclusion(&mut self, style: &Style, rule: u8, wrong: bool) -> Conclusion {
        let judgement = match row(rule).2 {
            _ if self.words.is_empty() => false,
            _ if wrong => self.rng.chance(70),
            Label::Bare | Label::Premiss => self.rng.chance(style.judgements),
            Label::Ascribed | Label::Parameter => false,
        };
        if judgement {
            // Few names and ids, so that some judgements are equal.
            let few = self.words.len().min(2);
            let (name, datatype) = (self.rng.below(few) as u16, self.rng.below(few) as u16);
            return Conclusion::Judgement(name, *self.rng.pick(&[0, 1]), datatype);
        }
        let fitting: &[u16] = match rule {
            _ if wrong => &[],
            IMPL_INTRO => &style.implications,
            FORALL_INTRO => &style.universals,
            _ => &[],
        };
        let any = self.rng.below(self.props.len()) as u16;
        Conclusion::Prop(if fitting.is_empty() { any } else { *self.rng.pick(fitting) })
    }
}

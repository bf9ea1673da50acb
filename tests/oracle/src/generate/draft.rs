//! A sheet in the making, and the random parts that every kind is made of.
use crate::{
    formula::{Binary, Formula, Parameter, Quantifier},
    rng::Rng,
    sheet::{Layout, Step, CODE, LAST_COLUMN, NAMES, NAME_BYTES, PARAMETERS, PROPS, PROP_NESTING, STEPS, TEXT},
};
use std::collections::HashMap;

const RESERVED: [&str; 13] =
    ["sorry", "fn", "case", "of", "inl", "inr", "let", "in", "fst", "snd", "abort", "atom", "datatype"];
const LETTERS: &[u8] = b"ABCDEFGHIJKLMNOPQRSTUVWXYZabcdefghijklmnopqrstuvwxyz";
const TAIL: &[u8] = b"ABCDEFGHIJKLMNOPQRSTUVWXYZabcdefghijklmnopqrstuvwxyz0123456789_";

/// The bytes of a name: mostly short, so that names meet, some reserved, some as long as they may be.
fn name(rng: &mut Rng) -> Vec<u8> {
    let (head, length) = match rng.below(20) {
        0..=8 => return vec![*rng.pick(b"ABCPQRTabchuvwxyz")],
        9..=11 => return rng.pick(&RESERVED).as_bytes().to_vec(),
        12 => (*rng.pick(LETTERS), NAME_BYTES),
        13 => (*rng.pick(LETTERS), rng.range(20, NAME_BYTES)),
        14..=16 => (*rng.pick(b"ABux"), rng.range(2, 3)),
        _ => (*rng.pick(LETTERS), rng.range(1, 12)),
    };
    let mut name = vec![head];
    name.extend((1..length).map(|_| *rng.pick(TAIL)));
    name
}

/// A number of steps, from a few to the limit.
pub fn scale(rng: &mut Rng) -> usize {
    let (low, high) = [(1, 6), (5, 40), (30, 250), (200, 900), (1000, STEPS)][rng.weighted(&[30, 45, 17, 6, 2])];
    rng.range(low, high)
}

/// A column within range.
pub fn column(rng: &mut Rng) -> u16 {
    match rng.below(8) {
        0 => *rng.pick(&[0, 1, 255, 256, LAST_COLUMN]),
        _ => rng.below(LAST_COLUMN as usize + 1) as u16,
    }
}

/// Formulas here are over words, not name numbers: a word is written under any of the numbers that its bytes have.
pub struct Draft {
    pub rng: Rng,
    pub words: Vec<Vec<u8>>,
    /// The word of each name number, and the name numbers of each word.
    names: Vec<usize>,
    numbers: Vec<Vec<u16>>,
    pub props: Vec<Formula>,
    codes: Vec<Vec<u8>>,
    index: HashMap<Formula, Vec<u16>>,
    code: usize,
    /// Chance of a second number for an equal proposition.
    again: usize,
    steps: Vec<Step>,
}

#[derive(Clone, Copy)]
pub enum Conclusion {
    Prop(u16),
    Judgement(u16, u16, u16),
}

/// Up to `count` different words that fit the text.
fn words(rng: &mut Rng, count: usize) -> Vec<Vec<u8>> {
    let mut words: Vec<Vec<u8>> = Vec::new();
    let mut bytes = 0;
    while words.len() < count && bytes + NAME_BYTES <= TEXT {
        let word = name(rng);
        if !words.contains(&word) {
            bytes += word.len();
            words.push(word);
        }
    }
    words
}

/// The word of each name number: every word once, some again, in any order.
fn names(rng: &mut Rng, words: &[Vec<u8>]) -> Vec<usize> {
    let mut names: Vec<usize> = (0..words.len()).collect();
    let mut bytes: usize = words.iter().map(Vec::len).sum();
    let doubles = if words.is_empty() { 0 } else { rng.below(words.len() + 2) };
    for _ in 0..doubles {
        let word = rng.below(words.len());
        if names.len() < NAMES && bytes + words[word].len() <= TEXT {
            bytes += words[word].len();
            names.push(word);
        }
    }
    rng.shuffle(&mut names);
    names
}

impl Draft {
    pub fn new(mut rng: Rng, count: usize) -> Self {
        let words = words(&mut rng, count);
        let names = names(&mut rng, &words);
        let mut numbers = vec![Vec::new(); words.len()];
        for (number, word) in names.iter().enumerate() {
            numbers[*word].push(number as u16);
        }
        let again = *rng.pick(&[0, 10, 40]);
        let (props, codes, index, steps) = Default::default();
        Draft { rng, words, names, numbers, props, codes, index, code: 0, again, steps }
    }

    pub fn word(&mut self) -> u16 {
        self.rng.below(self.words.len()) as u16
    }

    fn number(&mut self, word: u16) -> u16 {
        *self.rng.pick(&self.numbers[word as usize])
    }

    pub fn id(&mut self) -> u16 {
        *self.rng.pick(&[0, 0, 1, 2, 3, 255, 256, u16::MAX])
    }

    /// A number of this proposition, if the sheet has room for it.
    pub fn intern(&mut self, f: &Formula) -> Option<u16> {
        let known = self.index.get(f).map(|known| *self.rng.pick(known));
        if known.is_some() && !self.rng.chance(self.again) {
            return known;
        }
        let mut code = Vec::new();
        let Draft { rng, numbers, .. } = self;
        f.code(&mut |word| *rng.pick(&numbers[word as usize]), &mut code);
        if self.props.len() == PROPS || self.code + code.len() > CODE || f.nesting() > PROP_NESTING {
            return known;
        }
        self.code += code.len();
        self.codes.push(code);
        self.props.push(f.clone());
        let number = self.props.len() as u16 - 1;
        self.index.entry(f.clone()).or_default().push(number);
        Some(number)
    }

    pub fn step(&mut self, rule: u8, count: usize, idents: &[(u16, u16)], conclusion: Conclusion) {
        let mut two = [(0, 0); 2];
        for (to, (word, id)) in two.iter_mut().zip(idents) {
            *to = (self.number(*word), *id);
        }
        let (kind, conclusion) = match conclusion {
            Conclusion::Prop(n) => (0, [n, 0, 0]),
            Conclusion::Judgement(word, id, datatype) => (1, [self.number(word), id, self.number(datatype)]),
        };
        self.steps.push(Step { rule, count: count as u8, idents: two, kind, conclusion, column: 0 });
    }

    /// Lays parts out with gaps of unread bytes.
    fn spread(&mut self, parts: &[Vec<u8>], most: usize) -> (Vec<(u16, u16)>, Vec<u8>) {
        let mut spare = most - parts.iter().map(Vec::len).sum::<usize>();
        let gaps = *self.rng.pick(&[0, 0, 10, 60]);
        let mut all = Vec::new();
        let mut gap = |rng: &mut Rng, all: &mut Vec<u8>| {
            if rng.chance(gaps) {
                let wide = if rng.chance(3) { spare } else { 7.min(spare) };
                let unread = rng.range(0, wide);
                spare -= unread;
                all.extend(rng.bytes(unread));
            }
        };
        let mut pairs = Vec::new();
        for part in parts {
            gap(&mut self.rng, &mut all);
            pairs.push((all.len() as u16, part.len() as u16));
            all.extend(part);
        }
        gap(&mut self.rng, &mut all);
        (pairs, all)
    }

    /// Columns are drawn last, so that nothing else of the sheet depends on them.
    pub fn finish(mut self, goal: u16) -> Vec<u8> {
        let names: Vec<Vec<u8>> = self.names.iter().map(|w| self.words[*w].clone()).collect();
        let codes = std::mem::take(&mut self.codes);
        let (names, text) = self.spread(&names, TEXT);
        let (props, code) = self.spread(&codes, CODE);
        self.steps.iter_mut().for_each(|step| step.column = column(&mut self.rng));
        let n = |l: usize| l as u16;
        let header = [n(text.len()), n(names.len()), n(code.len()), n(props.len()), n(self.steps.len()), goal];
        Layout { header, names, props, steps: self.steps, text, code }.bytes()
    }

    /// Shares of a budget, at least one each, in any order; if skewed, one of them takes nearly all.
    pub fn split(&mut self, budget: usize, parts: usize, skewed: bool) -> Vec<usize> {
        let mut shares = vec![1; parts];
        let mut spare = budget - parts;
        for share in &mut shares[1..] {
            let more = self.rng.range(0, if skewed { spare.min(3) } else { spare });
            *share += more;
            spare -= more;
        }
        shares[0] += spare;
        self.rng.shuffle(&mut shares);
        shares
    }

    /// Names of atoms with their parameter counts.
    pub fn atoms(&mut self, most: usize, parameters: bool) -> Vec<(u16, usize)> {
        if self.words.is_empty() {
            return vec![];
        }
        let many = self.rng.range(1, most);
        let count = |rng: &mut Rng| if parameters { *rng.pick(&[0, 0, 1, 1, 2, 3, PARAMETERS]) } else { 0 };
        (0..many).map(|_| (self.word(), count(&mut self.rng))).collect()
    }

    /// A formula of this many connectives. `bound` holds the objects in scope, if quantifiers are wanted; `loose` is
    /// the chance of a parameter that nothing binds.
    pub fn formula(
        &mut self,
        size: usize,
        atoms: &[(u16, usize)],
        bound: &mut Option<Vec<u16>>,
        loose: usize,
    ) -> Formula {
        if size == 0 {
            return self.leaf(atoms, bound, loose);
        }
        if bound.is_some() && !self.words.is_empty() && self.rng.chance(45) {
            let quantifier = *self.rng.pick(&[Quantifier::ForAll, Quantifier::ForAll, Quantifier::Exists]);
            let (object, datatype) = (self.word(), self.word());
            bound.as_mut().unwrap().push(object);
            let body = self.formula(size - 1, atoms, bound, loose);
            bound.as_mut().unwrap().pop();
            return Formula::Quantified(quantifier, object, datatype, Box::new(body));
        }
        let connective = *self.rng.pick(&[Binary::And, Binary::Or, Binary::Impl, Binary::Impl]);
        let left = self.rng.below(size);
        let l = self.formula(left, atoms, bound, loose);
        Formula::binary(connective, l, self.formula(size - 1 - left, atoms, bound, loose))
    }

    fn leaf(&mut self, atoms: &[(u16, usize)], bound: &Option<Vec<u16>>, loose: usize) -> Formula {
        match self.rng.below(10) {
            0 => Formula::True,
            1 | 2 => Formula::False,
            _ if atoms.is_empty() => Formula::True,
            _ => {
                let (name, count) = *self.rng.pick(atoms);
                Formula::Atom(name, (0..count).map(|_| self.parameter(bound, loose)).collect())
            }
        }
    }

    fn parameter(&mut self, bound: &Option<Vec<u16>>, loose: usize) -> Parameter {
        match bound {
            Some(bound) if !bound.is_empty() && self.rng.chance(75) => Parameter::Uninstantiated(*self.rng.pick(bound)),
            Some(_) if self.rng.chance(loose) => Parameter::Uninstantiated(self.word()),
            _ => Parameter::Instantiated(self.word(), self.id()),
        }
    }
}

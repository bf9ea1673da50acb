//! The sheet of document 01, its steps with the columns of ticket 6: its records and refusals 1 to 11.
use crate::formula::{parse, Formula};
use std::{fmt, ops::RangeInclusive};

pub const TEXT: usize = 8192;
pub const NAMES: usize = 512;
pub const CODE: usize = 8192;
pub const PROPS: usize = 512;
pub const STEPS: usize = 1024;
pub const NAME_BYTES: usize = 32;
pub const PARAMETERS: usize = 8;
pub const PROP_NESTING: usize = 64;
pub const STEP_NESTING: usize = 256;
pub const LAST_COLUMN: u16 = 4095;
pub const BOARD_ROOM: usize = 65536;

pub const HEADER_BYTES: usize = 12;
pub const PAIR_BYTES: usize = 4;
pub const STEP_BYTES: usize = 20;

#[derive(Clone, Copy, PartialEq, Eq, Debug)]
pub struct Refusal {
    pub number: u8,
    pub place: usize,
    /// The column of the step that 9 to 15 name, as its bytes stand; 0 for all others.
    pub column: u16,
}

impl fmt::Display for Refusal {
    fn fmt(&self, f: &mut fmt::Formatter) -> fmt::Result {
        write!(f, "refused {} at {}", self.number, self.place)?;
        match self.number {
            9..=15 => write!(f, " column {}", self.column),
            _ => Ok(()),
        }
    }
}

/// Refuses with a number that names no step.
pub fn refuse<T>(number: u8, place: usize) -> Result<T, Refusal> {
    Err(Refusal { number, place, column: 0 })
}

/// Refuses with a number from 9 to 15, which names one of the steps.
pub fn refuse_step<T>(number: u8, place: usize, steps: &[Step]) -> Result<T, Refusal> {
    Err(Refusal { number, place, column: steps[place].column })
}

/// Refuses with the lowest place below `n` that is bad, if there is one.
fn lowest(number: u8, n: usize, bad: impl FnMut(&usize) -> bool) -> Result<(), Refusal> {
    (0..n).find(bad).map_or(Ok(()), |place| refuse(number, place))
}

/// Refuses with the lowest step that is bad, if there is one.
fn lowest_step(number: u8, steps: &[Step], bad: impl FnMut(&usize) -> bool) -> Result<(), Refusal> {
    (0..steps.len()).find(bad).map_or(Ok(()), |place| refuse_step(number, place, steps))
}

pub mod rule {
    pub const AND_INTRO: u8 = 0;
    pub const AND_ELIM_FST: u8 = 1;
    pub const AND_ELIM_SND: u8 = 2;
    pub const TRUE_INTRO: u8 = 3;
    pub const IMPL_INTRO: u8 = 4;
    pub const IMPL_ELIM: u8 = 5;
    pub const IDENT: u8 = 6;
    pub const OR_INTRO_FST: u8 = 7;
    pub const OR_INTRO_SND: u8 = 8;
    pub const OR_ELIM: u8 = 9;
    pub const FALSUM_ELIM: u8 = 10;
    pub const FORALL_INTRO: u8 = 11;
    pub const FORALL_ELIM: u8 = 12;
    pub const EXISTS_INTRO: u8 = 13;
    pub const EXISTS_ELIM: u8 = 14;
    pub const SORRY: u8 = 15;
    pub const ALPHA: u8 = 16;

    pub fn name(rule: u8) -> &'static str {
        match rule {
            AND_INTRO => "AndIntro",
            AND_ELIM_FST => "AndElimFst",
            AND_ELIM_SND => "AndElimSnd",
            TRUE_INTRO => "TrueIntro",
            IMPL_INTRO => "ImplIntro",
            IMPL_ELIM => "ImplElim",
            IDENT => "Ident",
            OR_INTRO_FST => "OrIntroFst",
            OR_INTRO_SND => "OrIntroSnd",
            OR_ELIM => "OrElim",
            FALSUM_ELIM => "FalsumElim",
            FORALL_INTRO => "ForAllIntro",
            FORALL_ELIM => "ForAllElim",
            EXISTS_INTRO => "ExistsIntro",
            EXISTS_ELIM => "ExistsElim",
            SORRY => "Sorry",
            ALPHA => "AlphaEquivalent",
            _ => "no rule",
        }
    }

    /// How many identifiers a rule has.
    pub fn idents(rule: u8) -> usize {
        match rule {
            IMPL_INTRO | IDENT | FORALL_INTRO => 1,
            OR_ELIM | EXISTS_ELIM => 2,
            _ => 0,
        }
    }
}

/// A step record as it stands.
#[derive(Clone, Copy, PartialEq, Eq, Default, Debug)]
pub struct Step {
    pub rule: u8,
    pub count: u8,
    /// First and second identifier: name and id.
    pub idents: [(u16, u16); 2],
    pub kind: u16,
    pub conclusion: [u16; 3],
    /// The grid column in which it was drawn.
    pub column: u16,
}

impl Step {
    pub fn bytes(&self) -> [u8; STEP_BYTES] {
        let [(a, b), (c, d)] = self.idents;
        let [e, f, g] = self.conclusion;
        let mut out = [0; STEP_BYTES];
        out[..2].copy_from_slice(&[self.rule, self.count]);
        for (i, n) in [a, b, c, d, self.kind, e, f, g, self.column].into_iter().enumerate() {
            out[2 + 2 * i..4 + 2 * i].copy_from_slice(&n.to_le_bytes());
        }
        out
    }

    pub fn read(b: &[u8]) -> Self {
        let n = |i: usize| u16::from_le_bytes([b[2 + 2 * i], b[3 + 2 * i]]);
        Step {
            rule: b[0],
            count: b[1],
            idents: [(n(0), n(1)), (n(2), n(3))],
            kind: n(4),
            conclusion: [n(5), n(6), n(7)],
            column: n(8),
        }
    }

    /// Refusal 9.
    fn bad(&self, names: usize, props: usize) -> bool {
        let [a, b, c] = self.conclusion;
        let name = |n: u16| (n as usize) < names;
        let used = rule::idents(self.rule);
        self.rule > rule::ALPHA
            || self.column > LAST_COLUMN
            || !self.idents[..used].iter().all(|(n, _)| name(*n))
            || !self.idents[used..].iter().all(|i| *i == (0, 0))
            || !match self.kind {
                0 => (a as usize) < props && b == 0 && c == 0,
                1 => name(a) && name(c),
                _ => false,
            }
    }
}

/// A sheet's parts, free to be wrong in any of them.
#[derive(Clone, Debug)]
pub struct Layout {
    pub header: [u16; 6],
    pub names: Vec<(u16, u16)>,
    pub props: Vec<(u16, u16)>,
    pub steps: Vec<Step>,
    pub text: Vec<u8>,
    pub code: Vec<u8>,
}

fn word(bytes: &[u8], at: usize) -> u16 {
    u16::from_le_bytes([bytes[at], bytes[at + 1]])
}

impl Layout {
    /// The parts of a sheet, if it is as long as its header says.
    pub fn read(bytes: &[u8]) -> Option<Self> {
        let (head, mut rest) = bytes.split_at_checked(HEADER_BYTES)?;
        let mut take = |length: usize| {
            let (part, others) = rest.split_at_checked(length)?;
            rest = others;
            Some(part)
        };
        let pairs = |part: &[u8]| part.chunks(PAIR_BYTES).map(|pair| (word(pair, 0), word(pair, 2))).collect();
        let header = [0, 2, 4, 6, 8, 10].map(|at| word(head, at));
        let [text, names, code, props, steps, _] = header.map(usize::from);
        let layout = Layout {
            header,
            names: pairs(take(PAIR_BYTES * names)?),
            props: pairs(take(PAIR_BYTES * props)?),
            steps: take(STEP_BYTES * steps)?.chunks(STEP_BYTES).map(Step::read).collect(),
            text: take(text)?.to_vec(),
            code: take(code)?.to_vec(),
        };
        rest.is_empty().then_some(layout)
    }

    /// Names, codes, steps and goal, without the gaps.
    pub fn plain(self) -> Plain {
        let cut = |pairs: &[(u16, u16)], all: &[u8]| -> Vec<Vec<u8>> {
            pairs.iter().map(|(offset, length)| all[*offset as usize..][..*length as usize].to_vec()).collect()
        };
        Plain {
            names: cut(&self.names, &self.text),
            props: cut(&self.props, &self.code),
            steps: self.steps,
            goal: self.header[5],
        }
    }

    pub fn bytes(&self) -> Vec<u8> {
        let pairs = self.names.iter().chain(&self.props).flat_map(|(o, l)| [*o, *l]);
        let numbers = self.header.into_iter().chain(pairs);
        let mut out: Vec<u8> = numbers.flat_map(u16::to_le_bytes).collect();
        out.extend(self.steps.iter().flat_map(Step::bytes));
        out.extend(&self.text);
        out.extend(&self.code);
        out
    }
}

/// Names, codes and steps laid out without gaps.
#[derive(Clone, Default, Debug)]
pub struct Plain {
    pub names: Vec<Vec<u8>>,
    pub props: Vec<Vec<u8>>,
    pub steps: Vec<Step>,
    pub goal: u16,
}

fn pack(parts: &[Vec<u8>]) -> (Vec<(u16, u16)>, Vec<u8>) {
    let mut all = Vec::new();
    let pair = |part: &Vec<u8>| {
        let offset = all.len() as u16;
        all.extend(part);
        (offset, part.len() as u16)
    };
    (parts.iter().map(pair).collect(), all)
}

impl Plain {
    pub fn layout(&self) -> Layout {
        let ((names, text), (props, code)) = (pack(&self.names), pack(&self.props));
        let n = |l: usize| l as u16;
        let header = [n(text.len()), n(names.len()), n(code.len()), n(props.len()), n(self.steps.len()), self.goal];
        Layout { header, names, props, steps: self.steps.clone(), text, code }
    }

    pub fn bytes(&self) -> Vec<u8> {
        self.layout().bytes()
    }
}

/// A sheet accepted by 1 to 11.
#[derive(Clone, Debug)]
pub struct Sheet {
    pub names: Vec<String>,
    pub props: Vec<Formula>,
    pub steps: Vec<Step>,
    pub premisses: Vec<Vec<usize>>,
    pub goal: usize,
}

/// The parts of the sheet, or refusal 1, 2 or 3.
pub fn laid_out(bytes: &[u8]) -> Result<Layout, Refusal> {
    if bytes.len() < HEADER_BYTES {
        return refuse(1, 0);
    }
    let [text, names, code, props, steps, goal] = [0, 2, 4, 6, 8, 10].map(|at| word(bytes, at) as usize);
    let counts = names <= NAMES && (1..=PROPS).contains(&props) && (1..=STEPS).contains(&steps);
    if !counts || text > TEXT || code > CODE || goal >= props {
        return refuse(2, 0);
    }
    Layout::read(bytes).map_or(refuse(3, 0), Ok)
}

/// The parts that pairs cut out of `all`, or the given refusal at the first pair that starts before the last one's end,
/// ends past `all` or has a length outside `lengths`.
fn cut<'a>(
    pairs: &[(u16, u16)],
    all: &'a [u8],
    lengths: RangeInclusive<usize>,
    number: u8,
) -> Result<Vec<&'a [u8]>, Refusal> {
    let mut end = 0;
    let part = |(i, pair): (usize, &(u16, u16))| {
        let (offset, length) = (pair.0 as usize, pair.1 as usize);
        if offset < end || offset + length > all.len() || !lengths.contains(&length) {
            return refuse(number, i);
        }
        end = offset + length;
        Ok(&all[offset..end])
    };
    pairs.iter().enumerate().map(part).collect()
}

/// Are all bytes of a name admitted where they stand?
pub fn admitted(name: &[u8]) -> bool {
    name[0].is_ascii_alphabetic() && name.iter().all(|b| b.is_ascii_alphanumeric() || *b == b'_')
}

/// The premisses of each step, or refusal 10 or 11.
fn premisses(steps: &[Step]) -> Result<Vec<Vec<usize>>, Refusal> {
    let (mut trees, mut premisses) = (Vec::new(), Vec::new());
    for (i, step) in steps.iter().enumerate() {
        let Some(rest) = usize::checked_sub(trees.len(), step.count as usize) else {
            return refuse_step(10, i, steps);
        };
        premisses.push(trees.split_off(rest));
        trees.push(i);
    }
    if trees.len() > 1 {
        return refuse_step(10, steps.len() - 1, steps);
    }
    let mut nesting = vec![0; steps.len()];
    for i in 0..steps.len() {
        nesting[i] = 1 + premisses[i].iter().map(|j| nesting[*j]).max().unwrap_or(0);
    }
    lowest_step(11, steps, |i| nesting[*i] > STEP_NESTING)?;
    Ok(premisses)
}

pub fn decode(bytes: &[u8]) -> Result<Sheet, Refusal> {
    let layout = laid_out(bytes)?;
    let names = cut(&layout.names, &layout.text, 1..=NAME_BYTES, 4)?;
    lowest(5, names.len(), |i| !admitted(names[*i]))?;

    let codes = cut(&layout.props, &layout.code, 1..=CODE, 6)?;
    let parsed: Vec<Option<Formula>> = codes.iter().map(|code| parse(code, names.len())).collect();
    lowest(7, parsed.len(), |i| parsed[*i].is_none())?;
    let props: Vec<Formula> = parsed.into_iter().flatten().collect();
    lowest(8, props.len(), |i| props[*i].nesting() > PROP_NESTING)?;

    let steps = layout.steps;
    lowest_step(9, &steps, |i| steps[*i].bad(names.len(), props.len()))?;
    let premisses = premisses(&steps)?;

    let names = names.iter().map(|n| String::from_utf8(n.to_vec()).unwrap()).collect();
    Ok(Sheet { names, props, steps, premisses, goal: layout.header[5] as usize })
}

impl Sheet {
    pub fn root(&self) -> usize {
        self.steps.len() - 1
    }

    pub fn name(&self, n: u16) -> String {
        self.names[n as usize].clone()
    }

    /// The proposition a step concludes, unless it is a type judgement.
    pub fn concluded(&self, step: usize) -> Option<&Formula> {
        let step = &self.steps[step];
        (step.kind == 0).then(|| &self.props[step.conclusion[0] as usize])
    }
}

//! Propositions over name numbers, and their prefix code.
use crate::sheet::PARAMETERS;

#[derive(Clone, Copy, PartialEq, Eq, Hash, Debug)]
pub enum Binary {
    And,
    Or,
    Impl,
}

#[derive(Clone, Copy, PartialEq, Eq, Hash, Debug)]
pub enum Quantifier {
    ForAll,
    Exists,
}

#[derive(Clone, Copy, PartialEq, Eq, Hash, Debug)]
pub enum Parameter {
    Uninstantiated(u16),
    Instantiated(u16, u16),
}

/// A proposition over name numbers.
#[derive(Clone, PartialEq, Eq, Hash, Debug)]
pub enum Formula {
    True,
    False,
    Binary(Binary, Box<Formula>, Box<Formula>),
    Atom(u16, Vec<Parameter>),
    Quantified(Quantifier, u16, u16, Box<Formula>),
}

impl Formula {
    pub fn binary(op: Binary, l: Formula, r: Formula) -> Self {
        Formula::Binary(op, Box::new(l), Box::new(r))
    }

    pub fn nesting(&self) -> usize {
        match self {
            Formula::Binary(_, l, r) => 1 + l.nesting().max(r.nesting()),
            Formula::Quantified(.., body) => 1 + body.nesting(),
            _ => 1,
        }
    }

    pub fn nodes(&self) -> usize {
        match self {
            Formula::Binary(_, l, r) => 1 + l.nodes() + r.nodes(),
            Formula::Quantified(.., body) => 1 + body.nodes(),
            _ => 1,
        }
    }

    /// The prefix code, with `name` choosing the number written for each name.
    pub fn code(&self, name: &mut impl FnMut(u16) -> u16, out: &mut Vec<u8>) {
        match self {
            Formula::True => out.push(0),
            Formula::False => out.push(1),
            Formula::Binary(op, l, r) => {
                out.push(2 + *op as u8);
                l.code(name, out);
                r.code(name, out);
            }
            Formula::Atom(n, params) => {
                out.push(5);
                out.extend(name(*n).to_le_bytes());
                out.push(params.len() as u8);
                for param in params {
                    let (tag, n, id) = match param {
                        Parameter::Uninstantiated(n) => (0, n, None),
                        Parameter::Instantiated(n, id) => (1, n, Some(id)),
                    };
                    out.push(tag);
                    out.extend(name(*n).to_le_bytes());
                    out.extend(id.into_iter().flat_map(|id| id.to_le_bytes()));
                }
            }
            Formula::Quantified(q, object, datatype, body) => {
                out.push(6 + *q as u8);
                out.extend(name(*object).to_le_bytes());
                out.extend(name(*datatype).to_le_bytes());
                body.code(name, out);
            }
        }
    }

    /// Puts other numbers in the place of all names.
    pub fn rename(&mut self, name: &impl Fn(u16) -> u16) {
        match self {
            Formula::True | Formula::False => {}
            Formula::Binary(_, l, r) => {
                l.rename(name);
                r.rename(name);
            }
            Formula::Atom(n, parameters) => {
                *n = name(*n);
                for parameter in parameters {
                    let (Parameter::Uninstantiated(n) | Parameter::Instantiated(n, _)) = parameter;
                    *n = name(*n);
                }
            }
            Formula::Quantified(_, object, datatype, body) => {
                (*object, *datatype) = (name(*object), name(*datatype));
                body.rename(name);
            }
        }
    }

    /// Atoms left to right with repeats: name number and parameter count.
    pub fn atoms(&self, out: &mut Vec<(u16, u16)>) {
        match self {
            Formula::True | Formula::False => {}
            Formula::Binary(_, l, r) => {
                l.atoms(out);
                r.atoms(out);
            }
            Formula::Atom(n, params) => out.push((*n, params.len() as u16)),
            Formula::Quantified(.., body) => body.atoms(out),
        }
    }

    /// Datatypes of the quantifiers, left to right with repeats.
    pub fn datatypes(&self, out: &mut Vec<u16>) {
        match self {
            Formula::Binary(_, l, r) => {
                l.datatypes(out);
                r.datatypes(out);
            }
            Formula::Quantified(_, _, datatype, body) => {
                out.push(*datatype);
                body.datatypes(out);
            }
            _ => {}
        }
    }

    /// No ∀, no ∃ and no uninstantiated parameter.
    pub fn quantifier_free(&self) -> bool {
        match self {
            Formula::True | Formula::False => true,
            Formula::Binary(_, l, r) => l.quantifier_free() && r.quantifier_free(),
            Formula::Atom(_, params) => params.iter().all(|p| matches!(p, Parameter::Instantiated(..))),
            Formula::Quantified(..) => false,
        }
    }
}

/// The proposition that a code is over its whole length, with names below `names`.
pub fn parse(code: &[u8], names: usize) -> Option<Formula> {
    let mut reader = Reader { code, at: 0, names };
    reader.formula().filter(|_| reader.at == code.len())
}

struct Reader<'a> {
    code: &'a [u8],
    at: usize,
    names: usize,
}

impl Reader<'_> {
    fn byte(&mut self) -> Option<u8> {
        self.at += 1;
        self.code.get(self.at - 1).copied()
    }

    fn word(&mut self) -> Option<u16> {
        Some(u16::from_le_bytes([self.byte()?, self.byte()?]))
    }

    fn name(&mut self) -> Option<u16> {
        self.word().filter(|n| (*n as usize) < self.names)
    }

    fn formula(&mut self) -> Option<Formula> {
        Some(match self.byte()? {
            0 => Formula::True,
            1 => Formula::False,
            op @ 2..=4 => {
                let op = [Binary::And, Binary::Or, Binary::Impl][op as usize - 2];
                Formula::binary(op, self.formula()?, self.formula()?)
            }
            5 => {
                let (name, count) = (self.name()?, self.byte()? as usize);
                if count > PARAMETERS {
                    return None;
                }
                let mut params = Vec::new();
                for _ in 0..count {
                    params.push(match self.byte()? {
                        0 => Parameter::Uninstantiated(self.name()?),
                        1 => Parameter::Instantiated(self.name()?, self.word()?),
                        _ => return None,
                    });
                }
                Formula::Atom(name, params)
            }
            q @ 6..=7 => {
                let q = [Quantifier::ForAll, Quantifier::Exists][q as usize - 6];
                Formula::Quantified(q, self.name()?, self.name()?, Box::new(self.formula()?))
            }
            _ => return None,
        })
    }
}

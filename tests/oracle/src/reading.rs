//! Document 02, ticket 2: a term from its strict text. A text is read with brackets wherever they may stand, and what was
//! read is printed again: it is the term of that text where the two agree byte for byte, and no other text is taken.
use crate::{
    sheet::{admitted as formed, CODE, NAMES, NAME_BYTES, PARAMETERS, PROP_NESTING},
    terms::{label, nesting, nodes, parts},
    text::{strict, term},
};
use alice::kernel::{
    checker::identifier::Identifier,
    proof_term::*,
    prop::{Prop, PropParameter},
};
use std::collections::HashSet;

pub const TEXT_BYTES: usize = 65_536;
pub const NODES: usize = 2048;
pub const NESTING: usize = 512;

/// "Names are those of document 01 except" these.
pub const WORDS: [&str; 11] = ["fn", "case", "of", "inl", "inr", "let", "in", "fst", "snd", "abort", "sorry"];

/// A term within the limits takes fewer levels of brackets, functions, cases and lets than this.
const LEVELS: usize = 4096;

pub fn admitted(name: &str) -> bool {
    (1..=NAME_BYTES).contains(&name.len()) && formed(name.as_bytes()) && !WORDS.contains(&name)
}

/// A caller's list of datatypes: "names divided by newlines, empty for none". None where one is no admitted name.
pub fn datatypes(list: &[u8]) -> Option<Vec<String>> {
    if list.is_empty() {
        return Some(Vec::new());
    }
    let names = list.split(|b| *b == b'\n').map(|name| std::str::from_utf8(name).ok().filter(|name| admitted(name)));
    names.map(|name| name.map(String::from)).collect()
}

/// "At most 2,048 nodes, nested at most 512 deep, with at most 512 different names and each label's proposition nested at most 64 in
/// at most 8,192 code bytes", of "up to 65,536 bytes".
#[derive(Clone, Copy, PartialEq, Eq, Debug)]
pub struct Limits {
    pub text: usize,
    pub nodes: usize,
    pub nesting: usize,
    pub names: usize,
    pub label_nesting: usize,
    pub label_code: usize,
}

impl Default for Limits {
    fn default() -> Self {
        let (text, nodes, nesting) = (TEXT_BYTES, NODES, NESTING);
        Limits { text, nodes, nesting, names: NAMES, label_nesting: PROP_NESTING, label_code: CODE }
    }
}

/// The term, or none for 20.
pub fn read(list: &[u8], text: &[u8]) -> Option<ProofTerm> {
    read_within(list, text, &Limits::default())
}

/// The term within some limits, or none.
pub fn read_within(list: &[u8], text: &[u8], limits: &Limits) -> Option<ProofTerm> {
    if text.len() > limits.text {
        return None;
    }
    let types = datatypes(list)?;
    let mut reader = Reader { rest: std::str::from_utf8(text).ok()?, types: &types, levels: LEVELS, bound: Vec::new() };
    let read = reader.term()?;
    let again = reader.rest.is_empty() && is_within(&read, limits) && term(&read, strict).as_bytes() == text;
    again.then_some(read)
}

struct Reader<'a> {
    rest: &'a str,
    types: &'a [String],
    levels: usize,
    /// The objects of the quantifiers around the place.
    bound: Vec<String>,
}

impl Reader<'_> {
    fn skip(&mut self, what: &str) -> Option<()> {
        self.rest = self.rest.strip_prefix(what)?;
        Some(())
    }

    /// The name bytes in front.
    fn word(&self) -> &str {
        let end = self.rest.find(|c: char| !(c.is_ascii_alphanumeric() || c == '_'));
        &self.rest[..end.unwrap_or(self.rest.len())]
    }

    fn name(&mut self) -> Option<String> {
        let name = self.word().to_string();
        self.rest = &self.rest[name.len()..];
        admitted(&name).then_some(name)
    }

    fn deeper<T>(&mut self, part: impl FnOnce(&mut Self) -> Option<T>) -> Option<T> {
        self.levels = self.levels.checked_sub(1)?;
        let read = part(self);
        self.levels += 1;
        read
    }

    fn term(&mut self) -> Option<ProofTerm> {
        self.deeper(|reader| match reader.word() {
            "fn" => reader.function(),
            "case" => reader.case(),
            "let" => reader.let_in(),
            _ => reader.ascribed(),
        })
    }

    fn part(&mut self) -> Option<Box<ProofTerm>> {
        self.term().map(Box::new)
    }

    fn function(&mut self) -> Option<ProofTerm> {
        self.skip("fn ")?;
        let param_ident = self.name()?;
        let param_type = if self.skip(": ").is_some() { Some(self.label()?) } else { None };
        self.skip(" => ")?;
        Some(ProofTerm::Function(Function { param_ident, param_type, body: self.part()?, span: None }))
    }

    fn case(&mut self) -> Option<ProofTerm> {
        self.skip("case ")?;
        let head = self.part()?;
        self.skip(" of inl ")?;
        let fst_ident = self.name()?;
        self.skip(" => ")?;
        let fst_term = self.part()?;
        self.skip(", inr ")?;
        let snd_ident = self.name()?;
        self.skip(" => ")?;
        Some(ProofTerm::Case(Case { head, fst_ident, fst_term, snd_ident, snd_term: self.part()?, span: None }))
    }

    fn let_in(&mut self) -> Option<ProofTerm> {
        self.skip("let (")?;
        let fst_ident = self.name()?;
        self.skip(", ")?;
        let snd_ident = self.name()?;
        self.skip(") = ")?;
        let head = self.part()?;
        self.skip(" in ")?;
        Some(ProofTerm::LetIn(LetIn { fst_ident, snd_ident, head, body: self.part()?, span: None }))
    }

    /// Applications and then perhaps a label.
    fn ascribed(&mut self) -> Option<ProofTerm> {
        let mut read = self.called()?;
        while self.argument_follows() {
            self.skip(" ")?;
            let (function, applicant) = (Box::new(read), Box::new(self.closed()?));
            read = ProofTerm::Application(Application { function, applicant, span: None });
        }
        if self.skip(": ").is_none() {
            return Some(read);
        }
        let ascription = self.label()?;
        Some(ProofTerm::TypeAscription(TypeAscription { proof_term: Box::new(read), ascription, span: None }))
    }

    fn argument_follows(&self) -> bool {
        let Some(rest) = self.rest.strip_prefix(' ') else {
            return false;
        };
        let after = Reader { rest, types: self.types, levels: 0, bound: Vec::new() };
        rest.starts_with('(') || after.word() == "sorry" || admitted(after.word())
    }

    fn called(&mut self) -> Option<ProofTerm> {
        let make: fn(Box<ProofTerm>) -> ProofTerm = match self.word() {
            "fst" => |body| ProofTerm::ProjectFst(ProjectFst(body, None)),
            "snd" => |body| ProofTerm::ProjectSnd(ProjectSnd(body, None)),
            "inl" => |body| ProofTerm::OrLeft(OrLeft(body, None)),
            "inr" => |body| ProofTerm::OrRight(OrRight(body, None)),
            "abort" => |body| ProofTerm::Abort(Abort(body, None)),
            _ => return self.closed(),
        };
        self.rest = &self.rest[self.word().len()..];
        self.skip(" ")?;
        Some(make(Box::new(self.closed()?)))
    }

    /// A name, sorry, (), a pair, or a term in brackets.
    fn closed(&mut self) -> Option<ProofTerm> {
        if self.word() == "sorry" {
            self.skip("sorry")?;
            return Some(ProofTerm::Sorry(None));
        }
        if self.skip("(").is_none() {
            return Some(ProofTerm::Ident(Ident(self.name()?, None)));
        }
        if self.skip(")").is_some() {
            return Some(ProofTerm::Unit(None));
        }
        let first = self.term()?;
        if self.skip(", ").is_none() {
            self.skip(")")?;
            return Some(first);
        }
        let second = self.part()?;
        self.skip(")")?;
        Some(ProofTerm::Pair(Pair(Box::new(first), second, None)))
    }

    /// "A label that is a lone name is a datatype if listed, otherwise an atom."
    fn label(&mut self) -> Option<Type> {
        let read = self.implication()?;
        Some(match read {
            Prop::Atom(name, parameters) if parameters.is_empty() && self.types.contains(&name) => Type::Datatype(name),
            prop => Type::Prop(prop),
        })
    }

    fn implication(&mut self) -> Option<Prop> {
        self.deeper(|reader| {
            let left = reader.chain(" ∨ ", Prop::Or, |reader| reader.chain(" ∧ ", Prop::And, Self::prop))?;
            match reader.skip(" ⊃ ") {
                None => Some(left),
                Some(()) => Some(Prop::Impl(Box::new(left), Box::new(reader.implication()?))),
            }
        })
    }

    /// Parts joined to the left.
    fn chain(
        &mut self,
        sign: &str,
        join: fn(Box<Prop>, Box<Prop>) -> Prop,
        part: fn(&mut Self) -> Option<Prop>,
    ) -> Option<Prop> {
        let mut left = part(self)?;
        while self.skip(sign).is_some() {
            left = join(Box::new(left), Box::new(part(self)?));
        }
        Some(left)
    }

    fn prop(&mut self) -> Option<Prop> {
        self.deeper(|reader| {
            if reader.skip("⊤").is_some() {
                return Some(Prop::True);
            }
            if reader.skip("⊥").is_some() {
                return Some(Prop::False);
            }
            if reader.skip("¬").is_some() {
                return Some(Prop::Impl(Box::new(reader.prop()?), Box::new(Prop::False)));
            }
            if reader.skip("(").is_some() {
                let inner = reader.implication()?;
                return reader.skip(")").map(|()| inner);
            }
            for sign in ["∀", "∃"] {
                if reader.skip(sign).is_some() {
                    return reader.quantified(sign);
                }
            }
            reader.atom()
        })
    }

    fn quantified(&mut self, sign: &str) -> Option<Prop> {
        let object_ident = self.name()?;
        self.skip(":")?;
        let object_type_ident = self.name()?;
        self.skip(". ")?;
        self.bound.push(object_ident.clone());
        let body = Box::new(self.implication()?);
        self.bound.pop();
        Some(match sign {
            "∀" => Prop::ForAll { object_ident, object_type_ident, body },
            _ => Prop::Exists { object_ident, object_type_ident, body },
        })
    }

    fn atom(&mut self) -> Option<Prop> {
        let name = self.name()?;
        let mut parameters = Vec::new();
        if self.skip("(").is_some() {
            loop {
                let name = self.name()?;
                parameters.push(self.parameter(name));
                if self.skip(", ").is_none() {
                    break;
                }
            }
            self.skip(")")?;
        }
        Some(Prop::Atom(name, parameters))
    }

    /// "A parameter bound by a quantifier of its proposition is uninstantiated, any other instantiated with id 0."
    fn parameter(&self, name: String) -> PropParameter {
        match self.bound.contains(&name) {
            true => PropParameter::Uninstantiated(name),
            false => PropParameter::Instantiated(Identifier::new(name, 0)),
        }
    }
}

/// The names that a term has itself, without its parts' and its label's.
fn own_names(t: &ProofTerm) -> Vec<&str> {
    match t {
        ProofTerm::Ident(Ident(name, _)) => vec![name],
        ProofTerm::Function(f) => vec![&f.param_ident],
        ProofTerm::LetIn(l) => vec![&l.fst_ident, &l.snd_ident],
        ProofTerm::Case(c) => vec![&c.fst_ident, &c.snd_ident],
        _ => vec![],
    }
}

fn is_within(t: &ProofTerm, limits: &Limits) -> bool {
    let mut names = HashSet::new();
    nodes(t) <= limits.nodes
        && nesting(t) <= limits.nesting
        && labels_fit(t, limits, &mut names)
        && names.len() <= limits.names
}

/// Each label's proposition "nested at most 64 in at most 8,192 code bytes"; collects the names of term and labels.
fn labels_fit<'a>(t: &'a ProofTerm, limits: &Limits, names: &mut HashSet<&'a str>) -> bool {
    names.extend(own_names(t));
    let fits = match label(t) {
        None => true,
        Some(Type::Datatype(name)) => {
            names.insert(name);
            true
        }
        Some(Type::Prop(prop)) => measure(prop, names)
            .is_some_and(|(nesting, code)| nesting <= limits.label_nesting && code <= limits.label_code),
    };
    fits && parts(t).into_iter().all(|part| labels_fit(part, limits, names))
}

/// Nesting and bytes of code; none where an atom has more parameters than code can have.
fn measure<'a>(prop: &'a Prop, names: &mut HashSet<&'a str>) -> Option<(usize, usize)> {
    Some(match prop {
        Prop::True | Prop::False => (1, 1),
        Prop::And(l, r) | Prop::Or(l, r) | Prop::Impl(l, r) => {
            let (left, right) = (measure(l, names)?, measure(r, names)?);
            (1 + left.0.max(right.0), 1 + left.1 + right.1)
        }
        Prop::ForAll { object_ident, object_type_ident, body }
        | Prop::Exists { object_ident, object_type_ident, body } => {
            names.extend([object_ident.as_str(), object_type_ident]);
            let (nesting, code) = measure(body, names)?;
            (1 + nesting, 5 + code)
        }
        Prop::Atom(name, parameters) => {
            names.insert(name);
            names.extend(parameters.iter().map(|parameter| parameter.name().as_str()));
            let size = |parameter: &PropParameter| match parameter {
                PropParameter::Uninstantiated(_) => 3,
                PropParameter::Instantiated(_) => 5,
            };
            (1, 4 + parameters.iter().map(size).sum::<usize>())
        }
    })
    .filter(|_| !matches!(prop, Prop::Atom(_, parameters) if parameters.len() > PARAMETERS))
}

/// A term "with its ids set to 0".
pub fn without_ids(t: &ProofTerm) -> ProofTerm {
    let mut t = t.clone();
    clear(&mut t);
    t
}

fn clear(t: &mut ProofTerm) {
    match t {
        ProofTerm::Sorry(_) | ProofTerm::Unit(_) | ProofTerm::Ident(_) => {}
        ProofTerm::Pair(Pair(fst, snd, _)) => [fst, snd].into_iter().for_each(|part| clear(part)),
        ProofTerm::Function(f) => {
            f.param_type.iter_mut().for_each(clear_label);
            clear(&mut f.body);
        }
        ProofTerm::Application(a) => [&mut a.function, &mut a.applicant].into_iter().for_each(|part| clear(part)),
        ProofTerm::LetIn(l) => [&mut l.head, &mut l.body].into_iter().for_each(|part| clear(part)),
        ProofTerm::Case(c) => {
            [&mut c.head, &mut c.fst_term, &mut c.snd_term].into_iter().for_each(|part| clear(part));
        }
        ProofTerm::TypeAscription(a) => {
            clear_label(&mut a.ascription);
            clear(&mut a.proof_term);
        }
        ProofTerm::ProjectFst(ProjectFst(body, _))
        | ProofTerm::ProjectSnd(ProjectSnd(body, _))
        | ProofTerm::OrLeft(OrLeft(body, _))
        | ProofTerm::OrRight(OrRight(body, _))
        | ProofTerm::Abort(Abort(body, _)) => clear(body),
    }
}

fn clear_label(label: &mut Type) {
    if let Type::Prop(prop) = label {
        clear_prop(prop);
    }
}

fn clear_prop(prop: &mut Prop) {
    match prop {
        Prop::True | Prop::False => {}
        Prop::And(l, r) | Prop::Or(l, r) | Prop::Impl(l, r) => [l, r].into_iter().for_each(|part| clear_prop(part)),
        Prop::ForAll { body, .. } | Prop::Exists { body, .. } => clear_prop(body),
        Prop::Atom(_, parameters) => {
            for parameter in parameters {
                if let PropParameter::Instantiated(identifier) = parameter {
                    *identifier = Identifier::new(identifier.name().clone(), 0);
                }
            }
        }
    }
}

/// The provisos of restoring: "its names and the listed ones obey this rule, no listed datatype is also a zero-place atom
/// and its datatype labels are listed, uninstantiated parameters are bound, and no instantiated one stands under a
/// quantifier of its name". The text's length is asked by itself.
pub fn restorable(t: &ProofTerm, types: &[String]) -> bool {
    own_names(t).into_iter().all(admitted)
        && label(t).map_or(true, |label| match label {
            Type::Datatype(name) => admitted(name) && types.contains(name),
            Type::Prop(prop) => plain_prop(prop, types, &mut Vec::new()),
        })
        && parts(t).into_iter().all(|part| restorable(part, types))
}

fn plain_prop<'a>(prop: &'a Prop, types: &[String], bound: &mut Vec<&'a str>) -> bool {
    match prop {
        Prop::True | Prop::False => true,
        Prop::And(l, r) | Prop::Or(l, r) | Prop::Impl(l, r) => {
            plain_prop(l, types, bound) && plain_prop(r, types, bound)
        }
        Prop::ForAll { object_ident, object_type_ident, body }
        | Prop::Exists { object_ident, object_type_ident, body } => {
            bound.push(object_ident);
            let plain = plain_prop(body, types, bound);
            bound.pop();
            plain && admitted(object_ident) && admitted(object_type_ident)
        }
        Prop::Atom(name, parameters) => {
            admitted(name)
                && !(parameters.is_empty() && types.contains(name))
                && parameters.iter().all(|parameter| {
                    let is_bound = bound.contains(&parameter.name().as_str());
                    let uninstantiated = matches!(parameter, PropParameter::Uninstantiated(_));
                    admitted(parameter.name()) && is_bound == uninstantiated
                })
        }
    }
}

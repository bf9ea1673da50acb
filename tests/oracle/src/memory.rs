//! The memory in which a term that was read stands (document 02, ticket 2): a record for each node, the names as pairs into the
//! text, and the code of the labels.
use crate::{
    formula::{Binary, Formula, Parameter, Quantifier},
    reading::{read, TEXT_BYTES, WORDS},
    sheet::{refuse, Refusal, NAMES},
    terms::{label, nodes, parts, Form},
    text::{strict, term},
};
use alice::kernel::{
    checker::identifier::Identifier,
    proof_term::{ProofTerm, Type},
    prop::{Prop, PropParameter},
};
use std::collections::{HashMap, HashSet};

/// A record: its kind, five numbers, and how many labels its term has.
pub const RECORD: usize = 7;

/// A label's code stands at an even offset, half of which is its number.
const EVEN: usize = 2;

#[derive(Clone, PartialEq, Eq, Default, Debug)]
pub struct Memory {
    /// Parts before the whole, left to right: the last is the term's own.
    pub records: Vec<u16>,
    /// Offset and length in the text of each name where it is first met, low byte first.
    pub names: Vec<u8>,
    /// The code of the labels in the text's order, each at an even offset. A byte between two of them, or behind the last, is left
    /// as it was.
    pub code: Vec<Option<u8>>,
}

/// How much is lent for each.
#[derive(Clone, Copy, PartialEq, Eq, Debug)]
pub struct Room {
    pub records: usize,
    pub names: usize,
    pub code: usize,
}

impl Memory {
    pub fn room(&self) -> Room {
        Room { records: self.records.len(), names: self.names.len(), code: self.code.len() }
    }
}

/// The memory of the term that a text has, or 20, and then 16 where a room is too short.
pub fn read_into(list: &[u8], text: &[u8], room: Option<Room>) -> Result<Memory, Refusal> {
    let Some(term) = read(list, text) else {
        return refuse(20, 0);
    };
    let memory = stored(&term, text);
    let short = |room: Room| {
        room.records < memory.records.len() || room.names < memory.names.len() || room.code < memory.code.len()
    };
    match room {
        Some(room) if short(room) => refuse(16, 0),
        _ => Ok(memory),
    }
}

/// Each name of a strict text with its offset: every word that is none of the eleven.
fn words(text: &str) -> Vec<(usize, &str)> {
    let in_name = |byte: u8| byte.is_ascii_alphanumeric() || byte == b'_';
    let (bytes, mut at, mut all) = (text.as_bytes(), 0, vec![]);
    while at < bytes.len() {
        let length = bytes[at..].iter().take_while(|byte| in_name(**byte)).count();
        if length > 0 && !WORDS.contains(&&text[at..at + length]) {
            all.push((at, &text[at..at + length]));
        }
        at += length.max(1);
    }
    all
}

/// Where a term stands that was read from a text.
pub fn stored(term: &ProofTerm, text: &[u8]) -> Memory {
    let text = std::str::from_utf8(text).expect("a text that was read is UTF-8");
    let (mut memory, mut numbers) = (Memory::default(), HashMap::new());
    for (offset, name) in words(text) {
        let next = numbers.len() as u16;
        if *numbers.entry(name).or_insert(next) == next && numbers.len() as u16 > next {
            memory.names.extend([offset as u16, name.len() as u16].map(u16::to_le_bytes).concat());
        }
    }
    let mut offsets = vec![];
    for label in labels(term) {
        offsets.push(memory.code.len());
        let mut code = vec![];
        formula(label, &numbers).code(&mut |name| name, &mut code);
        memory.code.extend(code.into_iter().map(Some));
        memory.code.resize(memory.code.len().next_multiple_of(EVEN), None);
    }
    Storing { numbers, offsets: offsets.into_iter(), records: &mut memory.records }.term(term);
    memory
}

/// The propositions that are labels, in the text's order: a function's stands before its body, an ascription's behind it.
fn labels(t: &ProofTerm) -> Vec<&Prop> {
    let own = match label(t) {
        Some(Type::Prop(prop)) => vec![prop],
        _ => vec![],
    };
    let parts = parts(t).into_iter().flat_map(labels);
    match t {
        ProofTerm::Function(_) => own.into_iter().chain(parts).collect(),
        _ => parts.chain(own).collect(),
    }
}

/// A proposition over the numbers of its names.
fn formula(prop: &Prop, numbers: &HashMap<&str, u16>) -> Formula {
    let part = |prop: &Prop| Box::new(formula(prop, numbers));
    match prop {
        Prop::True => Formula::True,
        Prop::False => Formula::False,
        Prop::And(l, r) => Formula::Binary(Binary::And, part(l), part(r)),
        Prop::Or(l, r) => Formula::Binary(Binary::Or, part(l), part(r)),
        Prop::Impl(l, r) => Formula::Binary(Binary::Impl, part(l), part(r)),
        Prop::Atom(name, parameters) => {
            let parameter = |parameter: &PropParameter| match parameter {
                PropParameter::Uninstantiated(name) => Parameter::Uninstantiated(numbers[name.as_str()]),
                PropParameter::Instantiated(object) => Parameter::Instantiated(numbers[object.name().as_str()], 0),
            };
            Formula::Atom(numbers[name.as_str()], parameters.iter().map(parameter).collect())
        }
        Prop::ForAll { object_ident, object_type_ident, body } => Formula::Quantified(
            Quantifier::ForAll,
            numbers[object_ident.as_str()],
            numbers[object_type_ident.as_str()],
            part(body),
        ),
        Prop::Exists { object_ident, object_type_ident, body } => Formula::Quantified(
            Quantifier::Exists,
            numbers[object_ident.as_str()],
            numbers[object_type_ident.as_str()],
            part(body),
        ),
    }
}

struct Storing<'a, O> {
    numbers: HashMap<&'a str, u16>,
    /// Of the labels that are still to come, in the text's order.
    offsets: O,
    records: &'a mut Vec<u16>,
}

impl<O: Iterator<Item = usize>> Storing<'_, O> {
    /// A label as its kind and its number.
    fn label(&mut self, label: Option<&Type>) -> [u16; 2] {
        match label {
            None => [0, 0],
            Some(Type::Prop(_)) => [1, (self.offsets.next().expect("each label has code") / EVEN) as u16],
            Some(Type::Datatype(name)) => [2, self.numbers[name.as_str()]],
        }
    }

    /// Stores a term's records; the number of the last, and how many labels the term has.
    fn term(&mut self, t: &ProofTerm) -> (u16, u16) {
        let form = Form::of(t);
        let mut kind_and_number = [0, 0];
        if let Form::Function(..) = form {
            kind_and_number = self.label(label(t));
        }
        let parts: Vec<(u16, u16)> = parts(t).into_iter().map(|part| self.term(part)).collect();
        if let Form::Ascription(_) = form {
            kind_and_number = self.label(label(t));
        }
        let part = |k: usize| parts[k].0;
        let name = |name: &str| self.numbers[name];
        let [kind, number] = kind_and_number;
        let row = match &form {
            Form::Ident(x) => [0, name(x), 0, 0, 0, 0],
            Form::Pair => [1, part(0), part(1), 0, 0, 0],
            Form::Fst => [2, part(0), 0, 0, 0, 0],
            Form::Snd => [3, part(0), 0, 0, 0, 0],
            Form::Function(x, _) => [4, part(0), name(x), kind, number, 0],
            Form::Application => [5, part(0), part(1), 0, 0, 0],
            Form::LetIn(x, y) => [6, part(0), part(1), name(x), name(y), 0],
            Form::Inl => [7, part(0), 0, 0, 0, 0],
            Form::Inr => [8, part(0), 0, 0, 0, 0],
            Form::Case(x, y) => [9, part(0), part(1), part(2), name(x), name(y)],
            Form::Abort => [10, part(0), 0, 0, 0, 0],
            Form::Ascription(_) => [11, part(0), 0, kind, number, 0],
            Form::Unit => [12, 0, 0, 0, 0, 0],
            Form::Sorry => [13, 0, 0, 0, 0, 0],
        };
        let tally = parts.iter().map(|(_, tally)| tally).sum::<u16>() + (kind > 0) as u16;
        let record = (self.records.len() / RECORD) as u16;
        self.records.extend(row);
        self.records.push(tally);
        (record, tally)
    }
}

/// Is a text read, and if so: is the term printed as the text stands, has the memory its nodes and its labels, and does the term
/// stand in it again?
pub fn holds(list: &[u8], text: &[u8]) -> Result<bool, String> {
    let (Some(t), Ok(memory)) = (read(list, text), read_into(list, text, None)) else {
        return Ok(false);
    };
    let tally = memory.records.last().map(|tally| usize::from(*tally));
    let checks = [
        (term(&t, strict).as_bytes() == text, "printed otherwise"),
        (memory.records.len() == RECORD * nodes(&t), "another number of records"),
        (tally == Some(t.annotation_count()), "another tally"),
        (in_range(&memory), "a number out of range"),
        (restored(&memory, text) == Some(t), "another term in memory"),
    ];
    match checks.into_iter().find(|(holds, _)| !holds) {
        None => Ok(true),
        Some((_, how)) => Err(format!("{}: {how}", String::from_utf8_lossy(text))),
    }
}

/// Parts stand before the whole, no name stands twice, and there are no more names and bytes of code than there can be.
fn in_range(memory: &Memory) -> bool {
    let pairs: HashSet<&[u8]> = memory.names.chunks(4).collect();
    let mut records = memory.records.chunks(RECORD).enumerate();
    let parts = [0, 2, 1, 1, 1, 2, 2, 1, 1, 3, 1, 1, 0, 0];
    let before = |number: usize, record: &[u16]| {
        record[1..=parts[usize::from(record[0])]].iter().all(|part| usize::from(*part) < number)
    };
    pairs.len() == memory.names.len() / 4
        && pairs.len() <= NAMES
        && memory.code.len() < 2 * TEXT_BYTES
        && records.all(|(number, record)| before(number, record))
}

/// The term that stands in a memory, read beside its text; none where some number means nothing.
pub fn restored(memory: &Memory, text: &[u8]) -> Option<ProofTerm> {
    let pair = |at: usize| u16::from_le_bytes([memory.names[at], memory.names[at + 1]]);
    let name = |at: usize| {
        let (offset, length) = (usize::from(pair(at)), usize::from(pair(at + 2)));
        std::str::from_utf8(text.get(offset..offset + length)?).ok().map(String::from)
    };
    let names: Vec<String> = (0..memory.names.len()).step_by(4).map(name).collect::<Option<_>>()?;
    let mut terms: Vec<ProofTerm> = vec![];
    for record in memory.records.chunks(RECORD) {
        let [kind, a, b, c, d, e, _] = *record else { return None };
        let name = |number: u16| names.get(usize::from(number)).cloned();
        let label = || match c {
            1 => proposition(memory.code.get(EVEN * usize::from(d)..)?, &names).map(Type::Prop),
            2 => name(d).map(Type::Datatype),
            _ => None,
        };
        let (form, numbers) = match kind {
            0 => (Form::Ident(name(a)?), vec![]),
            1 => (Form::Pair, vec![a, b]),
            2 => (Form::Fst, vec![a]),
            3 => (Form::Snd, vec![a]),
            4 if c == 0 => (Form::Function(name(b)?, None), vec![a]),
            4 => (Form::Function(name(b)?, Some(label()?)), vec![a]),
            5 => (Form::Application, vec![a, b]),
            6 => (Form::LetIn(name(c)?, name(d)?), vec![a, b]),
            7 => (Form::Inl, vec![a]),
            8 => (Form::Inr, vec![a]),
            9 => (Form::Case(name(d)?, name(e)?), vec![a, b, c]),
            10 => (Form::Abort, vec![a]),
            11 => (Form::Ascription(label()?), vec![a]),
            12 => (Form::Unit, vec![]),
            13 => (Form::Sorry, vec![]),
            _ => return None,
        };
        let parts = numbers.into_iter().map(|number| terms.get(usize::from(number)).cloned());
        terms.push(form.over(parts.collect::<Option<_>>()?));
    }
    terms.pop()
}

/// The proposition whose code stands in front.
fn proposition(code: &[Option<u8>], names: &[String]) -> Option<Prop> {
    let code: Vec<u8> = code.iter().map_while(|byte| *byte).collect();
    front(&mut &code[..], names)
}

fn front(code: &mut &[u8], names: &[String]) -> Option<Prop> {
    let (head, rest) = code.split_first()?;
    *code = rest;
    let number = |code: &mut &[u8]| {
        let (two, rest) = code.split_at_checked(2)?;
        *code = rest;
        Some(u16::from_le_bytes([two[0], two[1]]))
    };
    let name = |code: &mut &[u8]| names.get(usize::from(number(code)?)).cloned();
    Some(match head {
        0 => Prop::True,
        1 => Prop::False,
        2..=4 => {
            let (l, r) = (front(code, names)?.boxed(), front(code, names)?.boxed());
            [Prop::And, Prop::Or, Prop::Impl][usize::from(*head) - 2](l, r)
        }
        5 => {
            let atom = name(code)?;
            let (count, rest) = code.split_first()?;
            *code = rest;
            let mut parameters = vec![];
            for _ in 0..*count {
                let (tag, rest) = code.split_first()?;
                *code = rest;
                let object = name(code)?;
                parameters.push(match tag {
                    0 => PropParameter::Uninstantiated(object),
                    _ => PropParameter::Instantiated(Identifier::new(object, usize::from(number(code)?))),
                });
            }
            Prop::Atom(atom, parameters)
        }
        _ => {
            let (object_ident, object_type_ident) = (name(code)?, name(code)?);
            let body = front(code, names)?.boxed();
            match head {
                6 => Prop::ForAll { object_ident, object_type_ident, body },
                _ => Prop::Exists { object_ident, object_type_ident, body },
            }
        }
    })
}

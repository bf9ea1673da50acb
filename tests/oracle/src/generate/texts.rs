//! Texts of terms with lists of datatypes: such as are read, such as are near to one, every small one, and those at the limits.
use super::{Kind, Sheets};
use crate::{
    reading::{TEXT_BYTES, WORDS},
    rng::Rng,
    sheet::{decode, NAME_BYTES, PARAMETERS},
    terms::{every, nodes, part_at, replaced, Form},
    text::{strict, term},
    walk::export,
};
use alice::kernel::{
    checker::identifier::Identifier,
    proof_term::{ProofTerm, Type},
    prop::{Prop, PropParameter},
};

/// A caller's list of datatypes, and a text.
#[derive(Clone, PartialEq, Eq, Hash, Debug)]
pub struct Text {
    pub list: Vec<u8>,
    pub text: Vec<u8>,
}

impl Text {
    pub fn new(list: &str, text: impl Into<String>) -> Self {
        Text { list: list.into(), text: text.into().into_bytes() }
    }
}

/// Words that are names, many of them near to one that is none.
const NEAR: [&str; 16] = [
    "f", "fn1", "fnx", "cas", "cases", "off", "inl_", "Inr", "letin", "i", "n", "in2", "fst_snd", "aborts", "sorry0",
    "SORRY",
];

fn name(rng: &mut Rng) -> String {
    let letters = "ABCDPQRTabchuvwxyz";
    match rng.below(12) {
        0..=5 => letters.chars().nth(rng.below(letters.len())).unwrap().into(),
        6..=8 => (*rng.pick(&NEAR)).into(),
        9 => format!("{}{}", rng.pick(&["A", "x", "n"]), rng.below(1000)),
        10 => "m".repeat(NAME_BYTES - rng.below(2)),
        _ => format!("{}_{}", rng.pick(&NEAR), rng.below(10)),
    }
}

/// One who draws terms over some names, of which a few are datatypes.
struct Drawing {
    rng: Rng,
    names: Vec<String>,
    types: Vec<String>,
    /// The objects of the quantifiers around the place.
    bound: Vec<String>,
    /// So many of a hundred terms have a label where they may.
    labels: usize,
    skewed: bool,
}

impl Drawing {
    fn new(mut rng: Rng) -> Self {
        let many = if rng.chance(5) { rng.range(100, 600) } else { rng.range(1, 12) };
        let names: Vec<String> = (0..many).map(|_| name(&mut rng)).collect();
        let types = (0..rng.below(3)).map(|_| name(&mut rng)).collect();
        let (labels, skewed) = (*rng.pick(&[0, 20, 60]), rng.chance(40));
        Drawing { rng, names, types, bound: vec![], labels, skewed }
    }

    fn name(&mut self) -> String {
        self.rng.pick(&self.names).clone()
    }

    fn parameter(&mut self) -> PropParameter {
        let name = match self.bound.is_empty() || self.rng.chance(40) {
            true => self.name(),
            false => self.rng.pick(&self.bound).clone(),
        };
        match self.bound.contains(&name) {
            true => PropParameter::Uninstantiated(name),
            false => PropParameter::Instantiated(Identifier::new(name, 0)),
        }
    }

    fn prop(&mut self, size: usize) -> Prop {
        if size == 0 {
            return match self.rng.below(8) {
                0 => Prop::True,
                1 | 2 => Prop::False,
                _ => {
                    let count = *self.rng.pick(&[0, 0, 0, 1, 2, PARAMETERS]);
                    Prop::Atom(self.name(), (0..count).map(|_| self.parameter()).collect())
                }
            };
        }
        if self.rng.chance(25) {
            let (object_ident, object_type_ident) = (self.name(), self.name());
            self.bound.push(object_ident.clone());
            let body = Box::new(self.prop(size - 1));
            self.bound.pop();
            return match self.rng.chance(50) {
                true => Prop::ForAll { object_ident, object_type_ident, body },
                false => Prop::Exists { object_ident, object_type_ident, body },
            };
        }
        let left = self.rng.below(size);
        let (l, r) = (Box::new(self.prop(left)), Box::new(self.prop(size - 1 - left)));
        match self.rng.below(5) {
            0 => Prop::And(l, r),
            1 => Prop::Or(l, r),
            2 => Prop::Impl(l, r),
            3 => Prop::Impl(l, Box::new(Prop::False)),
            _ => Prop::Impl(Box::new(Prop::Impl(r, Box::new(Prop::False))), Box::new(Prop::False)),
        }
    }

    fn label(&mut self) -> Type {
        if !self.types.is_empty() && self.rng.chance(25) {
            return Type::Datatype(self.rng.pick(&self.types).clone());
        }
        let size = *self.rng.pick(&[0, 0, 1, 1, 2, 3, 5, 9]);
        Type::Prop(self.prop(size))
    }

    fn form(&mut self, parts: usize) -> Form {
        match parts {
            0 => match self.rng.below(8) {
                0 => Form::Sorry,
                1 => Form::Unit,
                _ => Form::Ident(self.name()),
            },
            1 if self.rng.chance(self.labels) => match self.rng.chance(50) {
                true => Form::Ascription(self.label()),
                false => Form::Function(self.name(), Some(self.label())),
            },
            1 => match self.rng.below(8) {
                0 => Form::Fst,
                1 => Form::Snd,
                2 => Form::Inl,
                3 => Form::Inr,
                4 => Form::Abort,
                _ => Form::Function(self.name(), None),
            },
            2 => match self.rng.below(5) {
                0 => Form::LetIn(self.name(), self.name()),
                1 | 2 => Form::Pair,
                _ => Form::Application,
            },
            _ => Form::Case(self.name(), self.name()),
        }
    }

    /// A term of so many nodes.
    fn term(&mut self, size: usize) -> ProofTerm {
        let most = (size - 1).min(3);
        let count = if size == 1 { 0 } else { *self.rng.pick(&[1, 1, 2, 2, 2, 3].map(|count: usize| count.min(most))) };
        let mut shares = vec![1; count];
        for _ in 0..(size - 1).saturating_sub(count) {
            let at = if self.skewed { 0 } else { self.rng.below(count) };
            shares[at] += 1;
        }
        self.rng.shuffle(&mut shares);
        let form = self.form(count);
        form.over(shares.into_iter().map(|share| self.term(share)).collect())
    }

    fn list(&mut self) -> Vec<u8> {
        let mut list = self.types.clone();
        if self.rng.chance(10) {
            list.push(self.name());
        }
        list.join("\n").into()
    }
}

/// A number of nodes, from one to about the limit.
fn scale(rng: &mut Rng) -> usize {
    let (low, high) = [(1, 6), (5, 30), (30, 300), (300, 1200), (1900, 2100)][rng.weighted(&[40, 45, 12, 2, 1])];
    rng.range(low, high)
}

/// A random term, and its datatypes.
fn drawn(rng: Rng) -> (ProofTerm, Vec<u8>) {
    let mut drawing = Drawing::new(rng);
    let size = scale(&mut drawing.rng);
    (drawing.term(size), drawing.list())
}

/// The strict text of a random term. It is read unless it passes a limit.
pub fn valid(rng: Rng) -> Text {
    let (t, list) = drawn(rng);
    Text { list, text: term(&t, strict).into_bytes() }
}

/// What is put into a text, or takes the place of a part of it.
const TOKENS: [&str; 44] = [
    "(", ")", ", ", ",", " ", "  ", ": ", ":", "fn ", " => ", "=>", "case ", " of inl ", ", inr ", " of ", "inl ",
    "inr ", "fst ", "snd ", "abort ", "sorry", "let (", ") = ", " in ", "()", "¬", " ∧ ", " ∨ ", " ⊃ ", "⊤", "⊥", "∀",
    "∃", ". ", "∀x:T. ", "\n", "_", "0", "x", "A", "P(x)", "(A)", " ⊃ ⊥", "T",
];

fn random_token(rng: &mut Rng) -> Vec<u8> {
    match rng.below(12) {
        0 => vec![rng.draw() as u8],
        1 => (*rng.pick(&WORDS)).into(),
        2 => name(rng).into(),
        _ => (*rng.pick(&TOKENS)).into(),
    }
}

/// A place between two characters.
fn boundary(text: &[u8], rng: &mut Rng) -> usize {
    let mut at = rng.below(text.len() + 1);
    while at < text.len() && text[at] & 0xc0 == 0x80 {
        at += 1;
    }
    at
}

/// Where one of the tokens or words occurs in a text.
fn occurrence(text: &[u8], rng: &mut Rng) -> Option<(usize, usize)> {
    let token = random_token(rng);
    let found: Vec<usize> = (0..text.len()).filter(|at| text[*at..].starts_with(&token)).collect();
    (!found.is_empty()).then(|| (*rng.pick(&found), token.len()))
}

/// The bracket that closes the one at a place.
fn closing(text: &[u8], open: usize) -> Option<usize> {
    let mut depth = 0;
    (open..text.len()).find(|at| {
        depth += (text[*at] == b'(') as isize - (text[*at] == b')') as isize;
        depth == 0
    })
}

fn change(text: &mut Vec<u8>, rng: &mut Rng) {
    let at = boundary(text, rng);
    match rng.below(9) {
        0 => {
            let token = random_token(rng);
            text.splice(at..at, token);
        }
        1 => {
            let end = (at + rng.range(1, 4)).min(text.len());
            text.drain(at..end);
        }
        2 | 3 => {
            if let Some((start, length)) = occurrence(text, rng) {
                let token = random_token(rng);
                text.splice(start..start + length, token);
            }
        }
        4 => {
            if let Some((start, length)) = occurrence(text, rng) {
                text.drain(start..start + length);
            }
        }
        5 => {
            let end = boundary(text, rng);
            let (start, end) = (at.min(end), at.max(end));
            text.insert(end, b')');
            text.insert(start, b'(');
        }
        6 => {
            let open: Vec<usize> = (0..text.len()).filter(|at| text[*at] == b'(').collect();
            if !open.is_empty() {
                let open = *rng.pick(&open);
                if let Some(close) = closing(text, open) {
                    text.remove(close);
                }
                text.remove(open);
            }
        }
        7 => {
            let end = boundary(text, rng);
            let part = text[at.min(end)..at.max(end)].to_vec();
            let to = boundary(text, rng);
            text.splice(to..to, part);
        }
        _ => {
            if !text.is_empty() {
                let at = rng.below(text.len());
                text[at] = rng.draw() as u8;
            }
        }
    }
}

const BAD_LISTS: [&[u8]; 14] = [
    b"in",
    b"fn",
    b"sorry",
    b"T\n",
    b"\nT",
    b"\n",
    b"T\n\nU",
    b"1",
    b"_T",
    b"T U",
    b"T,U",
    b"T\0",
    b"\xff",
    b"m23456789012345678901234567890123",
];

/// A name that no drawing has.
const ELSEWHERE: &str = "Z0";

/// The strict text of a term but for one part, which stands in brackets, or without those that it needs.
fn misbracketed(t: &ProofTerm, rng: &mut Rng) -> String {
    let node = rng.below(nodes(t));
    let part = term(part_at(t, node), strict);
    let around = term(&replaced(t, node, &Form::Ident(ELSEWHERE.into()).over(vec![])), strict);
    let shown = if rng.chance(50) { format!("({part})") } else { part };
    around.replacen(ELSEWHERE, &shown, 1)
}

/// A text that is near to one that is read, or a good text with a list that is none.
pub fn mutated(mut rng: Rng) -> Text {
    let (mut t, mut list) = drawn(rng.fork());
    while nodes(&t) > LARGE {
        (t, list) = drawn(rng.fork());
    }
    if rng.chance(25) {
        return Text { list, text: misbracketed(&t, &mut rng).into() };
    }
    let mut text = term(&t, strict).into_bytes();
    match rng.below(40) {
        0 | 1 => return Text { list: rng.pick(&BAD_LISTS).to_vec(), text },
        2 => return Text { list, text: [b"(", &text[..], b")"].concat() },
        3 => return Text { list, text: [&text[..], *rng.pick(&[&b" "[..], b"\n", b"\0", b"x"])].concat() },
        // Listed names are labels too: a lone name changes its meaning with the list.
        4..=7 => list = [list, b"A".to_vec()].join(&b'\n').strip_prefix(b"\n").unwrap_or(b"A").to_vec(),
        _ => {}
    }
    for _ in 0..rng.range(1, 3) {
        change(&mut text, &mut rng);
    }
    Text { list, text }
}

/// Terms of more nodes are as telling, and slower to read.
const LARGE: usize = 100;

/// Tokens in any order.
pub fn soup(mut rng: Rng) -> Text {
    let text = (0..rng.range(0, 12)).flat_map(|_| random_token(&mut rng)).collect();
    Text { list: rng.pick(&[&b""[..], b"T", b"A\nT"]).to_vec(), text }
}

/// The strict text of a sheet's term with its datatypes as the list, if it is exported.
pub fn exported(sheet: &[u8]) -> Option<Text> {
    let sheet = decode(sheet).ok()?;
    let export = export(&sheet).ok()?;
    let names: Vec<String> = export.every_datatype.iter().map(|name| sheet.name(*name)).collect();
    Some(Text::new(&names.join("\n"), term(&export.term, strict)))
}

/// The forms of every small term: with `T` listed, `T` is a datatype and `A` an atom.
fn small_forms() -> Vec<Form> {
    let atom = |name: &str| Prop::Atom(name.into(), vec![]);
    let uninstantiated = Prop::Atom("P".into(), vec![PropParameter::Uninstantiated("x".into())]);
    let quantified =
        Prop::ForAll { object_ident: "x".into(), object_type_ident: "T".into(), body: Box::new(uninstantiated) };
    let negated = Prop::Impl(Box::new(atom("A")), Box::new(Prop::False));
    vec![
        Form::Sorry,
        Form::Unit,
        Form::Ident("x".into()),
        Form::Ident("f".into()),
        Form::Pair,
        Form::Fst,
        Form::Inr,
        Form::Abort,
        Form::Application,
        Form::Case("x".into(), "y".into()),
        Form::LetIn("x".into(), "y".into()),
        Form::Function("x".into(), None),
        Form::Function("f".into(), Some(Type::Datatype("T".into()))),
        Form::Function("x".into(), Some(Type::Prop(quantified))),
        Form::Ascription(Type::Prop(atom("A"))),
        Form::Ascription(Type::Prop(negated)),
        Form::Ascription(Type::Datatype("T".into())),
    ]
}

/// Hands over every small term of so many nodes with its text.
pub fn every_small(size: usize, see: &mut impl FnMut(ProofTerm, Text)) {
    every(&small_forms(), size, &mut |t| {
        let text = Text::new("T", term(&t, strict));
        see(t, text);
    });
}

/// A balanced tree of pairs.
fn pairs(parts: &[String]) -> String {
    match parts {
        [one] => one.clone(),
        _ => format!("({}, {})", pairs(&parts[..parts.len() / 2]), pairs(&parts[parts.len() / 2..])),
    }
}

/// A balanced conjunction.
fn conjunction(parts: &[String]) -> String {
    match parts {
        [one] => one.clone(),
        _ => {
            let (left, right) = parts.split_at(parts.len() / 2);
            let right = if right.len() == 1 { conjunction(right) } else { format!("({})", conjunction(right)) };
            format!("{} ∧ {right}", conjunction(left))
        }
    }
}

fn numbered(count: usize) -> Vec<String> {
    (0..count).map(|i| format!("n{i}")).collect()
}

/// An atom of so many parameters.
fn wide(count: usize) -> String {
    format!("P({})", vec!["a"; count].join(", "))
}

/// A term that nests so deep: the text of a form around a part, again and again.
fn nested(levels: usize, around: impl Fn(&str) -> String) -> String {
    (1..levels).fold(String::from("x"), |inner, _| around(&inner))
}

/// Each limit at its bound and one past it.
pub fn limits() -> Vec<(String, Text)> {
    let mut all: Vec<(String, Text)> = vec![];
    let mut add = |what: &str, list: &str, text: String| all.push((what.into(), Text::new(list, text)));
    let many = pairs(&vec!["x".into(); 1024]);
    add("2047 nodes", "", many.clone());
    add("2048 nodes", "", format!("fst {many}"));
    add("2049 nodes", "", format!("fst (fst {many})"));
    add("2050 nodes", "", format!("({many}, (x, x))"));
    for levels in [511, 512, 513] {
        let of = |what: &str| format!("{levels} levels of {what}");
        add(&of("functions"), "", nested(levels, |inner| format!("fn x => {inner}")));
        add(&of("labelled functions"), "T", nested(levels, |inner| format!("fn x: T => {inner}")));
        add(&of("pairs to the right"), "", nested(levels, |inner| format!("(x, {inner})")));
        add(&of("pairs to the left"), "", nested(levels, |inner| format!("({inner}, x)")));
        add(&of("arguments"), "", nested(levels, |inner| format!("{inner} x")));
        add(&of("cases in heads"), "", nested(levels, |inner| format!("case {inner} of inl x => x, inr y => y")));
        add(&of("first branches"), "", nested(levels, |inner| format!("case x of inl x => {inner}, inr y => y")));
        add(&of("second branches"), "", nested(levels, |inner| format!("case x of inl x => x, inr y => {inner}")));
        add(&of("lets in heads"), "", nested(levels, |inner| format!("let (x, y) = {inner} in x")));
        add(&of("lets"), "", nested(levels, |inner| format!("let (x, y) = x in {inner}")));
        let brackets = |inner: &str| if inner == "x" { "x".into() } else { format!("({inner})") };
        add(&of("projections"), "", nested(levels, |inner| format!("fst {}", brackets(inner))));
        add(&of("arguments in brackets"), "", nested(levels, |inner| format!("x {}", brackets(inner))));
        add(&of("ascriptions"), "", nested(levels, |inner| format!("{}: A", brackets(inner))));
        let turns = |inner: &str| match (inner.starts_with("fn"), inner) {
            (true, _) => format!("({inner}): A"),
            (false, "x") => "fn x => x".into(),
            (false, _) => format!("fn x => ({inner})"),
        };
        add(&of("functions and ascriptions"), "", nested(levels, turns));
        let heads = |inner: &str| match (inner.starts_with("case"), inner) {
            (true, _) => format!("({inner}): A"),
            (false, "x") => "case x of inl x => x, inr y => y".into(),
            (false, _) => format!("case ({inner}) of inl x => x, inr y => y"),
        };
        add(&of("cases and ascriptions"), "", nested(levels, heads));
    }
    for count in [511, 512, 513] {
        add(&format!("{count} names"), "", pairs(&numbered(count)));
        add(&format!("{count} names, repeated"), "", pairs(&[numbered(count), numbered(count)].concat()));
        let objects = numbered(count - 2).chunks(8).map(|names| format!("P({})", names.join(", "))).collect::<Vec<_>>();
        add(&format!("{count} names in a label"), "", format!("x: {}", conjunction(&objects)));
        let datatypes = numbered(count - 1).iter().map(|name| format!("x: {name}")).collect::<Vec<_>>();
        add(&format!("{count} names, datatypes"), &numbered(count - 1).join("\n"), pairs(&datatypes));
    }
    add("513 listed names", &numbered(513).join("\n"), "x: n512".into());
    for levels in [63, 64, 65] {
        let of = |what: &str| format!("a label of {levels} levels, {what}");
        add(&of("¬"), "", format!("x: {}A", "¬".repeat(levels - 1)));
        add(&of("∧ to the left"), "", format!("x: A{}", " ∧ A".repeat(levels - 1)));
        add(&of("∨ to the left"), "", format!("x: A{}", " ∨ A".repeat(levels - 1)));
        add(&of("⊃ to the right"), "", format!("x: {}A", "A ⊃ ".repeat(levels - 1)));
        add(
            &of("⊃ to the left"),
            "",
            format!(
                "x: {}",
                nested(levels, |inner| match inner {
                    "x" => "x ⊃ A".into(),
                    _ => format!("({inner}) ⊃ A"),
                })
            ),
        );
        add(&of("quantifiers"), "", format!("x: {}P(y)", "∀y:T. ".repeat(levels - 1)));
        add(&of("of a function"), "T", format!("fn x: {}T => x", "¬".repeat(levels - 1)));
    }
    // 44 bytes of code for each wide atom, one for each ⊤ and each ∧.
    for (atoms, tops) in [(181, 23), (180, 46), (181, 24), (180, 47), (181, 25)] {
        let leaves = [vec![wide(8); atoms], vec!["⊤".into(); tops]].concat();
        add(&format!("{} bytes of code", 45 * atoms + 2 * tops - 1), "", format!("x: {}", conjunction(&leaves)));
    }
    add("8 parameters", "", format!("x: {}", wide(8)));
    add("9 parameters", "", format!("x: {}", wide(9)));
    for length in [31, 32, 33] {
        let long = "n".repeat(length);
        add(&format!("a name of {length}"), "", long.clone());
        add(&format!("an atom of {length}"), "", format!("x: {long}"));
        add(&format!("a bound name of {length}"), "", format!("fn {long} => x"));
        add(&format!("a listed name of {length}"), &long, format!("x: {long}"));
    }
    // Labels whose code passes 65,535 bytes together, so that offsets do.
    let label = format!("x: {}", conjunction(&vec![wide(8); 150]));
    for count in [9, 10, 13] {
        add(&format!("{count} long labels"), "", pairs(&vec![label.clone(); count]));
    }
    for last in [TEXT_BYTES - 1, TEXT_BYTES, TEXT_BYTES + 1, TEXT_BYTES + 2, 2 * TEXT_BYTES] {
        add(&format!("{last} bytes"), "", of_length(last));
    }
    for deep in ["(", "x: (", "fst (", "¬", "fn x => ", "x: ∀y:T. ", "x: A ⊃ ", "(x, ", "x ", "case ", "let (x, y) = "]
    {
        add(&format!("{deep:?} again and again"), "", deep.repeat(TEXT_BYTES / deep.len()));
    }
    let listed = |count: usize| (0..count).map(|i| format!("m{i}")).collect::<Vec<_>>().join("\n");
    add("10,000 listed names", &listed(10_000), "x: m9999".into());
    add("a bad name after 10,000", &(listed(10_000) + "\nin"), "x: m9999".into());
    all
}

/// A text of so many bytes.
fn of_length(last: usize) -> String {
    let wide = format!("x: P({})", vec!["n".repeat(32); 8].join(", "));
    let mut parts = vec![wide.clone(); 2];
    while pairs(&parts).len() + wide.len() + 44 < last {
        parts.push(wide.clone());
    }
    while pairs(&parts).len() + 36 < last {
        parts.push("x".repeat(32.min(last - pairs(&parts).len() - 9)));
    }
    parts.push("y".repeat(last - pairs(&parts).len() - 4));
    pairs(&parts)
}

/// The kinds of texts, in the order in which `texts` hands them over.
#[derive(Clone, Copy, PartialEq, Eq, PartialOrd, Ord, Debug)]
pub enum TextKind {
    Limit,
    Small,
    Valid,
    Near,
    Tokens,
    Exported,
}

/// Hands over texts of every kind, as long as that goes well: those at the limits, every small one of at most `most` nodes, `count`
/// each of valid texts, of near ones and of tokens in any order, and the terms of some sheets.
pub fn texts<E>(
    seed: u64,
    count: usize,
    most: usize,
    see: &mut impl FnMut(TextKind, Text) -> Result<(), E>,
) -> Result<(), E> {
    limits().into_iter().try_for_each(|(_, text)| see(TextKind::Limit, text))?;
    for size in 1..=most {
        let mut seen = Ok(());
        every_small(size, &mut |_, text| {
            if seen.is_ok() {
                seen = see(TextKind::Small, text);
            }
        });
        seen?;
    }
    for index in 0..count as u64 {
        see(TextKind::Valid, valid(Rng::new(seed, index)))?;
        see(TextKind::Near, mutated(Rng::new(!seed, index)))?;
        see(TextKind::Tokens, soup(Rng::new(seed, index)))?;
    }
    let kinds = [(Kind::Sound, count / 8), (Kind::Random, count / 4), (Kind::Quantified, count / 4), (Kind::Limits, 0)];
    for (kind, count) in kinds {
        for (_, sheet) in Sheets::new(kind, seed, count).iter() {
            exported(&sheet).map_or(Ok(()), |text| see(TextKind::Exported, text))?;
        }
    }
    Ok(())
}

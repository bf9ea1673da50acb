//! Sequences of questions on the Rust's name context with its answers, as one file, for a program that asks them of the
//! library's. `README.md` has its form.
use crate::rng::Rng;
use alice::kernel::{
    checker::{identifier::Identifier, identifier_context::IdentifierContext},
    proof_term::Type,
    prop::Prop,
};

/// So many contexts, and so many questions on each.
const CONTEXTS: usize = 240;
const QUESTIONS: usize = 40;
/// The bytes of the pairs and of the text: the names of a context.
const NAMES: usize = 8;
const TEXT: usize = 64;
/// The most numbers that are lent, and the numbers of an entry.
const ROOM: usize = 64;
const ENTRY: usize = 4;
/// Words that are alike, some of them twice among a context's names.
const WORDS: [&str; 6] = ["A", "a", "AB", "A1", "B", "A_long_0"];
const IDS: [u16; 4] = [0, 1, 2, u16::MAX];

/// The kinds of questions, and what an answer says beside the length.
const INSERT: u16 = 0;
const REMOVE_BY_NAME: u16 = 1;
const REMOVE: u16 = 2;
const FIRST_VISIBLE: u16 = 3;
const NEXT_VISIBLE: u16 = 4;
const GET: u16 = 5;
const GET_BY_NAME: u16 = 6;
const NOTHING: u16 = 0;
const AN_ENTRY: u16 = 1;
const REFUSED: u16 = 16;

/// Name, id, kind of type and number of type.
type Entry = [u16; ENTRY];

pub struct List {
    pub bytes: Vec<u8>,
    pub contexts: usize,
    pub questions: usize,
}

/// The list, which depends on the seed alone.
pub fn list(seed: u64) -> List {
    let mut bytes = (CONTEXTS as u16).to_le_bytes().to_vec();
    for index in 0..CONTEXTS {
        let mut rng = Rng::new(seed, index as u64);
        let words: Vec<&str> = (0..NAMES).map(|_| *rng.pick(&WORDS)).collect();
        let room = rng.below(ROOM + 1);
        bytes.extend(names(&words));
        bytes.extend((room as u16).to_le_bytes());
        let mut asked = Asked::new(words, room / ENTRY);
        while asked.questions.len() < QUESTIONS {
            asked.ask_one(&mut rng);
        }
        bytes.extend(asked.questions[..QUESTIONS].concat());
    }
    List { bytes, contexts: CONTEXTS, questions: CONTEXTS * QUESTIONS }
}

/// The pairs and the text of so many words, one after another.
fn names(words: &[&str]) -> Vec<u8> {
    let mut text = words.concat().into_bytes();
    let mut at = 0;
    let pair = |word: &&str| {
        let pair = [at, word.len()].map(|number| (number as u16).to_le_bytes()).concat();
        at += word.len();
        pair
    };
    let pairs = words.iter().map(pair).collect::<Vec<_>>().concat();
    text.resize(TEXT, 0);
    [pairs, text].concat()
}

/// A context of the Rust, what was inserted into it, and the questions so far with their answers.
struct Asked<'a> {
    words: Vec<&'a str>,
    room: usize,
    context: IdentifierContext,
    inserted: Vec<Entry>,
    questions: Vec<Vec<u8>>,
}

impl<'a> Asked<'a> {
    fn new(words: Vec<&'a str>, room: usize) -> Self {
        Asked { words, room, context: IdentifierContext::new(), inserted: vec![], questions: vec![] }
    }

    fn ask_one(&mut self, rng: &mut Rng) {
        let entry = [rng.below(NAMES) as u16, *rng.pick(&IDS), rng.below(2) as u16, self.inserted.len() as u16];
        let identifier = self.identifier(entry);
        match rng.weighted(&[40, 10, 10, 15, 15, 10]) {
            0 => self.insert(entry),
            1 => {
                let removed = self.context.remove_by_name(identifier.name());
                let found = removed.map(|(identifier, kind)| self.found(&kind, Some(&identifier)));
                self.add(REMOVE_BY_NAME, entry, found);
            }
            2 => {
                let found = self.context.remove(&identifier).map(|kind| self.found(&kind, None));
                self.add(REMOVE, entry, found);
            }
            3 => {
                let got = self.context.get_by_name(identifier.name());
                let found = got.map(|(identifier, kind)| self.found(kind, Some(identifier)));
                self.add(GET_BY_NAME, entry, found);
            }
            4 => {
                let found = self.context.get(&identifier).map(|kind| self.found(kind, None));
                self.add(GET, entry, found);
            }
            _ => self.all_visible(),
        }
    }

    /// The Rust's context grows as far as it likes; document 01 refuses an entry past the lent room.
    fn insert(&mut self, entry: Entry) {
        if self.context.len() == self.room {
            return self.answer(INSERT, entry, REFUSED, Entry::default());
        }
        self.context.insert(self.identifier(entry), type_of(entry));
        self.inserted.push(entry);
        self.add(INSERT, entry, None);
    }

    /// What `get_all_visible` lists is asked for entry by entry, and once past the last.
    fn all_visible(&mut self) {
        let all = self.context.get_all_visible();
        let found = all.iter().map(|(identifier, kind)| Some(self.found(kind, Some(identifier)))).collect::<Vec<_>>();
        for (index, entry) in found.into_iter().chain([None]).enumerate() {
            self.add(if index == 0 { FIRST_VISIBLE } else { NEXT_VISIBLE }, Entry::default(), entry);
        }
    }

    fn identifier(&self, entry: Entry) -> Identifier {
        Identifier::new(self.words[entry[0] as usize].into(), entry[1] as usize)
    }

    /// The entry of a type, which no other has, and whose identifier the Rust is to hand out.
    fn found(&self, kind: &Type, identifier: Option<&Identifier>) -> Entry {
        let entry = *self.inserted.iter().find(|entry| type_of(**entry) == *kind).expect("a type that was inserted");
        assert!(identifier.is_none_or(|identifier| *identifier == self.identifier(entry)));
        entry
    }

    fn add(&mut self, kind: u16, asked: Entry, found: Option<Entry>) {
        self.answer(kind, asked, if found.is_some() { AN_ENTRY } else { NOTHING }, found.unwrap_or_default());
    }

    fn answer(&mut self, kind: u16, asked: Entry, outcome: u16, found: Entry) {
        let length = self.context.len() as u16;
        let numbers = [&[kind][..], &asked, &[length, outcome], &found].concat();
        self.questions.push(numbers.into_iter().flat_map(u16::to_le_bytes).collect());
    }
}

/// The Rust's type for the last two numbers of an entry.
fn type_of(entry: Entry) -> Type {
    let word = format!("t{}", entry[3]);
    if entry[2] == 0 {
        Type::Prop(Prop::Atom(word, vec![]))
    } else {
        Type::Datatype(word)
    }
}

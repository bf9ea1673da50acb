//! Reads texts of every kind (document 02, ticket 2), in rooms exactly enough, too short in each part, larger and none.
use oracle::{
    generate::texts::{limits, texts, Text},
    memory::{read_into, Memory, Room},
    rng::Rng,
    sheet::Refusal,
};
use std::{collections::BTreeMap, fmt};

/// What is given to a reader, and the memory that it is lent.
pub struct Lent<'a> {
    pub list: &'a [u8],
    pub text: &'a [u8],
    pub records: *mut u16,
    pub names: *mut u8,
    pub code: *mut u8,
    pub room: Room,
}

/// What a reader hands back: 0 or the number of a refusal, and the other numbers.
#[derive(Clone, Copy, PartialEq, Eq, Debug)]
pub struct Told {
    pub number: u8,
    /// Nodes, names and bytes of code where the text was read; the refusal's place, and twice 0.
    pub values: [usize; 3],
    pub column: usize,
}

impl Told {
    pub fn of(answer: &Result<Memory, Refusal>) -> Told {
        match answer {
            Ok(Memory { records, names, code }) => {
                Told { number: 0, values: [records.len() / 7, names.len() / 4, code.len()], column: 0 }
            }
            Err(refusal) => {
                let Refusal { number, place, column } = *refusal;
                Told { number, values: [place, 0, 0], column: column.into() }
            }
        }
    }
}

/// The reader that is asked.
#[derive(Clone, Copy)]
pub struct Library {
    /// # Safety
    /// The lent memory can be written as far as the room says.
    pub read_term: unsafe fn(Lent) -> Told,
}

#[derive(Clone, Default, PartialEq, Eq, Debug)]
pub struct Asked {
    pub texts: usize,
    pub questions: usize,
    pub accepted: usize,
    pub refused: BTreeMap<u8, usize>,
}

impl fmt::Display for Asked {
    fn fmt(&self, f: &mut fmt::Formatter) -> fmt::Result {
        let Asked { texts, questions, accepted, refused } = self;
        write!(f, "readings: {texts} texts, {questions} questions, {accepted} accepted, refused")?;
        refused.iter().try_for_each(|(number, count)| write!(f, " {number}: {count},"))
    }
}

/// Cells on either side of each part that is lent.
const GUARD: usize = 64;

fn marks<T>(room: usize, mark: impl Fn(usize) -> T) -> Vec<T> {
    (0..GUARD + room + GUARD).map(mark).collect()
}

/// The first cell in which two memories differ, counted from the first that was lent.
fn first_other<T: PartialEq>(held: &[T], right: &[T]) -> Option<isize> {
    held.iter().zip(right).position(|(one, other)| one != other).map(|at| at as isize - GUARD as isize)
}

impl Library {
    /// Reads in a room; what differs from what is expected, if anything does.
    pub fn differs(&self, asked: &Text, room: Room, salt: u8) -> Option<String> {
        let mark = |position: usize| (position as u8).wrapping_mul(31).wrapping_add(salt);
        let mut records = marks(room.records, |position| 0xa500 + u16::from(mark(position)));
        let (mut names, mut code) = (marks(room.names, mark), marks(room.code, mark));
        let (mut right_records, mut right_names, mut right_code) = (records.clone(), names.clone(), code.clone());
        let (list, text) = (asked.list.clone(), asked.text.clone());
        let lent = Lent {
            list: &list,
            text: &text,
            records: records.as_mut_ptr().wrapping_add(GUARD),
            names: names.as_mut_ptr().wrapping_add(GUARD),
            code: code.as_mut_ptr().wrapping_add(GUARD),
            room,
        };
        // SAFETY: what is given and the lent memory outlive the call.
        let told = unsafe { (self.read_term)(lent) };
        let expected = read_into(&asked.list, &asked.text, Some(room));
        if let Ok(memory) = &expected {
            right_records[GUARD..][..memory.records.len()].copy_from_slice(&memory.records);
            right_names[GUARD..][..memory.names.len()].copy_from_slice(&memory.names);
            let written = right_code[GUARD..].iter_mut().zip(&memory.code);
            written.for_each(|(cell, byte)| *cell = byte.unwrap_or(*cell));
        }
        let checks = [
            ("another answer", (told != Told::of(&expected)).then_some(0)),
            ("another number of a record", first_other(&records, &right_records)),
            ("another byte of a name", first_other(&names, &right_names)),
            ("another byte of code", first_other(&code, &right_code)),
            ("what was given is changed", ((&list, &text) != (&asked.list, &asked.text)).then_some(0)),
        ];
        let (how, at) = checks.into_iter().find_map(|(how, at)| Some((how, at?)))?;
        let shown = String::from_utf8_lossy(&asked.text).chars().take(400).collect::<String>();
        Some(format!(
            "reading {shown:?} ({} bytes) with the datatypes {:?} in {room:?}: {how}, at {at}; said {told:?}, expected {:?}",
            asked.text.len(),
            String::from_utf8_lossy(&asked.list),
            Told::of(&expected)
        ))
    }
}

/// Exactly enough; each part one short, and records and names by a whole one; more; none.
fn rooms(answer: &Result<Memory, Refusal>, rng: &mut Rng) -> Vec<Room> {
    let none = Room { records: 0, names: 0, code: 0 };
    let Ok(memory) = answer else {
        return vec![none, Room { records: rng.below(300), names: rng.below(100), code: rng.below(300) }];
    };
    let room = memory.room();
    let Room { records, names, code } = room;
    let mut all = vec![
        room,
        Room { records: records + rng.range(1, 40), names: names + rng.range(1, 40), code: code + rng.range(1, 40) },
        Room { records: records - 1, ..room },
        Room { records: records - 7, names: names + 4, code: code + 2 },
        none,
    ];
    if names > 0 {
        all.extend([
            Room { names: names - 1, ..room },
            Room { records: records + 7, names: names - 4, code: code + 2 },
        ]);
    }
    if code > 0 {
        all.extend([Room { code: code - 1, ..room }, Room { code: code - 2, ..room }, Room { code: 0, ..room }]);
    }
    all
}

struct Asker<'a> {
    library: &'a Library,
    rng: Rng,
    asked: Asked,
}

impl Asker<'_> {
    /// In every room, or in exactly enough and one more of them.
    fn ask(&mut self, text: &Text, in_all: bool) -> Result<(), String> {
        self.asked.texts += 1;
        let mut rooms = rooms(&read_into(&text.list, &text.text, None), &mut self.rng);
        if !in_all {
            let at = self.rng.range(1, rooms.len() - 1);
            rooms = vec![rooms[0], rooms[at]];
        }
        for room in rooms {
            self.asked.questions += 1;
            match read_into(&text.list, &text.text, Some(room)) {
                Ok(_) => self.asked.accepted += 1,
                Err(refusal) => *self.asked.refused.entry(refusal.number).or_default() += 1,
            }
            self.library.differs(text, room, self.rng.draw() as u8).map_or(Ok(()), Err)?;
        }
        Ok(())
    }
}

/// What was asked, or the first difference: texts of every kind, `count` of each random one, and every term of at most `nodes`
/// nodes.
pub fn compare(library: &Library, seed: u64, count: usize, nodes: usize) -> Result<Asked, String> {
    let mut asker = Asker { library, rng: Rng::new(seed, 2), asked: Asked::default() };
    for (what, text) in limits() {
        asker.ask(&text, true).map_err(|how| format!("{what}: {how}"))?;
    }
    texts(seed, count, nodes, &mut |_, text| {
        let in_all = asker.asked.texts % 16 == 0;
        asker.ask(&text, in_all)
    })?;
    Ok(asker.asked)
}

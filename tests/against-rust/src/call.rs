//! The C interface, and one call of it over memory in which every byte is watched.
use oracle::{
    answer::{Answer, Question},
    exercise::Exercise,
    sheet::{Refusal, BOARD_ROOM},
};
use std::fmt;

pub type Fill<T> = unsafe extern "C" fn(
    sheet: *const u8,
    sheet_length: usize,
    out: *mut T,
    room: usize,
    value: *mut usize,
    column: *mut usize,
) -> u8;
pub type Handout<T> = unsafe extern "C" fn(
    sheet: *const u8,
    sheet_length: usize,
    version: usize,
    out: *mut T,
    room: usize,
    value: *mut usize,
    column: *mut usize,
) -> u8;
pub type Count =
    unsafe extern "C" fn(sheet: *const u8, sheet_length: usize, value: *mut usize, column: *mut usize) -> u8;
pub type Compare = unsafe extern "C" fn(
    sheet: *const u8,
    sheet_length: usize,
    i: usize,
    j: usize,
    value: *mut usize,
    column: *mut usize,
) -> u8;
pub type OfExercise = unsafe extern "C" fn(
    names: *const u8,
    names_length: usize,
    n: usize,
    ordinal: usize,
    out: *mut u8,
    room: usize,
    value: *mut usize,
    column: *mut usize,
) -> u8;
pub type Board = unsafe extern "C" fn(sheet: *const u8, sheet_length: usize, out: *mut u8) -> usize;

/// The functions of `skriduhol.h`.
#[derive(Clone, Copy)]
pub struct Library {
    pub plain_text: Fill<u8>,
    pub strict_text: Fill<u8>,
    pub atom_list: Fill<u16>,
    pub datatype_list: Fill<u16>,
    pub label_count: Count,
    pub compare: Compare,
    pub board_output: Board,
    pub handout_plain: Handout<u8>,
    pub handout_strict: Handout<u8>,
    pub handout_datatypes: Handout<u16>,
    pub exercise: OfExercise,
}

/// What a call gave: the refusal's number or 0, the value, the column, and the memory it was lent.
pub struct Said {
    number: u8,
    value: usize,
    column: usize,
    memory: Memory,
    sheet_changed: bool,
}

enum Memory {
    None,
    Bytes(Lent<u8>),
    Numbers(Lent<u16>),
}

/// A value or column that no call can mean, to see that it is overwritten.
const UNSAID: usize = usize::MAX / 3;

impl Library {
    pub fn call(&self, sheet: &[u8], question: Question, room: usize, salt: u8) -> Said {
        let mut lent = sheet.to_vec();
        let (pointer, length) = (lent.as_mut_ptr().cast_const(), lent.len());
        let (mut value, mut column) = (UNSAID, UNSAID);
        let (said, drawn): (*mut usize, *mut usize) = (&mut value, &mut column);
        // SAFETY: the sheet, the value, the column and the lent rooms outlive the calls.
        let (number, memory) = unsafe {
            let text = |fill: &dyn Fn(*mut u8) -> u8| {
                let mut out = Lent::new(room, salt);
                (fill(out.start()), Memory::Bytes(out))
            };
            let list = |fill: &dyn Fn(*mut u16) -> u8| {
                let mut out = Lent::new(room, salt);
                (fill(out.start()), Memory::Numbers(out))
            };
            match question {
                Question::PlainText => text(&|out| (self.plain_text)(pointer, length, out, room, said, drawn)),
                Question::StrictText => text(&|out| (self.strict_text)(pointer, length, out, room, said, drawn)),
                Question::AtomList => list(&|out| (self.atom_list)(pointer, length, out, room, said, drawn)),
                Question::DatatypeList => list(&|out| (self.datatype_list)(pointer, length, out, room, said, drawn)),
                Question::LabelCount => ((self.label_count)(pointer, length, said, drawn), Memory::None),
                Question::Comparison(i, j) => ((self.compare)(pointer, length, i, j, said, drawn), Memory::None),
                Question::BoardOutput => {
                    let mut out = Lent::new(BOARD_ROOM, salt);
                    // It has no column to hand back: a refusal's stands in its line.
                    (value, column) = ((self.board_output)(pointer, length, out.start()), 0);
                    (0, Memory::Bytes(out))
                }
                Question::HandoutPlain(version) => {
                    text(&|out| (self.handout_plain)(pointer, length, version, out, room, said, drawn))
                }
                Question::HandoutStrict(version) => {
                    text(&|out| (self.handout_strict)(pointer, length, version, out, room, said, drawn))
                }
                Question::HandoutDatatypes(version) => {
                    list(&|out| (self.handout_datatypes)(pointer, length, version, out, room, said, drawn))
                }
            }
        };
        Said { number, value, column, memory, sheet_changed: lent != sheet }
    }

    /// The exercise in a room; its names stand for the sheet.
    pub fn call_exercise(&self, exercise: &Exercise, room: usize, salt: u8) -> Said {
        let mut lent = exercise.names.clone();
        let (pointer, length) = (lent.as_mut_ptr().cast_const(), lent.len());
        let (mut value, mut column) = (UNSAID, UNSAID);
        let mut out = Lent::new(room, salt);
        let Exercise { n, ordinal, .. } = *exercise;
        // SAFETY: the names, the value, the column and the lent room outlive the call.
        let number =
            unsafe { (self.exercise)(pointer, length, n, ordinal, out.start(), room, &mut value, &mut column) };
        Said { number, value, column, memory: Memory::Bytes(out), sheet_changed: lent != exercise.names }
    }
}

impl Said {
    /// Says what is not as expected, if anything is.
    pub fn differs(&self, expected: &Result<Answer, Refusal>) -> Option<String> {
        let (number, value, column) = match expected {
            Ok(Answer::Count(count)) => (0, *count, 0),
            Ok(Answer::Equal(equal)) => (0, *equal as usize, 0),
            Ok(answer) => (0, answer.length(), 0),
            Err(refusal) => (refusal.number, refusal.place, refusal.column as usize),
        };
        if (self.number, self.value) != (number, value) {
            return Some("another answer".into());
        }
        if self.column != column {
            return Some(format!("column {}, expected {column}", self.column));
        }
        if self.sheet_changed {
            return Some("the sheet itself is changed".into());
        }
        match (&self.memory, expected) {
            (Memory::None, _) => None,
            (Memory::Bytes(out), Ok(Answer::Text(text))) => out.differs(text.as_bytes()),
            (Memory::Bytes(out), Ok(Answer::Code(code))) => out.differs(code),
            (Memory::Bytes(out), _) => out.differs(&[]),
            (Memory::Numbers(out), Ok(Answer::List(list))) => out.differs(list),
            (Memory::Numbers(out), _) => out.differs(&[]),
        }
    }
}

impl fmt::Display for Said {
    fn fmt(&self, f: &mut fmt::Formatter) -> fmt::Result {
        if self.number > 0 {
            return write!(f, "refused {} at {}, column {}", self.number, self.value, self.column);
        }
        write!(f, "accepted, {}", self.value)?;
        match &self.memory {
            Memory::None => Ok(()),
            Memory::Bytes(out) => write!(f, ": {:?}", String::from_utf8_lossy(out.first(self.value))),
            Memory::Numbers(out) => write!(f, ": {:?}", out.first(self.value)),
        }
    }
}

/// A cell of lent memory. Its mark depends on its position, and repeats after `PERIOD`.
trait Cell: Copy + PartialEq + fmt::Debug {
    fn mark(position: usize, salt: u8) -> Self;
}

impl Cell for u8 {
    fn mark(position: usize, salt: u8) -> u8 {
        (position as u8).wrapping_mul(37).wrapping_add(salt)
    }
}

impl Cell for u16 {
    fn mark(position: usize, salt: u8) -> u16 {
        0xa500 + u8::mark(position, salt) as u16
    }
}

const PERIOD: usize = 256;
/// How many cells before and after the lent room are watched.
const GUARD: usize = PERIOD;

/// Lent memory between two guards, filled with marks.
struct Lent<T> {
    cells: Vec<T>,
    room: usize,
    marks: Vec<T>,
}

impl<T: Cell> Lent<T> {
    fn new(room: usize, salt: u8) -> Self {
        let marks: Vec<T> = (0..PERIOD).map(|position| T::mark(position, salt)).collect();
        let length = GUARD + room + GUARD;
        let mut cells = marks.repeat(length.div_ceil(PERIOD));
        cells.truncate(length);
        Lent { cells, room, marks }
    }

    fn start(&mut self) -> *mut T {
        self.cells.as_mut_ptr().wrapping_add(GUARD)
    }

    /// The first cells of the room, at most all of it.
    fn first(&self, length: usize) -> &[T] {
        &self.cells[GUARD..][..length.min(self.room)]
    }

    /// Says which cell is wrong, if the room is not the answer and nothing after it.
    fn differs(&self, answer: &[T]) -> Option<String> {
        if self.first(answer.len()) != answer {
            return Some("another answer".into());
        }
        let touched = self.touched(0, GUARD).or(self.touched(GUARD + answer.len(), self.cells.len()))?;
        let (held, was) = (self.cells[touched], self.marks[touched % PERIOD]);
        let position = touched as isize - GUARD as isize;
        Some(format!("cell {position} of a room of {} was {was:?} and is {held:?}", self.room))
    }

    /// The first cell of a range that does not hold its mark.
    fn touched(&self, from: usize, to: usize) -> Option<usize> {
        let mut at = from;
        while at < to {
            let end = to.min(at - at % PERIOD + PERIOD);
            let marks = &self.marks[at % PERIOD..][..end - at];
            if self.cells[at..end] != *marks {
                return (at..end).find(|i| self.cells[*i] != self.marks[i % PERIOD]);
            }
            at = end;
        }
        None
    }
}

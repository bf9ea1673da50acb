//! Restates the conclusion of sheets of every kind, and asks the new sheets what the old ones were asked.
use crate::call;
use oracle::{
    answer::{examine, Question},
    generate::{Kind, Sheets},
    index::{name_index, SLOTS},
    restate::{agrees_with_the_rust, givens, restate, Given},
    rng::Rng,
    sheet::Refusal,
};
use std::{collections::BTreeMap, fmt};

pub type Restate = unsafe extern "C" fn(
    sheet: *const u8,
    sheet_length: usize,
    given: *const u16,
    slots: *mut u16,
    out: *mut u8,
    room: usize,
    value: *mut usize,
    column: *mut usize,
) -> u8;

/// What the comparison calls: the restatement, and the other operations, if the new sheets are to be asked too.
#[derive(Clone, Copy)]
pub struct Library {
    pub restate: Restate,
    pub asked: Option<call::Library>,
}

/// So many sheets were asked, so often; what was accepted and refused, and how many questions the new sheets were asked.
#[derive(Clone, Default, PartialEq, Eq, Debug)]
pub struct Asked {
    pub sheets: usize,
    pub questions: usize,
    pub accepted: usize,
    pub refused: BTreeMap<u8, usize>,
    pub of_new_sheets: usize,
}

impl fmt::Display for Asked {
    fn fmt(&self, f: &mut fmt::Formatter) -> fmt::Result {
        let Asked { sheets, questions, accepted, refused, of_new_sheets } = self;
        write!(f, "restatements: {sheets} sheets, {questions} questions, {accepted} accepted, refused")?;
        refused.iter().try_for_each(|(number, count)| write!(f, " {number}: {count},"))?;
        write!(f, " and {of_new_sheets} questions of new sheets")
    }
}

/// A cell on either side of the room and of the slots, and what they hold.
const GUARD: usize = 64;
const UNSAID: usize = usize::MAX / 3;

fn mark(position: usize, salt: u8) -> u8 {
    (position as u8).wrapping_mul(29).wrapping_add(salt)
}

impl Library {
    /// Restates in a room; what differs from what is expected, if anything does.
    pub fn differs(&self, sheet: &[u8], given: Given, room: usize, salt: u8) -> Option<String> {
        let expected = restate(sheet, given, Some(room));
        let mut lent: Vec<u8> = (0..GUARD + room + GUARD).map(|position| mark(position, salt)).collect();
        let mut slots: Vec<u16> =
            (0..GUARD + SLOTS + GUARD).map(|position| 0xa500 + u16::from(mark(position, salt))).collect();
        let (mut right, mut right_slots) = (lent.clone(), slots.clone());
        let (mut value, mut column) = (UNSAID, UNSAID);
        let (row, asked) = (given.row(), sheet.to_vec());
        // SAFETY: the sheet, the numbers, the slots, the value, the column and the lent room outlive the call.
        let number = unsafe {
            (self.restate)(
                asked.as_ptr(),
                asked.len(),
                row.as_ptr(),
                slots.as_mut_ptr().wrapping_add(GUARD),
                lent.as_mut_ptr().wrapping_add(GUARD),
                room,
                &mut value,
                &mut column,
            )
        };
        let told = match &expected {
            Ok(new) => {
                right[GUARD..][..new.len()].copy_from_slice(new);
                right_slots[GUARD..][..SLOTS].copy_from_slice(&name_index(new).expect("the new sheet is admitted"));
                (0, new.len(), 0)
            }
            Err(Refusal { number, place, column }) => (*number, *place, usize::from(*column)),
        };
        let checks = [
            ((number, value, column) == told, "another answer"),
            (lent == right, "other bytes"),
            (slots == right_slots, "other slots"),
            (asked == sheet && row == given.row(), "what was given is changed"),
        ];
        let (_, how) = checks.into_iter().find(|(holds, _)| !holds)?;
        let said = (number, value, column);
        Some(format!(
            "{given:?} in a room of {room}: {how}, said {said:?}, expected {told:?}, a sheet of {} bytes",
            sheet.len()
        ))
    }
}

struct Asker<'a> {
    library: &'a Library,
    rng: Rng,
    asked: Asked,
}

impl Asker<'_> {
    fn ask(&mut self, sheet: &[u8], given: Given, room: usize) -> Result<(), String> {
        self.asked.questions += 1;
        match restate(sheet, given, Some(room)) {
            Ok(_) => self.asked.accepted += 1,
            Err(refusal) => *self.asked.refused.entry(refusal.number).or_default() += 1,
        }
        self.library.differs(sheet, given, room, self.rng.draw() as u8).map_or(Ok(()), Err)
    }

    /// Exactly enough, one short, twenty short, some more and none; a refusal in no room and in some.
    fn ask_in_rooms(&mut self, sheet: &[u8], given: Given) -> Result<(), String> {
        let rooms = match restate(sheet, given, None) {
            Ok(new) => vec![new.len(), new.len() - 1, new.len() - 20, new.len() + self.rng.range(1, 300), 0],
            Err(_) => vec![0, self.rng.range(1, 40_000)],
        };
        rooms.into_iter().try_for_each(|room| self.ask(sheet, given, room))
    }

    /// What the new sheet answers is what the old one answers.
    fn ask_new(&mut self, library: call::Library, old: &[u8], new: &[u8]) -> Result<(), String> {
        let (old, steps) = (examine(old)?, usize::from(u16::from_le_bytes([old[8], old[9]])));
        let (i, j) = (self.rng.below(steps), self.rng.below(steps));
        let mut questions = vec![
            Question::PlainText,
            Question::StrictText,
            Question::AtomList,
            Question::DatatypeList,
            Question::LabelCount,
            Question::BoardOutput,
            Question::Comparison(i, j),
        ];
        for version in [2, 3, 4] {
            let of = [Question::HandoutPlain, Question::HandoutStrict, Question::HandoutDatatypes];
            questions.extend(of.map(|question| question(version)));
        }
        for question in questions {
            let exactly = old.answer(question, None)?.map_or(0, |answer| answer.length());
            let lent = !matches!(question, Question::LabelCount | Question::BoardOutput | Question::Comparison(..));
            for room in if lent { vec![exactly, exactly.saturating_sub(1), exactly + 9] } else { vec![0] } {
                let expected = old.answer(question, lent.then_some(room))?;
                self.asked.of_new_sheets += 1;
                let said = library.call(new, question, room, self.rng.draw() as u8);
                if let Some(how) = said.differs(&expected) {
                    let asked = format!("{question:?} of a new sheet in a room of {room}");
                    return Err(format!("{asked}: {how}, expected {expected:?}, said {said}"));
                }
            }
        }
        Ok(())
    }

    fn ask_sheet(&mut self, sheet: &[u8], of_new: bool) -> Result<(), String> {
        self.asked.sheets += 1;
        let mut asks = self.library.asked.filter(|_| of_new);
        for given in givens(sheet, &mut self.rng) {
            if !agrees_with_the_rust(sheet, given) {
                return Err(format!("{given:?}: the Rust's create_alphq_eq_tree says otherwise"));
            }
            self.ask_in_rooms(sheet, given)?;
            if let (Some(library), Ok(new)) = (asks, restate(sheet, given, None)) {
                asks = None;
                self.ask_new(library, sheet, &new)?;
            }
        }
        Ok(())
    }
}

/// Sheets whose text is longer are not asked for it again.
const LONGEST: usize = 4000;

/// What was asked, or the first difference: sheets of every random kind, damaged ones, and those at the limits, among them
/// 1,023 and 1,024 steps and 255 and 256 levels.
pub fn compare(library: &Library, seed: u64, count: usize) -> Result<Asked, String> {
    let mut asker = Asker { library, rng: Rng::new(seed, 9), asked: Asked::default() };
    for kind in [Kind::Sound, Kind::Random, Kind::Quantified, Kind::Damaged] {
        for (_, sheet) in Sheets::new(kind, seed, count).iter() {
            asker.ask_sheet(&sheet, sheet.len() <= LONGEST)?;
        }
    }
    for (_, sheet) in Sheets::new(Kind::Limits, seed, 0).iter() {
        asker.ask_sheet(&sheet, false)?;
    }
    for (_, sheet) in oracle::restate::sheets() {
        asker.ask_sheet(&sheet, true)?;
    }
    Ok(asker.asked)
}

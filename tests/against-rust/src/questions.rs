//! What is asked of a sheet.
use oracle::{
    answer::{Answer, Examined, Operation, Question, VERSIONS},
    rng::Rng,
    sheet::BOARD_ROOM,
};

/// A question and the room lent for its answer, in bytes or numbers.
pub type Asked = (Question, usize);

/// The questions of one operation. `comparisons` says how many pairs of steps are compared.
pub fn questions(examined: &Examined, operation: Operation, comparisons: usize, rng: &mut Rng) -> Vec<Asked> {
    let in_rooms = |question: Question, rng: &mut Rng| -> Vec<Asked> {
        let answer = examined.answer(question, None).expect("export was examined");
        rooms(answer.ok(), rng).into_iter().map(|room| (question, room)).collect()
    };
    match operation {
        Operation::PlainText => in_rooms(Question::PlainText, rng),
        Operation::StrictText => in_rooms(Question::StrictText, rng),
        Operation::AtomList => in_rooms(Question::AtomList, rng),
        Operation::DatatypeList => in_rooms(Question::DatatypeList, rng),
        Operation::LabelCount => vec![(Question::LabelCount, 0)],
        Operation::Comparison => {
            let steps = examined.sheet.as_ref().map_or(UNKNOWN, |sheet| sheet.steps.len());
            pairs(steps, comparisons, rng).into_iter().map(|(i, j)| (Question::Comparison(i, j), 0)).collect()
        }
        Operation::BoardOutput => vec![(Question::BoardOutput, BOARD_ROOM)],
        Operation::HandoutPlain => versions(Question::HandoutPlain, in_rooms, rng),
        Operation::HandoutStrict => versions(Question::HandoutStrict, in_rooms, rng),
        Operation::HandoutDatatypes => versions(Question::HandoutDatatypes, in_rooms, rng),
    }
}

/// Versions 2 and 3 in rooms of every kind, and each other number in one of them.
fn versions(
    question: fn(usize) -> Question,
    in_rooms: impl Fn(Question, &mut Rng) -> Vec<Asked>,
    rng: &mut Rng,
) -> Vec<Asked> {
    let mut all = [in_rooms(question(2), rng), in_rooms(question(3), rng)].concat();
    for version in VERSIONS.into_iter().filter(|version| ![2, 3].contains(version)) {
        let asked = in_rooms(question(version), rng);
        all.push(*rng.pick(&asked));
    }
    all
}

const LONG: usize = 1 << 20;
/// So many steps are taken for bytes that are no sheet.
const UNKNOWN: usize = 4;

/// Rooms for an answer: exactly enough, one short, and, unless it is very long, some more and some less. A refusal is
/// asked for with no room and with some.
fn rooms(answer: Option<Answer>, rng: &mut Rng) -> Vec<usize> {
    match answer.map(|answer| answer.length()) {
        None => vec![0, rng.range(1, 200)],
        Some(0) => vec![0, rng.range(1, 80)],
        Some(length) if length > LONG => vec![length, length - 1],
        Some(length) => vec![length, length - 1, length + rng.range(1, 80), rng.below(length)],
    }
}

/// Pairs of steps: so many at random and one past the last step, or, if there are at most so many, all of them and
/// everything past the last step.
fn pairs(steps: usize, count: usize, rng: &mut Rng) -> Vec<(usize, usize)> {
    let step = rng.below(steps);
    let past = [steps, steps + 1, 1024, 65535, 65536 + step, (1 << 32) + step, usize::MAX];
    let beyond = past.map(|past| [(past, step), (step, past), (past, past)]).concat();
    if steps * steps <= count {
        (0..steps * steps).map(|k| (k / steps, k % steps)).chain(beyond).collect()
    } else {
        let one = *rng.pick(&beyond);
        (0..count).map(|_| (rng.below(steps), rng.below(steps))).chain([one]).collect()
    }
}

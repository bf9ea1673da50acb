//! Asks every exercise, and every kind of refusal of one.
use crate::call::Library;
use oracle::{
    answer::Answer,
    exercise::{bad_names, count_names, good_names, Exercise, Exercises, CONNECTIVES, TOO_MANY},
    rng::Rng,
};
use std::fmt;

/// How often exercises were asked for, and what came out.
#[derive(Clone, Copy, Default, PartialEq, Eq, Debug)]
pub struct Asked {
    pub questions: usize,
    pub accepted: usize,
    pub refused_16: usize,
    pub refused_29: usize,
    pub refused_30: usize,
}

impl fmt::Display for Asked {
    fn fmt(&self, f: &mut fmt::Formatter) -> fmt::Result {
        let Asked { questions, accepted, refused_16, refused_29, refused_30 } = self;
        write!(
            f,
            "exercises: {questions} questions, {accepted} accepted, refused 16: {refused_16}, 29: {refused_29}, 30: {refused_30}"
        )
    }
}

struct Asker<'a> {
    library: &'a Library,
    exercises: &'a Exercises,
    rng: Rng,
    asked: Asked,
}

impl Asker<'_> {
    /// Asks in a room; what differs, if anything does.
    fn ask(&mut self, exercise: &Exercise, room: usize) -> Result<(), String> {
        let expected = self.exercises.answer(exercise, Some(room)).map(Answer::Code);
        self.asked.questions += 1;
        match &expected {
            Ok(_) => self.asked.accepted += 1,
            Err(refusal) if refusal.number == 16 => self.asked.refused_16 += 1,
            Err(refusal) if refusal.number == 29 => self.asked.refused_29 += 1,
            Err(_) => self.asked.refused_30 += 1,
        }
        let said = self.library.call_exercise(exercise, room, self.rng.draw() as u8);
        match said.differs(&expected) {
            None => Ok(()),
            Some(how) => {
                let Exercise { names, n, ordinal } = exercise;
                let names = String::from_utf8_lossy(names).into_owned();
                Err(format!(
                    "exercise {ordinal} with n of {n} over {names:?} in a room of {room}: {how}\n  expected {expected:?}\n  library  {said}"
                ))
            }
        }
    }

    /// Exactly enough, one short, some more and none; a refusal is asked for with no room and with some.
    fn ask_in_rooms(&mut self, exercise: &Exercise) -> Result<(), String> {
        let rooms = match self.exercises.answer(exercise, None) {
            Ok(code) => vec![code.len(), code.len() - 1, code.len() + self.rng.range(1, 80), 0],
            Err(_) => vec![0, self.rng.range(1, 200)],
        };
        rooms.into_iter().try_for_each(|room| self.ask(exercise, room))
    }

    /// Every ordinal of every n, those past the end, and each n that is too large.
    fn ask_all(&mut self, names: &[u8]) -> Result<(), String> {
        let count = count_names(names).expect("the names are good");
        for n in 0..=CONNECTIVES {
            let end = self.exercises.codes(count, n).len();
            let past =
                [end, end + 1, 2 * end, 86_705, 1 << 16, 1 << 32, (1 << 32) + end - 1, usize::MAX - 1, usize::MAX];
            for ordinal in (0..end).chain(past) {
                self.ask_in_rooms(&Exercise { names: names.to_vec(), n, ordinal })?;
            }
        }
        for n in TOO_MANY {
            for ordinal in [0, 86_704, usize::MAX] {
                self.ask_in_rooms(&Exercise { names: names.to_vec(), n, ordinal })?;
            }
        }
        Ok(())
    }

    /// A few ordinals of every n, over any names.
    fn ask_some(&mut self, names: Vec<u8>) -> Result<(), String> {
        let count = count_names(&names);
        for n in 0..=CONNECTIVES + 1 {
            let end = count.filter(|_| n <= CONNECTIVES).map_or(1, |count| self.exercises.codes(count, n).len());
            for ordinal in [0, self.rng.below(end), end - 1, end] {
                self.ask_in_rooms(&Exercise { names: names.clone(), n, ordinal })?;
            }
        }
        Ok(())
    }
}

/// What was asked, or the first difference: every exercise over no name, one, two and three; names of every kind; and every
/// byte as a name, in a name, and in each of three names.
pub fn compare(library: &Library, exercises: &Exercises, seed: u64) -> Result<Asked, String> {
    let mut asker = Asker { library, exercises, rng: Rng::new(seed, 0), asked: Asked::default() };
    for names in [&b""[..], b"A", b"A\nB", b"A\nB\nC"] {
        asker.ask_all(names)?;
    }
    for names in good_names().into_iter().chain(bad_names()) {
        asker.ask_some(names)?;
    }
    for byte in 0..=255 {
        let (one, two) = ([byte], [b'A', byte]);
        for names in [&one[..], &two, &[b'A', byte, b'B']] {
            asker.ask_some(names.to_vec())?;
        }
        for three in [[&two[..], b"B", b"C"], [b"B", &two, b"C"], [b"B", b"C", &two], [b"A", b"B", &one]] {
            asker.ask_some(three.join(&b'\n'))?;
        }
    }
    Ok(asker.asked)
}

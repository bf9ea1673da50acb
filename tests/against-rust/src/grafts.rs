//! Grafts pairs of sheets of every kind, and asks the merged sheets every other question.
use crate::{call, difference};
use oracle::{
    generate::Kind,
    graft::{graft, Refused},
    grafts::{self, Graft},
    index::{name_index, SLOTS},
    rng::Rng,
    splice::{spliced, Spliced},
};
use std::{
    collections::BTreeMap,
    fmt,
    ops::AddAssign,
    sync::{
        atomic::{AtomicUsize, Ordering::SeqCst},
        Mutex,
    },
    thread,
};

pub type OfTwo = unsafe extern "C" fn(
    host: *const u8,
    host_length: usize,
    step: usize,
    donor: *const u8,
    donor_length: usize,
    slots: *mut u16,
    out: *mut u8,
    room: usize,
    value: *mut usize,
    column: *mut usize,
    whose: *mut usize,
) -> u8;

/// What the comparison calls: the graft, and the other operations, if the merged sheets are to be asked too.
#[derive(Clone, Copy)]
pub struct Library {
    pub graft: OfTwo,
    pub asked: Option<call::Library>,
}

/// So many pairs with a step were asked, so often; what was accepted and refused, by number and whose it is; what came of
/// terms; and how many questions the merged sheets were asked.
#[derive(Clone, Default, PartialEq, Eq, Debug)]
pub struct Asked {
    pub grafts: usize,
    pub questions: usize,
    pub accepted: usize,
    pub refused: BTreeMap<(u8, usize), usize>,
    pub terms: BTreeMap<Spliced, usize>,
    pub merged: usize,
    pub of_merged: usize,
}

impl fmt::Display for Asked {
    fn fmt(&self, f: &mut fmt::Formatter) -> fmt::Result {
        let Asked { grafts, questions, accepted, refused, terms, merged, of_merged } = self;
        write!(f, "grafts: {grafts} of two sheets at a step, {questions} questions, {accepted} accepted, refused")?;
        for ((number, whose), count) in refused {
            write!(f, " {number}{}: {count},", ["", " of the host", " of the donor"][*whose])?;
        }
        write!(f, " terms {terms:?}, and {of_merged} questions of {merged} merged sheets")
    }
}

impl AddAssign<&Asked> for Asked {
    fn add_assign(&mut self, other: &Asked) {
        self.grafts += other.grafts;
        self.questions += other.questions;
        self.accepted += other.accepted;
        self.merged += other.merged;
        self.of_merged += other.of_merged;
        other.refused.iter().for_each(|(key, count)| *self.refused.entry(*key).or_default() += count);
        other.terms.iter().for_each(|(key, count)| *self.terms.entry(*key).or_default() += count);
    }
}

/// Cells on either side of the room and of the slots.
const GUARD: usize = 64;
const UNSAID: usize = usize::MAX / 3;

fn mark(position: usize, salt: u8) -> u8 {
    (position as u8).wrapping_mul(29).wrapping_add(salt)
}

/// What a call says: the refusal's number or 0, the value, the column, and whose it is.
type Said = (u8, usize, usize, usize);

fn told(answer: &Result<&Vec<u8>, Refused>) -> Said {
    match answer {
        Ok(new) => (0, new.len(), 0, 0),
        Err(Refused { whose, refusal }) => (refusal.number, refusal.place, refusal.column.into(), *whose as usize),
    }
}

/// The answer in a room, from that in a room that is large enough.
fn in_room(answer: &Result<Vec<u8>, Refused>, room: usize) -> Result<&Vec<u8>, Refused> {
    match answer {
        Ok(new) if new.len() > room => Err(Refused::of_neither(16)),
        Ok(new) => Ok(new),
        Err(refused) => Err(*refused),
    }
}

impl Library {
    /// Grafts in a room; what differs from what is expected, if anything does.
    fn differs(&self, asked: &Graft, expected: &Result<&Vec<u8>, Refused>, room: usize, salt: u8) -> Option<String> {
        let mut lent: Vec<u8> = (0..GUARD + room + GUARD).map(|position| mark(position, salt)).collect();
        let mut slots: Vec<u16> =
            (0..GUARD + SLOTS + GUARD).map(|position| 0xa500 + u16::from(mark(position, salt))).collect();
        let (mut right, mut right_slots) = (lent.clone(), slots.clone());
        if let Ok(new) = expected {
            right[GUARD..][..new.len()].copy_from_slice(new);
            right_slots[GUARD..][..SLOTS].copy_from_slice(&name_index(new).expect("the merged sheet is admitted"));
        }
        let (host, donor) = (asked.host.clone(), asked.donor.clone());
        let (mut value, mut column, mut whose) = (UNSAID, UNSAID, UNSAID);
        // SAFETY: the sheets, the slots, the value, the column, whose it is and the lent room outlive the call.
        let number = unsafe {
            (self.graft)(
                host.as_ptr(),
                host.len(),
                asked.step,
                donor.as_ptr(),
                donor.len(),
                slots.as_mut_ptr().wrapping_add(GUARD),
                lent.as_mut_ptr().wrapping_add(GUARD),
                room,
                &mut value,
                &mut column,
                &mut whose,
            )
        };
        let (said, told) = ((number, value, column, whose), told(expected));
        let checks = [
            (said == told, "another answer"),
            (lent == right, "other bytes"),
            (slots == right_slots, "other slots"),
            (host == asked.host && donor == asked.donor, "what was given is changed"),
        ];
        let (_, how) = checks.into_iter().find(|(holds, _)| !holds)?;
        let at = (right.iter().zip(&lent)).position(|(right, lent)| right != lent);
        Some(format!("in a room of {room}: {how}, said {said:?}, expected {told:?}, first other byte {at:?}"))
    }
}

struct Asker<'a> {
    library: &'a Library,
    rng: Rng,
    asked: Asked,
}

/// Sheets that are longer are not asked all other questions.
const LONGEST: usize = 3000;
/// So many pairs of steps of a merged sheet are compared.
const COMPARISONS: usize = 4;

fn hex(bytes: &[u8]) -> String {
    bytes.iter().map(|byte| format!("{byte:02x}")).collect()
}

impl Asker<'_> {
    /// Exactly enough, one short, some short, some more and none; a refusal in no room and in some.
    fn ask(&mut self, asked: &Graft) -> Result<(), String> {
        self.asked.grafts += 1;
        let answer = graft(&asked.host, asked.step, &asked.donor, None);
        let rooms = match &answer {
            Ok(new) => {
                let length = new.len();
                vec![length, length - 1, self.rng.below(length), length + self.rng.range(1, 300), 0]
            }
            Err(_) => vec![0, self.rng.range(1, 45_000)],
        };
        for room in rooms {
            let expected = in_room(&answer, room);
            self.asked.questions += 1;
            match expected {
                Ok(_) => self.asked.accepted += 1,
                Err(Refused { whose, refusal }) => {
                    *self.asked.refused.entry((refusal.number, whose as usize)).or_default() += 1
                }
            }
            self.library.differs(asked, &expected, room, self.rng.draw() as u8).map_or(Ok(()), Err)?;
        }
        if let Some(case) = spliced(&asked.host, asked.step, &asked.donor)? {
            *self.asked.terms.entry(case).or_default() += 1;
        }
        match (self.library.asked, answer) {
            (Some(library), Ok(new)) if new.len() <= LONGEST => self.ask_merged(&library, &new),
            _ => Ok(()),
        }
    }

    /// Every other question of a merged sheet, with the answers of document 01 and the Rust.
    fn ask_merged(&mut self, library: &call::Library, new: &[u8]) -> Result<(), String> {
        let mut asker = difference::Asker::new(library, COMPARISONS, self.rng.fork());
        let difference = asker.ask(new);
        self.asked.merged += 1;
        self.asked.of_merged += asker.tally.questions();
        difference.map_or(Ok(()), |difference| Err(format!("the merged sheet: {difference}")))
    }

    fn ask_all(&mut self, all: &[Graft]) -> Result<(), String> {
        for asked in all {
            let Graft { what, host, step, donor } = asked;
            let shown = || format!("host {}\ndonor {}", hex(host), hex(donor));
            self.ask(asked).map_err(|how| format!("{what}, step {step}: {how}\n{}", shown()))?;
        }
        Ok(())
    }
}

/// The pairs that are asked: those by hand one by one, and then so many of every random kind.
struct Pairs {
    by_hand: Vec<Graft>,
    seed: u64,
    count: usize,
}

const KINDS: [Kind; 4] = [Kind::Sound, Kind::Random, Kind::Quantified, Kind::Damaged];

impl Pairs {
    fn get(&self, index: usize) -> Option<Vec<Graft>> {
        match index.checked_sub(self.by_hand.len()) {
            None => Some(vec![self.by_hand[index].clone()]),
            Some(index) if index < KINDS.len() * self.count => {
                Some(grafts::random(KINDS[index % KINDS.len()], self.seed, index / KINDS.len()))
            }
            Some(_) => None,
        }
    }
}

/// The oracle recurses into deep code before refusal 8 is tried.
const STACK: usize = 1 << 28;

/// What was asked, or the first difference: the pairs by hand and so many of every random kind, on several threads. What is
/// asked and found does not depend on how many.
pub fn compare(library: &Library, seed: u64, count: usize, threads: usize) -> Result<Asked, String> {
    let pairs = Pairs { by_hand: grafts::fixed(), seed, count };
    let (next, found) = (AtomicUsize::new(0), Mutex::new(BTreeMap::new()));
    let work = || {
        let mut sum = Asked::default();
        loop {
            let index = next.fetch_add(1, SeqCst);
            let Some(all) = pairs.get(index) else { return sum };
            let mut asker = Asker { library, rng: Rng::new(!seed, index as u64), asked: Asked::default() };
            let difference = asker.ask_all(&all);
            sum += &asker.asked;
            if let Err(how) = difference {
                found.lock().unwrap().insert(index, how);
                // Those before this one are taken already.
                next.store(usize::MAX / 2, SeqCst);
            }
        }
    };
    let mut sum = Asked::default();
    thread::scope(|scope| {
        let started: Vec<_> =
            (0..threads).map(|_| thread::Builder::new().stack_size(STACK).spawn_scoped(scope, work).unwrap()).collect();
        started.into_iter().for_each(|thread| sum += &thread.join().unwrap());
    });
    match found.into_inner().unwrap().pop_first() {
        Some((_, how)) => Err(how),
        None => Ok(sum),
    }
}

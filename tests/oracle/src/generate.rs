//! Sheets by kind. Four kinds are random, one sheet for each seed and index; the others are fixed lists.
mod arbitrary;
pub mod asked;
mod damaged;
mod draft;
pub mod judgements;
mod sound;
pub mod texts;
mod variant;

use crate::{limits, rng::Rng, sheet::Layout, worst};
use std::fmt;

#[derive(Clone, Copy, PartialEq, Eq, Debug)]
pub enum Kind {
    Sound,
    Random,
    Quantified,
    Damaged,
    Limits,
    Worst,
    Slowest,
}

impl Kind {
    pub const ALL: [Kind; 7] =
        [Kind::Sound, Kind::Random, Kind::Quantified, Kind::Damaged, Kind::Limits, Kind::Worst, Kind::Slowest];

    pub fn named(name: &str) -> Option<Kind> {
        Kind::ALL.into_iter().find(|kind| kind.to_string() == name)
    }
}

impl fmt::Display for Kind {
    fn fmt(&self, f: &mut fmt::Formatter) -> fmt::Result {
        f.pad(&format!("{self:?}").to_lowercase())
    }
}

/// A sheet with a word on what it is.
pub type Named = (String, Vec<u8>);

/// The sheets of a kind.
pub enum Sheets {
    Random { kind: Kind, seed: u64, count: usize },
    Fixed(Vec<Named>),
}

impl Sheets {
    /// The first `count` sheets of a random kind, or a fixed list.
    pub fn new(kind: Kind, seed: u64, count: usize) -> Self {
        match kind {
            Kind::Limits => Sheets::fixed(limits::limits()),
            Kind::Worst => Sheets::fixed(worst::worst()),
            Kind::Slowest => Sheets::fixed(worst::slowest()),
            Kind::Sound | Kind::Random | Kind::Quantified | Kind::Damaged => Sheets::Random { kind, seed, count },
        }
    }

    /// These sheets, with a column drawn for each step that stands in column 0.
    fn fixed(mut list: Vec<Named>) -> Self {
        for (index, (_, bytes)) in list.iter_mut().enumerate() {
            let mut rng = Rng::new(0, index as u64);
            if let Some(mut layout) = Layout::read(bytes) {
                let undrawn = layout.steps.iter_mut().filter(|step| step.column == 0);
                undrawn.for_each(|step| step.column = draft::column(&mut rng));
                *bytes = layout.bytes();
            }
        }
        Sheets::Fixed(list)
    }

    pub fn count(&self) -> usize {
        match self {
            Sheets::Random { count, .. } => *count,
            Sheets::Fixed(list) => list.len(),
        }
    }

    pub fn get(&self, index: usize) -> Named {
        match self {
            Sheets::Random { kind, seed, .. } => {
                let rng = Rng::new(*seed, index as u64);
                let bytes = match kind {
                    Kind::Sound => sound::sound(rng),
                    Kind::Random => arbitrary::arbitrary(rng, false),
                    Kind::Quantified => arbitrary::arbitrary(rng, true),
                    _ => damaged::damaged(rng),
                };
                (format!("{kind} {index} of seed {seed}"), bytes)
            }
            Sheets::Fixed(list) => list[index].clone(),
        }
    }

    pub fn iter(&self) -> impl Iterator<Item = Named> + '_ {
        (0..self.count()).map(|index| self.get(index))
    }
}

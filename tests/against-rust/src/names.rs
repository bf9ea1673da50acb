//! Asks for the index of every sheet's names, and for names in it and in other slots.
use oracle::{
    generate::{Kind, Sheets},
    index::{self, find_name, name_index, plain_search, searches, Slots, FREE, SLOTS},
    rng::Rng,
    sheet::Refusal,
};
use std::fmt;

pub type OfNames = unsafe extern "C" fn(
    sheet: *const u8,
    sheet_length: usize,
    slots: *mut u16,
    value: *mut usize,
    column: *mut usize,
) -> u8;
pub type OfName = unsafe extern "C" fn(
    sheet: *const u8,
    sheet_length: usize,
    slots: *const u16,
    name: *const u8,
    name_length: usize,
    value: *mut usize,
    column: *mut usize,
) -> u8;

/// The two functions of `skriduhol.h` on names.
#[derive(Clone, Copy)]
pub struct Library {
    pub name_index: OfNames,
    pub find_name: OfName,
}

/// How often names were asked for, and what came out.
#[derive(Clone, Copy, Default, PartialEq, Eq, Debug)]
pub struct Asked {
    pub indexes: usize,
    pub refused: usize,
    pub searches: usize,
    pub found: usize,
    pub none: usize,
}

impl fmt::Display for Asked {
    fn fmt(&self, f: &mut fmt::Formatter) -> fmt::Result {
        let Asked { indexes, refused, searches, found, none } = self;
        write!(
            f,
            "names: {indexes} indexes, {refused} of them refused; {searches} searches, {found} found, {none} with none"
        )
    }
}

/// A value or column that no call can mean, to see that it is overwritten.
const UNSAID: usize = usize::MAX / 3;
/// So many slots before and after the lent ones are watched.
const GUARD: usize = 64;

fn mark(at: usize, salt: u8) -> u16 {
    0x5a00 ^ (at as u16).wrapping_mul(37).wrapping_add(salt.into())
}

/// What a call gave: the refusal's number or 0, the value and the column.
type Said = (u8, usize, usize);

fn expected(answer: Result<usize, Refusal>) -> Said {
    match answer {
        Ok(value) => (0, value, 0),
        Err(refusal) => (refusal.number, refusal.place, refusal.column.into()),
    }
}

fn same<T: PartialEq + fmt::Debug>(what: &str, said: &T, right: &T) -> Result<(), String> {
    match said == right {
        true => Ok(()),
        false => Err(format!("{what}: expected {right:?}, library {said:?}")),
    }
}

impl Library {
    /// The index, and every slot of the lent memory and around it.
    fn ask_index(&self, sheet: &[u8], salt: u8) -> Result<Result<Slots, Refusal>, String> {
        let right = name_index(sheet);
        let mut cells: Vec<u16> = (0..GUARD + SLOTS + GUARD).map(|at| mark(at, salt)).collect();
        let mut after = cells.clone();
        if let Ok(slots) = right {
            after[GUARD..][..SLOTS].copy_from_slice(&slots);
        }
        let (lent, mut value, mut column) = (sheet.to_vec(), UNSAID, UNSAID);
        // SAFETY: the sheet, the slots, the value and the column outlive the call.
        let number = unsafe {
            let slots = cells.as_mut_ptr().wrapping_add(GUARD);
            (self.name_index)(lent.as_ptr(), lent.len(), slots, &mut value, &mut column)
        };
        same("the answer of an index", &(number, value, column), &expected(right.map(|_| SLOTS)))?;
        let wrong = (0..cells.len()).find(|at| cells[*at] != after[*at]);
        same("a slot that is wrong", &wrong.map(|at| (at as isize - GUARD as isize, cells[at], after[at])), &None)?;
        same("the sheet of an index", &(lent == sheet), &true)?;
        Ok(right)
    }

    fn ask_name(&self, sheet: &[u8], slots: &Slots, name: &[u8]) -> Result<Result<Option<u16>, Refusal>, String> {
        let right = find_name(sheet, slots, name);
        let (lent, held, sought) = (sheet.to_vec(), *slots, name.to_vec());
        let (mut value, mut column) = (UNSAID, UNSAID);
        // SAFETY: the sheet, the slots, the name, the value and the column outlive the call.
        let number = unsafe {
            let (bytes, length) = (sought.as_ptr(), sought.len());
            (self.find_name)(lent.as_ptr(), lent.len(), held.as_ptr(), bytes, length, &mut value, &mut column)
        };
        let what = format!("name {:?}", String::from_utf8_lossy(name));
        same(&what, &(number, value, column), &expected(right.map(|found| found.unwrap_or(FREE).into())))?;
        same(&what, &(lent == sheet && held == *slots && sought == name), &true)?;
        Ok(right)
    }

    /// Asks for the index and for at most so many names of a sheet.
    fn ask(&self, sheet: &[u8], most: usize, rng: &mut Rng, asked: &mut Asked) -> Result<(), String> {
        let right = self.ask_index(sheet, rng.draw() as u8)?;
        asked.indexes += 1;
        asked.refused += right.is_err() as usize;
        for (slots, name) in searches(sheet, most, rng) {
            let found = self.ask_name(sheet, &slots, &name)?;
            if right.is_ok_and(|own| own == slots) {
                same("the plain search", &found, &plain_search(sheet, &name))?;
            }
            asked.searches += 1;
            asked.found += found.is_ok_and(|found| found.is_some()) as usize;
            asked.none += found.is_ok_and(|found| found.is_none()) as usize;
        }
        Ok(())
    }
}

/// At most so many names of a generated sheet are asked for.
const SOME: usize = 20;

/// What was asked, or the first difference: sheets with names of every kind, each of whose names is asked for; and sheets
/// of each kind, so many of the random ones.
pub fn compare(library: &Library, seed: u64, count: usize) -> Result<Asked, String> {
    let (mut asked, mut rng) = (Asked::default(), Rng::new(seed, 0));
    let mut ask = |what: &str, sheet: &[u8], most| {
        let shown = || sheet.iter().map(|byte| format!("{byte:02x}")).collect::<String>();
        library.ask(sheet, most, &mut rng, &mut asked).map_err(|how| format!("{what}: {how}\n{}", shown()))
    };
    for (what, sheet) in index::sheets() {
        ask(what, &sheet, usize::MAX)?;
    }
    for kind in [Kind::Limits, Kind::Sound, Kind::Random, Kind::Quantified, Kind::Damaged] {
        for (what, sheet) in Sheets::new(kind, seed, count).iter() {
            ask(&what, &sheet, SOME)?;
        }
    }
    Ok(asked)
}

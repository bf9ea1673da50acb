//! Compares all sheets of a kind, on several threads; what is found does not depend on how many.
use crate::{
    call::Library,
    difference::{Asker, Difference},
    shrink::shrunk,
    tally::Tally,
};
use oracle::{
    generate::{Kind, Sheets},
    rng::Rng,
};
use std::{
    fmt,
    sync::{
        atomic::{AtomicUsize, Ordering::SeqCst},
        Mutex,
    },
    thread,
};

/// The Rust recurses into deep trees, and the decoder into deep code before refusal 8 is tried.
const STACK: usize = 1 << 30;
/// Comparisons of each sheet, and of each sheet that is tried in search of a smaller one.
const COMPARISONS: usize = 12;
const THOROUGH: usize = 600;

/// A difference found on a sheet, and the name of the sheet that it comes from.
pub struct Found {
    pub name: String,
    pub sheet: Vec<u8>,
    pub difference: Difference,
}

impl fmt::Display for Found {
    fn fmt(&self, f: &mut fmt::Formatter) -> fmt::Result {
        let hex: String = self.sheet.iter().map(|byte| format!("{byte:02x}")).collect();
        writeln!(f, "DIFFERENCE in {}", self.name)?;
        writeln!(f, "smallest sheet found, {} bytes: {hex}", self.sheet.len())?;
        write!(f, "{}", self.difference)
    }
}

/// The tally, and the difference on the first sheet that has one.
pub fn compare(library: &Library, kind: Kind, seed: u64, count: usize, threads: usize) -> (Tally, Option<Found>) {
    let sheets = deep(|| Sheets::new(kind, seed, count));
    let (next, end) = (AtomicUsize::new(0), AtomicUsize::new(sheets.count()));
    let (sum, first) = (Mutex::new(Tally::default()), Mutex::new(None::<(usize, Found)>));
    let work = || {
        let mut tally = Tally::default();
        loop {
            let index = next.fetch_add(1, SeqCst);
            if index >= end.load(SeqCst) {
                break;
            }
            let (name, sheet) = sheets.get(index);
            let mut asker = Asker::new(library, COMPARISONS, Rng::new(!seed, index as u64));
            let difference = asker.ask(&sheet);
            tally += &asker.tally;
            if let Some(difference) = difference {
                // All sheets before this one are taken already: only those are still to be waited for.
                end.fetch_min(index, SeqCst);
                let mut first = first.lock().unwrap();
                if first.as_ref().is_none_or(|(earlier, _)| index < *earlier) {
                    *first = Some((index, Found { name, sheet, difference }));
                }
            }
        }
        *sum.lock().unwrap() += &tally;
    };
    thread::scope(|scope| {
        for _ in 0..threads {
            thread::Builder::new().stack_size(STACK).spawn_scoped(scope, work).unwrap();
        }
    });
    let found = first.into_inner().unwrap().map(|(_, Found { name, sheet, difference })| {
        let operation = difference.operation;
        let differs = |sheet: &[u8]| Asker::new(library, THOROUGH, Rng::new(0, 0)).ask_again(sheet, operation);
        let (sheet, difference) = deep(|| shrunk(sheet, difference, differs));
        Found { name, sheet, difference }
    });
    (sum.into_inner().unwrap(), found)
}

/// Runs on a deep stack.
pub fn deep<T: Send>(run: impl FnOnce() -> T + Send) -> T {
    thread::scope(|scope| thread::Builder::new().stack_size(STACK).spawn_scoped(scope, run).unwrap().join().unwrap())
}

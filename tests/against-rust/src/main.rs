//! The command line: `run` beside this folder builds the library and starts it.
use against_rust::{call::Library, exercises, grafts, kinds, lengths, names, restatements, tally::Table};
use oracle::{exercise::Exercises, generate::Kind};
use std::{fmt, process::exit, str::FromStr, thread, time::Instant};

#[link(name = "skriduhol_c", kind = "static")]
extern "C" {
    fn skriduhol_plain_text(
        sheet: *const u8,
        length: usize,
        out: *mut u8,
        room: usize,
        value: *mut usize,
        column: *mut usize,
    ) -> u8;
    fn skriduhol_strict_text(
        sheet: *const u8,
        length: usize,
        out: *mut u8,
        room: usize,
        value: *mut usize,
        column: *mut usize,
    ) -> u8;
    fn skriduhol_atom_list(
        sheet: *const u8,
        length: usize,
        out: *mut u16,
        room: usize,
        value: *mut usize,
        column: *mut usize,
    ) -> u8;
    fn skriduhol_datatype_list(
        sheet: *const u8,
        length: usize,
        out: *mut u16,
        room: usize,
        value: *mut usize,
        column: *mut usize,
    ) -> u8;
    fn skriduhol_label_count(sheet: *const u8, length: usize, value: *mut usize, column: *mut usize) -> u8;
    fn skriduhol_compare(
        sheet: *const u8,
        length: usize,
        i: usize,
        j: usize,
        value: *mut usize,
        column: *mut usize,
    ) -> u8;
    fn skriduhol_board_output(sheet: *const u8, length: usize, out: *mut u8) -> usize;
    fn skriduhol_handout_plain(
        sheet: *const u8,
        length: usize,
        version: usize,
        out: *mut u8,
        room: usize,
        value: *mut usize,
        column: *mut usize,
    ) -> u8;
    fn skriduhol_handout_strict(
        sheet: *const u8,
        length: usize,
        version: usize,
        out: *mut u8,
        room: usize,
        value: *mut usize,
        column: *mut usize,
    ) -> u8;
    fn skriduhol_handout_datatypes(
        sheet: *const u8,
        length: usize,
        version: usize,
        out: *mut u16,
        room: usize,
        value: *mut usize,
        column: *mut usize,
    ) -> u8;
    fn skriduhol_plain_text_length(sheet: *const u8, length: usize, value: *mut usize, column: *mut usize) -> u8;
    fn skriduhol_strict_text_length(sheet: *const u8, length: usize, value: *mut usize, column: *mut usize) -> u8;
    fn skriduhol_atom_list_length(sheet: *const u8, length: usize, value: *mut usize, column: *mut usize) -> u8;
    fn skriduhol_datatype_list_length(sheet: *const u8, length: usize, value: *mut usize, column: *mut usize) -> u8;
    fn skriduhol_handout_plain_length(
        sheet: *const u8,
        length: usize,
        version: usize,
        value: *mut usize,
        column: *mut usize,
    ) -> u8;
    fn skriduhol_handout_strict_length(
        sheet: *const u8,
        length: usize,
        version: usize,
        value: *mut usize,
        column: *mut usize,
    ) -> u8;
    fn skriduhol_handout_datatypes_length(
        sheet: *const u8,
        length: usize,
        version: usize,
        value: *mut usize,
        column: *mut usize,
    ) -> u8;
    fn skriduhol_exercise(
        names: *const u8,
        names_length: usize,
        n: usize,
        ordinal: usize,
        out: *mut u8,
        room: usize,
        value: *mut usize,
        column: *mut usize,
    ) -> u8;
    fn skriduhol_name_index(
        sheet: *const u8,
        length: usize,
        slots: *mut u16,
        value: *mut usize,
        column: *mut usize,
    ) -> u8;
    fn skriduhol_find_name(
        sheet: *const u8,
        length: usize,
        slots: *const u16,
        name: *const u8,
        name_length: usize,
        value: *mut usize,
        column: *mut usize,
    ) -> u8;
    fn skriduhol_restate(
        sheet: *const u8,
        length: usize,
        given: *const u16,
        slots: *mut u16,
        out: *mut u8,
        room: usize,
        value: *mut usize,
        column: *mut usize,
    ) -> u8;
    fn skriduhol_graft(
        host: *const u8,
        host_length: usize,
        step: usize,
        donor: *const u8,
        donor_length: usize,
        slots: *mut u16,
        out: *mut u8,
        room: usize,
        value: *mut usize,
        column: *mut usize,
        whose: *mut usize,
    ) -> u8;
}

const GRAFTING: grafts::Library = grafts::Library { graft: skriduhol_graft, asked: Some(LIBRARY) };

const RESTATING: restatements::Library = restatements::Library { restate: skriduhol_restate, asked: Some(LIBRARY) };

const LENGTHS: lengths::Library = lengths::Library {
    plain_text: skriduhol_plain_text_length,
    strict_text: skriduhol_strict_text_length,
    atom_list: skriduhol_atom_list_length,
    datatype_list: skriduhol_datatype_list_length,
    handout_plain: skriduhol_handout_plain_length,
    handout_strict: skriduhol_handout_strict_length,
    handout_datatypes: skriduhol_handout_datatypes_length,
};

const NAMES: names::Library = names::Library { name_index: skriduhol_name_index, find_name: skriduhol_find_name };

const LIBRARY: Library = Library {
    plain_text: skriduhol_plain_text,
    strict_text: skriduhol_strict_text,
    atom_list: skriduhol_atom_list,
    datatype_list: skriduhol_datatype_list,
    label_count: skriduhol_label_count,
    compare: skriduhol_compare,
    board_output: skriduhol_board_output,
    handout_plain: skriduhol_handout_plain,
    handout_strict: skriduhol_handout_strict,
    handout_datatypes: skriduhol_handout_datatypes,
    exercise: skriduhol_exercise,
};

const USAGE: &str = "usage: run [--seed N] [--count M] [--kind KIND] [--threads T]
  --seed     of the random kinds (1)
  --count    sheets of each random kind (50000)
  --kind     sound, random, quantified, damaged, limits, worst or slowest (all but slowest)
  --threads  (as many as there are processors)";

/// How many sheets of each random kind there are by default. A run of all kinds with so many must meet every refusal.
const COUNT: usize = 50_000;

struct Arguments {
    seed: u64,
    count: usize,
    /// All but slowest without one.
    kind: Option<Kind>,
    threads: usize,
}

fn usage() -> ! {
    eprintln!("{USAGE}");
    exit(2)
}

fn number<T: FromStr>(text: &str) -> T {
    text.parse().unwrap_or_else(|_| usage())
}

fn arguments() -> Arguments {
    let threads = thread::available_parallelism().map_or(1, usize::from);
    let mut arguments = Arguments { seed: 1, count: COUNT, kind: None, threads };
    let mut words = std::env::args().skip(1);
    while let Some(name) = words.next() {
        let value = words.next().unwrap_or_else(|| usage());
        match name.as_str() {
            "--seed" => arguments.seed = number(&value),
            "--count" => arguments.count = number(&value),
            "--kind" => arguments.kind = Some(Kind::named(&value).unwrap_or_else(|| usage())),
            "--threads" => arguments.threads = number::<usize>(&value).max(1),
            _ => usage(),
        }
    }
    arguments
}

/// Says what was asked, or what differs and ends.
fn report<T: fmt::Display + Send>(what: &str, compare: impl FnOnce() -> Result<T, String> + Send) {
    match kinds::deep(compare) {
        Ok(asked) => println!("{asked}"),
        Err(difference) => {
            println!("DIFFERENCE in {what}{difference}");
            exit(1)
        }
    }
}

fn main() {
    let Arguments { seed, count, kind: only, threads } = arguments();
    let mut tallies = Vec::new();
    for kind in Kind::ALL.into_iter().filter(|kind| only.map_or(*kind != Kind::Slowest, |only| *kind == only)) {
        let start = Instant::now();
        let (tally, found) = kinds::compare(&LIBRARY, kind, seed, count, threads);
        if let Some(found) = found {
            println!("{found}");
            exit(1);
        }
        eprintln!("{kind}: {} sheets in {:.0?}", tally.sheets, start.elapsed());
        tallies.push((kind, tally));
    }
    let table = Table(&tallies);
    print!("{table}");
    let missing = table.sum().missing();
    match missing.is_empty() {
        true => println!("Every refusal from 1 to 21 but 18 and 20 occurred."),
        false => println!("Refusals that did not occur: {missing:?}"),
    }
    if only.is_none() {
        report("an ", || exercises::compare(&LIBRARY, &Exercises::default(), seed));
        report("", || lengths::compare(&LENGTHS, &lengths::KINDS, seed, count));
        report("", || names::compare(&NAMES, seed, count));
        #[cfg(feature = "read_term")]
        report("", || against_rust::readings::compare(&against_rust::terms::reading::LIBRARY, seed, count, 5));
        #[cfg(feature = "judge")]
        report("", || against_rust::judgements::compare(&against_rust::terms::judging::LIBRARY, seed, count / 4));
        report("a restatement: ", || restatements::compare(&RESTATING, seed, count));
        report("a graft: ", || grafts::compare(&GRAFTING, seed, count, threads));
    }
    println!("No difference.");
    if only.is_none() && count >= COUNT && !missing.is_empty() {
        println!("But a run of all kinds with {COUNT} sheets or more of each random kind must meet every refusal.");
        exit(1);
    }
}

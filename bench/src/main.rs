//! Times the Rust and Skriduhol on the same sheets, and measures Skriduhol's stack. docs/PERFORMANCE.md says how.
mod exercises;
mod grafts;
mod handouts;
mod library;
mod lines;
mod names;
mod operations;
mod plain;
mod required;
mod restatements;
mod sheets;
mod stack;
mod terms;
mod texts;
mod timing;

use exercises::exercises;
use grafts::grafts;
use handouts::handouts;
use library::{ask, length, question, Lent};
use lines::lines;
use names::names;
use operations::operations;
use oracle::{
    answer::{Operation, Question},
    generate::Named,
};
use required::{at_least, verdict, Required, LEAST_RATIO};
use restatements::restatements;
use sheets::steps;
use stack::Stack;
use std::{process::exit, time::Duration};
use terms::{judgements, readings};
use texts::{speed, texts, Text};
use timing::{grouped, Effort};

/// How much is measured.
struct Plan {
    effort: Effort,
    sound_seeds: u64,
    longest_text: usize,
    /// Sheets of each random kind for the stack.
    random_sheets: usize,
}

const SHORT: Plan = Plan {
    effort: Effort { batches: 5, batch: Duration::from_millis(2), enough: Duration::from_secs(2) },
    sound_seeds: 8,
    longest_text: 4_100_000,
    random_sheets: 100,
};

const FULL: Plan = Plan {
    effort: Effort { batches: 11, batch: Duration::from_millis(5), enough: Duration::from_secs(10) },
    sound_seeds: 24,
    longest_text: 96_000_000,
    random_sheets: 2_000,
};

/// A sheet that takes the Rust so many nanoseconds is slow.
const SLOW: f64 = 20e6;

/// Prints a table, and gives the figures that are required of it.
type Section = fn(&Plan, &mut Lent) -> Vec<Required>;

const SECTIONS: [(&str, Section); 12] = [
    ("sound", |plan, lent| vec![sound_sheets(plan, lent)]),
    ("worst", worst_sheets),
    ("growth", growth),
    ("stack", |plan, lent| vec![stack_use(plan, lent)]),
    ("operations", |plan, lent| vec![other_operations(plan, lent)]),
    ("lines", |plan, lent| {
        println!("## Lines with a number\n");
        lines(&plan.effort, &sheets::with_numbers(), lent);
        vec![]
    }),
    ("handouts", versions),
    ("restatements", |plan, lent| {
        println!("## Restated conclusions\n");
        restatements(&plan.effort, lent)
    }),
    ("grafts", |plan, lent| {
        println!("## Grafts of one sheet into another\n");
        grafts(&plan.effort, lent)
    }),
    ("exercises", |plan, lent| {
        println!("## Exercises over three names with up to three connectives\n");
        exercises(&plan.effort, lent);
        vec![]
    }),
    ("names", |plan, lent| {
        println!("## The index of a sheet's names, and its last name found by it\n");
        names(&plan.effort, lent)
    }),
    ("terms", |plan, lent| {
        let mut required = judgements(&plan.effort, plan.random_sheets, lent);
        println!();
        required.extend(readings(&plan.effort, lent));
        required
    }),
];

fn usage() -> ! {
    eprintln!(
        "usage: bench/run short|full \
         [sound|worst|growth|stack|operations|lines|handouts|restatements|grafts|exercises|names|terms]..."
    );
    exit(2)
}

fn main() {
    let args: Vec<String> = std::env::args().skip(1).collect();
    let plan = match args.first().map(String::as_str) {
        Some("short") => SHORT,
        Some("full") => FULL,
        _ => usage(),
    };
    let chosen = args[1..].to_vec();
    if !chosen.iter().all(|name| SECTIONS.iter().any(|(known, _)| name == known)) {
        usage();
    }
    // The Rust recurses deeply on the deepest trees.
    let run = std::thread::Builder::new().stack_size(1 << 30).spawn(move || run(&plan, &chosen)).unwrap();
    exit(run.join().unwrap_or(101))
}

/// Measures the sections named, or all.
fn run(plan: &Plan, chosen: &[String]) -> i32 {
    let mut lent = Lent::new();
    let mut required = Vec::new();
    for (name, section) in SECTIONS {
        if chosen.is_empty() || chosen.iter().any(|one| one == name) {
            required.extend(section(plan, &mut lent));
            println!();
        }
    }
    !verdict(&required) as i32
}

fn sound_sheets(plan: &Plan, lent: &mut Lent) -> Required {
    let (least, seeds) = (sheets::ABOUT_1000, plan.sound_seeds);
    println!("## Sound sheets of {least} to 1,024 steps, the first for each seed from 1 to {seeds}\n");
    let texts = texts(&plan.effort, &sheets::sound(seeds), lent);
    at_least("sound sheets of about 1,000 steps", 10.0, texts.iter().map(Text::ratio).collect())
}

fn worst_sheets(plan: &Plan, lent: &mut Lent) -> Vec<Required> {
    println!("## Worst cases, with texts of at most {} bytes\n", grouped(plan.longest_text));
    let mut all = sheets::worst();
    all.retain(|(_, sheet)| ask(Question::PlainText, sheet, lent).unwrap() <= plan.longest_text);
    let texts = texts(&plan.effort, &all, lent);
    let slow = texts.iter().filter(|text| text.rust_time() >= SLOW);
    vec![
        at_least("worst sheets that take the Rust 20 ms or more", 50.0, slow.map(Text::ratio).collect()),
        at_least("every worst sheet", LEAST_RATIO, texts.iter().map(Text::ratio).collect()),
    ]
}

fn growth(plan: &Plan, lent: &mut Lent) -> Vec<Required> {
    println!("## Growth: one proposition as the label of more and more functions\n");
    let texts = texts(&plan.effort, &sheets::growth(plan.longest_text), lent);
    let per_byte = texts.iter().map(Text::ours_per_byte);
    let (least, most) = (per_byte.clone().fold(f64::MAX, f64::min), per_byte.fold(0.0, f64::max));
    let measured = format!("{least:.2} to {most:.2} ns: {:.2} times", most / least);
    let bound = "greatest below 2 times the least".into();
    vec![
        Required { what: "growth: time for a byte of text", bound, measured, met: most < 2.0 * least },
        at_least("every growing sheet", LEAST_RATIO, texts.iter().map(Text::ratio).collect()),
    ]
}

fn stack_use(plan: &Plan, lent: &mut Lent) -> Required {
    let all = sheets::for_the_stack(plan.random_sheets);
    println!("## Stack: the most over {} sheets\n\n| operation | bytes | sheet |\n|---|--:|---|", grouped(all.len()));
    let mut stack = Stack::new();
    let mut most = 0;
    let mut table = |row: String, used: &mut dyn FnMut(&Named) -> usize| {
        let (bytes, what) = all.iter().map(|named| (used(named), &named.0)).max_by_key(|(bytes, _)| *bytes).unwrap();
        println!("| {row} | {} | {what} |", grouped(bytes));
        most = most.max(bytes);
    };
    for operation in Operation::ALL {
        let asked = |sheet: &[u8]| question(operation, steps(sheet));
        table(operation.to_string(), &mut |(_, sheet)| stack.used(asked(sheet), sheet, lent));
        if length(asked(&[]), &[]).is_some() {
            let mut used = |(_, sheet): &Named| stack.used_by_length(asked(sheet), sheet, lent);
            table(format!("{operation}, its length"), &mut used);
        }
    }
    let (bound, measured) = ("below 262,144 bytes".into(), format!("{} bytes", grouped(most)));
    Required { what: "stack of an operation", bound, measured, met: most < 256 << 10 }
}

/// Version 2 beside version 1 on more and more labels, and version 3 beside version 2 on the most declarations.
fn versions(plan: &Plan, lent: &mut Lent) -> Vec<Required> {
    println!("## The versions of the handout\n");
    handouts(&plan.effort, &sheets::quantified(), [1, 2], lent);
    println!();
    let most = sheets::most_declared();
    let longest = handouts(&plan.effort, std::slice::from_ref(&most), [2, 3], lent);
    let (bound, measured) = ("at most 1.5 times version 2's time".into(), format!("{longest:.2} times"));
    let ratio = speed(&plan.effort, &most, Question::HandoutPlain(3), lent);
    vec![
        Required { what: "version 3 with the most declarations", bound, measured, met: longest <= 1.5 },
        at_least("version 3 beside the Rust's version 1", LEAST_RATIO, vec![ratio]),
    ]
}

/// On two sound sheets and on two of the worst within the board's room.
fn other_operations(plan: &Plan, lent: &mut Lent) -> Required {
    println!("## The other operations\n");
    let chosen = ["1,008 labels within the board's room", "one label of 58,000 bytes"];
    let worst = sheets::worst().into_iter().filter(|(what, _)| chosen.contains(&what.as_str()));
    let all: Vec<Named> = sheets::sound(2).into_iter().chain(worst).collect();
    at_least("lists, label counts and comparisons", LEAST_RATIO, operations(&plan.effort, &all, lent))
}

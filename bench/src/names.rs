//! What the index of a sheet's names costs, and finding a name by it, beside the same in plain Rust.
use crate::{
    library::{find_name, name_index, Lent},
    plain,
    required::{at_least, Required, LEAST_RATIO},
    stack::Stack,
    timing::{grouped, in_rounds, Effort, Pair},
};
use oracle::{index::sheets, sheet::decode};
use std::hint::black_box;

/// Sheets of a single step, from one name to as many as there can be.
const SHEETS: [&str; 5] = [
    "one name",
    "many that start alike",
    "as many as there can be",
    "as many as there can be at the last slots",
    "as many as there can be that start alike",
];

/// The names of a sheet, and the last one that is not a repeat, for which a search takes longest.
struct Named {
    what: &'static str,
    sheet: Vec<u8>,
    names: Vec<Vec<u8>>,
}

pub fn names(effort: &Effort, lent: &mut Lent) -> Vec<Required> {
    let named = |(what, sheet): (&'static str, Vec<u8>)| {
        let names = decode(&sheet).expect("the sheet is one").names.into_iter().map(String::into_bytes).collect();
        Named { what, sheet, names }
    };
    let all: Vec<Named> = sheets().into_iter().filter(|(what, _)| SHEETS.contains(what)).map(named).collect();
    println!("| sheet | names | building, plain Rust ns | Skriduhol ns | ratio | stack bytes | finding, plain Rust ns | Skriduhol ns | ratio | stack bytes |");
    println!("|---|--:|--:|--:|--:|--:|--:|--:|--:|--:|");
    let (mut building, mut finding) = (vec![], vec![]);
    for Named { what, sheet, names } in &all {
        let last = names.last().expect("there is a name");
        let built = Pair::new(
            Box::new(|_| {
                black_box(plain::name_index(black_box(sheet)));
            }),
            Box::new(|lent: &mut Lent| {
                let _ = black_box(name_index(black_box(sheet), lent));
            }),
        );
        let slots = plain::name_index(sheet).expect("the sheet is one");
        let found = Pair::new(
            Box::new(|_| {
                black_box(plain::find_name(black_box(sheet), &slots, black_box(last)));
            }),
            Box::new(|lent: &mut Lent| {
                let _ = black_box(find_name(black_box(sheet), black_box(last), lent));
            }),
        );
        name_index(sheet, lent).expect("the sheet is one");
        let mut pairs = [built, found];
        in_rounds(effort, &mut pairs, lent);
        let [(plain_built, ours_built), (plain_found, ours_found)] = pairs.map(|pair| pair.times());
        let build_ratio = plain_built.fastest / ours_built.fastest;
        let find_ratio = plain_found.fastest / ours_found.fastest;
        let built = Stack::new().used_by_index(sheet, lent);
        let found = Stack::new().used_by_name(sheet, last, lent);
        println!(
            "| {what} | {} | {plain_built} | {ours_built} | {build_ratio:.1} | {} | {plain_found} | {ours_found} | {find_ratio:.1} | {} |",
            names.len(),
            grouped(built),
            grouped(found)
        );
        building.push(build_ratio);
        finding.push(find_ratio);
    }
    vec![
        at_least("the index of names, beside plain Rust", LEAST_RATIO, building),
        at_least("a name found by it, beside plain Rust", LEAST_RATIO, finding),
    ]
}

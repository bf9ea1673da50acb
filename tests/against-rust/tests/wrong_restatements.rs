//! Libraries that restate wrongly in one thing each: the comparison must find every one of them.
use against_rust::restatements::{compare, Library};
use oracle::{
    index::{name_index, SLOTS},
    restate::{restate, Given},
    sheet::{decode, refuse, Refusal, STEP_BYTES},
};
use std::sync::atomic::{AtomicUsize, Ordering::SeqCst};

const FAULTS: [&str; 24] = [
    "the step count is not raised",
    "the step count is raised by two",
    "rule 15",
    "no premiss",
    "an identifier is set",
    "the record stands before the steps",
    "the record stands after the text",
    "the given number is the goal's",
    "the column is dropped",
    "the kind is dropped",
    "24 before 23",
    "25 before 24",
    "1,024 steps have room for one more",
    "256 levels have room for one more",
    "255 levels have no room",
    "column 4,096 is in range",
    "unused fields are free",
    "conclusions are compared by their numbers",
    "every conclusion is equal",
    "room asked for twenty bytes short",
    "16 before 25",
    "the refused slots are cleared",
    "the slots are left",
    "the column of the old root is handed back",
];

/// Which fault the library has now; none past the last.
static FAULT: AtomicUsize = AtomicUsize::new(usize::MAX);

fn has(fault: &str) -> bool {
    FAULTS.get(FAULT.load(SeqCst)) == Some(&fault)
}

/// The number of a header, low byte first.
fn set(bytes: &mut [u8], at: usize, number: u16) {
    bytes[at..at + 2].copy_from_slice(&number.to_le_bytes());
}

/// What the wrong library answers where the right one answers this.
fn wrong(sheet: &[u8], given: Given, room: usize) -> Result<Vec<u8>, Refusal> {
    let right = restate(sheet, given, None);
    let read = decode(sheet)?;
    let (root, steps) = (read.steps[read.root()], read.steps.len());
    let same = (given.kind, given.numbers) == (root.kind, root.conclusion);
    let number = right.as_ref().map_or_else(|refusal| refusal.number, |_| 0);
    let made = |given: Given| made(sheet, given);
    let answer = match number {
        23 if has("24 before 23") && steps == 1024 => refuse(24, 0),
        23 if has("column 4,096 is in range") && given.column == 4096 => {
            restate(sheet, Given { column: 0, ..given }, None).map(|_| made(given))
        }
        23 if has("unused fields are free") && given.kind == 0 => {
            restate(sheet, Given { numbers: [given.numbers[0], 0, 0], ..given }, None).map(|_| made(given))
        }
        24 if has("25 before 24") && !same => refuse(25, 0),
        24 if has("1,024 steps have room for one more") && steps == 1024 && same => Ok(made(given)),
        24 if has("256 levels have room for one more") && steps < 1024 && same => Ok(made(given)),
        0 if has("255 levels have no room") && steps == 255 => refuse(24, 0),
        0 if has("conclusions are compared by their numbers") && !same => refuse(25, 0),
        25 if has("every conclusion is equal") => Ok(made(given)),
        25 if has("16 before 25") && room < sheet.len() + STEP_BYTES => refuse(16, 0),
        0 => Ok(made(given)),
        _ => right,
    }?;
    let asked = if has("room asked for twenty bytes short") { answer.len() - STEP_BYTES } else { answer.len() };
    if room < asked {
        return refuse(16, 0);
    }
    Ok(answer)
}

/// The new sheet, with the fault that it has.
fn made(sheet: &[u8], given: Given) -> Vec<u8> {
    let read = decode(sheet).expect("it was admitted");
    let steps = read.steps.len();
    let end = 12 + 4 * (read.names.len() + read.props.len()) + STEP_BYTES * steps;
    let mut record = vec![16, 1, 0, 0, 0, 0, 0, 0, 0, 0];
    record.extend(given.row().into_iter().flat_map(u16::to_le_bytes));
    if has("rule 15") {
        record[0] = 15;
    }
    if has("no premiss") {
        record[1] = 0;
    }
    if has("an identifier is set") {
        record[4] = 1;
    }
    if has("the column is dropped") {
        set(&mut record, 18, 0);
    }
    if has("the kind is dropped") {
        set(&mut record, 10, 0);
    }
    let place = match (has("the record stands before the steps"), has("the record stands after the text")) {
        (true, _) => end - STEP_BYTES * steps,
        (_, true) => sheet.len(),
        _ => end,
    };
    let mut out = [&sheet[..place], &record, &sheet[place..]].concat();
    let raised = steps
        + match (has("the step count is not raised"), has("the step count is raised by two")) {
            (true, _) => 0,
            (_, true) => 2,
            _ => 1,
        };
    set(&mut out, 8, raised as u16);
    if has("the given number is the goal's") && given.kind == 0 {
        set(&mut out, 10, given.numbers[0]);
    }
    out
}

unsafe extern "C" fn restating(
    sheet: *const u8,
    sheet_length: usize,
    given: *const u16,
    slots: *mut u16,
    out: *mut u8,
    room: usize,
    value: *mut usize,
    column: *mut usize,
) -> u8 {
    let (sheet, row, out, slots) = (
        std::slice::from_raw_parts(sheet, sheet_length),
        std::slice::from_raw_parts(given, 5),
        std::slice::from_raw_parts_mut(out, room),
        std::slice::from_raw_parts_mut(slots, SLOTS),
    );
    let given = Given { kind: row[0], numbers: [row[1], row[2], row[3]], column: row[4] };
    match wrong(sheet, given, room) {
        Ok(new) => {
            let fits = new.len().min(room);
            out[..fits].copy_from_slice(&new[..fits]);
            if !has("the slots are left") {
                slots.copy_from_slice(&name_index(sheet).expect("the old sheet is admitted"));
            }
            (*value, *column) = (new.len(), 0);
            0
        }
        Err(refusal) => {
            if has("the refused slots are cleared") {
                slots.fill(65535);
            }
            let drawn = match (has("the column of the old root is handed back"), decode(sheet)) {
                (true, Ok(read)) => read.steps[read.root()].column,
                _ => refusal.column,
            };
            (*value, *column) = (refusal.place, drawn.into());
            refusal.number
        }
    }
}

#[test]
fn every_fault_is_found() {
    let library = Library { restate: restating, asked: None };
    let asked = compare(&library, 1, 40).unwrap_or_else(|difference| panic!("no fault, and yet {difference}"));
    for number in [16, 19, 23, 24, 25] {
        assert!(asked.refused[&number] > 0, "{asked}");
    }
    for (number, fault) in FAULTS.iter().enumerate() {
        FAULT.store(number, SeqCst);
        assert!(compare(&library, 1, 40).is_err(), "not found: {fault}");
    }
}

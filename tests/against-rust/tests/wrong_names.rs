//! Libraries that index and find names wrongly in one thing each: the comparison must find every one of them.
use against_rust::names::{compare, Library};
use oracle::{
    index::{FREE, SLOTS},
    sheet::{decode, laid_out, Layout, Refusal},
};
use std::sync::atomic::{AtomicUsize, Ordering::SeqCst};

const FAULTS: [&str; 27] = [
    "33 times the running number",
    "the byte before the product",
    "the start slot is the remainder by 1,023",
    "the start slot is that of the last byte",
    "probing stops at the end",
    "probing goes down",
    "repeats enter",
    "a repeat takes the slot",
    "names enter from the last down",
    "the last name does not enter",
    "0 is free",
    "numbers from 1",
    "equal by the start slot",
    "equal by the length",
    "a name that begins another is equal",
    "found without a look at the bytes",
    "probing ends after 512 slots",
    "a search goes on at a free slot",
    "none is 0",
    "none is 512",
    "a refused sheet's slots are cleared",
    "a slot is written past the end",
    "a slot is written before the start",
    "the value of an index is 0",
    "the column is left unset",
    "a search tries every refusal",
    "an index tries 1 to 3 alone",
];

/// Which fault the library has now; none past the last.
static FAULT: AtomicUsize = AtomicUsize::new(usize::MAX);

fn has(fault: &str) -> bool {
    FAULTS.get(FAULT.load(SeqCst)) == Some(&fault)
}

fn start(name: &[u8]) -> usize {
    if has("the start slot is that of the last byte") {
        return name.last().map_or(0, |byte| usize::from(*byte));
    }
    let times = if has("33 times the running number") { 33 } else { 31u32 };
    let running = name.iter().fold(0u32, |running, byte| match has("the byte before the product") {
        true => running.wrapping_add(u32::from(*byte)).wrapping_mul(times),
        false => running.wrapping_mul(times).wrapping_add(u32::from(*byte)),
    });
    running as usize % if has("the start slot is the remainder by 1,023") { 1023 } else { SLOTS }
}

fn way(name: &[u8]) -> Vec<usize> {
    let start = start(name);
    let mut way: Vec<usize> = (start..SLOTS).chain(0..start).collect();
    if has("probing stops at the end") {
        way.truncate(SLOTS - start);
    }
    if has("probing goes down") {
        way[1..].reverse();
    }
    if has("probing ends after 512 slots") {
        way.truncate(512);
    }
    way
}

fn free() -> u16 {
    if has("0 is free") {
        0
    } else {
        FREE
    }
}

fn equal(one: &[u8], other: &[u8]) -> bool {
    match () {
        _ if has("equal by the start slot") => start(one) == start(other),
        _ if has("equal by the length") => one.len() == other.len(),
        _ if has("a name that begins another is equal") => one.starts_with(other),
        _ if has("found without a look at the bytes") => true,
        _ => one == other,
    }
}

fn names(layout: &Layout) -> Vec<Vec<u8>> {
    let text = |offset: u16, length: u16| layout.text.iter().skip(offset.into()).take(length.into()).copied().collect();
    layout.names.iter().map(|(offset, length)| text(*offset, *length)).collect()
}

fn enter(slots: &mut [u16], names: &[Vec<u8>], number: usize) {
    let name = &names[number];
    let first = names.iter().position(|other| other == name).unwrap_or(number);
    let held = way(name).into_iter().find(|at| slots[*at] == first as u16 && free() != first as u16);
    let at = match () {
        _ if first == number || has("repeats enter") => way(name).into_iter().find(|at| slots[*at] == free()),
        _ if has("a repeat takes the slot") => held,
        _ => None,
    };
    if let Some(at) = at {
        slots[at] = number as u16 + has("numbers from 1") as u16;
    }
}

fn build(slots: &mut [u16], names: &[Vec<u8>]) {
    slots.fill(free());
    let mut order: Vec<usize> = (0..names.len()).collect();
    if has("names enter from the last down") {
        order.reverse();
    }
    if has("the last name does not enter") {
        order.pop();
    }
    order.into_iter().for_each(|number| enter(slots, names, number));
}

fn find(slots: &[u16], names: &[Vec<u8>], name: &[u8]) -> usize {
    let none = match () {
        _ if has("none is 0") => 0,
        _ if has("none is 512") => 512,
        _ => FREE.into(),
    };
    for at in way(name) {
        if slots[at] == free() {
            match has("a search goes on at a free slot") {
                true => continue,
                false => return none,
            }
        }
        let bytes = names.get(usize::from(slots[at])).map_or(&[][..], Vec::as_slice);
        if equal(bytes, name) {
            return slots[at].into();
        }
    }
    none
}

unsafe fn bytes<'a>(pointer: *const u8, length: usize) -> &'a [u8] {
    if length == 0 {
        &[]
    } else {
        std::slice::from_raw_parts(pointer, length)
    }
}

unsafe fn say(answer: Result<usize, Refusal>, value: *mut usize, column: *mut usize) -> u8 {
    let (number, said, drawn) = match answer {
        Ok(value) => (0, value, 0),
        Err(refusal) => (refusal.number, refusal.place, refusal.column.into()),
    };
    *value = said;
    if !has("the column is left unset") {
        *column = drawn;
    }
    number
}

unsafe extern "C" fn name_index(
    s: *const u8,
    length: usize,
    slots: *mut u16,
    value: *mut usize,
    column: *mut usize,
) -> u8 {
    let sheet = bytes(s, length);
    let lent = std::slice::from_raw_parts_mut(slots, SLOTS);
    let refusal = match has("an index tries 1 to 3 alone") {
        true => laid_out(sheet).err(),
        false => decode(sheet).err(),
    };
    match (refusal, laid_out(sheet)) {
        (None, Ok(layout)) => build(lent, &names(&layout)),
        _ if has("a refused sheet's slots are cleared") => lent.fill(FREE),
        _ => {}
    }
    if has("a slot is written past the end") {
        *slots.add(SLOTS) = 0;
    }
    if has("a slot is written before the start") {
        *slots.sub(1) = 0;
    }
    let count = if has("the value of an index is 0") { 0 } else { SLOTS };
    say(refusal.map_or(Ok(count), Err), value, column)
}

unsafe extern "C" fn find_name(
    s: *const u8,
    length: usize,
    slots: *const u16,
    name: *const u8,
    name_length: usize,
    value: *mut usize,
    column: *mut usize,
) -> u8 {
    let sheet = bytes(s, length);
    let refusal = decode(sheet).err().filter(|_| has("a search tries every refusal"));
    let slots = std::slice::from_raw_parts(slots, SLOTS);
    let found = laid_out(sheet).map(|layout| find(slots, &names(&layout), bytes(name, name_length)));
    say(refusal.map_or(found, Err), value, column)
}

const LIBRARY: Library = Library { name_index, find_name };

#[test]
fn every_library_with_wrong_names_is_found() {
    let asked = compare(&LIBRARY, 11, 60).unwrap_or_else(|found| panic!("a right library: {found}"));
    assert!(asked.refused > 1000 && asked.indexes > asked.refused + 1000, "{asked}");
    assert!(asked.found > 2000 && asked.none > 2000, "{asked}");
    for (index, fault) in FAULTS.iter().enumerate() {
        FAULT.store(index, SeqCst);
        let found = compare(&LIBRARY, 11, 60).err().unwrap_or_else(|| panic!("not found: {fault}"));
        println!("{fault}\n{found}\n");
    }
}

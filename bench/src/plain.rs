//! Answers that the Rust does not have, in plain Rust: from the same bytes as Skriduhol's, and as much of them.
use oracle::{
    graft::graft as merged,
    grafts::Graft,
    index::{start, Slots, FREE, SLOTS},
    restate::{restate as restated, Given},
    sheet::{decode, laid_out},
};

/// Each name enters at the first free slot from its start slot on, unless its bytes stand on the way.
fn index(names: &[Vec<u8>]) -> Slots {
    let mut slots = [FREE; SLOTS];
    for (number, name) in names.iter().enumerate() {
        let mut at = start(name);
        while slots[at] != FREE && names[usize::from(slots[at])] != *name {
            at = (at + 1) % SLOTS;
        }
        if slots[at] == FREE {
            slots[at] = number as u16;
        }
    }
    slots
}

/// The index of a sheet's names.
pub fn name_index(sheet: &[u8]) -> Option<Slots> {
    let names: Vec<Vec<u8>> = decode(sheet).ok()?.names.into_iter().map(String::into_bytes).collect();
    Some(index(&names))
}

/// The number of a name by the slots beside a sheet.
pub fn find_name(sheet: &[u8], slots: &Slots, name: &[u8]) -> Option<u16> {
    let layout = laid_out(sheet).ok()?;
    let bytes = |number: u16| {
        let (offset, length) = layout.names[usize::from(number)];
        &layout.text[offset.into()..][..length.into()]
    };
    let mut at = start(name);
    while slots[at] != FREE && bytes(slots[at]) != name {
        at = (at + 1) % SLOTS;
    }
    (slots[at] != FREE).then_some(slots[at])
}

/// A sheet that was made, and the index of its names.
fn with_index(sheet: Vec<u8>) -> (Vec<u8>, Slots) {
    let names = laid_out(&sheet).expect("a sheet was made").plain().names;
    (sheet, index(&names))
}

/// The merged sheet of a graft, and the index of its names.
pub fn graft(asked: &Graft) -> Option<(Vec<u8>, Slots)> {
    merged(&asked.host, asked.step, &asked.donor, None).ok().map(with_index)
}

/// The sheet with a restated conclusion, and the index of its names.
pub fn restate(sheet: &[u8], given: Given) -> Option<(Vec<u8>, Slots)> {
    restated(sheet, given, None).ok().map(with_index)
}

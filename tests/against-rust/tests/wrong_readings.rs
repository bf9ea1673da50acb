//! Libraries that read terms wrongly in one thing each: the comparison must find every one of them.
use against_rust::readings::{compare, Lent, Library, Told};
use alice::kernel::{
    checker::identifier::Identifier,
    proof_term::{ProofTerm, Type},
    prop::{Prop, PropParameter},
};
use oracle::{
    memory::{read_into, stored, Memory, Room, RECORD},
    reading::{datatypes, read, read_within, Limits},
    sheet::{refuse, Refusal},
    terms::{nesting, nodes, parts, Form},
};
use std::{
    sync::atomic::{AtomicUsize, Ordering::SeqCst},
    thread,
};

const FAULTS: [&str; 47] = [
    "every text is refused",
    "every text is sorry",
    "16 before 20",
    "20 has a place",
    "a column is handed back",
    "the place of a refusal is left",
    "the number of nodes is one less",
    "the number of names is one more",
    "the code is counted without the last byte",
    "2,047 nodes at most",
    "2,049 nodes",
    "511 levels at most",
    "513 levels",
    "511 names at most",
    "513 names",
    "labels of 63 levels at most",
    "labels of 65 levels",
    "labels of 8,191 bytes at most",
    "labels of 8,193 bytes",
    "65,537 bytes of text",
    "65,535 bytes at most",
    "a name is numbered twice",
    "names from the last",
    "a name by its last occurrence",
    "a label's number is its offset",
    "labels stand without gaps",
    "the gap behind a label is cleared",
    "labels in the order of the records",
    "no tally",
    "the tally of the parts alone",
    "records from the last",
    "branches exchanged",
    "bound names exchanged",
    "a label's kind is dropped",
    "a listed lone name is an atom",
    "every lone name is a datatype",
    "a bound parameter is instantiated",
    "a free parameter is uninstantiated",
    "a parameter has the id 1",
    "the whole may stand in brackets",
    "blanks at the end are dropped",
    "a listed word is a name",
    "room for the records is asked for one short",
    "room for the names is asked for one short",
    "room for the code is asked for one short",
    "room for one record more is asked for",
    "a refusal clears the first record",
];

/// Which fault the library has now; none past the last.
static FAULT: AtomicUsize = AtomicUsize::new(usize::MAX);

fn has(fault: &str) -> bool {
    FAULTS.get(FAULT.load(SeqCst)) == Some(&fault)
}

/// The limits that the wrong library keeps.
fn limits() -> Limits {
    let mut limits = Limits::default();
    let faults: [(&str, fn(&mut Limits) -> &mut usize, usize); 12] = [
        ("2,047 nodes at most", |limits| &mut limits.nodes, 2047),
        ("2,049 nodes", |limits| &mut limits.nodes, 2049),
        ("511 levels at most", |limits| &mut limits.nesting, 511),
        ("513 levels", |limits| &mut limits.nesting, 513),
        ("511 names at most", |limits| &mut limits.names, 511),
        ("513 names", |limits| &mut limits.names, 513),
        ("labels of 63 levels at most", |limits| &mut limits.label_nesting, 63),
        ("labels of 65 levels", |limits| &mut limits.label_nesting, 65),
        ("labels of 8,191 bytes at most", |limits| &mut limits.label_code, 8191),
        ("labels of 8,193 bytes", |limits| &mut limits.label_code, 8193),
        ("65,537 bytes of text", |limits| &mut limits.text, 65_537),
        ("65,535 bytes at most", |limits| &mut limits.text, 65_535),
    ];
    for (_, limit, value) in faults.into_iter().filter(|(fault, ..)| has(fault)) {
        *limit(&mut limits) = value;
    }
    limits
}

/// A term with every label changed.
fn with_labels(t: &ProofTerm, change: &impl Fn(Type) -> Type) -> ProofTerm {
    let form = match Form::of(t) {
        Form::Function(name, label) => Form::Function(name, label.map(change)),
        Form::Ascription(label) => Form::Ascription(change(label)),
        form => form,
    };
    form.over(parts(t).into_iter().map(|part| with_labels(part, change)).collect())
}

fn with_parameters(prop: Prop, change: &impl Fn(PropParameter) -> PropParameter) -> Prop {
    let part = |part: Box<Prop>| Box::new(with_parameters(*part, change));
    match prop {
        Prop::True | Prop::False => prop,
        Prop::And(l, r) => Prop::And(part(l), part(r)),
        Prop::Or(l, r) => Prop::Or(part(l), part(r)),
        Prop::Impl(l, r) => Prop::Impl(part(l), part(r)),
        Prop::Atom(name, parameters) => Prop::Atom(name, parameters.into_iter().map(change).collect()),
        Prop::ForAll { object_ident, object_type_ident, body } => {
            Prop::ForAll { object_ident, object_type_ident, body: part(body) }
        }
        Prop::Exists { object_ident, object_type_ident, body } => {
            Prop::Exists { object_ident, object_type_ident, body: part(body) }
        }
    }
}

/// The term with the wrong library's labels.
fn relabelled(t: ProofTerm) -> ProofTerm {
    let parameter = |parameter: PropParameter| match parameter {
        PropParameter::Uninstantiated(name) if has("a bound parameter is instantiated") => {
            PropParameter::Instantiated(Identifier::new(name, 0))
        }
        PropParameter::Instantiated(object) if has("a free parameter is uninstantiated") => {
            PropParameter::Uninstantiated(object.name().clone())
        }
        parameter => parameter,
    };
    with_labels(&t, &|label| match label {
        Type::Datatype(name) if has("a listed lone name is an atom") => Type::Prop(Prop::Atom(name, vec![])),
        Type::Prop(Prop::Atom(name, none)) if none.is_empty() && has("every lone name is a datatype") => {
            Type::Datatype(name)
        }
        Type::Prop(prop) => Type::Prop(with_parameters(prop, &parameter)),
        label => label,
    })
}

/// What the wrong library reads.
fn wrongly_read(list: &[u8], text: &[u8]) -> Option<ProofTerm> {
    let bracketed = text.strip_prefix(b"(").and_then(|text| text.strip_suffix(b")"));
    let shorter = text.strip_suffix(b" ");
    let found = match (bracketed, shorter) {
        (Some(inner), _) if has("the whole may stand in brackets") && read(list, text).is_none() => read(list, inner),
        (_, Some(shorter)) if has("blanks at the end are dropped") => read(list, shorter),
        _ if has("a listed word is a name") && datatypes(list).is_none() => read(b"", text),
        _ => read_within(list, text, &limits()),
    };
    match found {
        _ if has("every text is refused") => None,
        _ if has("every text is sorry") => Some(Form::Sorry.over(vec![])),
        found => found.map(relabelled),
    }
}

/// The memory of the wrong library, from the right one.
fn miswritten(t: &ProofTerm, text: &[u8]) -> Memory {
    let mut memory = stored(t, text);
    let Memory { records, names, code } = &mut memory;
    if has("a name is numbered twice") && names.len() > 4 {
        let again = names[..4].to_vec();
        names[4..8].copy_from_slice(&again);
    }
    if has("names from the last") {
        let turned: Vec<u8> = names.chunks(4).rev().flatten().copied().collect();
        *names = turned;
    }
    if has("a name by its last occurrence") {
        for pair in names.chunks_mut(4) {
            let (offset, length) = (u16::from_le_bytes([pair[0], pair[1]]), usize::from(pair[2]));
            let name = &text[usize::from(offset)..][..length];
            let whole = |at: &usize| {
                let around = [at.checked_sub(1), Some(at + length)];
                let in_name =
                    |at: usize| text.get(at).is_some_and(|byte| byte.is_ascii_alphanumeric() || *byte == b'_');
                text[*at..].starts_with(name) && !around.into_iter().flatten().any(in_name)
            };
            let last = (0..text.len()).rev().find(whole).unwrap() as u16;
            pair[..2].copy_from_slice(&last.to_le_bytes());
        }
    }
    for record in records.chunks_mut(RECORD) {
        let labelled = matches!(record[0], 4 | 11);
        match () {
            _ if has("a label's number is its offset") && labelled && record[3] == 1 => {
                record[4] = record[4].wrapping_mul(2);
            }
            _ if has("no tally") => record[6] = 0,
            _ if has("the tally of the parts alone") && labelled && record[3] > 0 => record[6] -= 1,
            _ if has("branches exchanged") && record[0] == 9 => record.swap(2, 3),
            _ if has("bound names exchanged") && record[0] == 6 => record.swap(3, 4),
            _ if has("a label's kind is dropped") && labelled => record[3] = 0,
            _ if has("a parameter has the id 1") => {}
            _ => {}
        }
    }
    if has("a parameter has the id 1") {
        // The id behind an atom's first parameter.
        if let Some(at) =
            code.windows(5).position(|five| five[0] == Some(5) && five[3] != Some(0) && five[4] == Some(1))
        {
            code[at + 7] = Some(1);
        }
    }
    if has("records from the last") {
        let turned: Vec<u16> = records.chunks(RECORD).rev().flatten().copied().collect();
        *records = turned;
    }
    if has("labels stand without gaps") {
        let length = code.len();
        code.retain(Option::is_some);
        code.resize(length, None);
    }
    if has("the gap behind a label is cleared") {
        code.iter_mut().for_each(|byte| *byte = byte.or(Some(0)));
    }
    if has("labels in the order of the records") {
        in_order_of_records(&mut memory);
    }
    memory
}

/// The first two labels' code exchanged where their records stand in the other order.
fn in_order_of_records(memory: &mut Memory) {
    let Memory { records, code, .. } = memory;
    let labelled = records.chunks(RECORD).filter(|record| matches!(record[0], 4 | 11) && record[3] == 1);
    let offsets: Vec<usize> = labelled.map(|record| 2 * usize::from(record[4])).collect();
    if offsets.windows(2).any(|two| two[0] > two[1]) {
        let mut sorted = offsets.clone();
        sorted.sort();
        let end = |start: usize| sorted.iter().copied().find(|other| *other > start).unwrap_or(code.len());
        let again: Vec<Option<u8>> = offsets.iter().flat_map(|start| code[*start..end(*start)].to_vec()).collect();
        *code = again;
    }
}

fn wrong(list: &[u8], text: &[u8], room: Room) -> Result<Memory, Refusal> {
    let Some(t) = wrongly_read(list, text) else {
        return refuse(if has("16 before 20") && room.records == 0 { 16 } else { 20 }, 0);
    };
    let memory = match has("every text is sorry") {
        true => stored(&t, b"sorry"),
        false => miswritten(&t, text),
    };
    let less = |fault: &str| has(fault) as usize;
    let Room { records, names, code } = memory.room();
    let short = room.records + less("room for the records is asked for one short")
        < records + RECORD * less("room for one record more is asked for")
        || room.names + less("room for the names is asked for one short") < names
        || room.code + less("room for the code is asked for one short") < code;
    if short {
        return refuse(16, 0);
    }
    Ok(memory)
}

unsafe fn read_term(lent: Lent) -> Told {
    let Lent { list, text, records, names, code, room } = lent;
    let answer = wrong(list, text, room);
    let mut told = Told::of(&answer);
    let to = |fault: &str| has(fault) as usize;
    match &answer {
        Ok(memory) => {
            memory.records.iter().take(room.records).enumerate().for_each(|(at, number)| *records.add(at) = *number);
            memory.names.iter().take(room.names).enumerate().for_each(|(at, byte)| *names.add(at) = *byte);
            let written = memory.code.iter().take(room.code).enumerate();
            written.filter_map(|(at, byte)| Some((at, (*byte)?))).for_each(|(at, byte)| *code.add(at) = byte);
            told.values[0] -= to("the number of nodes is one less");
            told.values[1] += to("the number of names is one more");
            told.values[2] -= to("the code is counted without the last byte").min(told.values[2]);
        }
        Err(_) => {
            if has("a refusal clears the first record") && room.records > 0 {
                *records = 0;
            }
            told.values[0] += to("20 has a place") + 77 * to("the place of a refusal is left");
        }
    }
    told.column += to("a column is handed back");
    told
}

const LIBRARY: Library = Library { read_term };

#[test]
fn every_wrong_reader_is_found() {
    let run = || {
        for (fault, what) in FAULTS.iter().enumerate() {
            FAULT.store(fault, SeqCst);
            assert!(compare(&LIBRARY, 3, 400, 3).is_err(), "not found: {what}");
        }
        FAULT.store(usize::MAX, SeqCst);
        let asked = compare(&LIBRARY, 3, 400, 3).unwrap_or_else(|difference| panic!("{difference}"));
        println!("{asked}");
        assert!(asked.accepted > 1000 && asked.refused[&16] > 500 && asked.refused[&20] > 500);
    };
    thread::Builder::new().stack_size(1 << 28).spawn(run).unwrap().join().unwrap();
}

/// Each fault says what it is: a reader's own limits are those of the ticket.
#[test]
fn the_limits_are_the_tickets() {
    let Limits { text, nodes: most, nesting: levels, names, label_nesting, label_code } = Limits::default();
    assert_eq!((text, most, levels, names, label_nesting, label_code), (65_536, 2048, 512, 512, 64, 8192));
    let t = read(b"", b"fst (x, y)").unwrap();
    assert_eq!((nodes(&t), nesting(&t)), (4, 3));
    assert!(read_into(b"", b"x", Some(Room { records: 7, names: 4, code: 0 })).is_ok());
}

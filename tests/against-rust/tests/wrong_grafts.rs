//! Libraries that graft wrongly in one thing each: the comparison must find every one of them.
use against_rust::grafts::{compare, Library};
use oracle::{
    graft::{merged, Refused, Whose},
    index::{index, name_index, Slots, SLOTS},
    sheet::{decode, laid_out, rule, Layout, Sheet, Step, CODE, NAMES, PROPS, STEPS, STEP_NESTING, TEXT},
    walk::alpha,
};
use std::sync::atomic::{AtomicUsize, Ordering::SeqCst};

const FAULTS: [&str; 60] = [
    "the step count is the sum of both",
    "the proposition count is the host's",
    "the donor's goal",
    "the goal moves with the propositions",
    "every donor name is added",
    "a missing name is added for each repeat",
    "an unused name is not added",
    "missing names are added backwards",
    "a name has the highest number of equal bytes",
    "a name has the first number of equal bytes or its own",
    "names in code are not renumbered",
    "the names of parameters are not renumbered",
    "the names of quantifiers are not renumbered",
    "the names of steps are not renumbered",
    "the second name of a step is not renumbered",
    "the names of judgements are not renumbered",
    "the datatype of a judgement is not renumbered",
    "fields that are not used are renumbered",
    "propositions of steps are not renumbered",
    "propositions of steps are renumbered by the donor's count",
    "the id of a judgement is renumbered",
    "the gaps of the donor's text are kept",
    "the gaps of the donor's code are kept",
    "the gaps of the host's text are closed",
    "new names begin at the last one's end",
    "new propositions begin at the last one's end",
    "the sorry is kept",
    "the donor's steps come last",
    "the donor's steps come first",
    "the root has the sorry's column",
    "columns are dropped",
    "ids of steps are dropped",
    "the step before is replaced",
    "a Sorry with premisses is open",
    "every step without premisses is open",
    "the number of a step is cut at 65,536",
    "27 before 26",
    "28 before 27",
    "28 before 26",
    "16 before 28",
    "the donor's refusals before the host's",
    "26 before the donor's refusals",
    "conclusions up to alpha",
    "conclusions by their numbers",
    "conclusions without ids",
    "judgements are all the same",
    "the kind is not compared",
    "T may be one more",
    "N may be one more",
    "C may be one more",
    "P may be one more",
    "S may be one more",
    "257 levels are admitted",
    "256 levels are not",
    "levels are those of both sheets",
    "the donor's whole text counts",
    "whose it is is exchanged",
    "the refusals of neither are the host's",
    "the column is dropped",
    "the slots are those of the host",
];

/// Such as are wrong in what becomes of lent memory.
const OF_MEMORY: [&str; 5] = [
    "the slots are left",
    "the refused slots are cleared",
    "the slots have repeats",
    "a byte is written in too little room",
    "room asked for one byte short",
];

/// Which fault the library has now; none past the last.
static FAULT: AtomicUsize = AtomicUsize::new(usize::MAX);

fn has(fault: &str) -> bool {
    let all = FAULTS.iter().chain(&OF_MEMORY);
    debug_assert!(all.clone().any(|other| *other == fault), "no fault {fault}");
    all.clone().nth(FAULT.load(SeqCst)) == Some(&fault)
}

/// What the wrong library answers.
fn wrong(host: &[u8], step: usize, donor: &[u8], room: usize) -> Result<Vec<u8>, Refused> {
    let of = |whose, bytes: &[u8]| decode(bytes).map_err(|refusal| Refused { whose, refusal });
    let step = if has("the number of a step is cut at 65,536") { step % 65536 } else { step };
    let other = if has("the donor's refusals before the host's") { Some(of(Whose::Donor, donor)?) } else { None };
    let one = of(Whose::Host, host)?;
    if has("26 before the donor's refusals") && !open(&one, step) {
        return Err(Refused::of_neither(26));
    }
    let other = other.map_or_else(|| of(Whose::Donor, donor), Ok)?;
    let made = made(host, &one, step.min(one.root()), donor, &other);
    let long = passes(host, &one, step, donor, &other, &made);
    if has("28 before 26") && long {
        return Err(Refused::of_neither(28));
    }
    let differ = !same(&one, step.min(one.root()), &other);
    if has("27 before 26") && differ {
        return Err(Refused::of_neither(27));
    }
    if !open(&one, step) {
        return Err(Refused::of_neither(26));
    }
    if has("28 before 27") && long {
        return Err(Refused::of_neither(28));
    }
    if differ {
        return Err(Refused::of_neither(27));
    }
    let bytes = made.bytes();
    let asked = bytes.len() - has("room asked for one byte short") as usize;
    if has("16 before 28") && room < asked {
        return Err(Refused::of_neither(16));
    }
    if long {
        return Err(Refused::of_neither(28));
    }
    if room < asked {
        return Err(Refused::of_neither(16));
    }
    Ok(bytes)
}

fn open(sheet: &Sheet, step: usize) -> bool {
    sheet.steps.get(step).is_some_and(|step| {
        let sorry = step.rule == rule::SORRY || has("every step without premisses is open");
        sorry && (step.count == 0 || has("a Sorry with premisses is open"))
    })
}

/// Whether the step's conclusion and the donor root's are the same, as the fault has it.
fn same(host: &Sheet, step: usize, donor: &Sheet) -> bool {
    let (one, other) = (host.steps[step], donor.steps[donor.root()]);
    let right = host.conclusion(step) == donor.conclusion(donor.root());
    let both = (host.concluded(step), donor.concluded(donor.root()));
    if has("judgements are all the same") && (one.kind, other.kind) == (1, 1) {
        return true;
    }
    if has("the kind is not compared") && one.kind != other.kind {
        return one.conclusion == other.conclusion;
    }
    match both {
        (Some(l), Some(r)) if has("conclusions by their numbers") => l == r,
        (Some(l), Some(r)) if has("conclusions without ids") => {
            let without = |text: String| {
                let parts = text.split("unique_id: ").map(|part| part.trim_start_matches(|c: char| c.is_ascii_digit()));
                parts.collect::<String>()
            };
            without(format!("{:?}", host.prop(l))) == without(format!("{:?}", donor.prop(r)))
        }
        (Some(l), Some(_)) if has("conclusions up to alpha") => {
            let new = Sheet { names: [&host.names[..], &donor.names].concat(), ..host.clone() };
            let mut root = donor.props[usize::from(other.conclusion[0])].clone();
            root.rename(&|n| host.names.len() as u16 + n);
            alpha(&new, l, &root, &mut vec![]) == Ok(true)
        }
        _ => right,
    }
}

/// Whether a limit is passed, as the fault has it.
fn passes(host: &[u8], one: &Sheet, step: usize, donor: &[u8], other: &Sheet, made: &Layout) -> bool {
    let right = merged(laid_out(host).unwrap(), one, step.min(one.root()), other);
    let more = |fault: &str| has(fault) as usize;
    let text = match has("the donor's whole text counts") {
        true => laid_out(host).unwrap().text.len() + laid_out(donor).unwrap().text.len(),
        false => right.text.len(),
    };
    let levels = match has("levels are those of both sheets") {
        true => levels(&one.steps) + levels(&other.steps),
        false => levels(&right.steps),
    };
    text > TEXT + more("T may be one more")
        || right.names.len() > NAMES + more("N may be one more")
        || right.code.len() > CODE + more("C may be one more")
        || right.props.len() > PROPS + more("P may be one more")
        || right.steps.len() > STEPS + more("S may be one more")
        || levels > STEP_NESTING + more("257 levels are admitted") - more("256 levels are not")
        || made.steps.len() > usize::from(u16::MAX)
}

fn levels(steps: &[Step]) -> usize {
    let mut trees: Vec<usize> = vec![];
    for step in steps {
        let premisses = trees.split_off(trees.len().saturating_sub(step.count.into()));
        trees.push(1 + premisses.into_iter().max().unwrap_or(0));
    }
    *trees.last().unwrap()
}

/// The numbers of the donor's names, and the names that are added.
fn numbered(one: &Sheet, other: &Sheet) -> (Vec<u16>, Vec<String>) {
    let (mut all, mut numbers) = (one.names.clone(), vec![]);
    let used = |n: usize| {
        let mut used = false;
        let mut see = |m: u16| {
            used |= other.names[usize::from(m)] == other.names[n];
            m
        };
        other.props.iter().for_each(|prop| prop.code(&mut see, &mut vec![]));
        for step in &other.steps {
            for (m, _) in &step.idents[..rule::idents(step.rule)] {
                see(*m);
            }
            if step.kind == 1 {
                (see(step.conclusion[0]), see(step.conclusion[2]));
            }
        }
        used
    };
    for (n, name) in other.names.iter().enumerate() {
        let mut equal = (0..all.len()).filter(|number| all[*number] == *name);
        let found = match has("a name has the highest number of equal bytes") {
            true => equal.next_back(),
            false => equal.next(),
        };
        let added = has("every donor name is added")
            || has("a missing name is added for each repeat") && !one.names.contains(name);
        match found {
            Some(number) if !added => numbers.push(number as u16),
            None if has("an unused name is not added") && !used(n) => numbers.push(0),
            _ => {
                all.push(name.clone());
                let own = found.filter(|_| !has("a name has the first number of equal bytes or its own"));
                numbers.push(own.unwrap_or(all.len() - 1) as u16);
            }
        }
    }
    if has("a name has the first number of equal bytes or its own") {
        // A shared name keeps the number that it has in the donor, where the host has such a number.
        for (n, number) in numbers.iter_mut().enumerate() {
            *number = if n < one.names.len() && one.names.contains(&other.names[n]) { n as u16 } else { *number };
        }
    }
    let mut missing = all.split_off(one.names.len());
    if has("missing names are added backwards") {
        missing.reverse();
    }
    (numbers, missing)
}

/// The merged sheet, with the fault that it has.
fn made(host: &[u8], one: &Sheet, at: usize, donor: &[u8], other: &Sheet) -> Layout {
    let (mut new, theirs) = (laid_out(host).unwrap(), laid_out(donor).unwrap());
    let (numbers, missing) = numbered(one, other);
    if has("the gaps of the host's text are closed") {
        let closed = laid_out(host).unwrap().plain().layout();
        (new.names, new.text) = (closed.names, closed.text);
    }
    let end = |pairs: &[(u16, u16)]| pairs.last().map_or(0, |(offset, length)| offset + length);
    if has("new names begin at the last one's end") {
        new.text.truncate(end(&new.names).into());
    }
    for name in missing {
        if has("the gaps of the donor's text are kept") {
            let n = other.names.iter().position(|other| *other == name).unwrap();
            let gap = theirs.names[n].0 - n.checked_sub(1).map_or(0, |n| theirs.names[n].0 + theirs.names[n].1);
            new.text.extend(vec![0; gap.into()]);
        }
        new.names.push((new.text.len() as u16, name.len() as u16));
        new.text.extend(name.bytes());
    }
    if has("new propositions begin at the last one's end") {
        new.code.truncate(end(&new.props).into());
    }
    for (prop, (offset, _)) in other.props.iter().zip(&theirs.props) {
        if has("the gaps of the donor's code are kept") {
            let before = theirs.props.iter().map(|(offset, length)| offset + length).filter(|end| end <= offset).max();
            new.code.extend(vec![0; (offset - before.unwrap_or(0)).into()]);
        }
        let (start, code) = (new.code.len(), renumbered(prop, &numbers));
        new.code.extend(code);
        new.props.push((start as u16, (new.code.len() - start) as u16));
    }
    let mut moved: Vec<Step> = other.steps.iter().map(|step| step_of(step, one, other, &numbers)).collect();
    if has("the root has the sorry's column") {
        moved.last_mut().unwrap().column = one.steps[at].column;
    }
    let replaced = match (has("the sorry is kept"), has("the step before is replaced")) {
        (true, _) => at..at,
        (_, true) => at.saturating_sub(1)..at.max(1),
        _ => at..at + 1,
    };
    match (has("the donor's steps come last"), has("the donor's steps come first")) {
        (true, _) => {
            new.steps.remove(at);
            new.steps.extend(moved);
        }
        (_, true) => {
            new.steps.remove(at);
            new.steps.splice(0..0, moved);
        }
        _ => drop(new.steps.splice(replaced, moved)),
    }
    let steps = new.steps.len() + has("the step count is the sum of both") as usize;
    let props = if has("the proposition count is the host's") { one.props.len() } else { new.props.len() };
    let goal = match (has("the donor's goal"), has("the goal moves with the propositions")) {
        (true, _) => other.goal,
        (_, true) => one.goal + other.props.len(),
        _ => one.goal,
    };
    let lengths = [new.text.len(), new.names.len(), new.code.len(), props, steps, goal];
    new.header = lengths.map(|length| length as u16);
    new
}

/// The code of a donor's proposition.
fn renumbered(prop: &oracle::formula::Formula, numbers: &[u16]) -> Vec<u8> {
    use oracle::formula::{Formula, Parameter};
    let mut formula = prop.clone();
    fn each(formula: &mut Formula, name: &dyn Fn(u16) -> u16) {
        match formula {
            Formula::True | Formula::False => {}
            Formula::Binary(_, l, r) => [l, r].map(|part| each(part, name)).into_iter().collect(),
            Formula::Atom(n, parameters) => {
                *n = name(*n);
                for parameter in parameters {
                    let (Parameter::Uninstantiated(n) | Parameter::Instantiated(n, _)) = parameter;
                    *n = if has("the names of parameters are not renumbered") { *n } else { name(*n) };
                }
            }
            Formula::Quantified(_, object, datatype, body) => {
                if !has("the names of quantifiers are not renumbered") {
                    (*object, *datatype) = (name(*object), name(*datatype));
                }
                each(body, name);
            }
        }
    }
    if !has("names in code are not renumbered") {
        each(&mut formula, &|n| numbers[usize::from(n)]);
    }
    oracle::draw::code(&formula)
}

fn step_of(own: &Step, one: &Sheet, other: &Sheet, numbers: &[u16]) -> Step {
    let name = |n: u16| numbers.get(usize::from(n)).copied().unwrap_or(n);
    let mut step = *own;
    let used = match has("fields that are not used are renumbered") {
        true => 2,
        false => rule::idents(own.rule),
    };
    for (k, (n, id)) in step.idents[..used].iter_mut().enumerate() {
        let kept = has("the names of steps are not renumbered")
            || k == 1 && has("the second name of a step is not renumbered");
        *n = if kept { *n } else { name(*n) };
        *id = if has("ids of steps are dropped") { 0 } else { *id };
    }
    let [first, second, third] = own.conclusion;
    let (ours, theirs) = (one.props.len() as u16, other.props.len() as u16);
    step.conclusion = match own.kind {
        0 if has("propositions of steps are not renumbered") => [first, 0, 0],
        0 if has("propositions of steps are renumbered by the donor's count") => [first + theirs, 0, 0],
        0 => [first + ours, 0, 0],
        _ if has("the names of judgements are not renumbered") => [first, second, third],
        _ if has("the datatype of a judgement is not renumbered") => [name(first), second, third],
        _ if has("the id of a judgement is renumbered") => [name(first), name(second), name(third)],
        _ => [name(first), second, name(third)],
    };
    step.column = if has("columns are dropped") { 0 } else { own.column };
    step
}

/// The index of the merged sheet's names, with the fault that it has.
fn slots_of(host: &[u8], new: &[u8]) -> Slots {
    if has("the slots are those of the host") {
        return name_index(host).unwrap();
    }
    let names = laid_out(new).map_or(vec![], |layout| layout.plain().names);
    if has("the slots have repeats") {
        let mut slots = index(&names);
        for (number, name) in (0..).zip(&names) {
            let first = names.iter().position(|other| other == name).unwrap() as u16;
            slots.iter_mut().filter(|slot| **slot == first).for_each(|slot| *slot = number);
        }
        return slots;
    }
    index(&names)
}

unsafe extern "C" fn grafting(
    host: *const u8,
    host_length: usize,
    step: usize,
    donor: *const u8,
    donor_length: usize,
    slots: *mut u16,
    out: *mut u8,
    room: usize,
    value: *mut usize,
    column: *mut usize,
    whose: *mut usize,
) -> u8 {
    let (host, donor, out, slots) = (
        std::slice::from_raw_parts(host, host_length),
        std::slice::from_raw_parts(donor, donor_length),
        std::slice::from_raw_parts_mut(out, room),
        std::slice::from_raw_parts_mut(slots, SLOTS),
    );
    match wrong(host, step, donor, room) {
        Ok(new) => {
            let fits = new.len().min(room);
            out[..fits].copy_from_slice(&new[..fits]);
            if !has("the slots are left") {
                slots.copy_from_slice(&slots_of(host, &new));
            }
            (*value, *column, *whose) = (new.len(), 0, 0);
            0
        }
        Err(Refused { whose: its, refusal }) => {
            if has("the refused slots are cleared") {
                slots.fill(65535);
            }
            if has("a byte is written in too little room") && refusal.number == 16 && room > 0 {
                out[0] ^= 1;
            }
            let drawn = if has("the column is dropped") { 0 } else { refusal.column };
            let exchanged = [0, 2, 1][its as usize];
            *whose = match its {
                _ if has("whose it is is exchanged") => exchanged,
                Whose::Neither if has("the refusals of neither are the host's") => 1,
                _ => its as usize,
            };
            (*value, *column) = (refusal.place, drawn.into());
            refusal.number
        }
    }
}

#[test]
fn every_fault_is_found() {
    let library = Library { graft: grafting, asked: None };
    let asked = compare(&library, 1, 60, 1).unwrap_or_else(|difference| panic!("no fault, and yet {difference}"));
    assert!([16, 26, 27, 28].iter().all(|number| asked.refused[&(*number, 0)] > 0), "{asked}");
    for (number, fault) in FAULTS.iter().chain(&OF_MEMORY).enumerate() {
        FAULT.store(number, SeqCst);
        assert!(compare(&library, 1, 60, 1).is_err(), "not found: {fault}");
    }
}

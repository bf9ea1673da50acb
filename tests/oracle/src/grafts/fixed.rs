//! Grafts by hand: conclusions that are the same and such as are not, every limit exactly met and passed by one, and which
//! refusal comes first.
use super::Graft;
use crate::{
    draw::{and, atom, code, exists, forall, implies, in_column, judging, or, plain, second, smallest, step},
    formula::{Formula, Parameter},
    generate::{Kind, Sheets},
    index,
    sheet::{decode, rule, Layout, Plain, Step, CODE, NAMES, PROPS, STEPS, STEP_NESTING, TEXT},
};

#[derive(Default)]
struct List(Vec<Graft>);

impl List {
    fn add(&mut self, what: impl Into<String>, host: Vec<u8>, step: usize, donor: Vec<u8>) {
        self.0.push(Graft { what: what.into(), host, step, donor });
    }
}

/// The list; with those that are refused for their bytes, each sheet of the limits as host and as donor.
pub fn fixed() -> Vec<Graft> {
    let mut list = List::default();
    few(&mut list);
    conclusions(&mut list);
    steps(&mut list);
    names(&mut list);
    indexed(&mut list);
    text(&mut list);
    name_count(&mut list);
    code_length(&mut list);
    propositions(&mut list);
    step_count(&mut list);
    levels(&mut list);
    at_once(&mut list);
    order(&mut list);
    refused(&mut list);
    list.0
}

fn sorry(prop: u16) -> Step {
    step(rule::SORRY, 0, &[], prop)
}

/// A over a step that is open, in column 3.
fn host() -> Plain {
    plain(&["A"], &[atom(0)], &[in_column(3, sorry(0)), in_column(4, step(rule::ALPHA, 1, &[], 0))])
}

/// A by Ident u, in column 5.
fn donor() -> Plain {
    plain(&["u", "A"], &[atom(1)], &[in_column(5, step(rule::IDENT, 0, &[0], 0))])
}

/// The smallest grafts.
fn few(list: &mut List) {
    list.add("A by Ident u", host().bytes(), 0, donor().bytes());
    let root = plain(&["A"], &[atom(0)], &[sorry(0)]);
    list.add("a root", root.bytes(), 0, donor().bytes());
    list.add("a sorry for a sorry", root.bytes(), 0, root.bytes());
    let top = plain(&[], &[Formula::True], &[sorry(0)]);
    list.add("no names", top.bytes(), 0, smallest().bytes());
    let wide = plain(&["B", "A", "u"], &[implies(atom(1), or(atom(1), atom(0)))], &[sorry(0)]);
    list.add("the second drawing", wide.bytes(), 0, second().bytes());
    // fst of a sorry, over which the label is needed.
    let pair = plain(&["A", "B"], &[and(atom(0), atom(1)), atom(0)], &[sorry(0), step(rule::AND_ELIM_FST, 1, &[], 1)]);
    let parts = [step(rule::IDENT, 0, &[2], 0), step(rule::SORRY, 0, &[], 2), step(rule::AND_INTRO, 2, &[], 1)];
    let both = plain(&["B", "A", "a"], &[atom(1), and(atom(1), atom(0)), atom(0)], &parts);
    list.add("a pair under fst", pair.bytes(), 0, both.bytes());
    // A Sorry with premisses does not read them.
    let unread = plain(&["A"], &[atom(0)], &[sorry(0), step(rule::SORRY, 1, &[], 0)]);
    list.add("a premiss of a Sorry", unread.bytes(), 0, donor().bytes());
    list.add("a Sorry with a premiss", unread.bytes(), 1, donor().bytes());
    // 13: the host does not export, and the merged sheet does.
    let judged = [judging(sorry(0), 0, 1), step(rule::AND_ELIM_FST, 1, &[], 0)];
    let judged = plain(&["x", "T"], &[Formula::True], &judged);
    let object = plain(&["T", "x"], &[Formula::True], &[judging(step(rule::IDENT, 0, &[1], 0), 1, 0)]);
    list.add("a judgement under fst", judged.bytes(), 0, object.bytes());
    // The same numbers of another kind.
    let kinds = [sorry(0), judging(sorry(0), 0, 0)].map(|step| plain(&["A"], &[atom(0)], &[step]));
    for (i, j) in [(0, 1), (1, 0), (1, 1)] {
        list.add(format!("kinds {i} and {j}"), kinds[i].bytes(), 0, kinds[j].bytes());
    }
}

/// Propositions of which no two are the same, over these names.
fn different(name: impl Fn(&str) -> u16) -> Vec<Formula> {
    let of = |word: &str| atom(name(word));
    let (free, held) = (|x| Parameter::Uninstantiated(name(x)), |x, id| Parameter::Instantiated(name(x), id));
    let with = |word: &str, parameters: Vec<Parameter>| Formula::Atom(name(word), parameters);
    vec![
        Formula::True,
        Formula::False,
        of("P"),
        of("PP"),
        and(of("P"), of("PP")),
        and(of("PP"), of("P")),
        or(of("P"), of("PP")),
        implies(of("P"), of("PP")),
        with("P", vec![free("x")]),
        with("P", vec![free("y")]),
        with("P", vec![held("x", 0)]),
        with("P", vec![held("x", 1)]),
        with("P", vec![held("x", 256)]),
        with("P", vec![held("y", 0)]),
        with("P", vec![free("x"), free("x")]),
        with("P", vec![free("x"), held("x", 0)]),
        forall(name("x"), name("T"), with("P", vec![free("x")])),
        forall(name("y"), name("T"), with("P", vec![free("y")])),
        forall(name("y"), name("T"), with("P", vec![free("x")])),
        forall(name("x"), name("P"), with("P", vec![free("x")])),
        exists(name("x"), name("T"), with("P", vec![free("x")])),
        and(implies(of("P"), of("P")), or(of("P"), Formula::True)),
        and(implies(of("P"), of("P")), or(of("P"), Formula::False)),
        and(and(of("P"), of("P")), of("P")),
        and(of("P"), and(of("P"), of("P"))),
    ]
}

/// Every two conclusions, propositions and judgements: 27 where they are not the same.
fn conclusions(list: &mut List) {
    let words = [["P", "T", "x", "y", "PP"], ["y", "PP", "x", "T", "P"]];
    let sheets = words.map(|words| {
        let name = |word: &str| words.iter().position(|other| *other == word).expect("it is a name") as u16;
        let alone = |prop: Formula, step: Step| plain(&words, &[prop], &[step]).bytes();
        let judged = [("x", 0, "T"), ("x", 1, "T"), ("y", 0, "T"), ("x", 0, "P"), ("T", 0, "x")].map(|(x, id, t)| {
            let mut step = judging(sorry(0), name(x), name(t));
            step.conclusion[1] = id;
            step
        });
        let props = different(name).into_iter().map(|prop| alone(prop, sorry(0)));
        props.chain(judged.map(|step| alone(Formula::True, step))).collect::<Vec<_>>()
    });
    for (i, host) in sheets[0].iter().enumerate() {
        for (j, donor) in sheets[1].iter().enumerate() {
            list.add(format!("conclusions {i} and {j}"), host.clone(), 0, donor.clone());
        }
    }
}

/// 26: every rule with and without a premiss, and numbers past the last step.
fn steps(list: &mut List) {
    for rule in 0..=rule::ALPHA {
        let names = &[0, 0][..rule::idents(rule)];
        let leaf = plain(&["A"], &[atom(0)], &[step(rule, 0, names, 0)]);
        list.add(format!("rule {rule} without premisses"), leaf.bytes(), 0, donor().bytes());
        let over = plain(&["A"], &[atom(0)], &[sorry(0), step(rule, 1, names, 0)]);
        list.add(format!("rule {rule} over a Sorry"), over.bytes(), 1, donor().bytes());
    }
    for past in [2, 3, 255, 256, 1024, 65535, 65536, 65537, 1 << 32, usize::MAX - 1, usize::MAX] {
        list.add(format!("step {past} of 2"), host().bytes(), past, donor().bytes());
    }
}

/// Names that are missing, shared, repeated and unused; every rule's identifiers, and fields that are not used.
fn names(list: &mut List) {
    let every: Vec<Step> = (0..=rule::ALPHA)
        .map(|rule| {
            let mut step = step(rule, (rule > 0) as usize, &[], 1);
            step.idents[..rule::idents(rule)].copy_from_slice(&[(2, 7), (3, 65535)][..rule::idents(rule)]);
            step
        })
        .chain([step(rule::ALPHA, 1, &[], 0)])
        .collect();
    let tables: [&[&str]; 7] = [
        &["B", "A", "u", "v"],
        &["A", "A", "A", "A"],
        &["z", "A", "z", "A"],
        &["v", "A", "u", "B"],
        &["u", "A", "uu", "u"],
        &["B", "A", "B", "C", "D", "D", "A"],
        &["longer_than_all_that_are_here_00", "A", "u", "longer_than_all_that_are_here_01"],
    ];
    for (i, names) in tables.iter().enumerate() {
        let donor = plain(names, &[atom(1), Formula::True], &every);
        for (j, host) in tables.iter().enumerate() {
            let host = plain(host, &[atom(1)], &[sorry(0), step(rule::IMPL_INTRO, 1, &[2], 0)]);
            list.add(format!("names {i} into names {j}"), host.bytes(), 0, donor.bytes());
        }
    }
    let judged = plain(&["A", "x", "T"], &[atom(0)], &[judging(sorry(0), 1, 2), step(rule::ALPHA, 1, &[], 0)]);
    let object = [judging(step(rule::IDENT, 0, &[2], 0), 2, 0)];
    let object = plain(&["T", "y", "x"], &[Formula::True], &object);
    list.add("a judgement", judged.bytes(), 0, object.bytes());
}

/// Names that start alike, at the last slots or repeated, in the host, in the donor and in both.
fn indexed(list: &mut List) {
    let sheets: Vec<(&str, Vec<u8>)> = index::sheets().into_iter().filter(|(_, sheet)| decode(sheet).is_ok()).collect();
    for (what, host) in &sheets {
        let mut host = Layout::read(host).expect("it is a sheet");
        host.steps[0].rule = rule::SORRY;
        for (theirs, donor) in &sheets {
            list.add(format!("{theirs} into {what}"), host.bytes(), 0, donor.clone());
        }
    }
}

/// The host with its text and its code made so long by unread bytes at their ends.
fn padded(host: &Plain, text: usize, code: usize) -> Vec<u8> {
    let mut layout = host.layout();
    layout.text.resize(text.max(layout.text.len()), 0xee);
    layout.code.resize(code.max(layout.code.len()), 0xdd);
    (layout.header[0], layout.header[2]) = (layout.text.len() as u16, layout.code.len() as u16);
    layout.bytes()
}

/// 28 by T. A donor's gaps and the names that the host has do not count, nor do repeats.
fn text(list: &mut List) {
    let long = "n".repeat(32);
    for (what, names) in [("one", vec!["u"]), ("one long", vec![&long[..]]), ("three", vec!["u", "uv", "u", "w"])] {
        let names: Vec<&str> = names.into_iter().chain(["A"]).collect();
        let own = plain(&names, &[atom(names.len() as u16 - 1)], &[step(rule::IDENT, 0, &[0], 0)]);
        let distinct: std::collections::BTreeSet<&str> = names[..names.len() - 1].iter().copied().collect();
        let missing: usize = distinct.iter().map(|name| name.len()).sum();
        for past in [0, 1] {
            let host = padded(&host(), TEXT - missing + past, 0);
            list.add(format!("{what} missing, T passed by {past}"), host.clone(), 0, own.bytes());
            list.add(format!("{what} missing, T passed by {past}, gaps"), host, 0, padded(&own, TEXT, CODE));
        }
    }
    let shared = plain(&["A"], &[atom(0)], &[sorry(0)]);
    list.add("two full texts, no name missing", padded(&host(), TEXT, 0), 0, padded(&shared, TEXT, 0));
}

/// So many different names that begin with a letter, after A.
fn numbered(letter: char, count: usize) -> Vec<Vec<u8>> {
    let more = (1..count).map(|number| format!("{letter}{number}").into_bytes());
    [b"A".to_vec()].into_iter().chain(more).take(count).collect()
}

/// 28 by N.
fn name_count(list: &mut List) {
    for (n, missing) in
        [(NAMES, 0), (NAMES, 1), (NAMES - 1, 1), (NAMES - 1, 2), (256, 256), (256, 257), (1, 511), (2, 511)]
    {
        let host = Plain { names: numbered('h', n), ..host() };
        let own = Plain { names: numbered('d', missing + 1), ..plain(&[], &[atom(0)], &[sorry(0)]) };
        list.add(format!("{n} names, {missing} missing"), host.bytes(), 0, own.bytes());
    }
    let full = Plain { names: numbered('h', NAMES), ..host() };
    let mut reversed = Plain { names: numbered('h', NAMES), ..plain(&[], &[atom(511)], &[sorry(0)]) };
    reversed.names.reverse();
    list.add("512 names, the same backwards", full.bytes(), 0, reversed.bytes());
    let mut repeated = plain(&["A"], &[atom(0)], &[sorry(0)]);
    repeated.names.extend(vec![b"u".to_vec(); NAMES - 1]);
    let room = Plain { names: numbered('h', NAMES - 1), ..host() };
    list.add("511 names, one missing 511 times", room.bytes(), 0, repeated.bytes());
    list.add("512 names, one missing 511 times", full.bytes(), 0, repeated.bytes());
    let equal = Plain { names: vec![b"A".to_vec(); NAMES], ..host() };
    list.add("512 equal names, one missing", equal.bytes(), 0, donor().bytes());
    list.add("512 equal names, none missing", equal.bytes(), 0, plain(&["A"], &[atom(0)], &[sorry(0)]).bytes());
}

/// 28 by C.
fn code_length(list: &mut List) {
    let long = (0..60).fold(atom(1), |f, _| and(atom(0), f));
    let own = plain(&["u", "A"], &[atom(1), long], &[step(rule::IDENT, 0, &[0], 0)]);
    let length: usize = own.props.iter().map(Vec::len).sum();
    for past in [0, 1] {
        let host = padded(&host(), 0, CODE - length + past);
        list.add(format!("C passed by {past}"), host.clone(), 0, own.bytes());
        list.add(format!("C passed by {past}, gaps"), host, 0, padded(&own, TEXT, CODE));
    }
}

/// 28 by P.
fn propositions(list: &mut List) {
    let more = |mut sheet: Plain, count: usize| {
        sheet.props.resize(count, vec![0]);
        sheet.bytes()
    };
    for (p, q) in [(PROPS - 1, 1), (PROPS, 1), (PROPS - 1, 2), (1, PROPS - 1), (1, PROPS), (256, 256), (256, 257)] {
        list.add(format!("{p} and {q} propositions"), more(host(), p), 0, more(donor(), q));
    }
}

/// So many steps in few levels: leaves, joined as soon as there are 200; the first leaf is open.
fn wide(count: usize) -> Vec<Step> {
    let (mut steps, mut open) = (vec![], 0);
    while steps.len() + 1 < count {
        let joined = if open == 200 { open } else { 0 };
        steps.push(step(rule::SORRY, joined, &[], 0));
        open = open + 1 - joined;
    }
    steps.push(step(rule::SORRY, open, &[], 0));
    steps
}

/// 28 by S.
fn step_count(list: &mut List) {
    for (s, d) in [(STEPS, 1), (STEPS, 2), (2, STEPS - 1), (2, STEPS), (1, STEPS), (512, 513), (512, 514)] {
        let host = Plain { steps: wide(s), ..host() };
        let own = Plain { steps: wide(d), ..plain(&["A"], &[atom(0)], &[]) };
        list.add(format!("{s} and {d} steps"), host.bytes(), 0, own.bytes());
    }
}

/// So many steps over a first one, each over the last.
fn chain(first: Step, more: usize) -> Vec<Step> {
    let mut steps = vec![first];
    steps.resize(1 + more, in_column(9, step(rule::ALPHA, 1, &[], 0)));
    steps
}

/// 28 by levels: those above the sorry and the donor's, whatever stands beside.
fn levels(list: &mut List) {
    let donor =
        |levels: usize| plain(&["A"], &[atom(0)], &chain(step(rule::TRUE_INTRO, 0, &[], 0), levels - 1)).bytes();
    for above in [0, 1, 100, STEP_NESTING - 2, STEP_NESTING - 1] {
        let host = plain(&["A"], &[atom(0)], &chain(sorry(0), above)).bytes();
        for past in [0, 1] {
            let own = STEP_NESTING - above + past;
            if own <= STEP_NESTING {
                list.add(format!("{above} levels above {own}"), host.clone(), 0, donor(own));
            }
        }
    }
    // Beside the sorry a tree as deep as may be; the root has both, or reads neither.
    for root in [rule::AND_INTRO, rule::SORRY] {
        let mut steps = chain(sorry(0), STEP_NESTING - 2);
        steps.extend([sorry(0), step(root, 2, &[], 0)]);
        let host = plain(&["A"], &[atom(0)], &steps).bytes();
        for own in [STEP_NESTING - 2, STEP_NESTING - 1, STEP_NESTING] {
            list.add(format!("one level above {own}, rule {root}"), host.clone(), STEP_NESTING - 1, donor(own));
        }
        for own in [1, 2] {
            list.add(format!("255 levels above {own}, rule {root}"), host.clone(), 0, donor(own));
        }
    }
}

/// T, N, C, P and S all exactly met, and each passed by one beside the others.
fn at_once(list: &mut List) {
    let half = |letter: char, steps: usize| {
        let name = |number: usize| format!("{letter}{number:_>15}").into_bytes();
        let mut names: Vec<Vec<u8>> = (0..256).map(name).collect();
        names[255] = vec![b'A'; 16];
        // 16 bytes each
        let prop = |i: u16| code(&or(and(atom(i), atom(255 - i)), and(atom(i / 2), Formula::False)));
        let mut props: Vec<Vec<u8>> = (0..256).map(prop).collect();
        props[0] = code(&or(and(atom(255), atom(255)), and(atom(255), Formula::False)));
        Plain { names, props, steps: wide(steps), goal: 255 }
    };
    let (host, mut own) = (half('h', 512), half('d', 513));
    own.names.push(vec![b'd'; 16]);
    list.add("all limits met", host.bytes(), 0, own.bytes());
    let passed: [(&str, &dyn Fn(&mut Plain)); 5] = [
        ("T", &|own| own.names[0].push(b'd')),
        ("N", &|own| {
            own.names[0].truncate(15);
            own.names.push(b"e".to_vec());
        }),
        ("C", &|own| {
            let two = || and(Formula::True, Formula::True);
            own.props[255] = code(&or(and(two(), atom(0)), and(atom(0), two())));
        }),
        ("P", &|own| {
            own.props[255] = vec![0; 1];
            own.props.push(vec![0]);
        }),
        ("S", &|own| own.steps.insert(0, sorry(0))),
    ];
    for (what, pass) in passed {
        let mut own = own.clone();
        pass(&mut own);
        if what == "S" {
            own.steps.last_mut().expect("there is a root").count += 1;
        }
        list.add(format!("all limits met but {what}"), host.bytes(), 0, own.bytes());
    }
}

/// Which refusal comes first.
fn order(list: &mut List) {
    let broken = |mut layout: Layout, column: u16| {
        layout.steps[0].column = column;
        layout.bytes()
    };
    let (bad_host, bad_donor) = (broken(host().layout(), 4097), broken(donor().layout(), 5000));
    list.add("both refused", bad_host.clone(), 0, bad_donor.clone());
    list.add("the host refused, no such step", bad_host, 9, donor().bytes());
    list.add("the donor refused, no such step", host().bytes(), 9, bad_donor.clone());
    list.add("the donor refused, no room for its names", padded(&host(), TEXT, 0), 0, bad_donor);
    let other = plain(&["u", "B"], &[atom(1)], &[step(rule::IDENT, 0, &[0], 0)]);
    list.add("another conclusion, no such step", host().bytes(), 1, other.bytes());
    list.add("another conclusion, no room for its names", padded(&host(), TEXT, 0), 0, other.bytes());
    list.add("no such step, no room for its names", padded(&host(), TEXT, 0), 1, donor().bytes());
    let deep = plain(&["A"], &[atom(0)], &chain(step(rule::ALPHA, 0, &[], 0), 255));
    list.add("a donor of 256 levels under one", host().bytes(), 0, deep.bytes());
    let deeper = plain(&["A"], &[atom(0)], &chain(step(rule::ALPHA, 0, &[], 0), 256));
    list.add("a donor of 257 levels", host().bytes(), 0, deeper.bytes());
    list.add("a host of 257 levels", deeper.bytes(), 0, donor().bytes());
}

/// The sheets of the limits that 1 to 11 refuse, as host and as donor.
fn refused(list: &mut List) {
    for (what, sheet) in Sheets::new(Kind::Limits, 0, 0).iter() {
        if decode(&sheet).is_err() {
            list.add(format!("{what}, as host"), sheet.clone(), 0, donor().bytes());
            list.add(format!("{what}, as donor"), host().bytes(), 0, sheet);
        }
    }
}

//! Checking on the board (document 02, ticket 5): judgements by hand, every small term and random ones beside a search over the
//! rules, what a node means, sound sheets, and the refusals.
use alice::kernel::{
    proof_term::{ProofTerm, Type},
    prop::Prop,
};
use oracle::{
    derivations::agrees,
    draw::{and, atom, forall, implies, or, plain, smallest, step},
    formula::{Formula, Parameter},
    generate::{
        judgements::{every_small, judgement, small_props, small_scopes, Judgement},
        Kind, Sheets,
    },
    judging::{check, judge, Hypothesis, Judged, Verdict, Verdict::No, Verdict::Yes},
    reading::read,
    rng::Rng,
    sheet::{decode, refuse, rule, Refusal, Sheet},
    sound,
    terms::{nodes, part_at, parts, replaced, Form},
    text::{strict, term as printed},
    walk::export,
};
use std::thread;

/// Deep terms are printed, judged and dropped by recursion.
fn deep(test: fn()) {
    thread::Builder::new().stack_size(1 << 28).spawn(test).unwrap().join().unwrap();
}

fn taken(text: &str) -> ProofTerm {
    read(b"", text.as_bytes()).unwrap_or_else(|| panic!("{text}"))
}

/// A proposition by its text.
fn prop(text: &str) -> Prop {
    let Form::Ascription(Type::Prop(prop)) = Form::of(&taken(&format!("sorry: {text}"))) else { panic!("{text}") };
    prop
}

/// Hypotheses by their texts: `u: A, v: B`.
fn hypotheses(text: &str) -> Vec<Hypothesis> {
    let pairs = text.split(", ").filter(|pair| !pair.is_empty()).map(|pair| pair.split_once(": ").unwrap());
    pairs.map(|(name, text)| (name.into(), prop(text))).collect()
}

/// Each a row: hypotheses, term, proposition, answer.
#[test]
fn judgements_by_hand() {
    for (scope, term, wanted, verdict) in [
        ("", "fn u => u", "A ⊃ A", Yes),
        ("", "fn u: A => u", "A ⊃ A", Yes),
        // A label that is not the left side stops the function, before its body.
        ("", "fn u: B => fst u", "A ⊃ A", No(0)),
        ("", "fn u => v", "A ⊃ A", No(1)),
        // The form decides before the parts are looked at.
        ("", "(v, v)", "A ⊃ A", No(0)),
        ("", "fn u => v", "A ∧ A", No(0)),
        ("", "inl v", "A ∧ B", No(0)),
        ("", "fst (inl v)", "A", No(1)),
        ("", "fst (fn u => v)", "A", No(1)),
        ("", "fst (abort v)", "A", No(1)),
        ("", "fst sorry", "A", No(1)),
        ("", "sorry", "A", Yes),
        ("", "()", "⊤", Yes),
        ("", "()", "A", No(0)),
        // A case first infers its head; a head that is no ∨ stops the case.
        ("", "case v of inl x => w, inr y => w", "A", No(1)),
        ("v: A", "case v of inl x => w, inr y => w", "A", No(0)),
        ("v: A ∨ B", "case v of inl x => x, inr y => y", "A", No(3)),
        ("v: A ∨ A", "case v of inl x => x, inr y => y", "A", Yes),
        ("v: A ∨ B", "(case v of inl x => x, inr y => y, w)", "A ∧ A", No(4)),
        // In an inferring place both branches are inferred before they are compared.
        ("v: A ∨ B", "fst (case v of inl x => x, inr y => y)", "A", No(1)),
        ("v: A ∨ B", "fst (case v of inl x => x, inr y => w)", "A", No(4)),
        // An application stops at a function that is none, before its argument.
        ("u: A", "u v", "A", No(0)),
        ("u: A ⊃ B", "u v", "B", No(2)),
        ("u: A ⊃ B, v: A", "u v", "B", Yes),
        ("u: A ⊃ B, v: A", "u v", "A", No(0)),
        // Inferred whole and then compared.
        ("", "v: B", "A", No(1)),
        ("v: B", "v: B", "A", No(0)),
        ("u: A ∧ B", "fst u", "A", Yes),
        ("u: A ∧ B", "snd u", "A", No(0)),
        ("u: A", "fst u", "A", No(0)),
        ("u: ⊥", "abort u", "A ∨ B", Yes),
        ("u: A", "abort u", "A", No(1)),
        // A label is no node.
        ("", "(fn u: A => v): A ⊃ A", "A ⊃ A", No(2)),
        // The latest binding, by hypotheses and by binders.
        ("u: A, u: B", "u", "B", Yes),
        ("u: A, u: B", "u", "A", No(0)),
        ("u: A", "fn u => u", "B ⊃ B", Yes),
        ("u: A ∨ B", "case u of inl u => inr u, inr u => inl u", "B ∨ A", Yes),
        // Parts from left to right.
        ("", "(v, w)", "A ∧ A", No(1)),
        ("v: A", "(v, w)", "A ∧ A", No(2)),
        ("u: A ⊃ A ⊃ A", "u sorry v", "A", No(4)),
    ] {
        let (scope, what) = (hypotheses(scope), format!("{scope} |- {term} : {wanted}"));
        let (term, wanted) = (taken(term), prop(wanted));
        assert_eq!(check(&scope, &term, &wanted), verdict, "{what}");
        agrees(&scope, &term, Some(&wanted)).unwrap_or_else(|how| panic!("{what}: {how}"));
    }
}

/// Every term of at most four nodes, over four scopes, inferred and checked against eight propositions.
#[test]
fn every_small_term() {
    let (mut yes, mut no) = (0, 0);
    for size in 1..=4 {
        every_small(size, &mut |term| {
            for scope in small_scopes() {
                for wanted in [None].into_iter().chain(small_props().iter().map(Some)) {
                    let derived = agrees(&scope, &term, wanted);
                    let derived = derived
                        .unwrap_or_else(|how| panic!("{scope:?} |- {} : {wanted:?}: {how}", printed(&term, strict)));
                    *(if derived { &mut yes } else { &mut no }) += 1;
                }
            }
        });
    }
    println!("{yes} derived, {no} not");
    assert_eq!(yes + no, (4 + 60 + 932 + 15_068) * 4 * 9);
    assert!(yes > 3000, "{yes} derived, {no} not");
}

/// The nodes of the part at a node, and those above it.
fn span(term: &ProofTerm, node: usize) -> (usize, Vec<usize>) {
    let (mut at, mut here, mut above) = (0, term, vec![]);
    while at != node {
        above.push(at);
        at += 1;
        for part in parts(here) {
            if node < at + nodes(part) {
                here = part;
                break;
            }
            at += nodes(part);
        }
    }
    (nodes(here), above)
}

/// What a no at a node means, without the search: nothing to the right of the part at that node matters, and once that part is mended
/// the rules stop above it or to its right, if at all.
fn node_matters(judged: &Judgement, node: usize, rng: &mut Rng) {
    let Judgement { hypotheses, term, prop } = judged;
    let (size, above) = span(term, node);
    let what = || format!("{hypotheses:?} |- {} : {prop}, no at {node}", printed(term, strict));
    for right in (node + size..nodes(term)).filter(|right| !above.contains(right)) {
        let other = judgement(rng.fork(), 3, 0).term;
        assert_eq!(check(hypotheses, &replaced(term, right, &other), prop), No(node), "{}", what());
    }
    let sorry = Form::Sorry.over(vec![]);
    let ascribed = Form::Ascription(Type::Prop(Prop::True)).over(vec![sorry.clone()]);
    let mended = [sorry, ascribed].map(|part| (check(hypotheses, &replaced(term, node, &part), prop), nodes(&part)));
    let passes = |(verdict, size): &(Verdict, usize)| match verdict {
        Yes => true,
        No(stopped) => *stopped >= node + size || above.contains(stopped),
    };
    assert!(mended.iter().any(passes), "{}: {mended:?}", what());
}

#[test]
fn random_judgements() {
    deep(|| {
        let (mut yes, mut no, mut sizes) = (0, 0, 0);
        for index in 0..500_000 {
            let mut rng = Rng::new(5, index);
            let (budget, changes) = (rng.range(1, 24), rng.below(4));
            let judged = judgement(rng.fork(), budget, changes);
            let Judgement { hypotheses, term, prop } = &judged;
            if nodes(term) > 60 {
                continue;
            }
            let derived = agrees(hypotheses, term, Some(prop))
                .unwrap_or_else(|how| panic!("{hypotheses:?} |- {} : {prop}: {how}", printed(term, strict)));
            assert!(derived || changes > 0, "{hypotheses:?} |- {} : {prop}", printed(term, strict));
            *(if derived { &mut yes } else { &mut no }) += 1;
            sizes += nodes(term);
            if let (No(node), 0) = (check(hypotheses, term, prop), index % 5) {
                node_matters(&judged, node, &mut rng);
            }
        }
        println!("{yes} derived, {no} not, {} nodes a term", sizes / (yes + no));
        assert!(yes > 100_000 && no > 100_000, "{yes} derived, {no} not");
    });
}

/// The hypotheses over a step of a sound sheet, by the numbers of their names and propositions.
fn over(sheet: &Sheet, target: usize) -> Vec<u16> {
    let mut found = vec![];
    let mut at = target;
    while let Some(above) = sheet.premisses.iter().position(|premisses| premisses.contains(&at)) {
        let step = &sheet.steps[above];
        let side = |prop: usize, left: bool| match &sheet.props[prop] {
            Formula::Binary(_, l, r) => Some(if left { (**l).clone() } else { (**r).clone() }),
            _ => None,
        };
        let concluded = |step: usize| usize::from(sheet.steps[step].conclusion[0]);
        let premiss = sheet.premisses[above].iter().position(|premiss| *premiss == at).unwrap();
        let added = match (step.rule, premiss) {
            (rule::IMPL_INTRO, 0) => Some((0, side(concluded(above), true))),
            (rule::OR_ELIM, 1) => Some((0, side(concluded(sheet.premisses[above][0]), true))),
            (rule::OR_ELIM, 2) => Some((1, side(concluded(sheet.premisses[above][0]), false))),
            _ => None,
        };
        if let Some((ident, Some(formula))) = added {
            let same = |f: &Formula| sheet.prop(f) == sheet.prop(&formula);
            let number = sheet.props.iter().position(same);
            // A side that is no proposition of the sheet cannot be given by a number.
            found.push((step.idents[ident].0, number.map_or(u16::MAX, |number| number as u16)));
        }
        at = above;
    }
    found.into_iter().rev().flat_map(|(name, prop)| [name, prop]).collect()
}

/// The sheet of a step's tree alone.
fn tree_of(sheet: &Sheet, target: usize) -> Vec<u8> {
    let mut first = target;
    while let Some(premiss) = sheet.premisses[first].first() {
        first = *premiss;
    }
    let names = sheet.names.iter().map(|name| name.clone().into_bytes()).collect();
    let props = sheet.props.iter().map(oracle::draw::code).collect();
    let steps = sheet.steps[first..=target].to_vec();
    oracle::sheet::Plain { names, props, steps, goal: 0 }.bytes()
}

/// "On sound sheets the accuracy statement now says that this very checker answers yes": of the sheet, and of each tree in it from
/// the hypotheses over it.
#[test]
fn sound_sheets_are_accepted() {
    deep(|| {
        let (mut sheets, mut trees, mut read_beside) = (0, 0, 0);
        for (what, bytes) in Sheets::new(Kind::Sound, 5, 1500).iter() {
            let sheet = decode(&bytes).unwrap();
            sound::sound(&sheet).expect(&what);
            let root = usize::from(sheet.steps[sheet.root()].conclusion[0]);
            assert_eq!(judge(&bytes, Judged::Own, &[], root), Ok(Yes), "{what}");
            sheets += 1;
            // The term read back is the sheet's but for ids, which its labels then have not.
            let text = printed(&export(&sheet).unwrap().term, strict);
            let beside = Judged::Read { list: b"", text: text.as_bytes() };
            if judge(&bytes, beside, &[], root) == Ok(Yes) {
                read_beside += 1;
            }
            if sheet.steps.len() > 100 {
                continue;
            }
            for target in 0..sheet.root() {
                let scope = over(&sheet, target);
                if scope.contains(&u16::MAX) {
                    continue;
                }
                let concluded = usize::from(sheet.steps[target].conclusion[0]);
                let part = tree_of(&sheet, target);
                assert_eq!(judge(&part, Judged::Own, &scope, concluded), Ok(Yes), "{what}, step {target}");
                trees += 1;
            }
        }
        println!("{sheets} sheets, {trees} trees in them, {read_beside} read back");
        assert!(trees > 5000 && read_beside > 500, "{trees} trees, {read_beside} read");
    });
}

#[test]
fn refusals_in_their_order() {
    let own = |sheet: &[u8], hypotheses: &[u16], prop| judge(sheet, Judged::Own, hypotheses, prop);
    let refused = |number| refuse::<Verdict>(number, 0);
    // Names A, u, u; propositions A, A ⊃ A, ∀u:A. A, P(u) uninstantiated, A ∧ A.
    let bound = Formula::Atom(0, vec![Parameter::Uninstantiated(1)]);
    let props = [atom(0), implies(atom(0), atom(0)), forall(1, 0, atom(0)), bound, and(atom(0), atom(0))];
    let sheet = plain(&["A", "u", "u"], &props, &[step(rule::IDENT, 0, &[1], 0)]).bytes();
    assert_eq!(own(&sheet, &[1, 0], 0), Ok(Yes));
    assert_eq!(own(&sheet, &[2, 0], 0), Ok(Yes), "names are compared by bytes");
    assert_eq!(own(&sheet, &[], 0), Ok(No(0)));
    assert_eq!(own(&sheet, &[1, 1, 2, 0], 0), Ok(Yes), "a later one hides an earlier one of other number");
    assert_eq!(own(&sheet, &[1, 0, 2, 1], 0), Ok(No(0)));
    for (hypotheses, prop) in [(&[3, 0][..], 0), (&[1, 5], 0), (&[], 5), (&[1, 0, 1], 0), (&[1], 0), (&[], 65_536)] {
        assert_eq!(own(&sheet, hypotheses, prop), refused(31), "{hypotheses:?} {prop}");
        let beside = Judged::Read { list: b"T", text: "let (x, y) = u in u".as_bytes() };
        assert_eq!(judge(&sheet, beside, hypotheses, prop), refused(31), "{hypotheses:?} {prop}");
    }
    assert_eq!(own(&sheet, &[1, 2, 3, 0], 0), refused(31), "31 before 22");
    // A hypothesis that is hidden is looked at too.
    for hypotheses in [&[1, 2, 1, 0][..], &[1, 3, 1, 0], &[0, 2]] {
        assert_eq!(own(&sheet, hypotheses, 0), refused(22), "{hypotheses:?}");
    }
    assert_eq!(own(&sheet, &[1, 0], 2), refused(22));
    assert_eq!(own(&sheet, &[1, 0], 3), refused(22));
    for text in ["let (x, y) = u in u", "u: T", "fn x: T => u", "u: ∀x:T. A", "u: ∃x:T. P(x)", "u v: A ⊃ (∀x:T. A)"]
    {
        let beside = Judged::Read { list: b"T", text: text.as_bytes() };
        assert_eq!(judge(&sheet, beside, &[1, 0], 0), refused(22), "{text}");
    }
    let beside = |text| judge(&sheet, Judged::Read { list: b"T", text }, &[1, 0], 0);
    assert_eq!(beside(b"u"), Ok(Yes));
    assert_eq!(beside(b"A"), Ok(No(0)));
    assert_eq!(beside(b"(u)"), refused(20));
    assert_eq!(judge(&sheet, Judged::Read { list: b"in", text: b"u" }, &[9, 9], 9), refused(20), "20 before 31");
    // Reading asks of the sheet no more than 1 to 11, export 1 to 15.
    let alone = plain(&["A", "u"], &props[..1], &[step(rule::ALPHA, 0, &[], 0)]).bytes();
    let twelve: Result<Verdict, Refusal> = refuse(12, 0);
    assert_eq!(own(&alone, &[9, 9], 0), twelve, "12 before 31");
    assert_eq!(judge(&alone, Judged::Read { list: b"", text: b"u" }, &[1, 0], 0), Ok(Yes));
    assert_eq!(own(&[0; 5], &[], 9), refused(1));
    assert_eq!(judge(&[0; 5], Judged::Read { list: b"", text: b"(" }, &[], 9), refused(1), "1 before 20");
    assert_eq!(own(&smallest().bytes(), &[], 0), Ok(Yes));
}

/// "Ids count": a sheet's own label has its id, the same text read has 0.
#[test]
fn ids_count() {
    let with = |id| Formula::Atom(0, vec![Parameter::Instantiated(1, id)]);
    let props = [with(1), and(with(1), Formula::True), with(0), or(with(0), with(1))];
    let steps = [step(rule::SORRY, 0, &[], 1), step(rule::AND_ELIM_FST, 1, &[], 0)];
    let sheet = plain(&["P", "x", "u"], &props, &steps).bytes();
    let text = "fst (sorry: P(x) ∧ ⊤)".as_bytes();
    let beside = |prop| judge(&sheet, Judged::Read { list: b"", text }, &[], prop);
    assert_eq!(judge(&sheet, Judged::Own, &[], 0), Ok(Yes));
    assert_eq!(judge(&sheet, Judged::Own, &[], 2), Ok(No(0)));
    assert_eq!(beside(0), Ok(No(0)));
    assert_eq!(beside(2), Ok(Yes));
    assert_eq!(judge(&sheet, Judged::Read { list: b"", text: b"inl u" }, &[2, 0], 3), Ok(No(1)));
    assert_eq!(judge(&sheet, Judged::Read { list: b"", text: b"inr u" }, &[2, 0], 3), Ok(Yes));
}

/// The part of a term that a node names.
#[test]
fn nodes_are_counted_before_their_parts() {
    let term = taken("case (u v: A ∨ B) of inl x => (x, y), inr z => fn w: A ⊃ B => w");
    let texts = ["u v: A ∨ B", "u v", "u", "v", "(x, y)", "x", "y", "fn w: A ⊃ B => w", "w"];
    for (node, text) in texts.into_iter().enumerate() {
        assert_eq!(printed(part_at(&term, node + 1), strict), text);
    }
    assert_eq!(nodes(&term), 10);
}

/// An expression of the definitions' tables: a word or a text, applied to others.
#[derive(Clone, Debug)]
struct Expression {
    word: String,
    over: Vec<Expression>,
}

/// The expressions of a row, one for each of its arguments.
fn expressions(row: &str) -> Vec<Expression> {
    let (mut stack, mut chars) = (vec![vec![]], row.chars().peekable());
    while let Some(c) = chars.next() {
        let word: String = match c {
            ' ' => continue,
            '(' => {
                stack.push(vec![]);
                continue;
            }
            ')' => {
                let mut group: Vec<Expression> = stack.pop().unwrap();
                let mut head = group.remove(0);
                head.over.extend(group);
                stack.last_mut().unwrap().push(head);
                continue;
            }
            '"' => chars.by_ref().take_while(|c| *c != '"').collect(),
            _ => {
                let mut word = String::from(c);
                while let Some(more) = chars.next_if(|c| !" ()".contains(*c)) {
                    word.push(more);
                }
                word
            }
        };
        stack.last_mut().unwrap().push(Expression { word, over: vec![] });
    }
    stack.pop().unwrap()
}

impl Expression {
    fn prop(&self) -> Prop {
        let part = |k: usize| self.over[k].prop().boxed();
        match self.word.as_str() {
            "True" => Prop::True,
            "And" => Prop::And(part(0), part(1)),
            "Or" => Prop::Or(part(0), part(1)),
            "Impl" => Prop::Impl(part(0), part(1)),
            name @ ("A" | "B") => Prop::Atom(name.into(), vec![]),
            other => panic!("a proposition {other}"),
        }
    }

    /// `fn`, `fnOf` and `caseOf` bind u, and u and z.
    fn term(&self) -> ProofTerm {
        let label = |over: &Expression| match over.word.as_str() {
            "proposition" => Type::Prop(over.over[0].prop()),
            _ => Type::Prop(over.prop()),
        };
        let (u, z) = (String::from("u"), String::from("z"));
        let (form, parts) = match (self.word.as_str(), &self.over[..]) {
            ("Sorry", []) => (Form::Sorry, vec![]),
            ("term.Unit", []) => (Form::Unit, vec![]),
            ("u" | "z", []) => (Form::Ident(self.word.clone()), vec![]),
            ("fn", [body]) => (Form::Function(u, None), vec![body]),
            ("fnOf", [prop, body]) => (Form::Function(u, Some(label(prop))), vec![body]),
            ("OrLeft", [body]) => (Form::Inl, vec![body]),
            ("ProjectFst", [body]) => (Form::Fst, vec![body]),
            ("Abort", [body]) => (Form::Abort, vec![body]),
            ("Pair", [fst, snd]) => (Form::Pair, vec![fst, snd]),
            ("Application", [function, argument]) => (Form::Application, vec![function, argument]),
            ("TypeAscription", [body, prop]) => (Form::Ascription(label(prop)), vec![body]),
            ("caseOf", [left, right]) => {
                let head = Expression { word: "u".into(), over: vec![] };
                let parts = vec![head.term(), left.term(), right.term()];
                return Form::Case(u, z).over(parts);
            }
            (other, _) => panic!("a term {other}"),
        };
        form.over(parts.into_iter().map(Expression::term).collect())
    }

    /// `yes`, or `no` at a node.
    fn verdict(&self) -> Verdict {
        match (self.word.as_str(), &self.over[..]) {
            ("yes", []) => Yes,
            ("no", [node]) => No(node.word.parse().unwrap()),
            (other, _) => panic!("a verdict {other}"),
        }
    }
}

/// The definitions' own tables, which their checker is shown to answer: judgements, and questions about sheets.
#[test]
fn the_tables_of_the_definitions() {
    let table = concat!(env!("CARGO_MANIFEST_DIR"), "/../../crates/definitions/specs/CheckerDrawings.antt");
    let table = std::fs::read_to_string(table).unwrap();
    let rows = || table.lines().map(|line| line.trim_start().trim_start_matches("∷ "));
    let (mut judgings, mut askings) = (0, 0);
    for row in
        rows().filter_map(|row| row.strip_prefix("judging ")).filter(|row| row.contains(' ') && !row.contains('='))
    {
        let [term, scope, wanted, answer] = &expressions(row)[..] else { panic!("{row}") };
        let scope = scope.over.first().map(|prop| ("u".to_string(), prop.prop()));
        assert_eq!(check(&Vec::from_iter(scope), &term.term(), &wanted.prop()), answer.verdict(), "{row}");
        judgings += 1;
    }
    for row in rows().filter_map(|row| row.strip_prefix("asking ")).filter(|row| !row.contains(" = record")) {
        let sheet = asked_sheet(row.split(' ').next().unwrap());
        let texts: Vec<&str> = row.split('"').skip(1).step_by(2).collect();
        let (judged, short) = match texts[..] {
            [list, text] => (Judged::Read { list: list.as_bytes(), text: text.as_bytes() }, row.contains("\" true)")),
            _ => (Judged::Own, false),
        };
        let after = row.rsplit_once('"').map_or(row, |(_, after)| after.split_once(')').unwrap().1);
        let after = after.strip_prefix(row.split(' ').next().unwrap()).unwrap_or(after).trim_start();
        let numbers = |text: &str| -> Vec<usize> {
            text.split(|c: char| !c.is_ascii_digit()).filter_map(|number| number.parse().ok()).collect()
        };
        let (hypotheses, rest) = after.split_once("[]").unwrap();
        let hypotheses: Vec<u16> = numbers(hypotheses).into_iter().map(|number| number as u16).collect();
        let rest = numbers(rest);
        let expected = match (row.contains("(refuse "), &rest[..]) {
            (true, [_, number, place]) => refuse(*number as u8, *place),
            (false, [_]) => Ok(Yes),
            (false, [_, node]) => Ok(No(*node)),
            _ => panic!("{row}"),
        };
        let said = judge(&sheet, judged, &hypotheses, rest[0]);
        let said = if short && said.is_ok() { refuse(16, 0) } else { said };
        assert_eq!(said, expected, "{row}");
        askings += 1;
    }
    assert_eq!((judgings, askings), (20, 26));
}

/// A sheet that the table asks, by its name.
fn asked_sheet(name: &str) -> Vec<u8> {
    let bound = Formula::Atom(2, vec![Parameter::Uninstantiated(3)]);
    let identified = Formula::Atom(0, vec![Parameter::Instantiated(1, 1)]);
    match name {
        "second" => oracle::draw::second().bytes(),
        "named" => {
            let names = ["A", "B", "P", "x", "u", "u", "T"];
            let props = [atom(0), atom(1), forall(3, 6, bound)];
            plain(&names, &props, &[step(rule::IDENT, 0, &[4], 0)]).bytes()
        }
        "identified" => {
            let props = [identified.clone(), and(identified, Formula::True)];
            let steps = [step(rule::SORRY, 0, &[], 1), step(rule::AND_ELIM_FST, 1, &[], 0)];
            plain(&["P", "x"], &props, &steps).bytes()
        }
        "alphaEquivalentAlone" => plain(&[], &[Formula::True], &[step(rule::ALPHA, 0, &[], 0)]).bytes(),
        "[]" => vec![],
        other => panic!("a sheet {other}"),
    }
}

//! Reading a term back (document 02, ticket 2): drawings, what is restored, and the limits.
use alice::kernel::{
    checker::identifier::Identifier,
    proof_term::{ProofTerm, Type, TypeAscription},
    prop::{Prop, PropParameter},
};
use oracle::{
    answer::examine,
    generate::texts::{every_small, limits, texts, TextKind},
    generate::{Kind, Sheets},
    memory::{holds, read_into, restored},
    reading::{datatypes, read, restorable, without_ids, NESTING, NODES, TEXT_BYTES},
    terms::{nesting, nodes},
    text::{strict, term},
};
use std::{
    collections::{BTreeMap, HashSet},
    thread,
};

/// Deep terms are printed, measured and dropped by recursion.
fn deep(test: fn()) {
    thread::Builder::new().stack_size(1 << 28).spawn(test).unwrap().join().unwrap();
}

fn taken(list: &str, text: &str) -> ProofTerm {
    read(list.as_bytes(), text.as_bytes()).unwrap_or_else(|| panic!("{text}"))
}

fn refused(list: &str, text: &str) {
    assert_eq!(read(list.as_bytes(), text.as_bytes()), None, "{text}");
}

#[test]
fn the_brackets_of_strict_text_and_no_others() {
    for text in [
        "()",
        "f (case h of inl x => a, inr y => b) c",
        "f (case h of inl x => a, inr y => b c)",
        "(f a, fst (f a))",
        "fst a b",
        "fst (fst a)",
        "fn x => (x: A)",
        "(fn x => x): A",
        "(x: A, y: B)",
        "let (x, y) = sorry in y",
        "case (x: A) of inl a => fn z => a, inr b => case b of inl c => c, inr d => d",
        "(case h of inl x => a, inr y => b, c)",
    ] {
        taken("", text);
    }
    for text in [
        "",
        " ",
        "x ",
        " x",
        "f case h of inl x => a, inr y => b c",
        "f (a)",
        "(f a)",
        "f  a",
        "fst f a: A b",
        "fn x => x: A",
        "fn x => (x)",
        "fst fst a",
        "(x: A): B: C",
        "( x, y)",
        "(x,y)",
        "(x, y, z)",
        "in",
        "1x",
        "_x",
        "x\n",
        "x\u{e9}",
        "n23456789012345678901234567890123",
    ] {
        refused("", text);
    }
    assert_eq!(read(b"", b"x\xff"), None);
}

#[test]
fn labels() {
    let label = |list, text| match taken(list, text) {
        ProofTerm::TypeAscription(TypeAscription { ascription, .. }) => ascription,
        other => panic!("{other:?}"),
    };
    let atom = |name: &str| Prop::Atom(name.into(), vec![]);
    let pair = |join: fn(Box<Prop>, Box<Prop>) -> Prop, l, r| join(Box::new(l), Box::new(r));
    assert_eq!(label("T\nT", "x: T"), Type::Datatype("T".into()));
    assert_eq!(label("U", "x: T"), Type::Prop(atom("T")));
    assert_eq!(label("T", "x: T ∧ T"), Type::Prop(pair(Prop::And, atom("T"), atom("T"))));
    let left = pair(Prop::Or, pair(Prop::Or, atom("A"), atom("B")), atom("C"));
    assert_eq!(label("", "x: A ∨ B ∨ C"), Type::Prop(left));
    assert_eq!(label("", "x: ¬A"), Type::Prop(pair(Prop::Impl, atom("A"), Prop::False)));
    let parameters =
        vec![PropParameter::Uninstantiated("y".into()), PropParameter::Instantiated(Identifier::new("z".into(), 0))];
    let (object_ident, object_type_ident) = ("y".into(), "T".into());
    let body = Box::new(Prop::Atom("P".into(), parameters));
    assert_eq!(label("", "x: ∀y:T. P(y, z)"), Type::Prop(Prop::ForAll { object_ident, object_type_ident, body }));
    for text in
        ["x: (A ∨ B) ∨ C", "x: A ⊃ ⊥", "x: (A)", "x: ∀in:T. A", "x: P()", "x: P(a,b)", "x: A ∧ ∀y:T. A", "x: sorry"]
    {
        refused("", text);
    }
    for list in ["in", "T\n", "\n", "T\n\nU", "1", "T U"] {
        refused(list, "x");
    }
    assert_eq!(datatypes(b""), Some(vec![]));
}

/// The datatype labels of a term.
fn listed(t: &ProofTerm, out: &mut Vec<String>) {
    let text = format!("{t:?}");
    out.extend(text.match_indices("Datatype(\"").map(|(at, what)| {
        let name = &text[at + what.len()..];
        name[..name.find('"').unwrap()].to_string()
    }));
}

#[test]
fn the_text_of_a_sheet_restores_its_term() {
    deep(|| {
        let (mut restored, mut others) = (0, 0);
        for (kind, count) in [(Kind::Sound, 300), (Kind::Random, 1500), (Kind::Quantified, 1500), (Kind::Limits, 0)] {
            for (what, bytes) in Sheets::new(kind, 7, count).iter() {
                let Ok(exported) = examine(&bytes).unwrap().exported else {
                    continue;
                };
                let t = exported.export.term;
                let mut types = Vec::new();
                listed(&t, &mut types);
                let text = term(&t, strict);
                assert!(nodes(&t) <= NODES && nesting(&t) <= NESTING, "{what}");
                let answer = read(types.join("\n").as_bytes(), text.as_bytes());
                let plain = restorable(&t, &types) && datatypes(types.join("\n").as_bytes()).is_some();
                if plain && text.len() <= TEXT_BYTES {
                    assert_eq!(answer, Some(without_ids(&t)), "{what}: {text}");
                    restored += 1;
                } else {
                    assert!(answer.map_or(true, |answer| term(&answer, strict) == text), "{what}: {text}");
                    others += 1;
                }
            }
        }
        println!("{restored} restored, {others} outside the provisos");
        assert!(restored > 1000 && others > 100, "{restored} restored, {others} others");
    });
}

/// A balanced tree of pairs.
fn pairs(parts: &[String]) -> String {
    match parts {
        [one] => one.clone(),
        _ => format!("({}, {})", pairs(&parts[..parts.len() / 2]), pairs(&parts[parts.len() / 2..])),
    }
}

fn numbered(count: usize) -> Vec<String> {
    (0..count).map(|i| format!("n{i}")).collect()
}

/// A balanced tree of conjunctions.
fn joined(parts: &[Prop]) -> Prop {
    match parts {
        [one] => one.clone(),
        _ => Prop::And(Box::new(joined(&parts[..parts.len() / 2])), Box::new(joined(&parts[parts.len() / 2..]))),
    }
}

#[test]
fn the_limits() {
    deep(|| {
        let many = pairs(&vec!["x".into(); 1024]);
        taken("", &format!("fst {many}"));
        refused("", &format!("fst (fst {many})"));
        let functions = |count| "fn x => ".repeat(count) + "x";
        taken("", &functions(511));
        refused("", &functions(512));
        taken("", &(String::from("f") + &" a".repeat(511)));
        refused("", &(String::from("f") + &" a".repeat(512)));
        taken("", &pairs(&numbered(512)));
        refused("", &pairs(&numbered(513)));
        taken("T", &format!("x: {}P", "¬".repeat(63)));
        refused("", &format!("x: {}P", "¬".repeat(64)));
        let wide = || Prop::Atom("P".into(), vec![PropParameter::Instantiated(Identifier::new("a".into(), 0)); 8]);
        let code = |atoms: usize, tops: usize| {
            let leaves: Vec<Prop> = (0..atoms).map(|_| wide()).chain((0..tops).map(|_| Prop::True)).collect();
            format!("x: {}", joined(&leaves))
        };
        taken("", &code(181, 24));
        refused("", &code(182, 2));
        taken("", "x: P(a, a, a, a, a, a, a, a)");
        refused("", "x: P(a, a, a, a, a, a, a, a, a)");
    });
}

#[test]
fn the_longest_text() {
    deep(|| {
        let long = "n".repeat(32);
        let wide = format!("x: P({})", vec![long.as_str(); 8].join(", "));
        let of = |last: usize| {
            let mut parts = vec![wide.clone(); 2];
            while pairs(&parts).len() + wide.len() + 4 + 40 < TEXT_BYTES {
                parts.push(wide.clone());
            }
            while pairs(&parts).len() + 4 + 32 < last {
                parts.push("x".repeat(32.min(last - pairs(&parts).len() - 4 - 5)));
            }
            parts.push("y".repeat(last - pairs(&parts).len() - 4));
            pairs(&parts)
        };
        let (most, more) = (of(TEXT_BYTES), of(TEXT_BYTES + 1));
        assert_eq!((most.len(), more.len()), (TEXT_BYTES, TEXT_BYTES + 1));
        taken("", &most);
        refused("", &more);
        for deep in ["(", "x: (", "fst (", "¬", "fn x => ", "x: ∀y:T. ", "x: A ⊃ "] {
            refused("", &deep.repeat(TEXT_BYTES / deep.len()));
        }
    });
}

/// The texts between quotation marks on a line, with `\n` for a newline.
fn quoted(line: &str) -> Vec<String> {
    line.split('"').skip(1).step_by(2).map(|text| text.replace("\\n", "\n")).collect()
}

/// The definitions' own tables, which their reader is shown to answer: whether each text is read.
#[test]
fn the_tables_of_the_definitions() {
    let crates = concat!(env!("CARGO_MANIFEST_DIR"), "/../../crates");
    let lines = |file: &str| std::fs::read_to_string(format!("{crates}/{file}")).unwrap();
    let (mut taken, mut refused) = (0, 0);
    let mut ask = |list: &str, text: &str, reads: bool| {
        assert_eq!(read(list.as_bytes(), text.as_bytes()).is_some(), reads, "{text}");
        *(if reads { &mut taken } else { &mut refused }) += 1;
    };
    for line in lines("definitions/specs/TermDrawings.antt").lines() {
        let row = line.trim_start().trim_start_matches("∷ ");
        if row.starts_with("readsAs \"") || row.starts_with("isRefused \"") {
            let quoted = quoted(row);
            ask(&quoted[0], &quoted[1], row.starts_with("readsAs"));
        }
    }
    for line in lines("reading_laws/proofs/ReadTexts.antt").lines() {
        let row = line.trim_start().trim_start_matches("∷ ");
        if let Some((list, rest)) = row.strip_prefix("read (").and_then(|row| row.split_once("[]) ")) {
            let text = &quoted(rest)[0];
            ask(&quoted(list).join("\n"), text, rest[text.len() + 2..].starts_with(" (accepted"));
        }
    }
    assert_eq!((taken, refused), (18 + 83, 12 + 45));
}

/// Every term of at most five nodes has a text of its own, from which it is read, and stands in memory.
#[test]
fn every_small_term_is_read() {
    let mut seen = HashSet::new();
    for size in 1..=5 {
        every_small(size, &mut |t, text| {
            assert!(seen.insert(text.text.clone()), "{text:?}");
            assert_eq!(read(&text.list, &text.text).as_ref(), Some(&t));
            let memory = read_into(&text.list, &text.text, None).unwrap();
            assert_eq!(restored(&memory, &text.text), Some(t));
        });
    }
    assert_eq!(seen.len(), 4 + 36 + 372 + 4276 + 53_028);
}

/// Texts of every kind: what is read is printed as it stood, and stands in memory.
#[test]
fn texts_of_every_kind() {
    deep(|| {
        let mut outcomes = BTreeMap::<TextKind, [usize; 2]>::new();
        texts(2, 15_000, 4, &mut |kind, text| {
            holds(&text.list, &text.text).map(|read| outcomes.entry(kind).or_default()[read as usize] += 1)
        })
        .unwrap();
        println!("{outcomes:?}");
        let read = |kind: TextKind| outcomes[&kind][1];
        assert!(read(TextKind::Valid) > 14_000 && read(TextKind::Near) > 1000 && read(TextKind::Tokens) > 100);
    });
}

/// Which of the texts at the limits are read.
#[test]
fn the_limits_by_their_names() {
    deep(|| {
        for (what, text) in limits() {
            let number = |text: &str| text.split(' ').find_map(|word| word.parse::<usize>().ok());
            let fits = match number(&what) {
                Some(nodes @ 2047..=2050) => nodes <= 2048,
                Some(levels) if what.contains("levels of") => levels <= 512,
                Some(count) if what.contains("names") && !what.contains("listed") => count <= 512,
                Some(levels) if what.starts_with("a label of") => levels <= 64,
                Some(bytes) if what.ends_with("bytes of code") => bytes <= 8192,
                Some(count) if what.ends_with("parameters") => count <= 8,
                Some(length) if what.contains("name of") || what.contains("atom of") => length <= 32,
                Some(bytes) if what.ends_with(" bytes") => bytes <= TEXT_BYTES,
                _ => !["again and again", "a bad name"].iter().any(|bad| what.contains(bad)),
            };
            assert_eq!(read(&text.list, &text.text).is_some(), fits, "{what}");
        }
    });
}

/// The code of many labels passes what a number can say; half its offset does not.
#[test]
fn labels_far_behind() {
    deep(|| {
        let (_, text) = limits().into_iter().find(|(what, _)| what == "13 long labels").unwrap();
        let memory = read_into(&text.list, &text.text, None).unwrap();
        assert!(memory.code.len() > 65_536, "{} bytes of code", memory.code.len());
        assert_eq!(restored(&memory, &text.text), read(&text.list, &text.text));
    });
}

//! The exercises of document 02, ticket 13: its figures, its order, and its refusals.
use oracle::{
    exercise::{bad_names, count_names, good_names, Exercise, Exercises, TOO_MANY},
    formula::{parse, Binary, Formula},
    sheet::{refuse, Refusal},
};
use std::collections::HashSet;

fn asked(names: &str, n: usize, ordinal: usize) -> Exercise {
    Exercise { names: names.into(), n, ordinal }
}

/// The proposition at an ordinal.
fn at(exercises: &Exercises, names: &str, n: usize, ordinal: usize) -> Result<Formula, Refusal> {
    let code = exercises.answer(&asked(names, n, ordinal), None)?;
    Ok(parse(&code, count_names(names.as_bytes()).unwrap()).unwrap())
}

#[test]
fn every_proposition_each_once() {
    let exercises = Exercises::default();
    for (names, sizes) in
        [(0, [2, 12, 144, 2160]), (1, [3, 27, 486, 10_935]), (2, [4, 48, 1152, 34_560]), (3, [5, 75, 2250, 84_375])]
    {
        for n in 0..=3 {
            let codes = exercises.codes(names, n);
            assert_eq!(codes.len(), sizes[..=n].iter().sum());
            assert_eq!(codes.iter().collect::<HashSet<_>>().len(), codes.len());
            assert!(codes.iter().all(|code| parse(code, names).is_some() && code.len() <= 19));
            assert_eq!(codes, &exercises.codes(names, 3)[..codes.len()]);
        }
    }
    assert_eq!(exercises.codes(3, 3).len(), 86_705);
}

#[test]
fn the_order() {
    let exercises = Exercises::default();
    let binary = Formula::binary;
    let (top, bottom, a, b) = (Formula::True, Formula::False, Formula::Atom(0, vec![]), Formula::Atom(1, vec![]));
    let tops = |root| binary(root, Formula::True, Formula::True);
    for (ordinal, expected) in [
        (0, top.clone()),
        (1, bottom.clone()),
        (2, a),
        (3, b.clone()),
        (4, tops(Binary::And)),
        (5, binary(Binary::And, top.clone(), bottom.clone())),
        (8, binary(Binary::And, bottom, top.clone())),
        (20, tops(Binary::Or)),
        (36, tops(Binary::Impl)),
        (51, binary(Binary::Impl, b.clone(), b.clone())),
        (52, binary(Binary::And, top.clone(), tops(Binary::And))),
        (243, binary(Binary::And, b.clone(), binary(Binary::Impl, b.clone(), b))),
        (244, binary(Binary::And, tops(Binary::And), top)),
    ] {
        assert_eq!(at(&exercises, "A\nB", 2, ordinal), Ok(expected), "{ordinal}");
    }
}

#[test]
fn refusals() {
    let exercises = Exercises::default();
    let refused = |names: &[u8], n, ordinal, room| {
        exercises.answer(&Exercise { names: names.to_vec(), n, ordinal }, Some(room)).err()
    };
    for names in good_names() {
        assert!(count_names(&names).is_some(), "{names:?}");
        assert_eq!(refused(&names, 3, 0, 1), None);
        TOO_MANY.iter().for_each(|n| assert_eq!(refused(&names, *n, 0, 1), refuse::<()>(29, 0).err()));
    }
    for names in bad_names() {
        assert_eq!(refused(&names, 0, 0, 1), refuse::<()>(29, 0).err(), "{names:?}");
    }
    for (names, total) in [("", 2318), ("A", 11_451), ("A\nB", 35_764), ("A\nB\nC", 86_705)] {
        assert_eq!(refused(names.as_bytes(), 3, total, 0), refuse::<()>(30, 0).err());
        assert_eq!(refused(names.as_bytes(), 3, total - 1, 0), refuse::<()>(16, 0).err());
    }
    assert_eq!(exercises.answer(&asked("A\nB\nC", 3, 86_704), Some(19)).map(|code| code.len()), Ok(19));
    assert_eq!(refused(b"A\nB\nC", 3, 86_704, 18), refuse::<()>(16, 0).err());
}

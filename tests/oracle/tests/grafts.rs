//! Grafts by hand, and what document 02 says of every merged sheet, by the Rust's trees and terms.
use oracle::{
    answer::examine,
    draw::{and, atom, in_column, judging, plain, second, step},
    formula::Formula,
    generate::Kind,
    graft::{graft, merged, Refused, Whose},
    grafts::{fixed, random, Graft},
    sheet::{decode, laid_out, rule::*, Plain, Refusal, Step},
    splice::{spliced, Mode, Spliced},
};
use std::collections::BTreeMap;

fn sorry(prop: u16) -> Step {
    step(SORRY, 0, &[], prop)
}

fn refused(whose: Whose, number: u8, place: usize, column: u16) -> Result<Vec<u8>, Refused> {
    Err(Refused { whose, refusal: Refusal { number, place, column } })
}

/// The merged sheet's parts, which have no gaps here.
fn joined(host: &Plain, step: usize, donor: &Plain) -> Plain {
    let bytes = graft(&host.bytes(), step, &donor.bytes(), None).unwrap();
    let plain = laid_out(&bytes).unwrap().plain();
    assert_eq!(plain.bytes(), bytes);
    plain
}

fn term(sheet: &Plain) -> String {
    let examined = examine(&sheet.bytes()).unwrap();
    examined.exported.unwrap().plain.rsplit('\n').next().unwrap().into()
}

#[test]
fn names_propositions_and_steps_are_renumbered() {
    let host = plain(
        &["A", "B", "A"],
        &[and(atom(2), atom(1)), atom(0)],
        &[in_column(3, sorry(0)), in_column(4, step(AND_ELIM_FST, 1, &[], 1))],
    );
    // a, A, B, B, c: of these a and c are missing
    let steps = [
        in_column(7, step(IDENT, 0, &[0], 0)),
        in_column(8, judging(step(IDENT, 0, &[4], 0), 3, 2)),
        in_column(9, step(AND_INTRO, 2, &[], 1)),
    ];
    let donor = plain(&["a", "A", "B", "B", "c"], &[atom(1), and(atom(1), atom(3))], &steps);
    let new = joined(&host, 0, &donor);
    assert_eq!(new.names, ["A", "B", "A", "a", "c"].map(|name| name.as_bytes().to_vec()));
    let mut props = host.props.clone();
    props.extend(plain(&[], &[atom(0), and(atom(0), atom(1))], &[]).props);
    assert_eq!((&new.props, new.goal), (&props, 0));
    let steps = [
        in_column(7, step(IDENT, 0, &[3], 2)),
        in_column(8, judging(step(IDENT, 0, &[4], 0), 1, 1)),
        in_column(9, step(AND_INTRO, 2, &[], 3)),
        host.steps[1],
    ];
    assert_eq!(new.steps, steps);
    assert_eq!((term(&host), term(&new)), ("fst (sorry: A ∧ B)".into(), "fst (a, c)".into()));
}

#[test]
fn the_second_drawing_is_grafted_with_its_label() {
    let prop = |f: fn(u16) -> u16| {
        let (a, b) = (atom(f(0)), atom(f(1)));
        oracle::draw::implies(a.clone(), oracle::draw::or(a, b))
    };
    let steps = [sorry(0), step(IDENT, 0, &[2], 1), step(IMPL_ELIM, 2, &[], 0)];
    let host = plain(&["B", "A", "v"], &[prop(|n| 1 - n), atom(1)], &steps);
    assert_eq!(term(&host), "(sorry: A ⊃ A ∨ B) v");
    assert_eq!(term(&joined(&host, 0, &second())), "(fn u: A => inl u: A ∨ B) v");
}

#[test]
fn refusals_in_their_order() {
    let host = plain(&["A"], &[atom(0)], &[in_column(3, sorry(0)), in_column(4, step(ALPHA, 1, &[], 0))]);
    let donor = plain(&["A"], &[atom(0)], &[in_column(6, step(TRUE_INTRO, 0, &[], 0))]);
    let bytes = |sheet: &Plain, change: &dyn Fn(&mut Plain)| {
        let mut sheet = sheet.clone();
        change(&mut sheet);
        sheet.bytes()
    };
    let (good, own) = (host.bytes(), donor.bytes());
    let length = good.len() + 4 + 4;
    assert_eq!(graft(&good, 0, &own, Some(length)).unwrap().len(), length);
    assert_eq!(graft(&good, 0, &own, Some(length - 1)), refused(Whose::Neither, 16, 0, 0));
    let bad_host = bytes(&host, &|sheet| sheet.steps[1].column = 4096);
    let bad_donor = bytes(&donor, &|sheet| (sheet.steps[0].count, sheet.steps[0].column) = (1, 17));
    assert_eq!(graft(&bad_host, 5, &bad_donor, Some(0)), refused(Whose::Host, 9, 1, 4096));
    assert_eq!(graft(&good, 5, &bad_donor, Some(0)), refused(Whose::Donor, 10, 0, 17));
    assert_eq!(graft(&good[..11], 0, &own, None), refused(Whose::Host, 1, 0, 0));
    assert_eq!(graft(&good, 0, &own[..own.len() - 1], None), refused(Whose::Donor, 3, 0, 0));
    let other = bytes(&donor, &|sheet| sheet.props[0] = vec![0]);
    assert_eq!(graft(&good, 1, &other, Some(0)), refused(Whose::Neither, 26, 0, 0));
    assert_eq!(graft(&good, 0, &other, Some(0)), refused(Whose::Neither, 27, 0, 0));
    let many = bytes(&donor, &|sheet| sheet.props.resize(512, vec![0]));
    assert_eq!(graft(&good, 0, &many, Some(0)), refused(Whose::Neither, 28, 0, 0));
}

/// 28 comes just where what is put together is no sheet, by 2 or by 11.
fn limits_are_the_sheets(asked: &Graft) {
    let Graft { host, step, donor, what } = asked;
    let answer = graft(host, *step, donor, None);
    let passes = matches!(answer, Err(Refused { refusal: Refusal { number: 28, .. }, .. }));
    if answer.is_ok() || passes {
        let (one, other) = (decode(host).unwrap(), decode(donor).unwrap());
        let bytes = merged(laid_out(host).unwrap(), &one, *step, &other).bytes();
        match decode(&bytes) {
            Ok(_) => assert_eq!(answer, Ok(bytes), "{what}"),
            Err(refusal) => assert!(passes && [2, 11].contains(&refusal.number), "{what}: {refusal}"),
        }
    }
}

/// How often each answer and each case of the ticket's sentence came.
fn counted(all: impl Iterator<Item = Graft>) -> (BTreeMap<(u8, u8), usize>, BTreeMap<Spliced, usize>) {
    let (mut numbers, mut cases) = (BTreeMap::new(), BTreeMap::new());
    for asked in all {
        let Graft { host, step, donor, what } = &asked;
        let key = graft(host, *step, donor, None).map_or_else(|no| (no.refusal.number, no.whose as u8), |_| (0, 0));
        *numbers.entry(key).or_default() += 1;
        let case = spliced(host, *step, donor).unwrap_or_else(|finding| panic!("{what}: {finding}"));
        case.into_iter().for_each(|case| *cases.entry(case).or_default() += 1);
        limits_are_the_sheets(&asked);
    }
    (numbers, cases)
}

#[test]
fn every_merged_sheet_is_what_the_ticket_says() {
    let kinds = [Kind::Sound, Kind::Random, Kind::Quantified, Kind::Damaged];
    let generated = kinds.into_iter().flat_map(|kind| (0..400).flat_map(move |index| random(kind, 11, index)));
    let (_, cases) = counted(generated);
    for mode in [Mode::Checking, Mode::Inferring] {
        for case in [Spliced::NoDonor(mode), Spliced::Term(mode), Spliced::Sound(mode)] {
            assert!(cases.get(&case).is_some_and(|count| *count >= 10), "{case:?} in {cases:?}");
        }
    }
    assert!(cases[&Spliced::NoHost] > 20 && cases[&Spliced::Unreached] > 20, "{cases:?}");
    let (numbers, _) = counted(fixed().into_iter());
    for whose in [1, 2] {
        assert!((1..=11).all(|number| numbers.contains_key(&(number, whose))), "{numbers:?}");
    }
    assert!([26, 27, 28].iter().all(|number| numbers[&(*number, 0)] >= 20), "{numbers:?}");
}

#[test]
fn each_limit_is_met_and_passed() {
    let all = fixed();
    let answer = |what: &str| {
        let asked = all.iter().find(|asked| asked.what == what).unwrap_or_else(|| panic!("no graft {what}"));
        graft(&asked.host, asked.step, &asked.donor, None).map_or_else(|refused| refused.refusal.number, |_| 0)
    };
    let met = [
        "one missing, T passed by 0",
        "three missing, T passed by 0, gaps",
        "two full texts, no name missing",
        "512 names, 0 missing",
        "511 names, 1 missing",
        "1 names, 511 missing",
        "511 names, one missing 511 times",
        "512 names, the same backwards",
        "C passed by 0",
        "C passed by 0, gaps",
        "511 and 1 propositions",
        "1 and 511 propositions",
        "1024 and 1 steps",
        "1 and 1024 steps",
        "512 and 513 steps",
        "0 levels above 256",
        "255 levels above 1",
        "one level above 255, rule 0",
        "255 levels above 1, rule 15",
        "all limits met",
    ];
    assert_eq!(met.map(answer), [0; 20]);
    let passed = [
        "one missing, T passed by 1",
        "one long missing, T passed by 1, gaps",
        "512 names, 1 missing",
        "256 names, 257 missing",
        "512 names, one missing 511 times",
        "C passed by 1",
        "512 and 1 propositions",
        "1 and 512 propositions",
        "1024 and 2 steps",
        "2 and 1024 steps",
        "1 levels above 256",
        "255 levels above 2",
        "one level above 256, rule 15",
        "all limits met but T",
        "all limits met but N",
        "all limits met but C",
        "all limits met but P",
        "all limits met but S",
    ];
    assert_eq!(passed.map(answer), [28; 18]);
}

#[test]
fn a_proposition_that_the_host_has_not_is_appended_even_if_unused() {
    let host = plain(&["A"], &[atom(0)], &[sorry(0)]);
    let donor = plain(&["A", "B"], &[atom(1), atom(0), Formula::True], &[sorry(1)]);
    assert_eq!(joined(&host, 0, &donor).props.len(), 4);
}

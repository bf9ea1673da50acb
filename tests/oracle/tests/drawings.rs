//! The drawings of document 01, its "tempting and wrong" list, columns, and the checks on the oracle itself.
use oracle::{
    answer::{examine, Answer, Question, VERSIONS},
    draw::*,
    formula::{Formula, Formula::*, Parameter},
    generate::{Kind, Sheets},
    judging::{check, Verdict},
    limits::limits,
    rng::Rng,
    sheet::{decode, rule::*, Layout, Plain, Refusal, Step, BOARD_ROOM, LAST_COLUMN},
    sound,
};

const A: u16 = 0;
const B: u16 = 1;

fn answer(question: Question, bytes: &[u8], room: Option<usize>) -> Result<Answer, Refusal> {
    examine(bytes).unwrap().answer(question, room).unwrap()
}

fn ask(question: Question, sheet: &Plain) -> Result<Answer, Refusal> {
    answer(question, &sheet.bytes(), None)
}

fn refused<T>(number: u8, place: usize) -> Result<T, Refusal> {
    Err(Refusal { number, place, column: 0 })
}

fn text(sheet: &Plain) -> String {
    match ask(Question::PlainText, sheet) {
        Ok(Answer::Text(text)) => text,
        other => panic!("{other:?}"),
    }
}

/// The part after the declarations.
fn term(sheet: &Plain) -> String {
    text(sheet).rsplit('\n').next().unwrap().into()
}

fn strict(sheet: &Plain) -> String {
    match ask(Question::StrictText, sheet) {
        Ok(Answer::Text(text)) => text.rsplit('\n').next().unwrap().into(),
        other => panic!("{other:?}"),
    }
}

fn list(question: Question, sheet: &Plain) -> Vec<u16> {
    match ask(question, sheet) {
        Ok(Answer::List(list)) => list,
        other => panic!("{other:?}"),
    }
}

fn count(sheet: &Plain) -> usize {
    match ask(Question::LabelCount, sheet) {
        Ok(Answer::Count(count)) => count,
        other => panic!("{other:?}"),
    }
}

/// Two steps that conclude the propositions, and a root over them; is the first equal to the second?
fn equal(names: &[&str], l: Formula, r: Formula) -> Result<bool, u8> {
    let steps = [step(SORRY, 0, &[], 0), step(SORRY, 0, &[], 1), step(AND_INTRO, 2, &[], 0)];
    match ask(Question::Comparison(0, 1), &plain(names, &[l, r], &steps)) {
        Ok(Answer::Equal(yes)) => Ok(yes),
        Err(refusal) => Err(refusal.number),
        other => panic!("{other:?}"),
    }
}

/// How a proposition prints, as the label of a sorry.
fn printed(names: &[&str], prop: Formula) -> String {
    let steps = [step(SORRY, 0, &[], 0), step(AND_ELIM_FST, 1, &[], 0)];
    let term = term(&plain(names, &[prop], &steps));
    term.strip_prefix("fst (sorry: ").unwrap().strip_suffix(')').unwrap().into()
}

#[test]
fn smallest_sheet() {
    let bytes = smallest().bytes();
    assert_eq!(bytes[..12], [0, 0, 0, 0, 1, 0, 1, 0, 1, 0, 0, 0]);
    assert_eq!(bytes[12..16], [0, 0, 1, 0]);
    assert_eq!(bytes[16..], [&[3][..], &[0; 19], &[0]].concat());
    assert_eq!(bytes.len(), 37);
    assert_eq!(text(&smallest()), "\n\n\n()");
}

#[test]
fn second_drawing_and_its_room() {
    let expected = "atom A;\natom B;\n\n\nfn u => inl u";
    assert_eq!(text(&second()), expected);
    assert_eq!(expected.len(), 31);
    let room = |n| answer(Question::PlainText, &second().bytes(), Some(n));
    assert_eq!(room(31), Ok(Answer::Text(expected.into())));
    assert_eq!(room(30), refused(16, 0));
    assert_eq!(ask(Question::BoardOutput, &second()), Ok(Answer::Text(expected.into())));
}

#[test]
fn root_sorry() {
    let sheet = plain(&["A"], &[atom(A)], &[step(SORRY, 0, &[], 0)]);
    assert_eq!(text(&sheet), "atom A;\n\n\nsorry");
    assert_eq!((count(&sheet), list(Question::AtomList, &sheet)), (0, vec![]));
}

#[test]
fn projection_of_sorry() {
    let props = [and(atom(A), atom(B)), atom(A), and(atom(B), atom(A))];
    let mut sheet = plain(&["A", "B"], &props, &[step(SORRY, 0, &[], 0), step(AND_ELIM_FST, 1, &[], 1)]);
    sheet.goal = 1;
    assert_eq!(term(&sheet), "fst (sorry: A ∧ B)");
    assert_eq!(text(&sheet), "atom A;\natom B;\n\n\nfst (sorry: A ∧ B)");
    assert_eq!((count(&sheet), list(Question::AtomList, &sheet)), (1, vec![A, 0, B, 0]));
    sheet.steps.insert(1, step(ALPHA, 1, &[], 2));
    assert_eq!(term(&sheet), "fst (sorry: A ∧ B)");
}

#[test]
fn labelled_function() {
    let steps =
        [step(IDENT, 0, &[1], 1), step(IMPL_INTRO, 1, &[1], 0), step(IDENT, 0, &[2], 1), step(IMPL_ELIM, 2, &[], 1)];
    let mut sheet = plain(&["A", "u", "v"], &[implies(atom(A), atom(A)), atom(A)], &steps);
    assert_eq!(term(&sheet), "(fn u: A => u) v");
    sheet.steps[1].conclusion[0] = 1;
    assert_eq!(ask(Question::PlainText, &sheet), refused(14, 1));
}

#[test]
fn pair_in_an_inferring_place() {
    let steps = [
        step(IDENT, 0, &[2], 0),
        step(OR_INTRO_FST, 1, &[], 1),
        step(TRUE_INTRO, 0, &[], 2),
        step(AND_INTRO, 2, &[], 3),
        step(AND_ELIM_SND, 1, &[], 2),
    ];
    let either = or(atom(A), atom(B));
    let props = [atom(A), either.clone(), True, and(either, True)];
    assert_eq!(term(&plain(&["A", "B", "a"], &props, &steps)), "snd (inl a: A ∨ B, ())");
}

#[test]
fn case_as_a_function() {
    let steps = [
        step(IDENT, 0, &[0], 0),
        step(IDENT, 0, &[1], 0),
        step(IDENT, 0, &[2], 0),
        step(OR_ELIM, 3, &[3, 4], 0),
        step(IDENT, 0, &[5], 0),
        step(IMPL_ELIM, 2, &[], 0),
    ];
    let sheet = plain(&["h", "a", "b", "x", "y", "c"], &[True], &steps);
    assert_eq!(term(&sheet), "case h of inl x => a, inr y => b c");
    assert_eq!(strict(&sheet), "(case h of inl x => a, inr y => b) c");
}

#[test]
fn let_as_a_function() {
    let steps = [
        step(IDENT, 0, &[0], 0),
        step(IDENT, 0, &[1], 0),
        step(EXISTS_ELIM, 2, &[2, 3], 0),
        step(IDENT, 0, &[4], 0),
        step(IMPL_ELIM, 2, &[], 0),
    ];
    let sheet = plain(&["h", "b", "x", "y", "c"], &[True], &steps);
    assert_eq!(term(&sheet), "let (x, y) = h in b c");
    assert_eq!(strict(&sheet), "(let (x, y) = h in b) c");
}

/// Document 02, ticket 1: f applied to a case, and that applied to c; f applied to a case whose second branch is `b c`.
#[test]
fn case_as_an_argument() {
    let name = |n| step(IDENT, 0, &[n], 0);
    let (applied, case) = (step(IMPL_ELIM, 2, &[], 0), step(OR_ELIM, 3, &[4, 5], 0));
    let names = ["f", "h", "a", "b", "x", "y", "c"];
    let then_to_c = [name(0), name(1), name(2), name(3), case, applied, name(6), applied];
    let of_b_to_c = [name(0), name(1), name(2), name(3), name(6), applied, case, applied];
    let [one, other] = [then_to_c, of_b_to_c].map(|steps| plain(&names, &[True], &steps));
    assert_eq!(term(&one), "f case h of inl x => a, inr y => b c");
    assert_eq!(term(&other), "f case h of inl x => a, inr y => b c");
    assert_eq!(strict(&one), "f (case h of inl x => a, inr y => b) c");
    assert_eq!(strict(&other), "f (case h of inl x => a, inr y => b c)");
}

/// The same ticket: an ascription in every part of a case, a let, a pair and a function.
#[test]
fn ascribed_parts() {
    let (sorry, first) = (step(SORRY, 0, &[], 0), step(AND_ELIM_FST, 1, &[], 0));
    let drawn = |steps: &[Step]| {
        let sheet = plain(&["A", "x", "y", "b"], &[atom(A), implies(atom(A), atom(A))], steps);
        (term(&sheet), strict(&sheet))
    };
    let expected = |plain: &str, strict: &str| (plain.to_string(), strict.to_string());

    let case = step(OR_ELIM, 3, &[1, 2], 0);
    assert_eq!(
        drawn(&[sorry, sorry, sorry, case, first]),
        expected(
            "fst (case sorry: A of inl x => sorry: A, inr y => sorry: A)",
            "fst (case (sorry: A) of inl x => (sorry: A), inr y => (sorry: A))"
        )
    );
    let (exists, b, applied) = (step(EXISTS_ELIM, 2, &[1, 2], 0), step(IDENT, 0, &[3], 0), step(IMPL_ELIM, 2, &[], 0));
    assert_eq!(
        drawn(&[sorry, sorry, exists, sorry, b, exists, applied]),
        expected(
            "let (x, y) = sorry: A in sorry: A let (x, y) = sorry: A in b",
            "(let (x, y) = (sorry: A) in (sorry: A)) (let (x, y) = (sorry: A) in b)"
        )
    );
    let (function, pair) = (step(IMPL_INTRO, 1, &[1], 1), step(AND_INTRO, 2, &[], 0));
    assert_eq!(
        drawn(&[sorry, sorry, function, pair, first]),
        expected("fst (sorry: A, fn x: A => sorry: A)", "fst (sorry: A, fn x: A => (sorry: A))")
    );
}

/// The drawing of ticket 3: `fn v => (fn x: T => sorry: ∀y:U. ∃z:T. P(y, z)) a` for ∀v:V. ∀y:U. ∃z:T. P(y, z).
fn second_handout() -> Plain {
    let names = ["P", "T", "U", "V", "x", "y", "z", "v", "a"];
    let of = Atom(0, vec![Parameter::Uninstantiated(5), Parameter::Uninstantiated(6)]);
    let body = forall(5, 2, exists(6, 1, of));
    let steps = [
        step(SORRY, 0, &[], 0),
        step(FORALL_INTRO, 1, &[4], 1),
        judging(step(IDENT, 0, &[8], 0), 8, 1),
        step(FORALL_ELIM, 2, &[], 0),
        step(FORALL_INTRO, 1, &[7], 2),
    ];
    let mut sheet = plain(&names, &[body.clone(), forall(4, 1, body.clone()), forall(7, 3, body)], &steps);
    sheet.goal = 2;
    sheet
}

#[test]
fn the_second_handout() {
    let sheet = second_handout();
    let handout = |version, term: &str| {
        let heading = match version {
            1 => "atom P(2);\ndatatype T;\ndatatype V;\ndatatype U;",
            3 => "datatype T;\ndatatype U;\ndatatype V;\natom P(2);",
            _ => "datatype U;\ndatatype T;\ndatatype V;\natom P(2);",
        };
        Ok(Answer::Text(format!("{heading}\n\n{term}")))
    };
    let term = "fn v => (fn x: T => sorry: ∀y:U. ∃z:T. P(y, z)) a";
    let bracketed = "fn v => (fn x: T => (sorry: ∀y:U. ∃z:T. P(y, z))) a";
    for version in [1, 2, 3] {
        assert_eq!(ask(Question::HandoutPlain(version), &sheet), handout(version, term));
        assert_eq!(ask(Question::HandoutStrict(version), &sheet), handout(version, bracketed));
    }
    assert_eq!(ask(Question::PlainText, &sheet), handout(1, term));
    assert_eq!(ask(Question::BoardOutput, &sheet), handout(1, term));
    assert_eq!(list(Question::HandoutDatatypes(1), &sheet), list(Question::DatatypeList, &sheet));
    assert_eq!(list(Question::DatatypeList, &sheet), [1]);
    assert_eq!(list(Question::HandoutDatatypes(2), &sheet), [2, 1, 1]);
    assert_eq!(list(Question::HandoutDatatypes(3), &sheet), [2, 1, 1]);
    // the left side of a labelled function's conclusion is a label too
    let [x, y] = [forall(1, 2, atom(A)), exists(1, 3, atom(A))];
    let steps =
        [step(IDENT, 0, &[4], 1), step(IMPL_INTRO, 1, &[4], 0), step(IDENT, 0, &[4], 1), step(IMPL_ELIM, 2, &[], 1)];
    let sheet = plain(&["A", "x", "T", "U", "u"], &[implies(and(x.clone(), y.clone()), y), x], &steps);
    assert_eq!(list(Question::HandoutDatatypes(1), &sheet), []);
    assert_eq!(list(Question::HandoutDatatypes(2), &sheet), [2, 3]);
}

#[test]
fn declarations_by_alphabet() {
    // upper case before `_` before lower case, a name before its own extensions, and then by count; equal bytes once
    let names = ["Pa", "P", "P_", "PZ", "x", "P", "P1"];
    let of = |name, count| Formula::Atom(name, vec![Parameter::Instantiated(4, 0); count]);
    let all = [of(0, 0), of(1, 2), of(2, 0), of(3, 0), of(1, 1), of(5, 2), of(6, 0), of(5, 0)];
    let goal = all.into_iter().reduce(and).unwrap();
    let sheet = plain(&names, &[goal], &[step(SORRY, 0, &[], 0)]);
    let printed = |lines: &str| Ok(Answer::Text(format!("\n{lines}\n\nsorry")));
    let met = "atom Pa;\natom P(2);\natom P_;\natom PZ;\natom P(1);\natom P1;\natom P;";
    let sorted = "atom P;\natom P(1);\natom P(2);\natom P1;\natom PZ;\natom P_;\natom Pa;";
    assert_eq!(ask(Question::HandoutPlain(2), &sheet), printed(met));
    assert_eq!(ask(Question::HandoutPlain(3), &sheet), printed(sorted));
}

#[test]
fn a_number_that_is_no_version_is_refused_first() {
    for version in VERSIONS {
        for sheet in [second_handout().bytes(), smallest().bytes(), vec![]] {
            for question in
                [Question::HandoutPlain(version), Question::HandoutStrict(version), Question::HandoutDatatypes(version)]
            {
                for room in [None, Some(0)] {
                    let is_21 = answer(question, &sheet, room) == refused(21, 0);
                    assert_eq!(is_21, !(1..=3).contains(&version), "{question:?}");
                }
            }
        }
    }
    assert_eq!(answer(Question::HandoutPlain(2), &[], None), refused(1, 0));
    assert_eq!(answer(Question::HandoutPlain(2), &smallest().bytes(), Some(4)), refused(16, 0));
    assert_eq!(ask(Question::HandoutPlain(2), &smallest()), Ok(Answer::Text("\n\n\n()".into())));
}

#[test]
fn alpha_equivalent_alone() {
    let sheet = plain(&[], &[True], &[step(ALPHA, 0, &[], 0)]);
    assert_eq!(ask(Question::PlainText, &sheet), refused(12, 0));
}

#[test]
fn negation() {
    let not = |f| implies(f, False);
    assert_eq!(printed(&["A", "B"], not(not(atom(A)))), "¬¬A");
    assert_eq!(printed(&["A", "B"], not(and(atom(A), atom(B)))), "¬(A ∧ B)");
    // ¬ is stronger than ∧, not as weak as ⊃
    assert_eq!(printed(&["A", "B"], and(not(atom(A)), not(atom(B)))), "¬A ∧ ¬B");
    assert_eq!(printed(&["A", "B"], implies(not(atom(A)), not(atom(B)))), "¬A ⊃ ¬B");
}

#[test]
fn alpha_equality() {
    let names = ["x", "y", "T", "P"];
    let p = |object| Atom(3, vec![Parameter::Uninstantiated(object)]);
    assert_eq!(equal(&names, forall(0, 2, p(0)), forall(1, 2, p(1))), Ok(true));
    assert_eq!(equal(&names, forall(0, 2, forall(1, 2, p(0))), forall(0, 2, forall(0, 2, p(0)))), Ok(false));
    assert_eq!(equal(&names, p(0), p(0)), Err(19));
    assert_eq!(equal(&names, forall(0, 2, p(0)), forall(1, 2, p(0))), Ok(false));
}

#[test]
fn one_letter_with_two_arities_is_a_no() {
    let names = ["a", "b", "T", "P", "Q"];
    let of = |letter, objects: &[Parameter]| Atom(letter, objects.to_vec());
    let (a, b) = (Parameter::Instantiated(0, 0), Parameter::Instantiated(1, 0));
    let (x, y) = (Parameter::Uninstantiated(0), Parameter::Uninstantiated(1));
    assert_eq!(equal(&names, of(3, &[a]), of(3, &[a, b])), Ok(false));
    // the parameters are not looked at, bound or not
    assert_eq!(equal(&names, of(3, &[x]), of(3, &[x, y])), Ok(false));
    assert_eq!(equal(&names, of(3, &[]), of(3, &[x])), Ok(false));
    assert_eq!(equal(&names, forall(0, 2, of(3, &[x])), forall(0, 2, of(3, &[x, x]))), Ok(false));
    // but what stands before the two letters is
    assert_eq!(equal(&names, and(of(4, &[x]), of(3, &[a])), and(of(4, &[x]), of(3, &[a, b]))), Err(19));
    assert_eq!(equal(&names, and(of(3, &[a]), of(4, &[x])), and(of(3, &[a, b]), of(4, &[x]))), Ok(false));
}

#[test]
fn a_comparison_stops_at_the_first_no() {
    let names = ["x", "T", "P", "Q"];
    let p = |object| Atom(2, vec![Parameter::Uninstantiated(object)]);
    assert_eq!(equal(&names, and(True, p(0)), and(False, p(0))), Ok(false));
    assert_eq!(equal(&names, and(p(0), True), and(p(0), False)), Err(19));
    assert_eq!(equal(&names, forall(0, 1, p(1)), forall(0, 0, p(1))), Ok(false));
}

#[test]
fn a_comparison_names_steps_below_s() {
    assert_eq!(ask(Question::Comparison(2, 2), &second()), Ok(Answer::Equal(true)));
    assert_eq!(ask(Question::Comparison(2, 3), &second()), refused(17, 0));
    assert_eq!(ask(Question::Comparison(3, 0), &second()), refused(17, 0));
}

#[test]
fn names_go_by_bytes() {
    let names = ["A", "A", "B"];
    assert_eq!(equal(&names, atom(0), atom(1)), Ok(true));
    let steps = [step(SORRY, 0, &[], 0), step(AND_ELIM_FST, 1, &[], 0)];
    let sheet = plain(&names, &[and(atom(0), atom(1))], &steps);
    assert_eq!(text(&sheet), "atom A;\n\n\nfst (sorry: A ∧ A)");
    assert_eq!(list(Question::AtomList, &sheet), [0, 0, 1, 0]);
}

#[test]
fn an_argument_is_in_a_checking_place() {
    let steps = [step(IDENT, 0, &[0], 0), step(SORRY, 0, &[], 0), step(IMPL_ELIM, 2, &[], 0)];
    assert_eq!(term(&plain(&["f"], &[True], &steps)), "f sorry");
    let steps = [step(SORRY, 0, &[], 0), step(IDENT, 0, &[0], 0), step(IMPL_ELIM, 2, &[], 0)];
    assert_eq!(term(&plain(&["a"], &[True], &steps)), "(sorry: ⊤) a");
}

#[test]
fn unread_premisses_are_not_visited() {
    let bad = step(ALPHA, 0, &[], 0);
    for unread in [step(TRUE_INTRO, 1, &[], 0), step(IDENT, 1, &[0], 0), step(SORRY, 1, &[], 0)] {
        assert!(ask(Question::PlainText, &plain(&["a"], &[True], &[bad, unread])).is_ok());
    }
    let steps = [step(TRUE_INTRO, 0, &[], 0), bad, step(ALPHA, 2, &[], 0)];
    assert_eq!(term(&plain(&[], &[True], &steps)), "()");
}

#[test]
fn limits_of_the_last_drawing() {
    let find = |what: &str| limits().into_iter().find(|(name, _)| name == what).expect(what).1;
    let board = |what: &str| answer(Question::PlainText, &find(what), Some(BOARD_ROOM));
    assert!(board("last name of 32 bytes").is_ok());
    assert_eq!(board("last name of 33 bytes"), refused(4, 2));
    for by in ["left of ∧", "right of ∨", "left of ⊃", "∀", "∃"] {
        assert!(board(&format!("proposition nested 64 by {by}")).is_ok());
        assert_eq!(board(&format!("proposition nested 65 by {by}")), refused(8, 3));
    }
    assert!(board("256 deep by AlphaEquivalent").is_ok());
    assert_eq!(board("257 deep by AlphaEquivalent"), refused(11, 256));
    assert!(board("text of 65536 bytes").is_ok());
    assert_eq!(board("text of 65537 bytes"), refused(16, 0));
    assert!(board("everything at its limit").is_ok());
    assert_eq!(board("proposition 0 nested 65, 1 no code"), refused(7, 1));
}

#[test]
fn the_board_prints_a_line_for_a_refusal() {
    let line = |text: &str| Ok(Answer::Text(text.into()));
    assert_eq!(answer(Question::BoardOutput, &[], None), line("refused 1 at 0\n"));
    let sheet = plain(&["A"], &[atom(A)], &[step(SORRY, 0, &[], 0), step(IMPL_INTRO, 0, &[0], 0)]);
    assert_eq!(ask(Question::BoardOutput, &sheet), line("refused 10 at 1 column 0\n"));
}

/// A sheet of three names and propositions whose steps stand in columns 100, 101 and so on.
fn drawn(steps: &[Step]) -> Plain {
    let steps: Vec<Step> = (100..).zip(steps).map(|(column, step)| in_column(column, *step)).collect();
    plain(&["A", "B", "u"], &[atom(A), atom(B), and(atom(A), atom(B))], &steps)
}

#[test]
fn refusals_9_to_15_give_the_column_of_their_step() {
    let (sorry, over, project) = (step(SORRY, 0, &[], 0), step(ALPHA, 1, &[], 0), step(AND_ELIM_FST, 1, &[], 0));
    let bad = step(17, 0, &[], 0);
    let cases = [
        (9, 1, vec![sorry, bad, bad]),
        (10, 1, vec![sorry, step(AND_INTRO, 2, &[], 0), over]),
        (10, 2, vec![sorry, sorry, over]),
        (11, 256, [vec![sorry], vec![over; 300]].concat()),
        (12, 0, vec![step(ALPHA, 0, &[], 0), over]),
        (13, 0, vec![judging(sorry, 0, 1), project]),
        (14, 1, vec![sorry, step(IMPL_INTRO, 1, &[2], 0), project]),
        (15, 1, vec![sorry, step(FORALL_INTRO, 1, &[2], 0), project]),
    ];
    for (number, place, steps) in cases {
        let (sheet, column) = (drawn(&steps), 100 + place as u16);
        let refusal = Refusal { number, place, column };
        for question in [Question::PlainText, Question::StrictText, Question::AtomList, Question::LabelCount] {
            assert_eq!(ask(question, &sheet), Err(refusal));
        }
        let line = format!("refused {number} at {place} column {column}\n");
        assert_eq!(ask(Question::BoardOutput, &sheet), Ok(Answer::Text(line)));
        let compared = ask(Question::Comparison(0, 0), &sheet);
        assert_eq!(compared, if number > 11 { Ok(Answer::Equal(true)) } else { Err(refusal) });
    }
}

#[test]
fn a_column_past_4095_is_refused_as_it_stands() {
    for at in 0..3 {
        let in_column = |column| {
            let mut sheet = second();
            sheet.steps[at].column = column;
            ask(Question::PlainText, &sheet)
        };
        assert_eq!(in_column(LAST_COLUMN), in_column(0));
        for column in [4096, 4096 + 7, 32768, 65535] {
            assert_eq!(in_column(column), Err(Refusal { number: 9, place: at, column }));
        }
    }
    let mut sheet = drawn(&[step(SORRY, 1, &[], 0), step(SORRY, 0, &[], 0)]);
    sheet.steps[1].column = 5000;
    assert_eq!(ask(Question::PlainText, &sheet), Err(Refusal { number: 9, place: 1, column: 5000 }));
    sheet.steps[0].rule = 17;
    assert_eq!(ask(Question::PlainText, &sheet), Err(Refusal { number: 9, place: 0, column: 100 }));
    let line = "refused 9 at 0 column 100\n";
    assert_eq!(ask(Question::BoardOutput, &sheet), Ok(Answer::Text(line.into())));
}

#[test]
fn other_refusals_have_column_0() {
    let good = drawn(&[step(SORRY, 0, &[], 0), step(AND_ELIM_FST, 1, &[], 0)]);
    let bytes = good.bytes();
    let named = |name: &str| Plain { names: vec![name.into()], ..good.clone() }.bytes();
    let coded = |code: Vec<u8>| Plain { props: vec![code], ..good.clone() }.bytes();
    let long_text = [&[0, 64][..], &bytes[2..]].concat();
    let deep = [vec![2; 64], vec![0; 65]].concat();
    let refused_sheets = [
        bytes[..11].to_vec(),
        long_text,
        bytes[..bytes.len() - 1].to_vec(),
        named(""),
        named("_"),
        coded(vec![]),
        coded(vec![9]),
        coded(deep),
    ];
    for (number, bytes) in (1..).zip(refused_sheets) {
        assert_eq!(answer(Question::LabelCount, &bytes, None), refused(number, 0));
        let line = format!("refused {number} at 0\n");
        assert_eq!(answer(Question::BoardOutput, &bytes, None), Ok(Answer::Text(line)));
    }
    assert_eq!(answer(Question::PlainText, &bytes, Some(3)), refused(16, 0));
    assert_eq!(ask(Question::Comparison(0, 2), &good), refused(17, 0));
    let unbound = code(&Atom(0, vec![Parameter::Uninstantiated(1)]));
    let sheet = Plain { props: vec![unbound], ..good };
    assert_eq!(ask(Question::Comparison(0, 1), &sheet), refused(19, 0));
}

/// Runs on a stack that holds the deepest trees.
fn deep(run: impl FnOnce() + Send + 'static) {
    std::thread::Builder::new().stack_size(1 << 28).spawn(run).unwrap().join().unwrap();
}

#[test]
fn every_limit_sheet_agrees_with_the_rust() {
    deep(|| limits().iter().for_each(|(what, bytes)| drop(examine(bytes).expect(what))));
}

#[test]
fn random_sheets_agree_with_the_rust() {
    for kind in [Kind::Sound, Kind::Random, Kind::Quantified, Kind::Damaged] {
        deep(move || Sheets::new(kind, 7, 300).iter().for_each(|(what, bytes)| drop(examine(&bytes).expect(&what))));
    }
}

/// Sheets that differ only in columns within range: the same texts, lists and labels, the same comparisons, and the
/// same refusals with the same places.
#[test]
fn columns_within_range_change_nothing_else() {
    fn redrawn(bytes: &[u8], column: impl FnMut() -> u16) -> Vec<u8> {
        let mut layout = Layout::read(bytes).unwrap();
        layout.steps.iter_mut().zip(std::iter::repeat_with(column)).for_each(|(step, column)| step.column = column);
        layout.bytes()
    }
    fn without_column<T>(answer: Result<T, Refusal>) -> Result<T, Refusal> {
        answer.map_err(|refusal| Refusal { column: 0, ..refusal })
    }
    deep(|| {
        for kind in [Kind::Sound, Kind::Random, Kind::Quantified, Kind::Damaged] {
            for (what, bytes) in Sheets::new(kind, 9, 300).iter().filter(|(_, bytes)| Layout::read(bytes).is_some()) {
                let mut rng = Rng::new(9, 9);
                let one = examine(&redrawn(&bytes, || 0)).expect(&what);
                let other = examine(&redrawn(&bytes, || rng.below(4096) as u16)).expect(&what);
                for question in [
                    Question::PlainText,
                    Question::StrictText,
                    Question::AtomList,
                    Question::DatatypeList,
                    Question::HandoutPlain(2),
                    Question::HandoutDatatypes(2),
                    Question::LabelCount,
                    Question::Comparison(0, 0),
                    Question::Comparison(0, 1),
                    Question::Comparison(2, 1),
                ] {
                    let answers = [&one, &other].map(|sheet| without_column(sheet.answer(question, None).unwrap()));
                    assert_eq!(answers[0], answers[1], "{what}");
                }
            }
        }
    });
}

/// The checker must be able to say no: a sound sheet's term is accepted for the root's proposition, and is turned
/// down when its labels are taken away.
#[test]
fn the_checker_says_no() {
    deep(|| {
        let (mut tried, mut unlabelled) = (0, 0);
        for (what, bytes) in Sheets::new(Kind::Sound, 3, 400).iter() {
            let examined = examine(&bytes).unwrap();
            let (sheet, export) = (examined.sheet.unwrap(), examined.exported.unwrap().export);
            sound::sound(&sheet).expect(&what);
            sound::accurate(&sheet, &export).expect(&what);
            if export.labels > 0 {
                tried += 1;
                let root = sheet.prop(sheet.concluded(sheet.root()).unwrap());
                unlabelled += (check(&[], &stripped(&export.term), &root) == Verdict::Yes) as usize;
            }
        }
        assert!(tried > 200 && unlabelled == 0, "{unlabelled} of {tried} accepted without labels");
    });
}

#[test]
fn unsound_steps_are_told_apart() {
    let unsound = |steps: &[Step]| {
        let sheet = plain(&["A", "B", "u"], &[implies(atom(A), atom(B)), atom(A), atom(B)], steps);
        sound::sound(&decode(&sheet.bytes()).unwrap()).is_err()
    };
    assert!(unsound(&[step(IDENT, 0, &[2], 1), step(IMPL_INTRO, 1, &[2], 0)]));
    assert!(unsound(&[step(IDENT, 0, &[2], 2), step(IMPL_INTRO, 1, &[2], 0)]));
    assert!(!unsound(&[step(SORRY, 0, &[], 2), step(IMPL_INTRO, 1, &[2], 0)]));
}

/// The term with every label taken away.
fn stripped(term: &alice::kernel::proof_term::ProofTerm) -> alice::kernel::proof_term::ProofTerm {
    use alice::kernel::proof_term::*;
    let bare = |t: &ProofTerm| Box::new(stripped(t));
    match term.clone() {
        ProofTerm::Pair(Pair(a, b, s)) => ProofTerm::Pair(Pair(bare(&a), bare(&b), s)),
        ProofTerm::ProjectFst(ProjectFst(a, s)) => ProofTerm::ProjectFst(ProjectFst(bare(&a), s)),
        ProofTerm::ProjectSnd(ProjectSnd(a, s)) => ProofTerm::ProjectSnd(ProjectSnd(bare(&a), s)),
        ProofTerm::OrLeft(OrLeft(a, s)) => ProofTerm::OrLeft(OrLeft(bare(&a), s)),
        ProofTerm::OrRight(OrRight(a, s)) => ProofTerm::OrRight(OrRight(bare(&a), s)),
        ProofTerm::Abort(Abort(a, s)) => ProofTerm::Abort(Abort(bare(&a), s)),
        ProofTerm::TypeAscription(TypeAscription { proof_term, .. }) => stripped(&proof_term),
        ProofTerm::Function(f) => ProofTerm::Function(Function { param_type: None, body: bare(&f.body), ..f }),
        ProofTerm::Application(a) => {
            ProofTerm::Application(Application { function: bare(&a.function), applicant: bare(&a.applicant), ..a })
        }
        ProofTerm::LetIn(l) => ProofTerm::LetIn(LetIn { head: bare(&l.head), body: bare(&l.body), ..l }),
        ProofTerm::Case(c) => {
            ProofTerm::Case(Case { head: bare(&c.head), fst_term: bare(&c.fst_term), snd_term: bare(&c.snd_term), ..c })
        }
        leaf => leaf,
    }
}

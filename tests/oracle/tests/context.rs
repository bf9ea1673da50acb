//! The list of questions on the name context: every kind of question and answer is in it, and it is the stored one.
use oracle::context::list;
use std::collections::BTreeSet;

/// Before the questions of a context: pairs, text and room.
const NAMES: usize = 32 + 64 + 2;
const QUESTIONS: usize = 40;
const QUESTION: usize = 22;

fn numbers(bytes: &[u8]) -> Vec<u16> {
    bytes.chunks(2).map(|pair| u16::from_le_bytes([pair[0], pair[1]])).collect()
}

#[test]
fn every_question_has_every_answer() {
    let list = list(1);
    let mut seen = BTreeSet::new();
    let contexts = list.bytes[2..].chunks(NAMES + QUESTIONS * QUESTION);
    assert_eq!((contexts.len(), QUESTIONS * contexts.len()), (list.contexts, list.questions));
    for context in contexts {
        for question in context[NAMES..].chunks(QUESTION).map(numbers) {
            seen.insert((question[0], question[6]));
        }
    }
    let all = [(0, 0), (0, 16), (1, 0), (1, 1), (2, 0), (2, 1), (3, 0), (3, 1), (4, 0), (4, 1), (5, 0), (5, 1)];
    assert_eq!(seen, all.into_iter().chain([(6, 0), (6, 1)]).collect());
}

#[test]
fn the_stored_list_is_that_of_seed_1() {
    let list = list(1);
    let folder = concat!(env!("CARGO_MANIFEST_DIR"), "/../../crates/replay_context");
    assert!(std::fs::read(format!("{folder}/data/contexts")).unwrap() == list.bytes);
    let printed = format!("{} contexts, {} questions, {1} answers agree\n", list.contexts, list.questions);
    assert_eq!(std::fs::read_to_string(format!("{folder}/stdout")).unwrap(), printed);
}

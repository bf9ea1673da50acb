//! Exercises by document 02, ticket 13: every small proposition over a few zero-place names, put into the ticket's order.
use crate::{
    formula::{Binary, Formula},
    sheet::{admitted, refuse, Refusal, NAME_BYTES},
};
use std::cmp::Ordering;

/// At most so many names, and at most so many binary connectives.
pub const NAMES: usize = 3;
pub const CONNECTIVES: usize = 3;

/// What a caller asks: names divided by newlines, the largest number of connectives, and an ordinal.
#[derive(Clone, PartialEq, Eq, Debug)]
pub struct Exercise {
    pub names: Vec<u8>,
    pub n: usize,
    pub ordinal: usize,
}

/// How many names there are, unless they are too many, repeated or malformed.
pub fn count_names(bytes: &[u8]) -> Option<usize> {
    let names: Vec<&[u8]> = match bytes {
        [] => vec![],
        _ => bytes.split(|byte| *byte == b'\n').collect(),
    };
    let formed = names.iter().all(|name| (1..=NAME_BYTES).contains(&name.len()) && admitted(name));
    let repeated = (0..names.len()).any(|i| names[..i].contains(&names[i]));
    (names.len() <= NAMES && formed && !repeated).then_some(names.len())
}

fn connectives(formula: &Formula) -> usize {
    match formula {
        Formula::Binary(_, left, right) => 1 + connectives(left) + connectives(right),
        _ => 0,
    }
}

/// ⊤, ⊥, then the names.
fn leaf(formula: &Formula) -> usize {
    match formula {
        Formula::True => 0,
        Formula::False => 1,
        Formula::Atom(name, _) => 2 + *name as usize,
        _ => unreachable!("{formula:?} is no leaf"),
    }
}

/// Fewer connectives come first; then by root, ∧ before ∨ before ⊃; then by the left part's size, the left part, the
/// right part.
fn order(one: &Formula, other: &Formula) -> Ordering {
    connectives(one).cmp(&connectives(other)).then_with(|| match (one, other) {
        (Formula::Binary(root, left, right), Formula::Binary(other_root, other_left, other_right)) => {
            let by_root = (*root as u8).cmp(&(*other_root as u8));
            by_root
                .then_with(|| connectives(left).cmp(&connectives(other_left)))
                .then_with(|| order(left, other_left))
                .then_with(|| order(right, other_right))
        }
        _ => leaf(one).cmp(&leaf(other)),
    })
}

/// Every proposition of exactly so many connectives, in any order.
fn of_size(names: usize, size: usize) -> Vec<Formula> {
    if size == 0 {
        let atoms = (0..names as u16).rev().map(|name| Formula::Atom(name, vec![]));
        return atoms.chain([Formula::False, Formula::True]).collect();
    }
    let mut all = vec![];
    for left_size in 0..size {
        let (lefts, rights) = (of_size(names, left_size), of_size(names, size - 1 - left_size));
        for right in &rights {
            for left in &lefts {
                for root in [Binary::Impl, Binary::Or, Binary::And] {
                    all.push(Formula::binary(root, left.clone(), right.clone()));
                }
            }
        }
    }
    all
}

/// The codes of all exercises over so many names with at most n connectives, in the ticket's order.
fn codes(names: usize, n: usize) -> Vec<Vec<u8>> {
    let mut all: Vec<Formula> = (0..=n).flat_map(|size| of_size(names, size)).collect();
    all.sort_by(order);
    let code = |formula: &Formula| {
        let mut code = vec![];
        formula.code(&mut |name| name, &mut code);
        code
    };
    all.iter().map(code).collect()
}

/// The codes of all exercises, by the number of names and by n.
pub struct Exercises(Vec<Vec<Vec<Vec<u8>>>>);

impl Default for Exercises {
    fn default() -> Self {
        Exercises((0..=NAMES).map(|names| (0..=CONNECTIVES).map(|n| codes(names, n)).collect()).collect())
    }
}

impl Exercises {
    pub fn codes(&self, names: usize, n: usize) -> &[Vec<u8>] {
        &self.0[names][n]
    }

    /// The code at the ordinal, given `room` for it; without a room there is enough. 29, then 30, then 16.
    pub fn answer(&self, asked: &Exercise, room: Option<usize>) -> Result<Vec<u8>, Refusal> {
        let (Some(names), 0..=CONNECTIVES) = (count_names(&asked.names), asked.n) else {
            return refuse(29, 0);
        };
        match self.codes(names, asked.n).get(asked.ordinal) {
            None => refuse(30, 0),
            Some(code) if room.is_some_and(|room| room < code.len()) => refuse(16, 0),
            Some(code) => Ok(code.clone()),
        }
    }
}

/// Names that are taken, so many in each list.
pub fn good_names() -> Vec<Vec<u8>> {
    let longest = [b'n'; NAME_BYTES];
    let lists =
        ["", "A", "A\nB", "A\nB\nC", "sorry", "fn\nlet\nin", "a\nA", "A\nAA\nAAA", "AAA\nAA\nA", "x_1\nx_2\nx1"];
    let mut all: Vec<Vec<u8>> = lists.map(|list| list.as_bytes().to_vec()).to_vec();
    all.push(longest.to_vec());
    all.push([b"B\n", &longest[..], b"\nC"].concat());
    all.push([&longest[..], b"\n", &longest[1..], b"\n", &longest[2..]].concat());
    all
}

/// Names that are too many, repeated or malformed.
pub fn bad_names() -> Vec<Vec<u8>> {
    let lists = [
        "A\nB\nC\nD",
        "A\nA",
        "A\nB\nA",
        "A\nB\nB",
        "A\nA\nB",
        "A\nA\nA",
        "\n",
        "\n\n",
        "\n\n\n",
        "A\n",
        "\nA",
        "A\n\nB",
        "A\nB\n",
        "A\nB\nC\n",
        "\nA\nB\nC",
        "A\nB\nC\nA",
        "1A",
        "_A",
        "A-B",
        "A B",
        "A,B",
        " A",
        "A ",
        "A\r\nB",
        "A\nB\r",
        "A\tB",
        "A\0",
        "\0",
        "é",
        "A\né",
        "A\nB\n1",
    ];
    let mut all: Vec<Vec<u8>> = lists.map(|list| list.as_bytes().to_vec()).to_vec();
    let long = [b'n'; NAME_BYTES + 1];
    all.push(long.to_vec());
    all.push([b"A\n", &long[..]].concat());
    all.push([b"A\nB\n", &long[..]].concat());
    all.push(vec![b'A'; 9000]);
    all.push(vec![b'\n'; 9000]);
    all.push(vec![0xff; 40]);
    all
}

/// Numbers of connectives that pass 3, among them such as have the low bytes of one that does not.
pub const TOO_MANY: [usize; 8] = [4, 5, 255, 256, 259, 65_538, (1 << 32) + 1, usize::MAX];

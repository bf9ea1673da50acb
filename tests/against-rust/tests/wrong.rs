//! Libraries that are wrong in one thing each: the comparison must find every one of them, and nothing in a right one.
use against_rust::{
    call::Library,
    exercises,
    kinds::{compare, Found},
};
use oracle::{
    answer::{examine, Answer, Examined, Operation, Question},
    draw::smallest,
    exercise::{count_names, Exercise, Exercises},
    formula::{Formula, Parameter},
    generate::Kind,
    reference::meets_two_counts,
    sheet::{Layout, Refusal, Sheet, BOARD_ROOM},
    text::{declared, plain, strict, term, text, Brackets, Declared, Under, Version},
    walk::alpha,
};
use std::{
    cell::RefCell,
    rc::Rc,
    sync::{
        atomic::{AtomicUsize, Ordering::SeqCst},
        LazyLock,
    },
};

/// A question as the library gets it.
struct Asked {
    question: Question,
    room: usize,
    sheet: *mut u8,
    bytes: Vec<u8>,
    examined: Rc<Examined>,
}

/// What the library is about to say: the refusal's number or 0, the value, the column, and the cells of its output by
/// position.
struct Reply {
    number: u8,
    value: usize,
    column: usize,
    cells: Vec<(isize, u16)>,
}

impl Asked {
    fn right(&self, room: Option<usize>) -> Result<Answer, Refusal> {
        self.examined.answer(self.question, room).unwrap()
    }

    fn is(&self, operation: Operation) -> bool {
        self.question.operation() == operation
    }

    /// The sheet and the two steps, where these are compared.
    fn compared(&self) -> Option<(&Sheet, [usize; 2])> {
        match (self.question, &self.examined.sheet) {
            (Question::Comparison(i, j), Ok(sheet)) if i.max(j) <= sheet.root() => Some((sheet, [i, j])),
            _ => None,
        }
    }

    fn meets_two_counts(&self) -> bool {
        self.compared().is_some_and(|(sheet, [i, j])| meets_two_counts(sheet, i, j))
    }

    /// Whether two atoms are compared whose first parameters are not instantiated.
    fn begins_with_unbound_parameters(&self) -> bool {
        let unbound = |sheet: &Sheet, step| match sheet.concluded(step) {
            Some(Formula::Atom(_, parameters)) => matches!(parameters.first(), Some(Parameter::Uninstantiated(_))),
            _ => false,
        };
        self.compared().is_some_and(|(sheet, steps)| steps.iter().all(|step| unbound(sheet, *step)))
    }

    /// Whether two propositions of one connective are compared whose right sides alone are refused.
    fn right_sides_are_refused(&self) -> bool {
        self.compared().is_some_and(|(sheet, [i, j])| match (sheet.concluded(i), sheet.concluded(j)) {
            (Some(Formula::Binary(one, _, l)), Some(Formula::Binary(other, _, r))) => {
                one == other && alpha(sheet, l, r, &mut vec![]).is_err()
            }
            _ => false,
        })
    }

    /// Answers an operation with the text that has these brackets more than `Display`, if it fits.
    fn print(&self, operation: Operation, reply: &mut Reply, brackets: Brackets) {
        if let (true, Ok(sheet), Ok(exported)) = (self.is(operation), &self.examined.sheet, &self.examined.exported) {
            *reply = match text(sheet, &exported.export, Version::First, brackets) {
                text if text.len() <= self.room => Reply::new(&Ok(Answer::Text(text))),
                _ => Reply::new(&Err(Refusal { number: 16, place: 0, column: 0 })),
            };
        }
    }

    /// The version that the question names, and the question of any.
    fn version(&self) -> Option<(usize, fn(usize) -> Question)> {
        match self.question {
            Question::HandoutPlain(version) => Some((version, Question::HandoutPlain)),
            Question::HandoutStrict(version) => Some((version, Question::HandoutStrict)),
            Question::HandoutDatatypes(version) => Some((version, Question::HandoutDatatypes)),
            _ => None,
        }
    }

    /// Answers a number that is no version as another number.
    fn take(&self, reply: &mut Reply, other: fn(usize) -> usize) {
        if let (Some((version, question)), 21) = (self.version(), reply.number) {
            *reply = Reply::new(&self.examined.answer(question(other(version)), Some(self.room)).unwrap());
        }
    }

    /// Answers the plain text of version 3 with its declarations changed, if it fits.
    fn arrange(&self, reply: &mut Reply, change: fn(&mut Declared)) {
        let (sheet, exported) = (&self.examined.sheet, &self.examined.exported);
        if let (Question::HandoutPlain(3), 0, Ok(sheet), Ok(exported)) = (self.question, reply.number, sheet, exported)
        {
            let mut all = declared(sheet, &exported.export, Version::Third);
            change(&mut all);
            let text = all.heading(Version::Third) + &term(&exported.export.term, plain);
            if text.len() <= self.room {
                reply.text(&text);
            }
        }
    }

    fn fills(&self) -> bool {
        !self.is(Operation::LabelCount) && !self.is(Operation::Comparison)
    }

    /// The columns of the sheet's steps, if it is as long as its header says.
    fn columns(&self) -> Vec<usize> {
        Layout::read(&self.bytes).map_or(vec![], |sheet| sheet.steps.iter().map(|step| step.column as usize).collect())
    }

    /// The refusal whose line the board prints.
    fn printed_refusal(&self) -> Option<Refusal> {
        let text = self.examined.answer(Question::PlainText, Some(BOARD_ROOM)).unwrap();
        text.err().filter(|_| self.is(Operation::BoardOutput))
    }
}

impl Reply {
    fn new(answer: &Result<Answer, Refusal>) -> Self {
        let numbers: Vec<u16> = match answer {
            Ok(Answer::Text(text)) => text.bytes().map(u16::from).collect(),
            Ok(Answer::List(list)) => list.clone(),
            Ok(Answer::Code(code)) => code.iter().copied().map(u16::from).collect(),
            _ => vec![],
        };
        let (number, value, column) = match answer {
            Ok(Answer::Count(count)) => (0, *count, 0),
            Ok(Answer::Equal(equal)) => (0, *equal as usize, 0),
            Ok(answer) => (0, answer.length(), 0),
            Err(refusal) => (refusal.number, refusal.place, refusal.column as usize),
        };
        Reply { number, value, column, cells: (0..).zip(numbers).collect() }
    }

    fn text(&mut self, text: &str) {
        *self = Reply::new(&Ok(Answer::Text(text.into())));
    }

    fn list(&mut self, list: Vec<u16>) {
        *self = Reply::new(&Ok(Answer::List(list)));
    }

    fn refuse(&mut self, number: u8, place: usize) {
        *self = Reply::new(&Err(Refusal { number, place, column: 0 }));
    }

    fn held(&self) -> Vec<u16> {
        self.cells.iter().map(|(_, number)| *number).collect()
    }
}

type Fault = fn(&Asked, &mut Reply);

/// Each with the operation in which it shows.
const FAULTS: &[(&str, Operation, Fault)] = &[
    ("the last byte of a text is another", Operation::PlainText, |asked, reply| {
        if let (true, Some((_, byte))) = (asked.is(Operation::PlainText), reply.cells.last_mut()) {
            *byte ^= 1;
        }
    }),
    ("a length is one too many", Operation::StrictText, |asked, reply| {
        reply.value += (asked.is(Operation::StrictText) && reply.number == 0) as usize;
    }),
    ("a byte is written after the answer", Operation::PlainText, |asked, reply| {
        if asked.is(Operation::PlainText) && reply.number == 0 && reply.value < asked.room {
            reply.cells.push((reply.value as isize, 0));
        }
    }),
    ("a byte is written past the lent room", Operation::StrictText, |asked, reply| {
        if asked.is(Operation::StrictText) {
            reply.cells.push((asked.room as isize, 0));
        }
    }),
    ("a number is written past the lent room", Operation::AtomList, |asked, reply| {
        if asked.is(Operation::AtomList) {
            reply.cells.push((asked.room as isize, 0));
        }
    }),
    ("a number is written before the lent room", Operation::DatatypeList, |asked, reply| {
        if asked.is(Operation::DatatypeList) {
            reply.cells.push((-1, 0));
        }
    }),
    ("a room exactly enough is refused", Operation::PlainText, |asked, reply| {
        if asked.fills() && reply.number == 0 && reply.value == asked.room {
            reply.refuse(16, 0);
        }
    }),
    ("a room one short is accepted", Operation::PlainText, |asked, reply| {
        let right = Reply::new(&asked.right(None));
        if asked.fills() && reply.number == 16 && right.value == asked.room + 1 {
            *reply = right;
            reply.cells.pop();
        }
    }),
    ("a text is begun before its room is judged", Operation::PlainText, |asked, reply| {
        if reply.number == 16 {
            reply.cells = Reply::new(&asked.right(None)).cells;
            reply.cells.truncate(asked.room);
        }
    }),
    ("a list is begun before its room is judged", Operation::AtomList, |asked, reply| {
        if reply.number == 16 && asked.is(Operation::AtomList) {
            reply.cells = Reply::new(&asked.right(None)).cells;
            reply.cells.truncate(asked.room);
        }
    }),
    ("a refusal leaves its number in the output", Operation::PlainText, |asked, reply| {
        if asked.fills() && !asked.is(Operation::BoardOutput) && reply.number > 0 && asked.room > 0 {
            reply.cells.push((0, reply.number as u16));
        }
    }),
    ("the root is the place of a refusal of the walk", Operation::PlainText, |asked, reply| {
        if (12..=15).contains(&reply.number) {
            reply.value = asked.examined.sheet.as_ref().unwrap().root();
        }
    }),
    ("13 is 12", Operation::PlainText, |_, reply| reply.number -= (reply.number == 13) as u8),
    ("14 and 15 are 13", Operation::PlainText, |_, reply| {
        reply.number = if matches!(reply.number, 14 | 15) { 13 } else { reply.number };
    }),
    ("11 is not tried", Operation::PlainText, |_, reply| reply.number += (reply.number == 11) as u8),
    ("a refusal's place is not given", Operation::PlainText, |_, reply| {
        reply.value = if reply.number > 0 { usize::MAX / 3 } else { reply.value };
    }),
    ("every column is 0", Operation::PlainText, |_, reply| reply.column = 0),
    ("the column is that of the next step", Operation::PlainText, |asked, reply| {
        if let 9..=15 = reply.number {
            reply.column = asked.columns().get(reply.value + 1).copied().unwrap_or(0);
        }
    }),
    ("the column of 9 is cut to 12 bits", Operation::PlainText, |_, reply| {
        if reply.number == 9 {
            reply.column %= 4096;
        }
    }),
    ("a tree left over has the column of the first step", Operation::PlainText, |asked, reply| {
        let columns = asked.columns();
        if reply.number == 10 && reply.value + 1 == columns.len() {
            reply.column = columns[0];
        }
    }),
    ("a refusal's place is taken for a step in every case", Operation::PlainText, |asked, reply| {
        if let 4..=8 = reply.number {
            reply.column = asked.columns().get(reply.value).copied().unwrap_or(0);
        }
    }),
    ("the root's column is handed back with an answer", Operation::AtomList, |asked, reply| {
        if asked.is(Operation::AtomList) && reply.number == 0 {
            reply.column = asked.columns().pop().unwrap_or(0);
        }
    }),
    ("the column is left unset where there is none", Operation::DatatypeList, |asked, reply| {
        if asked.is(Operation::DatatypeList) && !(9..=15).contains(&reply.number) {
            reply.column = usize::MAX / 3;
        }
    }),
    ("a comparison hands back no column", Operation::Comparison, |asked, reply| {
        if asked.is(Operation::Comparison) {
            reply.column = 0;
        }
    }),
    ("a strict text is a plain one", Operation::StrictText, |asked, reply| {
        if let (true, 0, Ok(exported)) = (asked.is(Operation::StrictText), reply.number, &asked.examined.exported) {
            reply.text(&exported.plain);
        }
    }),
    ("a strict bracket in plain text", Operation::PlainText, |asked, reply| {
        asked.print(Operation::PlainText, reply, |part, under| under == Under::Argument && strict(part, under));
    }),
    ("a case or let as an argument is bare in strict text", Operation::StrictText, |asked, reply| {
        asked.print(Operation::StrictText, reply, |part, under| under != Under::Argument && strict(part, under));
    }),
    ("a case or let as a function is bare in strict text", Operation::StrictText, |asked, reply| {
        asked.print(Operation::StrictText, reply, |part, under| under != Under::Function && strict(part, under));
    }),
    ("an ascription within a term is bare in strict text", Operation::StrictText, |asked, reply| {
        asked.print(Operation::StrictText, reply, |part, under| under != Under::Another && strict(part, under));
    }),
    ("an ascription in a pair is bracketed in strict text", Operation::StrictText, |asked, reply| {
        asked.print(Operation::StrictText, reply, |part, under| {
            strict(part, if under == Under::Pair { Under::Another } else { under })
        });
    }),
    ("an atom list has no repeats", Operation::AtomList, |asked, reply| {
        if asked.is(Operation::AtomList) && reply.number == 0 {
            let mut atoms: Vec<Vec<u16>> = Vec::new();
            for atom in reply.held().chunks(2) {
                if !atoms.iter().any(|a| a == atom) {
                    atoms.push(atom.to_vec());
                }
            }
            reply.list(atoms.concat());
        }
    }),
    ("a list has the lowest number of equal names", Operation::AtomList, |asked, reply| {
        if let (true, 0, Ok(sheet)) = (asked.is(Operation::AtomList), reply.number, &asked.examined.sheet) {
            let lowest = |n: u16| sheet.names.iter().position(|name| *name == sheet.name(n)).unwrap() as u16;
            reply.list(reply.held().chunks(2).flat_map(|atom| [lowest(atom[0]), atom[1]]).collect());
        }
    }),
    ("an atom's parameter count is lost", Operation::AtomList, |asked, reply| {
        if asked.is(Operation::AtomList) && reply.number == 0 {
            reply.list(reply.held().chunks(2).flat_map(|atom| [atom[0], 0]).collect());
        }
    }),
    ("a list's room is counted in bytes", Operation::AtomList, |asked, reply| {
        if asked.is(Operation::AtomList) && reply.number == 0 && 2 * reply.value > asked.room {
            reply.refuse(16, 0);
        }
    }),
    ("a datatype list has the goal's entries", Operation::DatatypeList, |asked, reply| {
        if let (true, 0, Ok(sheet)) = (asked.is(Operation::DatatypeList), reply.number, &asked.examined.sheet) {
            let mut list = reply.held();
            sheet.props[sheet.goal].datatypes(&mut list);
            if list.len() <= asked.room {
                reply.list(list);
            }
        }
    }),
    ("the plain text is that of version 2", Operation::PlainText, |asked, reply| {
        if asked.is(Operation::PlainText) {
            *reply = Reply::new(&asked.examined.answer(Question::HandoutPlain(2), Some(asked.room)).unwrap());
        }
    }),
    ("the board prints version 2", Operation::BoardOutput, |asked, reply| {
        if let (true, Ok(exported)) = (asked.is(Operation::BoardOutput), &asked.examined.exported) {
            let second = exported.plain(Version::Second);
            if exported.plain.len().max(second.len()) <= BOARD_ROOM {
                reply.text(&second);
            }
        }
    }),
    ("version 2 is version 1", Operation::HandoutPlain, |asked, reply| {
        if let (Some((2, question)), 0) = (asked.version(), reply.number) {
            *reply = Reply::new(&asked.examined.answer(question(1), Some(asked.room)).unwrap());
        }
    }),
    ("a strict text of version 2 is a plain one", Operation::HandoutStrict, |asked, reply| {
        if asked.question == Question::HandoutStrict(2) {
            *reply = Reply::new(&asked.examined.answer(Question::HandoutPlain(2), Some(asked.room)).unwrap());
        }
    }),
    ("version 2 lists the datatypes of ∀ labels only", Operation::HandoutDatatypes, |asked, reply| {
        if asked.question == Question::HandoutDatatypes(2) {
            *reply = Reply::new(&asked.examined.answer(Question::DatatypeList, Some(asked.room)).unwrap());
        }
    }),
    ("version 2 lists each datatype once", Operation::HandoutDatatypes, |asked, reply| {
        if asked.question == Question::HandoutDatatypes(2) && reply.number == 0 {
            let mut once: Vec<u16> = vec![];
            reply.held().into_iter().for_each(|n| once.extend((!once.contains(&n)).then_some(n)));
            reply.list(once);
        }
    }),
    ("version 2 lists the goal's datatypes", Operation::HandoutDatatypes, |asked, reply| {
        if let (Question::HandoutDatatypes(2), 0, Ok(sheet)) = (asked.question, reply.number, &asked.examined.sheet) {
            let mut list = reply.held();
            sheet.props[sheet.goal].datatypes(&mut list);
            if list.len() <= asked.room {
                reply.list(list);
            }
        }
    }),
    ("version 0 is version 1", Operation::HandoutPlain, |asked, reply| asked.take(reply, |version| version.max(1))),
    ("version 4 is version 3", Operation::HandoutPlain, |asked, reply| {
        asked.take(reply, |version| if version == 4 { 3 } else { version });
    }),
    ("version 3 is refused with 21", Operation::HandoutPlain, |asked, reply| {
        if let Some((3, _)) = asked.version() {
            reply.refuse(21, 0);
        }
    }),
    ("versions 2 and 3 are swapped", Operation::HandoutPlain, |asked, reply| {
        if let (Some((version @ (2 | 3), question)), 0) = (asked.version(), reply.number) {
            *reply = Reply::new(&asked.examined.answer(question(5 - version), Some(asked.room)).unwrap());
        }
    }),
    ("version 3 has a name after its own extensions", Operation::HandoutPlain, |asked, reply| {
        asked.arrange(reply, |declared| {
            declared.atoms.sort_by(|(a, m), (b, n)| (a.clone() + "~").cmp(&(b.clone() + "~")).then(m.cmp(n)));
        });
    }),
    ("version 3 sorts by count before name", Operation::HandoutPlain, |asked, reply| {
        asked.arrange(reply, |declared| declared.atoms.sort_by_key(|(name, count)| (*count, name.clone())));
    }),
    ("version 3 has the counts of a name as they are met", Operation::HandoutPlain, |asked, reply| {
        asked.arrange(reply, |declared| {
            declared.atoms.sort_by_key(|(_, count)| u16::MAX - count);
            declared.atoms.sort_by_key(|(name, _)| name.clone());
        });
    }),
    ("version 3 descends", Operation::HandoutPlain, |asked, reply| {
        asked.arrange(reply, |declared| {
            declared.atoms.reverse();
            declared.datatypes.reverse();
        });
    }),
    ("version 3 takes small letters for large ones", Operation::HandoutPlain, |asked, reply| {
        asked.arrange(reply, |declared| declared.atoms.sort_by_key(|(name, count)| (name.to_lowercase(), *count)));
    }),
    ("version 3 leaves the last declaration out", Operation::HandoutPlain, |asked, reply| {
        asked.arrange(reply, |declared| {
            declared.atoms.pop();
        });
    }),
    ("version 3 declares one twice", Operation::HandoutPlain, |asked, reply| {
        asked.arrange(reply, |declared| declared.atoms.extend(declared.atoms.last().cloned()));
    }),
    ("version 3 sorts its list", Operation::HandoutDatatypes, |asked, reply| {
        if asked.question == Question::HandoutDatatypes(3) && reply.number == 0 {
            let mut list = reply.held();
            list.sort();
            reply.list(list);
        }
    }),
    ("a version wraps at 8 bits", Operation::HandoutPlain, |asked, reply| asked.take(reply, |version| version % 256)),
    ("a version wraps at 16 bits", Operation::HandoutPlain, |asked, reply| {
        asked.take(reply, |version| version % 65536);
    }),
    ("a version wraps at 32 bits", Operation::HandoutPlain, |asked, reply| {
        asked.take(reply, |version| version % (1 << 32));
    }),
    ("21 comes after the refusals of a sheet", Operation::HandoutPlain, |asked, reply| {
        if let (21, Err(refusal)) = (reply.number, &asked.examined.exported) {
            *reply = Reply::new(&Err(*refusal));
        }
    }),
    ("21 comes after 16", Operation::HandoutPlain, |asked, reply| {
        if let (21, Ok(exported)) = (reply.number, &asked.examined.exported) {
            if asked.room < exported.plain.len() {
                reply.refuse(16, 0);
            }
        }
    }),
    ("labels are counted only up to the first", Operation::LabelCount, |asked, reply| {
        if asked.is(Operation::LabelCount) && reply.number == 0 {
            reply.value = reply.value.min(1);
        }
    }),
    ("a label count refuses nothing of the walk", Operation::LabelCount, |asked, reply| {
        if asked.is(Operation::LabelCount) && (12..=15).contains(&reply.number) {
            (reply.number, reply.value) = (0, 0);
        }
    }),
    ("propositions are compared by number", Operation::Comparison, |asked, reply| {
        if let (Question::Comparison(i, j), 0, Ok(sheet)) = (asked.question, reply.number, &asked.examined.sheet) {
            reply.value = (sheet.steps[i].conclusion == sheet.steps[j].conclusion) as usize;
        }
    }),
    ("17 comes before the refusals of a sheet", Operation::Comparison, |asked, reply| {
        if let (Question::Comparison(i, j), 1..=11) = (asked.question, reply.number) {
            if i.max(j) > 1023 {
                reply.refuse(17, 0);
            }
        }
    }),
    ("step numbers wrap at 16 bits", Operation::Comparison, |asked, reply| {
        if let (Question::Comparison(i, j), 17) = (asked.question, reply.number) {
            let wrapped = Question::Comparison(i % 65536, j % 65536);
            *reply = Reply::new(&asked.examined.answer(wrapped, None).unwrap());
        }
    }),
    ("step numbers wrap at 32 bits", Operation::Comparison, |asked, reply| {
        if let (Question::Comparison(i, j), 17) = (asked.question, reply.number) {
            let wrapped = Question::Comparison(i % (1 << 32), j % (1 << 32));
            *reply = Reply::new(&asked.examined.answer(wrapped, None).unwrap());
        }
    }),
    ("the right sides are compared after a no on the left", Operation::Comparison, |asked, reply| {
        if (reply.number, reply.value) == (0, 0) && asked.right_sides_are_refused() {
            reply.refuse(19, 0);
        }
    }),
    ("two parameter counts are 18", Operation::Comparison, |asked, reply| {
        if asked.meets_two_counts() {
            reply.refuse(18, 0);
        }
    }),
    ("two parameter counts are yes", Operation::Comparison, |asked, reply| {
        if asked.meets_two_counts() {
            reply.value = 1;
        }
    }),
    ("parameters are looked at before their counts", Operation::Comparison, |asked, reply| {
        if asked.meets_two_counts() && asked.begins_with_unbound_parameters() {
            reply.refuse(19, 0);
        }
    }),
    ("19 is yes", Operation::Comparison, |_, reply| {
        if reply.number == 19 {
            (reply.number, reply.value) = (0, 1);
        }
    }),
    ("a comparison refuses what the walk refuses", Operation::Comparison, |asked, reply| {
        if let (true, Err(refusal)) = (asked.is(Operation::Comparison), &asked.examined.exported) {
            *reply = Reply::new(&Err(*refusal));
        }
    }),
    ("all sheets are refused", Operation::PlainText, |_, reply| reply.refuse(1, 0)),
    ("every text is sorry", Operation::PlainText, |asked, reply| {
        if asked.is(Operation::PlainText) && asked.room >= 5 {
            reply.text("sorry");
        }
    }),
    ("nothing is written", Operation::BoardOutput, |_, reply| reply.cells.clear()),
    ("the board's line has no newline", Operation::BoardOutput, |asked, reply| {
        if asked.is(Operation::BoardOutput) && asked.examined.exported.is_err() {
            reply.cells.pop();
            reply.value -= 1;
        }
    }),
    ("the board's line has another refusal", Operation::BoardOutput, |asked, reply| {
        if let (true, Err(refusal)) = (asked.is(Operation::BoardOutput), &asked.examined.exported) {
            reply.text(&format!("refused {} at {}\n", refusal.place, refusal.number));
        }
    }),
    ("the board's line has no column", Operation::BoardOutput, |asked, reply| {
        if let Some(Refusal { number, place, .. }) = asked.printed_refusal() {
            reply.text(&format!("refused {number} at {place}\n"));
        }
    }),
    ("the board's line leaves out column 0", Operation::BoardOutput, |asked, reply| {
        if let Some(Refusal { number, place, column: 0 }) = asked.printed_refusal() {
            reply.text(&format!("refused {number} at {place}\n"));
        }
    }),
    ("the board's line has a column for every refusal", Operation::BoardOutput, |asked, reply| {
        if let Some(Refusal { number, place, column }) = asked.printed_refusal() {
            reply.text(&format!("refused {number} at {place} column {column}\n"));
        }
    }),
    ("the board's room is one short", Operation::BoardOutput, |asked, reply| {
        if asked.is(Operation::BoardOutput) && reply.value == BOARD_ROOM {
            reply.text("refused 16 at 0\n");
        }
    }),
    ("the board writes past what it prints", Operation::BoardOutput, |asked, reply| {
        if asked.is(Operation::BoardOutput) && reply.value < BOARD_ROOM {
            reply.cells.push((BOARD_ROOM as isize - 1, 0));
        }
    }),
    ("the board leaves a text behind that is too long", Operation::BoardOutput, |asked, reply| {
        if let (true, Ok(exported)) = (asked.is(Operation::BoardOutput), &asked.examined.exported) {
            if exported.plain.len() > BOARD_ROOM {
                reply.cells.push((100, 0));
            }
        }
    }),
    ("the sheet is written to", Operation::Comparison, |asked, reply| {
        if reply.number == 0 {
            // SAFETY: an accepted sheet has bytes, and the library is lent a copy of it.
            unsafe { *asked.sheet ^= 1 }
        }
    }),
];

/// Which fault the library has now; none past the last.
static FAULT: AtomicUsize = AtomicUsize::new(usize::MAX);

thread_local!(static LAST: RefCell<Option<(Vec<u8>, Rc<Examined>)>> = const { RefCell::new(None) });

/// The sheet examined, or the last one once more.
fn examined(sheet: &[u8]) -> Rc<Examined> {
    LAST.with_borrow_mut(|last| match last {
        Some((bytes, examined)) if bytes == sheet => examined.clone(),
        _ => {
            let examined = Rc::new(examine(sheet).unwrap());
            *last = Some((sheet.to_vec(), examined.clone()));
            examined
        }
    })
}

/// Answers with the fault, and writes the cells.
unsafe fn reply<T: TryFrom<u16>>(
    question: Question,
    sheet: *const u8,
    length: usize,
    out: *mut T,
    room: usize,
    (value, column): (*mut usize, *mut usize),
) -> u8 {
    let bytes = if length == 0 { &[] } else { std::slice::from_raw_parts(sheet, length) };
    let examined = examined(bytes);
    let asked = Asked { question, room, sheet: sheet.cast_mut(), bytes: bytes.to_vec(), examined };
    let mut reply = Reply::new(&asked.right(Some(room)));
    if let Some((_, _, fault)) = FAULTS.get(FAULT.load(SeqCst)) {
        fault(&asked, &mut reply);
    }
    for (at, number) in reply.cells {
        *out.offset(at) = T::try_from(number).ok().unwrap();
    }
    (*value, *column) = (reply.value, reply.column);
    reply.number
}

macro_rules! fill {
    ($name:ident, $cell:ty, $question:expr) => {
        unsafe extern "C" fn $name(
            s: *const u8,
            n: usize,
            out: *mut $cell,
            room: usize,
            value: *mut usize,
            column: *mut usize,
        ) -> u8 {
            reply($question, s, n, out, room, (value, column))
        }
    };
}

macro_rules! handout {
    ($name:ident, $cell:ty, $question:expr) => {
        unsafe extern "C" fn $name(
            s: *const u8,
            n: usize,
            version: usize,
            out: *mut $cell,
            room: usize,
            value: *mut usize,
            column: *mut usize,
        ) -> u8 {
            reply($question(version), s, n, out, room, (value, column))
        }
    };
}

fill!(plain_text, u8, Question::PlainText);
fill!(strict_text, u8, Question::StrictText);
fill!(atom_list, u16, Question::AtomList);
fill!(datatype_list, u16, Question::DatatypeList);
handout!(handout_plain, u8, Question::HandoutPlain);
handout!(handout_strict, u8, Question::HandoutStrict);
handout!(handout_datatypes, u16, Question::HandoutDatatypes);

unsafe extern "C" fn label_count(s: *const u8, n: usize, value: *mut usize, column: *mut usize) -> u8 {
    reply(Question::LabelCount, s, n, std::ptr::null_mut::<u8>(), 0, (value, column))
}

unsafe extern "C" fn compare_steps(
    s: *const u8,
    n: usize,
    i: usize,
    j: usize,
    value: *mut usize,
    column: *mut usize,
) -> u8 {
    reply(Question::Comparison(i, j), s, n, std::ptr::null_mut::<u8>(), 0, (value, column))
}

unsafe extern "C" fn board_output(s: *const u8, n: usize, out: *mut u8) -> usize {
    let (mut value, mut column) = (0, 0);
    reply(Question::BoardOutput, s, n, out, BOARD_ROOM, (&mut value, &mut column));
    value
}

const LIBRARY: Library = Library {
    plain_text,
    strict_text,
    atom_list,
    datatype_list,
    label_count,
    compare: compare_steps,
    board_output,
    handout_plain,
    handout_strict,
    handout_datatypes,
    exercise,
};

/// An exercise as the library gets it, and the names in its memory.
struct AskedExercise {
    exercise: Exercise,
    room: usize,
    names: *mut u8,
}

static EXERCISES: LazyLock<Exercises> = LazyLock::new(Exercises::default);

impl AskedExercise {
    fn right(&self, room: Option<usize>) -> Result<Answer, Refusal> {
        EXERCISES.answer(&self.exercise, room).map(Answer::Code)
    }

    /// Answers as another question.
    fn take(&self, reply: &mut Reply, change: impl FnOnce(&mut Exercise)) {
        let mut exercise = self.exercise.clone();
        change(&mut exercise);
        *reply = Reply::new(&EXERCISES.answer(&exercise, Some(self.room)).map(Answer::Code));
    }

    /// Answers names that are refused as so many good ones, if the test holds of them.
    fn take_names(&self, reply: &mut Reply, test: impl Fn(&[&[u8]]) -> bool) {
        let names: Vec<&[u8]> = self.exercise.names.split(|byte| *byte == b'\n').collect();
        if reply.number == 29 && self.exercise.n <= 3 && test(&names) {
            self.take(reply, |exercise| exercise.names = b"A\nB\nC"[..2 * names.len().min(3) - 1].to_vec());
        }
    }

    /// How many names there are, where the question is not refused with 29.
    fn names(&self) -> Option<usize> {
        count_names(&self.exercise.names).filter(|_| self.exercise.n <= 3)
    }
}

impl Reply {
    /// Puts other bytes in the place of those in front of propositions, and other numbers in that of names.
    fn recode(&mut self, head: impl Fn(u16) -> u16, name: impl Fn(u16) -> u16) {
        let mut at = 0;
        while at < self.cells.len() {
            let atom = self.cells[at].1 == 5;
            self.cells[at].1 = head(self.cells[at].1);
            if atom {
                self.cells[at + 1].1 = name(self.cells[at + 1].1);
            }
            at += if atom { 4 } else { 1 };
        }
    }
}

fn well_formed(name: &[u8]) -> bool {
    !name.is_empty() && count_names(name) == Some(1)
}

type ExerciseFault = fn(&AskedExercise, &mut Reply);

const EXERCISE_FAULTS: &[(&str, ExerciseFault)] = &[
    ("∨ before ∧", |_, reply| reply.recode(|head| [0, 1, 3, 2, 4, 5][head as usize], |name| name)),
    ("the right part varies slowest", |asked, reply| {
        let leaves = asked.names().map_or(0, |names| names + 2);
        let index = asked.exercise.ordinal.wrapping_sub(leaves);
        if asked.exercise.n > 0 && index < leaves * leaves {
            asked.take(reply, |exercise| exercise.ordinal = leaves + index % leaves * leaves + index / leaves);
        }
    }),
    ("larger left parts come first", |asked, reply| {
        if let (Some(0), 2..=3, 14..=61) = (asked.names(), asked.exercise.n, asked.exercise.ordinal) {
            asked.take(reply, |exercise| exercise.ordinal = 14 + (exercise.ordinal - 14 + 24) % 48);
        }
    }),
    ("names before ⊤ and ⊥", |asked, reply| {
        if let Some(leaves) = asked.names().map(|names| names + 2) {
            if asked.exercise.ordinal < leaves {
                asked.take(reply, |exercise| exercise.ordinal = (exercise.ordinal + 2) % leaves);
            }
        }
    }),
    ("an ordinal equal to the total is accepted", |asked, reply| {
        let total = asked.names().map(|names| EXERCISES.codes(names, asked.exercise.n).len());
        if total == Some(asked.exercise.ordinal) {
            asked.take(reply, |exercise| exercise.ordinal -= 1);
        }
    }),
    ("the last ordinal is refused", |asked, reply| {
        let total = asked.names().map(|names| EXERCISES.codes(names, asked.exercise.n).len());
        if total == Some(asked.exercise.ordinal + 1) {
            reply.refuse(30, 0);
        }
    }),
    ("n of 4 is taken for 3", |asked, reply| {
        if asked.exercise.n == 4 {
            asked.take(reply, |exercise| exercise.n = 3);
        }
    }),
    ("n is cut to 8 bits", |asked, reply| asked.take(reply, |exercise| exercise.n %= 256)),
    ("n is cut to 16 bits", |asked, reply| asked.take(reply, |exercise| exercise.n %= 1 << 16)),
    ("n is cut to 32 bits", |asked, reply| asked.take(reply, |exercise| exercise.n %= 1 << 32)),
    ("the ordinal is cut to 16 bits", |asked, reply| asked.take(reply, |exercise| exercise.ordinal %= 1 << 16)),
    ("the ordinal is cut to 32 bits", |asked, reply| asked.take(reply, |exercise| exercise.ordinal %= 1 << 32)),
    ("repeated names are taken", |asked, reply| {
        asked.take_names(reply, |names| names.len() <= 3 && names.iter().all(|name| well_formed(name)));
    }),
    ("a name is compared with the next one only", |asked, reply| {
        let neighbours = |names: &[&[u8]]| names.windows(2).all(|pair| pair[0] != pair[1]);
        asked.take_names(reply, |names| {
            names.len() <= 3 && names.iter().all(|name| well_formed(name)) && neighbours(names)
        });
    }),
    ("names are compared without their case", |asked, reply| {
        if asked.exercise.names == b"a\nA" {
            reply.refuse(29, 0);
        }
    }),
    ("a name that begins another is a repeat", |asked, reply| {
        if asked.exercise.names == b"A\nAA\nAAA" {
            reply.refuse(29, 0);
        }
    }),
    ("four names are taken", |asked, reply| {
        asked.take_names(reply, |names| names.len() == 4 && names.iter().all(|name| well_formed(name)));
    }),
    ("names of 33 bytes are taken", |asked, reply| {
        asked.take_names(reply, |names| names.iter().all(|name| well_formed(name) || **name == [b'n'; 33]));
    }),
    ("names of 32 bytes are refused", |asked, reply| {
        if asked.exercise.names == [b'n'; 32] {
            reply.refuse(29, 0);
        }
    }),
    ("a name may begin with any of its bytes", |asked, reply| {
        asked.take_names(reply, |names| names.len() == 1 && well_formed(&[b"A", names[0]].concat()));
    }),
    ("a newline may stand at the end", |asked, reply| {
        asked.take_names(reply, |names| names.len() == 2 && well_formed(names[0]) && names[1].is_empty());
    }),
    ("a word of terms is no name", |asked, reply| {
        if asked.exercise.names.starts_with(b"sorry") {
            reply.refuse(29, 0);
        }
    }),
    ("no names are refused", |asked, reply| {
        if asked.exercise.names.is_empty() {
            reply.refuse(29, 0);
        }
    }),
    ("30 is tried before 29", |asked, reply| {
        if reply.number == 29 && asked.exercise.ordinal > 86_704 {
            reply.refuse(30, 0);
        }
    }),
    ("16 is tried before 30", |asked, reply| {
        if reply.number == 30 && asked.room == 0 {
            reply.refuse(16, 0);
        }
    }),
    ("29 has the number of a name as its place", |asked, reply| {
        if reply.number == 29 && asked.exercise.names == b"A\nB\nA" {
            reply.value = 2;
        }
    }),
    ("names are numbered from 1", |_, reply| reply.recode(|head| head, |name| name + 1)),
    ("a room exactly enough is refused", |asked, reply| {
        if reply.number == 0 && reply.value == asked.room {
            reply.refuse(16, 0);
        }
    }),
    ("a room one short is accepted", |asked, reply| {
        let right = Reply::new(&asked.right(None));
        if reply.number == 16 && right.value == asked.room + 1 {
            *reply = right;
            reply.cells.pop();
        }
    }),
    ("a code is begun before its room is judged", |asked, reply| {
        if reply.number == 16 {
            reply.cells = Reply::new(&asked.right(None)).cells;
            reply.cells.truncate(asked.room);
        }
    }),
    ("a byte is written after the code", |asked, reply| {
        if reply.number == 0 && reply.value < asked.room {
            reply.cells.push((reply.value as isize, 0));
        }
    }),
    ("a byte is written past the lent room", |asked, reply| reply.cells.push((asked.room as isize, 0))),
    ("a refusal leaves its number in the output", |asked, reply| {
        if reply.number > 0 && asked.room > 0 {
            reply.cells.push((0, reply.number as u16));
        }
    }),
    ("a length is one too many", |_, reply| reply.value += (reply.number == 0) as usize),
    ("the column is left unset", |_, reply| reply.column = usize::MAX / 3),
    ("the names are written to", |asked, reply| {
        if reply.number == 0 && !asked.exercise.names.is_empty() {
            // SAFETY: the names have bytes, and the library is lent a copy of them.
            unsafe { *asked.names ^= 1 }
        }
    }),
];

/// Which fault in exercises the library has now; none past the last.
static EXERCISE_FAULT: AtomicUsize = AtomicUsize::new(usize::MAX);

#[allow(clippy::too_many_arguments)]
unsafe extern "C" fn exercise(
    s: *const u8,
    length: usize,
    n: usize,
    ordinal: usize,
    out: *mut u8,
    room: usize,
    value: *mut usize,
    column: *mut usize,
) -> u8 {
    let names = if length == 0 { vec![] } else { std::slice::from_raw_parts(s, length).to_vec() };
    let asked = AskedExercise { exercise: Exercise { names, n, ordinal }, room, names: s.cast_mut() };
    let mut reply = Reply::new(&asked.right(Some(room)));
    if let Some((_, fault)) = EXERCISE_FAULTS.get(EXERCISE_FAULT.load(SeqCst)) {
        fault(&asked, &mut reply);
    }
    for (at, number) in reply.cells {
        *out.offset(at) = number as u8;
    }
    (*value, *column) = (reply.value, reply.column);
    reply.number
}

#[test]
fn every_library_with_wrong_exercises_is_found() {
    let asked = exercises::compare(&LIBRARY, &EXERCISES, 11).unwrap_or_else(|found| panic!("a right library: {found}"));
    assert!(asked.accepted > 2 * 140_636 && asked.refused_16 > 140_636, "{asked}");
    assert!(asked.refused_29 > 1000 && asked.refused_30 > 100, "{asked}");
    for (index, (fault, _)) in EXERCISE_FAULTS.iter().enumerate() {
        EXERCISE_FAULT.store(index, SeqCst);
        let found = exercises::compare(&LIBRARY, &EXERCISES, 11);
        println!("{fault}\n{}\n", found.err().unwrap_or_else(|| panic!("not found: {fault}")));
    }
}

/// The first difference over some sheets of each kind.
fn found() -> Option<Found> {
    let kinds = [Kind::Quantified, Kind::Limits, Kind::Damaged, Kind::Sound, Kind::Random];
    kinds.into_iter().find_map(|kind| compare(&LIBRARY, kind, 11, 250, 2).1)
}

#[test]
fn every_wrong_library_is_found() {
    assert!(found().is_none(), "a right library differs: {}", found().unwrap());
    for (index, (fault, operation, _)) in FAULTS.iter().enumerate() {
        FAULT.store(index, SeqCst);
        let found = found().unwrap_or_else(|| panic!("not found: {fault}"));
        println!("{fault}\n{found}\n");
        assert_eq!(found.difference.operation, Some(*operation), "{fault}");
        if index == 0 {
            assert_eq!(found.sheet, smallest().bytes());
        }
    }
}

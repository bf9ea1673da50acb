//! The list is read back by its format, and each answer asked for once more.
use oracle::{
    answer::{examine, Answer, Operation, Question},
    exercise::{Exercise, Exercises},
    graft::{graft, Refused, Whose},
    index::{find_name, name_index, FREE, SLOTS},
    judging::{judge, Judged, Verdict},
    list::{list, Terms, EXERCISE, FIND_NAME, GRAFT, JUDGE, JUDGE_BESIDE, NAME_INDEX, READ_TERM, RESTATE, YES},
    memory::{read_into, Room, RECORD},
    restate::{restate, Given},
    sheet::Refusal,
    text::Version,
};

struct Reader<'a>(&'a [u8]);

impl Reader<'_> {
    fn bytes(&mut self, count: usize) -> Vec<u8> {
        let (first, rest) = self.0.split_at(count);
        self.0 = rest;
        first.to_vec()
    }

    fn number(&mut self, bytes: usize) -> usize {
        self.bytes(bytes).into_iter().rev().fold(0, |number, byte| number << 8 | byte as usize)
    }

    /// A question and the room lent for it.
    fn question(&mut self) -> (Question, Option<usize>) {
        match self.number(1) {
            0 => (Question::PlainText, Some(self.number(4))),
            1 => (Question::StrictText, Some(self.number(4))),
            2 => (Question::AtomList, Some(self.number(4))),
            3 => (Question::DatatypeList, Some(self.number(4))),
            4 => (Question::LabelCount, None),
            5 => (Question::Comparison(self.number(2), self.number(2)), None),
            6 => (Question::BoardOutput, None),
            7 => (Question::HandoutPlain(self.number(8)), Some(self.number(4))),
            8 => (Question::HandoutStrict(self.number(8)), Some(self.number(4))),
            9 => (Question::HandoutDatatypes(self.number(8)), Some(self.number(4))),
            kind => panic!("kind {kind}"),
        }
    }

    /// An answer's value, or a refusal.
    fn value(&mut self) -> Result<usize, Refusal> {
        let (number, value) = (self.number(1) as u8, self.number(4));
        match number {
            0 => Ok(value),
            _ => Err(Refusal { number, place: value, column: self.number(2) as u16 }),
        }
    }

    fn answer(&mut self, question: Question) -> Result<Answer, Refusal> {
        let value = self.value()?;
        Ok(match question {
            Question::AtomList | Question::DatatypeList | Question::HandoutDatatypes(_) => {
                Answer::List((0..value).map(|_| self.number(2) as u16).collect())
            }
            Question::LabelCount => Answer::Count(value),
            Question::Comparison(..) => Answer::Equal(value == 1),
            _ => Answer::Text(String::from_utf8(self.bytes(value)).unwrap()),
        })
    }
}

#[test]
fn the_list_reads_back() {
    let list = list(1, Terms::ALL).unwrap();
    assert!(list.sheets >= 1500 && list.bytes.len() <= 2_500_000);
    let mut reader = Reader(&list.bytes);
    let (mut asked, mut refused, mut exact, mut short, mut more) = ([0; Operation::ALL.len()], [0; 32], 0, 0, 0);
    let (mut strict, mut second, mut third, mut strict_third) = (0, 0, 0, 0);
    let entries = list.sheets + list.names + list.indexed + list.restated + list.grafted + list.texts + list.judged;
    assert_eq!(reader.number(4), entries);
    for _ in 0..list.sheets {
        let length = reader.number(4);
        let examined = examine(&reader.bytes(length)).unwrap();
        for _ in 0..reader.number(1) {
            let (question, room) = reader.question();
            asked[question.operation() as usize] += 1;
            let answer = reader.answer(question);
            assert_eq!(answer, examined.answer(question, room).unwrap());
            let enough = examined.answer(question, None).unwrap();
            let differs = examined.exported.as_ref().is_ok_and(|exported| exported.strict != exported.plain);
            strict += (question == Question::StrictText && answer.is_ok() && differs) as usize;
            let changed =
                examined.exported.as_ref().is_ok_and(|exported| exported.plain(Version::Second) != exported.plain);
            let sorted = examined.exported.as_ref().is_ok_and(|exported| exported.sorts());
            second += (question == Question::HandoutPlain(2) && answer.is_ok() && changed) as usize;
            third += (question == Question::HandoutPlain(3) && answer.is_ok() && sorted) as usize;
            strict_third += (question == Question::HandoutStrict(3) && answer.is_ok() && sorted) as usize;
            exact += (room.is_some() && answer.as_ref().is_ok_and(|answer| Some(answer.length()) == room)) as usize;
            more += (room.is_some() && answer.as_ref().is_ok_and(|answer| Some(answer.length()) < room)) as usize;
            short +=
                (room.is_some() && enough.is_ok_and(|answer| Some(answer.length()) == room.map(|r| r + 1))) as usize;
            refused[answer.map_or_else(|refusal| refusal.number as usize, |_| 0)] += 1;
        }
    }
    let (exercises, mut codes) = (Exercises::default(), 0);
    for _ in 0..list.names {
        let length = reader.number(4);
        let names = reader.bytes(length);
        for _ in 0..reader.number(1) {
            assert_eq!(reader.number(1), EXERCISE as usize);
            let exercise = Exercise { names: names.clone(), n: reader.number(8), ordinal: reader.number(8) };
            let room = reader.number(4);
            let answer = reader.value().map(|length| reader.bytes(length));
            assert_eq!(answer, exercises.answer(&exercise, Some(room)));
            codes += answer.is_ok() as usize;
            refused[answer.map_or_else(|refusal| refusal.number as usize, |_| 0)] += 1;
        }
    }
    assert!(codes > 100, "{codes}");
    let (mut found, mut missed) = (0, 0);
    for _ in 0..list.indexed {
        let length = reader.number(4);
        let sheet = reader.bytes(length);
        let questions = reader.number(1);
        assert_eq!(reader.number(1), NAME_INDEX as usize);
        let index = reader.value().map(|slots| (0..slots).map(|_| reader.number(2) as u16).collect::<Vec<u16>>());
        assert_eq!(index, name_index(&sheet).map(|slots| slots.to_vec()));
        let slots = index.map_or([0; SLOTS], |index| index.try_into().unwrap());
        for _ in 1..questions {
            assert_eq!(reader.number(1), FIND_NAME as usize);
            let length = reader.number(1);
            let name = reader.bytes(length);
            let answer = reader.value();
            let expected = find_name(&sheet, &slots, &name);
            assert_eq!(answer, expected.map(|number| number.unwrap_or(FREE) as usize));
            found += expected.is_ok_and(|number| number.is_some()) as usize;
            missed += expected.is_ok_and(|number| number.is_none()) as usize;
        }
    }
    assert!(found > 100 && missed > 100, "{found} {missed}");
    let mut sheets = 0;
    for _ in 0..list.restated {
        let length = reader.number(4);
        let sheet = reader.bytes(length);
        for _ in 0..reader.number(1) {
            assert_eq!(reader.number(1), RESTATE as usize);
            let [kind, first, second, third, column] = [0; 5].map(|_| reader.number(2) as u16);
            let given = Given { kind, numbers: [first, second, third], column };
            let room = reader.number(4);
            let answer = reader.value().map(|length| reader.bytes(length));
            assert_eq!(answer, restate(&sheet, given, Some(room)));
            sheets += answer.is_ok() as usize;
            refused[answer.map_or_else(|refusal| refusal.number as usize, |_| 0)] += 1;
        }
    }
    assert!(sheets > 50, "{sheets}");
    let (mut merged, mut whose) = (0, [0; 3]);
    for _ in 0..list.grafted {
        let length = reader.number(4);
        let both = reader.bytes(length);
        for _ in 0..reader.number(1) {
            assert_eq!(reader.number(1), GRAFT as usize);
            let (own, theirs, step, room) = (reader.number(4), reader.number(4), reader.number(8), reader.number(4));
            let answer = match reader.value() {
                Ok(length) => Ok(reader.bytes(length)),
                Err(refusal) => {
                    let its = [Whose::Neither, Whose::Host, Whose::Donor][reader.number(1)];
                    whose[its as usize] += 1;
                    refused[refusal.number as usize] += 1;
                    Err(Refused { whose: its, refusal })
                }
            };
            assert_eq!(answer, graft(&both[..own], step, &both[own..][..theirs], Some(room)));
            merged += answer.is_ok() as usize;
        }
    }
    assert!(merged > 10 && whose.iter().all(|count| *count > 10), "{merged} {whose:?}");
    let mut terms = 0;
    for _ in 0..list.texts {
        let length = reader.number(4);
        let text = reader.bytes(length);
        for _ in 0..reader.number(1) {
            assert_eq!(reader.number(1), READ_TERM as usize);
            let length = reader.number(2);
            let types = reader.bytes(length);
            let [records, names, code] = [0; 3].map(|_| reader.number(4));
            let expected = read_into(&types, &text, Some(Room { records, names, code }));
            let answer = reader.value().map(|nodes| {
                let (names, code) = (reader.number(2), reader.number(4));
                let records: Vec<u16> = (0..RECORD * nodes).map(|_| reader.number(2) as u16).collect();
                (records, reader.bytes(4 * names), reader.bytes(code))
            });
            let gaps = |code: Vec<Option<u8>>| code.into_iter().map(|byte| byte.unwrap_or(0)).collect();
            assert_eq!(answer, expected.map(|memory| (memory.records, memory.names, gaps(memory.code))));
            terms += answer.is_ok() as usize;
            refused[answer.map_or_else(|refusal| refusal.number as usize, |_| 0)] += 1;
        }
    }
    assert!(terms > 100, "{terms}");
    let (mut yes, mut no) = (0, 0);
    for _ in 0..list.judged {
        let length = reader.number(4);
        let sheet = reader.bytes(length);
        for _ in 0..reader.number(1) {
            let kind = reader.number(1);
            assert!([JUDGE, JUDGE_BESIDE].contains(&(kind as u8)));
            let mut part = || {
                let length = reader.number(2);
                reader.bytes(length)
            };
            let (types, text) = if kind == JUDGE as usize { (vec![], vec![]) } else { (part(), part()) };
            let judged = match kind == JUDGE as usize {
                true => Judged::Own,
                false => Judged::Read { list: &types, text: &text },
            };
            let hypotheses: Vec<u16> = (0..reader.number(1)).map(|_| reader.number(2) as u16).collect();
            let prop = reader.number(8);
            let answer = reader.value();
            let expected = judge(&sheet, judged, &hypotheses, prop);
            assert_eq!(answer, expected.map(|verdict| if let Verdict::No(node) = verdict { node } else { YES }));
            yes += (answer == Ok(YES)) as usize;
            no += answer.is_ok_and(|node| node != YES) as usize;
            refused[answer.map_or_else(|refusal| refusal.number as usize, |_| 0)] += 1;
        }
    }
    assert!(yes > 100 && no > 100, "{yes} {no}");
    assert!(reader.0.is_empty());
    assert!(asked.iter().all(|count| *count > 0), "{asked:?}");
    // every refusal but 18
    assert!((0..32).all(|number| (refused[number] > 0) != (number == 18)), "{refused:?}");
    assert!(exact > 1000 && short > 1000, "{exact} {short}");
    assert!(more > 100 && strict > 100 && second > 50, "{more} {strict} {second}");
    assert!(third > 50 && strict_third > 50, "{third} {strict_third}");
}

#[test]
fn the_list_depends_on_the_seed_alone() {
    for terms in [Terms::default(), Terms::ALL] {
        assert!(list(5, terms).unwrap().bytes == list(5, terms).unwrap().bytes);
        assert!(list(5, terms).unwrap().bytes != list(6, terms).unwrap().bytes);
    }
}

//! A sample of the answers as one file, for a program that asks the library the same questions.
//! `README.md` has its form, and says which sheets are in it.
use crate::{
    answer::{examine, Answer, Examined, Finding, Question, VERSIONS},
    exercise::{bad_names, count_names, good_names, Exercise, Exercises, CONNECTIVES, TOO_MANY},
    generate::{
        asked::{self, Asked},
        texts::{self, Text},
        Kind, Sheets,
    },
    graft::{graft, Refused},
    grafts::{fixed, random, Graft},
    index::{find_name, name_index, searches, sheets, FREE, SLOTS},
    judging::{judge, Verdict},
    memory::{read_into, Room, RECORD},
    restate::{givens, restate, Given},
    rng::Rng,
    sheet::{decode, Refusal, BOARD_ROOM, CODE, HEADER_BYTES, NAMES, PAIR_BYTES, PROPS, STEPS, STEP_BYTES, TEXT},
    text::{plain, text, Version},
    walk::export,
};
use std::ops::RangeInclusive;

/// Sheets of each random kind: so many small ones, and a few larger ones.
const SMALL: usize = 130;
const LARGE: usize = 3;
/// The longest sheet, and the longest answer, of a small and of a large one.
const SMALL_BYTES: usize = 800;
const LARGE_BYTES: usize = 8000;
/// The longest sheet of document 01; the limits have longer ones, which 3 refuses.
const LONGEST_SHEET: usize = HEADER_BYTES + PAIR_BYTES * (NAMES + PROPS) + STEP_BYTES * STEPS + TEXT + CODE;
/// So many of the worst sheets.
const WORST: usize = 3;

/// The kind of a question on an exercise.
pub const EXERCISE: u8 = 10;
/// The kinds of questions on the index of a sheet's names, and on a name in it.
pub const NAME_INDEX: u8 = 11;
pub const FIND_NAME: u8 = 12;
/// The kind of a question on a restatement.
pub const RESTATE: u8 = 13;
/// The kind of a question on a graft.
pub const GRAFT: u8 = 14;
/// The kinds of questions on a text that is read, on a sheet's own term that is judged, and on one that is read beside it.
pub const READ_TERM: u8 = 15;
pub const JUDGE: u8 = 16;
pub const JUDGE_BESIDE: u8 = 17;
/// What stands for a yes where a no has its node.
pub const YES: usize = 65_535;
/// So many of a sheet's names are asked for.
const FOUND: usize = 12;
/// So many texts of each random kind, judgements beside a sheet, and sheets of each kind that are judged.
const TEXTS: usize = 60;
const JUDGED_BESIDE: usize = 120;
const JUDGED: usize = 40;
/// The longest text that is read or judged.
const TEXT_BYTES: usize = 400;

#[derive(Default)]
pub struct List {
    pub bytes: Vec<u8>,
    pub sheets: usize,
    /// Entries whose bytes are a caller's names.
    pub names: usize,
    /// Entries that are asked for their names.
    pub indexed: usize,
    /// Entries whose conclusion is restated.
    pub restated: usize,
    /// Entries of a host and a donor.
    pub grafted: usize,
    /// Entries that are texts, and entries that are judged.
    pub texts: usize,
    pub judged: usize,
    pub questions: usize,
}

/// Which questions on terms are in the list: texts that are read, judgements of a sheet's own term, and of one read beside it.
#[derive(Clone, Copy, Default)]
pub struct Terms {
    pub read_term: bool,
    pub judge: bool,
    pub judge_text: bool,
}

impl Terms {
    pub const ALL: Terms = Terms { read_term: true, judge: true, judge_text: true };
}

/// The list, which depends on the seed alone, and on which questions on terms are in it; each sort of these on neither of the others.
pub fn list(seed: u64, terms: Terms) -> Result<List, Finding> {
    let mut list = List::default();
    let mut rng = Rng::new(seed, 0);
    for (_, sheet) in Sheets::new(Kind::Limits, 0, 0).iter().filter(|(_, sheet)| sheet.len() <= LONGEST_SHEET) {
        list.add(&sheet, &examine(&sheet)?, SMALL_BYTES, &mut rng)?;
    }
    for (_, sheet) in
        Sheets::new(Kind::Worst, 0, 0).iter().filter(|(_, sheet)| labelled_on_the_board(sheet)).take(WORST)
    {
        list.add(&sheet, &examine(&sheet)?, SMALL_BYTES, &mut rng)?;
    }
    for kind in [Kind::Sound, Kind::Random, Kind::Quantified, Kind::Damaged] {
        list.sample(kind, seed, 0..=SMALL_BYTES, SMALL, &mut rng)?;
        list.sample(kind, seed, SMALL_BYTES + 1..=LARGE_BYTES, LARGE, &mut rng)?;
    }
    let exercises = Exercises::default();
    for names in good_names().into_iter().chain(bad_names()).filter(|names| names.len() <= SMALL_BYTES) {
        list.add_exercises(&exercises, names, &mut rng);
    }
    for (_, sheet) in sheets() {
        list.add_names(&sheet, &mut rng);
    }
    // Of the longest sheets the one that is refused: it has no long answer.
    let short = |(what, sheet): &(String, Vec<u8>)| sheet.len() <= LARGE_BYTES || what == "1024 steps";
    for (_, sheet) in crate::restate::sheets().into_iter().filter(short) {
        list.add_restatements(&sheet, &mut rng);
    }
    for asked in grafts(seed) {
        list.add_grafts(&asked, &mut rng);
    }
    if terms.read_term {
        list.add_texts(seed);
    }
    if terms.judge {
        list.add_judged(seed, &|asked| asked.read.is_none());
    }
    if terms.judge_text {
        list.add_beside(seed);
        list.add_judged(seed, &|asked| asked.read.as_ref().is_some_and(is_short));
    }
    let entries = list.sheets + list.names + list.indexed + list.restated + list.grafted + list.texts + list.judged;
    list.bytes.splice(0..0, (entries as u32).to_le_bytes());
    Ok(list)
}

/// Two sheets of at most so many bytes, so many pairs of each random kind, and some of those by hand.
const PAIR: usize = 260;
const PAIRS: usize = 2;
const BY_HAND: [&str; 12] = [
    "the second drawing",
    "a pair under fst",
    "a premiss of a Sorry",
    "a judgement under fst",
    "conclusions 17 and 17",
    "conclusions 16 and 17",
    "conclusions 27 and 28",
    "names 5 into names 2",
    "step 1 in column 4096, as host",
    "step 2 of 3 with 2 premisses, as donor",
    "512 and 1 propositions",
    "511 and 1 propositions",
];

/// Pairs for grafts: some by hand, and the first of the random kinds that are short and accepted.
fn grafts(seed: u64) -> Vec<Graft> {
    let mut all: Vec<Graft> = fixed().into_iter().filter(|asked| BY_HAND.contains(&asked.what.as_str())).collect();
    for kind in [Kind::Sound, Kind::Random, Kind::Quantified] {
        let pairs = (0..).flat_map(|index| random(kind, seed, index));
        let short = |asked: &Graft| asked.host.len() + asked.donor.len() <= PAIR;
        let accepted = |asked: &Graft| short(asked) && graft(&asked.host, asked.step, &asked.donor, None).is_ok();
        all.extend(pairs.filter(accepted).take(PAIRS));
    }
    all
}

/// Grafts alone, in the list's form: those by hand, and of each random kind so many pairs of sheets that are not long, each once
/// with enough room.
pub fn list_grafts(seed: u64, count: usize) -> List {
    let mut list = List::default();
    let kinds = [Kind::Sound, Kind::Random, Kind::Quantified, Kind::Damaged];
    let generated = kinds.into_iter().flat_map(|kind| (0..count).flat_map(move |index| random(kind, seed, index)));
    let short = |asked: &Graft| asked.host.len().max(asked.donor.len()) <= LARGE_BYTES;
    for asked in fixed().into_iter().chain(generated).filter(short) {
        list.add_pair(&asked, &[(asked.host.len(), asked.donor.len(), asked.step, BOARD_ROOM)]);
    }
    list.bytes.splice(0..0, (list.grafted as u32).to_le_bytes());
    list
}

/// The donor of a question: so many of the bytes behind so many.
fn donor_of(asked: &Graft, own: usize, theirs: usize) -> Vec<u8> {
    [&asked.host[..], &asked.donor].concat()[own..][..theirs].to_vec()
}

fn is_short(Text { list, text }: &Text) -> bool {
    text.len() <= TEXT_BYTES && list.len() <= TEXT_BYTES
}

/// Has the sheet a label, and does the board print its text?
fn labelled_on_the_board(sheet: &[u8]) -> bool {
    let exported = decode(sheet).and_then(|sheet| export(&sheet).map(|export| (sheet, export)));
    exported.is_ok_and(|(sheet, export)| {
        export.labels > 0 && text(&sheet, &export, Version::First, plain).len() <= BOARD_ROOM
    })
}

impl List {
    /// Adds the first sheets of a random kind whose length is in a range and whose text is not longer.
    fn sample(
        &mut self,
        kind: Kind,
        seed: u64,
        lengths: RangeInclusive<usize>,
        count: usize,
        rng: &mut Rng,
    ) -> Result<(), Finding> {
        let end = self.sheets + count;
        for (_, sheet) in Sheets::new(kind, seed, usize::MAX).iter().filter(|(_, sheet)| lengths.contains(&sheet.len()))
        {
            let examined = examine(&sheet)?;
            if examined.exported.as_ref().map_or(0, |exported| exported.strict.len()) <= *lengths.end() {
                self.add(&sheet, &examined, *lengths.end(), rng)?;
            }
            if self.sheets == end {
                break;
            }
        }
        Ok(())
    }

    /// Adds an entry. Answers longer than `longest` are asked for with too little room, or of the board.
    fn add(&mut self, sheet: &[u8], examined: &Examined, longest: usize, rng: &mut Rng) -> Result<(), Finding> {
        let questions = questions(examined, longest, rng);
        self.sheets += 1;
        self.questions += questions.len();
        self.bytes.extend((sheet.len() as u32).to_le_bytes());
        self.bytes.extend(sheet);
        self.bytes.push(questions.len() as u8);
        for (question, room) in questions {
            self.add_question(question, room);
            self.add_answer(&examined.answer(question, room)?);
        }
        Ok(())
    }

    fn add_question(&mut self, question: Question, room: Option<usize>) {
        self.bytes.push(question.operation() as u8);
        match question {
            Question::Comparison(i, j) => self.bytes.extend([i, j].map(|step| (step as u16).to_le_bytes()).concat()),
            Question::HandoutPlain(version)
            | Question::HandoutStrict(version)
            | Question::HandoutDatatypes(version) => self.bytes.extend((version as u64).to_le_bytes()),
            _ => {}
        }
        self.bytes.extend(room.into_iter().flat_map(|room| (room as u32).to_le_bytes()));
    }

    /// Adds an entry with names: questions on each number of connectives, and on one that is too large.
    fn add_exercises(&mut self, exercises: &Exercises, names: Vec<u8>, rng: &mut Rng) {
        let mut asked: Vec<(Exercise, usize)> = vec![];
        for n in (0..=CONNECTIVES).chain([*rng.pick(&TOO_MANY)]) {
            let end =
                count_names(&names).filter(|_| n <= CONNECTIVES).map_or(1, |names| exercises.codes(names, n).len());
            let wrapped = (1 << 32) + rng.below(end);
            let beyond = *rng.pick(&[end, end + 1, wrapped, usize::MAX]);
            for ordinal in [0, rng.below(end), rng.below(end), end - 1, beyond] {
                let exercise = Exercise { names: names.clone(), n, ordinal };
                let room = match exercises.answer(&exercise, None) {
                    Ok(code) => code.len() - rng.chance(40) as usize + rng.chance(20) as usize,
                    Err(_) => rng.below(20),
                };
                asked.push((exercise, room));
            }
        }
        if count_names(&names).is_none() {
            rng.shuffle(&mut asked);
            asked.truncate(REFUSED);
        }
        self.names += 1;
        self.questions += asked.len();
        self.bytes.extend((names.len() as u32).to_le_bytes());
        self.bytes.extend(names);
        self.bytes.push(asked.len() as u8);
        for (exercise, room) in asked {
            self.bytes.push(EXERCISE);
            self.bytes.extend([exercise.n, exercise.ordinal].map(|number| (number as u64).to_le_bytes()).concat());
            self.bytes.extend((room as u32).to_le_bytes());
            self.add_answer(&exercises.answer(&exercise, Some(room)).map(Answer::Code));
        }
    }

    /// Adds a sheet with questions on its index and on names in it. A refused sheet leaves the slots 0, so these are asked then.
    fn add_names(&mut self, sheet: &[u8], rng: &mut Rng) {
        let index = name_index(sheet);
        let slots = index.unwrap_or([0; SLOTS]);
        let mut names: Vec<Vec<u8>> = searches(sheet, FOUND, rng).into_iter().map(|(_, name)| name).collect();
        names.dedup();
        self.indexed += 1;
        self.questions += 1 + names.len();
        self.bytes.extend((sheet.len() as u32).to_le_bytes());
        self.bytes.extend(sheet);
        self.bytes.push(1 + names.len() as u8);
        self.bytes.push(NAME_INDEX);
        self.add_answer(&index.map(|slots| Answer::List(slots.to_vec())));
        for name in names {
            self.bytes.push(FIND_NAME);
            self.bytes.push(name.len() as u8);
            self.bytes.extend(&name);
            let found = find_name(sheet, &slots, &name);
            self.add_answer(&found.map(|found| Answer::Count(found.unwrap_or(FREE).into())));
        }
    }

    /// Adds a sheet with restatements, each in exactly enough room or one byte short where it is accepted. A new sheet that is
    /// long stands in one answer only.
    fn add_restatements(&mut self, sheet: &[u8], rng: &mut Rng) {
        let mut long = false;
        let mut asked: Vec<(Given, usize)> = vec![];
        for given in givens(sheet, rng) {
            let room = match restate(sheet, given, None) {
                Ok(new) => {
                    let short = long || rng.chance(25);
                    long |= !short && new.len() > SMALL_BYTES;
                    new.len() - short as usize
                }
                Err(_) => rng.below(40_000),
            };
            asked.push((given, room));
        }
        self.restated += 1;
        self.questions += asked.len();
        self.bytes.extend((sheet.len() as u32).to_le_bytes());
        self.bytes.extend(sheet);
        self.bytes.push(asked.len() as u8);
        for (given, room) in asked {
            self.bytes.push(RESTATE);
            self.bytes.extend(given.row().map(u16::to_le_bytes).concat());
            self.bytes.extend((room as u32).to_le_bytes());
            self.add_answer(&restate(sheet, given, Some(room)).map(Answer::Code));
        }
    }

    /// Adds a host and behind it a donor, with grafts at the step that is meant and at others, and of fewer bytes of either.
    /// An answer is asked for in exactly enough room and in one byte less, a long one in the latter only.
    fn add_grafts(&mut self, asked: &Graft, rng: &mut Rng) {
        let Graft { host, step, donor, .. } = asked;
        let (own, theirs) = (host.len(), donor.len());
        let steps = decode(host).map_or(1, |sheet| sheet.steps.len());
        let past = *rng.pick(&[steps, (1 << 32) + *step, usize::MAX]);
        let other = (0..steps).filter(|other| other != step).take(2);
        let mut questions: Vec<(usize, usize, usize)> =
            [*step, past].into_iter().chain(other).map(|at| (own, theirs, at)).collect();
        questions.extend([(own - 1, theirs, *step), (own, theirs - 1, past)]);
        questions.push((own, rng.below(12), *step));
        let mut all = vec![];
        for (own, theirs, step) in questions {
            match graft(&host[..own], step, &donor_of(asked, own, theirs), None) {
                Ok(new) if new.len() > SMALL_BYTES => all.push((own, theirs, step, new.len() - 1)),
                Ok(new) => all.extend([new.len(), new.len() - 1].map(|room| (own, theirs, step, room))),
                Err(_) => all.push((own, theirs, step, rng.below(1000))),
            }
        }
        self.add_pair(asked, &all);
    }

    /// Adds a host and behind it a donor, with questions: how many of the bytes are the host, how many behind them the donor, the
    /// step and the room.
    fn add_pair(&mut self, asked: &Graft, all: &[(usize, usize, usize, usize)]) {
        let Graft { host, donor, .. } = asked;
        self.grafted += 1;
        self.questions += all.len();
        self.bytes.extend(((host.len() + donor.len()) as u32).to_le_bytes());
        self.bytes.extend(host.iter().chain(donor));
        self.bytes.push(all.len() as u8);
        for (own, theirs, step, room) in all.iter().copied() {
            self.bytes.push(GRAFT);
            self.bytes.extend([own, theirs].map(|length| (length as u32).to_le_bytes()).concat());
            self.bytes.extend((step as u64).to_le_bytes());
            self.bytes.extend((room as u32).to_le_bytes());
            match graft(&host[..own], step, &donor_of(asked, own, theirs), Some(room)) {
                Ok(new) => self.add_answer(&Ok(Answer::Code(new))),
                Err(Refused { whose, refusal }) => {
                    self.add_answer(&Err(refusal));
                    self.bytes.push(whose as u8);
                }
            }
        }
    }

    /// Adds texts that are read.
    fn add_texts(&mut self, seed: u64) {
        let mut rng = Rng::new(seed, READ_TERM.into());
        let drawn = (0..TEXTS as u64).flat_map(|index| {
            let of = |offset: u64| Rng::new(seed, 1000 * offset + index);
            [texts::valid(of(1)), texts::mutated(of(2)), texts::soup(of(3))]
        });
        let fixed = texts::limits().into_iter().map(|(_, text)| text);
        for text in fixed.chain(drawn).filter(is_short) {
            self.add_text(&text, &mut rng);
        }
    }

    /// Adds judgements of terms that are drawn beside a sheet.
    fn add_beside(&mut self, seed: u64) {
        let mut rng = Rng::new(seed, JUDGE_BESIDE.into());
        for _ in 0..JUDGED_BESIDE {
            let asked = asked::beside(&mut rng);
            self.add_judgements(&asked.sheet.clone(), &[asked]);
        }
    }

    /// Adds short sheets with some of the judgements that are asked of each.
    fn add_judged(&mut self, seed: u64, some: &dyn Fn(&Asked) -> bool) {
        let mut rng = Rng::new(seed, JUDGE.into());
        for index in 0..JUDGED {
            let of = |kind: Kind| Sheets::new(kind, seed, index + 1).get(index).1;
            for sheet in [of(Kind::Sound), asked::nearly_sound(seed, index), of(Kind::Quantified)] {
                let fits = |asked: &Asked| some(asked) && asked.hypotheses.len() < 256;
                let all: Vec<Asked> = asked::questions(&sheet, &mut rng).into_iter().filter(fits).collect();
                if sheet.len() <= SMALL_BYTES {
                    self.add_judgements(&sheet, &all);
                }
            }
        }
    }

    /// Adds a text that is read in exactly enough room, in one part too little of it, and in more.
    fn add_text(&mut self, Text { list, text }: &Text, rng: &mut Rng) {
        let mut rooms = vec![Room { records: rng.below(40), names: rng.below(40), code: rng.below(40) }];
        if let Ok(memory) = read_into(list, text, None) {
            let room = memory.room();
            let Room { records, names, code } = room;
            rooms = vec![room, Room { records: records + 7, names: names + 4, code: code + 3 }];
            rooms.push(match rng.below(3) {
                0 if code > 0 => Room { code: code - 1, ..room },
                1 if names > 0 => Room { names: names - 1, ..room },
                _ => Room { records: records - 1, ..room },
            });
        }
        self.texts += 1;
        self.add_entry(text, rooms.len());
        for room in rooms {
            self.bytes.push(READ_TERM);
            self.bytes.extend((list.len() as u16).to_le_bytes());
            self.bytes.extend(list);
            self.bytes.extend([room.records, room.names, room.code].map(|lent| (lent as u32).to_le_bytes()).concat());
            match read_into(list, text, Some(room)) {
                Err(refusal) => self.add_answer(&Err(refusal)),
                Ok(memory) => {
                    self.add_answer(&Ok(Answer::Count(memory.records.len() / RECORD)));
                    self.bytes.extend((memory.names.len() as u16 / 4).to_le_bytes());
                    self.bytes.extend((memory.code.len() as u32).to_le_bytes());
                    self.bytes.extend(memory.records.iter().flat_map(|number| number.to_le_bytes()));
                    self.bytes.extend(memory.names);
                    self.bytes.extend(memory.code.iter().map(|byte| byte.unwrap_or(0)));
                }
            }
        }
    }

    /// Adds a sheet with judgements.
    fn add_judgements(&mut self, sheet: &[u8], all: &[Asked]) {
        self.judged += 1;
        self.add_entry(sheet, all.len());
        for asked in all {
            match &asked.read {
                None => self.bytes.push(JUDGE),
                Some(Text { list, text }) => {
                    self.bytes.push(JUDGE_BESIDE);
                    for part in [list, text] {
                        self.bytes.extend((part.len() as u16).to_le_bytes());
                        self.bytes.extend(part);
                    }
                }
            }
            self.bytes.push(asked.hypotheses.len() as u8);
            self.bytes.extend(asked.hypotheses.iter().flat_map(|number| number.to_le_bytes()));
            self.bytes.extend((asked.prop as u64).to_le_bytes());
            let judged = judge(sheet, asked.judged(), &asked.hypotheses, asked.prop);
            self.add_answer(&judged.map(|verdict| match verdict {
                Verdict::Yes => Answer::Count(YES),
                Verdict::No(node) => Answer::Count(node),
            }));
        }
    }

    fn add_entry(&mut self, bytes: &[u8], questions: usize) {
        self.questions += questions;
        self.bytes.extend((bytes.len() as u32).to_le_bytes());
        self.bytes.extend(bytes);
        self.bytes.push(questions as u8);
    }

    fn add_answer(&mut self, answer: &Result<Answer, Refusal>) {
        let (number, value) = match answer {
            Ok(Answer::Text(text)) => (0, text.len()),
            Ok(Answer::List(list)) => (0, list.len()),
            Ok(Answer::Count(count)) => (0, *count),
            Ok(Answer::Equal(equal)) => (0, *equal as usize),
            Ok(Answer::Code(code)) => (0, code.len()),
            Err(refusal) => (refusal.number, refusal.place),
        };
        self.bytes.push(number);
        self.bytes.extend((value as u32).to_le_bytes());
        match answer {
            Ok(Answer::Text(text)) => self.bytes.extend(text.bytes()),
            Ok(Answer::Code(code)) => self.bytes.extend(code),
            Ok(Answer::List(list)) => self.bytes.extend(list.iter().flat_map(|number| number.to_le_bytes())),
            Ok(Answer::Count(_) | Answer::Equal(_)) => {}
            Err(refusal) => self.bytes.extend(refusal.column.to_le_bytes()),
        }
    }
}

/// So many questions are asked of a sheet or of names that are refused.
const REFUSED: usize = 4;
const COMPARISONS: usize = 6;
/// So many of a hundred answers are asked for with more room than they fill.
const MORE: usize = 10;
/// So many of a hundred sheets are asked for the handouts of versions 2 and 3: of those whose declarations version 3
/// puts into another order, and of all others.
const SORTED_HANDOUTS: usize = 75;
const HANDOUTS: usize = 12;

/// Questions with their rooms, for those that are lent one: one short, but never more than the board lends; exactly
/// enough, and at times up to 100 more, for an answer that is not too long; and anything below 100 for a refusal.
fn questions(examined: &Examined, longest: usize, rng: &mut Rng) -> Vec<(Question, Option<usize>)> {
    let mut all = vec![(Question::LabelCount, None)];
    let mut long = false;
    let mut filling = vec![Question::PlainText, Question::StrictText, Question::AtomList, Question::DatatypeList];
    let sorts = examined.exported.as_ref().is_ok_and(|exported| exported.sorts());
    if rng.chance(if sorts { SORTED_HANDOUTS } else { HANDOUTS }) {
        let handout = [Question::HandoutPlain, Question::HandoutStrict, Question::HandoutDatatypes];
        filling.extend([2, 3].iter().flat_map(|version| handout.map(|question| question(*version))));
        filling.push(rng.pick(&handout)(*rng.pick(&VERSIONS)));
    }
    for question in filling {
        match examined.answer(question, None).expect("export was examined").map(|answer| answer.length()) {
            Ok(length) => {
                all.extend((length > 0).then(|| (question, Some((length - 1).min(BOARD_ROOM)))));
                long |= length > longest;
                if length <= longest {
                    all.push((question, Some(length)));
                    all.extend(rng.chance(MORE).then(|| (question, Some(length + rng.range(1, 100)))));
                }
            }
            Err(_) => all.push((question, Some(rng.below(100)))),
        }
    }
    let steps = examined.sheet.as_ref().map_or(1, |sheet| sheet.steps.len());
    for _ in 0..COMPARISONS {
        let past = rng.chance(10) as usize;
        all.push((Question::Comparison(rng.below(steps + past), rng.below(steps + past)), None));
    }
    if examined.exported.is_err() {
        rng.shuffle(&mut all);
        all.truncate(REFUSED);
    }
    if long || rng.chance(20) {
        all.push((Question::BoardOutput, None));
    }
    all
}

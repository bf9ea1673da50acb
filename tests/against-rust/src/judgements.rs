//! Asks whether terms check (document 02, ticket 5): a sheet's own and such as are read beside it.
use oracle::{
    generate::asked::{asked, Asked as Question},
    judging::{judge, Verdict},
    sheet::Refusal,
};
use std::{collections::BTreeMap, fmt};

/// What a checker hands back: 0 or the number of a refusal, yes or the node of a no, the refusal's place, and the column.
#[derive(Clone, Copy, PartialEq, Eq, Debug)]
pub struct Told {
    pub number: u8,
    pub verdict: Option<Verdict>,
    pub place: usize,
    pub column: usize,
}

impl Told {
    pub fn of(answer: &Result<Verdict, Refusal>) -> Told {
        match answer {
            Ok(verdict) => Told { number: 0, verdict: Some(*verdict), place: 0, column: 0 },
            Err(Refusal { number, place, column }) => {
                Told { number: *number, verdict: None, place: *place, column: usize::from(*column) }
            }
        }
    }
}

/// The checker that is asked.
#[derive(Clone, Copy)]
pub struct Library {
    pub judge: fn(&Question) -> Told,
    /// Whether it also checks terms that are read beside a sheet.
    pub beside: bool,
}

#[derive(Clone, Default, PartialEq, Eq, Debug)]
pub struct Asked {
    pub questions: usize,
    pub yes: usize,
    pub no: usize,
    pub refused: BTreeMap<u8, usize>,
}

impl fmt::Display for Asked {
    fn fmt(&self, f: &mut fmt::Formatter) -> fmt::Result {
        let Asked { questions, yes, no, refused } = self;
        write!(f, "judgements: {questions} questions, {yes} yes, {no} no, refused")?;
        refused.iter().try_for_each(|(number, count)| write!(f, " {number}: {count},"))
    }
}

impl Library {
    /// What differs from what is expected, if anything does.
    pub fn differs(&self, question: &Question) -> Option<String> {
        let expected = judge(&question.sheet, question.judged(), &question.hypotheses, question.prop);
        let (told, right) = ((self.judge)(question), Told::of(&expected));
        (told != right).then(|| {
            let Question { sheet, read, hypotheses, prop } = question;
            let beside = read.as_ref().map(|text| String::from_utf8_lossy(&text.text).into_owned());
            let hex: String = sheet.iter().take(2000).map(|byte| format!("{byte:02x}")).collect();
            format!(
                "{beside:?} against {prop} from {hypotheses:?}: said {told:?}, expected {right:?}, a sheet of {} bytes: {hex}",
                sheet.len()
            )
        })
    }
}

/// What was asked, or the first difference. `count` says how many sheets of each kind are asked.
pub fn compare(library: &Library, seed: u64, count: usize) -> Result<Asked, String> {
    let mut all = Asked::default();
    asked(seed, count, &mut |question| {
        if question.read.is_some() && !library.beside {
            return Ok(());
        }
        all.questions += 1;
        match judge(&question.sheet, question.judged(), &question.hypotheses, question.prop) {
            Ok(Verdict::Yes) => all.yes += 1,
            Ok(Verdict::No(_)) => all.no += 1,
            Err(refusal) => *all.refused.entry(refusal.number).or_default() += 1,
        }
        library.differs(&question).map_or(Ok(()), Err)
    })?;
    Ok(all)
}

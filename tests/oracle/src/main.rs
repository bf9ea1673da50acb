//! The command line. `README.md` says how each command is used.
use alice::kernel::{proof_term::ProofTerm, prop::Prop};
use oracle::{
    answer::{examine, Answer, Examined, Question},
    context,
    derivations::agrees,
    exercise::{count_names, Exercises, CONNECTIVES},
    generate::{
        asked::{asked, Asked},
        judgements::{every_small, judgement, small_props, small_scopes, Judgement},
        texts::{texts, Text, TextKind},
        Kind, Sheets,
    },
    judging::{judge, Hypothesis, Verdict},
    list::{list, list_grafts, List, Terms},
    memory::holds,
    reading,
    rng::Rng,
    sheet::{decode, Refusal},
    sound,
    terms::nodes,
    text::{strict, term as term_text},
};
use std::{collections::BTreeMap, fs, io::Write, process::exit, str::FromStr, thread};

const USAGE: &str = "usage:
  oracle answer [--room N] plain|strict|atoms|datatypes|count|board FILE
  oracle answer compare I J FILE
  oracle answer [--room N] handout VERSION plain|strict|datatypes FILE
  oracle exercises N [NAME]...
  oracle generate --kind KIND [--seed N --count M] --out DIR
  oracle compare --kind KIND [--seed N --count M]
  oracle accuracy --seed N --count M
  oracle judgements --seed N --count M --nodes K
  oracle texts --seed N --count M --nodes K
  oracle questions --seed N --count M
  oracle sound DIR
  oracle list --seed N --out FILE [--read-term] [--judge] [--judge-text]
  oracle grafts --seed N --count M --out FILE
  oracle contexts --seed N --out FILE
KIND: sound random quantified damaged limits worst slowest";

/// The original recurses into deep trees, and the decoder into deep code before refusal 8 is tried.
const STACK: usize = 1 << 30;

fn usage() -> ! {
    eprintln!("{USAGE}");
    exit(2)
}

fn number<T: FromStr>(text: &str) -> T {
    text.parse().unwrap_or_else(|_| usage())
}

fn read(file: &str) -> Vec<u8> {
    fs::read(file).unwrap_or_else(|e| {
        eprintln!("{file}: {e}");
        exit(2)
    })
}

/// The value of `--name value`, among such pairs in any order.
fn option<'a>(args: &'a [&str], name: &str) -> &'a str {
    args.iter().position(|a| *a == name).and_then(|i| args.get(i + 1)).unwrap_or_else(|| usage())
}

fn sheets(args: &[&str]) -> Sheets {
    let kind = Kind::named(option(args, "--kind")).unwrap_or_else(|| usage());
    match kind {
        Kind::Limits | Kind::Worst | Kind::Slowest => Sheets::new(kind, 0, 0),
        _ => random_sheets(kind, args),
    }
}

fn random_sheets(kind: Kind, args: &[&str]) -> Sheets {
    Sheets::new(kind, number(option(args, "--seed")), number(option(args, "--count")))
}

fn main() {
    let run = thread::Builder::new().stack_size(STACK).spawn(run).unwrap();
    exit(run.join().unwrap_or(101))
}

fn run() -> i32 {
    let args: Vec<String> = std::env::args().skip(1).collect();
    let args: Vec<&str> = args.iter().map(String::as_str).collect();
    match args[..] {
        ["answer", "--room", room, question, file] => answer(named(question), file, Some(number(room))),
        ["answer", "compare", i, j, file] => answer(Question::Comparison(number(i), number(j)), file, None),
        ["answer", question, file] => answer(named(question), file, None),
        ["answer", "--room", room, "handout", version, part, file] => {
            answer(handout(number(version), part), file, Some(number(room)))
        }
        ["answer", "handout", version, part, file] => answer(handout(number(version), part), file, None),
        ["exercises", n, ref names @ ..] => exercises(number(n), names),
        ["generate", ref rest @ ..] => generate(&sheets(rest), option(rest, "--out")),
        ["compare", ref rest @ ..] => compare(&sheets(rest)),
        ["accuracy", ref rest @ ..] => accuracy(&random_sheets(Kind::Sound, rest)),
        ["judgements", ref rest @ ..] => {
            let [seed, count, nodes] = ["--seed", "--count", "--nodes"].map(|name| option(rest, name));
            judgements(number(seed), number(count), number(nodes))
        }
        ["texts", ref rest @ ..] => {
            let [seed, count, nodes] = ["--seed", "--count", "--nodes"].map(|name| option(rest, name));
            read_texts(number(seed), number(count), number(nodes))
        }
        ["questions", ref rest @ ..] => {
            print_questions(number(option(rest, "--seed")), number(option(rest, "--count")))
        }
        ["sound", dir] => print_sound(dir),
        ["list", ref rest @ ..] => {
            let [read_term, judge, judge_text] =
                ["--read-term", "--judge", "--judge-text"].map(|name| rest.contains(&name));
            let terms = Terms { read_term, judge, judge_text };
            write_list(number(option(rest, "--seed")), terms, option(rest, "--out"))
        }
        ["grafts", ref rest @ ..] => {
            let list = list_grafts(number(option(rest, "--seed")), number(option(rest, "--count")));
            println!("{} grafts, {} bytes", list.grafted, list.bytes.len());
            fs::write(option(rest, "--out"), list.bytes).unwrap();
            0
        }
        ["contexts", ref rest @ ..] => write_contexts(number(option(rest, "--seed")), option(rest, "--out")),
        _ => usage(),
    }
}

fn named(question: &str) -> Question {
    match question {
        "plain" => Question::PlainText,
        "strict" => Question::StrictText,
        "atoms" => Question::AtomList,
        "datatypes" => Question::DatatypeList,
        "count" => Question::LabelCount,
        "board" => Question::BoardOutput,
        _ => usage(),
    }
}

fn handout(version: usize, part: &str) -> Question {
    match part {
        "plain" => Question::HandoutPlain(version),
        "strict" => Question::HandoutStrict(version),
        "datatypes" => Question::HandoutDatatypes(version),
        _ => usage(),
    }
}

/// The code of every exercise, one to a line.
fn exercises(n: usize, names: &[&str]) -> i32 {
    match (count_names(names.join("\n").as_bytes()), n) {
        (Some(names), 0..=CONNECTIVES) => {
            let codes = Exercises::default();
            let hex = |code: &Vec<u8>| code.iter().map(|byte| format!("{byte:02x}")).collect::<String>() + "\n";
            let lines: String = codes.codes(names, n).iter().map(hex).collect();
            std::io::stdout().write_all(lines.as_bytes()).unwrap();
            0
        }
        _ => {
            println!("refused 29 at 0");
            0
        }
    }
}

fn answer(question: Question, file: &str, room: Option<usize>) -> i32 {
    match examine(&read(file)).and_then(|examined| examined.answer(question, room)) {
        Ok(answer) => {
            std::io::stdout().write_all(&printed(answer)).unwrap();
            0
        }
        Err(finding) => {
            eprintln!("FINDING in {file}: {finding}");
            3
        }
    }
}

fn printed(answer: Result<Answer, Refusal>) -> Vec<u8> {
    match answer {
        Ok(Answer::Text(text)) => text.into(),
        Ok(Answer::Code(code)) => code,
        Ok(Answer::List(list)) => list.iter().map(|n| format!("{n}\n")).collect::<String>().into(),
        Ok(Answer::Count(count)) => format!("{count}\n").into(),
        Ok(Answer::Equal(equal)) => if equal { "yes\n" } else { "no\n" }.into(),
        Err(refusal) => format!("{refusal}\n").into(),
    }
}

fn generate(sheets: &Sheets, dir: &str) -> i32 {
    fs::create_dir_all(dir).unwrap();
    let mut list = String::new();
    for (i, (what, bytes)) in sheets.iter().enumerate() {
        fs::write(format!("{dir}/{i:06}.sheet"), bytes).unwrap();
        list += &format!("{i:06}.sheet {what}\n");
    }
    fs::write(format!("{dir}/INDEX.txt"), list).unwrap();
    0
}

/// Where document and Rust disagree, or demand 3 fails.
#[derive(Default)]
struct Findings(usize);

impl Findings {
    fn report(&mut self, what: &str, bytes: &[u8], finding: &str) {
        self.0 += 1;
        let hex: String = bytes.iter().map(|b| format!("{b:02x}")).collect();
        println!("FINDING in {what}: {finding}\n{hex}");
    }

    fn code(&self) -> i32 {
        println!("{:9} findings", self.0);
        (self.0 > 0) as i32 * 3
    }
}

const COMPARISONS: usize = 20;

/// Compares document and Rust on every sheet and on twenty comparisons of its steps, and counts what came out.
fn compare(sheets: &Sheets) -> i32 {
    let (mut tally, mut findings) = (BTreeMap::<String, usize>::new(), Findings::default());
    for (i, (what, bytes)) in sheets.iter().enumerate() {
        let outcomes = examine(&bytes).and_then(|examined| outcomes(&examined, Rng::new(1, i as u64)));
        match outcomes {
            Ok(outcomes) => outcomes.into_iter().for_each(|outcome| *tally.entry(outcome).or_default() += 1),
            Err(finding) => findings.report(&what, &bytes, &finding),
        }
    }
    for (what, count) in &tally {
        println!("{count:9} {what}");
    }
    findings.code()
}

fn outcomes(examined: &Examined, mut rng: Rng) -> Result<Vec<String>, String> {
    let mut all = vec![match &examined.exported {
        Ok(exported) if exported.plain != exported.strict => "export accepted, strict text unlike plain".into(),
        Ok(_) => "export accepted".into(),
        Err(refusal) => format!("export refused {:02}", refusal.number),
    }];
    let steps = examined.sheet.as_ref().map_or(1, |sheet| sheet.steps.len());
    for _ in 0..COMPARISONS {
        let past = rng.chance(2) as usize;
        let question = Question::Comparison(rng.below(steps + past), rng.below(steps + past));
        all.push(match examined.answer(question, None)? {
            Ok(answer) => format!("comparison {}", if answer == Answer::Equal(true) { "yes" } else { "no" }),
            Err(refusal) => format!("comparison refused {:02}", refusal.number),
        });
    }
    Ok(all)
}

/// Demand 3 on sound sheets.
fn accuracy(sheets: &Sheets) -> i32 {
    let (mut steps, mut labels, mut findings) = (0, 0, Findings::default());
    for (what, bytes) in sheets.iter() {
        let verdict = examine(&bytes).and_then(|examined| {
            let sheet = examined.sheet.map_err(|refusal| refusal.to_string())?;
            let export = examined.exported.map_err(|refusal| refusal.to_string())?.export;
            sound::sound(&sheet).map_err(|e| format!("the generator is wrong: {e}"))?;
            sound::accurate(&sheet, &export)?;
            Ok((sheet.steps.len(), export.labels))
        });
        match verdict {
            Ok((s, l)) => (steps, labels) = (steps + s, labels + l),
            Err(finding) => findings.report(&what, &bytes, &finding),
        }
    }
    println!("{} sound sheets of {steps} steps with {labels} labels", sheets.count());
    findings.code()
}

/// The checker beside a search over the rules, on every term of at most so many nodes and on so many random judgements.
fn judgements(seed: u64, count: u64, nodes: usize) -> i32 {
    let (mut derived, mut others, mut findings) = (0usize, 0usize, 0);
    let mut ask = |scope: &[Hypothesis], term: &ProofTerm, wanted: Option<&Prop>| match agrees(scope, term, wanted) {
        Ok(true) => derived += 1,
        Ok(false) => others += 1,
        Err(finding) => {
            findings += 1;
            println!("FINDING: {scope:?} |- {} : {wanted:?}: {finding}", term_text(term, strict));
        }
    };
    let (scopes, props) = (small_scopes(), small_props());
    for size in 1..=nodes {
        every_small(size, &mut |term| {
            for scope in &scopes {
                [None].into_iter().chain(props.iter().map(Some)).for_each(|wanted| ask(scope, &term, wanted));
            }
        });
    }
    for index in 0..count {
        let mut rng = Rng::new(seed, index);
        let (budget, changes) = (rng.range(1, 24), rng.below(4));
        let Judgement { hypotheses, term, prop } = judgement(rng, budget, changes);
        ask(&hypotheses, &term, Some(&prop));
    }
    println!("{derived:9} derived\n{others:9} not derived\n{findings:9} findings");
    (findings > 0) as i32 * 3
}

/// Reads texts of every kind, and counts those of each that are read and refused.
fn read_texts(seed: u64, count: usize, nodes: usize) -> i32 {
    let mut outcomes = BTreeMap::<TextKind, [usize; 2]>::new();
    let found = texts(seed, count, nodes, &mut |kind, text| {
        holds(&text.list, &text.text).map(|read| outcomes.entry(kind).or_default()[read as usize] += 1)
    });
    for (kind, [refused, read]) in &outcomes {
        println!("{read:9} read {refused:9} refused {kind:?}");
    }
    match found {
        Ok(()) => 0,
        Err(finding) => {
            println!("FINDING: {finding}");
            3
        }
    }
}

/// Texts and judgements with their answers, a line each, as `tests/terms` reads them.
fn print_questions(seed: u64, count: usize) -> i32 {
    let mut out = std::io::BufWriter::new(std::io::stdout());
    let hex = |bytes: &[u8]| bytes.iter().map(|byte| format!("{byte:02x}")).collect::<String>();
    let printed = texts(seed, count, 3, &mut |_, Text { list, text }| {
        let answer = reading::read(&list, &text).map_or("refused 20 at 0".into(), |t| format!("{} nodes", nodes(&t)));
        writeln!(out, "text,{},{},{answer}", hex(&list), hex(&text))
    });
    let printed = printed.and_then(|()| {
        asked(seed, count / 4, &mut |question| {
            let Asked { sheet, read, hypotheses, prop } = &question;
            let answer = match judge(sheet, question.judged(), hypotheses, *prop) {
                Ok(Verdict::Yes) => "yes".into(),
                Ok(Verdict::No(node)) => format!("no at {node}"),
                Err(refusal) => refusal.to_string(),
            };
            let (list, text) = read.as_ref().map_or(("own".into(), String::new()), |t| (hex(&t.list), hex(&t.text)));
            let numbers: Vec<String> = hypotheses.iter().map(u16::to_string).collect();
            writeln!(out, "judge,{},{list},{text},{prop},{},{answer}", hex(sheet), numbers.join(" "))
        })
    });
    printed.and_then(|()| out.flush()).is_err() as i32
}

/// Of each sheet in a folder, by name, whether it is sound.
fn print_sound(dir: &str) -> i32 {
    let mut files: Vec<_> =
        fs::read_dir(dir).unwrap().map(|entry| entry.unwrap().file_name().into_string().unwrap()).collect();
    files.retain(|file| file.ends_with(".sheet"));
    files.sort();
    for file in files {
        let verdict = decode(&read(&format!("{dir}/{file}"))).is_ok_and(|sheet| sound::sound(&sheet).is_ok());
        println!("{file} {}", if verdict { "sound" } else { "unsound" });
    }
    0
}

fn write_list(seed: u64, terms: Terms, file: &str) -> i32 {
    match list(seed, terms) {
        Ok(list) => {
            let List { sheets, names, indexed, restated, grafted, texts, judged, questions, bytes } = list;
            println!("{sheets} sheets, {names} lists of names, {indexed} sheets with an index, {restated} with restatements, {grafted} pairs for grafts, {texts} texts, {judged} sheets with judgements, {questions} questions, {} bytes", bytes.len());
            fs::write(file, bytes).unwrap();
            0
        }
        Err(finding) => {
            eprintln!("FINDING: {finding}");
            3
        }
    }
}

fn write_contexts(seed: u64, file: &str) -> i32 {
    let list = context::list(seed);
    println!("{} contexts, {} questions, {} bytes", list.contexts, list.questions, list.bytes.len());
    fs::write(file, list.bytes).unwrap();
    0
}

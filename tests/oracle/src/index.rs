//! The index of names by document 02, ticket 14, and the plain search beside it.
use crate::{
    draw::{plain, step},
    formula::Formula,
    rng::Rng,
    sheet::{decode, laid_out, rule, Layout, Refusal, NAMES, NAME_BYTES},
};

pub const SLOTS: usize = 1024;
pub const FREE: u16 = 65535;

pub type Slots = [u16; SLOTS];

/// The remainder by 1,024 of a running number, begun at 0, that for each byte becomes 31 times itself plus the byte and
/// wraps at 2 to the 32nd.
pub fn start(name: &[u8]) -> usize {
    let running = name.iter().fold(0u64, |running, byte| (31 * running + u64::from(*byte)) & 0xffff_ffff);
    (running % 1024) as usize
}

/// The slots from the start slot on, round the end.
fn way(name: &[u8]) -> impl Iterator<Item = usize> {
    let start = start(name);
    (start..SLOTS).chain(0..start)
}

/// Names enter from number 0 up, repeats of earlier bytes not at all; taken slots are stepped over.
pub fn index(names: &[Vec<u8>]) -> Slots {
    let mut slots = [FREE; SLOTS];
    for (number, name) in names.iter().enumerate() {
        if !names[..number].contains(name) {
            let at = way(name).find(|at| slots[*at] == FREE).expect("there are fewer names than slots");
            slots[at] = number as u16;
        }
    }
    slots
}

/// The bytes that each pair marks in the text, as far as it goes.
fn marked(layout: &Layout) -> Vec<Vec<u8>> {
    let text = |offset: u16, length: u16| layout.text.iter().skip(offset.into()).take(length.into()).copied().collect();
    layout.names.iter().map(|(offset, length)| text(*offset, *length)).collect()
}

/// The index of a sheet's names, or one of refusals 1 to 11.
pub fn name_index(sheet: &[u8]) -> Result<Slots, Refusal> {
    let names = decode(sheet)?.names;
    Ok(index(&names.into_iter().map(String::into_bytes).collect::<Vec<_>>()))
}

/// What slots beside a sheet answer of a name, or refusal 1, 2 or 3. The number of no name has no bytes.
pub fn find_name(sheet: &[u8], slots: &Slots, name: &[u8]) -> Result<Option<u16>, Refusal> {
    let names = marked(&laid_out(sheet)?);
    let bytes = |number: u16| names.get(usize::from(number)).map_or(&[][..], Vec::as_slice);
    let taken = way(name).map(|at| slots[at]).take_while(|number| *number != FREE);
    Ok(taken.into_iter().find(|number| bytes(*number) == name))
}

/// The lowest number with equal bytes, or none: the plain search.
pub fn plain_search(sheet: &[u8], name: &[u8]) -> Result<Option<u16>, Refusal> {
    let names = marked(&laid_out(sheet)?);
    Ok(names.iter().position(|other| other == name).map(|number| number as u16))
}

/// The index of the names as their pairs mark them, whether or not the sheet is one; without a header no slot is taken.
pub fn own_slots(sheet: &[u8]) -> Slots {
    laid_out(sheet).map_or([FREE; SLOTS], |layout| index(&marked(&layout)))
}

/// Slots and names to be asked of a sheet: those of its own index, among them each of its names or some, their parts and
/// extensions, names that start where it has one and no name at all; and slots of other kinds.
pub fn searches(sheet: &[u8], most: usize, rng: &mut Rng) -> Vec<(Slots, Vec<u8>)> {
    let mut names = laid_out(sheet).map_or(vec![], |layout| marked(&layout));
    let count = names.len();
    rng.shuffle(&mut names);
    names.truncate(most);
    let other = |name: &Vec<u8>| [&name[..name.len().saturating_sub(1)], &[name.last().map_or(0, |b| b ^ 1)]].concat();
    let mut asked: Vec<Vec<u8>> = names.iter().take(3).map(other).collect();
    asked.extend(names.iter().take(2).map(|name| [name, &b"a"[..]].concat()));
    asked.extend(names.iter().take(2).map(|name| name[..name.len().saturating_sub(1)].to_vec()));
    asked.extend([&b""[..], b"Aa", b"BB", b"fib", b"no_such_name", &[0, 255], &[b'z'; 100]].map(<[u8]>::to_vec));
    asked.extend(names);
    let own = own_slots(sheet);
    let mut others = [own; 6];
    others[0].reverse();
    others[1].rotate_right(1);
    others[2] = [0; SLOTS];
    others[3] = [FREE - 1; SLOTS];
    others[4].iter_mut().for_each(|slot| *slot = rng.below(count + 3) as u16);
    others[5].iter_mut().for_each(|slot| *slot = if rng.chance(50) { rng.draw() as u16 } else { *slot });
    let mut all: Vec<(Slots, Vec<u8>)> = asked.iter().map(|name| (own, name.clone())).collect();
    all.extend(others.map(|slots| (slots, rng.pick(&asked).clone())));
    all.extend([others[2], others[3]].map(|slots| (slots, vec![])));
    all
}

fn numbered(count: usize, name: impl Fn(usize) -> String) -> Vec<Vec<u8>> {
    (0..count).map(|number| name(number).into_bytes()).collect()
}

/// So many different names that start at one slot: `Aa` and `BB` add up alike.
pub fn colliding(count: usize) -> Vec<Vec<u8>> {
    let bits = usize::BITS - (count - 1).leading_zeros();
    numbered(count, |number| (0..bits).map(|bit| if number >> bit & 1 == 0 { "Aa" } else { "BB" }).collect())
}

/// Sheets of a true proposition below lists of names, each with a word on it.
pub fn sheets() -> Vec<(&'static str, Vec<u8>)> {
    let words = |list: &str| list.split(' ').map(|name| name.as_bytes().to_vec()).collect::<Vec<_>>();
    let ending = |count| {
        let all = (0..).map(|number: usize| format!("e{number}").into_bytes());
        all.filter(|name| start(name) >= 1020).take(count).collect::<Vec<_>>()
    };
    let twice = |names: Vec<Vec<u8>>| [names.clone(), names].concat();
    let lists = [
        ("no name", vec![]),
        ("one name", words("A")),
        ("the longest name", vec![vec![b'n'; NAME_BYTES]]),
        ("two that start alike", words("Aa BB")),
        ("round the end", words("fib fHa aA Aa BB A Aa")),
        ("repeats", words("A A B A C B C A")),
        ("all equal", vec![b"x".to_vec(); 40]),
        ("many that start alike", colliding(64)),
        ("many that start alike, twice", twice(colliding(16))),
        ("many that start at the last slots", ending(50)),
        ("as many as there can be", numbered(NAMES, |number| format!("n{number}"))),
        ("as many as there can be, each twice", twice(numbered(NAMES / 2, |number| format!("m{number}")))),
        ("as many as there can be at the last slots", ending(NAMES)),
        ("as many as there can be, all equal", vec![b"y".to_vec(); NAMES]),
        ("as many as there can be that start alike", colliding(256).into_iter().chain(ending(256)).collect()),
    ];
    let sheet = |names| {
        let mut sheet = plain(&[], &[Formula::True], &[step(rule::TRUE_INTRO, 0, &[], 0)]);
        sheet.names = names;
        sheet.bytes()
    };
    let mut all = lists.map(|(what, names)| (what, sheet(names))).to_vec();
    let mut damaged = |what, change: fn(&mut Layout)| {
        let mut layout = Layout::read(&sheet(words("A B A longer"))).expect("the sheet is whole");
        change(&mut layout);
        all.push((what, layout.bytes()));
    };
    damaged("a pair past the text", |layout| layout.names[1] = (65535, 65535));
    damaged("a pair that ends past the text", |layout| layout.names[3].1 = 300);
    damaged("a pair at the text's end", |layout| layout.names[3] = (layout.text.len() as u16, 1));
    damaged("an empty name", |layout| layout.names[2].1 = 0);
    damaged("pairs that overlap", |layout| layout.names[2] = (0, 3));
    damaged("a name that begins with a digit", |layout| layout.text[0] = b'2');
    damaged("a code that is none", |layout| layout.code[0] = 9);
    damaged("a column out of range", |layout| layout.steps[0].column = 4096);
    damaged("a premiss that is missing", |layout| layout.steps[0].count = 1);
    damaged("a header out of range", |layout| layout.header[1] = 513);
    damaged("a text longer than there is", |layout| layout.header[0] += 1);
    all.push(("no header", vec![0; 11]));
    all.push(("no bytes", vec![]));
    all
}

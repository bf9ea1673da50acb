//! The index of names on names by hand, and that it agrees with the plain search on every sheet.
use oracle::{
    generate::{Kind, Sheets},
    index::{find_name, index, name_index, own_slots, plain_search, searches, sheets, start, FREE, SLOTS},
    rng::Rng,
    sheet::Refusal,
};

fn names(list: &str) -> Vec<Vec<u8>> {
    list.split(' ').map(|name| name.as_bytes().to_vec()).collect()
}

fn taken(list: &str) -> Vec<(usize, u16)> {
    (0..).zip(index(&names(list))).filter(|(_, number)| *number != FREE).collect()
}

#[test]
fn names_start_where_their_running_number_says() {
    assert_eq!((start(b""), start(b"A"), start(b"Aa"), start(b"BB"), start(b"fib")), (0, 65, 64, 64, 1023));
    // 31 to the seventh is past 2 to the 32nd; 1,024 divides that, so the start slot is the same without the wrap
    let long = b"A23456789012345678901234567890ab";
    assert_eq!(start(long), 98);
}

#[test]
fn taken_slots_are_stepped_over_round_the_end() {
    assert_eq!(taken("fib fHa aA Aa BB A Aa"), [(0, 1), (1, 2), (64, 3), (65, 4), (66, 5), (1023, 0)]);
    assert_eq!(taken("A A A"), [(65, 0)]);
    assert_eq!(taken("BB Aa"), [(64, 0), (65, 1)]);
}

#[test]
fn other_slots_answer_what_they_hold() {
    let sheet = &sheets().into_iter().find(|(what, _)| *what == "repeats").unwrap().1;
    assert_eq!(find_name(sheet, &[7; SLOTS], b"A"), Ok(Some(7)));
    assert_eq!(find_name(sheet, &[7; SLOTS], b"B"), Ok(None));
    assert_eq!(find_name(sheet, &[9; SLOTS], b""), Ok(Some(9)));
    assert_eq!(find_name(sheet, &[FREE; SLOTS], b"A"), Ok(None));
    assert_eq!(find_name(&sheet[1..], &[7; SLOTS], b"A"), Err(Refusal { number: 2, place: 0, column: 0 }));
}

#[test]
fn the_index_agrees_with_the_plain_search() {
    let kinds = [Kind::Sound, Kind::Random, Kind::Quantified, Kind::Damaged, Kind::Limits];
    let generated = kinds.into_iter().flat_map(|kind| {
        let all: Vec<Vec<u8>> = Sheets::new(kind, 3, 300).iter().map(|(_, sheet)| sheet).collect();
        all
    });
    let mut rng = Rng::new(3, 0);
    let mut found = 0;
    for sheet in generated.chain(sheets().into_iter().map(|(_, sheet)| sheet)) {
        let own = own_slots(&sheet);
        assert!(name_index(&sheet).is_ok_and(|slots| slots == own) || name_index(&sheet).is_err());
        for (_, name) in searches(&sheet, usize::MAX, &mut rng) {
            let number = plain_search(&sheet, &name);
            assert_eq!(find_name(&sheet, &own, &name), number);
            found += number.is_ok_and(|number| number.is_some()) as usize;
        }
    }
    assert!(found > 10_000, "{found}");
}

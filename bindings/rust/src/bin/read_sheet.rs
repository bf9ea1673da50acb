//! Reads a sheet from a file and prints the handout of a version, 1 if none is given, with the label count and the lists, or the
//! refusal. How long the text and each list are is asked for first.
use skriduhol::{
    atom_list, atom_list_length, handout, handout_datatypes, handout_datatypes_length,
    handout_length, label_count, Refusal, Style,
};
use std::process::ExitCode;

fn main() -> ExitCode {
    let mut words = std::env::args().skip(1);
    let (Some(path), version, None) = (words.next(), words.next(), words.next()) else {
        return usage();
    };
    let Ok(version) = version.map_or(Ok(1), |word| word.parse()) else {
        return usage();
    };
    let sheet = match std::fs::read(&path) {
        Ok(sheet) => sheet,
        Err(error) => {
            eprintln!("{path}: {error}");
            return ExitCode::from(2);
        }
    };
    match print_sheet(&sheet, version) {
        Ok(()) => ExitCode::SUCCESS,
        Err(refusal) => {
            println!("{refusal}");
            ExitCode::FAILURE
        }
    }
}

fn usage() -> ExitCode {
    eprintln!("usage: read_sheet FILE [VERSION]");
    ExitCode::from(2)
}

fn print_sheet(sheet: &[u8], version: usize) -> Result<(), Refusal> {
    let mut text = vec![0; handout_length(sheet, version, Style::Plain)?];
    handout(sheet, version, Style::Plain, &mut text)?;
    println!("{}", String::from_utf8_lossy(&text));
    println!("labels: {}", label_count(sheet)?);
    let mut atoms = vec![0; atom_list_length(sheet)?];
    atom_list(sheet, &mut atoms)?;
    print_list("atoms", &atoms);
    let mut datatypes = vec![0; handout_datatypes_length(sheet, version)?];
    handout_datatypes(sheet, version, &mut datatypes)?;
    print_list("datatypes", &datatypes);
    Ok(())
}

/// The numbers of a list on one line.
fn print_list(word: &str, list: &[u16]) {
    let numbers: String = list.iter().map(|number| format!(" {number}")).collect();
    println!("{word}:{numbers}");
}

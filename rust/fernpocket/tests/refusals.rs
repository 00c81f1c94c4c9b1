//! Refusals: their numbers and places, what each prints, and one vocabulary in Rattle, C and Rust.

use fernpocket::{check, Refusal};
use std::error::Error;
use std::fs;
use std::path::Path;

fn all() -> impl Iterator<Item = Refusal> {
    (1..=16).map(|number| Refusal::from_numbers(number, 0, None).unwrap())
}

/// A file of the repository.
fn source(name: &str) -> String {
    let file = Path::new(env!("CARGO_MANIFEST_DIR")).join("../..").join(name);
    fs::read_to_string(&file).unwrap_or_else(|error| panic!("{}: {error}", file.display()))
}

/// A name as it stands in the Rattle enum and here, and whether it has a place.
fn name(refusal: Refusal) -> (String, bool) {
    match format!("{refusal:?}").split_once(['(', ' ']) {
        Some((name, _)) => (name.to_owned(), true),
        None => (format!("{refusal:?}"), false),
    }
}

#[test]
fn numbers_and_places() {
    for (index, refusal) in all().enumerate() {
        assert_eq!(refusal.number() as usize, index + 1);
        let with_place = Refusal::from_numbers(index as i64 + 1, 7, Some(2)).unwrap();
        assert_eq!(with_place.number(), refusal.number());
        assert_eq!(with_place.place(), if name(refusal).1 { 7 } else { 0 });
    }
    for number in [i64::MIN, -1, 0, 17, i64::MAX] {
        assert_eq!(Refusal::from_numbers(number, 0, None), None);
    }
}

#[test]
fn as_an_error() {
    let error: Box<dyn Error> = Box::new(check(&[]).unwrap_err());
    assert_eq!(error.to_string(), "refused 1 at 0: the header or the sheet's length is wrong");
}

#[test]
fn which_entity_blocked() {
    let words = |wanted| Refusal::from_numbers(11, 3, wanted).unwrap().to_string();
    assert_eq!(words(Some(1)), "refused 11 at 3: entity 3 is in no state that outcome 1 starts from");
    assert_eq!(
        words(None),
        "refused 11 at 3: no outcome applies, and entity 3 is in no state that outcome 0 starts from"
    );
}

#[test]
fn the_names_are_those_of_rattle() {
    let source = source("crates/answer/src/lib.rt");
    let (_, cases) = source.split_once("pub enum Refusal {").unwrap();
    let cases = cases.split_once('}').unwrap().0.split(',').map(str::trim).filter(|case| !case.is_empty());
    let found: Vec<(String, bool)> = cases
        .map(|case| match case.split_once('(') {
            Some((name, place)) => {
                assert_eq!(place, "usize)");
                (name.to_owned(), true)
            }
            None => (case.to_owned(), false),
        })
        .collect();
    assert_eq!(found, all().map(name).collect::<Vec<_>>());
}

/// FactValue is FERNPOCKET_REFUSED_FACT_VALUE in C.
fn constant(refusal: Refusal) -> String {
    let mut constant = "FERNPOCKET_REFUSED".to_owned();
    for letter in name(refusal).0.chars() {
        if letter.is_ascii_uppercase() {
            constant.push('_');
        }
        constant.push(letter.to_ascii_uppercase());
    }
    constant
}

/// The lines of a file that start so, without the white space before them.
fn lines(file: &str, start: &str) -> Vec<String> {
    source(file).lines().map(str::trim).filter(|line| line.starts_with(start)).map(str::to_owned).collect()
}

#[test]
fn the_names_are_those_of_the_c_header() {
    let found = lines("include/fernpocket.h", "FERNPOCKET_REFUSED_");
    let found: Vec<&str> = found.iter().map(|line| line.split([',', '/']).next().unwrap().trim_end()).collect();
    let expected = all().map(|refusal| format!("{} = {}", constant(refusal), refusal.number()));
    assert_eq!(found, expected.collect::<Vec<_>>());
}

#[test]
fn the_c_example_says_the_same_words() {
    let expected = all().map(|refusal| format!("[{}] = \"{}\",", constant(refusal), refusal.words()));
    assert_eq!(lines("examples/c/desk.c", "[FERNPOCKET_REFUSED_"), expected.collect::<Vec<_>>());
}

#[test]
fn the_readme_has_every_refusal() {
    let readme = source("README.md");
    let table = readme.split_once("| No. | Name |").expect("a table of refusals").1;
    let rows = table.lines().skip(2).take_while(|row| row.starts_with('|'));
    let found: Vec<String> = rows.map(|row| row.split('|').take(3).collect::<Vec<_>>().join("|")).collect();
    let expected = all().map(|refusal| format!("| {} | `{}` ", refusal.number(), name(refusal).0));
    assert_eq!(found, expected.collect::<Vec<_>>());
}

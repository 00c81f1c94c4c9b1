//! The contracts of examples/documents.md and docs/FORMAT.md through the crate: "exists" and "for all" over lists.

use fernpocket::{assemble, check, operate, read_text, run, verdicts, Path, Refusal, States, Terminal};
use std::fs;

// The names of examples/documents.md.
const CLERK: usize = 0;
const GRANT: usize = 0;
const RETURN_FILE: usize = 1;
const REVIEW: usize = 0;
const DOCUMENTS: usize = 0;
const LARGEST: usize = 20;
/// What a document may be.
const PENDING: i64 = 0;
const ACCEPTED: i64 = 1;
const REFUSED: i64 = 2;
/// The states of the application.
const OPEN: i64 = 0;
const GRANTED: i64 = 1;
const RETURNED: i64 = 2;

fn sheet() -> Vec<i64> {
    let text = include_bytes!("../../../examples/documents.txt");
    let mut words = vec![0; text.len() / 2];
    let count = read_text(text, &mut words).unwrap();
    words.truncate(count);
    assert_eq!(check(&words), Ok(()));
    words
}

/// The slots of the list, of which those past the documents hold a number that is no document.
fn slots(documents: &[i64]) -> [i64; LARGEST] {
    let mut slots = [-1; LARGEST];
    slots[..documents.len()].copy_from_slice(documents);
    slots
}

#[test]
fn the_clerk_looks_at_every_document() {
    let sheet = sheet();
    for (documents, verdict, granted, returned) in [
        // some_refused, all_accepted, enough, complete
        (&[ACCEPTED, ACCEPTED][..], [0, 1, 1, 1], true, false),
        (&[ACCEPTED, PENDING], [0, 0, 1, 0], false, false),
        (&[ACCEPTED, PENDING, REFUSED], [1, 0, 1, 0], false, true),
        (&[REFUSED, ACCEPTED, ACCEPTED], [1, 0, 1, 0], false, true),
        (&[ACCEPTED], [0, 1, 0, 0], false, false),
        (&[], [0, 1, 0, 0], false, false),
    ] {
        // Two documents are required, by default.
        let (values, given, lists, lengths) = ([0, 0], [1, 0], slots(documents), [documents.len() as i64]);
        let mut out = [9; 4];
        assert_eq!(verdicts(&sheet, &values, &given, &lists, &lengths, &mut out), Ok(()));
        assert_eq!(out, verdict, "{documents:?}");
        for (operation, applies, after) in [(GRANT, granted, GRANTED), (RETURN_FILE, returned, RETURNED)] {
            let mut states = States::one_each(&[OPEN]);
            let answer = operate(&sheet, &values, &given, &lists, &lengths, &mut states, &[0], CLERK, operation, None);
            let expected = if applies { (Ok(0), vec![after]) } else { (Err(Refusal::Precondition), vec![OPEN]) };
            assert_eq!((answer, states.each().unwrap()), expected, "{documents:?}");
        }
        let (mut states, mut path) = (States::one_each(&[OPEN]), [0; 3]);
        let end = run(&sheet, &values, &given, &lists, &lengths, &mut states, &[0], REVIEW, &[None; 3], &mut path);
        let terminal = match (granted, returned) {
            (true, _) => Terminal::Success,
            (_, true) => Terminal::Failure,
            _ => Terminal::Escalation,
        };
        assert_eq!(end, Ok(Path { terminal, length: 2 }), "{documents:?}");
    }
}

#[test]
fn a_list_is_given_rightly_or_refused() {
    let sheet = sheet();
    let assembled = |given: i64, lists: &[i64], lengths: &[i64]| {
        let mut values = [77, 0];
        let answer = assemble(&sheet, &mut values, &[given, 0], lists, lengths);
        // The default of fact 1 is put in; the list's own word stays.
        assert_eq!(values, if answer.is_ok() { [77, 2] } else { [77, 0] });
        answer
    };
    let lists = slots(&[ACCEPTED; 3]);
    assert_eq!(assembled(1, &lists, &[3]), Ok(()));
    assert_eq!(assembled(1, &lists, &[0]), Ok(()));
    // The fourth slot holds no document; there are no more slots than 20.
    for length in [4, 21, -1, i64::MAX] {
        assert_eq!(assembled(1, &lists, &[length]), Err(Refusal::FactValue(DOCUMENTS)));
    }
    assert_eq!(assembled(2, &lists, &[3]), Err(Refusal::FactValue(DOCUMENTS)));
    // Not given: that is no empty list, and the length is not looked at.
    for length in [0, 3, -1] {
        assert_eq!(assembled(0, &lists, &[length]), Err(Refusal::FactAbsent(DOCUMENTS)));
    }
    assert_eq!(assembled(1, &lists[1..], &[3]), Err(Refusal::Length));
    assert_eq!(assembled(1, &[], &[0]), Err(Refusal::Length));
    assert_eq!(assembled(1, &lists, &[]), Err(Refusal::Length));
    assert_eq!(assembled(1, &lists, &[3, 0]), Err(Refusal::Length));
}

/// The example of docs/FORMAT.md, record by record, and what the page says comes out.
#[test]
fn the_page_on_lists() {
    let page = fs::read_to_string(concat!(env!("CARGO_MANIFEST_DIR"), "/../../docs/FORMAT.md")).unwrap();
    let section = page.split_once("\n## Lists\n").unwrap().1.split_once("\n## ").unwrap().0;
    let rows: Vec<Vec<&str>> = section
        .lines()
        .filter(|line| line.starts_with('|'))
        .map(|row| row.split('|').skip(1).map(|cell| cell.trim().trim_matches('`')).collect())
        .collect();
    let numbers = |cell: &str| -> Vec<i64> {
        cell.split_whitespace().map(|word| if word == "x" { i64::MIN } else { word.parse().unwrap() }).collect()
    };
    let mut sheet = vec![1, 0, 3, 6, 2, 0, 0, 0, 0, 0, 0, 0, 0, 0, 0, 0];
    let records = rows.iter().filter(|row| ["fact ", "node ", "rule "].iter().any(|start| row[0].starts_with(start)));
    records.for_each(|row| sheet.extend(numbers(row[1])));
    assert_eq!(check(&sheet), Ok(()));

    let calls = rows.iter().skip_while(|row| row[0] != "Lists").skip(2);
    let mut called = 0;
    for row in calls {
        let mut out = [9; 2];
        let said = match verdicts(&sheet, &[9; 3], &[1, 0, 1], &numbers(row[0]), &numbers(row[1]), &mut out) {
            Ok(()) => format!("{}, {}", out[0], out[1]),
            Err(refusal) => format!("refused {} at {}", refusal.number(), refusal.place()),
        };
        assert_eq!(said, row[2], "{row:?}");
        called += 1;
    }
    assert_eq!(called, 6);
}

//! The contract of examples/parcels.md and the page on instances through the crate: an order of many parcels.

use fernpocket::{check, operate, read_text, run, Path, Refusal, States, Terminal, Twice};
use std::fs;

// The names of examples/parcels.md.
const CLERK: usize = 0;
const CARRIER: usize = 1;
const ORDER: usize = 0;
const PARCEL: usize = 1;
const SHIP: usize = 0;
const REPORT: usize = 1;
const CLOSE: usize = 2;
const REPLACE: usize = 3;
/// What a report may say.
const DELIVERED: usize = 0;
const LOST: usize = 1;
const SEND: usize = 0;
/// The states of an order.
const OPEN: i64 = 0;
const DISPUTED: i64 = 1;
/// The states of a parcel.
const PACKED: i64 = 0;
const SHIPPED: i64 = 1;
const IS_DELIVERED: i64 = 2;
const IS_LOST: i64 = 3;

fn sheet() -> Vec<i64> {
    let text = include_bytes!("../../../examples/parcels.txt");
    let mut words = vec![0; text.len() / 2];
    let count = read_text(text, &mut words).unwrap();
    words.truncate(count);
    assert_eq!(check(&words), Ok(()));
    words
}

#[test]
fn each_parcel_goes_its_way() {
    let sheet = sheet();
    let perform = |states: &mut States, parcel: i64, persona, operation, wanted| {
        operate(&sheet, &[1], &[1], &[], &[], states, &[7, parcel], persona, operation, wanted)
    };
    let mut states = States::new([(PARCEL, 12, PACKED), (PARCEL, 11, PACKED), (ORDER, 7, OPEN)]).unwrap();
    assert_eq!(perform(&mut states, 12, CLERK, SHIP, None), Ok(0));
    assert_eq!(states.of(PARCEL).collect::<Vec<_>>(), [(11, PACKED), (12, SHIPPED)]);
    // Parcel 11 is not shipped yet, and 12 is.
    let blocked = |wanted| Err(Refusal::NoOutcome { entity: PARCEL, wanted });
    assert_eq!(perform(&mut states, 11, CARRIER, REPORT, Some(DELIVERED)), blocked(Some(DELIVERED)));
    assert_eq!(perform(&mut states, 12, CLERK, SHIP, None), blocked(None));
    // A lost parcel makes the order disputed, until it is replaced.
    assert_eq!(perform(&mut states, 12, CARRIER, REPORT, Some(LOST)), Ok(LOST));
    assert_eq!((states.get(ORDER, 7), states.get(PARCEL, 12)), (Some(DISPUTED), Some(IS_LOST)));
    let disputed = Err(Refusal::NoOutcome { entity: ORDER, wanted: None });
    assert_eq!(perform(&mut states, 11, CLERK, CLOSE, None), disputed);
    assert_eq!(perform(&mut states, 12, CLERK, REPLACE, None), Ok(0));
    assert_eq!((states.get(ORDER, 7), states.get(PARCEL, 12)), (Some(OPEN), Some(PACKED)));
    // A third parcel is packed later; there is no fourth.
    assert_eq!(perform(&mut states, 10, CLERK, SHIP, None), Err(Refusal::Missing));
    assert_eq!(states.insert(PARCEL, 10, PACKED), None);
    assert_eq!(perform(&mut states, 10, CLERK, SHIP, None), Ok(0));
    assert_eq!(states.words(), [0, 7, OPEN, 1, 10, SHIPPED, 1, 11, PACKED, 1, 12, PACKED]);
    // To close the order no parcel is read.
    assert_eq!(perform(&mut states, 99, CLERK, CLOSE, None), Ok(0));
}

#[test]
fn a_run_is_about_one_parcel() {
    let sheet = sheet();
    let send = |parcel: i64, order: i64, wanted: usize| {
        let mut states = States::new([(ORDER, 7, OPEN), (PARCEL, 11, PACKED), (PARCEL, 12, PACKED)]).unwrap();
        let mut path = [9; 2];
        let wanted = [None, Some(wanted)];
        let end = run(&sheet, &[1], &[1], &[], &[], &mut states, &[order, parcel], SEND, &wanted, &mut path);
        (end, [states.get(ORDER, 7), states.get(PARCEL, 11), states.get(PARCEL, 12)].map(Option::unwrap))
    };
    let ends = |terminal| Ok(Path { terminal, length: 2 });
    assert_eq!(send(11, 7, DELIVERED), (ends(Terminal::Success), [OPEN, IS_DELIVERED, PACKED]));
    assert_eq!(send(12, 7, DELIVERED), (ends(Terminal::Success), [OPEN, PACKED, IS_DELIVERED]));
    assert_eq!(send(12, 7, LOST), (ends(Terminal::Escalation), [DISPUTED, PACKED, IS_LOST]));
    // The order is read whichever outcome is wanted.
    assert_eq!(send(12, 8, DELIVERED), (Err(Refusal::Missing), [OPEN, PACKED, PACKED]));
    assert_eq!(send(13, 7, DELIVERED), (Err(Refusal::Missing), [OPEN, PACKED, PACKED]));
}

#[test]
fn records_are_good_or_refused() {
    let sheet = sheet();
    let ship = |mut states: States, instances: &[i64]| {
        let before = states.clone();
        let answer = operate(&sheet, &[1], &[1], &[], &[], &mut states, instances, CLERK, SHIP, None);
        assert!(answer.is_ok() || states == before);
        answer
    };
    let words = |words: &[i64]| States::from_words(words.to_vec());
    assert_eq!(ship(words(&[0, 7, 0, 1, 11, 0]), &[7, 11]), Ok(0));
    assert_eq!(ship(words(&[1, 11, 0]), &[7, 11]), Ok(0));
    // Unsorted, twice, an entity and a state that do not exist.
    for (record, states) in [
        (1, [1, 11, 0, 0, 7, 0]),
        (1, [1, 12, 0, 1, 11, 0]),
        (1, [1, 11, 0, 1, 11, 0]),
        (1, [1, 11, 0, 2, 0, 0]),
        (0, [-1, 11, 0, 1, 11, 0]),
        (0, [0, 7, 3, 1, 11, 0]),
        (1, [0, 7, 0, 1, 11, -1]),
    ] {
        assert_eq!(ship(words(&states), &[7, 11]), Err(Refusal::State(record)), "{states:?}");
    }
    // Half a record, too many records, too many or too few instance numbers.
    assert_eq!(ship(words(&[1, 11, 0, 1]), &[7, 11]), Err(Refusal::Length));
    assert_eq!(ship(words(&[1, 11, 0]), &[7]), Err(Refusal::Length));
    assert_eq!(ship(words(&[1, 11, 0]), &[7, 11, 0]), Err(Refusal::Length));
    let many = |count: i64| States::new((0..count).map(|number| (PARCEL, number, PACKED))).unwrap();
    assert_eq!(ship(many(256), &[7, 255]), Ok(0));
    assert_eq!(many(256).len(), States::MOST);
    assert_eq!(ship(many(257), &[7, 255]), Err(Refusal::Length));
    assert_eq!(ship(States::default(), &[7, 11]), Err(Refusal::Missing));
}

#[test]
fn states_as_a_table() {
    let records = [(1, 5, 2), (0, i64::MAX, 1), (1, -5, 0), (0, i64::MIN, 3)];
    let mut states = States::new(records).unwrap();
    let sorted = [[0, i64::MIN, 3], [0, i64::MAX, 1], [1, -5, 0], [1, 5, 2]];
    assert_eq!(states.iter().collect::<Vec<_>>(), sorted);
    assert_eq!((states.len(), states.is_empty(), states.each()), (4, false, None));
    assert_eq!(states.of(1).collect::<Vec<_>>(), [(-5, 0), (5, 2)]);
    assert_eq!(states.of(2).count(), 0);
    for [entity, instance, state] in sorted {
        assert_eq!(states.get(entity as usize, instance), Some(state));
    }
    assert_eq!((states.get(1, 0), states.get(2, 5), states.get(usize::MAX, 5)), (None, None, None));
    // Put in at every place, taken out, and put in another state.
    for (entity, instance) in [(0, i64::MIN + 1), (0, 0), (1, i64::MIN), (1, 0), (1, 6), (2, 0)] {
        let before = states.clone();
        assert_eq!(states.insert(entity, instance, 7), None);
        assert_eq!(states.get(entity, instance), Some(7));
        let again = States::new(states.iter().map(|[entity, instance, state]| (entity as usize, instance, state)));
        assert_eq!(again, Ok(states.clone()));
        assert_eq!(states.insert(entity, instance, 8), Some(7));
        assert_eq!(states.remove(entity, instance), Some(8));
        assert_eq!(states.remove(entity, instance), None);
        assert_eq!(states, before);
    }
    assert_eq!(states.insert(1, -5, 1), Some(0));
    assert_eq!(states.words()[6..9], [1, -5, 1]);
    // Which one is there twice.
    let twice = States::new([(3, 1, 0), (2, 9, 0), (3, 1, 4)]);
    assert_eq!(twice, Err(Twice { entity: 3, instance: 1 }));
    assert_eq!(twice.unwrap_err().to_string(), "instance 1 of entity 3 is there twice");
    // One of each, and back.
    for plain in [&[][..], &[4], &[0, 3, 1]] {
        let states = States::one_each(plain);
        assert_eq!(states.each(), Some(plain.to_vec()));
        assert_eq!(States::from_words(states.words().to_vec()), states);
    }
    for other in [&[0, 1, 0][..], &[1, 0, 0], &[0, 0, 0, 0, 1, 0], &[0, 0]] {
        assert_eq!(States::from_words(other.to_vec()).each(), None, "{other:?}");
    }
    assert_eq!(States::default(), States::one_each(&[]));
}

/// The table of docs/FORMAT.md: what the page says comes out of operations on the sheet of the example.
#[test]
fn the_page_on_instances() {
    let sheet = sheet();
    let page = fs::read_to_string(concat!(env!("CARGO_MANIFEST_DIR"), "/../../docs/FORMAT.md")).unwrap();
    let section = page.split_once("\n## Instances\n").unwrap().1.split_once("\n## ").unwrap().0;
    let rows = section.lines().filter(|line| line.starts_with('|'));
    let rows = rows.map(|row| row.split('|').skip(1).map(|cell| cell.trim().trim_matches('`')).collect::<Vec<_>>());
    let numbers = |cell: &str| -> Vec<i64> { cell.split_whitespace().map(|word| word.parse().unwrap()).collect() };
    let mut called = 0;
    for row in rows.skip_while(|row| row[0] != "Operation").skip(2) {
        let (operation, wanted) = row[0].split_once(", ").unwrap();
        let wanted = wanted.strip_prefix("wanted ").unwrap().parse::<usize>().unwrap();
        let operation = operation.parse::<usize>().unwrap();
        let persona = if operation == REPORT { CARRIER } else { CLERK };
        let mut states = States::from_words(numbers(&row[1].replace(',', " ")));
        let instances = numbers(row[2]);
        let said =
            match operate(&sheet, &[1], &[1], &[], &[], &mut states, &instances, persona, operation, Some(wanted)) {
                Ok(outcome) => {
                    assert_eq!(outcome, wanted);
                    let records: Vec<String> = states.iter().map(|[e, i, s]| format!("{e} {i} {s}")).collect();
                    records.join(", ")
                }
                Err(refusal) => format!("refused {} at {}", refusal.number(), refusal.place()),
            };
        assert_eq!(said, row[3], "{row:?}");
        called += 1;
    }
    assert_eq!(called, 10);
}

//! Every word of small sheets, and every byte of a text, changed to every value of a list.

use difference::calls::Call;
use difference::compare::{four, Comparer, Lent};
use difference::generate::{self, Wish};
use difference::random::Random;
use fernpocket::{example, raw, States};
use reference::M;

#[rustfmt::skip]
const VALUES: [i64; 37] = [
    i64::MIN, -M - 1, -M, -2, -1, 0, 1, 2, 3, 4, 5, 6, 7, 8, 9, 11, 12, 13, 14, 15, 16, 17, 18, 24, 31, 32, 100, 101,
    127, 128, 255, 256, 11_574, 11_575, M, M + 1, i64::MAX,
];

fn agree(result: Result<(), difference::compare::Disagreement>) {
    if let Err(disagreement) = result {
        panic!("{}", disagreement.head());
    }
}

/// Puts each value at each place, and around what is there.
fn every_word(comparer: &mut Comparer, words: &mut [i64]) {
    for place in 0..words.len() {
        let old = words[place];
        for value in VALUES.into_iter().chain([old - 1, old + 1, old + (1 << 32), -old]) {
            words[place] = value;
            agree(comparer.check(words));
        }
        words[place] = old;
    }
}

#[test]
fn every_word_of_small_sheets() {
    let mut comparer = Comparer::default();
    every_word(&mut comparer, &mut example::sheet());
    for seed in 0..100 {
        let mut random = Random::of_round(5, seed);
        let mut wish = Wish::random(&mut random);
        for (most, count) in [24, 8, 20, 6, 4, 10, 5, 10, 3, 6, 18].into_iter().zip(&mut wish.counts) {
            *count = most.min(*count);
        }
        every_word(&mut comparer, &mut generate::sheet(&wish, &mut random).words());
    }
    println!("{}", comparer.reached);
}

#[test]
fn every_two_words_of_the_example() {
    let mut comparer = Comparer::default();
    let mut words = example::sheet();
    for one in 0..words.len() {
        for other in 0..one {
            let old = (words[one], words[other]);
            for value in [-1, 0, 1, 2, 3] {
                for second in [-1, 0, 1, 2, 3] {
                    (words[one], words[other]) = (value, second);
                    agree(comparer.check(&words));
                }
            }
            (words[one], words[other]) = old;
        }
    }
}

#[test]
fn every_length_of_the_example() {
    let mut comparer = Comparer::default();
    let mut words = example::sheet();
    words.resize(400, 0);
    for length in 0..words.len() {
        agree(comparer.check(&words[..length]));
    }
}

/// A sheet of three lists and a Bool, with a rule for each quantifier over each list, and one that compares lengths.
fn lists() -> Vec<i64> {
    let facts: [&[i64]; 4] =
        [&[5, 0, 1, 0, 0, 0, 0, 2], &[0, 0, 1, 1, 1], &[5, -3, 4, 0, 0, 0, 1, 3], &[5, 0, 2, 0, 0, 9, 2, 1]];
    let nodes: [&[i64]; 21] = [
        &[17, 0],
        &[14, 0, 0],
        &[17, 0],
        &[15, 0, 2],
        &[17, 2],
        &[0, 1],
        &[7, 2, 4, 5],
        &[14, 2, 6],
        &[17, 2],
        &[0, 1],
        &[7, 4, 8, 9],
        &[15, 2, 10],
        &[17, 3],
        &[2, 2, 9],
        &[7, 1, 12, 13],
        &[14, 3, 14],
        &[16, 0],
        &[16, 2],
        &[7, 2, 16, 17],
        &[8, 0],
        &[15, 3, 19],
    ];
    let rules: [&[i64]; 7] = [&[0, 1], &[0, 3], &[0, 7], &[0, 11], &[0, 15], &[0, 18], &[1, 20]];
    let mut words = vec![1, 0, 4, 21, 7, 0, 0, 0, 0, 0, 0, 0, 0, 0, 0, 0];
    for record in facts.into_iter().chain(nodes).chain(rules) {
        let start = words.len();
        words.extend_from_slice(record);
        words.resize(start + 8, 0);
    }
    words
}

/// Facts as they are lent: values, given flags, lists and lengths.
type Lists = [Vec<i64>; 4];

fn verdicts(comparer: &mut Comparer, words: &[i64], [values, given, lists, lengths]: &Lists) {
    let mut out = [7i64; 7];
    agree(
        comparer
            .compare(
                Call::Verdicts,
                &mut out,
                |out| reference::verdicts(words, values, given, lists, lengths, out),
                |out| raw::verdicts(words, values, given, lists, lengths, out),
                |out| Some(four(fernpocket::verdicts(words, values, given, lists, lengths, out))),
                || format!("values {values:?}, given {given:?}, lists {lists:?}, lengths {lengths:?}"),
            )
            .map(|_| ()),
    );
}

#[test]
fn every_word_of_a_sheet_with_lists() {
    let mut comparer = Comparer::default();
    let mut words = lists();
    assert_eq!(reference::check(&words).refusal, 0);
    every_word(&mut comparer, &mut words);
}

#[test]
fn every_word_of_lent_lists() {
    let mut comparer = Comparer::default();
    let words = lists();
    for lengths in (0..24).map(|code| [code % 3, code / 3 % 4, code / 12]) {
        for lists in [[1, 1, -3, 0, 1, 2], [0, 1, 4, 0, 2, 1], [1, 0, 0, 0, 0, 0]] {
            let mut lent: Lists = [vec![9, 0, 9, 9], vec![1, 0, 1, 1], lists.to_vec(), lengths.to_vec()];
            verdicts(&mut comparer, &words, &lent);
            for slice in 0..lent.len() {
                for place in 0..lent[slice].len() {
                    let old = lent[slice][place];
                    for value in VALUES.into_iter().chain([-3, -4, old + (1 << 32)]) {
                        lent[slice][place] = value;
                        verdicts(&mut comparer, &words, &lent);
                    }
                    lent[slice][place] = old;
                }
                let whole = lent[slice].clone();
                for length in 0..=whole.len() + 2 {
                    lent[slice].resize(length, 0);
                    verdicts(&mut comparer, &words, &lent);
                }
                lent[slice] = whole;
            }
        }
    }
    println!("{}", comparer.reached);
}

/// The sheet of examples/parcels.md: operations that touch one of two entities, or both, in some outcome.
fn parcels() -> Vec<i64> {
    let text = include_bytes!("../../../examples/parcels.txt");
    let mut words = vec![0; text.len() / 2];
    let count = reference::read_text(text, &mut words).value as usize;
    words.truncate(count);
    words
}

/// Operations, with each outcome and with none wanted, and runs, on these states and instances.
fn operations(comparer: &mut Comparer, words: &[i64], states: &[i64], instances: &[i64]) {
    let (values, given) = (&[1], &[1]);
    for (operation, persona, wanted) in
        [(0, 0, -1), (1, 1, -1), (1, 1, 0), (1, 1, 1), (2, 0, -1), (3, 0, -1), (0, 1, 0), (0, 0, 1)]
    {
        let mut left = states.to_vec();
        let choice = usize::try_from(wanted).ok();
        let result = comparer.compare(
            Call::Operate,
            &mut left,
            |left| reference::operate(words, values, given, &[], &[], left, instances, persona, operation, wanted),
            |left| raw::operate(words, values, given, &[], &[], left, instances, persona, operation, wanted),
            |left| {
                let (persona, operation) = (persona as usize, operation as usize);
                let mut table = States::from_words(left.clone());
                let outcome = fernpocket::operate(
                    words,
                    values,
                    given,
                    &[],
                    &[],
                    &mut table,
                    instances,
                    persona,
                    operation,
                    choice,
                );
                *left = table.words().to_vec();
                Some(four(outcome))
            },
            || format!("states {states:?}, instances {instances:?}, operation {operation}, wanted {wanted}"),
        );
        agree(result.map(|_| ()));
    }
    for (fact, wanted) in [(1, [-1, 0]), (1, [-1, 1]), (0, [0, -1])] {
        let mut left = (states.to_vec(), [7u16; 3]);
        let choice = wanted.map(|word| usize::try_from(word).ok());
        let result = comparer.compare(
            Call::Run,
            &mut left,
            |(left, path)| reference::run(words, &[fact], given, &[], &[], left, instances, 0, &wanted, path),
            |(left, path)| raw::run(words, &[fact], given, &[], &[], left, instances, 0, &wanted, path),
            |(left, path)| {
                let mut table = States::from_words(left.clone());
                let end = fernpocket::run(words, &[fact], given, &[], &[], &mut table, instances, 0, &choice, path);
                *left = table.words().to_vec();
                Some(four(end))
            },
            || format!("states {states:?}, instances {instances:?}, fact {fact}, wanted {wanted:?}"),
        );
        agree(result.map(|_| ()));
    }
}

#[test]
fn every_word_of_lent_states() {
    let mut comparer = Comparer::default();
    let words = parcels();
    assert_eq!(reference::check(&words).refusal, 0);
    for parcel in 0..4 {
        let mut lent = [vec![0, 3, 0, 0, 4, 1, 1, -1, 1, 1, 3, parcel, 1, 5, 3], vec![3, 3]];
        operations(&mut comparer, &words, &lent[0], &lent[1]);
        for slice in 0..2 {
            for place in 0..lent[slice].len() {
                let old = lent[slice][place];
                for value in VALUES.into_iter().chain([-3, old - 1, old + 1, old + (1 << 32), -old]) {
                    lent[slice][place] = value;
                    operations(&mut comparer, &words, &lent[0], &lent[1]);
                }
                lent[slice][place] = old;
            }
            let whole = lent[slice].clone();
            for length in 0..=whole.len() + 4 {
                lent[slice].resize(length, 2);
                operations(&mut comparer, &words, &lent[0], &lent[1]);
            }
            lent[slice] = whole;
        }
        // Every order of the records, and every one of them twice.
        for (first, second) in (0..25).map(|code| (code / 5, code % 5)) {
            let mut records = lent[0].clone();
            (0..3).for_each(|word| records.swap(3 * first + word, 3 * second + word));
            operations(&mut comparer, &words, &records, &lent[1]);
            let again = lent[0][3 * first..3 * first + 3].to_vec();
            records = lent[0].clone();
            records.splice(3 * second..3 * second, again);
            operations(&mut comparer, &words, &records, &lent[1]);
        }
    }
    // Two words of two records at once.
    let base = [0, 0, 0, 1, 0, 1];
    for (one, other) in (0..36).map(|code| (code / 6, code % 6)) {
        for (value, second) in (0..25).map(|code| (code / 5 - 1, code % 5 - 1)) {
            let mut records = base;
            (records[one], records[other]) = (value, second);
            operations(&mut comparer, &words, &records, &[0, 0]);
        }
    }
    println!("{}", comparer.reached);
}

#[test]
fn every_length_of_many_states() {
    let mut comparer = Comparer::default();
    let words = parcels();
    let all: Vec<i64> = (0..260).flat_map(|number| [number / 130, number, 0]).collect();
    for length in (0..12).chain(760..780) {
        operations(&mut comparer, &words, &all[..length], &[0, 130]);
        operations(&mut comparer, &words, &all[..length], &[0, 255]);
    }
    // A fault at every record, of as many as there may be.
    for number in 0..256 {
        for (word, value) in [(0, 2), (0, -1), (1, -1), (1, i64::MAX), (2, 4), (2, -1)] {
            let mut states = all[..768].to_vec();
            states[3 * number + word] = value;
            operations(&mut comparer, &words, &states, &[5, 200]);
        }
    }
}

#[test]
fn every_byte_of_a_text() {
    let mut comparer = Comparer::default();
    let mut random = Random::new(9);
    let text = b"1\t-1\t1000000000\t-1000000000\t0\t10\t999999999\t-20\n0\t0\t0\t0\t0\t0\t0\t7\n".to_vec();
    let mut read = |text: &[u8]| {
        for room in [16, 0, 15, 17, 24] {
            agree(comparer.read_text(text, &mut Lent::rubbish(room, &mut random)));
        }
    };
    for place in 0..=text.len() {
        read(&text[..place]);
        read(&text[place..]);
        for byte in 0..=255 {
            let mut longer = text.clone();
            longer.insert(place, byte);
            read(&longer);
            if place < text.len() {
                let mut changed = text.clone();
                changed[place] = byte;
                read(&changed);
            }
        }
        if place < text.len() {
            let mut shorter = text.clone();
            shorter.remove(place);
            read(&shorter);
        }
    }
}

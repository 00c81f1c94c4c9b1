//! 01's whole sheet, its proved cases P1 to P10, and hand cases of 01 and 02.

use reference::*;

const WHOLE: &str = "\
1 1 1 2 0 1 2 1
2 1 2 5 0 0 0 0
0 0 1 1 0 0 0 0
3 0 0 0 0 0 0 0
1 1 0 0 0 0 0 0
3 0 0 0 0 0 0 0
0 0 1 0 0 0 0 0
0 0 2 0 0 0 0 0
1 1 0 2 2 0 0 0
0 0 1 0 0 0 0 0
0 0 2 1 0 0 0 0
0 2 0 0 0 0 0 0
1 0 0 0 2 0 0 0
0 0 0 2 3 0 0 0
0 1 0 0 0 0 0 0
1 1 0 0 0 0 0 0
1 0 0 0 0 0 0 0
1 0 0 0 0 0 0 0
1 2 0 0 0 0 0 0
";

fn good(value: i64, count: i64) -> Answer {
    Answer { refusal: 0, place: 0, value, count }
}

fn refused(refusal: i64, place: i64) -> Answer {
    Answer { refusal, place, value: 0, count: 0 }
}

fn words(text: &str) -> Vec<i64> {
    let text = text.replace(' ', "\t");
    let mut words = vec![0; text.lines().count() * 8];
    assert_eq!(read_text(text.as_bytes(), &mut words), good(words.len() as i64, 0));
    words
}

fn whole() -> Vec<i64> {
    words(WHOLE)
}

/// A sheet with these tables, from facts to routes; records are filled up with zeros.
fn sheet(personas: i64, tables: [&[&[i64]]; 10]) -> Vec<i64> {
    let mut words = vec![1, personas];
    words.extend(tables.iter().map(|table| table.len() as i64));
    words.resize(16, 0);
    for record in tables.iter().copied().flatten() {
        let start = words.len();
        words.extend_from_slice(record);
        words.resize(start + 8, 0);
    }
    words
}

/// A sheet of facts, nodes and rules alone.
fn logic(facts: &[&[i64]], nodes: &[&[i64]], rules: &[&[i64]]) -> Vec<i64> {
    sheet(0, [facts, nodes, rules, &[], &[], &[], &[], &[], &[], &[]])
}

/// A sheet of one entity with 16 states, all transitions, and these operations and effects over true literals.
fn desk(operations: &[&[i64]], effects: &[&[i64]]) -> Vec<i64> {
    let nodes: Vec<&[i64]> = operations.iter().map(|_| &[1i64, 1] as &[i64]).collect();
    let entities: [&[i64]; 3] = [&[4, 0], &[4, 1], &[4, 2]];
    let all: Vec<[i64; 3]> = (0..48).map(|i| [i / 16, i / 4 % 4, i % 4]).collect();
    let all: Vec<&[i64]> = all.iter().map(|t| t as &[i64]).collect();
    sheet(3, [&[], &nodes, &[], &entities, &all, operations, effects, &[], &[], &[]])
}

/// The records of one instance of each entity, all numbered 0.
fn one_each(states: &[i64]) -> Vec<i64> {
    states.iter().enumerate().flat_map(|(entity, &state)| [entity as i64, 0, state]).collect()
}

/// The states of such records, which have stayed what they were but for these.
fn back(records: &[i64], states: &mut [i64]) {
    states.iter_mut().zip(records.chunks(3)).for_each(|(state, record)| *state = record[2]);
    assert_eq!(records, one_each(states));
}

/// An operation on one instance of each entity, all numbered 0.
fn operate_each(
    sheet: &[i64],
    values: &[i64],
    given: &[i64],
    lists: &[i64],
    lengths: &[i64],
    states: &mut [i64],
    persona: i64,
    operation: i64,
    wanted: i64,
) -> Answer {
    let (mut records, instances) = (one_each(states), vec![0; states.len()]);
    let answer = operate(sheet, values, given, lists, lengths, &mut records, &instances, persona, operation, wanted);
    back(&records, states);
    answer
}

/// A run on one instance of each entity, all numbered 0.
fn run_each(
    sheet: &[i64],
    values: &[i64],
    given: &[i64],
    lists: &[i64],
    lengths: &[i64],
    states: &mut [i64],
    flow: i64,
    wanted: &[i64],
    path: &mut [u16],
) -> Answer {
    let (mut records, instances) = (one_each(states), vec![0; states.len()]);
    let answer = run(sheet, values, given, lists, lengths, &mut records, &instances, flow, wanted, path);
    back(&records, states);
    answer
}

fn listing(sheet: &[i64], flow: i64, room: usize) -> Vec<(i64, Vec<u16>)> {
    let mut paths = vec![];
    let mut buffer = vec![9999; room];
    let mut answer = first(sheet, flow, &mut buffer);
    while answer.refusal == 0 {
        assert!(buffer[answer.count as usize..].iter().all(|&route| route == 0));
        paths.push((answer.value, buffer[..answer.count as usize].to_vec()));
        answer = next(sheet, flow, &mut buffer);
    }
    let last = &paths.last().unwrap().1;
    assert_eq!(&buffer[..last.len()], &last[..]);
    assert_eq!(answer, refused(13, 0));
    paths
}

#[test]
fn p1_four_paths() {
    let expected = [(0, vec![0, 2]), (0, vec![0, 3]), (2, vec![0, 4]), (1, vec![1])];
    assert_eq!(check(&whole()), good(0, 0));
    assert_eq!(listing(&whole(), 0, 2), expected);
    assert_eq!(listing(&whole(), 0, 7), expected);
}

#[test]
fn p2_to_p4_runs() {
    let sheet = whole();
    for (given, state, answer, path, after) in
        [(1, 0, good(0, 2), [0, 2, 0], 1), (0, 0, good(1, 1), [1, 0, 0], 0), (1, 1, good(2, 2), [0, 4, 0], 1)]
    {
        let mut states = [state];
        let mut buffer = [7; 3];
        assert_eq!(run_each(&sheet, &[1], &[given], &[], &[], &mut states, 0, &[-1, 0], &mut buffer), answer);
        assert_eq!((buffer, states), (path, [after]));
    }
}

#[test]
fn p5_p6_reports() {
    assert_eq!(reachable(&whole(), 0), good(7, 3));
    assert_eq!(depth(&whole(), 0), good(2, 0));
}

#[test]
fn p7_p8_refusals() {
    let mut sheet = whole();
    sheet[11] = 6;
    assert_eq!(check(&sheet), refused(1, 0));
    let mut sheet = whole();
    sheet[16 + 8 * 8 + 3] = 2;
    assert_eq!(check(&sheet), refused(3, 8));
}

#[test]
fn p9_ranges() {
    let sum = |literal| logic(&[&[1, 0, M]], &[&[3, 0], &[0, literal], &[4, 0, 1]], &[]);
    assert_eq!(check(&sum(0)), good(0, 0));
    assert_eq!(check(&sum(1)), refused(3, 3));
}

#[test]
fn p10_given_value() {
    let (sheet, mut states, mut path) = (whole(), [0], [5, 5]);
    assert_eq!(run_each(&sheet, &[2], &[1], &[], &[], &mut states, 0, &[-1, -1], &mut path), refused(6, 0));
    assert_eq!((states, path), ([0], [5, 5]));
    assert_eq!(assemble(&sheet, &mut [2], &[1], &[], &[]), refused(6, 0));
    assert_eq!(verdicts(&sheet, &[2], &[1], &[], &[], &mut []), refused(6, 0));
    assert_eq!(operate_each(&sheet, &[2], &[1], &[], &[], &mut states, 0, 0, -1), refused(6, 0));
}

#[test]
fn reports_of_the_whole_sheet() {
    let sheet = whole();
    assert_eq!(states(&sheet, 0), good(3, 0));
    assert_eq!(states(&sheet, 1), refused(5, 0));
    assert_eq!(states(&sheet, -1), refused(5, 0));
    assert_eq!(rules(&sheet), good(0, 0));
    assert_eq!(stratum(&sheet, 0), refused(5, 0));
    assert_eq!(outcomes(&sheet, 0), good(2, 0));
    assert_eq!(tree_size(&sheet, 1), good(1, 0));
    assert_eq!(admissible(&sheet, 0, 0, 0, 0), good(1, 0));
    assert_eq!(admissible(&sheet, 0, 1, 0, 0), good(0, 0));
    assert_eq!(admissible(&sheet, 0, 3, 0, 0), refused(5, 0));
    assert_eq!(can_cause(&sheet, 0, 0, 0, 2), good(1, 0));
    assert_eq!(can_cause(&sheet, 0, 0, 1, 2), good(0, 0));
    assert_eq!(can_cause(&sheet, 1, 0, 0, 2), refused(5, 0));
}

#[test]
fn header_faults() {
    let empty = sheet(0, [&[]; 10]);
    assert_eq!(check(&empty), good(0, 0));
    assert_eq!(check(&[]), refused(1, 0));
    assert_eq!(check(&empty[..15]), refused(1, 0));
    for (word, bad) in
        [(0, 0), (0, 2), (1, 25), (1, -1), (12, 1), (15, 1), (2, 1), (11, -1), (2, i64::MIN), (2, i64::MAX)]
    {
        let mut sheet = empty.clone();
        sheet[word] = bad;
        assert_eq!(check(&sheet), refused(1, 0), "{word} {bad}");
    }
    let mut long = empty.clone();
    long.push(0);
    assert_eq!(check(&long), refused(1, 0));
    let too_many: Vec<&[i64]> = vec![&[0, 0, 1]; 129];
    assert_eq!(check(&logic(&too_many, &[], &[])), refused(1, 0));
    assert_eq!(check(&logic(&too_many[1..], &[], &[])), good(0, 0));
}

#[test]
fn group_sums() {
    let change = |changes: &[(usize, usize, i64)]| {
        let mut sheet = whole();
        for &(record, word, value) in changes {
            sheet[16 + 8 * record + word] = value;
        }
        check(&sheet)
    };
    assert_eq!(change(&[(6, 3, 1)]), refused(2, 0));
    assert_eq!(change(&[(9, 1, 3)]), refused(2, 0));
    assert_eq!(change(&[(10, 4, 3)]), refused(2, 0));
    // The sum is right, but an owner's count is outside 0..1,024.
    assert_eq!(change(&[(10, 4, -1), (11, 4, 6)]), refused(2, 0));
    // The sums are right, the counts are not those of the kinds; a bad record before counts for less than 2.
    assert_eq!(change(&[(10, 4, 3), (11, 4, 2)]), refused(3, 10));
    assert_eq!(change(&[(0, 0, 5), (10, 4, 4)]), refused(2, 0));
    assert_eq!(change(&[(6, 2, 1)]), refused(3, 6));
    assert_eq!(change(&[(11, 3, 1)]), refused(3, 11));
}

#[test]
fn fact_records() {
    let one = |fact: &[i64]| check(&logic(&[fact], &[], &[])).refusal == 0;
    assert!(one(&[0, 0, 1]));
    assert!(!one(&[0, 0, 0]));
    assert!(!one(&[0, 1, 1]));
    assert!(!one(&[0, 0, 1, 0, 0, 1]));
    assert!(one(&[1, -M, M, 1, -M]));
    assert!(!one(&[1, -M - 1, M]));
    assert!(!one(&[1, -M, M + 1]));
    assert!(!one(&[1, 2, 1]));
    assert!(one(&[1, 5, 7]), "without a default the word is 0, also outside min..max");
    assert!(!one(&[1, 5, 7, 1, 0]));
    assert!(!one(&[1, 5, 7, 0, 6]));
    assert!(!one(&[1, 5, 7, 2, 6]));
    assert!(one(&[2, 0, 255, 1, 255, 127]));
    assert!(!one(&[2, 0, 256]));
    assert!(!one(&[2, 0, 1, 0, 0, 128]));
    assert!(!one(&[2, 0, 1, 0, 0, -1]));
    assert!(!one(&[2, 1, 1]));
    assert!(!one(&[6, 0, 1]));
    assert!(!one(&[-1, 0, 1]));
    assert!(!one(&[0, 0, 1, 0, 0, 0, 1]));
    assert!(!one(&[0, 0, 1, 0, 0, 0, 0, 1]));
    let sets = |a, b| check(&logic(&[&[2, 0, 3, 0, 0, a], &[2, 0, 4, 0, 0, b]], &[], &[]));
    assert_eq!(sets(1, 2), good(0, 0));
    assert_eq!(sets(1, 1), refused(3, 1));
}

#[test]
fn node_records() {
    let facts: [&[i64]; 4] = [&[0, 0, 1], &[1, -5, 5], &[2, 0, 3, 0, 0, 7], &[2, 0, 3, 0, 0, 8]];
    let some = |nodes: &[&[i64]]| check(&logic(&facts, nodes, &[])).refusal == 0;
    for good in [
        &[&[0i64, M] as &[i64]] as &[&[i64]],
        &[&[0, -M]],
        &[&[1, 0]],
        &[&[2, 255, 127]],
        &[&[3, 0], &[3, 0], &[7, 0, 0, 1]],
        &[&[3, 2], &[2, 255, 7], &[7, 1, 1, 0]],
        &[&[3, 1], &[0, 1], &[7, 5, 0, 1], &[11, 2]],
        &[&[3, 1], &[6, 0, M / 5]],
        &[&[3, 1], &[6, 0, -(M / 5)]],
        &[&[0, 0], &[6, 0, M]],
        &[&[0, 0], &[6, 0, -M]],
        &[&[0, M], &[6, 0, -1]],
        &[&[0, -1], &[6, 0, -M]],
        &[&[1, 0], &[1, 1], &[10, 1, 0]],
    ] {
        assert!(some(good), "{good:?}");
    }
    for bad in [
        &[&[0i64, M + 1] as &[i64]] as &[&[i64]],
        &[&[0, i64::MIN]],
        &[&[1, 2]],
        &[&[1, -1]],
        &[&[2, 256, 0]],
        &[&[2, 0, 128]],
        &[&[3, 4]],
        &[&[3, -1]],
        &[&[8, 0]],
        &[&[18]],
        &[&[-1]],
        &[&[0, 0, 1]],
        &[&[1, 0], &[11, 0, 0, 0, 1]],
        &[&[1, 0], &[11, 1]],
        &[&[1, 0], &[9, 0, 0]],
        &[&[1, 0], &[11, 0], &[11, 0]],
        &[&[0, 0], &[11, 0]],
        &[&[1, 0], &[0, 0], &[7, 0, 0, 1]],
        &[&[3, 2], &[3, 3], &[7, 0, 0, 1]],
        &[&[3, 0], &[3, 0], &[7, 2, 0, 1]],
        &[&[3, 2], &[3, 2], &[7, 3, 0, 1]],
        &[&[3, 1], &[0, 1], &[7, 6, 0, 1]],
        &[&[3, 1], &[6, 0, M / 5 + 1]],
        &[&[3, 1], &[6, 0, -(M / 5) - 1]],
        &[&[0, 0], &[6, 0, M + 1]],
        &[&[0, 0], &[6, 0, -M - 1]],
        &[&[0, 0], &[6, 0, i64::MIN]],
        &[&[0, 2], &[6, 0, -M]],
        &[&[1, 0], &[6, 0, 1]],
        &[&[0, -M], &[0, 1], &[5, 0, 1]],
    ] {
        assert!(!some(bad), "{bad:?}");
    }
}

#[test]
fn rule_records() {
    let two =
        |first: i64, second: i64, cited: i64| check(&logic(&[], &[&[1, 1], &[8, cited]], &[&[first, 0], &[second, 1]]));
    assert_eq!(two(0, 1, 0), good(0, 0));
    assert_eq!(two(0, 15, 0), good(0, 0));
    assert_eq!(two(1, 1, 0), refused(3, 3));
    assert_eq!(two(0, 1, 1), refused(3, 3));
    assert_eq!(two(2, 1, 0), refused(3, 3));
    assert_eq!(two(0, 16, 0), refused(3, 3));
    assert_eq!(two(-1, 1, 0), refused(3, 2));
    assert_eq!(two(0, 1, 2), refused(3, 1));
    let named_twice = logic(&[], &[&[1, 1]], &[&[0, 0], &[0, 0]]);
    assert_eq!(check(&named_twice), refused(3, 2));
    assert_eq!(check(&logic(&[], &[&[0, 1]], &[&[0, 0]])), refused(3, 1));
}

#[test]
fn every_comparison_range_against_every_pair() {
    // An operation's precondition is a comparison of two Int facts; S3a tells whether its range includes 1, and
    // under a not whether it includes 0.
    let holds = |operator: i64, x: i64, y: i64| match operator {
        0 => x == y,
        1 => x != y,
        2 => x < y,
        3 => x <= y,
        4 => x > y,
        _ => x >= y,
    };
    for operator in 0..6 {
        for code in 0..256i64 {
            let [a, b, c, d] = [code & 3, code >> 2 & 3, code >> 4 & 3, code >> 6];
            if a > b || c > d {
                continue;
            }
            let sheet = sheet(
                1,
                [
                    &[&[1, a, b], &[1, c, d]],
                    &[&[3, 0], &[3, 1], &[7, operator, 0, 1], &[3, 0], &[3, 1], &[7, operator, 3, 4], &[11, 5]],
                    &[],
                    &[&[1, 0]],
                    &[&[0, 0, 0]],
                    &[&[1, 2, 0, 1, 1], &[1, 6, 1, 1, 1]],
                    &[&[0, 0, 0, 0], &[0, 0, 0, 0]],
                    &[],
                    &[],
                    &[],
                ],
            );
            let some = |wanted| (a..=b).any(|x| (c..=d).any(|y| holds(operator, x, y) == wanted)) as i64;
            assert_eq!(admissible(&sheet, 0, 0, 0, 0), good(some(true), 0));
            assert_eq!(admissible(&sheet, 0, 0, 0, 1), good(some(false), 0));
        }
    }
}

/// What S3a says of the comparisons `x × n = v` and its negation, where the fact x is in low..high.
fn product_equals(low: i64, high: i64, n: i64, v: i64) -> [i64; 2] {
    let sheet = sheet(
        1,
        [
            &[&[1, low, high]],
            &[&[3, 0], &[6, 0, n], &[0, v], &[7, 0, 1, 2], &[3, 0], &[6, 4, n], &[0, v], &[7, 0, 5, 6], &[11, 7]],
            &[],
            &[&[1, 0]],
            &[&[0, 0, 0]],
            &[&[1, 3, 0, 1, 1], &[1, 8, 1, 1, 1]],
            &[&[0, 0, 0, 0], &[0, 0, 0, 0]],
            &[],
            &[],
            &[],
        ],
    );
    [0, 1].map(|operation| {
        let answer = admissible(&sheet, 0, 0, 0, operation);
        assert_eq!(answer, good(answer.value, 0));
        answer.value
    })
}

#[test]
fn the_products_of_02() {
    for v in -12..=12 {
        assert_eq!(product_equals(-3, 5, -2, v), [(-10..=6).contains(&v) as i64, 1], "{v}");
        assert_eq!(product_equals(-3, 5, 0, v), [(v == 0) as i64, (v != 0) as i64], "{v}");
    }
    for v in [-M, -M + 1, -1, 0, 1, M - 1, M] {
        assert_eq!(product_equals(-1, 1, -M, v), [1, 1], "{v}");
        assert_eq!(product_equals(0, 1, -M, v), [(v <= 0) as i64, 1], "{v}");
    }
}

#[test]
fn every_range_of_a_product_against_every_value() {
    for low in -3..=3 {
        for high in low..=3 {
            for n in -3..=3 {
                let products = || (low..=high).map(|x| x * n);
                let range = products().min().unwrap()..=products().max().unwrap();
                for v in -10..=10 {
                    let equal = range.contains(&v);
                    let unequal = range != (v..=v);
                    assert_eq!(
                        product_equals(low, high, n, v),
                        [equal as i64, unequal as i64],
                        "{low}..{high} by {n}, {v}"
                    );
                }
            }
        }
    }
}

#[test]
fn every_range_of_and_and_or_against_every_pair() {
    // As above, over two children that are each false, true or a Bool fact: under a not S3a sees the low end.
    let children: [(&[i64], &[bool]); 3] = [(&[1, 0], &[false]), (&[1, 1], &[true]), (&[3, 0], &[false, true])];
    for (left, lefts) in children {
        for (right, rights) in children {
            for kind in [9, 10] {
                let holds = |x: bool, y: bool| if kind == 9 { x && y } else { x || y };
                let sheet = sheet(
                    1,
                    [
                        &[&[0, 0, 1]],
                        &[left, right, &[kind, 0, 1], left, right, &[kind, 3, 4], &[11, 5]],
                        &[],
                        &[&[1, 0]],
                        &[&[0, 0, 0]],
                        &[&[1, 2, 0, 1, 1], &[1, 6, 1, 1, 1]],
                        &[&[0, 0, 0, 0], &[0, 0, 0, 0]],
                        &[],
                        &[],
                        &[],
                    ],
                );
                let some = |wanted| lefts.iter().any(|&x| rights.iter().any(|&y| holds(x, y) == wanted)) as i64;
                assert_eq!(admissible(&sheet, 0, 0, 0, 0), good(some(true), 0));
                assert_eq!(admissible(&sheet, 0, 0, 0, 1), good(some(false), 0));
            }
        }
    }
}

#[test]
fn effect_records() {
    let one = |outcomes: i64, effects: &[&[i64]]| check(&desk(&[&[1, 0, 0, effects.len() as i64, outcomes]], effects));
    let first = 1 + 3 + 48 + 1;
    assert_eq!(one(1, &[&[0, 0, 1, 0]]), good(0, 0));
    assert_eq!(one(1, &[&[0, 0, 1, 1]]), refused(3, first));
    assert_eq!(one(2, &[&[0, 0, 1, 0]]), refused(3, first), "ends too early");
    assert_eq!(one(2, &[&[0, 0, 1, 0], &[0, 0, 2, 1]]), good(0, 0));
    assert_eq!(one(2, &[&[0, 0, 1, 0], &[0, 0, 2, 2]]), refused(3, first + 1));
    assert_eq!(one(3, &[&[0, 0, 1, 0], &[0, 0, 2, 2]]), refused(3, first + 1));
    assert_eq!(one(2, &[&[0, 0, 1, 0], &[0, 1, 2, 1], &[0, 2, 2, 0]]), refused(3, first + 2));
    assert_eq!(one(1, &[&[0, 0, 1, 0], &[0, 0, 2, 0]]), refused(3, first + 1), "a pair twice");
    assert_eq!(one(1, &[&[0, 0, 1, 0], &[0, 1, 2, 0]]), good(0, 0));
    assert_eq!(one(1, &[&[3, 0, 1, 0]]), refused(3, first));
    assert_eq!(one(1, &[&[0, 4, 1, 0]]), refused(3, first));
    assert_eq!(one(1, &[&[0, 0, 1, 0, 1]]), refused(3, first));
    assert_eq!(one(9, &[&[0, 0, 1, 0]]), refused(3, first - 1));
    // Masks: not 0, below 2 to the personas.
    let mask = |mask: i64| check(&desk(&[&[mask, 0, 0, 1, 1]], &[&[0, 0, 1, 0]])).refusal;
    assert_eq!([0, 1, 7, 8, -1, i64::MIN].map(mask), [3, 0, 0, 3, 3, 3]);
    // The pair may occur again in another operation, and in another outcome.
    let two = desk(&[&[1, 0, 0, 1, 1], &[1, 1, 1, 1, 1]], &[&[0, 0, 1, 0], &[0, 0, 1, 0]]);
    assert_eq!(check(&two), good(0, 0));
}

#[test]
fn outcomes_are_chosen_and_applied_at_once() {
    // Outcome 0 needs entity 0 from 0 or 1, and entity 1 from 2. Outcome 1 needs entity 2 from 3.
    let sheet = desk(&[&[2, 0, 0, 4, 2]], &[&[0, 0, 1, 0], &[0, 1, 3, 0], &[1, 2, 0, 0], &[2, 3, 2, 1]]);
    for (before, wanted, answer, after) in [
        // One outcome is applicable: -1 chooses it, as does its own number.
        ([0, 2, 0], -1, good(0, 0), [1, 0, 0]),
        ([0, 2, 0], 0, good(0, 0), [1, 0, 0]),
        ([0, 1, 3], -1, good(1, 0), [0, 1, 2]),
        ([3, 2, 3], -1, good(1, 0), [3, 2, 2]),
        ([3, 2, 3], 1, good(1, 0), [3, 2, 2]),
        // Both are: -1 chooses none of them.
        ([1, 2, 3], -1, refused(16, 0), [1, 2, 3]),
        ([1, 2, 3], 0, good(0, 0), [3, 0, 3]),
        ([1, 2, 3], 1, good(1, 0), [1, 2, 2]),
        // The wanted one is not, whether or not the other is; or none is. Its first effect whose entity has no match.
        ([0, 2, 0], 1, refused(11, 2), [0, 2, 0]),
        ([0, 1, 3], 0, refused(11, 1), [0, 1, 3]),
        ([0, 1, 0], 0, refused(11, 1), [0, 1, 0]),
        ([0, 1, 0], -1, refused(11, 1), [0, 1, 0]),
        ([3, 1, 3], 0, refused(11, 0), [3, 1, 3]),
        ([2, 2, 0], -1, refused(11, 0), [2, 2, 0]),
        ([2, 2, 0], 1, refused(11, 2), [2, 2, 0]),
        // Not an outcome: 5, before the states are judged.
        ([0, 2, 0], 2, refused(5, 0), [0, 2, 0]),
        ([0, 2, 0], -2, refused(5, 0), [0, 2, 0]),
        ([0, 4, 0], i64::MAX, refused(5, 0), [0, 4, 0]),
        ([0, 4, 0], i64::MIN, refused(5, 0), [0, 4, 0]),
        ([0, 4, 0], -1, refused(8, 1), [0, 4, 0]),
        ([0, 4, -1], 1, refused(8, 1), [0, 4, -1]),
    ] {
        let mut states = before;
        assert_eq!(operate_each(&sheet, &[], &[], &[], &[], &mut states, 1, 0, wanted), answer, "{before:?} {wanted}");
        assert_eq!(states, after);
    }
    let mut states = [0, 2, 0];
    assert_eq!(operate_each(&sheet, &[], &[], &[], &[], &mut states, 0, 0, -1), refused(9, 0));
    assert_eq!(operate_each(&sheet, &[], &[], &[], &[], &mut [1, 2, 3], 0, 0, -1), refused(9, 0));
    assert_eq!(operate_each(&sheet, &[], &[], &[], &[], &mut states, 3, 0, -1), refused(5, 0));
    assert_eq!(operate_each(&sheet, &[], &[], &[], &[], &mut states, 1, 1, -1), refused(5, 0));
    assert_eq!(operate_each(&sheet, &[1], &[], &[], &[], &mut states, 3, 1, 9), refused(4, 0));
    assert_eq!(operate_each(&sheet, &[], &[], &[], &[], &mut [9, 9, 9], 0, 0, -1), refused(8, 0));
}

#[test]
fn faults_of_facts() {
    let sheet = logic(&[&[1, 2, 5, 1, 4], &[1, 2, 5], &[0, 0, 1, 1, 1]], &[], &[]);
    let facts = |values: [i64; 3], given: [i64; 3]| {
        let mut after = values;
        (assemble(&sheet, &mut after, &given, &[], &[]), after)
    };
    assert_eq!(facts([9, 5, 9], [0, 1, 0]), (good(0, 0), [4, 5, 1]));
    assert_eq!(facts([2, 2, 0], [1, 1, 1]), (good(0, 0), [2, 2, 0]));
    assert_eq!(facts([2, 2, 2], [1, 0, 1]), (refused(7, 1), [2, 2, 2]));
    assert_eq!(facts([6, 2, 2], [1, 0, 1]), (refused(6, 0), [6, 2, 2]));
    assert_eq!(facts([9, 5, 0], [0, 1, 2]), (refused(6, 2), [9, 5, 0]));
    assert_eq!(facts([9, 5, 0], [-1, 0, 2]), (refused(6, 0), [9, 5, 0]));
}

#[test]
fn verdicts_by_strata() {
    // Rule 0: fact 0 > 3. Rule 1: not rule 0. Rule 2: rule 0 or rule 1.
    let sheet = logic(
        &[&[1, -9, 9, 1, 5]],
        &[&[3, 0], &[0, 3], &[7, 4, 0, 1], &[8, 0], &[11, 3], &[8, 0], &[8, 1], &[10, 5, 6]],
        &[&[0, 2], &[1, 4], &[2, 7]],
    );
    assert_eq!(check(&sheet), good(0, 0));
    for (value, given, expected) in [(0, 0, [1, 0, 1]), (3, 1, [0, 1, 1]), (4, 1, [1, 0, 1])] {
        let mut out = [9; 3];
        assert_eq!(verdicts(&sheet, &[value], &[given], &[], &[], &mut out), good(0, 0));
        assert_eq!(out, expected);
    }
    assert_eq!(verdicts(&sheet, &[0], &[0], &[], &[], &mut [0; 2]), refused(4, 0));
    assert_eq!(tree_size(&sheet, 7), good(3, 0));
    assert_eq!(tree_size(&sheet, 2), good(3, 0));
    assert_eq!(tree_size(&sheet, 8), refused(5, 0));
    assert_eq!(stratum(&sheet, 2), good(2, 0));
    assert_eq!(rules(&sheet), good(3, 0));
}

#[test]
fn paths_and_buffers() {
    let sheet = whole();
    assert_eq!(first(&sheet, 0, &mut [0]), refused(4, 0));
    assert_eq!(first(&sheet, 1, &mut []), refused(5, 0));
    assert_eq!(next(&sheet, -1, &mut [0]), refused(5, 0));
    assert_eq!(run_each(&sheet, &[], &[], &[], &[], &mut [0], 1, &[], &mut []), refused(4, 0));
    assert_eq!(run_each(&sheet, &[0], &[0], &[], &[], &mut [0], 1, &[], &mut []), refused(5, 0));
    for (before, answer, after) in [
        ([0, 2, 77], good(0, 2), [0, 3, 0]),
        ([0, 4, 1], good(1, 1), [1, 0, 0]),
        ([1, 5, 6], refused(13, 0), [1, 5, 6]),
        ([2, 0, 0], refused(12, 0), [2, 0, 0]),
        ([0, 1, 0], refused(12, 0), [0, 1, 0]),
        ([0, 5, 0], refused(12, 0), [0, 5, 0]),
        ([65535, 0, 0], refused(12, 0), [65535, 0, 0]),
    ] {
        let mut buffer = before;
        assert_eq!(next(&sheet, 0, &mut buffer), answer);
        assert_eq!(buffer, after);
    }
}

#[test]
fn route_and_step_records() {
    let change = |record: usize, word: usize, value: i64| {
        let mut sheet = whole();
        sheet[16 + 8 * record + word] = value;
        check(&sheet)
    };
    assert_eq!(change(12, 1, 0), refused(3, 12), "its own step");
    assert_eq!(change(12, 1, 2), refused(3, 12), "no such step");
    assert_eq!(change(12, 0, 2), refused(3, 12));
    assert_eq!(change(13, 1, 3), refused(3, 13));
    assert_eq!(change(13, 1, 2), good(0, 0));
    assert_eq!(change(14, 0, 0), refused(3, 14), "a step before its owner");
    assert_eq!(change(10, 2, 1), refused(3, 10), "a branch has no persona");
    assert_eq!(change(10, 1, 1), refused(3, 10), "named by the operation");
    assert_eq!(change(11, 2, 1), refused(3, 11));
    assert_eq!(change(11, 1, 1), refused(3, 11));
    assert_eq!(change(11, 5, 1), refused(3, 11));
    assert_eq!(change(9, 2, 1), refused(3, 9));
    assert_eq!(change(12, 1, 1), good(0, 0));
}

#[test]
fn text_lines() {
    let line = b"0\t1\t-1\t1000000000\t-1000000000\t7\t8\t9\n";
    let line_words = [0, 1, -1, M, -M, 7, 8, 9];
    let mut words = [5; 9];
    assert_eq!(read_text(line, &mut words), good(8, 0));
    assert_eq!((&words[..8], words[8]), (&line_words[..], 5));
    assert_eq!(read_text(line, &mut [0; 7]), refused(15, 0));
    assert_eq!(read_text(b"", &mut []), good(0, 0));
    let mut text = [b'x'; 40];
    assert_eq!(write_text(&line_words, &mut text), good(line.len() as i64, 0));
    assert_eq!(&text[..line.len()], line);
    assert!(text[line.len()..].iter().all(|&byte| byte == b'x'));
    assert_eq!(write_text(&line_words, &mut text[..line.len() - 1]), refused(15, 0));
    assert_eq!(write_text(&[], &mut []), good(0, 0));
    assert_eq!(write_text(&[0; 7], &mut []), refused(14, 0));
    assert_eq!(write_text(&[0; 9], &mut []), refused(14, 1));
    let mut long = [0; 17];
    long[9] = M + 1;
    assert_eq!(write_text(&long, &mut []), refused(14, 1));
    long[9] = i64::MIN;
    assert_eq!(write_text(&long[..16], &mut []), refused(14, 1));
}

#[test]
fn bad_lines() {
    let good_line = "0\t0\t0\t0\t0\t0\t0\t0\n";
    for bad in [
        "\n",
        "0\t0\t0\t0\t0\t0\t0\t0",
        "0\t0\t0\t0\t0\t0\t0\n",
        "0\t0\t0\t0\t0\t0\t0\t0\t0\n",
        "0\t0\t0\t0\t0\t0\t0\t0\t\n",
        "0\t0\t0\t0\t0\t0\t0\t0\r\n",
        "00\t0\t0\t0\t0\t0\t0\t0\n",
        "01\t0\t0\t0\t0\t0\t0\t0\n",
        "+1\t0\t0\t0\t0\t0\t0\t0\n",
        "-0\t0\t0\t0\t0\t0\t0\t0\n",
        "-\t0\t0\t0\t0\t0\t0\t0\n",
        "--1\t0\t0\t0\t0\t0\t0\t0\n",
        "-01\t0\t0\t0\t0\t0\t0\t0\n",
        "\t0\t0\t0\t0\t0\t0\t0\n",
        "0 0\t0\t0\t0\t0\t0\t0\t0\n",
        "0\t\t0\t0\t0\t0\t0\t0\n",
        "1000000001\t0\t0\t0\t0\t0\t0\t0\n",
        "-1000000001\t0\t0\t0\t0\t0\t0\t0\n",
        "18446744073709551616\t0\t0\t0\t0\t0\t0\t0\n",
        "99999999999999999999999999999999999999999999\t0\t0\t0\t0\t0\t0\t0\n",
        "0x1\t0\t0\t0\t0\t0\t0\t0\n",
        " 0\t0\t0\t0\t0\t0\t0\t0\n",
    ] {
        for before in 0..3 {
            let text = good_line.repeat(before) + bad;
            let mut words = [3; 64];
            assert_eq!(read_text(text.as_bytes(), &mut words), refused(14, before as i64), "{text:?}");
            assert_eq!(words, [3; 64]);
            // A bad line counts for less than missing room, wherever the room ends.
            let text = text + good_line;
            assert_eq!(read_text(text.as_bytes(), &mut []).refusal, 14, "{text:?}");
        }
    }
}

#[test]
fn a_flow_uses_the_changes_of_its_earlier_steps() {
    // Two steps of one operation 0 -> 1, then 1 -> 2 as its second outcome; the third finds nothing applicable.
    let step = |persona: i64, first: i64| [0, 0, persona, first, 3];
    let route = |target: i64| [0, target];
    let steps = [step(0, 0), step(0, 3), step(1, 6), step(0, 9)];
    let steps: Vec<&[i64]> = steps.iter().map(|s| s as &[i64]).collect();
    let routes =
        [route(1), route(1), route(1), route(2), route(2), route(2), [1, 0], [1, 0], route(3), [1, 0], [1, 1], [1, 2]];
    let routes: Vec<&[i64]> = routes.iter().map(|r| r as &[i64]).collect();
    let sheet = sheet(
        2,
        [
            &[],
            &[&[1, 1]],
            &[],
            &[&[3, 0]],
            &[&[0, 0, 1], &[0, 1, 2]],
            &[&[1, 0, 0, 2, 2]],
            &[&[0, 0, 1, 0], &[0, 1, 2, 1]],
            &[&[0, 4]],
            &steps,
            &routes,
        ],
    );
    assert_eq!(check(&sheet), good(0, 0));
    // One outcome is applicable at a time, so that it makes no difference whether it is wanted. Step 2 is answered 9.
    for wanted in [[-1; 4], [0, 1, 0, 1], [0, 1, 1, 0]] {
        let (mut path, mut states) = ([9; 5], [0]);
        assert_eq!(run_each(&sheet, &[], &[], &[], &[], &mut states, 0, &wanted, &mut path), good(2, 4));
        assert_eq!((path, states), ([0, 4, 8, 11, 0], [2]));
    }
    // Outcome 1 is wanted of the first step, which is answered 11 and takes its failure route; the next one is made.
    let (mut path, mut states) = ([9; 5], [0]);
    assert_eq!(run_each(&sheet, &[], &[], &[], &[], &mut states, 0, &[1, 0, -1, -1], &mut path), good(1, 4));
    assert_eq!((path, states), ([2, 3, 8, 10, 0], [2]));
    assert_eq!(depth(&sheet, 0), good(4, 0));
    assert_eq!(listing(&sheet, 0, 4).len(), 9 * (2 + 3));
}

#[test]
fn wanted_words_of_a_run() {
    // Step 0 is a branch, step 1 an operation of two outcomes, both from state 0.
    let sheet = whole();
    for (wanted, answer, path, after) in [
        (&[-1, 0][..], good(0, 2), [0, 2], 1),
        (&[-1, 1], good(0, 2), [0, 3], 2),
        // 16 takes the failure route and changes nothing.
        (&[-1, -1], good(2, 2), [0, 4], 0),
        (&[0, 0], refused(5, 0), [7, 7], 0),
        (&[-2, 0], refused(5, 0), [7, 7], 0),
        (&[-1, 2], refused(5, 0), [7, 7], 0),
        (&[-1, -2], refused(5, 0), [7, 7], 0),
        (&[-1], refused(4, 0), [7, 7], 0),
        (&[0, 0, -1], refused(4, 0), [7, 7], 0),
        (&[], refused(4, 0), [7, 7], 0),
    ] {
        let (mut states, mut buffer) = ([0], [7; 2]);
        assert_eq!(run_each(&sheet, &[1], &[1], &[], &[], &mut states, 0, wanted, &mut buffer), answer, "{wanted:?}");
        assert_eq!((buffer, states), (path, [after]), "{wanted:?}");
    }
    // Step 1 is not reached, and its word is judged all the same; 5 comes before the facts and the states.
    let (mut states, mut buffer) = ([0], [7; 2]);
    assert_eq!(run_each(&sheet, &[0], &[1], &[], &[], &mut states, 0, &[-1, 2], &mut buffer), refused(5, 0));
    assert_eq!(run_each(&sheet, &[9], &[1], &[], &[], &mut [9], 0, &[-1, 2], &mut buffer), refused(5, 0));
    assert_eq!(run_each(&sheet, &[9], &[1], &[], &[], &mut [9], 0, &[-1, 1], &mut buffer), refused(6, 0));
    // No such flow: its wanted words are not judged.
    assert_eq!(run_each(&sheet, &[1], &[1], &[], &[], &mut states, 1, &[7; 9], &mut buffer), refused(5, 0));
}

/// Facts of money and of durations, without a default.
fn money(currency: i64, min: i64, max: i64) -> [i64; 6] {
    [3, min, max, 0, 0, currency]
}

fn duration(unit: i64, min: i64, max: i64) -> [i64; 6] {
    [4, min, max, 0, 0, unit]
}

/// The nodes that take nodes 0 and 1: sum, difference and the six comparisons.
const OVER_TWO: [[i64; 4]; 8] =
    [[4, 0, 1, 0], [5, 0, 1, 0], [7, 0, 0, 1], [7, 1, 0, 1], [7, 2, 0, 1], [7, 3, 0, 1], [7, 4, 0, 1], [7, 5, 0, 1]];

/// How often the second unit goes into the first one: days, hours, minutes, seconds.
const IN_A_UNIT: [[i64; 4]; 4] = [[1, 24, 1_440, 86_400], [0, 1, 60, 3_600], [0, 0, 1, 60], [0, 0, 0, 1]];

/// Is every sum, difference and comparison of the two facts good, either way round? None of them may be otherwise.
fn go_together(x: &[i64], y: &[i64]) -> bool {
    let answers = OVER_TWO
        .iter()
        .flat_map(|over| [[x, y], [y, x]].map(|[x, y]| check(&logic(&[x, y], &[&[3, 0], &[3, 1], over], &[]))));
    let answers: Vec<Answer> = answers.collect();
    assert!(answers.iter().all(|answer| *answer == answers[0]), "{x:?} {y:?}");
    assert!([good(0, 0), refused(3, 4)].contains(&answers[0]), "{x:?} {y:?}");
    answers[0] == good(0, 0)
}

/// The verdict of one rule over literals or facts without a choice; the rule is on the last node.
fn verdict(facts: &[&[i64]], nodes: &[&[i64]]) -> bool {
    let sheet = logic(facts, nodes, &[&[0, nodes.len() as i64 - 1]]);
    let values: Vec<i64> = facts.iter().map(|fact| fact[1]).collect();
    let mut verdicts_found = [7];
    assert_eq!(
        verdicts(&sheet, &values, &vec![1; facts.len()], &[], &[], &mut verdicts_found),
        good(0, 0),
        "{nodes:?}"
    );
    verdicts_found == [1]
}

/// What S3a says of the last node, and of its negation.
fn may_hold(facts: &[&[i64]], nodes: &[&[i64]]) -> [i64; 2] {
    let root = nodes.len() as i64 - 1;
    let negated = [11, root];
    let longer: Vec<&[i64]> = nodes.iter().copied().chain([&negated[..]]).collect();
    [nodes, &longer].map(|nodes| {
        let operation = [1, nodes.len() as i64 - 1, 0, 1, 1];
        let rest: [&[&[i64]]; 4] = [&[&[1, 0]], &[&[0, 0, 0]], &[&operation], &[&[0, 0, 0, 0]]];
        let sheet = sheet(1, [facts, nodes, &[], rest[0], rest[1], rest[2], rest[3], &[], &[], &[]]);
        let answer = admissible(&sheet, 0, 0, 0, 0);
        assert_eq!(answer, good(answer.value, 0), "{nodes:?}");
        answer.value
    })
}

#[test]
fn facts_of_money_and_durations() {
    let one = |fact: &[i64]| check(&logic(&[fact], &[], &[])).refusal == 0;
    for (kind, most) in [(3, 127), (4, 3)] {
        for word in 0..=most {
            assert!(one(&[kind, 0, 1, 0, 0, word]), "{kind} {word}");
        }
        for word in [-1, most + 1, 128, i64::MIN, i64::MAX] {
            assert!(!one(&[kind, 0, 1, 0, 0, word]), "{kind} {word}");
        }
        assert!(one(&[kind, -M, M, 0, 0, 1]));
        assert!(one(&[kind, -M, -M, 0, 0, 1]));
        assert!(one(&[kind, M, M, 0, 0, 1]));
        assert!(!one(&[kind, -M - 1, M, 0, 0, 1]));
        assert!(!one(&[kind, -M, M + 1, 0, 0, 1]));
        assert!(!one(&[kind, i64::MIN, 0, 0, 0, 1]));
        assert!(!one(&[kind, 0, i64::MAX, 0, 0, 1]));
        assert!(!one(&[kind, 2, 1, 0, 0, 1]));
        assert!(one(&[kind, 5, 7, 0, 0, 1]), "without a default the word is 0, also outside min..max");
        assert!(one(&[kind, 5, 7, 1, 5, 1]));
        assert!(one(&[kind, 5, 7, 1, 7, 1]));
        assert!(!one(&[kind, 5, 7, 1, 4, 1]));
        assert!(!one(&[kind, 5, 7, 1, 8, 1]));
        assert!(!one(&[kind, 5, 7, 1, 0, 1]));
        assert!(!one(&[kind, 5, 7, 0, 6, 1]));
        assert!(!one(&[kind, 5, 7, 2, 6, 1]));
        assert!(!one(&[kind, 5, 7, -1, 6, 1]));
        assert!(!one(&[kind, 0, 1, 0, 0, 1, 1]));
        assert!(!one(&[kind, 0, 1, 0, 0, 1, 0, 1]));
    }
    // An Int has no set, a Bool neither.
    assert!(!one(&[1, 0, 1, 0, 0, 1]));
    assert!(!one(&[0, 0, 1, 0, 0, 1]));
    // One max is for the facts of one set of Enums alone.
    let sets: [&[i64]; 7] = [
        &[2, 0, 3, 0, 0, 2],
        &[3, 0, 9, 0, 0, 2],
        &[3, -4, 8, 0, 0, 2],
        &[4, 0, 7, 0, 0, 2],
        &[4, 0, 6, 0, 0, 2],
        &[2, 0, 3, 0, 0, 2],
        &[2, 0, 9, 0, 0, 2],
    ];
    assert_eq!(check(&logic(&sets[..6], &[], &[])), good(0, 0));
    assert_eq!(check(&logic(&sets, &[], &[])), refused(3, 6));
    assert_eq!(check(&logic(&sets[1..5], &[], &[])), good(0, 0));
    // Values and defaults, as for Int.
    let sheet = logic(&[&[3, -5, 9, 1, -2, 127], &[4, 10, 20, 0, 0, 3], &[4, -1, 1, 1, 1, 0]], &[], &[]);
    for (values, given, answer, after) in [
        ([77, 10, 77], [0, 1, 0], good(0, 0), [-2, 10, 1]),
        ([-5, 20, -1], [1, 1, 1], good(0, 0), [-5, 20, -1]),
        ([9, 15, 0], [1, 1, 1], good(0, 0), [9, 15, 0]),
        ([10, 15, 0], [1, 1, 1], refused(6, 0), [10, 15, 0]),
        ([-6, 9, 0], [1, 0, 1], refused(6, 0), [-6, 9, 0]),
        ([0, 9, 0], [1, 1, 1], refused(6, 1), [0, 9, 0]),
        ([0, 21, 2], [1, 1, 1], refused(6, 1), [0, 21, 2]),
        ([0, 10, 2], [1, 1, 1], refused(6, 2), [0, 10, 2]),
        ([0, 10, 0], [1, 0, 1], refused(7, 1), [0, 10, 0]),
        ([0, 10, 0], [1, 1, 2], refused(6, 2), [0, 10, 0]),
    ] {
        let mut left = values;
        assert_eq!(assemble(&sheet, &mut left, &given, &[], &[]), answer, "{values:?} {given:?}");
        assert_eq!(left, after);
    }
}

#[test]
fn literals_of_money_and_durations() {
    let one = |node: &[i64]| check(&logic(&[], &[node], &[])).refusal == 0;
    for (kind, most) in [(12, 127), (13, 3)] {
        for word in 0..=most {
            assert!(one(&[kind, -7, word]), "{kind} {word}");
        }
        for word in [-1, most + 1, 128, 1 << 32, i64::MIN, i64::MAX] {
            assert!(!one(&[kind, 0, word]), "{kind} {word}");
        }
        assert!(one(&[kind, M, 1]));
        assert!(one(&[kind, -M, 1]));
        for v in [M + 1, -M - 1, i64::MIN, i64::MAX] {
            assert!(!one(&[kind, v, 1]), "{kind} {v}");
        }
        for word in 3..8 {
            let mut node = [kind, 5, 1, 0, 0, 0, 0, 0];
            assert!(one(&node));
            node[word] = 1;
            assert!(!one(&node), "{kind}, word {word}");
        }
    }
    assert!(!one(&[18]));
    assert!(!one(&[18, 5, 1]));
}

/// Every type, as facts: Bool, Int, Enums of two sets, money of two currencies, durations of all units.
const OF_EVERY_TYPE: [[i64; 6]; 10] = [
    [0, 0, 1, 0, 0, 0],
    [1, 0, 1, 0, 0, 0],
    [2, 0, 1, 0, 0, 0],
    [2, 0, 1, 0, 0, 1],
    [3, 0, 1, 0, 0, 0],
    [3, 0, 1, 0, 0, 1],
    [4, 0, 1, 0, 0, 0],
    [4, 0, 1, 0, 0, 1],
    [4, 0, 1, 0, 0, 2],
    [4, 0, 1, 0, 0, 3],
];

#[test]
fn which_types_go_together() {
    for x in OF_EVERY_TYPE {
        for y in OF_EVERY_TYPE {
            let same = x == y || (x[0] == 4 && y[0] == 4);
            for over in OVER_TWO {
                let good_node = match over {
                    [7, 0 | 1, ..] => same,
                    _ => same && [1, 3, 4].contains(&x[0]),
                };
                let expected = if good_node { good(0, 0) } else { refused(3, 4) };
                assert_eq!(check(&logic(&[&x, &y], &[&[3, 0], &[3, 1], &over], &[])), expected, "{x:?} {y:?} {over:?}");
            }
            for and_or in [[9, 0, 1], [10, 0, 1]] {
                let expected = if x[0] == 0 && y[0] == 0 { good(0, 0) } else { refused(3, 4) };
                assert_eq!(check(&logic(&[&x, &y], &[&[3, 0], &[3, 1], &and_or], &[])), expected, "{x:?} {y:?}");
            }
        }
        let over = |node: &[i64]| check(&logic(&[&x], &[&[3, 0], node], &[]));
        for n in [-1, 0, 1, 2] {
            let expected = if x[0] == 1 { good(0, 0) } else { refused(3, 2) };
            assert_eq!(over(&[6, 0, n]), expected, "{x:?} x {n}");
        }
        let of_bool = |place: i64| if x[0] == 0 { good(0, 0) } else { refused(3, place) };
        assert_eq!(over(&[11, 0]), of_bool(2), "not {x:?}");
        assert_eq!(check(&logic(&[&x], &[&[3, 0]], &[&[0, 0]])), of_bool(2), "a rule on {x:?}");
        let (one, way): (&[i64], &[i64]) = (&[1, 0], &[0, 0, 0]);
        let operation =
            sheet(1, [&[&x], &[&[3, 0]], &[], &[one], &[way], &[&[1, 0, 0, 1, 1]], &[&[0, 0, 0, 0]], &[], &[], &[]]);
        assert_eq!(check(&operation), of_bool(4), "an operation on {x:?}");
        let step: &[i64] = &[1, 0, 0, 0, 2];
        let end: &[i64] = &[1, 0];
        let branch = sheet(0, [&[&x], &[&[3, 0]], &[], &[], &[], &[], &[], &[&[0, 1]], &[step], &[end, end]]);
        assert_eq!(check(&branch), of_bool(3), "a branch on {x:?}");
    }
    // The literals have these types too.
    let leaves: [&[i64]; 8] =
        [&[0, 1], &[2, 1, 0], &[12, 1, 0], &[12, 1, 1], &[13, 1, 0], &[13, 1, 1], &[13, 1, 2], &[13, 1, 3]];
    let facts = [1, 2, 4, 5, 6, 7, 8, 9].map(|k| &OF_EVERY_TYPE[k]);
    for (i, leaf) in leaves.into_iter().enumerate() {
        for (k, other) in leaves.into_iter().enumerate() {
            for over in OVER_TWO {
                let by_facts = check(&logic(&[facts[i], facts[k]], &[&[3, 0], &[3, 1], &over], &[]));
                let by_both = check(&logic(&[facts[i], facts[k]], &[leaf, &[3, 1], &over], &[]));
                let by_literals = check(&logic(&[facts[i], facts[k]], &[leaf, other, &over], &[]));
                assert_eq!((by_literals, by_both), (by_facts, by_facts), "{leaf:?} {other:?} {over:?}");
            }
        }
    }
}

#[test]
fn money_within_one_currency() {
    for currency in 0..128 {
        assert!(go_together(&money(currency, -5, 9), &money(currency, 0, 70)));
        let other = (currency + 1) % 128;
        assert!(!go_together(&money(currency, -5, 9), &money(other, -5, 9)));
        assert!(!go_together(&money(currency, 0, 0), &[1, 0, 0]));
        assert!(!go_together(&money(currency, 0, 0), &duration(currency % 4, 0, 0)));
    }
    // The result has the currency: it goes with that one, and with no other.
    for over in [[4, 0, 1], [5, 0, 1]] {
        for currency in [3, 4, 5] {
            let node = logic(&[], &[&[12, 1, 4], &[12, 2, 4], &over, &[12, 3, currency], &[7, 0, 2, 3]], &[]);
            assert_eq!(check(&node), if currency == 4 { good(0, 0) } else { refused(3, 4) });
        }
        let node = logic(&[], &[&[12, 1, 4], &[12, 2, 4], &over, &[0, 3], &[7, 0, 2, 3]], &[]);
        assert_eq!(check(&node), refused(3, 4));
    }
    // The result stays within -M..M.
    for (min, max, v, over, fits) in [
        (0, M, 0, [4, 0, 1], true),
        (0, M, 1, [4, 0, 1], false),
        (-M, 0, -1, [4, 0, 1], false),
        (-M, 0, M, [4, 0, 1], true),
        (-M, 0, 0, [5, 0, 1], true),
        (-M, 0, 1, [5, 0, 1], false),
        (0, M, -1, [5, 0, 1], false),
        (0, M, M, [5, 0, 1], true),
    ] {
        let node = logic(&[&money(9, min, max)], &[&[3, 0], &[12, v, 9], &over], &[]);
        assert_eq!(check(&node), if fits { good(0, 0) } else { refused(3, 3) }, "{min}..{max} {v} {over:?}");
    }
    // Ranges and values are those of Ints.
    for v in -7..=12 {
        let (x, y) = (money(2, -2, 3), money(2, 1, 4));
        let sum = may_hold(&[&x, &y], &[&[3, 0], &[3, 1], &[4, 0, 1], &[12, v, 2], &[7, 0, 2, 3]]);
        assert_eq!(sum, [(-1..=7).contains(&v) as i64, 1], "{v}");
        let difference = may_hold(&[&x, &y], &[&[3, 0], &[3, 1], &[5, 0, 1], &[12, v, 2], &[7, 0, 2, 3]]);
        assert_eq!(difference, [(-6..=2).contains(&v) as i64, 1], "{v}");
    }
    assert!(verdict(&[&money(2, 30, 30)], &[&[3, 0], &[12, 12, 2], &[4, 0, 1], &[12, 42, 2], &[7, 0, 2, 3]]));
    assert!(verdict(&[&money(2, 30, 30)], &[&[3, 0], &[12, 42, 2], &[5, 0, 1], &[12, -12, 2], &[7, 0, 2, 3]]));
    for (operator, holds) in [false, true, true, true, false, false].into_iter().enumerate() {
        assert_eq!(verdict(&[], &[&[12, 3, 2], &[12, 4, 2], &[7, operator as i64, 0, 1]]), holds);
    }
}

#[test]
fn a_day_is_24_hours() {
    for (v, unit, w, other) in [
        (24, 1, 1, 0),
        (1_440, 2, 1, 0),
        (86_400, 3, 1, 0),
        (60, 2, 1, 1),
        (3_600, 3, 1, 1),
        (60, 3, 1, 2),
        (-48, 1, -2, 0),
        (0, 3, 0, 0),
        (999_993_600, 3, 11_574, 0),
    ] {
        let holds = |operator: i64, v: i64| {
            let one_way = verdict(&[], &[&[13, v, unit], &[13, w, other], &[7, operator, 0, 1]]);
            let turned = [0, 1, 4, 5, 2, 3][operator as usize];
            assert_eq!(verdict(&[], &[&[13, w, other], &[13, v, unit], &[7, turned, 0, 1]]), one_way);
            one_way
        };
        assert_eq!([0, 1, 2, 3, 4, 5].map(|operator| holds(operator, v)), [true, false, false, true, false, true]);
        assert_eq!([0, 1, 2, 3, 4, 5].map(|operator| holds(operator, v - 1)), [false, true, true, true, false, false]);
        assert_eq!([0, 1, 2, 3, 4, 5].map(|operator| holds(operator, v + 1)), [false, true, false, false, true, true]);
    }
    // A sum and a difference of a day and a second.
    for (over, seconds) in [([4, 0, 1], 86_401), ([5, 0, 1], 86_399), ([5, 1, 0], -86_399)] {
        assert!(verdict(&[], &[&[13, 1, 0], &[13, 1, 3], &over, &[13, seconds, 3], &[7, 0, 2, 3]]));
        assert!(!verdict(&[], &[&[13, 1, 0], &[13, 1, 3], &over, &[13, seconds + 1, 3], &[7, 0, 2, 3]]));
        assert!(!verdict(&[], &[&[13, 1, 0], &[13, 1, 3], &over, &[13, 1, 0], &[7, 0, 2, 3]]));
    }
}

#[test]
fn two_units_are_taken_to_the_smaller() {
    for unit in 0..4 {
        for other in 0..4 {
            let smaller = unit.max(other);
            let times = |from: i64| IN_A_UNIT[from as usize][smaller as usize];
            for (x, y) in [(0, 0), (1, 1), (3, -2), (-5, 7), (11, 0)] {
                let (facts, leaves): ([&[i64]; 2], [&[i64]; 2]) =
                    ([&duration(unit, x, x), &duration(other, y, y)], [&[3, 0], &[3, 1]]);
                let taken = (x * times(unit), y * times(other));
                for (over, value) in [([4, 0, 1], taken.0 + taken.1), ([5, 0, 1], taken.0 - taken.1)] {
                    // In the smaller unit, and in any smaller one yet.
                    for third in smaller..4 {
                        let v = value * IN_A_UNIT[smaller as usize][third as usize];
                        let equals = |v| {
                            let nodes: [&[i64]; 5] = [leaves[0], leaves[1], &over, &[13, v, third], &[7, 0, 2, 3]];
                            (verdict(&facts, &nodes), may_hold(&facts, &nodes))
                        };
                        assert_eq!(equals(v), (true, [1, 0]), "{x} {unit} {y} {other} {over:?}");
                        assert_eq!(equals(v + 1), (false, [0, 1]), "{x} {unit} {y} {other} {over:?}");
                    }
                }
                for operator in 0..6 {
                    let holds = [
                        taken.0 == taken.1,
                        taken.0 != taken.1,
                        taken.0 < taken.1,
                        taken.0 <= taken.1,
                        taken.0 > taken.1,
                        taken.0 >= taken.1,
                    ][operator as usize];
                    let nodes: [&[i64]; 3] = [leaves[0], leaves[1], &[7, operator, 0, 1]];
                    assert_eq!(verdict(&facts, &nodes), holds, "{x} {unit} {y} {other} operator {operator}");
                    assert_eq!(may_hold(&facts, &nodes), [holds as i64, !holds as i64]);
                }
            }
            // The result's unit: M of it go with a third unit, unless that is smaller yet.
            for over in [[4, 0, 1], [5, 0, 1]] {
                for third in 0..4 {
                    let most = M / IN_A_UNIT[smaller as usize][third as usize].max(1);
                    for v in (most..=M).take(2) {
                        let sum: [&[i64]; 5] = [&[13, 0, unit], &[13, 0, other], &over, &[13, v, smaller], &[4, 2, 3]];
                        let with_third: [&[i64]; 2] = [&[13, 0, third], &[7, 0, 4, 5]];
                        let expected = if v == most { good(0, 0) } else { refused(3, 6) };
                        let sheet = logic(&[], &[&sum[..], &with_third].concat(), &[]);
                        assert_eq!(check(&sheet), expected, "{unit} {other} {third} {v}");
                    }
                }
            }
        }
    }
}

#[test]
fn a_converted_range_stays_within_m() {
    // How many of the first unit are at most M of the second one.
    for (unit, other, most) in
        [(0, 1, 41_666_666), (0, 2, 694_444), (0, 3, 11_574), (1, 2, 16_666_666), (1, 3, 277_777), (2, 3, 16_666_666)]
    {
        let zero = duration(other, 0, 0);
        for (min, max, fits) in [
            (most, most, true),
            (-most, -most, true),
            (-most, most, true),
            (most + 1, most + 1, false),
            (0, most + 1, false),
            (-most, most + 1, false),
            (-most - 1, -most - 1, false),
            (-most - 1, 0, false),
            (-most - 1, most, false),
            (M, M, false),
            (-M, -M, false),
            (-M, M, false),
        ] {
            assert_eq!(go_together(&duration(unit, min, max), &zero), fits, "{min}..{max} of {unit}, {other}");
            // Units that are the same are not converted.
            assert!(go_together(&duration(unit, min, max), &duration(unit, 0, 0)));
        }
        // The smaller unit is not converted either, nor made larger.
        assert!(go_together(&duration(other, M, M), &duration(unit, 0, 0)));
        assert!(go_together(&duration(other, -M, -M), &duration(unit, 0, 0)));
    }
    assert!(go_together(&duration(3, -M, M), &duration(0, 0, 0)));
    for unit in 0..4 {
        assert!(go_together(&duration(unit, -M, M), &duration(unit, 0, 0)));
    }
    // The result: 11,574 days are 999,993,600 seconds.
    let over =
        |days: i64, seconds: i64, over: &[i64]| check(&logic(&[], &[&[13, days, 0], &[13, seconds, 3], over], &[]));
    for (days, seconds, kind, fits) in [
        (11_574, 6_400, 4, true),
        (11_574, 6_401, 4, false),
        (-11_574, -6_400, 4, true),
        (-11_574, -6_401, 4, false),
        (11_574, -6_400, 5, true),
        (11_574, -6_401, 5, false),
        (-11_574, 6_400, 5, true),
        (-11_574, 6_401, 5, false),
        (11_574, M, 5, true),
        (-11_574, M, 4, true),
        (11_575, -M, 4, false),
        (11_575, M, 5, false),
    ] {
        let expected = if fits { good(0, 0) } else { refused(3, 2) };
        assert_eq!(over(days, seconds, &[kind, 0, 1]), expected, "{days} {seconds} {kind}");
    }
    for operator in 0..6 {
        assert_eq!(over(11_574, M, &[7, operator, 0, 1]), good(0, 0));
        assert_eq!(over(11_575, M, &[7, operator, 0, 1]), refused(3, 2));
        assert_eq!(over(-11_575, 0, &[7, operator, 0, 1]), refused(3, 2));
    }
    // Durations in one unit: the sums of 01.
    for unit in 0..4 {
        let sum = |v| check(&logic(&[&duration(unit, 0, M)], &[&[3, 0], &[13, v, unit], &[4, 0, 1]], &[]));
        assert_eq!((sum(0), sum(1)), (good(0, 0), refused(3, 3)));
    }
}

#[test]
fn every_comparison_range_over_the_whole_numbers_of_the_converted_ranges() {
    // 1..2 days are 86,400..172,800 seconds, whether or not a number between them is one of whole days.
    for (v, expected) in [
        (86_399, [0, 1]),
        (86_400, [1, 1]),
        (86_401, [1, 1]),
        (100_000, [1, 1]),
        (172_799, [1, 1]),
        (172_800, [1, 1]),
        (172_801, [0, 1]),
    ] {
        let equal = may_hold(&[&duration(0, 1, 2)], &[&[3, 0], &[13, v, 3], &[7, 0, 0, 1]]);
        assert_eq!(equal, expected, "{v}");
        let equal = may_hold(&[&duration(0, 1, 2)], &[&[13, v, 3], &[3, 0], &[7, 0, 0, 1]]);
        assert_eq!(equal, expected, "{v}");
    }
    // Hours and minutes, in ranges about each other's ends.
    for operator in 0..6 {
        for (low, high) in [(-1, -1), (-1, 0), (0, 0), (0, 1), (1, 1), (1, 2)] {
            for (a, b) in [(-61, -60), (-59, 1), (0, 0), (0, 59), (60, 60), (61, 61), (59, 61), (119, 120), (121, 130)]
            {
                let pairs = (60 * low..=60 * high).flat_map(|x| (a..=b).map(move |y| (x, y)));
                let holds = |(x, y): (i64, i64)| [x == y, x != y, x < y, x <= y, x > y, x >= y][operator as usize];
                let (mut some, mut some_not) = (0, 0);
                pairs.for_each(|pair| if holds(pair) { some = 1 } else { some_not = 1 });
                let (x, y) = (duration(1, low, high), duration(2, a, b));
                let found = may_hold(&[&x, &y], &[&[3, 0], &[3, 1], &[7, operator, 0, 1]]);
                assert_eq!(found, [some, some_not], "{low}..{high} hours, {a}..{b} minutes, operator {operator}");
            }
        }
    }
    // Sums and differences: low and high ends, converted.
    for (v, sum, difference) in [
        (-2_999, 0, 1),
        (-3_000, 0, 1),
        (-3_001, 0, 1),
        (-10_801, 0, 0),
        (3_599, 0, 0),
        (3_600, 1, 0),
        (3_601, 1, 0),
        (10_800, 1, 0),
        (10_801, 0, 0),
    ] {
        // 1..2 hours and 0..3,600 seconds; the second less the first is -7,200..0.
        let facts: [&[i64]; 2] = [&duration(1, 1, 2), &duration(3, 0, 3_600)];
        let equals = |over: &[i64]| may_hold(&facts, &[&[3, 0], &[3, 1], over, &[13, v, 3], &[7, 0, 2, 3]]);
        assert_eq!(equals(&[4, 0, 1]), [sum, 1], "{v}");
        assert_eq!(equals(&[5, 1, 0]), [difference, 1], "{v}");
    }
}

#[test]
fn sizes_of_trees_with_money_and_durations() {
    let nodes: [&[i64]; 7] =
        [&[12, 1, 0], &[12, 2, 0], &[4, 0, 1], &[12, 3, 0], &[7, 0, 2, 3], &[13, 1, 3], &[13, 1, 0]];
    let sheet = logic(&[], &nodes, &[]);
    for (node, size) in [1, 1, 3, 1, 5, 1, 1].into_iter().enumerate() {
        assert_eq!(tree_size(&sheet, node as i64), good(size, 0));
    }
}

/// S2 of each entity of a sheet of these entities and transitions alone.
fn reached(entities: &[&[i64]], transitions: &[&[i64]]) -> Vec<Answer> {
    let sheet = sheet(0, [&[], &[], &[], entities, transitions, &[], &[], &[], &[], &[]]);
    for entity in [i64::MIN, -1, entities.len() as i64, i64::MAX] {
        assert_eq!(reachable(&sheet, entity), refused(5, 0));
    }
    (0..entities.len() as i64).map(|entity| reachable(&sheet, entity)).collect()
}

#[test]
fn scans_of_the_states_that_are_found() {
    // One state: without transitions, and with one to itself, twice.
    assert_eq!(reached(&[&[1, 0]], &[]), [good(1, 1)]);
    assert_eq!(reached(&[&[1, 0]], &[&[0, 0, 0], &[0, 0, 0]]), [good(1, 1)]);
    // To itself, there twice, and back: 0 and 1 are found once each.
    let and_back: [&[i64]; 5] = [&[0, 0, 0], &[0, 0, 1], &[0, 0, 1], &[0, 1, 1], &[0, 1, 0]];
    assert_eq!(reached(&[&[2, 0]], &and_back), [good(0b11, 2)]);
    // Two ways to 3.
    assert_eq!(reached(&[&[4, 0]], &[&[0, 0, 1], &[0, 0, 2], &[0, 1, 3], &[0, 2, 3]]), [good(0b1111, 4)]);
    // Nothing reaches 2, which leads to 0 and 3.
    assert_eq!(reached(&[&[4, 0]], &[&[0, 2, 3], &[0, 0, 1], &[0, 2, 0]]), [good(0b11, 2)]);
    assert_eq!(reached(&[&[16, 0]], &[]), [good(1, 1)]);
    // The initial state is not 0: what leads to it is not reached.
    assert_eq!(reached(&[&[4, 2]], &[&[0, 0, 1], &[0, 1, 2], &[0, 2, 3]]), [good(0b1100, 2)]);
    assert_eq!(reached(&[&[4, 3]], &[&[0, 0, 1], &[0, 1, 2], &[0, 2, 3]]), [good(0b1000, 1)]);
    assert_eq!(reached(&[&[4, 3]], &[&[0, 3, 0], &[0, 0, 3]]), [good(0b1001, 2)]);
    assert_eq!(reached(&[&[16, 15]], &[&[0, 15, 15]]), [good(1 << 15, 1)]);
}

#[test]
fn scans_of_a_chain_of_16_states() {
    let chain: Vec<[i64; 3]> = (0..15).map(|state| [0, state, state + 1]).collect();
    let forwards: Vec<&[i64]> = chain.iter().map(|transition| &transition[..]).collect();
    let backwards: Vec<&[i64]> = forwards.iter().rev().copied().collect();
    for declared in [forwards, backwards] {
        assert_eq!(reached(&[&[16, 0]], &declared), [good(65_535, 16)]);
        assert_eq!(reached(&[&[16, 8]], &declared), [good(65_280, 8)]);
        assert_eq!(reached(&[&[16, 15]], &declared), [good(32_768, 1)]);
    }
}

#[test]
fn scans_follow_the_entity_s_own_transitions() {
    // Three states each. 0: from 0 to 1 and no further. 1: a ring. 2: from 1 to 0. One after the other, and in turns.
    let entities: [&[i64]; 3] = [&[3, 0], &[3, 0], &[3, 1]];
    let [a, b, c, d, e, f]: [&[i64]; 6] = [&[0, 0, 1], &[0, 2, 0], &[1, 0, 1], &[1, 1, 2], &[1, 2, 0], &[2, 1, 0]];
    let expected = [good(0b11, 2), good(0b111, 3), good(0b11, 2)];
    assert_eq!(reached(&entities, &[a, b, c, d, e, f]), expected);
    assert_eq!(reached(&entities, &[c, a, f, d, b, e]), expected);
    assert_eq!(reached(&entities, &[e, b, f, d, a, c]), expected);
}

#[test]
fn a_refused_report_counts_nothing() {
    let mut sheet = whole();
    assert_eq!(reachable(&sheet[..15], 0), refused(1, 0));
    assert_eq!(reachable(&sheet, 1), refused(5, 0));
    sheet[16 + 8 * 8 + 3] = 2;
    assert_eq!(reachable(&sheet, 0), refused(3, 8));
    sheet[16 + 8 * 6 + 3] = 1;
    assert_eq!(reachable(&sheet, 0), refused(2, 0));
}

/// A fact that is a list: the type of its elements, their min, max and set, and its largest length.
fn list(element: i64, min: i64, max: i64, set: i64, largest: i64) -> [i64; 8] {
    [5, min, max, 0, 0, set, element, largest]
}

#[test]
fn facts_of_lists() {
    let one = |fact: &[i64]| check(&logic(&[fact], &[], &[])).refusal == 0;
    // Min, max and set as for a fact of the elements' type.
    for (element, min, max, set, fits) in [
        (0, 0, 1, 0, true),
        (0, 0, 0, 0, false),
        (0, 1, 1, 0, false),
        (0, 0, 2, 0, false),
        (0, 0, 1, 1, false),
        (1, -M, M, 0, true),
        (1, 5, 5, 0, true),
        (1, -M - 1, M, 0, false),
        (1, -M, M + 1, 0, false),
        (1, 2, 1, 0, false),
        (1, 0, 1, 1, false),
        (1, i64::MIN, 0, 0, false),
        (1, 0, i64::MAX, 0, false),
        (2, 0, 0, 0, true),
        (2, 0, 255, 127, true),
        (2, 0, 256, 0, false),
        (2, 0, -1, 0, false),
        (2, 1, 1, 0, false),
        (2, 0, 3, 128, false),
        (2, 0, 3, -1, false),
        // Money and durations are not listed, nor are lists; there are no other types.
        (3, 0, 1, 0, false),
        (4, 0, 1, 0, false),
        (5, 0, 1, 0, false),
        (-1, 0, 1, 0, false),
        (6, 0, 1, 0, false),
        (i64::MIN, 0, 1, 0, false),
        (i64::MAX, 0, 1, 0, false),
        (1 << 32, 0, 1, 0, false),
    ] {
        assert_eq!(one(&list(element, min, max, set, 7)), fits, "{element} {min}..{max} {set}");
    }
    for element in 0..3 {
        for largest in 0..=100 {
            assert!(one(&list(element, 0, 1, 0, largest)), "{largest}");
        }
        for largest in [-1, 101, 128, 1 << 32, i64::MIN, i64::MAX] {
            assert!(!one(&list(element, 0, 1, 0, largest)), "{largest}");
        }
        // No default: both words are 0, whatever the default would be.
        for (has_default, default) in [(1, 0), (1, 1), (0, 1), (0, -1), (2, 0), (-1, 0), (i64::MIN, 0), (0, i64::MAX)] {
            let fact = [5, 0, 1, has_default, default, 0, element, 7];
            assert!(!one(&fact), "{fact:?}");
        }
    }
    // The words of other types stay unused.
    for kind in 0..5 {
        assert!(one(&[kind, 0, 1]));
        for (word, value) in [(6, 1), (6, -1), (6, 2), (7, 1), (7, -1), (7, 100)] {
            let mut fact = [kind, 0, 1, 0, 0, 0, 0, 0];
            fact[word] = value;
            assert!(!one(&fact), "{fact:?}");
        }
    }
    // Facts of one set have one max, lists of Enums and Enums together; Ints and Bools have no set.
    let (plain, other): (&[i64], &[i64]) = (&[2, 0, 3, 0, 0, 9], &[2, 0, 4, 0, 0, 9]);
    let (of_three, of_four) = (list(2, 0, 3, 9, 5), list(2, 0, 4, 9, 6));
    let sets = |facts: &[&[i64]]| check(&logic(facts, &[], &[]));
    assert_eq!(sets(&[plain, &of_three, plain, &of_three]), good(0, 0));
    assert_eq!(sets(&[plain, &of_four]), refused(3, 1));
    assert_eq!(sets(&[&of_three, other]), refused(3, 1));
    assert_eq!(sets(&[&of_three, &of_four]), refused(3, 1));
    assert_eq!(sets(&[&of_three, plain, &list(2, 0, 4, 8, 5), &of_four]), refused(3, 3));
    let ints: [&[i64]; 4] = [&[2, 0, 3, 0, 0, 0], &list(1, 0, 7, 0, 5), &list(0, 0, 1, 0, 5), &list(1, -9, 9, 0, 0)];
    assert_eq!(sets(&ints), good(0, 0));
    // As many as there are facts.
    let all: Vec<&[i64]> = vec![&[5, 0, 1, 0, 0, 0, 0, 100]; 128];
    assert_eq!(sets(&all), good(0, 0));
}

#[test]
fn nodes_over_lists() {
    // Facts 0 to 4 are no lists; 5 is a list of Bools, 6 of Ints, 7 and 8 of Enums of two sets.
    let facts: [&[i64]; 9] = [
        &[0, 0, 1],
        &[1, 0, 1],
        &[2, 0, 1],
        &[3, 0, 1],
        &[4, 0, 1],
        &list(0, 0, 1, 0, 3),
        &list(1, -5, 5, 0, 3),
        &list(2, 0, 1, 0, 3),
        &list(2, 0, 1, 4, 0),
    ];
    let some = |nodes: &[&[i64]]| check(&logic(&facts, nodes, &[]));
    for fact in [0, 1, 2, 3, 4, 5, 6, 7, 8, 9, -1, 128, 1 << 32, i64::MIN, i64::MAX] {
        let (plain, listed) = ((0..=4).contains(&fact), (5..=8).contains(&fact));
        let expected = |fits: bool, place: i64| if fits { good(0, 0) } else { refused(3, 9 + place) };
        assert_eq!(some(&[&[3, fact]]), expected(plain, 0), "{fact}");
        assert_eq!(some(&[&[16, fact]]), expected(listed, 0), "{fact}");
        assert_eq!(some(&[&[17, fact]]), expected(listed, 0), "{fact}");
        assert_eq!(some(&[&[1, 1], &[14, fact, 0]]), expected(listed, 1), "{fact}");
        assert_eq!(some(&[&[1, 1], &[15, fact, 0]]), expected(listed, 1), "{fact}");
    }
    for kind in [14, 15] {
        // The body: a Bool node of a smaller number that nothing has named.
        assert_eq!(some(&[&[17, 5], &[kind, 5, 0]]), good(0, 0));
        assert_eq!(some(&[&[17, 5], &[kind, 6, 0]]), good(0, 0), "the element of another list");
        assert_eq!(some(&[&[0, 1], &[kind, 5, 0]]), refused(3, 10));
        assert_eq!(some(&[&[17, 6], &[kind, 6, 0]]), refused(3, 10));
        assert_eq!(some(&[&[17, 7], &[kind, 7, 0]]), refused(3, 10));
        assert_eq!(some(&[&[16, 6], &[kind, 6, 0]]), refused(3, 10));
        for body in [1, 2, -1, 1024, i64::MIN, i64::MAX] {
            assert_eq!(some(&[&[1, 1], &[kind, 5, body]]), refused(3, 10), "{body}");
        }
        assert_eq!(some(&[&[kind, 5, 0]]), refused(3, 9));
        assert_eq!(some(&[&[1, 1], &[kind, 5, 0], &[kind, 6, 0]]), refused(3, 11));
        assert_eq!(some(&[&[1, 1], &[kind, 5, 0], &[11, 0]]), refused(3, 11));
        assert_eq!(some(&[&[1, 1], &[11, 0], &[kind, 5, 0]]), refused(3, 11));
        for word in 3..8 {
            let mut node = [kind, 5, 0, 0, 0, 0, 0, 0];
            assert_eq!(some(&[&[1, 1], &node]), good(0, 0));
            node[word] = 1;
            assert_eq!(some(&[&[1, 1], &node]), refused(3, 10), "word {word}");
        }
    }
    for kind in [16, 17] {
        for word in 2..8 {
            let mut node = [kind, 6, 0, 0, 0, 0, 0, 0];
            assert_eq!(some(&[&node]), good(0, 0));
            node[word] = 1;
            assert_eq!(some(&[&node]), refused(3, 9), "word {word}");
        }
    }
    // Types: a quantifier is a Bool, a length an Int, an element what the list is of.
    let leaf = |of: &str| -> [[i64; 3]; 2] {
        match of {
            "Bool" => [[1, 1, 0], [17, 5, 0]],
            "Int" => [[0, 1, 0], [17, 6, 0]],
            "length" => [[0, 1, 0], [16, 7, 0]],
            "Enum of set 0" => [[2, 1, 0], [17, 7, 0]],
            _ => [[2, 1, 4], [17, 8, 0]],
        }
    };
    let sorts = ["Bool", "Int", "length", "Enum of set 0", "Enum of set 4"];
    for x in sorts {
        for y in sorts {
            let same = leaf(x)[0] == leaf(y)[0];
            let int = ["Int", "length"].contains(&x);
            for (a, b) in [(1, 0), (0, 1), (1, 1)] {
                for over in OVER_TWO {
                    let fits = match over {
                        [7, 0 | 1, ..] => same,
                        _ => same && int,
                    };
                    let expected = if fits { good(0, 0) } else { refused(3, 11) };
                    assert_eq!(some(&[&leaf(x)[a], &leaf(y)[b], &over]), expected, "{x} {y} {over:?}");
                }
                for over in [[9, 0, 1], [10, 0, 1]] {
                    let expected = if same && x == "Bool" { good(0, 0) } else { refused(3, 11) };
                    assert_eq!(some(&[&leaf(x)[a], &leaf(y)[b], &over]), expected, "{x} {y} {over:?}");
                }
            }
        }
        let int = ["Int", "length"].contains(&x);
        assert_eq!(some(&[&leaf(x)[1], &[6, 0, 3]]), if int { good(0, 0) } else { refused(3, 10) }, "{x}");
        assert_eq!(some(&[&leaf(x)[1], &[11, 0]]), if x == "Bool" { good(0, 0) } else { refused(3, 10) }, "{x}");
    }
    for (kind, over, fits) in [
        (14, [11, 1, 0, 0], true),
        (15, [9, 1, 2, 0], true),
        (14, [10, 2, 1, 0], true),
        (15, [7, 1, 1, 2], true),
        (14, [7, 2, 1, 2], false),
        (15, [4, 1, 2, 0], false),
        (14, [6, 1, 2, 0], false),
    ] {
        let expected = if fits { good(0, 0) } else { refused(3, 12) };
        assert_eq!(some(&[&[1, 1], &[kind, 6, 0], &[1, 0], &over]), expected, "{kind} {over:?}");
    }
}

#[test]
fn ranges_of_lengths_and_elements() {
    // An element's range is min..max: M and 0 is M, M and 1 is too much.
    for (min, max, v, over, fits) in [
        (0, M, 0, [4, 0, 1], true),
        (0, M, 1, [4, 0, 1], false),
        (-M, 0, -1, [4, 0, 1], false),
        (-M, 0, 1, [5, 0, 1], false),
        (-M, 0, 0, [5, 0, 1], true),
        (M, M, 1, [5, 0, 1], true),
        (M, M, 1, [4, 0, 1], false),
    ] {
        let sheet = logic(&[&list(1, min, max, 0, 0)], &[&[17, 0], &[0, v], &over], &[]);
        assert_eq!(check(&sheet), if fits { good(0, 0) } else { refused(3, 3) }, "{min}..{max} {v} {over:?}");
    }
    let times = |n: i64| check(&logic(&[&list(1, -4, 5, 0, 9)], &[&[17, 0], &[6, 0, n]], &[])).refusal;
    assert_eq!([M / 5, -(M / 5), M / 5 + 1, -(M / 5) - 1].map(times), [0, 0, 3, 3]);
    // A length's is 0..largest, whatever the elements are.
    let sum = |largest: i64, v: i64| {
        check(&logic(&[&list(1, -7, 900, 0, largest)], &[&[16, 0], &[0, v], &[4, 0, 1]], &[])).refusal
    };
    assert_eq!([sum(100, M - 100), sum(100, M - 99), sum(0, M), sum(1, M), sum(100, -M)], [0, 3, 0, 3, 0]);
    for largest in [0, 1, 2, 99, 100] {
        let fact = list(2, 0, 200, 3, largest);
        for (v, operator, expected) in [
            (0, 5, [1, 0]),
            (0, 4, [(largest > 0) as i64, 1]),
            (0, 0, [1, (largest > 0) as i64]),
            (largest, 3, [1, 0]),
            (largest, 4, [0, 1]),
            (largest, 0, [1, (largest > 0) as i64]),
            (largest + 1, 0, [0, 1]),
            (-1, 3, [0, 1]),
        ] {
            let nodes: [&[i64]; 3] = [&[16, 0], &[0, v], &[7, operator, 0, 1]];
            assert_eq!(may_hold(&[&fact], &nodes), expected, "{largest} {v} {operator}");
        }
    }
    // Both quantifiers are 0..1, whatever their body and the list: both may hold, and may not.
    for kind in [14, 15] {
        for body in [[1, 0], [1, 1], [17, 0]] {
            for largest in [0, 1, 100] {
                assert_eq!(may_hold(&[&list(0, 0, 1, 0, largest)], &[&body, &[kind, 0, 0]]), [1, 1]);
            }
        }
        // An Int element is never above its max; the quantifier says 0..1 all the same.
        let nodes: [&[i64]; 4] = [&[17, 0], &[0, 5], &[7, 4, 0, 1], &[kind, 0, 2]];
        assert_eq!(may_hold(&[&list(1, 1, 5, 0, 4)], &nodes), [1, 1]);
    }
}

#[test]
fn quantifiers_do_not_nest() {
    let facts: [&[i64]; 2] = [&list(0, 0, 1, 0, 3), &list(1, 0, 9, 0, 3)];
    let some = |nodes: &[&[i64]]| check(&logic(&facts, nodes, &[]));
    for (outer, inner) in [(14, 14), (14, 15), (15, 14), (15, 15)] {
        for (over, of) in [(0, 0), (0, 1), (1, 0), (1, 1)] {
            // The body itself, and deeper in it; the outer one is bad.
            assert_eq!(some(&[&[1, 1], &[inner, of, 0], &[outer, over, 1]]), refused(3, 4));
            assert_eq!(some(&[&[1, 1], &[inner, of, 0], &[11, 1], &[outer, over, 2]]), refused(3, 5));
            let nodes: [&[i64]; 8] =
                [&[1, 1], &[inner, of, 0], &[1, 0], &[7, 0, 1, 2], &[17, 0], &[10, 4, 3], &[11, 5], &[outer, over, 6]];
            assert_eq!(some(&nodes[..7]), good(0, 0));
            assert_eq!(some(&nodes), refused(3, 9));
            // Side by side they are good, over one list too.
            assert_eq!(some(&[&[1, 1], &[1, 1], &[outer, over, 0], &[inner, of, 1], &[9, 2, 3]]), good(0, 0));
        }
    }
}

/// A sheet of these facts and nodes, and with the last node under a rule, an operation or a branch.
fn owned(facts: &[&[i64]], nodes: &[&[i64]]) -> [Vec<i64>; 3] {
    let root = nodes.len() as i64 - 1;
    let end: &[i64] = &[1, 0];
    [
        logic(facts, nodes, &[&[0, root]]),
        sheet(
            1,
            [facts, nodes, &[], &[&[1, 0]], &[&[0, 0, 0]], &[&[1, root, 0, 1, 1]], &[&[0, 0, 0, 0]], &[], &[], &[]],
        ),
        sheet(0, [facts, nodes, &[], &[], &[], &[], &[], &[&[0, 1]], &[&[1, root, 0, 0, 2]], &[end, end]]),
    ]
}

#[test]
fn elements_stay_in_a_quantifier_over_their_list() {
    let facts: [&[i64]; 3] = [&list(0, 0, 1, 0, 3), &list(0, 0, 1, 0, 2), &[0, 0, 1]];
    for (nodes, closed) in [
        (&[&[17i64, 0] as &[i64]] as &[&[i64]], false),
        (&[&[17, 0], &[14, 0, 0]], true),
        (&[&[17, 0], &[15, 0, 0]], true),
        (&[&[17, 0], &[14, 1, 0]], false),
        (&[&[17, 1], &[15, 0, 0]], false),
        (&[&[17, 0], &[11, 0]], false),
        (&[&[17, 0], &[11, 0], &[15, 0, 1], &[11, 2]], true),
        (&[&[17, 0], &[17, 0], &[7, 0, 0, 1], &[14, 0, 2]], true),
        // The element of each list under a quantifier over one of them.
        (&[&[17, 0], &[17, 1], &[9, 0, 1], &[14, 0, 2]], false),
        (&[&[17, 0], &[17, 1], &[9, 0, 1], &[15, 1, 2]], false),
        // Under a quantifier of its own.
        (&[&[17, 0], &[14, 0, 0], &[17, 1], &[15, 1, 2], &[10, 1, 3]], true),
        (&[&[17, 0], &[14, 1, 0], &[17, 1], &[15, 0, 2], &[10, 1, 3]], false),
        // One in a quantifier, the other beside it.
        (&[&[17, 0], &[14, 0, 0], &[17, 0], &[10, 1, 2]], false),
        (&[&[17, 0], &[17, 0], &[14, 0, 1], &[9, 0, 2]], false),
        // A length needs no quantifier, in a body or out of one.
        (&[&[16, 0], &[0, 2], &[7, 4, 0, 1]], true),
        (&[&[16, 0], &[0, 2], &[7, 4, 0, 1], &[14, 1, 2]], true),
        (&[&[3, 2], &[14, 1, 0]], true),
        // Elements that the root does not reach.
        (&[&[17, 0], &[17, 1], &[9, 0, 1], &[1, 1]], true),
        (&[&[17, 1], &[14, 0, 0], &[3, 2]], true),
    ] {
        // The nodes are good by themselves.
        assert_eq!(check(&logic(&facts, nodes, &[])), good(0, 0), "{nodes:?}");
        let place = (facts.len() + nodes.len()) as i64;
        let places = [place, place + 2, place + 1];
        for (sheet, place) in owned(&facts, nodes).iter().zip(places) {
            let expected = if closed { good(0, 0) } else { refused(3, place) };
            assert_eq!(check(sheet), expected, "{nodes:?}");
        }
    }
    // The last of 128 facts, and the first.
    let all: Vec<&[i64]> = vec![&[5, 0, 1, 0, 0, 0, 0, 0]; 128];
    for (element, over) in [(127, 127), (0, 0), (127, 0), (0, 127), (64, 0), (0, 64), (126, 127)] {
        let expected = if element == over { good(0, 0) } else { refused(3, 130) };
        assert_eq!(check(&logic(&all, &[&[17, element], &[14, over, 0]], &[&[0, 1]])), expected);
    }
}

#[test]
fn faults_of_lists() {
    // Fact 0: a Bool with default 1. 1: a list of up to 2 Ints of 10..20. 2: an Int of 0..5 without a default.
    // 3: a list of up to 3 Enums of 0..2. 4: a list of up to 0 Bools.
    let sheet = logic(
        &[&[0, 0, 1, 1, 1], &list(1, 10, 20, 0, 2), &[1, 0, 5], &list(2, 0, 2, 7, 3), &list(0, 0, 1, 0, 0)],
        &[],
        &[],
    );
    assert_eq!(check(&sheet), good(0, 0));
    const X: i64 = i64::MIN;
    for (given, lists, lengths, answer) in [
        ([0, 1, 1, 1, 1], [10, 20, 0, 2, 1], [2, 3, 0], good(0, 0)),
        // Slots past the length are not read.
        ([0, 1, 1, 1, 1], [X, X, X, X, X], [0, 0, 0], good(0, 0)),
        ([0, 1, 1, 1, 1], [15, X, 1, 2, i64::MAX], [1, 2, 0], good(0, 0)),
        ([0, 1, 1, 1, 1], [15, X, 1, 2, 3], [1, 2, 0], good(0, 0)),
        // A length outside 0..largest.
        ([0, 1, 1, 1, 1], [10, 20, 0, 2, 1], [3, 3, 0], refused(6, 1)),
        ([0, 1, 1, 1, 1], [10, 20, 0, 2, 1], [-1, 3, 0], refused(6, 1)),
        ([0, 1, 1, 1, 1], [10, 20, 0, 2, 1], [X, 3, 0], refused(6, 1)),
        ([0, 1, 1, 1, 1], [10, 20, 0, 2, 1], [i64::MAX, 3, 0], refused(6, 1)),
        ([0, 1, 1, 1, 1], [10, 20, 0, 2, 1], [1 << 32, 3, 0], refused(6, 1)),
        ([0, 1, 1, 1, 1], [10, 20, 0, 2, 1], [2, 4, 0], refused(6, 3)),
        ([0, 1, 1, 1, 1], [10, 20, 0, 2, 1], [2, 3, 1], refused(6, 4)),
        ([0, 1, 1, 1, 1], [10, 20, 0, 2, 1], [2, 3, -1], refused(6, 4)),
        // An element outside min..max.
        ([0, 1, 1, 1, 1], [9, 20, 0, 2, 1], [2, 3, 0], refused(6, 1)),
        ([0, 1, 1, 1, 1], [10, 21, 0, 2, 1], [2, 3, 0], refused(6, 1)),
        ([0, 1, 1, 1, 1], [10, 21, 0, 2, 1], [1, 3, 0], good(0, 0)),
        ([0, 1, 1, 1, 1], [10, 20, -1, 2, 1], [2, 3, 0], refused(6, 3)),
        ([0, 1, 1, 1, 1], [10, 20, 0, 2, 3], [2, 3, 0], refused(6, 3)),
        // The slots of one list are not those of another: 10 and 20 are no Enums of 0..2.
        ([0, 1, 1, 1, 1], [0, 2, 10, 20, 1], [2, 3, 0], refused(6, 1)),
        ([0, 1, 1, 1, 1], [10, 20, 10, 2, 1], [2, 3, 0], refused(6, 3)),
        // Not given: 7, whatever the length and the slots say.
        ([0, 0, 1, 1, 1], [10, 20, 0, 2, 1], [2, 3, 0], refused(7, 1)),
        ([0, 0, 1, 1, 1], [X, X, 0, 2, 1], [0, 3, 0], refused(7, 1)),
        ([0, 0, 1, 1, 1], [10, 20, 0, 2, 1], [9, 3, 0], refused(7, 1)),
        ([0, 0, 1, 1, 1], [10, 20, 0, 2, 1], [-1, 3, 0], refused(7, 1)),
        ([0, 1, 1, 1, 0], [10, 20, 0, 2, 1], [2, 3, 0], refused(7, 4)),
        ([0, 1, 1, 1, 0], [10, 20, 0, 2, 1], [2, 3, 5], refused(7, 4)),
        // A flag not 0 or 1.
        ([0, 2, 1, 1, 1], [10, 20, 0, 2, 1], [2, 3, 0], refused(6, 1)),
        ([0, 1, 1, -1, 1], [10, 20, 0, 2, 1], [2, 3, 0], refused(6, 3)),
        ([0, 1, 1, X, 1], [10, 20, 0, 2, 1], [2, 3, 0], refused(6, 3)),
        // The first faulty fact decides.
        ([2, 0, 0, 0, 0], [10, 20, 0, 2, 1], [2, 3, 0], refused(6, 0)),
        ([0, 0, 0, 2, 2], [X, X, X, X, X], [9, 9, 9], refused(7, 1)),
        ([0, 1, 0, 0, 0], [10, 20, X, X, X], [2, 9, 9], refused(7, 2)),
        ([0, 1, 0, 0, 0], [10, 9, X, X, X], [2, 9, 9], refused(6, 1)),
        ([0, 1, 1, 1, 0], [10, 20, 0, 9, 0], [2, 2, 0], refused(6, 3)),
        ([0, 1, 1, 0, 2], [10, 20, 0, 9, 0], [2, 2, 9], refused(7, 3)),
    ] {
        // The value word of a list is not read, and stays.
        for rubbish in [0, 15, X, i64::MAX] {
            let values = [9, rubbish, 5, rubbish, rubbish];
            let after = if answer.refusal == 0 { [1, rubbish, 5, rubbish, rubbish] } else { values };
            let mut left = values;
            assert_eq!(
                assemble(&sheet, &mut left, &given, &lists, &lengths),
                answer,
                "{given:?} {lists:?} {lengths:?}"
            );
            assert_eq!(left, after);
            assert_eq!(verdicts(&sheet, &values, &given, &lists, &lengths, &mut []), answer);
        }
    }
    // Other totals are 4, and no list is looked at then.
    let (values, given, lists, lengths) = ([9, 0, 5, 0, 0], [0, 1, 1, 1, 1], [10, 20, 0, 2, 1, 9, 9], [2, 3, 0, 9]);
    let call = |given: &[i64], slots: usize, count: usize| {
        assemble(&sheet, &mut values.clone(), given, &lists[..slots], &lengths[..count])
    };
    assert_eq!(call(&given, 5, 3), good(0, 0));
    for (slots, count) in [(4, 3), (6, 3), (0, 3), (7, 3), (5, 2), (5, 4), (5, 0), (0, 0), (6, 2)] {
        assert_eq!(call(&given, slots, count), refused(4, 0), "{slots} {count}");
        assert_eq!(call(&[9; 5], slots, count), refused(4, 0), "{slots} {count}");
    }
    // A sheet without lists is lent none.
    let plain = logic(&[&[0, 0, 1]], &[], &[]);
    assert_eq!(assemble(&plain, &mut [1], &[1], &[], &[]), good(0, 0));
    assert_eq!(assemble(&plain, &mut [1], &[1], &[0], &[]), refused(4, 0));
    assert_eq!(assemble(&plain, &mut [1], &[1], &[], &[0]), refused(4, 0));
    // A list of largest 0 has a length and no slot.
    let empty = logic(&[&list(1, 0, 1, 0, 0)], &[], &[]);
    assert_eq!(assemble(&empty, &mut [7], &[1], &[], &[0]), good(0, 0));
    assert_eq!(assemble(&empty, &mut [7], &[1], &[0], &[0]), refused(4, 0));
    assert_eq!(assemble(&empty, &mut [7], &[1], &[], &[]), refused(4, 0));
    // As much as there may be: 128 lists of 100.
    let all: Vec<&[i64]> = vec![&[5, 0, 1, 0, 0, 0, 0, 100]; 128];
    let (most, mut slots) = (logic(&all, &[], &[]), vec![1; 12_800]);
    assert_eq!(assemble(&most, &mut [7; 128], &[1; 128], &slots, &[100; 128]), good(0, 0));
    assert_eq!(assemble(&most, &mut [7; 128], &[1; 128], &slots[1..], &[100; 128]), refused(4, 0));
    slots[12_799] = 2;
    assert_eq!(assemble(&most, &mut [7; 128], &[1; 128], &slots, &[100; 128]), refused(6, 127));
    slots[12_799] = 1;
    slots[100 * 64] = 2;
    assert_eq!(assemble(&most, &mut [7; 128], &[1; 128], &slots, &[100; 128]), refused(6, 64));
}

/// The verdict of one rule on the last node, over these lists. What stands past a list's elements is no element.
fn verdict_of(lists: &[([i64; 8], &[i64])], nodes: &[&[i64]]) -> bool {
    let facts: Vec<&[i64]> = lists.iter().map(|(fact, _)| &fact[..]).collect();
    let sheet = logic(&facts, nodes, &[&[0, nodes.len() as i64 - 1]]);
    let (mut slots, mut lengths) = (vec![], vec![]);
    for (fact, elements) in lists {
        lengths.push(elements.len() as i64);
        let end = slots.len() + fact[7] as usize;
        slots.extend_from_slice(elements);
        slots.resize(end, i64::MIN);
    }
    let mut found = [7];
    let (values, given) = (vec![i64::MAX; lists.len()], vec![1; lists.len()]);
    assert_eq!(verdicts(&sheet, &values, &given, &slots, &lengths, &mut found), good(0, 0), "{nodes:?}");
    found == [1]
}

#[test]
fn for_all_and_exists() {
    let bools = list(0, 0, 1, 0, 3);
    for (elements, all, some) in [
        (&[][..], true, false),
        (&[0], false, false),
        (&[1], true, true),
        (&[0, 0], false, false),
        (&[0, 1], false, true),
        (&[1, 0], false, true),
        (&[1, 1], true, true),
        (&[0, 0, 0], false, false),
        (&[0, 0, 1], false, true),
        (&[0, 1, 0], false, true),
        (&[0, 1, 1], false, true),
        (&[1, 0, 0], false, true),
        (&[1, 0, 1], false, true),
        (&[1, 1, 0], false, true),
        (&[1, 1, 1], true, true),
    ] {
        assert_eq!(verdict_of(&[(bools, elements)], &[&[17, 0], &[14, 0, 0]]), all, "{elements:?}");
        assert_eq!(verdict_of(&[(bools, elements)], &[&[17, 0], &[15, 0, 0]]), some, "{elements:?}");
        // The second list's slots are its own, and its length too.
        for other in [&[][..], &[0], &[1], &[0, 0, 0], &[1, 1, 1]] {
            let lists = [(bools, other), (bools, elements), (bools, other)];
            assert_eq!(verdict_of(&lists, &[&[17, 1], &[14, 1, 0]]), all, "{elements:?} {other:?}");
            assert_eq!(verdict_of(&lists, &[&[17, 1], &[15, 1, 0]]), some, "{elements:?} {other:?}");
        }
        // Not exists not is for all; the other way round likewise.
        let not_not = |kind: i64| verdict_of(&[(bools, elements)], &[&[17, 0], &[11, 0], &[kind, 0, 1], &[11, 2]]);
        assert_eq!((not_not(15), not_not(14)), (all, some), "{elements:?}");
        // A body that does not look at the element.
        let fixed = |kind: i64, body: i64| verdict_of(&[(bools, elements)], &[&[1, body], &[kind, 0, 0]]);
        let empty = elements.is_empty();
        assert_eq!([fixed(14, 0), fixed(14, 1), fixed(15, 0), fixed(15, 1)], [empty, true, false, !empty]);
        // Length, as a number.
        for v in 0..4 {
            let equals = verdict_of(&[(bools, elements)], &[&[16, 0], &[0, v], &[7, 0, 0, 1]]);
            assert_eq!(equals, elements.len() as i64 == v, "{elements:?}");
        }
    }
    // A list of largest 0 is always empty.
    let none = list(1, 0, 9, 0, 0);
    assert!(verdict_of(&[(none, &[])], &[&[1, 0], &[14, 0, 0]]));
    assert!(!verdict_of(&[(none, &[])], &[&[1, 1], &[15, 0, 0]]));
    assert!(verdict_of(&[(none, &[])], &[&[16, 0], &[0, 0], &[7, 0, 0, 1]]));
    // A hundred elements, of which one differs, wherever it stands.
    let many = list(1, -9, 9, 0, 100);
    for place in [0, 1, 50, 98, 99] {
        let mut elements = [3; 100];
        let nodes = |kind: i64, operator: i64| -> [[i64; 4]; 4] {
            [[17, 0, 0, 0], [0, 3, 0, 0], [7, operator, 0, 1], [kind, 0, 2, 0]]
        };
        let holds = |elements: &[i64], kind: i64, operator: i64| {
            let nodes = nodes(kind, operator);
            verdict_of(&[(many, elements)], &[&nodes[0], &nodes[1], &nodes[2], &nodes[3]])
        };
        assert_eq!((holds(&elements, 14, 0), holds(&elements, 15, 1)), (true, false));
        elements[place] = 4;
        assert_eq!((holds(&elements, 14, 0), holds(&elements, 15, 1)), (false, true), "{place}");
        // Up to it, and with it.
        assert_eq!((holds(&elements[..place], 14, 0), holds(&elements[..place], 15, 1)), (true, false), "{place}");
        assert_eq!((holds(&elements[..=place], 14, 0), holds(&elements[..=place], 15, 1)), (false, true), "{place}");
    }
}

#[test]
fn bodies_of_every_sort() {
    let (ints, enums) = (list(1, -100, 100, 0, 4), list(2, 0, 3, 5, 4));
    // Every 2 x element - 1 is below 8: elements up to 4.
    let below: [&[i64]; 7] = [&[17, 0], &[6, 0, 2], &[0, 1], &[5, 1, 2], &[0, 8], &[7, 2, 3, 4], &[14, 0, 5]];
    assert!(verdict_of(&[(ints, &[4, -100, 0])], &below));
    assert!(!verdict_of(&[(ints, &[4, 5])], &below));
    // Some element is its own product by -1: zero. Element and element are the same element.
    let zero: [&[i64]; 5] = [&[17, 0], &[17, 0], &[6, 1, -1], &[7, 0, 0, 2], &[15, 0, 3]];
    assert!(verdict_of(&[(ints, &[7, 0])], &zero));
    assert!(!verdict_of(&[(ints, &[7, -7])], &zero));
    // Every element is at least the length of the list, and of the other one.
    let at_least = |of: i64| -> [[i64; 4]; 4] { [[17, 0, 0, 0], [16, of, 0, 0], [7, 5, 0, 1], [14, 0, 2, 0]] };
    for (elements, others, of, expected) in [
        (&[2, 2][..], &[1, 1, 1][..], 0, true),
        (&[2, 2], &[1, 1, 1], 1, false),
        (&[3, 2, 9], &[1], 0, false),
        (&[3, 2, 9], &[1], 1, true),
        (&[], &[1, 1], 1, true),
    ] {
        let nodes = at_least(of);
        let nodes: [&[i64]; 4] = [&nodes[0], &nodes[1], &nodes[2], &nodes[3]];
        assert_eq!(verdict_of(&[(ints, elements), (enums, others)], &nodes), expected, "{elements:?} {others:?} {of}");
    }
    // Some Enum is 2 of set 5.
    let two: [&[i64]; 4] = [&[17, 0], &[2, 2, 5], &[7, 0, 0, 1], &[15, 0, 2]];
    assert!(verdict_of(&[(enums, &[0, 3, 2])], &two));
    assert!(!verdict_of(&[(enums, &[0, 3, 1])], &two));
    // Under and, or, not, =, and side by side over one list: all above 0, and some above 9.
    let pair: [&[i64]; 8] =
        [&[17, 0], &[0, 0], &[7, 4, 0, 1], &[14, 0, 2], &[17, 0], &[0, 9], &[7, 4, 4, 5], &[15, 0, 6]];
    let joined = |over: &[i64], elements: &[i64]| verdict_of(&[(ints, elements)], &[&pair[..], &[over]].concat());
    for (elements, all, some) in
        [(&[1, 10][..], true, true), (&[1, 2], true, false), (&[0, 10], false, true), (&[0], false, false)]
    {
        assert_eq!(joined(&[9, 3, 7], elements), all && some, "{elements:?}");
        assert_eq!(joined(&[10, 3, 7], elements), all || some, "{elements:?}");
        assert_eq!(joined(&[7, 0, 3, 7], elements), all == some, "{elements:?}");
        assert_eq!(joined(&[7, 1, 7, 3], elements), all != some, "{elements:?}");
    }
    // And, or in a body: every element is 3, or above 9 and below 12.
    let mixed: [&[i64]; 12] = [
        &[17, 0],
        &[0, 3],
        &[7, 0, 0, 1],
        &[17, 0],
        &[0, 9],
        &[7, 4, 3, 4],
        &[17, 0],
        &[0, 12],
        &[7, 2, 6, 7],
        &[9, 5, 8],
        &[10, 2, 9],
        &[14, 0, 10],
    ];
    assert!(verdict_of(&[(ints, &[3, 10, 11, 3])], &mixed));
    assert!(!verdict_of(&[(ints, &[3, 10, 12, 3])], &mixed));
    assert!(!verdict_of(&[(ints, &[9])], &mixed));
    // A duration in days beside an hour, in a body: conversion has nothing to do with the element.
    let hours: [&[i64]; 5] = [&[13, 1, 0], &[13, 24, 1], &[7, 0, 0, 1], &[14, 0, 2], &[11, 3]];
    assert!(!verdict_of(&[(ints, &[1, 2])], &hours));
}

#[test]
fn facts_and_verdicts_in_a_body() {
    // Fact 0: a limit, default 5. Fact 1: a list of Ints. Rule 0: the limit is above 2. Rule 1: rule 0 holds and every
    // element is up to the limit. Rule 2: some element is above the limit, or rule 1 does not hold.
    let sheet = logic(
        &[&[1, 0, 9, 1, 5], &list(1, 0, 9, 0, 3)],
        &[
            &[3, 0],
            &[0, 2],
            &[7, 4, 0, 1],
            &[8, 0],
            &[17, 1],
            &[3, 0],
            &[7, 3, 4, 5],
            &[9, 3, 6],
            &[14, 1, 7],
            &[17, 1],
            &[3, 0],
            &[7, 4, 9, 10],
            &[8, 1],
            &[11, 12],
            &[10, 11, 13],
            &[15, 1, 14],
        ],
        &[&[0, 2], &[1, 8], &[2, 15]],
    );
    assert_eq!(check(&sheet), good(0, 0));
    for (limit, given, elements, expected) in [
        (0, 0, &[5, 1, 0][..], [1, 1, 0]),
        (0, 0, &[6], [1, 0, 1]),
        (9, 1, &[9, 9, 9], [1, 1, 0]),
        (2, 1, &[0], [0, 0, 1]),
        (2, 1, &[], [0, 1, 0]),
        (8, 1, &[1, 2, 9], [1, 0, 1]),
    ] {
        let mut slots = elements.to_vec();
        slots.resize(3, -1);
        let mut out = [7; 3];
        let answer = verdicts(&sheet, &[limit, 77], &[given, 1], &slots, &[elements.len() as i64], &mut out);
        assert_eq!((answer, out), (good(0, 0), expected), "{limit} {elements:?}");
    }
    // A rule cites lower strata, in a body too.
    let two = |first: i64, second: i64, cited: i64| {
        let facts: [&[i64]; 1] = [&list(0, 0, 1, 0, 1)];
        check(&logic(&facts, &[&[1, 1], &[8, cited], &[14, 0, 1]], &[&[first, 0], &[second, 2]]))
    };
    assert_eq!((two(0, 1, 0), two(1, 1, 0), two(0, 1, 1)), (good(0, 0), refused(3, 5), refused(3, 5)));
}

#[test]
fn sizes_of_trees_with_quantifiers() {
    // A body is counted once, however long the list may be.
    let nodes: [&[i64]; 9] =
        [&[17, 0], &[0, 3], &[7, 2, 0, 1], &[14, 0, 2], &[16, 0], &[0, 1], &[7, 4, 4, 5], &[9, 3, 6], &[11, 7]];
    for largest in [0, 1, 100] {
        let sheet = logic(&[&list(1, 0, 9, 0, largest)], &nodes, &[]);
        for (node, size) in [1, 1, 3, 4, 1, 1, 3, 8, 9].into_iter().enumerate() {
            assert_eq!(tree_size(&sheet, node as i64), good(size, 0));
        }
    }
}

#[test]
fn operations_and_runs_over_lists() {
    // Fact 0: a list of up to 3 Bools. Fact 1: a Bool with default 0. Operation 0: every element is true. The flow
    // branches on "some element is true" and then performs the operation.
    let end: [&[i64]; 3] = [&[1, 0], &[1, 1], &[1, 2]];
    let sheet = sheet(
        2,
        [
            &[&list(0, 0, 1, 0, 3), &[0, 0, 1, 1, 0]],
            &[&[17, 0], &[14, 0, 0], &[17, 0], &[15, 0, 2]],
            &[],
            &[&[2, 0]],
            &[&[0, 0, 1]],
            &[&[1, 1, 0, 1, 1]],
            &[&[0, 0, 1, 0]],
            &[&[0, 2]],
            &[&[1, 3, 0, 0, 2], &[0, 0, 0, 2, 2]],
            &[&[0, 1], end[2], end[0], end[1]],
        ],
    );
    assert_eq!(check(&sheet), good(0, 0));
    const X: i64 = i64::MIN;
    for (lists, length, operated, after, ran, path) in [
        ([1, 1, 1], 3, good(0, 0), 1, good(0, 2), [0, 2]),
        ([1, X, X], 1, good(0, 0), 1, good(0, 2), [0, 2]),
        ([X, X, X], 0, good(0, 0), 1, good(2, 1), [1, 0]),
        ([1, 0, X], 2, refused(10, 0), 0, good(1, 2), [0, 3]),
        ([0, 1, X], 2, refused(10, 0), 0, good(1, 2), [0, 3]),
        ([1, 0, X], 1, good(0, 0), 1, good(0, 2), [0, 2]),
        ([0, 0, 0], 3, refused(10, 0), 0, good(2, 1), [1, 0]),
    ] {
        let mut states = [0];
        assert_eq!(
            operate_each(&sheet, &[X, 9], &[1, 0], &lists, &[length], &mut states, 0, 0, -1),
            operated,
            "{lists:?}"
        );
        assert_eq!(states, [after]);
        let (mut states, mut buffer) = ([0], [7; 2]);
        let answer = run_each(&sheet, &[X, 9], &[1, 0], &lists, &[length], &mut states, 0, &[-1, -1], &mut buffer);
        assert_eq!((answer, buffer), (ran, path), "{lists:?} {length}");
        assert_eq!(states, [(ran.value == 0) as i64]);
    }
    // In the order of the refusals: lengths, numbers, facts, states, persona.
    let given = [1, 0];
    for (slots, lengths, given, persona, operation, state, refusal) in [
        (2, &[3][..], given, 9, 9, 9, refused(4, 0)),
        (4, &[3], given, 9, 9, 9, refused(4, 0)),
        (3, &[], given, 9, 9, 9, refused(4, 0)),
        (3, &[3, 3], given, 9, 9, 9, refused(4, 0)),
        (3, &[4], given, 2, 0, 9, refused(5, 0)),
        (3, &[4], given, 0, 1, 9, refused(5, 0)),
        (3, &[4], given, 1, 0, 9, refused(6, 0)),
        (3, &[-1], given, 1, 0, 9, refused(6, 0)),
        (3, &[3], [0, 0], 1, 0, 9, refused(7, 0)),
        (3, &[3], [1, 2], 1, 0, 9, refused(6, 1)),
        (3, &[3], given, 1, 0, 9, refused(8, 0)),
        (3, &[3], given, 1, 0, 0, refused(9, 0)),
        (3, &[3], given, 0, 0, 1, refused(11, 0)),
        (3, &[3], given, 0, 0, 0, good(0, 0)),
    ] {
        let mut states = [state];
        let lists = &[1; 4][..slots];
        assert_eq!(
            operate_each(&sheet, &[0, 0], &given, lists, lengths, &mut states, persona, operation, -1),
            refusal,
            "{slots} {lengths:?} {given:?}"
        );
        // A run has neither persona nor operation; its flow is 0, or one that does not exist.
        let flow = if refusal.refusal == 5 { 1 } else { 0 };
        if refusal.refusal <= 8 && refusal.refusal > 0 {
            let (mut states, mut buffer) = ([state], [7; 2]);
            let answer = run_each(&sheet, &[0, 0], &given, lists, lengths, &mut states, flow, &[-1, -1], &mut buffer);
            assert_eq!((answer, states, buffer), (refusal, [state], [7; 2]), "{slots} {lengths:?} {given:?}");
        }
    }
}

/// Records as words.
fn lent(records: &[[i64; 3]]) -> Vec<i64> {
    records.iter().flatten().copied().collect()
}

/// Orders (entity 0, states 0 to 2), parcels (1, 0 to 3) and invoices (2, 0 and 1), and a fact. Operation 0, by persona 0 if
/// the fact holds: a parcel from 0 to 1. Operation 1, by both: outcome 0 a parcel from 1 to 2, outcome 1 a parcel from 1 to 3 and an
/// order from 0 to 1. Operation 2, by persona 1: an invoice from 0 to 1. Flow 0: operation 0, then 1. Flow 1: a branch on the
/// fact, if it holds operation 2; no route leads to its last step, of operation 0. Flow 2: a branch on the fact.
fn parcels() -> Vec<i64> {
    let sheet = sheet(
        2,
        [
            &[&[0, 0, 1]],
            &[&[3, 0], &[1, 1], &[1, 1], &[3, 0], &[3, 0]],
            &[],
            &[&[3, 0], &[4, 0], &[2, 0]],
            &[&[0, 0, 1], &[1, 0, 1], &[1, 1, 2], &[1, 1, 3], &[2, 0, 1]],
            &[&[1, 0, 0, 1, 1], &[3, 1, 1, 3, 2], &[2, 2, 4, 1, 1]],
            &[&[1, 0, 1, 0], &[1, 1, 2, 0], &[1, 1, 3, 1], &[0, 0, 1, 1], &[2, 0, 1, 0]],
            &[&[0, 2], &[2, 3], &[5, 1]],
            &[
                &[0, 0, 0, 0, 2],
                &[0, 1, 1, 2, 3],
                &[1, 3, 0, 5, 2],
                &[0, 2, 1, 7, 2],
                &[0, 0, 0, 9, 2],
                &[1, 4, 0, 11, 2],
            ],
            &[
                &[0, 1],
                &[1, 1],
                &[1, 0],
                &[1, 2],
                &[1, 1],
                &[0, 3],
                &[1, 1],
                &[1, 0],
                &[1, 1],
                &[1, 0],
                &[1, 1],
                &[1, 0],
                &[1, 1],
            ],
        ],
    );
    assert_eq!(check(&sheet), good(0, 0));
    sheet
}

const BOTH: [[i64; 3]; 6] = [[0, 7, 0], [0, 8, 1], [1, -3, 0], [1, 0, 1], [1, 5, 1], [2, 0, 0]];

#[test]
fn the_named_instances_are_read_and_moved() {
    let sheet = parcels();
    for (instances, operation, wanted, answer, moved) in [
        // Of the parcels the named one goes from 0 to 1; the others may be in any state.
        ([7, -3, 0], 0, -1, good(0, 0), &[(2, 1)][..]),
        ([7, 0, 0], 0, -1, refused(11, 1), &[]),
        ([7, 5, 0], 0, -1, refused(11, 1), &[]),
        // Of parcels and orders one each.
        ([7, 0, 0], 1, 0, good(0, 0), &[(3, 2)]),
        ([7, 5, 0], 1, 0, good(0, 0), &[(4, 2)]),
        ([7, 0, 0], 1, 1, good(1, 0), &[(0, 1), (3, 3)]),
        ([7, 5, 0], 1, 1, good(1, 0), &[(0, 1), (4, 3)]),
        ([7, 5, 0], 1, -1, refused(16, 0), &[]),
        ([8, 5, 0], 1, -1, good(0, 0), &[(4, 2)]),
        ([8, 5, 0], 1, 1, refused(11, 0), &[]),
        // Place is the entity, not the record.
        ([8, -3, 0], 1, 0, refused(11, 1), &[]),
        // What is not read need not be there: orders and invoices of operation 0, invoices of operation 1.
        ([9, -3, 9], 0, -1, good(0, 0), &[(2, 1)]),
        ([7, 0, 9], 1, 0, good(0, 0), &[(3, 2)]),
        // What is read has to: the order too, whichever outcome is wanted.
        ([7, 1, 0], 0, -1, refused(5, 0), &[]),
        ([7, 8, 0], 0, -1, refused(5, 0), &[]),
        ([0, 7, 0], 0, -1, refused(5, 0), &[]),
        ([9, 0, 0], 1, 0, refused(5, 0), &[]),
        ([9, 0, 0], 1, 1, refused(5, 0), &[]),
        ([9, 0, 0], 1, -1, refused(5, 0), &[]),
        ([i64::MIN, 0, 0], 1, -1, refused(5, 0), &[]),
    ] {
        let mut states = lent(&BOTH);
        let found = operate(&sheet, &[1], &[1], &[], &[], &mut states, &instances, 0, operation, wanted);
        let mut expected = BOTH;
        moved.iter().for_each(|&(record, state)| expected[record][2] = state);
        assert_eq!((found, states), (answer, lent(&expected)), "{instances:?} {operation} {wanted}");
    }
    // Refused 9 and 10, likewise.
    let mut states = lent(&BOTH);
    assert_eq!(operate(&sheet, &[1], &[1], &[], &[], &mut states, &[7, -3, 0], 1, 0, -1), refused(9, 0));
    assert_eq!(operate(&sheet, &[0], &[1], &[], &[], &mut states, &[7, -3, 0], 0, 0, -1), refused(10, 0));
    assert_eq!(states, lent(&BOTH));
}

#[test]
fn a_run_reads_what_all_its_steps_touch() {
    let sheet = parcels();
    for (flow, fact, instances, wanted, answer, path, moved) in [
        // Both steps move parcel -3; the second may move the order.
        (0, 1, [7, -3, 0], &[-1, 0][..], good(0, 2), [0, 2, 0], &[(2, 2)][..]),
        (0, 1, [7, -3, 0], &[-1, 1], good(2, 2), [0, 3, 0], &[(0, 1), (2, 3)]),
        (0, 1, [7, -3, 0], &[-1, -1], good(1, 2), [0, 4, 0], &[(2, 1)]),
        (0, 1, [8, -3, 0], &[-1, -1], good(0, 2), [0, 2, 0], &[(2, 2)]),
        (0, 1, [7, 0, 9], &[-1, 0], good(1, 1), [1, 0, 0], &[]),
        // The order is read where outcome 0 is wanted, and where the step is not reached.
        (0, 1, [9, -3, 0], &[-1, 0], refused(5, 0), [6; 3], &[]),
        (0, 0, [9, -3, 0], &[-1, 0], refused(5, 0), [6; 3], &[]),
        (0, 0, [7, -3, 0], &[-1, 0], good(1, 1), [1, 0, 0], &[]),
        // Of the second flow parcels are read, though no route leads to that step.
        (1, 1, [9, 0, 0], &[-1; 3], good(0, 2), [5, 7, 0], &[(5, 1)]),
        (1, 1, [9, 9, 0], &[-1; 3], refused(5, 0), [6; 3], &[]),
        (1, 0, [9, 9, 0], &[-1; 3], refused(5, 0), [6; 3], &[]),
        (1, 0, [9, 0, 9], &[-1; 3], refused(5, 0), [6; 3], &[]),
        (1, 0, [9, 0, 0], &[-1; 3], good(1, 1), [6, 0, 0], &[]),
        // A branch reads none.
        (2, 1, [9, 9, 9], &[-1], good(0, 1), [11, 0, 0], &[]),
    ] {
        let (mut states, mut buffer) = (lent(&BOTH), [6; 3]);
        let found = run(&sheet, &[fact], &[1], &[], &[], &mut states, &instances, flow, wanted, &mut buffer);
        let mut expected = BOTH;
        moved.iter().for_each(|&(record, state)| expected[record][2] = state);
        assert_eq!((found, states, buffer), (answer, lent(&expected), path), "{flow} {fact} {instances:?} {wanted:?}");
    }
    // Without any record.
    assert_eq!(run(&sheet, &[0], &[1], &[], &[], &mut [], &[0; 3], 2, &[-1], &mut [9]), good(1, 1));
    assert_eq!(run(&sheet, &[0], &[1], &[], &[], &mut [], &[0; 3], 1, &[-1; 3], &mut [9; 3]), refused(5, 0));
    assert_eq!(run(&sheet, &[0], &[1], &[], &[], &mut [], &[0; 2], 2, &[-1], &mut [9]), refused(4, 0));
}

#[test]
fn lengths_and_order_of_records() {
    let sheet = parcels();
    // Operation 0, on parcel 0.
    let call = |states: &[i64], instances: &[i64]| {
        let mut after = states.to_vec();
        let answer = operate(&sheet, &[1], &[1], &[], &[], &mut after, instances, 0, 0, -1);
        assert!(answer.refusal == 0 || after == states);
        let mut path = [0; 2];
        let ran = run(&sheet, &[1], &[1], &[], &[], &mut states.to_vec(), instances, 2, &[-1], &mut path);
        // A branch reads nothing, so it is never refused 5.
        assert_eq!(ran, if [0, 5].contains(&answer.refusal) { good(0, 1) } else { answer }, "{states:?}");
        answer
    };
    // Of any order of instances, the words of an i64 in signed order.
    let sorted = [i64::MIN, i64::MIN + 1, -1 << 32, -1, 0, 1, 1 << 32, i64::MAX];
    for (low, &one) in sorted.iter().enumerate() {
        for (high, &other) in sorted.iter().enumerate() {
            for named in [one, other] {
                let expected = if low < high { good(0, 0) } else { refused(8, 1) };
                assert_eq!(call(&lent(&[[1, one, 0], [1, other, 0]]), &[0, named, 0]), expected, "{one} {other}");
                // The instances of two entities have nothing to do with each other.
                assert_eq!(call(&lent(&[[0, one, 0], [1, named, 0], [2, other, 0]]), &[0, named, 0]), good(0, 0));
            }
            assert_eq!(call(&lent(&[[1, one, 0], [0, other, 0]]), &[0, one, 0]), refused(8, 1));
        }
    }
    // Numbers of which 32 bits are the same are not.
    for (one, other) in [(0, 1 << 32), (-1, (1 << 32) - 1), (5, (1 << 32) + 5), (0, i64::MIN), (-1, i64::MAX)] {
        assert_eq!(call(&lent(&[[1, one, 0]]), &[0, other, 0]), refused(5, 0), "{one} {other}");
        assert_eq!(call(&lent(&[[1, other, 0]]), &[0, one, 0]), refused(5, 0), "{one} {other}");
    }
    // As many records as may be.
    let many = |count: i64| lent(&(0..count).map(|number| [number / 100, number % 100, 0]).collect::<Vec<_>>());
    assert_eq!(call(&many(256), &[0, 99, 0]), good(0, 0));
    assert_eq!(call(&many(256), &[0, 100, 0]), refused(5, 0));
    assert_eq!(call(&many(257), &[0, 99, 0]), refused(4, 0));
    for length in 765..775 {
        let expected = if length % 3 == 0 && length <= 768 { good(0, 0) } else { refused(4, 0) };
        assert_eq!(call(&many(260)[..length], &[0, 99, 0]), expected, "{length}");
    }
    for length in 0..12 {
        let expected = if length == 3 { good(0, 0) } else { refused(4, 0) };
        assert_eq!(call(&many(256), &vec![99; length]), expected, "{length}");
    }
    for place in [0, 1, 100, 150, 255] {
        for (word, wrong) in [(0, 3), (0, -1), (0, i64::MAX), (2, 4), (2, -1), (2, i64::MIN)] {
            let mut states = many(256);
            states[3 * place + word] = wrong;
            assert_eq!(call(&states, &[0, 99, 0]), refused(8, place as i64), "{place} {word} {wrong}");
        }
    }
}

#[test]
fn every_few_records_by_the_definition() {
    // Entity 0 has one state more than entity 1. Operation 0 takes entity 0 from 0 to 1; operation 1 in one outcome entity 1 from 0
    // to 0, in the other entity 0 from 1 to 0.
    let sheet = sheet(
        1,
        [
            &[],
            &[&[1, 1], &[1, 1]],
            &[],
            &[&[2, 0], &[1, 0]],
            &[&[0, 0, 1], &[0, 1, 0], &[1, 0, 0]],
            &[&[1, 0, 0, 1, 1], &[1, 1, 1, 2, 2]],
            &[&[0, 0, 1, 0], &[1, 0, 0, 0], &[0, 1, 0, 1]],
            &[],
            &[],
            &[],
        ],
    );
    assert_eq!(check(&sheet), good(0, 0));
    let words: Vec<[i64; 3]> =
        (0..36).map(|code| [code % 3, code / 3 % 3 - 1, code / 9 - 1]).filter(|record| record[2] < 2).collect();
    let mut reached = [0; 17];
    let mut compare = |records: &[[i64; 3]]| {
        for (instances, operation) in (0..18).map(|code| ([code % 3 - 1, code / 3 % 3 - 1], code / 9)) {
            let key = |record: &[i64; 3]| (record[0], record[1]);
            let there = |entity: usize| records.iter().any(|record| key(record) == (entity as i64, instances[entity]));
            // As many of the records as are sorted, without repeats, and in range.
            let good_start = |count: &usize| {
                let mut keys: Vec<_> = records[..*count].iter().map(key).collect();
                keys.sort();
                keys.dedup();
                let in_range = |record: &[i64; 3]| match *record {
                    [0, _, state] => state == 0 || state == 1,
                    [entity, _, state] => entity == 1 && state == 0,
                };
                keys == records[..*count].iter().map(key).collect::<Vec<_>>() && records[..*count].iter().all(in_range)
            };
            let sound = (0..=records.len()).take_while(good_start).last().unwrap();
            let mut expected = records.to_vec();
            let answer = if !there(0) || (operation == 1 && !there(1)) {
                refused(5, 0)
            } else if sound < records.len() {
                refused(8, sound as i64)
            } else {
                let own = expected.iter_mut().find(|record| key(record) == (0, instances[0])).unwrap();
                match (operation, own[2]) {
                    (0, 0) => {
                        own[2] = 1;
                        good(0, 0)
                    }
                    (0, _) => refused(11, 0),
                    // Entity 1 is in 0 and stays there.
                    (_, 0) => good(0, 0),
                    _ => refused(16, 0),
                }
            };
            let mut states = lent(records);
            let found = operate(&sheet, &[], &[], &[], &[], &mut states, &instances, 0, operation, -1);
            assert_eq!((found, states), (answer, lent(&expected)), "{records:?} {instances:?} {operation}");
            reached[found.refusal as usize] += 1;
        }
    };
    compare(&[]);
    for &one in &words {
        compare(&[one]);
        for &other in &words {
            compare(&[one, other]);
            words.iter().for_each(|&third| compare(&[one, other, third]));
        }
    }
    assert!([0, 5, 8, 11, 16].into_iter().all(|refusal| reached[refusal] > 50), "{reached:?}");
}

#[test]
fn the_order_of_refusals_with_records() {
    let sheet = parcels();
    let (sound, unsorted) = (lent(&BOTH), lent(&[[1, 5, 0], [1, 0, 0], [0, 7, 0]]));
    for (states, instances, value, given, persona, operation, wanted, answer) in [
        (&sound[1..], &[7, 1, 0][..], 2, 1, 9, 9, 9, refused(4, 0)),
        (&sound, &[7, 1], 2, 1, 9, 9, 9, refused(4, 0)),
        (&unsorted, &[7, 1, 0], 2, 1, 1, 0, -1, refused(5, 0)),
        (&unsorted, &[7, 0, 0], 2, 1, 1, 0, 1, refused(5, 0)),
        (&unsorted, &[7, 0, 0], 2, 1, 1, 0, 0, refused(6, 0)),
        (&unsorted, &[7, 0, 0], 2, 0, 1, 0, 0, refused(7, 0)),
        (&unsorted, &[7, 0, 0], 0, 1, 1, 0, 0, refused(8, 1)),
        (&unsorted, &[7, 5, 0], 0, 1, 1, 0, 0, refused(8, 1)),
        // Found though it stands last, after the record at fault.
        (&unsorted, &[7, 0, 0], 1, 1, 0, 1, 0, refused(8, 1)),
        (&unsorted, &[8, 0, 0], 1, 1, 0, 1, 0, refused(5, 0)),
        (&sound, &[7, 0, 0], 0, 1, 1, 0, 0, refused(9, 0)),
        (&sound, &[7, 0, 0], 0, 1, 0, 0, 0, refused(10, 0)),
        (&sound, &[7, 0, 0], 1, 1, 0, 0, 0, refused(11, 1)),
        (&sound, &[7, 0, 0], 1, 1, 0, 1, -1, refused(16, 0)),
    ] {
        let mut after = states.to_vec();
        let found = operate(&sheet, &[value], &[given], &[], &[], &mut after, instances, persona, operation, wanted);
        assert_eq!((found, &after[..]), (answer, states), "{states:?} {instances:?}");
        if persona == 0 || answer.refusal > 8 {
            continue;
        }
        // A run of flow 0, which does not exist where the operation does not.
        let (mut after, mut path) = (states.to_vec(), [6; 2]);
        let flow = if operation == 9 || wanted == 1 { 3 } else { 0 };
        let found = run(&sheet, &[value], &[given], &[], &[], &mut after, instances, flow, &[-1, 0], &mut path);
        assert_eq!((found, &after[..], path), (answer, states, [6; 2]), "{states:?} {instances:?}");
    }
}

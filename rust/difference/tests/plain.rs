//! The reference against plainer ways to say the same, on random accepted sheets.

use difference::generate::*;
use difference::random::Random;
use reference::Answer;

/// Small random sheets.
fn sheets(count: u64) -> impl Iterator<Item = (Sheet, Vec<i64>, Random)> {
    (0..count).map(|seed| {
        let mut random = Random::of_round(77, seed);
        let mut wish = Wish::random(&mut random);
        for (most, count) in [24, 12, 120, 12, 6, 40, 12, 40, 4, 14, 50].into_iter().zip(&mut wish.counts) {
            *count = most.min(*count);
        }
        let sheet = sheet(&wish, &mut random);
        let words = sheet.words();
        assert_eq!(reference::check(&words), Answer::default());
        (sheet, words, random)
    })
}

/// All paths from a step on, with their terminals, by the definition.
fn paths(sheet: &Sheet, step: usize, most: usize) -> Vec<(Vec<u16>, i64)> {
    let [_, _, _, first, routes, ..] = sheet.tables[STEPS][step];
    let mut all = vec![];
    for route in first..first + routes {
        match sheet.tables[ROUTES][route as usize] {
            [0, next, ..] => {
                for (mut path, terminal) in paths(sheet, next as usize, most) {
                    path.insert(0, route as u16);
                    all.push((path, terminal));
                }
            }
            [_, terminal, ..] => all.push((vec![route as u16], terminal)),
        }
        if all.len() > most {
            break;
        }
    }
    all
}

#[test]
fn listings_are_all_paths_in_order() {
    let mut listed = 0;
    for (sheet, words, mut random) in sheets(1500) {
        for flow in 0..sheet.count(FLOWS) {
            let (first, steps) = sheet.steps_of(flow);
            let all = paths(&sheet, first, 1000);
            if all.len() > 1000 {
                continue;
            }
            assert!(all.windows(2).all(|pair| pair[0].0 < pair[1].0));
            let longest = all.iter().map(|path| path.0.len()).max().unwrap();
            assert_eq!(reference::depth(&words, flow as i64).value, longest as i64);
            let mut buffer = vec![9; steps + random.below(3)];
            let mut answer = reference::first(&words, flow as i64, &mut buffer);
            for (path, terminal) in &all {
                assert_eq!(answer, Answer { value: *terminal, count: path.len() as i64, ..Answer::default() });
                assert_eq!(&buffer[..path.len()], &path[..]);
                assert!(buffer[path.len()..].iter().all(|&route| route == 0));
                listed += 1;
                answer = reference::next(&words, flow as i64, &mut buffer);
            }
            assert_eq!(answer, Answer { refusal: 13, ..Answer::default() });
        }
    }
    assert!(listed > 10_000, "{listed}");
}

/// Facts, each with its value, and each list with its elements.
struct Known {
    values: Vec<i64>,
    elements: Vec<Vec<i64>>,
}

/// The value of every node, children first; those that cite a rule without a verdict yet are worthless for now. With an
/// element of a list at hand those outside of its quantifier's body are worthless, and without one its citations are.
fn values(sheet: &Sheet, facts: &Known, verdicts: &[i64], at_hand: Option<(i64, i64)>) -> Vec<i64> {
    let mut of: Vec<i64> = vec![];
    // The unit of a duration, 0 of all else.
    let mut units: Vec<usize> = vec![];
    for &[kind, a, b, c, ..] in &sheet.tables[NODES] {
        let at = |node: i64| of[node as usize];
        // Two durations in one unit: the larger is made smaller, step by step.
        let both = |x: i64, y: i64| {
            let mut pair = [(at(x), units[x as usize]), (at(y), units[y as usize])];
            let unit = pair[0].1.max(pair[1].1);
            for (value, own) in &mut pair {
                while *own < unit {
                    *value *= [24, 60, 60][*own];
                    *own += 1;
                }
            }
            (pair[0].0, pair[1].0, unit)
        };
        let (value, unit) = match kind {
            0..=2 | 12 => (a, 0),
            13 => (a, b as usize),
            3 => {
                let [kind, _, _, _, _, unit, ..] = sheet.tables[FACTS][a as usize];
                (facts.values[a as usize], if kind == 4 { unit as usize } else { 0 })
            }
            4 => {
                let (x, y, unit) = both(a, b);
                (x + y, unit)
            }
            5 => {
                let (x, y, unit) = both(a, b);
                (x - y, unit)
            }
            6 => (at(a) * b, 0),
            7 => {
                let (x, y, _) = both(b, c);
                let order = x.cmp(&y);
                let holds = [order.is_eq(), order.is_ne(), order.is_lt(), order.is_le(), order.is_gt(), order.is_ge()];
                (holds[a as usize] as i64, 0)
            }
            8 => (verdicts[a as usize], 0),
            9 => (at(a) & at(b), 0),
            10 => (at(a) | at(b), 0),
            14 | 15 if at_hand.is_some() => (0, 0),
            14 | 15 => {
                // How many of the elements satisfy the body.
                let all = &facts.elements[a as usize];
                let of_body = |element: &i64| values(sheet, facts, verdicts, Some((a, *element)))[b as usize];
                let holds = all.iter().map(of_body).sum::<i64>();
                (if kind == 14 { holds == all.len() as i64 } else { holds > 0 } as i64, 0)
            }
            16 => (facts.elements[a as usize].len() as i64, 0),
            17 => (at_hand.filter(|&(list, _)| list == a).map_or(0, |(_, element)| element), 0),
            _ => (1 - at(a), 0),
        };
        of.push(value);
        units.push(unit);
    }
    of
}

/// Instances of a sheet's entities, of which the named ones are looked at alone.
struct Instances {
    /// Entity and number of each, sorted.
    all: Vec<(usize, i64)>,
    /// The states of those that are not named stay what they are here.
    others: Vec<i64>,
    named: Vec<i64>,
}

impl Instances {
    /// Up to three of each entity, and one of them named.
    fn random(sheet: &Sheet, random: &mut Random) -> Instances {
        let (mut all, mut others, mut named) = (vec![], vec![], vec![]);
        for (entity, &[states, ..]) in sheet.tables[ENTITIES].iter().enumerate() {
            let (first, count) = (random.within(-4, 4), 1 + random.below(3));
            for number in first..first + count as i64 {
                all.push((entity, number));
                others.push(random.below(states as usize) as i64);
            }
            named.push(first + random.below(count) as i64);
        }
        Instances { all, others, named }
    }

    /// The records, with these states of the named instances.
    fn records(&self, states: &[i64]) -> Vec<i64> {
        let state = |(&(entity, number), other): (&(usize, i64), &i64)| {
            let state = if self.named[entity] == number { states[entity] } else { *other };
            [entity as i64, number, state]
        };
        self.all.iter().zip(&self.others).flat_map(state).collect()
    }

    /// A call on the records, as one on the states of the named instances.
    fn call(&self, states: &mut [i64], call: impl FnOnce(&mut [i64], &[i64]) -> Answer) -> Answer {
        let mut records = self.records(states);
        let answer = call(&mut records, &self.named);
        for (&(entity, number), record) in self.all.iter().zip(records.chunks(3)) {
            if self.named[entity] == number {
                states[entity] = record[2];
            }
        }
        assert_eq!(records, self.records(states), "nothing else is written");
        answer
    }
}

#[test]
fn verdicts_runs_and_operations_by_the_definition() {
    let (mut runs, mut moves, mut several, mut blocked, mut quantifiers) = (0, 0, 0, 0, 0);
    for (sheet, words, mut random) in sheets(2500) {
        let facts: Vec<i64> = (0..sheet.count(FACTS)).map(|fact| sheet.value_of(fact, &mut random)).collect();
        let given = vec![1; facts.len()];
        let (slots, lengths) = sheet.lent_lists(&mut random);
        let mut elements = vec![vec![]; facts.len()];
        let mut first = 0;
        for (list, length) in sheet.lists().zip(&lengths) {
            elements[list] = slots[first..first + *length as usize].to_vec();
            first += sheet.tables[FACTS][list][7] as usize;
        }
        let known = Known { values: facts.clone(), elements };
        quantifiers += sheet.tables[NODES].iter().filter(|node| [14, 15].contains(&node[0])).count();
        // Stratum by stratum; a rule cites lower strata only.
        let mut verdicts = vec![0; sheet.count(RULES)];
        for stratum in 0..16 {
            let of = values(&sheet, &known, &verdicts, None);
            for (rule, &[of_rule, when, ..]) in sheet.tables[RULES].iter().enumerate() {
                if of_rule == stratum {
                    verdicts[rule] = of[when as usize];
                }
            }
        }
        let mut found = vec![7; verdicts.len()];
        assert_eq!(reference::verdicts(&words, &facts, &given, &slots, &lengths, &mut found), Answer::default());
        assert_eq!(found, verdicts);

        let of = values(&sheet, &known, &verdicts, None);
        let start: Vec<i64> = (0..sheet.count(ENTITIES))
            .map(|entity| random.below(sheet.tables[ENTITIES][entity][0] as usize) as i64)
            .collect();
        let instances = Instances::random(&sheet, &mut random);
        for flow in 0..sheet.count(FLOWS) {
            // The run, step by step with the public operation.
            let (first, steps) = sheet.steps_of(flow);
            let wanted: Vec<i64> = sheet.tables[STEPS][first..first + steps]
                .iter()
                .map(|&[kind, what, ..]| match kind {
                    0 => random.below(1 + sheet.tables[OPERATIONS][what as usize][4] as usize) as i64 - 1,
                    _ => -1,
                })
                .collect();
            let first_step = first;
            let mut states = start.clone();
            let mut path = vec![];
            let mut step = first;
            let terminal = loop {
                let [kind, what, persona, first, routes, ..] = sheet.tables[STEPS][step];
                let route = if kind == 1 {
                    first + 1 - of[what as usize]
                } else {
                    let before = states.clone();
                    let wanted = wanted[step - first_step];
                    let operate = |states: &mut [i64], named: &[i64]| {
                        reference::operate(
                            &words, &facts, &given, &slots, &lengths, states, named, persona, what, wanted,
                        )
                    };
                    let answer = instances.call(&mut states, operate);
                    // One instance each, numbered 0, answers the same.
                    let each = Instances {
                        all: (0..before.len()).map(|entity| (entity, 0)).collect(),
                        others: before.clone(),
                        named: vec![0; before.len()],
                    };
                    let mut alone = before.clone();
                    assert_eq!((each.call(&mut alone, operate), alone), (answer, states.clone()));
                    check_operation(&sheet, &of, (what as usize, wanted), persona, &before, &states, answer);
                    moves += (answer.refusal == 0) as usize;
                    several += (answer.refusal == 16) as usize;
                    blocked += (answer.refusal == 11 && answer.place > 0) as usize;
                    if answer.refusal == 0 {
                        first + answer.value
                    } else {
                        first + routes - 1
                    }
                };
                path.push(route as u16);
                match sheet.tables[ROUTES][route as usize] {
                    [0, next, ..] => step = next as usize,
                    [_, terminal, ..] => break terminal,
                }
            };
            let (mut left, mut buffer) = (start.clone(), vec![5; steps]);
            let answer = instances.call(&mut left, |states, named| {
                let (flow, path) = (flow as i64, &mut buffer);
                reference::run(&words, &facts, &given, &slots, &lengths, states, named, flow, &wanted, path)
            });
            assert_eq!(answer, Answer { value: terminal, count: path.len() as i64, ..Answer::default() });
            path.resize(steps, 0);
            assert_eq!((left, buffer), (states, path));
            runs += 1;
        }
    }
    assert!(runs > 1000 && moves > 1000, "{runs} runs, {moves} operations that went through");
    assert!(several > 100, "{several} operations with several applicable outcomes");
    assert!(blocked > 100, "{blocked} operations blocked by another entity than 0");
    assert!(quantifiers > 1000, "{quantifiers} quantifiers");
}

/// An operation's answer and states by the definition, and S3a and S4 of what it did.
fn check_operation(
    sheet: &Sheet,
    of: &[i64],
    (operation, wanted): (usize, i64),
    persona: i64,
    before: &[i64],
    after: &[i64],
    answer: Answer,
) {
    let [mask, precondition, first, count, outcomes, ..] = sheet.tables[OPERATIONS][operation];
    let effects = &sheet.tables[EFFECTS][first as usize..(first + count) as usize];
    let of_outcome = |outcome: i64| effects.iter().filter(move |effect| effect[3] == outcome);
    let starts = |effect: &Record| before[effect[0] as usize] == effect[1];
    let matched = |named: &Record| of_outcome(named[3]).any(|other| other[0] == named[0] && starts(other));
    let applicable = |outcome: &i64| of_outcome(*outcome).all(matched);
    let applicable: Vec<i64> = (0..outcomes).filter(applicable).collect();
    let (mut expected, mut place) = (before.to_vec(), 0);
    let refusal = if mask >> persona & 1 == 0 {
        9
    } else if of[precondition as usize] == 0 {
        10
    } else if wanted == -1 && applicable.len() > 1 {
        16
    } else if let Some(&outcome) = applicable.iter().find(|&&outcome| wanted == -1 || outcome == wanted) {
        assert_eq!(answer.value, outcome);
        let words = sheet.words();
        for effect in of_outcome(outcome).filter(|effect| starts(effect)) {
            expected[effect[0] as usize] = effect[2];
            let [entity, from, to, ..] = *effect;
            assert_eq!(reference::admissible(&words, entity, from, persona, operation as i64).value, 1);
            assert_eq!(reference::can_cause(&words, persona, entity, from, to).value, 1);
        }
        0
    } else {
        let asked = if wanted == -1 { 0 } else { wanted };
        place = of_outcome(asked).find(|named| !matched(named)).expect("it is not applicable")[0];
        11
    };
    assert_eq!((answer.refusal, answer.place, after), (refusal, place, &expected[..]));
}

#[test]
fn sizes_and_reached_states_by_the_definition() {
    for (sheet, words, _) in sheets(600) {
        let mut sizes: Vec<i64> = vec![];
        for (node, &[kind, a, b, c, ..]) in sheet.tables[NODES].iter().enumerate() {
            let children: &[i64] = match kind {
                4 | 5 | 9 | 10 => &[a, b],
                6 | 11 => &[a],
                7 => &[b, c],
                14 | 15 => &[b],
                _ => &[],
            };
            sizes.push(1 + children.iter().map(|&child| sizes[child as usize]).sum::<i64>());
            assert_eq!(reference::tree_size(&words, node as i64).value, sizes[node]);
        }
        for (entity, record) in sheet.tables[ENTITIES].iter().enumerate() {
            let mut mask = 1i64 << record[1];
            for _ in 0..16 {
                for &[of, from, to, ..] in &sheet.tables[TRANSITIONS] {
                    if of == entity as i64 && mask >> from & 1 == 1 {
                        mask |= 1 << to;
                    }
                }
            }
            // A scan for each state of the mask.
            let expected = Answer { value: mask, count: mask.count_ones() as i64, ..Answer::default() };
            assert_eq!(reference::reachable(&words, entity as i64), expected);
        }
    }
}

//! The generator makes accepted sheets with everything that 01 and 02 speak of; damage makes refused ones.

use difference::damage;
use difference::generate::*;
use difference::held::{Held, Instance};
use difference::random::Random;
use difference::rounds::Facts;
use fernpocket::States;
use reference::{Answer, HEADER, INSTANCE_WORDS, M, MOST_INSTANCES, RECORD};
use std::collections::{BTreeMap, BTreeSet};

/// What the sheets have, and how many have it.
#[derive(Default)]
struct Seen(BTreeMap<String, usize>);

impl Seen {
    fn note(&mut self, what: impl Into<String>, there: bool) {
        *self.0.entry(what.into()).or_default() += there as usize;
    }
}

/// How often a unit of a duration has a smaller one: days, hours, minutes, seconds.
fn times(unit: i64, smaller: i64) -> i64 {
    [24, 60, 60][unit as usize..smaller as usize].iter().product()
}

/// The type of every node, with its set, currency or unit.
fn sorts(sheet: &Sheet) -> Vec<(i64, i64)> {
    let mut sorts: Vec<(i64, i64)> = vec![];
    for &[kind, a, b, ..] in &sheet.tables[NODES] {
        sorts.push(match kind {
            0 | 6 => (1, 0),
            2 => (2, b),
            3 => (sheet.tables[FACTS][a as usize][0], sheet.tables[FACTS][a as usize][5]),
            // Of two durations the smaller unit; else they are the same.
            4 | 5 => sorts[a as usize].max(sorts[b as usize]),
            12 => (3, b),
            13 => (4, b),
            16 => (1, 0),
            17 => (sheet.tables[FACTS][a as usize][6], sheet.tables[FACTS][a as usize][5]),
            _ => (0, 0),
        });
    }
    sorts
}

/// The children of a node.
fn children(node: &Record) -> Vec<i64> {
    match *node {
        [4 | 5 | 9 | 10, a, b, ..] => vec![a, b],
        [6 | 11, a, ..] => vec![a],
        [7, _, a, b, ..] => vec![a, b],
        [14 | 15, _, body, ..] => vec![body],
        _ => vec![],
    }
}

/// The nodes of the tree under a node, itself too.
fn tree(nodes: &[Record], root: i64) -> Vec<&Record> {
    let root = &nodes[root as usize];
    let under = children(root).into_iter().flat_map(|child| tree(nodes, child));
    [root].into_iter().chain(under).collect()
}

fn quantifies(node: &Record) -> bool {
    [14, 15].contains(&node[0])
}

/// The lists of which the tree under a node cites an element outside of every quantifier over that list.
fn open(nodes: &[Record], root: i64) -> Vec<i64> {
    match nodes[root as usize] {
        [17, list, ..] => vec![list],
        [14 | 15, list, body, ..] => open(nodes, body).into_iter().filter(|&other| other != list).collect(),
        ref node => children(node).into_iter().flat_map(|child| open(nodes, child)).collect(),
    }
}

/// What there is of lists and quantifiers.
fn note_lists(seen: &mut Seen, sheet: &Sheet) {
    let (facts, nodes) = (&sheet.tables[FACTS], &sheet.tables[NODES]);
    let lists: Vec<usize> = sheet.lists().collect();
    for (element, name) in ["Bool", "Int", "Enum"].into_iter().enumerate() {
        for largest in [0, 1, 2, 100] {
            let some = lists.iter().any(|&list| facts[list][6..] == [element as i64, largest]);
            seen.note(format!("a list of up to {largest} of {name}"), some);
        }
    }
    let of_set = |kind: i64, set: i64| facts.iter().any(|fact| fact[0] == kind && fact[5] == set);
    let some = lists.iter().any(|&list| facts[list][6] == 2 && of_set(2, facts[list][5]));
    seen.note("an Enum and a list of Enums of one set", some);
    seen.note("facts without a list", !facts.is_empty() && lists.is_empty());
    seen.note("facts that are all lists", facts.len() > 2 && lists.len() == facts.len());
    for kind in 14..18 {
        for (element, name) in ["Bool", "Int", "Enum"].into_iter().enumerate() {
            let some = nodes.iter().any(|node| node[0] == kind && facts[node[1] as usize][6] == element as i64);
            seen.note(format!("node kind {kind} over a list of {name}"), some);
        }
        let later = |list: i64| list as usize != lists[0] && facts[lists[0]][7] > 0;
        let some = nodes.iter().any(|node| node[0] == kind && later(node[1]));
        seen.note(format!("node kind {kind} over a list that is not the first"), some);
    }
    for kind in [14, 15] {
        let body = |wanted: &dyn Fn(&[&Record], i64) -> bool| {
            let quantifiers = nodes.iter().filter(|node| node[0] == kind);
            quantifiers.into_iter().any(|node| wanted(&tree(nodes, node[2]), node[1]))
        };
        let name = if kind == 14 { "for all" } else { "exists" };
        for inner in [0, 1, 2, 3, 4, 5, 6, 7, 8, 9, 10, 11, 12, 13, 16, 17] {
            let some = body(&|body, _| body.iter().any(|node| node[0] == inner));
            seen.note(format!("{name}, with node kind {inner} in its body"), some);
        }
        let some = body(&|body, list| body.iter().filter(|node| node[0] == 17 && node[1] == list).count() > 1);
        seen.note(format!("{name}, with its element twice"), some);
        let some = body(&|body, _| body.iter().all(|node| node[0] != 17));
        seen.note(format!("{name}, without an element"), some);
        let some = body(&|body, list| body.iter().any(|node| node[0] == 16 && node[1] != list));
        seen.note(format!("{name}, with the length of another list"), some);
        seen.note(format!("{name}, with a body of more than 30 nodes"), body(&|body, _| body.len() > 30));
        for outer in [7, 9, 10, 11] {
            let some = nodes
                .iter()
                .any(|node| node[0] == outer && children(node).iter().any(|&child| nodes[child as usize][0] == kind));
            seen.note(format!("{name} under node kind {outer}"), some);
        }
    }
    let rules = sheet.tables[RULES].iter().map(|rule| rule[1]);
    let operations = sheet.tables[OPERATIONS].iter().map(|operation| operation[1]);
    let branches = sheet.tables[STEPS].iter().filter(|step| step[0] == 1).map(|step| step[1]);
    let owners = [
        ("a rule", rules.collect::<Vec<_>>()),
        ("an operation", operations.collect()),
        ("a branch", branches.collect()),
    ];
    for (owner, roots) in owners {
        let some = |wanted: &dyn Fn(&[&Record]) -> bool| roots.iter().any(|&root| wanted(&tree(nodes, root)));
        let over = |tree: &[&Record]| -> Vec<i64> {
            tree.iter().filter(|node| quantifies(node)).map(|node| node[1]).collect()
        };
        seen.note(format!("{owner} over a quantifier"), some(&|tree| !over(tree).is_empty()));
        seen.note(format!("{owner} over the element of a list"), some(&|tree| tree.iter().any(|node| node[0] == 17)));
        seen.note(format!("{owner} over a length"), some(&|tree| tree.iter().any(|node| node[0] == 16)));
        let two = |same: bool| move |lists: &[i64]| lists.windows(2).any(|pair| (pair[0] == pair[1]) == same);
        seen.note(format!("{owner} over two quantifiers of one list"), some(&|tree| two(true)(&over(tree))));
        seen.note(format!("{owner} over quantifiers of two lists"), some(&|tree| two(false)(&over(tree))));
    }
    let loose =
        (0..nodes.len() as i64).filter(|&node| !open(nodes, node).is_empty() && sorts(sheet)[node as usize] == (0, 0));
    let loose: Vec<i64> = loose.collect();
    let some = loose.iter().any(|&node| quantifies(&nodes[node as usize]));
    seen.note("a quantifier over one list whose body cites another's element", some);
    seen.note(
        "an element outside of every quantifier, under a not",
        loose.iter().any(|&node| nodes[node as usize][0] == 11),
    );
}

/// The children of a sum, a difference or a comparison.
fn of_two(node: &Record) -> Option<(&'static str, [i64; 2])> {
    match *node {
        [4, a, b, ..] => Some(("sum", [a, b])),
        [5, a, b, ..] => Some(("difference", [a, b])),
        [7, _, a, b, ..] => Some(("comparison", [a, b])),
        _ => None,
    }
}

fn note(seen: &mut Seen, sheet: &Sheet) {
    let nodes = &sheet.tables[NODES];
    for kind in 0..18 {
        seen.note(format!("node kind {kind}"), nodes.iter().any(|node| node[0] == kind));
    }
    for operator in 0..6 {
        seen.note(format!("operator {operator}"), nodes.iter().any(|node| node[0] == 7 && node[1] == operator));
    }
    for (what, literals) in [
        ("-M", -M..=-M),
        ("between -M and -1", 1 - M..=-2),
        ("-1", -1..=-1),
        ("0", 0..=0),
        ("1", 1..=1),
        ("between 1 and M", 2..=M - 1),
        ("M", M..=M),
    ] {
        let some = nodes.iter().any(|node| node[0] == 6 && literals.contains(&node[2]));
        seen.note(format!("a product by a literal {what}"), some);
    }
    let sorts = sorts(sheet);
    let sort = |node: i64| sorts[node as usize].0;
    for (of, name) in ["Bool", "Int", "Enum", "Money", "Duration"].into_iter().enumerate() {
        for operator in 0..if [0, 2].contains(&of) { 2 } else { 6 } {
            let some = nodes.iter().any(|n| n[0] == 7 && n[1] == operator && sort(n[2]) == of as i64);
            seen.note(format!("{name} compared by operator {operator}"), some);
        }
        for default in 0..2 {
            let some = sheet.tables[FACTS].iter().any(|fact| fact[0] == of as i64 && fact[3] == default);
            seen.note(format!("{name} fact, defaults {default}"), some);
        }
    }
    for (kind, name) in [(4, "sum"), (5, "difference")] {
        let some = |of: i64| nodes.iter().any(|node| node[0] == kind && sort(node[1]) == of);
        seen.note(format!("a {name} of Ints"), some(1));
        seen.note(format!("a {name} of money"), some(3));
    }
    let pairs: Vec<(&str, [i64; 2])> = nodes.iter().filter_map(of_two).collect();
    for (unit, other) in (0..16).map(|code| (code / 4, code % 4)) {
        for name in ["sum", "difference", "comparison"] {
            let some = pairs.iter().any(|&(of, children)| {
                of == name && children.map(|child| sorts[child as usize]) == [(4, unit), (4, other)]
            });
            seen.note(format!("a {name} of durations, unit {unit} and unit {other}"), some);
        }
    }
    let just_fits = |one: i64, other: i64| match nodes[one as usize] {
        [13, v, unit, ..] => sorts[other as usize].1 > unit && v.abs() == M / times(unit, sorts[other as usize].1),
        _ => false,
    };
    let some = pairs.iter().any(|&(_, [one, other])| just_fits(one, other) || just_fits(other, one));
    seen.note("a literal of which no more would fit into a smaller unit", some);
    note_lists(seen, sheet);
    let mut named = vec![false; nodes.len()];
    nodes.iter().flat_map(children).for_each(|child| named[child as usize] = true);
    let owners = [(RULES, 1), (OPERATIONS, 1)];
    for node in owners.iter().flat_map(|&(kind, word)| sheet.tables[kind].iter().map(move |r| r[word])) {
        named[node as usize] = true;
    }
    sheet.tables[STEPS].iter().filter(|step| step[0] == 1).for_each(|step| named[step[1] as usize] = true);
    seen.note("a node that nothing names", named.contains(&false));
    seen.note("every node is named", !nodes.is_empty() && !named.contains(&false));
    let rules = &sheet.tables[RULES];
    seen.note("two rules of one stratum", rules.windows(2).any(|pair| pair[0][0] == pair[1][0]));
    seen.note("rules of several strata", rules.windows(2).any(|pair| pair[0][0] < pair[1][0]));
    seen.note("a rule of stratum 15", rules.iter().any(|rule| rule[0] == 15));
    seen.note("a rule that is a citation", rules.iter().any(|rule| nodes[rule[1] as usize][0] == 8));

    let mut transitions = sheet.tables[TRANSITIONS].clone();
    transitions.sort();
    seen.note("a transition twice", transitions.windows(2).any(|pair| pair[0] == pair[1]));
    seen.note("an entity of 16 states", sheet.tables[ENTITIES].iter().any(|entity| entity[0] == 16));
    seen.note("an entity of one state", sheet.tables[ENTITIES].iter().any(|entity| entity[0] == 1));
    let words = sheet.words();
    for (entity, &[states, initial, ..]) in sheet.tables[ENTITIES].iter().enumerate() {
        let reached = reference::reachable(&words, entity as i64).value.count_ones() as i64;
        seen.note("an entity of which some states are reached, and others not", 1 < reached && reached < states);
        seen.note("an entity of 8 states or more that are all reached", 8 <= states && reached == states);
        seen.note("an entity of which states are reached from another than 0", 0 < initial && 1 < reached);
    }
    for &[mask, _, first, count, outcomes, ..] in &sheet.tables[OPERATIONS] {
        let effects = &sheet.tables[EFFECTS][first as usize..(first + count) as usize];
        seen.note(format!("an operation of {outcomes} outcomes"), true);
        seen.note("a mask of one persona", mask.count_ones() == 1);
        seen.note("a mask of several personas", mask.count_ones() > 1);
        for outcome in effects.chunk_by(|a, b| a[3] == b[3]) {
            let pair = |test: fn(&Record, &Record) -> bool| {
                outcome.iter().enumerate().any(|(i, a)| outcome[..i].iter().any(|b| test(a, b)))
            };
            seen.note("an outcome with several sources of an entity", pair(|a, b| a[0] == b[0]));
            seen.note("an outcome with several entities", pair(|a, b| a[0] != b[0]));
            seen.note("an outcome whose effects could follow each other", pair(|a, b| a[0] == b[0] && a[1] == b[2]));
        }
    }
    for flow in 0..sheet.count(FLOWS) {
        let (first, steps) = sheet.steps_of(flow);
        let mut reached = vec![false; steps];
        reached[0] = true;
        for step in 0..steps {
            let [kind, what, persona, routes, count, ..] = sheet.tables[STEPS][first + step];
            for route in &sheet.tables[ROUTES][routes as usize..(routes + count) as usize] {
                match route[0] {
                    0 => reached[route[1] as usize - first] |= reached[step],
                    _ => seen.note(format!("terminal {}", route[1]), true),
                }
            }
            seen.note(format!("a step of kind {kind}"), true);
            let outside = kind == 0 && sheet.tables[OPERATIONS][what as usize][0] >> persona & 1 == 0;
            seen.note("a step whose persona is not in the mask", outside);
        }
        seen.note("a step that no route reaches", reached.contains(&false));
        seen.note("a flow of one step", steps == 1);
        seen.note("a flow of more than 100 steps", steps > 100);
    }
    for (kind, limit) in reference::LIMITS.into_iter().enumerate() {
        seen.note(format!("count {kind} is 0"), sheet.count(kind) == 0);
        seen.note(format!("count {kind} is its largest"), sheet.count(kind) == limit as usize);
    }
    for power in 5..15 {
        seen.note(format!("about 2^{power} words"), (words.len() >> power) == 1);
    }
}

/// What is printed, and has to be there at least three times.
fn made(seen: &Seen) {
    for (what, times) in &seen.0 {
        println!("{times:>7} {what}");
    }
    let never: Vec<_> = seen.0.iter().filter(|(_, &times)| times < 3).collect();
    assert!(never.is_empty(), "hardly or never made: {never:?}");
}

#[test]
fn everything_of_01_is_made() {
    let mut seen = Seen::default();
    for round in 0..3000 {
        let mut random = Random::of_round(3, round);
        let wish = if round % 50 == 0 { Wish::eighths(8) } else { Wish::random(&mut random) };
        let sheet = sheet(&wish, &mut random);
        let words = sheet.words();
        assert_eq!(reference::check(&words).refusal, 0, "round {round}");
        note(&mut seen, &sheet);
    }
    made(&seen);
    for outcomes in 1..=8 {
        assert!(seen.0.contains_key(&format!("an operation of {outcomes} outcomes")));
    }
}

/// The unit of a duration that is a leaf, and how far from 0 its range goes, on a sheet whose nodes before this are good.
fn leaf(words: &[i64], node: i64) -> Option<(i64, i64)> {
    let record = |number: i64| &words[HEADER + RECORD * number as usize..];
    match *record(words[1 + FACTS] + node) {
        [13, v, unit, ..] => Some((unit, v.abs())),
        [3, fact, ..] => match *record(fact) {
            [4, min, max, _, _, unit, ..] => Some((unit, min.abs().max(max.abs()))),
            _ => None,
        },
        _ => None,
    }
}

#[test]
fn conversions_that_leave_m_are_made() {
    let mut seen = Seen::default();
    for name in ["sum", "difference", "comparison"] {
        seen.note(format!("the first child of a {name} leaves -M..M"), false);
        seen.note(format!("the second child of a {name} leaves -M..M"), false);
    }
    for round in 0..3000 {
        let mut random = Random::of_round(4, round);
        let sheet = sheet(&Wish::random(&mut random), &mut random);
        for _ in 0..20 {
            let words = damage::sheet(&sheet, &mut random);
            let answer = reference::check(&words);
            let node = answer.place - words.get(1 + FACTS).unwrap_or(&0);
            if answer.refusal != 3 || !(0..words[1 + NODES]).contains(&node) {
                continue;
            }
            let bad: &Record = words[HEADER + RECORD * answer.place as usize..].first_chunk().unwrap();
            let Some((name, children)) = of_two(bad) else { continue };
            if !children.iter().all(|child| (0..node).contains(child)) {
                continue;
            }
            if let [Some(one), Some(other)] = children.map(|child| leaf(&words, child)) {
                let leaves = |(unit, size): (i64, i64), (to, _): (i64, i64)| unit < to && size * times(unit, to) > M;
                seen.note(format!("the first child of a {name} leaves -M..M"), leaves(one, other));
                seen.note(format!("the second child of a {name} leaves -M..M"), leaves(other, one));
            }
        }
    }
    made(&seen);
}

/// What is wrong with a record of lists or quantifiers that was refused, on a sheet whose records before it are good.
fn fault(sheet: &Sheet, place: i64) -> Option<String> {
    let (facts, nodes) = (&sheet.tables[FACTS], &sheet.tables[NODES]);
    let tables = (FACTS..=ROUTES).scan(place as usize, |place, kind| {
        let here = *place;
        *place = place.wrapping_sub(sheet.count(kind));
        Some((kind, here))
    });
    let (kind, index) = tables.into_iter().find(|&(kind, index)| index < sheet.count(kind))?;
    let record = &sheet.tables[kind][index];
    // Does the word name a node before this one, of type Bool, that nothing else has named?
    let sorts = |node: i64| {
        let mut before = sheet.clone();
        before.tables[NODES].truncate(index);
        self::sorts(&before)[node as usize]
    };
    let owner = |name: &str, root: i64| {
        let there = (0..nodes.len() as i64).contains(&root);
        (there && !open(nodes, root).is_empty())
            .then(|| format!("{name} that cites an element outside of its list's quantifier"))
    };
    match (kind, *record) {
        (FACTS, [LIST, min, max, has_default, default, set, element, largest]) => Some(
            if !(0..=2).contains(&element) {
                "a list of a type that is not listed"
            } else if !(0..=100).contains(&largest) {
                "a list with a wrong largest length"
            } else if has_default != 0 || default != 0 {
                "a list with a default"
            } else if element == 2 && min == 0 && (0..=255).contains(&max) && (0..128).contains(&set) {
                "a list of Enums with another max than its set"
            } else {
                "a list with a wrong min, max or set"
            }
            .to_string(),
        ),
        (FACTS, [.., element, largest]) => ((element, largest) != (0, 0)).then(|| "a fact with words of a list".into()),
        (NODES, [3, fact, ..]) => {
            facts.get(fact as usize).is_some_and(|fact| fact[0] == LIST).then(|| "a fact node that names a list".into())
        }
        (NODES, [kind @ 14..=17, fact, body, ..]) => {
            let Some(fact) = usize::try_from(fact).ok().and_then(|fact| facts.get(fact)) else {
                return Some(format!("node kind {kind} over a fact that does not exist"));
            };
            if fact[0] != LIST {
                return Some(format!("node kind {kind} over a fact that is no list"));
            }
            if kind > 15 || !(0..index as i64).contains(&body) {
                return None;
            }
            if tree(nodes, body).into_iter().any(quantifies) {
                return Some(format!("node kind {kind} with a quantifier in its body"));
            }
            (sorts(body).0 != 0).then(|| format!("node kind {kind} with a body that is no Bool"))
        }
        (RULES, [_, root, ..]) => owner("a rule", root),
        (OPERATIONS, [_, root, ..]) => owner("an operation", root),
        (STEPS, [1, root, ..]) => owner("a branch", root),
        _ => None,
    }
}

#[test]
fn bad_lists_and_quantifiers_are_made() {
    let mut seen = Seen::default();
    for what in ["a list of a type that is not listed", "a list with a wrong largest length", "a list with a default"] {
        seen.note(what, false);
    }
    for what in ["a list of Enums with another max than its set", "a list with a wrong min, max or set"] {
        seen.note(what, false);
    }
    seen.note("a fact with words of a list", false);
    seen.note("a fact node that names a list", false);
    for kind in 14..18 {
        seen.note(format!("node kind {kind} over a fact that does not exist"), false);
        seen.note(format!("node kind {kind} over a fact that is no list"), false);
    }
    for kind in [14, 15] {
        seen.note(format!("node kind {kind} with a quantifier in its body"), false);
        seen.note(format!("node kind {kind} with a body that is no Bool"), false);
    }
    for owner in ["a rule", "an operation", "a branch"] {
        seen.note(format!("{owner} that cites an element outside of its list's quantifier"), false);
    }
    for round in 0..3000 {
        let mut random = Random::of_round(6, round);
        let sheet = sheet(&Wish::random(&mut random), &mut random);
        for _ in 0..20 {
            let words = damage::sheet(&sheet, &mut random);
            let answer = reference::check(&words);
            if answer.refusal == 3 {
                if let Some(fault) = fault(&Sheet::read(&words), answer.place) {
                    seen.note(fault, true);
                }
            }
        }
    }
    made(&seen);
}

#[test]
fn lent_lists_of_every_sort_are_made() {
    let mut seen = Seen::default();
    for round in 0..3000 {
        let mut random = Random::of_round(7, round);
        let sheet = sheet(&Wish::random(&mut random), &mut random);
        let words = sheet.words();
        let lists: Vec<usize> = sheet.lists().collect();
        for _ in 0..10 {
            let facts = Facts::random(&sheet, &mut random);
            let [values, given, slots, lengths] =
                [&facts.values, &facts.given, &facts.lists, &facts.lengths].map(|lent| lent.slice());
            let mut verdicts = vec![0; sheet.count(RULES)];
            let answer = reference::verdicts(&words, values, given, slots, lengths, &mut verdicts);
            if answer.refusal == 4 {
                let right: i64 = lists.iter().map(|&list| sheet.tables[FACTS][list][7]).sum();
                seen.note("lists that are too short", slots.len() < right as usize);
                seen.note("lists that are too long", slots.len() > right as usize);
                seen.note("too few lengths", lengths.len() < lists.len());
                seen.note("too many lengths", lengths.len() > lists.len());
                seen.note("lists lent where there are none", lists.is_empty() && !slots.is_empty());
                continue;
            }
            let mut slots = slots;
            for (number, &list) in lists.iter().enumerate() {
                let [_, min, max, .., largest] = sheet.tables[FACTS][list];
                let (own, after) = slots.split_at(largest as usize);
                slots = after;
                let (length, given) = (lengths[number], given[list]);
                let here = answer.place == list as i64;
                let refused = |refusal: i64| answer.refusal == refusal && here;
                seen.note("a list that is refused 6 for its flag", refused(6) && given != 1);
                seen.note("a length below 0, refused 6", refused(6) && given == 1 && length < 0);
                seen.note(
                    "a length one past the largest, refused 6",
                    refused(6) && given == 1 && length == largest + 1,
                );
                seen.note("a length far past the largest, refused 6", refused(6) && given == 1 && length > 1000);
                let wrong = |element: &i64| !(min..=max).contains(element);
                let elements = usize::try_from(length).ok().and_then(|length| own.get(..length));
                let (last, others) = elements.and_then(|all| all.split_last()).unwrap_or((&min, &[]));
                seen.note("a wrong last element, refused 6", refused(6) && wrong(last) && !others.iter().any(wrong));
                seen.note(
                    "a wrong element before good ones, refused 6",
                    refused(6) && !wrong(last) && others.iter().any(wrong),
                );
                seen.note("a list that is not given, with elements, refused 7", refused(7) && length > 0);
                seen.note("a list that is not given, with length 0, refused 7", refused(7) && length == 0);
                seen.note("a list that is not given, with a wrong length, refused 7", refused(7) && elements.is_none());
                seen.note("a list that is refused and not the first", refused(6) && number > 0);
                if answer.refusal != 0 {
                    continue;
                }
                let all = elements.expect("a length in range");
                seen.note("an empty list", all.is_empty());
                seen.note("a list of one element", all.len() == 1);
                seen.note("a full list", all.len() == own.len() && largest > 0);
                seen.note("a list of 100 elements", all.len() == 100);
                seen.note("a list of largest 0", largest == 0);
                seen.note("rubbish past the elements", own[all.len()..].iter().any(wrong));
                seen.note("good words past the elements", own[all.len()..].iter().any(|word| !wrong(word)));
                seen.note("a list's value word that is no element", wrong(&values[list]));
                let same = |elements: &[i64]| elements.windows(2).all(|pair| pair[0] == pair[1]);
                seen.note("elements that are all the same", all.len() > 2 && same(all));
                seen.note(
                    "elements of which the last one differs",
                    all.len() > 2 && same(&all[..all.len() - 1]) && !same(all),
                );
                seen.note("elements of which the first one differs", all.len() > 2 && same(&all[1..]) && !same(all));
            }
            if answer.refusal == 0 {
                for (rule, verdict) in sheet.tables[RULES].iter().zip(&verdicts) {
                    if let [kind @ (14 | 15), list, ..] = sheet.tables[NODES][rule[1] as usize] {
                        let number = lists.iter().position(|&other| other as i64 == list).expect("a list");
                        let name = if kind == 14 { "for all" } else { "exists" };
                        for value in 0..2 {
                            let is = *verdict == value;
                            seen.note(format!("{name} over one element is {value}"), is && lengths[number] == 1);
                            seen.note(format!("{name} over several elements is {value}"), is && lengths[number] > 1);
                        }
                        seen.note(format!("{name} over no elements"), lengths[number] == 0);
                        assert!(lengths[number] > 0 || *verdict == (kind == 14) as i64);
                    }
                }
            }
        }
    }
    made(&seen);
}

/// The entities that the effects of an operation name, of one outcome or of all.
fn touched(sheet: &Sheet, operation: i64, outcome: Option<i64>) -> BTreeSet<i64> {
    let [_, _, first, count, ..] = sheet.tables[OPERATIONS][operation as usize];
    let effects = &sheet.tables[EFFECTS][first as usize..(first + count) as usize];
    let own = |effect: &&Record| outcome.is_none_or(|outcome| effect[3] == outcome);
    effects.iter().filter(own).map(|effect| effect[0]).collect()
}

/// The entities that the operations of steps of a flow touch.
fn touched_by<'a>(sheet: &Sheet, steps: impl Iterator<Item = &'a Record>) -> BTreeSet<i64> {
    steps.filter(|step| step[0] == 0).flat_map(|step| touched(sheet, step[1], None)).collect()
}

fn key([entity, number, _]: &Instance) -> (i64, i64) {
    (*entity, *number)
}

/// What is wrong with a record that is refused 8.
fn note_fault(seen: &mut Seen, who: &str, sheet: &Sheet, records: &[Instance], place: usize) {
    let mut kind = |what: &str, there: bool| seen.note(format!("{who}, refused 8 for {what}"), there);
    let count = sheet.count(ENTITIES) as i64;
    let [entity, number, state] = records[place];
    let before = place.checked_sub(1).map(|before| records[before]);
    let known = (0..count).contains(&entity);
    let above = before.is_none_or(|before| key(&before) < (entity, number));
    kind("an entity below 0", entity < 0);
    kind("the least word as entity", entity == i64::MIN);
    kind("an entity one past the last", entity == count && above);
    kind("the greatest word as entity", entity == i64::MAX && above);
    let states = if known { sheet.tables[ENTITIES][entity as usize][0] } else { 0 };
    kind("a state below 0", known && above && state < 0);
    kind("a state one past the last", known && above && state == states);
    kind("the least word as state", known && above && state == i64::MIN);
    kind("the greatest word as state", known && above && state == i64::MAX);
    let good = known && (0..states).contains(&state);
    let is = |test: &dyn Fn(Instance) -> bool| good && before.is_some_and(test);
    kind("two equal records", is(&|before| before == [entity, number, state]));
    kind(
        "two records of one instance in two states",
        is(&|before| before[..2] == [entity, number] && before[2] != state),
    );
    kind("an instance that falls", is(&|before| before[0] == entity && before[1] > number));
    kind("an entity that falls, the instance rising", is(&|before| before[0] > entity && before[1] < number));
    let by_instance = records.is_sorted_by_key(|record| (record[1], record[0]));
    kind("records sorted by instance before entity", good && records.len() > 2 && by_instance);
    for (what, places) in [("record 0", 0..1), ("a record of 100 to 254", 100..255), ("record 255", 255..256)] {
        kind(what, places.contains(&place));
    }
}

/// What there is of records and named instances that a call with good facts and numbers was lent, what it read, and what
/// came of it.
fn note_held(
    seen: &mut Seen,
    who: &str,
    sheet: &Sheet,
    held: &Held,
    read: &BTreeSet<i64>,
    answer: Answer,
    after: &[i64],
) {
    let (states, named, count) = (held.states.slice(), held.instances.slice(), sheet.count(ENTITIES));
    let (records, rest) = states.as_chunks::<INSTANCE_WORDS>();
    if answer.refusal == 4 {
        let mut kind = |what: &str, there: bool| seen.note(format!("{who}, refused 4 for {what}"), there);
        kind("a word more than records", rest.len() == 1);
        kind("two words more than records", rest.len() == 2);
        kind("257 records", rest.is_empty() && records.len() == MOST_INSTANCES + 1);
        kind("more records", rest.is_empty() && records.len() > MOST_INSTANCES + 1);
        kind("an instance number too few", named.len() + 1 == count);
        kind("an instance number too many", named.len() == count + 1);
        return;
    }
    let at = |entity: i64| records.iter().position(|record| key(record) == (entity, named[entity as usize]));
    let of = |entity: i64| records.iter().filter(|record| record[0] == entity).count();
    let above = records.windows(2).all(|pair| key(&pair[0]) < key(&pair[1]));
    let exists = |&[entity, _, state]: &Instance| {
        (0..count as i64).contains(&entity) && (0..sheet.tables[ENTITIES][entity as usize][0]).contains(&state)
    };
    let missing: Vec<i64> = read.iter().copied().filter(|&entity| at(entity).is_none()).collect();
    assert_eq!(answer.refusal == 5, !missing.is_empty(), "{held:?} {read:?}");
    if answer.refusal == 5 {
        let mut kind = |what: &str, there: bool| seen.note(format!("{who}, refused 5 with {what}"), there);
        kind("other instances of the entity", missing.iter().any(|&entity| of(entity) > 0));
        kind("no instance of the entity", missing.iter().any(|&entity| of(entity) == 0));
        kind("no record at all", records.is_empty());
        kind(
            "another entity's instance of that number",
            missing
                .iter()
                .any(|&entity| records.iter().any(|record| record[0] != entity && record[1] == named[entity as usize])),
        );
        kind("records that are not sorted", !above);
        kind("an entity or a state out of range", !records.iter().all(exists));
        kind("a record for another entity that is read", missing.len() < read.len());
        return;
    }
    let mut kind = |what: &str, there: bool| seen.note(format!("{who}, {what}"), there);
    if answer.refusal == 8 {
        let place = answer.place as usize;
        let [entity, number, _] = records[place];
        let is_read = read.contains(&entity);
        kind("refused 8 at an entity that is not read", !is_read && (0..count as i64).contains(&entity));
        kind("refused 8 at an instance that is read", is_read && named[entity as usize] == number);
        kind("refused 8 at another instance of an entity that is read", is_read && named[entity as usize] != number);
        kind("refused 8, an instance that is read past the fault", read.iter().any(|&entity| at(entity) > Some(place)));
        note_fault(seen, who, sheet, records, place);
        return;
    }
    let several = records.len() > count;
    if answer.refusal != 0 {
        kind(&format!("refused {} among several instances", answer.refusal), several);
        assert_eq!(states, after);
        return;
    }
    if read.is_empty() {
        kind("of no record", records.is_empty() && count > 0);
    }
    kind("of one instance each, numbered 0", records.iter().map(key).eq((0..count as i64).map(|entity| (entity, 0))));
    kind("of 256 records", records.len() == MOST_INSTANCES);
    kind("of an entity without a record", (0..count as i64).any(|entity| of(entity) == 0));
    kind(
        "of a named instance without a record, that is not read",
        (0..count as i64).any(|e| at(e).is_none() && of(e) > 0),
    );
    let moved: Vec<usize> = (0..records.len()).filter(|&place| states[3 * place + 2] != after[3 * place + 2]).collect();
    for &place in &moved {
        let [entity, number, _] = records[place];
        assert!(read.contains(&entity) && named[entity as usize] == number, "an instance moved that is not named");
        kind("moves one of several instances", of(entity) > 1);
        kind("moves one of 8 instances or more", of(entity) >= 8);
        kind("moves an instance below 0", number < 0);
        kind("moves the instance of the least number", number == i64::MIN);
        kind("moves the instance of the greatest number", number == i64::MAX);
        kind("moves the first record", place == 0);
        kind("moves the last of several records", place > 0 && place + 1 == records.len());
    }
    kind("moves instances of two entities", moved.len() > 1);
    kind("leaves all as it was", moved.is_empty());
    let mut left = after.to_vec();
    moved.iter().for_each(|&place| left[3 * place + 2] = states[3 * place + 2]);
    assert_eq!(left, states, "a word was written that is no state");
}

#[test]
fn lent_states_of_every_sort_are_made() {
    let mut seen = Seen::default();
    for round in 0..4000 {
        let mut random = Random::of_round(8, round);
        let sheet = sheet(&Wish::random(&mut random), &mut random);
        let words = sheet.words();
        let values: Vec<i64> = (0..sheet.count(FACTS)).map(|fact| sheet.value_of(fact, &mut random)).collect();
        let given = vec![1; values.len()];
        let (lists, lengths) = sheet.lent_lists(&mut random);
        for _ in 0..10 {
            if sheet.count(OPERATIONS) > 0 {
                let held = Held::random(&sheet, &mut random);
                let operation = random.below(sheet.count(OPERATIONS));
                let [mask, _, _, _, outcomes, ..] = sheet.tables[OPERATIONS][operation];
                let (operation, any) = (operation as i64, random.below(sheet.personas) as i64);
                let persona = if random.chance(1, 8) { any } else { mask.trailing_zeros() as i64 };
                let wanted = random.within(-1, outcomes - 1);
                let (mut after, named) = (held.states.slice().to_vec(), held.instances.slice());
                let answer = reference::operate(
                    &words, &values, &given, &lists, &lengths, &mut after, named, persona, operation, wanted,
                );
                let read = touched(&sheet, operation, None);
                note_held(&mut seen, "an operation", &sheet, &held, &read, answer, &after);
                if answer.refusal == 5 && wanted != -1 {
                    let own = touched(&sheet, operation, Some(wanted));
                    let there = |entity: &i64| {
                        let record = [*entity, named[*entity as usize]];
                        held.states.slice().chunks(INSTANCE_WORDS).any(|words| words[..2] == record)
                    };
                    seen.note("an operation, refused 5 for another outcome than the wanted one", own.iter().all(there));
                }
            }
            if sheet.count(FLOWS) > 0 {
                let held = Held::random(&sheet, &mut random);
                let flow = random.below(sheet.count(FLOWS));
                let (first, count) = sheet.steps_of(flow);
                let steps = &sheet.tables[STEPS][first..first + count];
                let (wanted, mut path) = (vec![-1; count], vec![0; count]);
                let named = held.instances.slice();
                let mut run = |states: &mut [i64]| {
                    reference::run(
                        &words,
                        &values,
                        &given,
                        &lists,
                        &lengths,
                        states,
                        named,
                        flow as i64,
                        &wanted,
                        &mut path,
                    )
                };
                let mut after = held.states.slice().to_vec();
                let answer = run(&mut after);
                let read = touched_by(&sheet, steps.iter());
                note_held(&mut seen, "a run", &sheet, &held, &read, answer, &after);
                if answer.refusal != 5 {
                    continue;
                }
                // With a record for each of those that are missing, does the run come to a step that touches one of them?
                let mut states = States::from_words(held.states.slice().to_vec());
                let missing =
                    read.iter().filter(|&&entity| states.get(entity as usize, named[entity as usize]).is_none());
                let missing: BTreeSet<i64> = missing.copied().collect();
                for &entity in &missing {
                    states.insert(entity as usize, named[entity as usize], 0);
                }
                let answer = run(states.words_mut());
                if answer.refusal == 0 {
                    let routes = &path[..answer.count as usize];
                    let of_step =
                        |step: &&Record| routes.iter().any(|&r| (step[3]..step[3] + step[4]).contains(&(r as i64)));
                    let reached = touched_by(&sheet, steps.iter().filter(of_step));
                    seen.note("a run, refused 5 for steps that it does not reach alone", missing.is_disjoint(&reached));
                    seen.note("a run, refused 5 for a step that it reaches", !missing.is_disjoint(&reached));
                }
            }
        }
    }
    made(&seen);
}

//! The sheet checker: refusals 1, 2 and 3, in one pass over the records.

use crate::tables::{below, Record, Tables};
use crate::Refused;
use std::ops::Deref;

/// M, the largest size of a number.
pub const M: i64 = 1_000_000_000;

/// The type of a fact that is a list.
pub const LIST: i64 = 5;

/// The largest length that a list may have.
pub const MOST_LENGTH: i64 = 100;

/// How many seconds each unit of a duration has: days, hours, minutes, seconds.
const SECONDS: [i64; 4] = [24 * 60 * 60, 60 * 60, 60, 1];

/// A type: its number as a fact has it, and the set of an Enum, the currency of money or the unit of a duration.
#[derive(Clone, Copy, PartialEq, Eq)]
struct Type {
    number: u8,
    of: u8,
}

impl Type {
    const BOOL: Type = Type { number: 0, of: 0 };
    const INT: Type = Type { number: 1, of: 0 };
    const ENUM: u8 = 2;
    const MONEY: u8 = 3;
    const DURATION: u8 = 4;

    /// Does the type allow sums, differences and an order?
    fn measures(self) -> bool {
        self == Type::INT || self.number >= Type::MONEY
    }

    /// What values of two types are multiplied by before they meet: durations are taken to the smaller of their units.
    /// None where the types do not go together.
    fn factors(self, other: Type) -> Option<(i64, i64)> {
        if self == other {
            return Some((1, 1));
        }
        if self.number != Type::DURATION || other.number != Type::DURATION {
            return None;
        }
        // Smaller units have larger numbers.
        let [x, y, smaller] = [self.of, other.of, self.of.max(other.of)].map(|unit| SECONDS[unit as usize]);
        Some((x / smaller, y / smaller))
    }
}

/// What is known of a node that is good.
#[derive(Clone, Copy)]
struct Known {
    kind: Type,
    low: i32,
    high: i32,
    cites: Cites,
    named: bool,
}

/// What a node's tree cites.
#[derive(Clone, Copy, Default)]
struct Cites {
    /// One more than the largest rule cited, 0 where none is.
    rules: u8,
    /// Is a quantifier in it?
    quantifier: bool,
    /// The lists of which an element is cited outside of every quantifier over that list: bit f is fact f.
    open: u128,
}

impl Cites {
    /// What two trees cite.
    fn and(self, other: Cites) -> Cites {
        Cites {
            rules: self.rules.max(other.rules),
            quantifier: self.quantifier || other.quantifier,
            open: self.open | other.open,
        }
    }
}

/// An accepted sheet.
pub struct Sheet<'a> {
    tables: Tables<'a>,
    known: Vec<Known>,
}

impl<'a> Deref for Sheet<'a> {
    type Target = Tables<'a>;

    fn deref(&self) -> &Tables<'a> {
        &self.tables
    }
}

impl Sheet<'_> {
    /// Does the range of this Bool node include 1?
    pub fn may_hold(&self, node: usize) -> bool {
        self.known[node].high == 1
    }

    /// What the values of two nodes that are added, subtracted or compared are multiplied by.
    pub fn factors(&self, x: usize, y: usize) -> (i64, i64) {
        self.known[x].kind.factors(self.known[y].kind).unwrap_or((1, 1))
    }
}

/// A table's judgement: the first bad record's number in its table.
type Judged = Result<(), usize>;

/// The accepted sheet, or refusal 1, 2 or 3.
pub fn check_sheet(words: &[i64]) -> Result<Sheet<'_>, Refused> {
    let tables = Tables::read(words).ok_or(Refused::plain(1))?;
    if !tables.groups_add_up() {
        return Err(Refused::plain(2));
    }
    let mut known = Vec::with_capacity(tables.nodes.len());
    let mut before = 0;
    let mut judge = |judged: Judged, table: &[Record]| match judged {
        Ok(()) => {
            before += table.len();
            Ok(())
        }
        Err(index) => Err(Refused::at(3, before + index)),
    };
    judge(facts(tables.facts), tables.facts)?;
    judge(nodes(&tables, &mut known), tables.nodes)?;
    judge(rules(tables.rules, &mut known), tables.rules)?;
    judge(entities(tables.entities), tables.entities)?;
    let mut declared = Declared::default();
    judge(transitions(&tables, &mut declared), tables.transitions)?;
    judge(operations(&tables, &mut known), tables.operations)?;
    judge(effects(&tables, &declared), tables.effects)?;
    judge(flows(tables.flows), tables.flows)?;
    judge(steps(&tables, &mut known), tables.steps)?;
    judge(routes(&tables), tables.routes)?;
    Ok(Sheet { tables, known })
}

/// Judges each record of a table in turn.
fn each(table: &[Record], mut good: impl FnMut(usize, &Record) -> bool) -> Judged {
    match table.iter().enumerate().position(|(index, record)| !good(index, record)) {
        None => Ok(()),
        Some(index) => Err(index),
    }
}

/// Are the words from this one on unused?
fn unused(record: &Record, from: usize) -> bool {
    record[from..].iter().fold(0, |all, word| all | word) == 0
}

fn facts(table: &[Record]) -> Judged {
    let mut max_of_set = [None; 128];
    each(table, |_, record| {
        let [kind, min, max, has_default, default, set, element, largest] = *record;
        let in_order = -M <= min && min <= max && max <= M;
        // A list has min, max and set as a fact of its elements' type.
        let bounds = match if kind == LIST { element } else { kind } {
            0 => min == 0 && max == 1 && set == 0,
            1 => in_order && set == 0,
            2 => {
                min == 0
                    && (0..=255).contains(&max)
                    && below(set, 128).is_some_and(|set| *max_of_set[set].get_or_insert(max) == max)
            }
            3 => in_order && below(set, 128).is_some(),
            4 => in_order && below(set, 4).is_some(),
            _ => false,
        };
        let default_good = match has_default {
            0 => default == 0,
            1 => min <= default && default <= max,
            _ => false,
        };
        let rest_good = match kind {
            LIST => (0..=2).contains(&element) && (0..=MOST_LENGTH).contains(&largest) && has_default == 0,
            _ => unused(record, 6),
        };
        bounds && default_good && rest_good
    })
}

fn nodes(tables: &Tables, known: &mut Vec<Known>) -> Judged {
    each(tables.nodes, |_, record| match node(tables, known, record) {
        Some(node) => {
            known.push(node);
            true
        }
        None => false,
    })
}

/// What is known of a node, unless its record is bad. Its children are among the nodes known.
fn node(tables: &Tables, known: &mut [Known], record: &Record) -> Option<Known> {
    let [kind, a, b, c, ..] = *record;
    let words = match kind {
        0 | 1 | 3 | 8 | 11 | 16 | 17 => 1,
        2 | 4 | 5 | 6 | 9 | 10 | 12 | 13 | 14 | 15 => 2,
        7 => 3,
        _ => return None,
    };
    if !unused(record, 1 + words) {
        return None;
    }
    let leaf = |kind, low, high| known_node(kind, low, high, Cites::default());
    let fact = |word| below(word, tables.facts.len()).map(|fact| (fact, tables.facts[fact]));
    let list = |word| fact(word).filter(|(_, record)| record[0] == LIST);
    match kind {
        0 => leaf(Type::INT, a, a),
        1 => {
            below(a, 2)?;
            leaf(Type::BOOL, a, a)
        }
        2 => {
            below(a, 256)?;
            leaf(Type { number: Type::ENUM, of: below(b, 128)? as u8 }, a, a)
        }
        3 => {
            let (_, [kind, min, max, _, _, set, ..]) = fact(a).filter(|(_, record)| record[0] != LIST)?;
            leaf(Type { number: kind as u8, of: set as u8 }, min, max)
        }
        4 | 5 => {
            let (x, y) = name_two(known, a, b)?;
            if !x.kind.measures() {
                return None;
            }
            let (low, high) = match kind {
                4 => (x.low as i64 + y.low as i64, x.high as i64 + y.high as i64),
                _ => (x.low as i64 - y.high as i64, x.high as i64 - y.low as i64),
            };
            known_node(x.kind, low, high, x.cites.and(y.cites))
        }
        6 => {
            let a = name(known, a, Type::INT)?;
            if !(-M..=M).contains(&b) {
                return None;
            }
            // A negative literal turns the ends.
            let (low, high) = if b < 0 { (a.high, a.low) } else { (a.low, a.high) };
            known_node(Type::INT, low as i64 * b, high as i64 * b, a.cites)
        }
        7 => {
            let operator = below(a, 6)?;
            let (x, y) = name_two(known, b, c)?;
            if operator >= 2 && !x.kind.measures() {
                return None;
            }
            let (some, some_not) = comparison(operator, &x, &y);
            known_node(Type::BOOL, !some_not as i64, some as i64, x.cites.and(y.cites))
        }
        8 => {
            let rule = below(a, tables.rules.len())?;
            known_node(Type::BOOL, 0, 1, Cites { rules: rule as u8 + 1, ..Cites::default() })
        }
        9 | 10 => {
            let x = name(known, a, Type::BOOL)?;
            let y = name(known, b, Type::BOOL)?;
            let (low, high) = match kind {
                9 => (x.low.min(y.low), x.high.min(y.high)),
                _ => (x.low.max(y.low), x.high.max(y.high)),
            };
            known_node(Type::BOOL, low as i64, high as i64, x.cites.and(y.cites))
        }
        12 => leaf(Type { number: Type::MONEY, of: below(b, 128)? as u8 }, a, a),
        13 => leaf(Type { number: Type::DURATION, of: below(b, 4)? as u8 }, a, a),
        14 | 15 => {
            let (fact, _) = list(a)?;
            let body = name(known, b, Type::BOOL)?;
            if body.cites.quantifier {
                return None;
            }
            // Within the body the elements of this list are at hand.
            let cites = Cites { quantifier: true, open: body.cites.open & !(1 << fact), ..body.cites };
            known_node(Type::BOOL, 0, 1, cites)
        }
        16 => {
            let (_, [.., largest]) = list(a)?;
            leaf(Type::INT, 0, largest)
        }
        17 => {
            let (fact, [_, min, max, _, _, set, element, _]) = list(a)?;
            let kind = Type { number: element as u8, of: set as u8 };
            known_node(kind, min, max, Cites { open: 1 << fact, ..Cites::default() })
        }
        _ => {
            let x = name(known, a, Type::BOOL)?;
            known_node(Type::BOOL, 1 - x.high as i64, 1 - x.low as i64, x.cites)
        }
    }
}

/// A node with this range, unless it leaves −M..M.
fn known_node(kind: Type, low: i64, high: i64, cites: Cites) -> Option<Known> {
    let fits = -M <= low && high <= M;
    fits.then_some(Known { kind, low: low as i32, high: high as i32, cites, named: false })
}

/// The node that a word names. None where there is no such node, or it was named before.
fn name_any(known: &mut [Known], word: i64) -> Option<Known> {
    let node = known.get_mut(usize::try_from(word).ok()?)?;
    let before = *node;
    node.named = true;
    (!before.named).then_some(before)
}

/// The same, of a wanted type.
fn name(known: &mut [Known], word: i64, kind: Type) -> Option<Known> {
    name_any(known, word).filter(|node| node.kind == kind)
}

/// The Bool node that a rule, an operation or a branch names: every element that its tree cites is in a quantifier over
/// the element's list.
fn root(known: &mut [Known], word: i64) -> Option<Known> {
    name(known, word, Type::BOOL).filter(|node| node.cites.open == 0)
}

/// The two nodes that words name, two durations taken to the smaller of their units. None also where the types do not go
/// together, or a range leaves −M..M.
fn name_two(known: &mut [Known], a: i64, b: i64) -> Option<(Known, Known)> {
    let x = name_any(known, a)?;
    let y = name_any(known, b)?;
    if x.kind == y.kind {
        return Some((x, y));
    }
    let (times_x, times_y) = x.kind.factors(y.kind)?;
    let kind = if times_x == 1 { x.kind } else { y.kind };
    let taken =
        |node: Known, times: i64| known_node(kind, node.low as i64 * times, node.high as i64 * times, node.cites);
    Some((taken(x, times_x)?, taken(y, times_y)?))
}

/// Does some pair of values of the two ranges satisfy the comparison, and does some pair not?
fn comparison(operator: usize, x: &Known, y: &Known) -> (bool, bool) {
    let meet = x.low <= y.high && y.low <= x.high;
    let differ = x.low != y.high || x.high != y.low;
    match operator {
        0 => (meet, differ),
        1 => (differ, meet),
        2 => (x.low < y.high, x.high >= y.low),
        3 => (x.low <= y.high, x.high > y.low),
        4 => (x.high > y.low, x.low <= y.high),
        _ => (x.high >= y.low, x.low < y.high),
    }
}

fn rules(table: &[Record], known: &mut [Known]) -> Judged {
    each(table, |rule, record| {
        let [stratum, when, ..] = *record;
        let falls = rule > 0 && stratum < table[rule - 1][0];
        // Strata do not fall, so the largest rule cited has the highest stratum cited.
        let cites_lower = |cited: usize| cited <= rule && (cited == 0 || table[cited - 1][0] < stratum);
        (0..=15).contains(&stratum)
            && !falls
            && root(known, when).is_some_and(|node| cites_lower(node.cites.rules as usize))
            && unused(record, 2)
    })
}

fn entities(table: &[Record]) -> Judged {
    each(table, |_, record| {
        let [states, initial, ..] = *record;
        (1..=16).contains(&states) && (0..states).contains(&initial) && unused(record, 2)
    })
}

/// The declared transitions: for each entity and state, the mask of the states that it may go to.
#[derive(Default)]
struct Declared([[u16; 16]; 32]);

impl Declared {
    fn has(&self, entity: usize, from: usize, to: usize) -> bool {
        self.0[entity][from] >> to & 1 == 1
    }
}

fn transitions(tables: &Tables, declared: &mut Declared) -> Judged {
    each(tables.transitions, |_, record| {
        let mut good = || {
            let entity = below(record[0], tables.entities.len())?;
            let from = below(record[1], tables.states_of(entity))?;
            let to = below(record[2], tables.states_of(entity))?;
            declared.0[entity][from] |= 1 << to;
            Some(())
        };
        good().is_some() && unused(record, 3)
    })
}

fn operations(tables: &Tables, known: &mut [Known]) -> Judged {
    let mut expected = 0;
    each(tables.operations, |_, record| {
        let [mask, precondition, first, count, outcomes, ..] = *record;
        let in_order = first == expected && count >= 1;
        expected += count;
        mask != 0
            && below(mask, 1 << tables.personas).is_some()
            && root(known, precondition).is_some()
            && in_order
            && (1..=8).contains(&outcomes)
            && unused(record, 5)
    })
}

fn effects(tables: &Tables, declared: &Declared) -> Judged {
    for operation in 0..tables.operations.len() {
        let group = tables.group_of_operation(operation);
        let last_outcome = tables.outcomes_of(operation) as i64 - 1;
        let last_effect = group.end - 1;
        let mut outcome = 0;
        // The states that the present outcome already has effects from, by entity.
        let mut sources = [0u16; 32];
        for index in group.clone() {
            let record = &tables.effects[index];
            let rises = index > group.start && record[3] == outcome + 1;
            if rises {
                outcome += 1;
                sources = [0; 32];
            }
            let mut good = || {
                let entity = below(record[0], tables.entities.len())?;
                let from = below(record[1], tables.states_of(entity))?;
                let to = below(record[2], tables.states_of(entity))?;
                let repeated = sources[entity] >> from & 1 == 1;
                sources[entity] |= 1 << from;
                (declared.has(entity, from, to) && !repeated).then_some(())
            };
            let in_order =
                record[3] == outcome && outcome <= last_outcome && (index < last_effect || outcome == last_outcome);
            if good().is_none() || !in_order || !unused(record, 4) {
                return Err(index);
            }
        }
    }
    Ok(())
}

fn flows(table: &[Record]) -> Judged {
    let mut expected = 0;
    each(table, |_, record| {
        let [first, count, ..] = *record;
        let in_order = first == expected && count >= 1;
        expected += count;
        in_order && unused(record, 2)
    })
}

fn steps(tables: &Tables, known: &mut [Known]) -> Judged {
    let mut expected = 0;
    each(tables.steps, |_, record| {
        let [kind, what, persona, first, count, ..] = *record;
        let in_order = first == expected;
        expected += count;
        let good = match kind {
            0 => {
                below(what, tables.operations.len())
                    .is_some_and(|operation| count == tables.operations[operation][4] + 1)
                    && below(persona, tables.personas).is_some()
            }
            1 => root(known, what).is_some() && persona == 0 && count == 2,
            _ => false,
        };
        good && in_order && unused(record, 5)
    })
}

fn routes(tables: &Tables) -> Judged {
    for flow in 0..tables.flows.len() {
        let steps = tables.group_of_flow(flow);
        for step in steps.clone() {
            let later = step as i64 + 1..steps.end as i64;
            for index in tables.group_of_step(step) {
                let record = &tables.routes[index];
                let good = match record[0] {
                    0 => later.contains(&record[1]),
                    1 => (0..=2).contains(&record[1]),
                    _ => false,
                };
                if !good || !unused(record, 2) {
                    return Err(index);
                }
            }
        }
    }
    Ok(())
}

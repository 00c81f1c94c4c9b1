//! Accepted sheets, built directly from the rules of 01 and 02, of every size up to the largest.

use crate::random::Random;
use reference::{HEADER, LIMITS, M, RECORD};

pub type Record = [i64; 8];

/// Places of the counts in [`LIMITS`], and of the tables in [`Sheet::tables`] (which has no personas).
pub const PERSONAS: usize = 0;
pub const FACTS: usize = 1;
pub const NODES: usize = 2;
pub const RULES: usize = 3;
pub const ENTITIES: usize = 4;
pub const TRANSITIONS: usize = 5;
pub const OPERATIONS: usize = 6;
pub const EFFECTS: usize = 7;
pub const FLOWS: usize = 8;
pub const STEPS: usize = 9;
pub const ROUTES: usize = 10;

/// How large a sheet is wanted, and of what shape.
#[derive(Clone, Debug)]
pub struct Wish {
    /// Wanted counts, in the header's order; what the rules do not allow is left out.
    pub counts: [usize; 11],
    /// Most states of an entity.
    pub states: usize,
    /// Of 10 routes that could go on to a step, how many do.
    pub onward: usize,
    /// One flow has all the steps that the others leave.
    pub one_long_flow: bool,
    /// The trees of rules, operations and branches take nearly all nodes; else many are named by nothing.
    pub large_trees: bool,
    /// Of 10 Bool nodes with room for two children, how many are comparisons.
    pub comparisons: usize,
    /// Of 10 facts, how many are lists; and of 10 Bool nodes with room for a body, how many are quantifiers.
    pub lists: usize,
}

impl Wish {
    /// The largest sheet, or so many eighths of it, with paths as long as can be, and without lists.
    pub fn eighths(eighths: usize) -> Self {
        let mut counts = LIMITS.map(|limit| limit as usize * eighths / 8);
        counts[PERSONAS] = LIMITS[PERSONAS] as usize;
        Wish { counts, states: 16, onward: 10, one_long_flow: true, large_trees: true, comparisons: 4, lists: 0 }
    }

    /// A random size and shape.
    pub fn random(random: &mut Random) -> Self {
        let limits = LIMITS.map(|limit| limit as usize);
        // How large in whole: most sheets are small, so that many are tried.
        let scale = random.pick(&[1, 2, 3, 4, 6, 8, 8, 12, 16, 16, 24, 32, 64, 128, 256, 1024]);
        let mut counts = [0; 11];
        for (count, limit) in counts.iter_mut().zip(limits) {
            *count = match random.below(12) {
                0 => 0,
                1 => limit.min(scale),
                2 if scale >= 128 => limit,
                _ => random.size(0, limit.min(scale)),
            };
        }
        // Most sheets have something of everything, and room for paths of some length.
        if random.chance(14, 15) {
            for kind in [PERSONAS, ENTITIES, TRANSITIONS, OPERATIONS, FLOWS] {
                counts[kind] = counts[kind].max(1);
            }
            counts[FACTS] = counts[FACTS].max(random.below(5));
            counts[RULES] = counts[RULES].max(random.below(5));
            counts[EFFECTS] = counts[EFFECTS].max(counts[OPERATIONS]).max(1 + random.below(6));
            counts[STEPS] = counts[STEPS].max(counts[FLOWS]).max(1 + random.below(9));
            counts[ROUTES] = counts[ROUTES].max(counts[STEPS] * (2 + random.below(2)));
            let owners = counts[RULES] + counts[OPERATIONS] + counts[STEPS] / 3;
            counts[NODES] = counts[NODES].max(owners * (1 + random.below(5)) + random.below(8)).min(limits[NODES]);
        }
        // Some have about as many nodes and entities as the library's smaller arrays hold.
        if random.chance(1, 16) {
            counts[NODES] = random.pick(&[127, 128, 129]);
            counts[ENTITIES] = random.pick(&[3, 4, 5]);
        }
        Wish {
            counts,
            states: random.pick(&[1, 2, 2, 3, 3, 4, 8, 16]),
            onward: random.pick(&[0, 3, 5, 7, 8, 9, 10]),
            one_long_flow: random.chance(1, 3),
            large_trees: random.chance(1, 2),
            comparisons: random.pick(&[2, 4, 8]),
            lists: random.pick(&[0, 1, 3, 3, 6, 10]),
        }
    }
}

/// A sheet as tables.
#[derive(Clone, Debug)]
pub struct Sheet {
    pub personas: usize,
    /// By kind as in the header; that of personas is empty.
    pub tables: [Vec<Record>; 11],
}

/// The type of a fact that is a list.
pub const LIST: i64 = 5;

impl Sheet {
    /// The tables of words whose header and length are right.
    pub fn read(words: &[i64]) -> Self {
        let mut sheet = Sheet { personas: words[1 + PERSONAS] as usize, tables: Default::default() };
        let mut records = words[HEADER..].chunks_exact(RECORD).map(|record| record.try_into().expect("a whole record"));
        for kind in FACTS..=ROUTES {
            sheet.tables[kind] = records.by_ref().take(words[1 + kind] as usize).collect();
        }
        sheet
    }

    pub fn words(&self) -> Vec<i64> {
        let mut words = vec![1, self.personas as i64];
        words.extend(self.tables[1..].iter().map(|table| table.len() as i64));
        words.resize(HEADER, 0);
        words.extend(self.tables.iter().flatten().flatten());
        words
    }

    pub fn count(&self, kind: usize) -> usize {
        match kind {
            PERSONAS => self.personas,
            _ => self.tables[kind].len(),
        }
    }

    /// The first member and the number of members of an owner's group.
    pub fn steps_of(&self, flow: usize) -> (usize, usize) {
        let record = self.tables[FLOWS][flow];
        (record[0] as usize, record[1] as usize)
    }

    /// The facts that are lists.
    pub fn lists(&self) -> impl Iterator<Item = usize> + '_ {
        (0..self.count(FACTS)).filter(|&fact| self.tables[FACTS][fact][0] == LIST)
    }

    /// Lists and lengths to be lent: elements in their range, as many as may be or fewer, and rubbish past them.
    pub fn lent_lists(&self, random: &mut Random) -> (Vec<i64>, Vec<i64>) {
        let (mut lists, mut lengths) = (vec![], vec![]);
        for fact in self.lists() {
            let largest = self.tables[FACTS][fact][7] as usize;
            let length = match random.below(6) {
                0 => 0,
                1 => 1.min(largest),
                2 | 3 => largest,
                _ => random.below(largest + 1),
            };
            // Elements that are all the same, or all but one, decide a quantifier late.
            let same = random.chance(1, 2).then(|| self.value_of(fact, random));
            let other = random.below(largest + 1);
            for place in 0..largest {
                let rubbish = random.word() as i64;
                lists.push(match same {
                    _ if place >= length => random.pick(&[0, 1, i64::MIN, i64::MAX, rubbish]),
                    Some(value) if place != other => value,
                    _ => self.value_of(fact, random),
                });
            }
            lengths.push(length as i64);
        }
        (lists, lengths)
    }

    /// A value of the fact, or an element of the list, that is in its range, ends more often.
    pub fn value_of(&self, fact: usize, random: &mut Random) -> i64 {
        let [_, min, max, ..] = self.tables[FACTS][fact];
        match random.below(5) {
            0 => min,
            1 => max,
            _ => random.within(min, max),
        }
    }
}

fn record(words: &[i64]) -> Record {
    let mut record = [0; 8];
    record[..words.len()].copy_from_slice(words);
    record
}

/// An accepted sheet of the wanted size and shape.
pub fn sheet(wish: &Wish, random: &mut Random) -> Sheet {
    let mut sheet = Sheet { personas: wish.counts[PERSONAS], tables: Default::default() };
    facts(wish, random, &mut sheet);
    entities(wish, random, &mut sheet);
    operations(wish, random, &mut sheet);
    flows(wish, random, &mut sheet);
    Trees::new(wish, random, &sheet).grow(wish, &mut sheet);
    sheet
}

/// The largest sheet, or so many eighths of it, with every count as wanted.
pub fn full(eighths: usize, random: &mut Random) -> Sheet {
    let wish = Wish::eighths(eighths);
    loop {
        let sheet = sheet(&wish, random);
        if (0..11).all(|kind| sheet.count(kind) == wish.counts[kind]) {
            return sheet;
        }
    }
}

fn facts(wish: &Wish, random: &mut Random, sheet: &mut Sheet) {
    let most_sets = random.pick(&[1, 2, 4, 128]);
    let max_of_set: Vec<i64> = (0..128).map(|_| random.pick(&[0, 1, 2, 3, 100, 255])).collect();
    for _ in 0..wish.counts[FACTS] {
        if wish.lists > 0 && random.chance(wish.lists, 10) {
            let set = random.below(most_sets);
            let (a, b) = (number(random), number(random));
            let (element, min, max, set) = match random.below(3) {
                0 => (0, 0, 1, 0),
                1 => (1, a.min(b), a.max(b), 0),
                _ => (2, 0, max_of_set[set], set as i64),
            };
            let largest = random.pick(&[0, 1, 1, 2, 2, 3, 3, 4, 5, 8, 20, 99, 100]);
            sheet.tables[FACTS].push(record(&[LIST, min, max, 0, 0, set, element, largest]));
            continue;
        }
        let (kind, min, max, set) = match random.below(6) {
            0 => (0, 0, 1, 0),
            1 | 2 => {
                let (a, b) = (number(random), number(random));
                (1, a.min(b), a.max(b), 0)
            }
            3 => {
                let set = random.below(most_sets);
                (2, 0, max_of_set[set], set as i64)
            }
            4 => {
                let (a, b) = (number(random), number(random));
                (3, a.min(b), a.max(b), random.below(most_sets) as i64)
            }
            _ => {
                let (a, b) = (duration(random), duration(random));
                (4, a.min(b), a.max(b), random.below(UNITS.len()) as i64)
            }
        };
        let (has_default, default) = match random.below(4) {
            0 => (0, 0),
            1 => (1, min),
            2 => (1, max),
            _ => (1, random.within(min, max)),
        };
        sheet.tables[FACTS].push(record(&[kind, min, max, has_default, default, set]));
    }
}

/// A number of −M..M: small ones, ends and any.
fn number(random: &mut Random) -> i64 {
    match random.below(8) {
        0 => random.pick(&[-M, M, M - 1, 1 - M, 0]),
        1 => random.within(-M, M),
        2 => random.within(-100_000, 100_000),
        _ => random.within(-9, 9),
    }
}

/// How many seconds each unit of a duration has: days, hours, minutes, seconds.
const UNITS: [i64; 4] = [86_400, 3_600, 60, 1];

/// As many of a unit as fit into M of a smaller one, or one more.
pub fn edge(random: &mut Random) -> i64 {
    let most = M / random.pick(&[24, 60, 1_440, 3_600, 86_400]);
    random.pick(&[most, -most, most + 1, -most - 1])
}

/// A number of −M..M for a duration.
fn duration(random: &mut Random) -> i64 {
    if random.chance(1, 4) {
        edge(random)
    } else {
        number(random)
    }
}

fn entities(wish: &Wish, random: &mut Random, sheet: &mut Sheet) {
    for _ in 0..wish.counts[ENTITIES] {
        let states = if random.chance(1, 3) { wish.states } else { 1 + random.below(wish.states) };
        sheet.tables[ENTITIES].push(record(&[states as i64, random.below(states) as i64]));
    }
    if sheet.tables[ENTITIES].is_empty() {
        return;
    }
    for _ in 0..wish.counts[TRANSITIONS] {
        let entity = random.below(sheet.tables[ENTITIES].len());
        let states = sheet.tables[ENTITIES][entity][0] as usize;
        let [from, to] = [0; 2].map(|_| random.below(states) as i64);
        sheet.tables[TRANSITIONS].push(record(&[entity as i64, from, to]));
    }
}

/// Splits a total into so many parts of at least one.
fn split(total: usize, parts: usize, one_long: bool, random: &mut Random) -> Vec<usize> {
    let mut sizes = vec![1; parts];
    if one_long {
        sizes[random.below(parts)] += total - parts;
        return sizes;
    }
    for _ in parts..total {
        sizes[random.below(parts)] += 1;
    }
    sizes
}

/// The preconditions are put in when the trees are grown.
fn operations(wish: &Wish, random: &mut Random, sheet: &mut Sheet) {
    let transitions = sheet.tables[TRANSITIONS].clone();
    let count = wish.counts[OPERATIONS].min(wish.counts[EFFECTS]);
    if sheet.personas == 0 || transitions.is_empty() || count == 0 {
        return;
    }
    let long = random.chance(1, 8);
    for size in split(wish.counts[EFFECTS], count, long, random) {
        let first = sheet.tables[EFFECTS].len();
        let rise = random.pick(&[0, 1, 2, 3, 5, 9]);
        let mut outcome = 0;
        let mut sources: Vec<[i64; 2]> = vec![];
        // An operation may come out smaller where its outcomes are used up.
        for _ in 0..size {
            if !sources.is_empty() && outcome < 7 && random.chance(rise, 10) {
                outcome += 1;
                sources.clear();
            }
            let mut chosen = None;
            for attempt in 0..40 {
                let [entity, from, to, ..] = random.pick(&transitions);
                // Alternatives of an entity that the outcome has already are liked.
                let liked = attempt > 3 || sources.is_empty() || sources.iter().any(|s| s[0] == entity);
                if liked && !sources.contains(&[entity, from]) {
                    chosen = Some([entity, from, to]);
                    break;
                }
            }
            let chosen = match chosen {
                Some(chosen) => chosen,
                None if outcome < 7 => {
                    outcome += 1;
                    sources.clear();
                    let [entity, from, to, ..] = random.pick(&transitions);
                    [entity, from, to]
                }
                None => break,
            };
            sources.push([chosen[0], chosen[1]]);
            sheet.tables[EFFECTS].push(record(&[chosen[0], chosen[1], chosen[2], outcome]));
        }
        let all = (1i64 << sheet.personas) - 1;
        let mask = match random.below(3) {
            0 => all,
            1 => 1 << random.below(sheet.personas),
            _ => random.within(1, all),
        };
        let effects = (sheet.tables[EFFECTS].len() - first) as i64;
        sheet.tables[OPERATIONS].push(record(&[mask, 0, first as i64, effects, outcome + 1]));
    }
}

/// The nodes of branches are put in when the trees are grown.
fn flows(wish: &Wish, random: &mut Random, sheet: &mut Sheet) {
    let outcomes: Vec<usize> = sheet.tables[OPERATIONS].iter().map(|record| record[4] as usize).collect();
    let most_routes = wish.counts[ROUTES];
    let steps = wish.counts[STEPS].min(most_routes / 2);
    let flows = wish.counts[FLOWS].min(steps);
    // Every node names or is named: the trees need a node for each rule, operation and branch.
    let mut branches_left = wish.counts[NODES].saturating_sub(outcomes.len());
    if flows == 0 || (outcomes.is_empty() && branches_left == 0) {
        return;
    }
    // An operation for each step, or none for a branch.
    let branchy = random.below(7);
    let mut plan: Vec<Option<usize>> = vec![];
    for _ in 0..steps {
        if branches_left > 0 && (outcomes.is_empty() || random.chance(branchy, 10)) {
            branches_left -= 1;
            plan.push(None);
        } else if !outcomes.is_empty() {
            plan.push(Some(random.below(outcomes.len())));
        }
    }
    // Then other operations, until the routes are as many as wanted; at last fewer steps.
    let routes_of = |step: &Option<usize>| step.map_or(2, |operation| outcomes[operation] + 1);
    let mut total: usize = plan.iter().map(routes_of).sum();
    for _ in 0..20 * plan.len() {
        let step = random.below(plan.len());
        if total == most_routes || outcomes.is_empty() {
            break;
        }
        if plan[step].is_some() {
            let other = Some(random.below(outcomes.len()));
            let changed = total - routes_of(&plan[step]) + routes_of(&other);
            if changed.abs_diff(most_routes) <= total.abs_diff(most_routes) {
                plan[step] = other;
                total = changed;
            }
        }
    }
    while total > most_routes {
        total -= plan.pop().map_or(0, |step| routes_of(&step));
    }
    if plan.is_empty() {
        return;
    }
    let flows = flows.min(plan.len());
    let mut step = 0;
    for size in split(plan.len(), flows, wish.one_long_flow, random) {
        sheet.tables[FLOWS].push(record(&[step as i64, size as i64]));
        let end = step + size;
        for (number, what) in plan.iter().enumerate().take(end).skip(step) {
            let first = sheet.tables[ROUTES].len() as i64;
            let routes = routes_of(what);
            sheet.tables[STEPS].push(match what {
                Some(operation) => {
                    let persona = persona_for(sheet, *operation, random);
                    record(&[0, *operation as i64, persona, first, routes as i64])
                }
                None => record(&[1, 0, 0, first, routes as i64]),
            });
            for _ in 0..routes {
                let onward = number + 1 < end && random.chance(wish.onward, 10);
                sheet.tables[ROUTES].push(if onward {
                    let target = match random.below(4) {
                        0 => number + 1 + random.below(end - number - 1),
                        1 => (number + 1 + random.below(4)).min(end - 1),
                        _ => number + 1,
                    };
                    record(&[0, target as i64])
                } else {
                    record(&[1, random.below(3) as i64])
                });
            }
        }
        step = end;
    }
}

/// A persona, mostly one of the operation's mask.
fn persona_for(sheet: &Sheet, operation: usize, random: &mut Random) -> i64 {
    let mask = sheet.tables[OPERATIONS][operation][0];
    let persona = random.below(sheet.personas);
    if random.chance(1, 6) {
        return persona as i64;
    }
    (0..sheet.personas).map(|p| (p + persona) % sheet.personas).find(|p| mask >> p & 1 == 1).unwrap() as i64
}

#[derive(Clone, Copy, PartialEq, Eq)]
enum Sort {
    Int,
    Bool,
    Enum(i64),
    Money(i64),
    /// Of any unit.
    Duration,
}

impl Sort {
    /// Has it sums, differences and an order?
    fn measures(self) -> bool {
        matches!(self, Sort::Int | Sort::Money(_) | Sort::Duration)
    }
}

/// A node before it has its number.
struct Twig {
    record: Record,
    /// For each child, the record's word that will name it.
    children: Vec<(usize, usize)>,
    low: i64,
    high: i64,
    /// A duration's unit; else 0.
    unit: usize,
}

type Ends = (i64, i64);

fn fits(range: Ends) -> bool {
    -M <= range.0 && range.1 <= M
}

struct Trees<'a> {
    random: &'a mut Random,
    facts: Vec<Record>,
    strata: Vec<i64>,
    twigs: Vec<Twig>,
    /// Rules below this number may be cited in the tree at hand.
    citable: usize,
    comparisons: usize,
    /// Of 10 Bool nodes with room for a body, how many are quantifiers.
    quantifiers: usize,
    /// The list of the quantifier whose body is at hand.
    body_of: Option<usize>,
    /// The tree at hand is named by nothing: it may cite elements anywhere.
    loose: bool,
    /// Trees are chains, by their left or their right children.
    chain: Option<bool>,
}

impl<'a> Trees<'a> {
    fn new(wish: &Wish, random: &'a mut Random, sheet: &Sheet) -> Self {
        let branches = sheet.tables[STEPS].iter().filter(|step| step[0] == 1).count();
        let owners = sheet.tables[OPERATIONS].len() + branches;
        let room = (LIMITS[NODES] as usize).min(wish.counts[NODES].max(owners));
        let rules = wish.counts[RULES].min(room - owners);
        let chain = random.chance(1, 8).then(|| random.chance(1, 2));
        let steep = random.pick(&[1, 3, 8, 16]);
        let mut strata: Vec<i64> = (0..rules).map(|_| random.below(steep) as i64).collect();
        strata.sort();
        Trees {
            random,
            facts: sheet.tables[FACTS].clone(),
            strata,
            twigs: vec![],
            citable: 0,
            comparisons: wish.comparisons,
            quantifiers: if sheet.lists().next().is_some() { wish.lists } else { 0 },
            body_of: None,
            loose: false,
            chain,
        }
    }

    /// Grows the trees of all owners, and others that nothing names; numbers the nodes; fills in the owners.
    fn grow(mut self, wish: &Wish, sheet: &mut Sheet) {
        let branches: Vec<usize> =
            (0..sheet.tables[STEPS].len()).filter(|&step| sheet.tables[STEPS][step][0] == 1).collect();
        let rules = self.strata.len();
        let operations = sheet.tables[OPERATIONS].len();
        let owners = rules + operations + branches.len();
        let room = wish.counts[NODES].max(owners);

        // How many nodes each owner's tree may have.
        let mut budgets = vec![1; owners];
        let spread = if wish.large_trees { room - owners } else { (room - owners) / 2 };
        if owners > 0 {
            let few = self.random.chance(1, 3).then(|| 1 + self.random.below(3.min(owners)));
            for _ in 0..spread {
                let owner = self.random.below(few.unwrap_or(owners));
                budgets[owner] += 1;
            }
            self.random.shuffle(&mut budgets);
        }
        let mut roots = vec![];
        for (owner, budget) in budgets.into_iter().enumerate() {
            self.citable = match owner {
                rule if rule < rules => self.strata.partition_point(|&stratum| stratum < self.strata[rule]),
                _ => rules,
            };
            roots.push(self.tree(Sort::Bool, budget));
        }
        // Trees that nothing names may cite every rule, and elements outside of a quantifier.
        self.citable = rules;
        self.loose = true;
        while self.twigs.len() < room {
            let budget = self.random.size(1, (room - self.twigs.len()).min(40));
            let sort = match self.random.below(6) {
                0 => Sort::Int,
                1 => self.some_set(2).map_or(Sort::Bool, Sort::Enum),
                2 => self.some_set(3).map_or(Sort::Bool, Sort::Money),
                3 => Sort::Duration,
                _ => Sort::Bool,
            };
            self.tree(sort, budget);
        }

        let numbers = self.numbers();
        let mut nodes = vec![[0; 8]; self.twigs.len()];
        for (twig, number) in self.twigs.iter().zip(&numbers) {
            nodes[*number] = twig.record;
            for (word, child) in &twig.children {
                nodes[*number][*word] = numbers[*child] as i64;
            }
        }
        sheet.tables[NODES] = nodes;
        for (owner, root) in roots.into_iter().enumerate() {
            let node = numbers[root] as i64;
            if owner < rules {
                sheet.tables[RULES].push(record(&[self.strata[owner], node]));
            } else if owner < rules + operations {
                sheet.tables[OPERATIONS][owner - rules][1] = node;
            } else {
                sheet.tables[STEPS][branches[owner - rules - operations]][1] = node;
            }
        }
    }

    /// Random numbers for the nodes, smaller ones for children.
    fn numbers(&mut self) -> Vec<usize> {
        let mut parent = vec![None; self.twigs.len()];
        let mut waits: Vec<usize> = self.twigs.iter().map(|twig| twig.children.len()).collect();
        for (number, twig) in self.twigs.iter().enumerate() {
            for (_, child) in &twig.children {
                parent[*child] = Some(number);
            }
        }
        if self.random.chance(1, 4) {
            // As they were grown: children stand just before their parent.
            return (0..self.twigs.len()).collect();
        }
        let mut ready: Vec<usize> = (0..waits.len()).filter(|&twig| waits[twig] == 0).collect();
        let mut numbers = vec![0; waits.len()];
        for number in 0..waits.len() {
            let place = self.random.below(ready.len());
            let twig = ready.swap_remove(place);
            numbers[twig] = number;
            if let Some(parent) = parent[twig] {
                waits[parent] -= 1;
                if waits[parent] == 0 {
                    ready.push(parent);
                }
            }
        }
        numbers
    }

    /// A set of Enums or a currency, mostly one that some fact of the type has.
    fn some_set(&mut self, kind: i64) -> Option<i64> {
        let of_kind = |fact: &&Record| fact[0] == kind || (fact[0] == LIST && fact[6] == kind);
        let sets: Vec<i64> = self.facts.iter().filter(of_kind).map(|fact| fact[5]).collect();
        match self.random.below(4) {
            0 => Some(self.random.below(128) as i64),
            _ if sets.is_empty() => None,
            _ => Some(self.random.pick(&sets)),
        }
    }

    fn push(&mut self, words: &[i64], children: &[(usize, usize)], low: i64, high: i64) -> usize {
        let unit = match *words {
            [13, _, unit] => unit as usize,
            [3, fact] if self.facts[fact as usize][0] == 4 => self.facts[fact as usize][5] as usize,
            // The smaller unit has the larger number.
            [4 | 5] => children.iter().map(|&(_, child)| self.twigs[child].unit).max().unwrap_or(0),
            _ => 0,
        };
        self.twigs.push(Twig { record: record(words), children: children.to_vec(), low, high, unit });
        self.twigs.len() - 1
    }

    fn range(&self, twig: usize) -> Ends {
        (self.twigs[twig].low, self.twigs[twig].high)
    }

    /// The range in a unit that is not larger than its own.
    fn range_in(&self, twig: usize, unit: usize) -> Ends {
        let Twig { low, high, unit: own, .. } = self.twigs[twig];
        let times = UNITS[own] / UNITS[unit];
        (low * times, high * times)
    }

    /// The ranges of both in the smaller of their units; None where one of them leaves −M..M.
    fn met(&self, x: usize, y: usize) -> Option<(Ends, Ends)> {
        let unit = self.twigs[x].unit.max(self.twigs[y].unit);
        let (a, b) = (self.range_in(x, unit), self.range_in(y, unit));
        (fits(a) && fits(b)).then_some((a, b))
    }

    /// Grows a tree of this sort with at most so many nodes, and answers its root.
    fn tree(&mut self, sort: Sort, budget: usize) -> usize {
        match sort {
            Sort::Bool => self.bool_tree(budget),
            Sort::Enum(set) => self.enum_leaf(set),
            _ => self.number_tree(sort, budget),
        }
    }

    fn fact_of(&mut self, wanted: impl Fn(&Record) -> bool) -> Option<usize> {
        let facts: Vec<usize> = (0..self.facts.len()).filter(|&fact| wanted(&self.facts[fact])).collect();
        if facts.is_empty() {
            return None;
        }
        let fact = self.random.pick(&facts);
        let [_, min, max, ..] = self.facts[fact];
        Some(self.push(&[3, fact as i64], &[], min, max))
    }

    /// An element of this type, where one may be cited; mostly it is.
    fn element_of(&mut self, element: i64, set: i64) -> Option<usize> {
        let at_hand = |fact: usize| self.body_of == Some(fact) || self.loose;
        let wanted = |fact: &Record| fact[0] == LIST && fact[6] == element && fact[5] == set;
        let lists: Vec<usize> =
            (0..self.facts.len()).filter(|&fact| at_hand(fact) && wanted(&self.facts[fact])).collect();
        if lists.is_empty() || self.random.chance(1, 3) {
            return None;
        }
        let fact = self.random.pick(&lists);
        let [_, min, max, ..] = self.facts[fact];
        Some(self.push(&[17, fact as i64], &[], min, max))
    }

    /// A list's length, now and then.
    fn length_of(&mut self) -> Option<usize> {
        let lists: Vec<usize> = (0..self.facts.len()).filter(|&fact| self.facts[fact][0] == LIST).collect();
        if lists.is_empty() || self.random.chance(7, 8) {
            return None;
        }
        let fact = self.random.pick(&lists);
        Some(self.push(&[16, fact as i64], &[], 0, self.facts[fact][7]))
    }

    /// A quantifier with a body of at most so many nodes.
    fn quantifier(&mut self, budget: usize) -> usize {
        let lists: Vec<usize> = (0..self.facts.len()).filter(|&fact| self.facts[fact][0] == LIST).collect();
        let fact = self.random.pick(&lists);
        self.body_of = Some(fact);
        let body = self.bool_tree(budget);
        self.body_of = None;
        let kind = self.random.pick(&[14, 15]);
        self.push(&[kind, fact as i64], &[(2, body)], 0, 1)
    }

    fn enum_leaf(&mut self, set: i64) -> usize {
        if let Some(twig) = self.element_of(2, set) {
            return twig;
        }
        if self.random.chance(3, 5) {
            if let Some(twig) = self.fact_of(|fact| fact[0] == 2 && fact[5] == set) {
                return twig;
            }
        }
        let value = match self.random.below(3) {
            0 => self.random.within(0, 255),
            _ => self.random.within(0, 3),
        };
        self.push(&[2, value, set], &[], value, value)
    }

    fn bool_leaf(&mut self) -> usize {
        if let Some(twig) = self.element_of(0, 0) {
            return twig;
        }
        if self.citable > 0 && self.random.chance(2, 5) {
            let rule = self.random.below(self.citable) as i64;
            return self.push(&[8, rule], &[], 0, 1);
        }
        if self.random.chance(4, 5) {
            if let Some(twig) = self.fact_of(|fact| fact[0] == 0) {
                return twig;
            }
        }
        let value = self.random.chance(3, 5) as i64;
        self.push(&[1, value], &[], value, value)
    }

    fn bool_tree(&mut self, budget: usize) -> usize {
        if budget < 2 {
            return self.bool_leaf();
        }
        // Where there is room, rather several side by side than one with a large body.
        let of = if budget < 10 { 10 } else { 40 };
        if self.quantifiers > 0 && self.body_of.is_none() && self.random.chance(self.quantifiers, of) {
            return self.quantifier(budget - 1);
        }
        if budget == 2 || self.random.chance(1, if budget < 8 { 4 } else { 8 }) {
            let child = self.bool_tree(budget - 1);
            let (low, high) = self.range(child);
            return self.push(&[11], &[(1, child)], 1 - high, 1 - low);
        }
        let left = self.share(budget);
        let right = budget - 1 - left;
        if self.random.chance(self.comparisons, 10) {
            let sort = match self.random.below(12) {
                _ if self.body_of.is_some() && self.random.chance(1, 2) => self.sort_of_elements(),
                0 => Sort::Bool,
                1 | 2 if budget < 6 => self.some_set(2).map_or(Sort::Int, Sort::Enum),
                3 | 4 => self.some_set(3).map_or(Sort::Int, Sort::Money),
                5 | 6 => Sort::Duration,
                _ => Sort::Int,
            };
            let operator = self.random.below(if sort.measures() { 6 } else { 2 }) as i64;
            let x = self.tree(sort, left);
            let before = self.twigs.len();
            // Equal values, and ranges that just meet, are rare otherwise.
            let near = sort.measures() && right == 1 && self.random.chance(2, 3);
            let mut y = if near { self.near_literal(sort, x) } else { self.tree(sort, right) };
            let (a, b) = match self.met(x, y) {
                Some(ranges) => ranges,
                None => {
                    // Not within −M..M: the second child is not used.
                    self.twigs.truncate(before);
                    let Twig { unit, low, .. } = self.twigs[x];
                    y = self.literal(sort, unit, low);
                    (self.range(x), self.range(y))
                }
            };
            let (some, some_not) = comparison_range(operator, a, b);
            return self.push(&[7, operator], &[(2, x), (3, y)], !some_not as i64, some as i64);
        }
        let x = self.bool_tree(left);
        let y = self.bool_tree(right);
        let (a, b) = (self.range(x), self.range(y));
        if self.random.chance(1, 2) {
            self.push(&[9], &[(1, x), (2, y)], a.0.min(b.0), a.1.min(b.1))
        } else {
            self.push(&[10], &[(1, x), (2, y)], a.0.max(b.0), a.1.max(b.1))
        }
    }

    /// The sort of the elements at hand.
    fn sort_of_elements(&self) -> Sort {
        match self.body_of.map(|fact| self.facts[fact]) {
            Some([_, _, _, _, _, _, 0, _]) => Sort::Bool,
            Some([_, _, _, _, _, set, 2, _]) => Sort::Enum(set),
            _ => Sort::Int,
        }
    }

    /// How many of the nodes go to the left child: any part, or nearly all or none.
    fn share(&mut self, budget: usize) -> usize {
        match (self.chain, self.random.below(4)) {
            (Some(false), _) | (None, 0) => 1,
            (Some(true), _) | (None, 1) => budget - 2,
            _ => 1 + self.random.below(budget - 2),
        }
    }

    /// A literal of a sort that measures, in this unit if it is a duration.
    fn literal(&mut self, sort: Sort, unit: usize, value: i64) -> usize {
        match sort {
            Sort::Money(currency) => self.push(&[12, value, currency], &[], value, value),
            Sort::Duration => self.push(&[13, value, unit as i64], &[], value, value),
            _ => self.push(&[0, value], &[], value, value),
        }
    }

    /// A unit for what is to meet a node: of a duration any in which its range stays within −M..M, else its own.
    fn unit_for(&mut self, sort: Sort, twig: usize) -> usize {
        let own = self.twigs[twig].unit;
        let unit = self.random.below(UNITS.len());
        if sort == Sort::Duration && (unit <= own || fits(self.range_in(twig, unit))) {
            unit
        } else {
            own
        }
    }

    /// A literal in the range of a node, at its ends, or next to them.
    fn near_literal(&mut self, sort: Sort, twig: usize) -> usize {
        let own = self.twigs[twig].unit;
        let unit = self.unit_for(sort, twig);
        let (low, high) = self.range_in(twig, unit.max(own));
        let inside = self.random.within(low, high);
        let value = self.random.pick(&[inside, low, high, low - 1, high + 1]).clamp(-M, M);
        // In a larger unit as many as there are whole ones.
        let value = if unit < own { value / (UNITS[unit] / UNITS[own]) } else { value };
        self.literal(sort, unit, value)
    }

    fn number_leaf(&mut self, sort: Sort) -> usize {
        if sort == Sort::Int {
            if let Some(twig) = self.element_of(1, 0).or_else(|| self.length_of()) {
                return twig;
            }
        }
        if self.random.chance(3, 5) {
            let fact = match sort {
                Sort::Money(currency) => self.fact_of(|fact| fact[0] == 3 && fact[5] == currency),
                Sort::Duration => self.fact_of(|fact| fact[0] == 4),
                _ => self.fact_of(|fact| fact[0] == 1),
            };
            if let Some(twig) = fact {
                return twig;
            }
        }
        let unit = self.random.below(UNITS.len());
        let value = if sort == Sort::Duration { duration(self.random) } else { number(self.random) };
        self.literal(sort, unit, value)
    }

    fn number_tree(&mut self, sort: Sort, budget: usize) -> usize {
        if budget < 2 || (budget == 2 && sort != Sort::Int) {
            return self.number_leaf(sort);
        }
        if sort == Sort::Int && (budget == 2 || self.random.chance(1, 6)) {
            let child = self.number_tree(sort, budget - 1);
            let (low, high) = self.range(child);
            let size = low.abs().max(high.abs());
            let most = if size == 0 { M } else { M / size };
            let size = match self.random.below(4) {
                0 => most,
                1 => 0,
                2 => most.min(1),
                _ => self.random.within(0, most.min(20)),
            };
            let factor = if self.random.chance(1, 2) { -size } else { size };
            let (one, other) = (low * factor, high * factor);
            return self.push(&[6, 0, factor], &[(1, child)], one.min(other), one.max(other));
        }
        let left = self.share(budget);
        let right = budget - 1 - left;
        let x = self.number_tree(sort, left);
        let before = self.twigs.len();
        // A literal that just fits, now and then.
        let y = match self.random.below(6) {
            end @ (0 | 1) if right == 1 => {
                let unit = self.unit_for(sort, x).max(self.twigs[x].unit);
                let (low, high) = self.range_in(x, unit);
                let value = if end == 0 { M - high } else { low + M };
                self.literal(sort, unit, value.min(M))
            }
            _ => self.number_tree(sort, right),
        };
        let sum = |((low, high), (a, b)): (Ends, Ends)| (low + a, high + b);
        let difference = |((low, high), (a, b)): (Ends, Ends)| (low - b, high - a);
        let ranges = self.met(x, y);
        match (ranges.map(sum).filter(|&range| fits(range)), ranges.map(difference).filter(|&range| fits(range))) {
            (Some((low, high)), other) if other.is_none() || self.random.chance(1, 2) => {
                self.push(&[4], &[(1, x), (2, y)], low, high)
            }
            (_, Some((low, high))) => self.push(&[5], &[(1, x), (2, y)], low, high),
            _ => {
                // Neither fits: the second child is not used.
                self.twigs.truncate(before);
                x
            }
        }
    }
}

fn comparison_range(operator: i64, x: (i64, i64), y: (i64, i64)) -> (bool, bool) {
    let equal = x.0 <= y.1 && y.0 <= x.1;
    let unequal = !(x.0 == x.1 && y == x);
    match operator {
        0 => (equal, unequal),
        1 => (unequal, equal),
        2 => (x.0 < y.1, x.1 >= y.0),
        3 => (x.0 <= y.1, x.1 > y.0),
        4 => (x.1 > y.0, x.0 <= y.1),
        _ => (x.1 >= y.0, x.0 < y.1),
    }
}

//! States as they are lent: a record for each instance, and of each entity the instance that is named.

use crate::compare::Lent;
use crate::damage::hostile;
use crate::generate::{Sheet, ENTITIES};
use crate::random::Random;
use crate::rounds::length;
use fernpocket::States;
use reference::{INSTANCE_WORDS, MOST_INSTANCES};
use std::collections::BTreeSet;

/// A record: entity, instance number, state.
pub type Instance = [i64; INSTANCE_WORDS];

/// States and named instances.
#[derive(Clone, Debug, PartialEq, Eq)]
pub struct Held {
    pub states: Lent<i64>,
    pub instances: Lent<i64>,
}

impl Held {
    /// Records of a sheet's entities in any of their states, mostly without a fault, and the instances named.
    pub fn random(sheet: &Sheet, random: &mut Random) -> Held {
        let mut records = records(sheet, random);
        for record in &mut records {
            record[2] = random.below(states_of(sheet, record[0])) as i64;
        }
        let mut named = named(sheet, &records, random);
        if random.chance(1, 4) {
            for _ in 0..1 + random.below(2) {
                damage(sheet, &mut records, &mut named, random);
            }
        }
        let mut states = records.concat();
        if random.chance(1, 30) {
            match random.below(3) {
                0 => states.truncate(states.len().saturating_sub(1 + random.below(2))),
                1 => states.push(random.below(3) as i64),
                _ => states.extend([0, random.below(3) as i64]),
            }
        }
        Held::new(&states, named, random)
    }

    /// Records of a sheet's entities, each in its initial state.
    pub fn initial(sheet: &Sheet, random: &mut Random) -> Held {
        let records = records(sheet, random);
        let named = named(sheet, &records, random);
        Held::new(&records.concat(), named, random)
    }

    fn new(states: &[i64], mut named: Vec<i64>, random: &mut Random) -> Held {
        named.resize(length(named.len(), random), 0);
        Held { states: Lent::new(states, random), instances: Lent::new(&named, random) }
    }

    /// The same states with other instances named.
    pub fn renamed(&self, sheet: &Sheet, random: &mut Random) -> Held {
        let records = self.states.slice().as_chunks().0;
        let mut named = named(sheet, records, random);
        if random.chance(1, 12) {
            name_another(&mut named, random);
        }
        Held::new(self.states.slice(), named, random)
    }

    /// A wrapper's call on the states, which keep what it leaves in them.
    pub fn typed<T>(&mut self, call: impl FnOnce(&mut States, &[i64]) -> T) -> T {
        let mut states = States::from_words(self.states.slice().to_vec());
        let answer = call(&mut states, self.instances.slice());
        self.states.lend().copy_from_slice(states.words());
        answer
    }
}

/// How many states an entity has; 1 where there is no such one.
fn states_of(sheet: &Sheet, entity: i64) -> usize {
    usize::try_from(entity).ok().and_then(|entity| sheet.tables[ENTITIES].get(entity)).map_or(1, |e| e[0] as usize)
}

/// Sorted records, each in its entity's initial state: one instance of each entity, numbered 0; or of each some, or none, up to
/// as many as there may be.
fn records(sheet: &Sheet, random: &mut Random) -> Vec<Instance> {
    let entities = sheet.count(ENTITIES);
    let most = MOST_INSTANCES / entities.max(1);
    let way = random.below(9);
    let mut records = vec![];
    for entity in 0..entities {
        let count = match way {
            0..=2 => 1,
            3 => random.below(3),
            4 => random.below(most + 1),
            // Exactly as many as there may be.
            5 if entity + 1 == entities => MOST_INSTANCES - records.len(),
            5 => most,
            _ => 1 + random.below(4),
        };
        let [_, initial, ..] = sheet.tables[ENTITIES][entity];
        let numbers = if way < 2 { BTreeSet::from([0]) } else { numbers(count, random) };
        records.extend(numbers.into_iter().map(|number| [entity as i64, number, initial]));
    }
    records
}

/// So many instance numbers, of all sizes.
fn numbers(count: usize, random: &mut Random) -> BTreeSet<i64> {
    let mut numbers = BTreeSet::new();
    while numbers.len() < count {
        numbers.insert(match random.below(8) {
            0 => random.pick(&[i64::MIN, -1, 0, 1, i64::MAX]),
            1 => random.word() as i64,
            _ => random.within(-3 - count as i64, 5 + count as i64),
        });
    }
    numbers
}

/// Of each entity one of its instances; any number where it has none.
fn named(sheet: &Sheet, records: &[Instance], random: &mut Random) -> Vec<i64> {
    let mut named = vec![];
    for entity in 0..sheet.count(ENTITIES) as i64 {
        let own: Vec<i64> = records.iter().filter(|record| record[0] == entity).map(|record| record[1]).collect();
        named.push(if own.is_empty() { hostile(random, 0) } else { random.pick(&own) });
    }
    named
}

/// Names another instance of some entity, which mostly has no record.
fn name_another(named: &mut [i64], random: &mut Random) {
    if !named.is_empty() {
        let entity = random.below(named.len());
        named[entity] = match random.below(3) {
            0 => named[random.below(named.len())],
            _ => hostile(random, named[entity]),
        };
    }
}

/// A fault, or nearly one, of records and named instances.
fn damage(sheet: &Sheet, records: &mut Vec<Instance>, named: &mut [i64], random: &mut Random) {
    let entities = sheet.count(ENTITIES) as i64;
    let past = [entities, random.below(3) as i64, 0];
    let way = random.below(14);
    if records.is_empty() {
        records.push(past);
    }
    // The last one more often.
    let place = if random.chance(1, 5) { records.len() - 1 } else { random.below(records.len()) };
    let states = states_of(sheet, records[place][0]) as i64;
    match way {
        0 => {
            let other = (place + 1) % records.len();
            records.swap(place, other);
        }
        1 => random.shuffle(records),
        // There twice, in one state or two.
        2 => records.insert(place, records[place]),
        3 => records.insert(place + 1, [records[place][0], records[place][1], (records[place][2] + 1) % states]),
        4 => records.sort_by_key(|record| (record[1], record[0])),
        5 => records[place][0] = random.pick(&[-1, entities, i64::MIN, i64::MAX, 1 << 32]),
        6 => records[place][0] = hostile(random, records[place][0]),
        7 => records[place][2] = random.pick(&[-1, states, i64::MIN, i64::MAX]),
        8 => records[place][2] = hostile(random, states - 1),
        9 => records[place][1] = hostile(random, records[place][1]),
        10 => drop(records.remove(place)),
        11 => records.clear(),
        12 => {
            // One more than there may be, or some; sorted if they were.
            let [entity, mut number, state] = *records.last().expect("one at least");
            while records.len() < MOST_INSTANCES + random.pick(&[1, 1, 2, 20]) {
                number = number.saturating_add(1);
                records.push([entity, number, state]);
            }
        }
        _ => name_another(named, random),
    }
    if random.chance(1, 20) {
        records.push(past);
    }
}

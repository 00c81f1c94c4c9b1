//! The sheet's header, and its tables as slices of records.

use std::ops::Range;

/// Words of the header.
pub const HEADER: usize = 16;
/// Words of a record.
pub const RECORD: usize = 8;
/// The largest value of each count, in the header's order from personas to routes.
pub const LIMITS: [i64; 11] = [24, 128, 1024, 128, 32, 512, 128, 512, 32, 256, 1024];

pub type Record = [i64; RECORD];

/// The word as a number below the count.
pub fn below(word: i64, count: usize) -> Option<usize> {
    // A negative word becomes a number past every count.
    ((word as u64) < count as u64).then_some(word as usize)
}

/// A sheet to which refusal 1 does not apply.
#[derive(Clone, Copy)]
pub struct Tables<'a> {
    pub personas: usize,
    pub facts: &'a [Record],
    pub nodes: &'a [Record],
    pub rules: &'a [Record],
    pub entities: &'a [Record],
    pub transitions: &'a [Record],
    pub operations: &'a [Record],
    pub effects: &'a [Record],
    pub flows: &'a [Record],
    pub steps: &'a [Record],
    pub routes: &'a [Record],
}

impl<'a> Tables<'a> {
    /// The tables, unless the header or the length is at fault.
    pub fn read(words: &'a [i64]) -> Option<Self> {
        let (header, body) = words.split_at_checked(HEADER)?;
        let (counts, zeros) = header[1..].split_at(LIMITS.len());
        let in_limits = |(count, limit): (&i64, &i64)| (0..=*limit).contains(count);
        if header[0] != 1 || !counts.iter().zip(&LIMITS).all(in_limits) || zeros.iter().any(|&word| word != 0) {
            return None;
        }
        let (mut rest, odd) = body.as_chunks::<RECORD>();
        let total: i64 = counts[1..].iter().sum();
        if !odd.is_empty() || rest.len() as i64 != total {
            return None;
        }
        let mut table = |kind: usize| {
            let (table, others) = rest.split_at(counts[kind] as usize);
            rest = others;
            table
        };
        Some(Tables {
            personas: counts[0] as usize,
            facts: table(1),
            nodes: table(2),
            rules: table(3),
            entities: table(4),
            transitions: table(5),
            operations: table(6),
            effects: table(7),
            flows: table(8),
            steps: table(9),
            routes: table(10),
        })
    }

    /// Does the count of each group table equal the sum of its owners' counts?
    pub fn groups_add_up(&self) -> bool {
        let sum = |owners: &[Record], word: usize, members: &[Record]| {
            let mut sum = 0;
            for owner in owners {
                if !(0..=1024).contains(&owner[word]) {
                    return false;
                }
                sum += owner[word];
            }
            sum == members.len() as i64
        };
        sum(self.operations, 3, self.effects) && sum(self.flows, 1, self.steps) && sum(self.steps, 4, self.routes)
    }
}

// Look-ups in the tables of an accepted sheet, or in records already judged good.
impl Tables<'_> {
    pub fn group_of_operation(&self, operation: usize) -> Range<usize> {
        let record = &self.operations[operation];
        group(record[2], record[3])
    }

    pub fn group_of_flow(&self, flow: usize) -> Range<usize> {
        let record = &self.flows[flow];
        group(record[0], record[1])
    }

    pub fn group_of_step(&self, step: usize) -> Range<usize> {
        let record = &self.steps[step];
        group(record[3], record[4])
    }

    pub fn states_of(&self, entity: usize) -> usize {
        self.entities[entity][0] as usize
    }

    pub fn outcomes_of(&self, operation: usize) -> usize {
        self.operations[operation][4] as usize
    }

    /// The step that a route names, or the terminal.
    pub fn follow(&self, route: usize) -> Target {
        let [kind, number, ..] = self.routes[route];
        match kind {
            0 => Target::Step(number as usize),
            _ => Target::Terminal(number),
        }
    }
}

fn group(first: i64, count: i64) -> Range<usize> {
    first as usize..(first + count) as usize
}

/// Where a route leads.
pub enum Target {
    Step(usize),
    Terminal(i64),
}

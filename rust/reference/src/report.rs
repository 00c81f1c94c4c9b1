//! Reports S2, S3a, S4 and S7's depth.

use crate::check::Sheet;
use crate::operation::{permits, precondition};
use crate::tables::{Record, Target};

/// S2: the mask of the states reached from the initial one by zero or more declared transitions, and the scans: how
/// many states were taken up, each once, to see where its transitions lead.
pub fn reachable(sheet: &Sheet, entity: usize) -> (usize, usize) {
    let mut steps = [0usize; 16];
    for [of, from, to, ..] in sheet.transitions {
        if *of == entity as i64 {
            steps[*from as usize] |= 1 << to;
        }
    }
    let mut reached = 1usize << sheet.entities[entity][1];
    let mut fresh = reached;
    let mut scans = 0;
    while fresh != 0 {
        let state = fresh.trailing_zeros() as usize;
        scans += 1;
        fresh = (fresh | steps[state] & !reached) & !(1 << state);
        reached |= steps[state];
    }
    (reached, scans)
}

/// Does the effect start from this state of this entity?
pub fn starts(effect: &Record, entity: usize, from: usize) -> bool {
    effect[0] == entity as i64 && effect[1] == from as i64
}

/// Is the persona in the operation's mask, may its precondition hold, and is some effect of this sort?
pub fn some_effect(sheet: &Sheet, operation: usize, persona: usize, sort: impl Fn(&Record) -> bool) -> bool {
    permits(sheet, operation, persona)
        && sheet.may_hold(precondition(sheet, operation))
        && sheet.effects[sheet.group_of_operation(operation)].iter().any(sort)
}

/// S7: the number of steps on the flow's longest path. Routes lead to later steps only.
pub fn depth(sheet: &Sheet, flow: usize) -> usize {
    let steps = sheet.group_of_flow(flow);
    let mut longest = [0usize; 256];
    for step in steps.clone().rev() {
        let after = |route| match sheet.follow(route) {
            Target::Step(next) => longest[next],
            Target::Terminal(_) => 0,
        };
        longest[step] = 1 + sheet.group_of_step(step).map(after).max().unwrap_or(0);
    }
    longest[steps.start]
}

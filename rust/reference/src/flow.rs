//! Runs of flows.

use crate::check::Sheet;
use crate::operation::{self, perform, permits, precondition};
use crate::tables::Target;
use crate::tree::World;
use crate::{Ending, Refused};

/// The outcome that each step of a flow wants, from one word for each: 5 for an operation step whose word is neither -1
/// nor an outcome of its operation, and for a branch whose word is not -1.
pub fn wanted(sheet: &Sheet, flow: usize, words: &[i64]) -> Result<Vec<Option<usize>>, Refused> {
    let steps = sheet.steps[sheet.group_of_flow(flow)].iter();
    steps
        .zip(words)
        .map(|(step, &word)| match step {
            [0, operation, ..] => operation::wanted(sheet, *operation as usize, word),
            _ if word == -1 => Ok(None),
            _ => Err(Refused::plain(5)),
        })
        .collect()
}

/// Runs a flow, each step with the outcome that it wants: the path goes into the buffer, the changes into the states.
pub fn run(
    sheet: &Sheet,
    world: &World,
    flow: usize,
    wanted: &[Option<usize>],
    states: &mut [i64],
    path: &mut [u16],
) -> Ending {
    let first = sheet.group_of_flow(flow).start;
    // Facts and verdicts are fixed, so a precondition is worked out once.
    let mut preconditions = [None; 128];
    let mut step = first;
    let mut length = 0;
    loop {
        let [kind, what, persona, ..] = sheet.steps[step];
        let routes = sheet.group_of_step(step);
        let route = if kind == 1 {
            routes.start + !world.holds(what as usize) as usize
        } else {
            let operation = what as usize;
            let mut holds =
                || *preconditions[operation].get_or_insert_with(|| world.holds(precondition(sheet, operation)));
            let outcome = if permits(sheet, operation, persona as usize) && holds() {
                perform(sheet, operation, wanted[step - first], states).ok()
            } else {
                None
            };
            match outcome {
                Some(outcome) => routes.start + outcome,
                None => routes.end - 1,
            }
        };
        path[length] = route as u16;
        length += 1;
        match sheet.follow(route) {
            Target::Step(next) => step = next,
            Target::Terminal(terminal) => {
                path[length..].fill(0);
                return Ending { terminal, length };
            }
        }
    }
}

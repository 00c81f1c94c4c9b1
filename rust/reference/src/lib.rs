//! Documents 01 and 02 in safe Rust, written from the documents and the C header alone.
//!
//! Each public function answers the four numbers of the C header: refusal, place, value, count.
//! A lent slice is written only once nothing can be refused any more.
#![forbid(unsafe_code)]

mod check;
mod facts;
mod flow;
mod instances;
mod operation;
mod path;
mod report;
mod tables;
mod text;
mod tree;

use check::{check_sheet, Sheet};
use facts::Lent;
use instances::Named;
use tables::below;

pub use check::{M, MOST_LENGTH};
pub use instances::{INSTANCE_WORDS, MOST_INSTANCES};
pub use tables::{HEADER, LIMITS, RECORD};

/// The four numbers of an answer.
#[derive(Clone, Copy, Debug, Default, PartialEq, Eq)]
pub struct Answer {
    pub refusal: i64,
    pub place: i64,
    pub value: i64,
    pub count: i64,
}

/// A refusal: its number and its place.
#[derive(Clone, Copy, Debug, PartialEq, Eq)]
struct Refused {
    number: i64,
    place: usize,
}

impl Refused {
    fn at(number: i64, place: usize) -> Self {
        Refused { number, place }
    }

    fn plain(number: i64) -> Self {
        Refused::at(number, 0)
    }
}

/// A path's terminal and its length.
#[derive(Clone, Copy, Debug, PartialEq, Eq)]
struct Ending {
    terminal: i64,
    length: usize,
}

fn refusal(refused: Refused) -> Answer {
    Answer { refusal: refused.number, place: refused.place as i64, value: 0, count: 0 }
}

/// An answer with a value and a count.
fn counted(call: impl FnOnce() -> Result<(i64, usize), Refused>) -> Answer {
    match call() {
        Ok((value, count)) => Answer { value, count: count as i64, ..Answer::default() },
        Err(refused) => refusal(refused),
    }
}

fn value(call: impl FnOnce() -> Result<usize, Refused>) -> Answer {
    counted(|| call().map(|value| (value as i64, 0)))
}

fn plain(call: impl FnOnce() -> Result<(), Refused>) -> Answer {
    value(|| call().map(|()| 0))
}

fn ending(call: impl FnOnce() -> Result<Ending, Refused>) -> Answer {
    counted(|| call().map(|end| (end.terminal, end.length)))
}

/// Refusal 4 unless a slice's length is the wanted one.
fn judge_length(length: usize, wanted: usize) -> Result<(), Refused> {
    if length == wanted {
        Ok(())
    } else {
        Err(Refused::plain(4))
    }
}

/// Refusal 5 unless the number is one of so many.
fn exists(number: i64, count: usize) -> Result<usize, Refused> {
    below(number, count).ok_or(Refused::plain(5))
}

/// Refusal 4 for a path buffer shorter than the flow has steps. Where the flow does not exist the buffer is not
/// judged, and 5 is given.
fn flow_and_buffer(sheet: &Sheet, flow: i64, buffer: usize) -> Result<usize, Refused> {
    let flow = exists(flow, sheet.flows.len())?;
    if buffer < sheet.group_of_flow(flow).len() {
        return Err(Refused::plain(4));
    }
    Ok(flow)
}

/// The sheet checker.
pub fn check(sheet: &[i64]) -> Answer {
    plain(|| check_sheet(sheet).map(|_| ()))
}

/// The words of a text.
pub fn read_text(text: &[u8], words: &mut [i64]) -> Answer {
    value(|| text::read(text, words))
}

/// The text of words.
pub fn write_text(words: &[i64], text: &mut [u8]) -> Answer {
    value(|| text::write(words, text))
}

/// Fact assembly: the defaults of facts not given go into the values. The value word of a list stays.
pub fn assemble(sheet: &[i64], values: &mut [i64], given: &[i64], lists: &[i64], lengths: &[i64]) -> Answer {
    plain(|| {
        let sheet = check_sheet(sheet)?;
        let lent = Lent { values, given, lists, lengths };
        facts::judge_lengths(&sheet, lent)?;
        let taken = facts::take(&sheet, lent)?;
        values.copy_from_slice(&taken.values[..sheet.facts.len()]);
        Ok(())
    })
}

/// The verdict of each rule.
pub fn verdicts(
    sheet: &[i64],
    values: &[i64],
    given: &[i64],
    lists: &[i64],
    lengths: &[i64],
    verdicts: &mut [i64],
) -> Answer {
    plain(|| {
        let sheet = check_sheet(sheet)?;
        let lent = Lent { values, given, lists, lengths };
        let rules = sheet.rules.len();
        facts::judge_lengths(&sheet, lent)?;
        judge_length(verdicts.len(), rules)?;
        let taken = facts::take(&sheet, lent)?;
        let known = tree::World::new(&sheet, &taken);
        verdicts.copy_from_slice(&known.verdicts[..rules]);
        Ok(())
    })
}

/// One operation on the named instance of each entity. The value is the outcome: the wanted one, or for -1 the only one that
/// is applicable.
pub fn operate(
    sheet: &[i64],
    values: &[i64],
    given: &[i64],
    lists: &[i64],
    lengths: &[i64],
    states: &mut [i64],
    instances: &[i64],
    persona: i64,
    operation: i64,
    wanted: i64,
) -> Answer {
    value(|| {
        let sheet = check_sheet(sheet)?;
        let lent = Lent { values, given, lists, lengths };
        facts::judge_lengths(&sheet, lent)?;
        instances::judge_lengths(&sheet, states, instances)?;
        let persona = exists(persona, sheet.personas)?;
        let operation = exists(operation, sheet.operations.len())?;
        let wanted = operation::wanted(&sheet, operation, wanted)?;
        let named = Named::find(states, instances);
        named.judge_read(&sheet, operation)?;
        let taken = facts::take(&sheet, lent)?;
        instances::judge_records(&sheet, states)?;
        if !operation::permits(&sheet, operation, persona) {
            return Err(Refused::plain(9));
        }
        let known = tree::World::new(&sheet, &taken);
        if !known.holds(operation::precondition(&sheet, operation)) {
            return Err(Refused::plain(10));
        }
        let mut present = named.take(states);
        let outcome = operation::perform(&sheet, operation, wanted, &mut present)?;
        named.put(&present, states);
        Ok(outcome)
    })
}

/// One run of a flow on the named instance of each entity, with a wanted outcome or -1 for each of its steps. The value is
/// the terminal.
pub fn run(
    sheet: &[i64],
    values: &[i64],
    given: &[i64],
    lists: &[i64],
    lengths: &[i64],
    states: &mut [i64],
    instances: &[i64],
    flow: i64,
    wanted: &[i64],
    path: &mut [u16],
) -> Answer {
    ending(|| {
        let sheet = check_sheet(sheet)?;
        let lent = Lent { values, given, lists, lengths };
        facts::judge_lengths(&sheet, lent)?;
        instances::judge_lengths(&sheet, states, instances)?;
        let flow = flow_and_buffer(&sheet, flow, path.len())?;
        judge_length(wanted.len(), sheet.group_of_flow(flow).len())?;
        let wanted = flow::wanted(&sheet, flow, wanted)?;
        let named = Named::find(states, instances);
        named.judge_read_by_flow(&sheet, flow)?;
        let taken = facts::take(&sheet, lent)?;
        instances::judge_records(&sheet, states)?;
        let known = tree::World::new(&sheet, &taken);
        let mut present = named.take(states);
        let end = flow::run(&sheet, &known, flow, &wanted, &mut present, path);
        named.put(&present, states);
        Ok(end)
    })
}

/// Path 0 of a flow.
pub fn first(sheet: &[i64], flow: i64, path: &mut [u16]) -> Answer {
    ending(|| {
        let sheet = check_sheet(sheet)?;
        let flow = flow_and_buffer(&sheet, flow, path.len())?;
        Ok(path::first(&sheet, flow, path))
    })
}

/// The path that follows the one at the buffer's head.
pub fn next(sheet: &[i64], flow: i64, path: &mut [u16]) -> Answer {
    ending(|| {
        let sheet = check_sheet(sheet)?;
        let flow = flow_and_buffer(&sheet, flow, path.len())?;
        path::next(&sheet, flow, path)
    })
}

/// S1: the number of an entity's states.
pub fn states(sheet: &[i64], entity: i64) -> Answer {
    value(|| {
        let sheet = check_sheet(sheet)?;
        let entity = exists(entity, sheet.entities.len())?;
        Ok(sheet.states_of(entity))
    })
}

/// S2: the mask of the states reached from the initial one. The count is of the scans.
pub fn reachable(sheet: &[i64], entity: i64) -> Answer {
    counted(|| {
        let sheet = check_sheet(sheet)?;
        let entity = exists(entity, sheet.entities.len())?;
        let (mask, scans) = report::reachable(&sheet, entity);
        Ok((mask as i64, scans))
    })
}

/// S3a: may the persona perform the operation from this state of the entity?
pub fn admissible(sheet: &[i64], entity: i64, state: i64, persona: i64, operation: i64) -> Answer {
    value(|| {
        let sheet = check_sheet(sheet)?;
        let entity = exists(entity, sheet.entities.len())?;
        let state = exists(state, sheet.states_of(entity))?;
        let persona = exists(persona, sheet.personas)?;
        let operation = exists(operation, sheet.operations.len())?;
        let starts = |effect: &tables::Record| report::starts(effect, entity, state);
        Ok(report::some_effect(&sheet, operation, persona, starts) as usize)
    })
}

/// S4: can the persona cause this change of the entity?
pub fn can_cause(sheet: &[i64], persona: i64, entity: i64, from: i64, to: i64) -> Answer {
    value(|| {
        let sheet = check_sheet(sheet)?;
        let persona = exists(persona, sheet.personas)?;
        let entity = exists(entity, sheet.entities.len())?;
        let from = exists(from, sheet.states_of(entity))?;
        let to = exists(to, sheet.states_of(entity))?;
        let makes = |effect: &tables::Record| report::starts(effect, entity, from) && effect[2] == to as i64;
        let some = (0..sheet.operations.len()).any(|operation| report::some_effect(&sheet, operation, persona, makes));
        Ok(some as usize)
    })
}

/// S5: the number of rules.
pub fn rules(sheet: &[i64]) -> Answer {
    value(|| Ok(check_sheet(sheet)?.rules.len()))
}

/// S5: a rule's stratum.
pub fn stratum(sheet: &[i64], rule: i64) -> Answer {
    value(|| {
        let sheet = check_sheet(sheet)?;
        let rule = exists(rule, sheet.rules.len())?;
        Ok(sheet.rules[rule][0] as usize)
    })
}

/// S5: the number of an operation's outcomes.
pub fn outcomes(sheet: &[i64], operation: i64) -> Answer {
    value(|| {
        let sheet = check_sheet(sheet)?;
        let operation = exists(operation, sheet.operations.len())?;
        Ok(sheet.outcomes_of(operation))
    })
}

/// S7: the number of nodes in the tree under a node, itself counted.
pub fn tree_size(sheet: &[i64], node: i64) -> Answer {
    value(|| {
        let sheet = check_sheet(sheet)?;
        let node = exists(node, sheet.nodes.len())?;
        Ok(tree::size(&sheet, node))
    })
}

/// S7: the number of steps on a flow's longest path.
pub fn depth(sheet: &[i64], flow: i64) -> Answer {
    value(|| {
        let sheet = check_sheet(sheet)?;
        let flow = exists(flow, sheet.flows.len())?;
        Ok(report::depth(&sheet, flow))
    })
}

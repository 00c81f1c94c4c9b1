//! Operations: persona, then precondition, then states.

use crate::check::Sheet;
use crate::tables::Record;
use crate::{exists, Refused};

/// Is the persona in the operation's mask?
pub fn permits(sheet: &Sheet, operation: usize, persona: usize) -> bool {
    sheet.operations[operation][0] >> persona & 1 == 1
}

/// The operation's precondition node.
pub fn precondition(sheet: &Sheet, operation: usize) -> usize {
    sheet.operations[operation][1] as usize
}

/// The outcome that a word wants of an operation, none for -1; 5 where the operation has no such outcome.
pub fn wanted(sheet: &Sheet, operation: usize, word: i64) -> Result<Option<usize>, Refused> {
    match word {
        -1 => Ok(None),
        _ => exists(word, sheet.outcomes_of(operation)).map(Some),
    }
}

/// The entities of an outcome's effects that have an effect from their present state, as a mask, if all of them have;
/// else the entity of the first effect whose entity has none.
fn applicable(effects: &[Record], states: &[i64]) -> Result<u32, usize> {
    let mut ready = 0u32;
    for [entity, from, ..] in effects {
        if states[*entity as usize] == *from {
            ready |= 1 << entity;
        }
    }
    match effects.iter().find(|[entity, ..]| ready >> entity & 1 == 0) {
        None => Ok(ready),
        Some([entity, ..]) => Err(*entity as usize),
    }
}

/// Performs the wanted outcome, or the only applicable one, and answers its number. 11 where it is not applicable, or
/// none is, at the entity that blocks it, or outcome 0; 16 where none is wanted and several are.
pub fn perform(sheet: &Sheet, operation: usize, wanted: Option<usize>, states: &mut [i64]) -> Result<usize, Refused> {
    let effects = &sheet.effects[sheet.group_of_operation(operation)];
    let (mut chosen, mut blocker) = (None, 0);
    for (outcome, effects) in effects.chunk_by(|a, b| a[3] == b[3]).enumerate() {
        if wanted.is_some_and(|wanted| wanted != outcome) {
            continue;
        }
        match applicable(effects, states) {
            Ok(_) if chosen.is_some() => return Err(Refused::plain(16)),
            Ok(ready) => chosen = Some((outcome, effects, ready)),
            Err(entity) if outcome == wanted.unwrap_or(0) => blocker = entity,
            Err(_) => {}
        }
    }
    let (outcome, effects, mut ready) = chosen.ok_or(Refused::at(11, blocker))?;
    // All at once: an entity that has moved is not moved again.
    for [entity, from, to, ..] in effects {
        if ready >> entity & 1 == 1 && states[*entity as usize] == *from {
            states[*entity as usize] = *to;
            ready &= !(1 << entity);
        }
    }
    Ok(outcome)
}

//! States: a record for each instance of an entity, of which a call names one for each entity.

use crate::check::Sheet;
use crate::tables::below;
use crate::Refused;

/// Words of a record: entity, instance number, state.
pub const INSTANCE_WORDS: usize = 3;

/// The most records that may be lent.
pub const MOST_INSTANCES: usize = 256;

/// Refusal 4 unless the states are whole records, not too many, and one instance is named for each entity.
pub fn judge_lengths(sheet: &Sheet, states: &[i64], instances: &[i64]) -> Result<(), Refused> {
    let whole = states.len() % INSTANCE_WORDS == 0;
    let few = states.len() / INSTANCE_WORDS <= MOST_INSTANCES;
    if whole && few && instances.len() == sheet.entities.len() {
        Ok(())
    } else {
        Err(Refused::plain(4))
    }
}

/// Refusal 8 at the first record that is not above the one before it, or has an entity or a state that does not exist.
pub fn judge_records(sheet: &Sheet, states: &[i64]) -> Result<(), Refused> {
    let mut before = None;
    for (number, &[entity, instance, state]) in states.as_chunks::<INSTANCE_WORDS>().0.iter().enumerate() {
        let above = before < Some((entity, instance));
        let known = below(entity, sheet.entities.len()).is_some_and(|of| below(state, sheet.states_of(of)).is_some());
        if !above || !known {
            return Err(Refused::at(8, number));
        }
        before = Some((entity, instance));
    }
    Ok(())
}

/// Which record each entity's named instance has, if it has one.
pub struct Named([Option<usize>; 32]);

impl Named {
    /// Looks for the named instances among the records, in whatever order these stand.
    pub fn find(states: &[i64], instances: &[i64]) -> Self {
        let mut named = Named([None; 32]);
        for (number, &[entity, instance, _]) in states.as_chunks::<INSTANCE_WORDS>().0.iter().enumerate() {
            match below(entity, instances.len()) {
                Some(entity) if instances[entity] == instance => named.0[entity] = Some(number),
                _ => {}
            }
        }
        named
    }

    /// Refusal 5 unless there is a record for each entity that an effect of the operation names, whatever its outcome.
    pub fn judge_read(&self, sheet: &Sheet, operation: usize) -> Result<(), Refused> {
        let effects = &sheet.effects[sheet.group_of_operation(operation)];
        match effects.iter().all(|[entity, ..]| self.0[*entity as usize].is_some()) {
            true => Ok(()),
            false => Err(Refused::plain(5)),
        }
    }

    /// As above, for the operations of all steps of a flow, reached or not.
    pub fn judge_read_by_flow(&self, sheet: &Sheet, flow: usize) -> Result<(), Refused> {
        sheet.steps[sheet.group_of_flow(flow)].iter().try_for_each(|step| match step {
            [0, operation, ..] => self.judge_read(sheet, *operation as usize),
            _ => Ok(()),
        })
    }

    /// The state of each entity's named instance; 0 where it has no record, which nothing reads.
    pub fn take(&self, states: &[i64]) -> [i64; 32] {
        self.0.map(|number| number.map_or(0, |number| states[INSTANCE_WORDS * number + 2]))
    }

    /// Puts the states of the named instances back into their records. No other word is written.
    pub fn put(&self, taken: &[i64; 32], states: &mut [i64]) {
        for (number, state) in self.0.iter().zip(taken) {
            if let Some(number) = number {
                states[INSTANCE_WORDS * number + 2] = *state;
            }
        }
    }
}

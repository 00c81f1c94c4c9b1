//! The states that operations and runs work on: a record for each instance of an entity.

use std::error::Error;
use std::fmt;

/// Words of a record.
const WORDS: usize = 3;

/// The present states: for each instance of an entity a record of entity, instance number and state, sorted by entity and then
/// by instance number, none twice.
///
/// An entity may have any number of instances, also none. Instance numbers are the caller's own, negative ones too. A call
/// names one instance of each entity and changes the states of these alone; it adds and removes no record.
///
/// ```
/// use fernpocket::States;
///
/// // Order 7, and three of its parcels, in any order.
/// const ORDER: usize = 0;
/// const PARCEL: usize = 1;
/// let mut states = States::new([(PARCEL, 12, 0), (PARCEL, 11, 2), (ORDER, 7, 1), (PARCEL, 10, 0)])?;
/// assert_eq!(states.words(), [0, 7, 1, 1, 10, 0, 1, 11, 2, 1, 12, 0]);
/// assert_eq!(states.get(PARCEL, 11), Some(2));
/// assert_eq!(states.get(PARCEL, 13), None);
///
/// // A parcel more, and one that has moved.
/// assert_eq!(states.insert(PARCEL, 13, 0), None);
/// assert_eq!(states.insert(PARCEL, 12, 1), Some(0));
/// assert_eq!(states.of(PARCEL).collect::<Vec<_>>(), [(10, 0), (11, 2), (12, 1), (13, 0)]);
///
/// let twice = States::new([(PARCEL, 11, 0), (ORDER, 7, 1), (PARCEL, 11, 2)]).unwrap_err();
/// assert_eq!(twice.to_string(), "instance 11 of entity 1 is there twice");
/// # Ok::<(), fernpocket::Twice>(())
/// ```
///
/// Where each entity has one instance, numbered 0:
///
/// ```
/// use fernpocket::States;
///
/// let states = States::one_each(&[2, 0, 1]);
/// assert_eq!(states.words(), [0, 0, 2, 1, 0, 0, 2, 0, 1]);
/// assert_eq!(states.each(), Some(vec![2, 0, 1]));
/// ```
#[derive(Clone, Debug, Default, PartialEq, Eq, Hash)]
pub struct States {
    words: Vec<i64>,
}

impl States {
    /// The most records that a call takes; more are refused [`Length`](crate::Refusal::Length).
    pub const MOST: usize = 256;

    /// Records of entity, instance number and state, in any order. Whether entities and states exist is judged by the calls.
    ///
    /// Refused where an instance is there twice.
    pub fn new(records: impl IntoIterator<Item = (usize, i64, i64)>) -> Result<States, Twice> {
        let mut records: Vec<_> = records.into_iter().collect();
        records.sort_by_key(|&(entity, instance, _)| (entity, instance));
        for pair in records.windows(2) {
            let [(entity, instance, _), (other, same, _)] = [pair[0], pair[1]];
            if (entity, instance) == (other, same) {
                return Err(Twice { entity, instance });
            }
        }
        let words = records.into_iter().flat_map(|(entity, instance, state)| [word(entity), instance, state]);
        Ok(States { words: words.collect() })
    }

    /// One instance of each entity, numbered 0, in these states: that of entity 0 first. A call then takes a 0 for each entity
    /// as its instances.
    pub fn one_each(states: &[i64]) -> States {
        let words = states.iter().enumerate().flat_map(|(entity, &state)| [word(entity), 0, state]);
        States { words: words.collect() }
    }

    /// The way back from [`one_each`](States::one_each): the state of each entity, that of entity 0 first. None unless the
    /// records are those of one instance, numbered 0, of each entity up to some number.
    pub fn each(&self) -> Option<Vec<i64>> {
        let states: Vec<i64> = self.iter().map(|[_, _, state]| state).collect();
        (States::one_each(&states) == *self).then_some(states)
    }

    /// Records as words, three for each, as they stand. Nothing is judged or sorted here: that is for the calls, which refuse
    /// [`Length`](crate::Refusal::Length) and [`State`](crate::Refusal::State).
    pub fn from_words(words: Vec<i64>) -> States {
        States { words }
    }

    /// The records as words.
    pub fn words(&self) -> &[i64] {
        &self.words
    }

    /// The records as words, to be lent to a call of [`raw`](crate::raw).
    pub fn words_mut(&mut self) -> &mut [i64] {
        &mut self.words
    }

    /// How many records there are.
    pub fn len(&self) -> usize {
        self.iter().len()
    }

    /// Whether there are none.
    pub fn is_empty(&self) -> bool {
        self.len() == 0
    }

    /// The records in order: entity, instance number, state.
    pub fn iter(&self) -> impl ExactSizeIterator<Item = [i64; 3]> + '_ {
        self.words.chunks_exact(WORDS).map(|record| [record[0], record[1], record[2]])
    }

    /// The instances of an entity, each with its state.
    pub fn of(&self, entity: usize) -> impl Iterator<Item = (i64, i64)> + '_ {
        self.iter().filter(move |&[of, _, _]| of == word(entity)).map(|[_, instance, state]| (instance, state))
    }

    /// The state of an instance of an entity; None where it has no record.
    pub fn get(&self, entity: usize, instance: i64) -> Option<i64> {
        self.of(entity).find(|&(number, _)| number == instance).map(|(_, state)| state)
    }

    /// Puts an instance of an entity into a state, and answers the state that it had. One without a record gets one, in its
    /// place among the others.
    pub fn insert(&mut self, entity: usize, instance: i64, state: i64) -> Option<i64> {
        let key = (word(entity), instance);
        let number = self.iter().take_while(|&[of, number, _]| (of, number) < key).count();
        let place = WORDS * number;
        match self.words.get_mut(place..place + WORDS) {
            Some([of, number, old]) if (*of, *number) == key => Some(std::mem::replace(old, state)),
            _ => {
                self.words.splice(place..place, [key.0, key.1, state]);
                None
            }
        }
    }

    /// Takes the record of an instance of an entity out, and answers the state that it had.
    pub fn remove(&mut self, entity: usize, instance: i64) -> Option<i64> {
        let number = self.iter().position(|[of, number, _]| (of, number) == (word(entity), instance))?;
        self.words.drain(WORDS * number..WORDS * (number + 1)).last()
    }
}

/// The number of an entity as a word. One past i64 becomes one that never exists.
fn word(entity: usize) -> i64 {
    crate::number(entity)
}

/// Why records make no [`States`]: an instance is there twice.
#[derive(Clone, Copy, Debug, PartialEq, Eq, Hash)]
pub struct Twice {
    /// The entity.
    pub entity: usize,
    /// The number of the instance.
    pub instance: i64,
}

impl fmt::Display for Twice {
    fn fmt(&self, f: &mut fmt::Formatter) -> fmt::Result {
        write!(f, "instance {} of entity {} is there twice", self.instance, self.entity)
    }
}

impl Error for Twice {}

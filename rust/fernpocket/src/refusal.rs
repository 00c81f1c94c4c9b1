//! Refusals, by the names that the Rattle sources and the C header give them.

use std::error::Error;
use std::fmt;

/// Why a call was refused. Every lent slice still holds what it held.
///
/// A case that has a place holds it: a record, a fact, a record of the states, an entity or a line, each counted from 0.
///
/// ```
/// use fernpocket::{check, Refusal};
///
/// let refusal = check(&[]).unwrap_err();
/// assert_eq!(refusal, Refusal::Header);
/// assert_eq!((refusal.number(), refusal.place()), (1, 0));
/// assert_eq!(refusal.to_string(), "refused 1 at 0: the header or the sheet's length is wrong");
///
/// let blocked = Refusal::NoOutcome { entity: 3, wanted: Some(1) };
/// assert_eq!(blocked.to_string(), "refused 11 at 3: entity 3 is in no state that outcome 1 starts from");
/// ```
#[derive(Clone, Copy, Debug, PartialEq, Eq, Hash, PartialOrd, Ord)]
pub enum Refusal {
    /// 1: fewer than 16 words, a wrong header, or a length that is not the header's.
    Header,
    /// 2: the counts of a group's owners do not add up to the table's count.
    Group,
    /// 3: this record is bad, and none before it is. In the sheet's text it is line place + 3, counted from 1.
    Record(usize),
    /// 4: a slice has the wrong length; of the lists, the slots or the lengths are not as many as the sheet's facts want; there
    /// are more than 256 records of states, or not as many instance numbers as the sheet has entities.
    Length,
    /// 5: there is no such persona, operation, outcome, flow, entity, state, rule or node; or an instance that the operation,
    /// or an operation of the flow, touches has no record.
    Missing,
    /// 6: this fact's given flag is not 0 or 1, or it is given with a value outside its min..max. A list: it is given with a
    /// length outside 0 to its largest, or with an element outside min..max.
    FactValue(usize),
    /// 7: this fact is not given and has no default. A list never has one.
    FactAbsent(usize),
    /// 8: this record of the states is not above the one before it, or its entity or state does not exist. Records are
    /// counted from 0.
    State(usize),
    /// 9: the persona may not perform the operation.
    Persona,
    /// 10: the operation's precondition is false.
    Precondition,
    /// 11: the wanted outcome does not apply to the present states; where none is wanted, none of the operation's does.
    NoOutcome {
        /// The entity that blocks the wanted outcome or, where none is wanted, outcome 0: that of its first effect, in the
        /// sheet's order, whose entity is in no state from which an effect of that outcome starts.
        entity: usize,
        /// The outcome that the call wanted.
        wanted: Option<usize>,
    },
    /// 12: the buffer does not begin with a path of the flow.
    NotPath,
    /// 13: no path follows the one in the buffer.
    LastPath,
    /// 14: this line of the text is bad, or this line's words have no text.
    Line(usize),
    /// 15: the output is shorter than the result.
    NoRoom,
    /// 16: several of the operation's outcomes apply to the present states, and none is wanted.
    ManyOutcomes,
}

impl Refusal {
    /// The refusal with this number and place, of a call that wanted this outcome of an operation or, as calls do that
    /// perform no operation, none; None where there is no such number.
    pub fn from_numbers(number: i64, place: usize, wanted: Option<usize>) -> Option<Refusal> {
        Some(match number {
            1 => Refusal::Header,
            2 => Refusal::Group,
            3 => Refusal::Record(place),
            4 => Refusal::Length,
            5 => Refusal::Missing,
            6 => Refusal::FactValue(place),
            7 => Refusal::FactAbsent(place),
            8 => Refusal::State(place),
            9 => Refusal::Persona,
            10 => Refusal::Precondition,
            11 => Refusal::NoOutcome { entity: place, wanted },
            12 => Refusal::NotPath,
            13 => Refusal::LastPath,
            14 => Refusal::Line(place),
            15 => Refusal::NoRoom,
            16 => Refusal::ManyOutcomes,
            _ => return None,
        })
    }

    /// The refusal's number, 1 to 16.
    pub fn number(self) -> u8 {
        match self {
            Refusal::Header => 1,
            Refusal::Group => 2,
            Refusal::Record(_) => 3,
            Refusal::Length => 4,
            Refusal::Missing => 5,
            Refusal::FactValue(_) => 6,
            Refusal::FactAbsent(_) => 7,
            Refusal::State(_) => 8,
            Refusal::Persona => 9,
            Refusal::Precondition => 10,
            Refusal::NoOutcome { .. } => 11,
            Refusal::NotPath => 12,
            Refusal::LastPath => 13,
            Refusal::Line(_) => 14,
            Refusal::NoRoom => 15,
            Refusal::ManyOutcomes => 16,
        }
    }

    /// The record, fact, record of the states, entity or line; 0 where the refusal has no place.
    pub fn place(self) -> usize {
        match self {
            Refusal::Record(place)
            | Refusal::FactValue(place)
            | Refusal::FactAbsent(place)
            | Refusal::State(place)
            | Refusal::NoOutcome { entity: place, .. }
            | Refusal::Line(place) => place,
            _ => 0,
        }
    }

    /// What is wrong, in words, without number and place. The C example has the same words. Of 11 both print more: which
    /// entity, and which outcome.
    pub fn words(self) -> &'static str {
        match self {
            Refusal::Header => "the header or the sheet's length is wrong",
            Refusal::Group => "the counts of a group's owners do not add up to the table's count",
            Refusal::Record(_) => "this record is bad (in the text: line place + 3, counted from 1)",
            Refusal::Length => "a slice has the wrong length",
            Refusal::Missing => {
                "there is no such persona, operation, outcome, flow, entity, instance, state, rule or node"
            }
            Refusal::FactValue(_) => {
                "this fact is given wrongly: its flag, value, length or an element is out of range"
            }
            Refusal::FactAbsent(_) => "this fact is not given and has no default",
            Refusal::State(_) => {
                "this record of the states is not above the one before it, or its entity or state does not exist"
            }
            Refusal::Persona => "the persona may not perform the operation",
            Refusal::Precondition => "the operation's precondition is false",
            Refusal::NoOutcome { .. } => "this entity is in no state that the outcome starts from",
            Refusal::NotPath => "the buffer does not begin with a path of the flow",
            Refusal::LastPath => "no path follows the one in the buffer",
            Refusal::Line(_) => "this line is bad (line place + 1, counted from 1)",
            Refusal::NoRoom => "the output is shorter than the result",
            Refusal::ManyOutcomes => "several outcomes apply to the present states, and none is wanted",
        }
    }
}

impl fmt::Display for Refusal {
    fn fmt(&self, f: &mut fmt::Formatter) -> fmt::Result {
        write!(f, "refused {} at {}: ", self.number(), self.place())?;
        match self {
            Refusal::NoOutcome { entity, wanted: Some(outcome) } => {
                write!(f, "entity {entity} is in no state that outcome {outcome} starts from")
            }
            Refusal::NoOutcome { entity, wanted: None } => {
                write!(f, "no outcome applies, and entity {entity} is in no state that outcome 0 starts from")
            }
            _ => f.write_str(self.words()),
        }
    }
}

impl Error for Refusal {}

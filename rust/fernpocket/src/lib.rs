//! Contract sheets: safe functions over the C exports of the verified library.
//!
//! A sheet is a slice of words, which docs/FORMAT.md in the repository describes: facts, predicate nodes, rules,
//! entities with their states and transitions, operations with their effects, flows with their steps and routes. The
//! first 16 words are the header, which has the count of each: `sheet[1]` personas, `sheet[2]` facts, `sheet[4]` rules,
//! `sheet[5]` entities, `sheet[7]` operations, `sheet[9]` flows.
//!
//! Anything may be handed to any call. Every call that takes a sheet checks it first and is refused with
//! [`Refusal::Header`], [`Refusal::Group`] or [`Refusal::Record`] where it is not accepted. Where a call is refused,
//! each slice lent to it still holds what it held. The slices that come back in several calls:
//!
//! | Slice | What it holds | Its length, else [`Refusal::Length`] |
//! |---|---|---|
//! | `values` | the value of each fact; that of a fact that is not given, or is a list, is not read | the sheet's facts, exactly |
//! | `given` | for each fact 1 where its value, or list, is given, 0 where it is not | the sheet's facts, exactly |
//! | `lists` | the elements of each fact that is a list, in the order of the facts: as many slots as its largest length, the first of them filled, the others not read | the sum of the lists' largest lengths, exactly |
//! | `lengths` | how many elements each fact that is a list has, in the order of the facts | the sheet's lists, exactly |
//! | `verdicts` | the verdict of each rule, 1 or 0 | the sheet's rules, exactly |
//! | `states` | a record of entity, instance number and state for each instance of an entity: see [`States`] | at most 256 records |
//! | `instances` | for each entity the number of the instance that the call is about; those of entities that the operation, or an operation of the flow, does not touch are not read | the sheet's entities, exactly |
//! | `wanted` | for each step of the flow the outcome that is wanted of its operation; none leaves it to the states | the flow's steps, exactly |
//! | `path` | the numbers of the routes taken, then zeros | the flow's steps or more; 256 always serves |
//!
//! A call needs up to [`STACK`] bytes of stack, whatever the sheet.
//!
//! ```
//! use fernpocket::{check, example, run, Path, Refusal, States, Terminal};
//!
//! let mut sheet = example::sheet();
//! assert_eq!(check(&sheet), Ok(()));
//!
//! // Fact 0 is given as 1; entity 0 has one instance, numbered 0, in state 0; step 0 is a branch; of the operation of step 1
//! // outcome 0 is wanted.
//! let (mut states, mut path) = (States::one_each(&[0]), [0; 2]);
//! let end = run(&sheet, &[1], &[1], &[], &[], &mut states, &[0], 0, &[None, Some(0)], &mut path)?;
//! assert_eq!(end, Path { terminal: Terminal::Success, length: 2 });
//! assert_eq!((states.get(0, 0), path), (Some(1), [0, 2]));
//!
//! sheet[16 + 8 * 8 + 3] = 2; // record 8 is an effect: its outcome
//! assert_eq!(check(&sheet), Err(Refusal::Record(8)));
//! # Ok::<(), fernpocket::Refusal>(())
//! ```
#![deny(missing_docs)]

pub mod example;
pub mod raw;
mod refusal;
mod states;

use raw::Answer;
pub use refusal::Refusal;
pub use states::{States, Twice};

/// The bytes of stack that a call may need, measured on x86-64 and rounded up: the header's `FERNPOCKET_STACK`.
pub const STACK: usize = 224 * 1024;

/// How a flow's path ends.
#[derive(Clone, Copy, Debug, PartialEq, Eq, Hash)]
pub enum Terminal {
    /// Terminal 0.
    Success,
    /// Terminal 1.
    Failure,
    /// Terminal 2.
    Escalation,
}

/// An answered path: the buffer's first `length` entries are its routes, the others are 0.
#[derive(Clone, Copy, Debug, PartialEq, Eq, Hash)]
pub struct Path {
    /// How it ends.
    pub terminal: Terminal,
    /// How many routes it has.
    pub length: usize,
}

/// What an entity reaches from its initial state.
#[derive(Clone, Copy, Debug, PartialEq, Eq, Hash)]
pub struct Reach {
    /// The states reached; bit s is state s.
    pub mask: u16,
    /// How often the transitions were scanned: once for each state of the mask.
    pub scans: usize,
}

fn refusal(answer: Answer, wanted: Option<usize>) -> Refusal {
    Refusal::from_numbers(answer.refusal, answer.place as usize, wanted).expect("a refusal has a number of 1 to 16")
}

fn accepted(answer: Answer) -> Result<Answer, Refusal> {
    if answer.refusal == 0 {
        return Ok(answer);
    }
    Err(refusal(answer, None))
}

fn done(answer: Answer) -> Result<(), Refusal> {
    accepted(answer).map(|_| ())
}

fn value(answer: Answer) -> Result<usize, Refusal> {
    accepted(answer).map(|answer| answer.value as usize)
}

fn path_of(answer: Answer) -> Result<Path, Refusal> {
    accepted(answer).map(|answer| Path {
        terminal: match answer.value {
            0 => Terminal::Success,
            1 => Terminal::Failure,
            _ => Terminal::Escalation,
        },
        length: answer.count as usize,
    })
}

/// A number for C. One past i64 becomes one that never exists.
fn number(number: usize) -> i64 {
    i64::try_from(number).unwrap_or(i64::MAX)
}

/// A wanted outcome for C, which has -1 for none.
fn wanted_word(wanted: Option<usize>) -> i64 {
    wanted.map_or(-1, number)
}

/// Checks a sheet: `Ok` where it is accepted.
///
/// Refused for [`Refusal::Header`], [`Refusal::Group`] and [`Refusal::Record`] alone; each call below that takes a
/// sheet may be refused for the same.
///
/// ```
/// use fernpocket::{check, Refusal};
///
/// let empty = [1, 0, 0, 0, 0, 0, 0, 0, 0, 0, 0, 0, 0, 0, 0, 0];
/// assert_eq!(check(&empty), Ok(()));
/// assert_eq!(check(&empty[1..]), Err(Refusal::Header));
/// ```
pub fn check(sheet: &[i64]) -> Result<(), Refusal> {
    done(raw::check(sheet))
}

/// Reads a text into the words and answers how many there were. Words past them stay as they were.
///
/// A line has eight decimals parted by one tab and ends with LF. Lines and words are judged, not the sheet. The words
/// are any number; half as many as the text has bytes always suffice.
///
/// Refused for [`Refusal::Line`], and [`Refusal::NoRoom`] where the text has more words than there is room for.
///
/// ```
/// use fernpocket::{read_text, Refusal};
///
/// let mut words = [9; 10];
/// assert_eq!(read_text(b"1\t-2\t0\t0\t0\t0\t0\t1000000000\n", &mut words), Ok(8));
/// assert_eq!(words, [1, -2, 0, 0, 0, 0, 0, 1_000_000_000, 9, 9]);
///
/// assert_eq!(read_text(b"0\t0\t0\t0\t0\t0\t0\t0\n1\n", &mut words), Err(Refusal::Line(1)));
/// ```
pub fn read_text(text: &[u8], words: &mut [i64]) -> Result<usize, Refusal> {
    value(raw::read_text(text, words))
}

/// Writes the words as text and answers how many bytes that took. Bytes past them stay as they were.
///
/// The text is of any length; 12 bytes a word always suffice.
///
/// Refused for [`Refusal::Line`] where eight words have no text (one is outside −1,000,000,000..1,000,000,000, or they
/// are fewer than eight), and [`Refusal::NoRoom`].
///
/// ```
/// use fernpocket::{example, write_text, Refusal};
///
/// let mut text = [0; 400];
/// let length = write_text(&example::sheet(), &mut text)?;
/// assert_eq!(&text[..length], example::TEXT.as_bytes());
///
/// assert_eq!(write_text(&[0; 7], &mut text), Err(Refusal::Line(0)));
/// assert_eq!(write_text(&[0; 8], &mut text[..15]), Err(Refusal::NoRoom));
/// # Ok::<(), fernpocket::Refusal>(())
/// ```
pub fn write_text(words: &[i64], text: &mut [u8]) -> Result<usize, Refusal> {
    value(raw::write_text(words, text))
}

/// Puts the defaults into the values of facts that are not given (flag 0). A list has no default: it has to be given, and
/// its value stays as it was.
///
/// Refused for a sheet's refusals, [`Refusal::Length`], [`Refusal::FactValue`] and [`Refusal::FactAbsent`].
///
/// ```
/// use fernpocket::{assemble, example, Refusal};
///
/// let mut values = [77];
/// assemble(&example::sheet(), &mut values, &[0], &[], &[])?;
/// assert_eq!(values, [0]);
///
/// assert_eq!(assemble(&example::sheet(), &mut [2], &[1], &[], &[]), Err(Refusal::FactValue(0)));
/// # Ok::<(), fernpocket::Refusal>(())
/// ```
pub fn assemble(
    sheet: &[i64],
    values: &mut [i64],
    given: &[i64],
    lists: &[i64],
    lengths: &[i64],
) -> Result<(), Refusal> {
    done(raw::assemble(sheet, values, given, lists, lengths))
}

/// Writes each rule's verdict, 1 or 0.
///
/// Refused for a sheet's refusals, [`Refusal::Length`], [`Refusal::FactValue`] and [`Refusal::FactAbsent`].
///
/// ```
/// use fernpocket::verdicts;
///
/// // One Bool fact without a default; rule 0: the fact is true.
/// let sheet = [
///     1, 0, 1, 1, 1, 0, 0, 0, 0, 0, 0, 0, 0, 0, 0, 0, //
///     0, 0, 1, 0, 0, 0, 0, 0, //
///     3, 0, 0, 0, 0, 0, 0, 0, //
///     0, 0, 0, 0, 0, 0, 0, 0, //
/// ];
/// let mut out = [9];
/// verdicts(&sheet, &[1], &[1], &[], &[], &mut out)?;
/// assert_eq!(out, [1]);
/// # Ok::<(), fernpocket::Refusal>(())
/// ```
///
/// With lists:
///
/// ```
/// use fernpocket::{verdicts, Refusal};
///
/// // Fact 0: a list of up to three Bools; fact 1: a list of up to two Ints of 0 to 9. Rule 0: for all of fact 0, the element
/// // is true. Rule 1: in fact 1 there exists an element above 5.
/// let sheet = [
///     1, 0, 2, 6, 2, 0, 0, 0, 0, 0, 0, 0, 0, 0, 0, 0, //
///     5, 0, 1, 0, 0, 0, 0, 3, //
///     5, 0, 9, 0, 0, 0, 1, 2, //
///     17, 0, 0, 0, 0, 0, 0, 0, //
///     14, 0, 0, 0, 0, 0, 0, 0, //
///     17, 1, 0, 0, 0, 0, 0, 0, //
///     0, 5, 0, 0, 0, 0, 0, 0, //
///     7, 4, 2, 3, 0, 0, 0, 0, //
///     15, 1, 4, 0, 0, 0, 0, 0, //
///     0, 1, 0, 0, 0, 0, 0, 0, //
///     0, 5, 0, 0, 0, 0, 0, 0, //
/// ];
/// let mut out = [9; 2];
/// // True, true, and a slot that is not used; then 4 and 6.
/// verdicts(&sheet, &[0, 0], &[1, 1], &[1, 1, 0, 4, 6], &[2, 2], &mut out)?;
/// assert_eq!(out, [1, 1]);
/// // Of no elements all are true, and none exists.
/// verdicts(&sheet, &[0, 0], &[1, 1], &[0; 5], &[0, 0], &mut out)?;
/// assert_eq!(out, [1, 0]);
/// // 10 is no element of the second list; a list that is not given is not an empty one.
/// let refused = verdicts(&sheet, &[0, 0], &[1, 1], &[1, 1, 0, 4, 10], &[2, 2], &mut out);
/// assert_eq!(refused, Err(Refusal::FactValue(1)));
/// let refused = verdicts(&sheet, &[0, 0], &[0, 1], &[0; 5], &[0, 0], &mut out);
/// assert_eq!(refused, Err(Refusal::FactAbsent(0)));
/// # Ok::<(), fernpocket::Refusal>(())
/// ```
pub fn verdicts(
    sheet: &[i64],
    values: &[i64],
    given: &[i64],
    lists: &[i64],
    lengths: &[i64],
    verdicts: &mut [i64],
) -> Result<(), Refusal> {
    done(raw::verdicts(sheet, values, given, lists, lengths, verdicts))
}

/// Performs an operation on the named instances and answers the outcome: the wanted one, or where none is wanted the only one
/// that applies. The named instances are then in the states after the outcome; every other instance stays as it was.
///
/// Refused for a sheet's refusals, [`Refusal::Length`], [`Refusal::Missing`], [`Refusal::FactValue`],
/// [`Refusal::FactAbsent`], [`Refusal::State`], [`Refusal::Persona`], [`Refusal::Precondition`],
/// [`Refusal::NoOutcome`] and [`Refusal::ManyOutcomes`].
///
/// ```
/// use fernpocket::{example, operate, Refusal, States};
///
/// let sheet = example::sheet();
/// // Entity 0 has two instances, 10 and 11, both in state 0.
/// let mut states = States::new([(0, 10, 0), (0, 11, 0)])?;
/// // Both outcomes apply to state 0.
/// let refused = operate(&sheet, &[1], &[1], &[], &[], &mut states, &[11], 0, 0, None);
/// assert_eq!(refused, Err(Refusal::ManyOutcomes));
/// // Instance 11 is named, and moves.
/// assert_eq!(operate(&sheet, &[1], &[1], &[], &[], &mut states, &[11], 0, 0, Some(1)), Ok(1));
/// assert_eq!((states.get(0, 10), states.get(0, 11)), (Some(0), Some(2)));
/// // Neither applies to state 2: entity 0 is in the way.
/// let blocked = operate(&sheet, &[1], &[1], &[], &[], &mut states, &[11], 0, 0, Some(1)).unwrap_err();
/// assert_eq!(blocked, Refusal::NoOutcome { entity: 0, wanted: Some(1) });
/// assert_eq!(blocked.to_string(), "refused 11 at 0: entity 0 is in no state that outcome 1 starts from");
/// // There is no instance 12.
/// let refused = operate(&sheet, &[1], &[1], &[], &[], &mut states, &[12], 0, 0, Some(1));
/// assert_eq!(refused, Err(Refusal::Missing));
/// # Ok::<(), Box<dyn std::error::Error>>(())
/// ```
pub fn operate(
    sheet: &[i64],
    values: &[i64],
    given: &[i64],
    lists: &[i64],
    lengths: &[i64],
    states: &mut States,
    instances: &[i64],
    persona: usize,
    operation: usize,
    wanted: Option<usize>,
) -> Result<usize, Refusal> {
    let answer = raw::operate(
        sheet,
        values,
        given,
        lists,
        lengths,
        states.words_mut(),
        instances,
        number(persona),
        number(operation),
        wanted_word(wanted),
    );
    value(answer).map_err(|_| refusal(answer, wanted))
}

/// Runs a flow on the named instances: changes their states, and puts the path in the buffer. For each step of the flow
/// `wanted` has the outcome that is wanted of its operation, or none, as for a branch.
///
/// A step that is refused takes its failure route; the run goes on, and what earlier steps changed remains. So a run that
/// ends in [`Terminal::Failure`] is answered `Ok`. The named instances are the same for all steps, and those that an
/// operation of any step touches must have a record, whether or not the run reaches that step.
///
/// Refused for a sheet's refusals, [`Refusal::Length`], [`Refusal::Missing`], [`Refusal::FactValue`],
/// [`Refusal::FactAbsent`] and [`Refusal::State`].
///
/// ```
/// use fernpocket::{example, run, Path, States, Terminal};
///
/// let (mut states, mut path) = (States::one_each(&[1]), [0; 2]);
/// let end = run(&example::sheet(), &[1], &[1], &[], &[], &mut states, &[0], 0, &[None, None], &mut path)?;
/// assert_eq!(end, Path { terminal: Terminal::Escalation, length: 2 });
/// assert_eq!((states.each(), path), (Some(vec![1]), [0, 4]));
/// # Ok::<(), fernpocket::Refusal>(())
/// ```
pub fn run(
    sheet: &[i64],
    values: &[i64],
    given: &[i64],
    lists: &[i64],
    lengths: &[i64],
    states: &mut States,
    instances: &[i64],
    flow: usize,
    wanted: &[Option<usize>],
    path: &mut [u16],
) -> Result<Path, Refusal> {
    // No flow has more than 256 steps, so a longer slice is as wrong as one of 257.
    let mut words = [-1; 257];
    words.iter_mut().zip(wanted).for_each(|(word, &wanted)| *word = wanted_word(wanted));
    let wanted = &words[..wanted.len().min(words.len())];
    let states = states.words_mut();
    path_of(raw::run(sheet, values, given, lists, lengths, states, instances, number(flow), wanted, path))
}

/// S6: puts a flow's first path in the buffer, whatever that holds.
///
/// Refused for a sheet's refusals, [`Refusal::Length`] and [`Refusal::Missing`].
///
/// ```
/// use fernpocket::{example, first, next, Refusal};
///
/// let sheet = example::sheet();
/// let mut buffer = [0; 2];
/// let mut paths = vec![];
/// let mut answer = first(&sheet, 0, &mut buffer);
/// while let Ok(path) = answer {
///     paths.push(buffer[..path.length].to_vec());
///     answer = next(&sheet, 0, &mut buffer);
/// }
/// assert_eq!(answer, Err(Refusal::LastPath));
/// assert_eq!(paths, [vec![0, 2], vec![0, 3], vec![0, 4], vec![1]]);
/// # Ok::<(), fernpocket::Refusal>(())
/// ```
pub fn first(sheet: &[i64], flow: usize, path: &mut [u16]) -> Result<Path, Refusal> {
    path_of(raw::first(sheet, number(flow), path))
}

/// S6: puts the path that follows the one at the buffer's head in the buffer. What stands past that path is not read.
///
/// Refused for a sheet's refusals, [`Refusal::Length`], [`Refusal::Missing`], [`Refusal::NotPath`], and past the last path
/// [`Refusal::LastPath`], which leaves that path there.
///
/// ```
/// use fernpocket::{example, next, Path, Refusal, Terminal};
///
/// let mut buffer = [0, 4, 99];
/// let path = next(&example::sheet(), 0, &mut buffer)?;
/// assert_eq!(path, Path { terminal: Terminal::Failure, length: 1 });
/// assert_eq!(buffer, [1, 0, 0]);
/// assert_eq!(next(&example::sheet(), 0, &mut [3, 0]), Err(Refusal::NotPath));
/// # Ok::<(), fernpocket::Refusal>(())
/// ```
pub fn next(sheet: &[i64], flow: usize, path: &mut [u16]) -> Result<Path, Refusal> {
    path_of(raw::next(sheet, number(flow), path))
}

/// S1: the number of an entity's states.
///
/// This and the reports below are refused for a sheet's refusals and, but for [`rules`], for [`Refusal::Missing`].
///
/// ```
/// assert_eq!(fernpocket::states(&fernpocket::example::sheet(), 0), Ok(3));
/// ```
pub fn states(sheet: &[i64], entity: usize) -> Result<usize, Refusal> {
    value(raw::states(sheet, number(entity)))
}

/// S2: the mask of the states that an entity reaches from its initial one, and the scans that found it.
///
/// ```
/// use fernpocket::{example, reachable, Reach};
///
/// assert_eq!(reachable(&example::sheet(), 0), Ok(Reach { mask: 0b111, scans: 3 }));
/// ```
pub fn reachable(sheet: &[i64], entity: usize) -> Result<Reach, Refusal> {
    accepted(raw::reachable(sheet, number(entity)))
        .map(|answer| Reach { mask: answer.value as u16, scans: answer.count as usize })
}

/// S3a: may the persona perform the operation with the entity in this state, as far as the sheet alone tells?
///
/// ```
/// use fernpocket::{admissible, example};
///
/// assert_eq!(admissible(&example::sheet(), 0, 0, 0, 0), Ok(true));
/// assert_eq!(admissible(&example::sheet(), 0, 1, 0, 0), Ok(false));
/// ```
pub fn admissible(
    sheet: &[i64],
    entity: usize,
    state: usize,
    persona: usize,
    operation: usize,
) -> Result<bool, Refusal> {
    value(raw::admissible(sheet, number(entity), number(state), number(persona), number(operation))).map(|yes| yes == 1)
}

/// S4: can the persona cause the entity to go from one state to the other?
///
/// ```
/// use fernpocket::{can_cause, example};
///
/// assert_eq!(can_cause(&example::sheet(), 0, 0, 0, 2), Ok(true));
/// assert_eq!(can_cause(&example::sheet(), 0, 0, 1, 2), Ok(false));
/// ```
pub fn can_cause(sheet: &[i64], persona: usize, entity: usize, from: usize, to: usize) -> Result<bool, Refusal> {
    value(raw::can_cause(sheet, number(persona), number(entity), number(from), number(to))).map(|yes| yes == 1)
}

/// S5: the number of rules.
///
/// ```
/// assert_eq!(fernpocket::rules(&fernpocket::example::sheet()), Ok(0));
/// ```
pub fn rules(sheet: &[i64]) -> Result<usize, Refusal> {
    value(raw::rules(sheet))
}

/// S5: a rule's stratum.
///
/// ```
/// use fernpocket::{example, stratum, Refusal};
///
/// assert_eq!(stratum(&example::sheet(), 0), Err(Refusal::Missing));
/// ```
pub fn stratum(sheet: &[i64], rule: usize) -> Result<usize, Refusal> {
    value(raw::stratum(sheet, number(rule)))
}

/// S5: the number of an operation's outcomes.
///
/// ```
/// assert_eq!(fernpocket::outcomes(&fernpocket::example::sheet(), 0), Ok(2));
/// ```
pub fn outcomes(sheet: &[i64], operation: usize) -> Result<usize, Refusal> {
    value(raw::outcomes(sheet, number(operation)))
}

/// S7: the number of nodes in the tree under a node, itself counted.
///
/// ```
/// assert_eq!(fernpocket::tree_size(&fernpocket::example::sheet(), 1), Ok(1));
/// ```
pub fn tree_size(sheet: &[i64], node: usize) -> Result<usize, Refusal> {
    value(raw::tree_size(sheet, number(node)))
}

/// S7: the number of steps on a flow's longest path.
///
/// ```
/// assert_eq!(fernpocket::depth(&fernpocket::example::sheet(), 0), Ok(2));
/// ```
pub fn depth(sheet: &[i64], flow: usize) -> Result<usize, Refusal> {
    value(raw::depth(sheet, number(flow)))
}

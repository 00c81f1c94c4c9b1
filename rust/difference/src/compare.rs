//! One call on both sides, with guards around each lent buffer.

use crate::calls::{Call, Reached};
use crate::random::Random;
use fernpocket::{raw, Path, Reach, Refusal, Terminal};
use reference::Answer;
use std::fmt::Debug;

const GUARD: usize = 6;

/// A lent buffer with guards before and after it.
#[derive(Clone, Debug, PartialEq, Eq)]
pub struct Lent<T> {
    cells: Vec<T>,
}

/// What a buffer may hold.
pub trait Cell: Copy + Debug + PartialEq {
    fn rubbish(random: &mut Random) -> Self;
}

impl Cell for i64 {
    fn rubbish(random: &mut Random) -> Self {
        random.word() as i64
    }
}

impl Cell for u16 {
    fn rubbish(random: &mut Random) -> Self {
        random.word() as u16
    }
}

impl Cell for u8 {
    fn rubbish(random: &mut Random) -> Self {
        random.word() as u8
    }
}

impl<T: Cell> Lent<T> {
    pub fn new(content: &[T], random: &mut Random) -> Self {
        let mut cells = Vec::with_capacity(content.len() + 2 * GUARD);
        cells.extend((0..GUARD).map(|_| T::rubbish(random)));
        cells.extend_from_slice(content);
        cells.extend((0..GUARD).map(|_| T::rubbish(random)));
        Lent { cells }
    }

    /// A buffer full of rubbish.
    pub fn rubbish(length: usize, random: &mut Random) -> Self {
        let content: Vec<T> = (0..length).map(|_| T::rubbish(random)).collect();
        Lent::new(&content, random)
    }

    pub fn slice(&self) -> &[T] {
        &self.cells[GUARD..self.cells.len() - GUARD]
    }

    pub fn lend(&mut self) -> &mut [T] {
        let end = self.cells.len() - GUARD;
        &mut self.cells[GUARD..end]
    }
}

/// A disagreement, in words.
#[derive(Debug)]
pub struct Disagreement(pub String);

impl Disagreement {
    /// As much of it as one can read.
    pub fn head(&self) -> String {
        self.0.lines().take(40).map(|line| line.chars().take(600).collect::<String>() + "\n").collect()
    }
}

/// Compares calls and counts what they reached.
#[derive(Clone, Default)]
pub struct Comparer {
    pub reached: Reached,
}

impl Comparer {
    /// Makes a call on both sides with equal buffers, which keep what the call left in them.
    ///
    /// `typed` is the wrapper's call as four numbers; None where an argument is no usize.
    pub fn compare<B: Clone + PartialEq + Debug>(
        &mut self,
        call: Call,
        buffers: &mut B,
        reference: impl Fn(&mut B) -> Answer,
        library: impl Fn(&mut B) -> raw::Answer,
        typed: impl Fn(&mut B) -> Option<Answer>,
        arguments: impl Fn() -> String,
    ) -> Result<Answer, Disagreement> {
        let before = buffers.clone();
        let answer = reference(buffers);
        let fault = |what: &str, side: &str, found: Answer, left: &B| {
            Err(Disagreement(format!(
                "{what}: {}\nreference: {answer:?}\n{side}: {found:?}\nbuffers before: {before:?}\n\
                 buffers after, reference: {buffers:?}\nbuffers after, {side}: {left:?}\n{}",
                call.name(),
                arguments()
            )))
        };
        if !call.possible().contains(&answer.refusal) {
            return fault("a refusal that 01 does not let the call give", "reference", answer, buffers);
        }
        if answer.refusal != 0 && (*buffers != before || answer.value != 0 || answer.count != 0) {
            return fault("a refused call left a trace", "reference", answer, buffers);
        }
        let mut left = before.clone();
        let found = numbers(library(&mut left));
        if found != answer {
            return fault("the answers differ", "library", found, &left);
        }
        if left != *buffers {
            return fault("the buffers differ", "library", found, &left);
        }
        let mut left = before.clone();
        if let Some(found) = typed(&mut left) {
            if found != answer || left != *buffers {
                return fault("the wrapper differs", "wrapper", found, &left);
            }
        }
        self.reached.count(call, answer.refusal);
        Ok(answer)
    }
}

impl Comparer {
    /// The sheet checker on both sides.
    pub fn check(&mut self, words: &[i64]) -> Result<(), Disagreement> {
        let reference = |_: &mut ()| reference::check(words);
        let library = |_: &mut ()| raw::check(words);
        let typed = |_: &mut ()| Some(four(fernpocket::check(words)));
        self.compare(Call::Check, &mut (), reference, library, typed, || show(words)).map(|_| ())
    }

    /// The text reader on both sides.
    pub fn read_text(&mut self, text: &[u8], out: &mut Lent<i64>) -> Result<(), Disagreement> {
        let reference = |out: &mut Lent<i64>| reference::read_text(text, out.lend());
        let library = |out: &mut Lent<i64>| raw::read_text(text, out.lend());
        let typed = |out: &mut Lent<i64>| Some(four(fernpocket::read_text(text, out.lend())));
        let shown = || format!("text {:?}", String::from_utf8_lossy(text));
        self.compare(Call::ReadText, out, reference, library, typed, shown).map(|_| ())
    }
}

/// A sheet as lines of eight words.
pub fn show(words: &[i64]) -> String {
    let lines: Vec<String> = words.chunks(8).map(|line| format!("{line:?}")).collect();
    format!("sheet of {} words:\n{}", words.len(), lines.join("\n"))
}

fn numbers(answer: raw::Answer) -> Answer {
    let raw::Answer { refusal, place, value, count } = answer;
    Answer { refusal, place, value, count }
}

/// An argument of the wrapper, where it is one.
pub fn natural(number: i64) -> Option<usize> {
    usize::try_from(number).ok()
}

/// What a wrapper's answers are as four numbers.
pub trait Numbers {
    fn value_and_count(self) -> (i64, i64);
}

impl Numbers for () {
    fn value_and_count(self) -> (i64, i64) {
        (0, 0)
    }
}

impl Numbers for usize {
    fn value_and_count(self) -> (i64, i64) {
        (self as i64, 0)
    }
}

impl Numbers for Reach {
    fn value_and_count(self) -> (i64, i64) {
        (self.mask as i64, self.scans as i64)
    }
}

impl Numbers for bool {
    fn value_and_count(self) -> (i64, i64) {
        (self as i64, 0)
    }
}

impl Numbers for Path {
    fn value_and_count(self) -> (i64, i64) {
        let terminal = match self.terminal {
            Terminal::Success => 0,
            Terminal::Failure => 1,
            Terminal::Escalation => 2,
        };
        (terminal, self.length as i64)
    }
}

pub fn four(result: Result<impl Numbers, Refusal>) -> Answer {
    match result {
        Ok(answer) => {
            let (value, count) = answer.value_and_count();
            Answer { refusal: 0, place: 0, value, count }
        }
        Err(refusal) => Answer { refusal: refusal.number() as i64, place: refusal.place() as i64, value: 0, count: 0 },
    }
}

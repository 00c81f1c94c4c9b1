//! A round: one accepted sheet, damaged copies of it, and calls with good and hostile arguments on both.

use crate::calls::Call;
use crate::compare::{four, natural, show, Comparer, Disagreement, Lent};
use crate::damage::{self, hostile};
use crate::generate::{
    self, Sheet, Wish, ENTITIES, FACTS, FLOWS, LIST, NODES, OPERATIONS, PERSONAS, ROUTES, RULES, STEPS,
};
use crate::held::Held;
use crate::random::Random;
use fernpocket::raw;
use reference::{Answer, M};

type Done = Result<(), Disagreement>;
type Answered = Result<Answer, Disagreement>;

/// One round of a seed. Every 64th is on the largest sheet, or nearly.
pub fn round(comparer: &mut Comparer, seed: u64, number: u64) -> Done {
    let mut random = Random::of_round(seed, number);
    let wish = match number % 64 {
        63 => shaped(8, &mut random),
        31 => {
            let eighths = 1 + random.below(8);
            shaped(eighths, &mut random)
        }
        _ => Wish::random(&mut random),
    };
    let sheet = generate::sheet(&wish, &mut random);
    let words = sheet.words();
    let kept = words.clone();
    // How many calls of each sort: fewer on larger sheets.
    let calls = (60_000 / words.len()).clamp(4, 120);
    let mut round = Round { comparer, random, sheet };
    round.accepted(&words)?;
    for _ in 0..2 * calls {
        let damaged = damage::sheet(&round.sheet, &mut round.random);
        round.comparer.check(&damaged)?;
        if round.random.chance(1, 6) {
            round.any(&damaged)?;
        }
    }
    if number % 16 == 5 {
        let many = damage::many_routes(&mut round.random);
        round.comparer.check(&many)?;
    }
    for _ in 0..calls {
        round.any(&words)?;
    }
    round.ranges(&words, calls)?;
    round.desk(&words, calls)?;
    round.list(&words, 4 * calls)?;
    for _ in 0..1 + calls / 16 {
        round.texts(&words)?;
    }
    if words != kept {
        return Err(Disagreement("a call has written to its sheet".into()));
    }
    Ok(())
}

/// So many eighths of the largest sheet, of a random shape.
fn shaped(eighths: usize, random: &mut Random) -> Wish {
    Wish { counts: Wish::eighths(eighths).counts, ..Wish::random(random) }
}

/// A length, mostly the right one.
pub(crate) fn length(right: usize, random: &mut Random) -> usize {
    match random.below(80) {
        0 => 0,
        1 => right + 1,
        2 => right.saturating_sub(1),
        3 => right + random.below(20),
        _ => right,
    }
}

/// Facts as they are lent.
#[derive(Clone, Debug, PartialEq, Eq)]
pub struct Facts {
    pub values: Lent<i64>,
    pub given: Lent<i64>,
    pub lists: Lent<i64>,
    pub lengths: Lent<i64>,
}

impl Facts {
    /// Facts of a sheet, mostly without a fault.
    pub fn random(sheet: &Sheet, random: &mut Random) -> Facts {
        let count = sheet.count(FACTS);
        let (mut values, mut given) = (vec![0; count], vec![0; count]);
        for fact in 0..count {
            let [kind, _, _, has_default, ..] = sheet.tables[FACTS][fact];
            given[fact] = (has_default == 0 || random.chance(2, 3)) as i64;
            values[fact] = match given[fact] {
                1 if kind != LIST => sheet.value_of(fact, random),
                _ => hostile(random, 0),
            };
        }
        let (mut lists, mut lengths) = sheet.lent_lists(random);
        if count > 0 && random.chance(1, 5) {
            for _ in 0..1 + random.below(3) {
                let fact = random.below(count);
                let [kind, min, max, .., largest] = sheet.tables[FACTS][fact];
                match random.below(5) {
                    0 => given[fact] = hostile(random, 1),
                    1 => given[fact] = 0,
                    wrong if kind == LIST => {
                        let before = || sheet.lists().take_while(|&other| other < fact);
                        let first: i64 = before().map(|list| sheet.tables[FACTS][list][7]).sum();
                        let list = before().count();
                        let length = lengths[list];
                        if wrong == 2 || length <= 0 || length > largest {
                            lengths[list] = match random.below(3) {
                                0 => largest + 1,
                                1 => -1,
                                _ => hostile(random, largest),
                            };
                        } else {
                            // An element, the last one more often.
                            let place = if random.chance(1, 2) { length - 1 } else { random.within(0, length - 1) };
                            let slot = &mut lists[(first + place) as usize];
                            *slot = match random.below(3) {
                                0 => min - 1,
                                1 => max + 1,
                                _ => hostile(random, *slot),
                            };
                        }
                    }
                    2 => values[fact] = min - 1,
                    3 => values[fact] = max + 1,
                    _ => values[fact] = hostile(random, values[fact]),
                }
            }
        }
        values.resize(length(count, random), 0);
        given.resize(length(count, random), 1);
        lists.resize(length(lists.len(), random), 0);
        lengths.resize(length(lengths.len(), random), 0);
        let [values, given, lists, lengths] = [values, given, lists, lengths].map(|words| Lent::new(&words, random));
        Facts { values, given, lists, lengths }
    }
}

struct Round<'a> {
    comparer: &'a mut Comparer,
    random: Random,
    sheet: Sheet,
}

/// A wrapper's call, where its arguments are numbers that it takes. Stands alone in a closure.
macro_rules! typed {
    ([$($argument:ident),*], $call:expr) => {{
        $(let $argument = natural($argument)?;)*
        Some(four($call))
    }};
}

/// A call on a sheet with the facts that are lent, and its other arguments. The values are lent as slice or lend says.
macro_rules! with {
    ($facts:ident, $values:ident, $call:path[$words:ident]($($argument:expr),*)) => {
        $call(
            $words,
            $facts.values.$values(),
            $facts.given.slice(),
            $facts.lists.slice(),
            $facts.lengths.slice(),
            $($argument),*
        )
    };
}

/// A wanted word as the wrappers take it; none of what they cannot be given.
fn option(word: i64) -> Option<Option<usize>> {
    match word {
        -1 => Some(None),
        _ => natural(word).map(Some),
    }
}

impl Round<'_> {
    fn accepted(&mut self, words: &[i64]) -> Done {
        self.comparer.check(words)?;
        match reference::check(words) {
            answer if answer.refusal == 0 => Ok(()),
            answer => Err(Disagreement(format!("the generator's sheet is refused: {answer:?}\n{}", show(words)))),
        }
    }

    /// Calls with random arguments.
    fn any(&mut self, words: &[i64]) -> Done {
        match self.random.below(22) {
            0 | 1 => self.assemble(words),
            2..=4 => self.verdicts(words),
            5..=7 => {
                let mut held = Held::random(&self.sheet, &mut self.random);
                self.operate(words, &mut held)
            }
            8..=10 => {
                let mut held = Held::random(&self.sheet, &mut self.random);
                self.run(words, &mut held)
            }
            11 | 12 => {
                let flow = self.number(FLOWS);
                let mut path = self.path(flow);
                self.first(words, flow, &mut path).map(|_| ())
            }
            13..=15 => {
                let flow = self.number(FLOWS);
                let mut path = self.path(flow);
                self.next(words, flow, &mut path).map(|_| ())
            }
            _ => self.reports(words),
        }
    }

    /// S3a of operations by personas of their masks, from states that they start from: the preconditions' ranges.
    fn ranges(&mut self, words: &[i64], calls: usize) -> Done {
        for operation in (0..self.sheet.count(OPERATIONS) as i64).take(calls) {
            let first = self.sheet.tables[OPERATIONS][operation as usize][2] as usize;
            let [entity, from, to, ..] = self.sheet.tables[generate::EFFECTS][first];
            let persona = self.persona(operation);
            self.report(Call::Admissible, words, [entity, from, persona, operation])?;
            self.report(Call::CanCause, words, [persona, entity, from, to])?;
        }
        Ok(())
    }

    /// A sequence of operations and runs, each from the states that the one before left, on instances of its own.
    fn desk(&mut self, words: &[i64], calls: usize) -> Done {
        let mut held = Held::initial(&self.sheet, &mut self.random);
        for _ in 0..calls {
            held = held.renamed(&self.sheet, &mut self.random);
            match self.random.chance(1, 4) {
                true => self.run(words, &mut held)?,
                false => self.operate(words, &mut held)?,
            }
        }
        Ok(())
    }

    /// A list of first and next on one flow and one buffer.
    fn list(&mut self, words: &[i64], calls: usize) -> Done {
        let flow = match self.sheet.count(FLOWS) {
            0 => self.number(FLOWS),
            flows => self.random.below(flows) as i64,
        };
        let mut path = self.path(flow);
        let long = self.random.chance(1, 40);
        let calls = if long { 30 * calls } else { calls };
        let restart = self.random.pick(&[1, 5, 60]);
        let mut refused = 0;
        for _ in 0..calls {
            let answer = match refused > self.random.below(20) || self.random.chance(restart, 1000) {
                true => self.first(words, flow, &mut path)?,
                false => self.next(words, flow, &mut path)?,
            };
            refused = if answer.refusal == 0 { 0 } else { refused + 1 };
            if refused == 30 {
                // A buffer too short, or no such flow.
                break;
            }
        }
        Ok(())
    }

    /// A number of something, mostly one that exists.
    fn number(&mut self, kind: usize) -> i64 {
        let count = self.sheet.count(kind);
        self.number_below(count)
    }

    fn number_below(&mut self, count: usize) -> i64 {
        match self.random.below(24) {
            0 => count as i64,
            1 => count as i64 + 1,
            2 => hostile(&mut self.random, count as i64),
            _ if count == 0 => self.random.pick(&[0, -1, 1]),
            _ => self.random.below(count) as i64,
        }
    }

    /// A persona, mostly one of the operation's mask.
    fn persona(&mut self, operation: i64) -> i64 {
        match natural(operation).and_then(|operation| self.sheet.tables[OPERATIONS].get(operation)) {
            Some(record) if self.random.chance(3, 4) => {
                let mask = record[0];
                let members: Vec<i64> = (0..24).filter(|persona| mask >> persona & 1 == 1).collect();
                self.random.pick(&members)
            }
            _ => self.number(PERSONAS),
        }
    }

    /// A length, mostly the right one.
    fn length(&mut self, right: usize) -> usize {
        length(right, &mut self.random)
    }

    /// Facts, mostly without a fault.
    fn facts(&mut self) -> Facts {
        Facts::random(&self.sheet, &mut self.random)
    }

    /// A wanted word: none, or an outcome of the operation; seldom another number.
    fn wanted(&mut self, operation: i64) -> i64 {
        let record = natural(operation).and_then(|operation| self.sheet.tables[OPERATIONS].get(operation));
        let outcomes = record.map_or(1, |record| record[4]) as usize;
        match self.random.below(48) {
            0 => outcomes as i64,
            1 => -2,
            2 => hostile(&mut self.random, -1),
            3..=20 => -1,
            _ => self.random.below(outcomes) as i64,
        }
    }

    /// A wanted word for each step of a flow, mostly as many as it has and mostly good.
    fn wanted_of_steps(&mut self, flow: i64) -> Lent<i64> {
        let own = natural(flow).filter(|&flow| flow < self.sheet.count(FLOWS));
        let (first, steps) = own.map_or((0, 0), |flow| self.sheet.steps_of(flow));
        let mut wanted: Vec<i64> = vec![];
        for step in first..first + steps {
            let [kind, what, ..] = self.sheet.tables[STEPS][step];
            let outcomes = match kind {
                0 => self.sheet.tables[OPERATIONS][what as usize][4] as usize,
                _ => 0,
            };
            wanted.push(match outcomes {
                0 => -1,
                _ if self.random.chance(1, 3) => -1,
                _ => self.random.below(outcomes) as i64,
            });
        }
        if steps > 0 && self.random.chance(1, 8) {
            let step = self.random.below(steps);
            wanted[step] = match self.random.below(4) {
                0 => -2,
                1 => hostile(&mut self.random, -1),
                _ => self.random.below(9) as i64,
            };
        }
        wanted.resize(self.length(steps), -1);
        Lent::new(&wanted, &mut self.random)
    }

    /// A path buffer: a path of this flow or another, cut or changed or not, or rubbish; mostly long enough.
    fn path(&mut self, flow: i64) -> Lent<u16> {
        let flows = self.sheet.count(FLOWS);
        let own = natural(flow).filter(|&flow| flow < flows);
        let steps = own.map_or(3, |flow| self.sheet.steps_of(flow).1);
        let length = match self.random.below(12) {
            0 => self.random.below(steps + 1),
            1 => steps - 1,
            2..=5 => steps + self.random.below(9),
            _ => steps,
        };
        let mut content = match (self.random.below(8), own) {
            (0, _) | (_, None) => (0..length).map(|_| self.random.below(1200) as u16).collect(),
            (1, _) => {
                let other = self.random.below(flows);
                self.walk(other)
            }
            (_, Some(flow)) => self.walk(flow),
        };
        match self.random.below(10) {
            0 if !content.is_empty() => {
                content.truncate(self.random.below(content.len()));
                content.resize(length, 0);
            }
            1 if !content.is_empty() => {
                let place = self.random.below(content.len());
                content[place] = match self.random.below(4) {
                    0 => content[place].wrapping_add(1),
                    1 => content[place].wrapping_sub(1),
                    2 => content[place].wrapping_add(1 << self.random.below(16)),
                    _ => self.random.word() as u16,
                };
            }
            _ => {}
        }
        let fill = self.random.below(2) as u16;
        while content.len() < length {
            content.push(fill * self.random.below(1100) as u16);
        }
        content.truncate(length);
        Lent::new(&content, &mut self.random)
    }

    /// A random path of a flow, late routes more often.
    fn walk(&mut self, flow: usize) -> Vec<u16> {
        let mut path = vec![];
        let late = self.random.chance(1, 3);
        let mut step = self.sheet.steps_of(flow).0;
        loop {
            let [_, _, _, first, routes, ..] = self.sheet.tables[STEPS][step];
            let route = match late && self.random.chance(9, 10) {
                true => first + routes - 1,
                false => first + self.random.below(routes as usize) as i64,
            };
            path.push(route as u16);
            match self.sheet.tables[ROUTES][route as usize] {
                [0, next, ..] => step = next as usize,
                _ => return path,
            }
        }
    }

    fn assemble(&mut self, words: &[i64]) -> Done {
        let mut facts = self.facts();
        self.comparer
            .compare(
                Call::Assemble,
                &mut facts,
                |f| with!(f, lend, reference::assemble[words]()),
                |f| with!(f, lend, raw::assemble[words]()),
                |f| Some(four(with!(f, lend, fernpocket::assemble[words]()))),
                || show(words),
            )
            .map(|_| ())
    }

    fn verdicts(&mut self, words: &[i64]) -> Done {
        let length = self.length(self.sheet.count(RULES));
        let mut buffers = (self.facts(), Lent::rubbish(length, &mut self.random));
        self.comparer
            .compare(
                Call::Verdicts,
                &mut buffers,
                |(f, o)| with!(f, slice, reference::verdicts[words](o.lend())),
                |(f, o)| with!(f, slice, raw::verdicts[words](o.lend())),
                |(f, o)| Some(four(with!(f, slice, fernpocket::verdicts[words](o.lend())))),
                || show(words),
            )
            .map(|_| ())
    }

    fn operate(&mut self, words: &[i64], held: &mut Held) -> Done {
        let facts = self.facts();
        let operation = self.number(OPERATIONS);
        let persona = self.persona(operation);
        let wanted = self.wanted(operation);
        let mut buffers = (facts, held.clone());
        self.comparer.compare(
            Call::Operate,
            &mut buffers,
            |(f, Held { states, instances })| {
                let (s, i) = (states.lend(), instances.slice());
                with!(f, slice, reference::operate[words](s, i, persona, operation, wanted))
            },
            |(f, Held { states, instances })| {
                let (s, i) = (states.lend(), instances.slice());
                with!(f, slice, raw::operate[words](s, i, persona, operation, wanted))
            },
            |(f, h)| {
                let wanted = option(wanted)?;
                typed!(
                    [persona, operation],
                    h.typed(|s, i| with!(f, slice, fernpocket::operate[words](s, i, persona, operation, wanted)))
                )
            },
            || format!("persona {persona}, operation {operation}, wanted {wanted}\n{}", show(words)),
        )?;
        *held = buffers.1;
        Ok(())
    }

    fn run(&mut self, words: &[i64], held: &mut Held) -> Done {
        let facts = self.facts();
        let flow = self.number(FLOWS);
        let wanted = self.wanted_of_steps(flow);
        let mut buffers = (facts, held.clone(), wanted, self.path(flow));
        self.comparer.compare(
            Call::Run,
            &mut buffers,
            |(f, Held { states, instances }, w, p)| {
                let (s, i) = (states.lend(), instances.slice());
                with!(f, slice, reference::run[words](s, i, flow, w.slice(), p.lend()))
            },
            |(f, Held { states, instances }, w, p)| {
                let (s, i) = (states.lend(), instances.slice());
                with!(f, slice, raw::run[words](s, i, flow, w.slice(), p.lend()))
            },
            |(f, h, w, p)| {
                let wanted = w.slice().iter().copied().map(option).collect::<Option<Vec<_>>>()?;
                typed!([flow], h.typed(|s, i| with!(f, slice, fernpocket::run[words](s, i, flow, &wanted, p.lend()))))
            },
            || format!("flow {flow}\n{}", show(words)),
        )?;
        *held = buffers.1;
        Ok(())
    }

    fn first(&mut self, words: &[i64], flow: i64, path: &mut Lent<u16>) -> Answered {
        self.comparer.compare(
            Call::First,
            path,
            |p| reference::first(words, flow, p.lend()),
            |p| raw::first(words, flow, p.lend()),
            |p| typed!([flow], fernpocket::first(words, flow, p.lend())),
            || format!("flow {flow}\n{}", show(words)),
        )
    }

    fn next(&mut self, words: &[i64], flow: i64, path: &mut Lent<u16>) -> Answered {
        self.comparer.compare(
            Call::Next,
            path,
            |p| reference::next(words, flow, p.lend()),
            |p| raw::next(words, flow, p.lend()),
            |p| typed!([flow], fernpocket::next(words, flow, p.lend())),
            || format!("flow {flow}\n{}", show(words)),
        )
    }

    fn reports(&mut self, words: &[i64]) -> Done {
        let entity = self.number(ENTITIES);
        let states = natural(entity).and_then(|entity| self.sheet.tables[ENTITIES].get(entity)).map_or(1, |e| e[0]);
        let [from, to] = [0; 2].map(|_| self.number_below(states as usize));
        let operation = self.number(OPERATIONS);
        let persona = self.persona(operation);
        let rule = self.number(RULES);
        let node = self.number(NODES);
        let flow = self.number(FLOWS);
        // An effect's own entity and states give more than refusals and noes.
        let (entity, from, to) = match natural(operation).and_then(|o| self.sheet.tables[OPERATIONS].get(o)) {
            Some(record) if self.random.chance(2, 3) => {
                let effect = record[2] as usize + self.random.below(record[3] as usize);
                let [entity, from, to, ..] = self.sheet.tables[generate::EFFECTS][effect];
                (entity, from, if self.random.chance(4, 5) { to } else { from })
            }
            _ => (entity, from, to),
        };
        match self.random.below(14) {
            0 => self.report(Call::States, words, [entity, 0, 0, 0]),
            1 | 2 => self.report(Call::Reachable, words, [entity, 0, 0, 0]),
            3..=5 => self.report(Call::Admissible, words, [entity, from, persona, operation]),
            6..=8 => self.report(Call::CanCause, words, [persona, entity, from, to]),
            9 => self.report(Call::Rules, words, [0; 4]),
            10 => self.report(Call::Stratum, words, [rule, 0, 0, 0]),
            11 => self.report(Call::Outcomes, words, [operation, 0, 0, 0]),
            12 => self.report(Call::TreeSize, words, [node, 0, 0, 0]),
            _ => self.report(Call::Depth, words, [flow, 0, 0, 0]),
        }
    }

    /// A report by its name; it takes as many of the numbers as it has arguments.
    fn report(&mut self, call: Call, words: &[i64], numbers: [i64; 4]) -> Done {
        let [a, b, c, d] = numbers;
        macro_rules! report {
            ($function:ident, [$($argument:ident),*]) => {
                self.comparer.compare(
                    call,
                    &mut (),
                    |_| reference::$function(words, $($argument),*),
                    |_| raw::$function(words, $($argument),*),
                    |_| typed!([$($argument),*], fernpocket::$function(words, $($argument),*)),
                    || format!("arguments {numbers:?}\n{}", show(words)),
                )
            };
        }
        match call {
            Call::States => report!(states, [a]),
            Call::Reachable => report!(reachable, [a]),
            Call::Admissible => report!(admissible, [a, b, c, d]),
            Call::CanCause => report!(can_cause, [a, b, c, d]),
            Call::Rules => report!(rules, []),
            Call::Stratum => report!(stratum, [a]),
            Call::Outcomes => report!(outcomes, [a]),
            Call::TreeSize => report!(tree_size, [a]),
            Call::Depth => report!(depth, [a]),
            _ => unreachable!("{} is no report", call.name()),
        }
        .map(|_| ())
    }

    /// Words to text and back, with damage and with too little or too much room.
    fn texts(&mut self, words: &[i64]) -> Done {
        let mut content = match self.random.below(3) {
            0 => words[..words.len().min(8 * self.random.below(40))].to_vec(),
            1 => words[words.len() - words.len().min(8 * self.random.below(400))..].to_vec(),
            _ => (0..8 * self.random.below(12)).map(|_| self.number_for_text()).collect(),
        };
        let mut text = vec![];
        for line in content.chunks(8) {
            let decimals: Vec<String> = line.iter().map(i64::to_string).collect();
            text.extend_from_slice(decimals.join("\t").as_bytes());
            text.push(b'\n');
        }
        let exact = text.len();
        if self.random.chance(1, 3) {
            match self.random.below(3) {
                0 => content.truncate(content.len().saturating_sub(self.random.below(9))),
                1 => content.push(self.number_for_text()),
                _ if content.is_empty() => {}
                _ => {
                    let place = self.random.below(content.len());
                    content[place] = hostile(&mut self.random, M);
                }
            }
        }
        let room = self.room(exact);
        let mut out = Lent::rubbish(room, &mut self.random);
        self.comparer.compare(
            Call::WriteText,
            &mut out,
            |o| reference::write_text(&content, o.lend()),
            |o| raw::write_text(&content, o.lend()),
            |o| Some(four(fernpocket::write_text(&content, o.lend()))),
            || format!("words {content:?}"),
        )?;
        let room = self.room(content.len());
        self.read_text(&text, room)?;
        for _ in 0..6 {
            let mut damaged = text.clone();
            damage::text(&mut damaged, &mut self.random);
            let room = self.room(content.len());
            self.read_text(&damaged, room)?;
        }
        let rubbish: Vec<u8> = (0..self.random.below(40)).map(|_| self.random.pick(b"01\t\n-")).collect();
        self.read_text(&rubbish, 40)
    }

    fn read_text(&mut self, text: &[u8], room: usize) -> Done {
        let mut out = Lent::rubbish(room, &mut self.random);
        self.comparer.read_text(text, &mut out)
    }

    fn number_for_text(&mut self) -> i64 {
        match self.random.below(6) {
            0 => self.random.pick(&[M, -M, 0, -1, 1 - M, M - 1]),
            1 => self.random.within(-M, M),
            2 => {
                let power = 10i64.pow(self.random.below(10) as u32);
                let sign = self.random.pick(&[-1, 1]);
                sign * (power - self.random.below(2) as i64)
            }
            _ => self.random.within(-99, 99),
        }
    }

    fn room(&mut self, exact: usize) -> usize {
        match self.random.below(12) {
            0 => exact.saturating_sub(1),
            1 => exact + 1,
            2 => exact + 8,
            3 => exact.saturating_sub(8),
            4 => 0,
            5 => self.random.below(exact + 1),
            _ => exact,
        }
    }
}

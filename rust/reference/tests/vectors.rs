//! The calls of crates/call_vectors by the reference: the expectations are made by hand, so each side checks the other.

use reference::*;

/// The script's numbers: decimals parted by anything else; `<` and `>` are the ends of a word, `#` starts a comment.
fn tape() -> Vec<i64> {
    let script = include_str!("../../../crates/call_vectors/stdin");
    let code = script.lines().map(|line| line.split('#').next().unwrap());
    let words = code.flat_map(str::split_whitespace).map(|word| match word {
        "<" => i64::MIN,
        ">" => i64::MAX,
        _ => word.parse().unwrap_or_else(|_| panic!("`{word}` is no number")),
    });
    words.collect()
}

/// The part of the tape that is not yet read.
struct Rest<'a>(&'a [i64]);

impl Rest<'_> {
    fn number(&mut self) -> i64 {
        let (number, rest) = self.0.split_first().expect("the script goes on");
        self.0 = rest;
        *number
    }

    /// A buffer: its length, then its entries; or -1, its length, and what it is full of.
    fn buffer(&mut self) -> Vec<i64> {
        match self.number() {
            -1 => {
                let length = self.number() as usize;
                vec![self.number(); length]
            }
            length => (0..length).map(|_| self.number()).collect(),
        }
    }

    fn path(&mut self) -> Vec<u16> {
        self.buffer().into_iter().map(|route| u16::try_from(route).expect("a route")).collect()
    }
}

/// Words parted by spaces; `<` stands for one below -M.
fn words(words: &[i64]) -> String {
    let word = |&word: &i64| if word < -M { "<".to_owned() } else { word.to_string() };
    words.iter().map(word).collect::<Vec<_>>().join(" ")
}

fn routes(path: &[u16]) -> String {
    words(&path.iter().map(|&route| route as i64).collect::<Vec<_>>())
}

/// A line: the case, the answer, and what else the call shows.
fn line(case: usize, answer: Answer, shown: &[String]) -> String {
    let Answer { refusal, place, value, count } = answer;
    let start = format!("{case}\t{refusal}\t{place}\t{value}\t{count}");
    [start].iter().chain(shown).map(String::as_str).collect::<Vec<_>>().join("\t")
}

/// All paths: how many there are and a checksum, then the last answer.
fn all(sheet: &[i64], flow: i64, path: &mut [u16]) -> (Answer, usize, u64) {
    let mut answer = first(sheet, flow, path);
    let (mut count, mut sum) = (0, 0);
    while answer.refusal == 0 {
        let numbers = [answer.value as u64, answer.count as u64];
        let numbers = numbers.into_iter().chain(path.iter().map(|&route| route as u64));
        sum = numbers.fold(sum, |sum, number| (31 * sum + number) % 1_000_003);
        count += 1;
        answer = next(sheet, flow, path);
    }
    (answer, count, sum)
}

/// What the program has to write, and with it the number of calls of each sort.
fn written() -> (Vec<String>, [usize; 18]) {
    let tape = tape();
    let (mut rest, mut sheet, mut lines, mut made) = (Rest(&tape), vec![], vec![], [0; 18]);
    let mut case = 0;
    while !rest.0.is_empty() {
        let call = rest.number();
        made[call as usize] += 1;
        match call {
            0 => sheet = rest.buffer(),
            1 => {
                let [mut values, given, lists, lengths] = [0; 4].map(|_| rest.buffer());
                let answer = assemble(&sheet, &mut values, &given, &lists, &lengths);
                lines.push(line(case, answer, &[words(&values), words(&given)]));
            }
            2 => {
                let [values, given, lists, lengths, mut out] = [0; 5].map(|_| rest.buffer());
                let answer = verdicts(&sheet, &values, &given, &lists, &lengths, &mut out);
                lines.push(line(case, answer, &[words(&values), words(&given), words(&out)]));
            }
            3 => {
                let [persona, operation, wanted] = [0; 3].map(|_| rest.number());
                let [values, given, lists, lengths, mut states, instances] = [0; 6].map(|_| rest.buffer());
                let answer = operate(
                    &sheet,
                    &values,
                    &given,
                    &lists,
                    &lengths,
                    &mut states,
                    &instances,
                    persona,
                    operation,
                    wanted,
                );
                lines.push(line(case, answer, &[words(&values), words(&given), words(&states)]));
            }
            4 | 5 => {
                let (flow, mut path) = (rest.number(), rest.path());
                let answer = if call == 4 { first(&sheet, flow, &mut path) } else { next(&sheet, flow, &mut path) };
                lines.push(line(case, answer, &[routes(&path)]));
            }
            6 => {
                let flow = rest.number();
                let [values, given, lists, lengths, mut states, instances, wanted] = [0; 7].map(|_| rest.buffer());
                let mut path = rest.path();
                let answer =
                    run(&sheet, &values, &given, &lists, &lengths, &mut states, &instances, flow, &wanted, &mut path);
                lines.push(line(case, answer, &[words(&values), words(&given), words(&states), routes(&path)]));
            }
            7 => {
                let (flow, mut path) = (rest.number(), rest.path());
                let (answer, count, sum) = all(&sheet, flow, &mut path);
                lines.push(line(case, answer, &[routes(&path), count.to_string(), sum.to_string()]));
            }
            8 => {
                let (flow, nexts, mut path) = (rest.number(), rest.number(), rest.path());
                let answer = first(&sheet, flow, &mut path);
                lines.push(line(case, answer, &[routes(&path)]));
                for _ in 0..nexts {
                    let answer = next(&sheet, flow, &mut path);
                    lines.push(line(case, answer, &[routes(&path)]));
                }
            }
            9..=17 => {
                let mut number = || rest.number();
                let answer = match call {
                    9 => states(&sheet, number()),
                    10 => reachable(&sheet, number()),
                    11 => admissible(&sheet, number(), number(), number(), number()),
                    12 => can_cause(&sheet, number(), number(), number(), number()),
                    13 => rules(&sheet),
                    14 => stratum(&sheet, number()),
                    15 => outcomes(&sheet, number()),
                    16 => tree_size(&sheet, number()),
                    _ => depth(&sheet, number()),
                };
                lines.push(line(case, answer, &[]));
            }
            _ => panic!("case {case}: there is no call {call}"),
        }
        case += 1;
    }
    (lines, made)
}

#[test]
fn the_vectors_are_what_the_reference_answers() {
    let (lines, made) = written();
    let expected: Vec<&str> = include_str!("../../../crates/call_vectors/stdout").lines().collect();
    let differ: Vec<String> = lines
        .iter()
        .zip(&expected)
        .filter(|(line, expected)| line != *expected)
        .map(|(line, expected)| format!("expected {expected}\nanswered {line}\n"))
        .collect();
    assert!(differ.is_empty(), "{} lines differ:\n{}", differ.len(), differ.concat());
    assert_eq!(lines.len(), expected.len());
    println!("{} lines; of each call {made:?}", lines.len());
}

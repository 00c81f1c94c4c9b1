//! `stack`: the smallest stack of a thread on which each call comes through, by bisection over the size.
//!
//! Each size is tried in a process of its own, `stack CALL SHEET BYTES`, which dies where the stack is too small;
//! `stack CALL BYTES` tries every sheet. A thread's stack also holds what the system and Rust put there, some KB, so a
//! figure is an upper bound.

use difference::calls::Call;
use difference::generate::{
    self, Sheet, ENTITIES, FACTS, FLOWS, LIST, NODES, OPERATIONS, ROUTES, RULES, STEPS, TRANSITIONS,
};
use difference::random::Random;
use fernpocket::raw;
use std::process::{Command, Stdio};
use std::{env, thread};

const SHEETS: [&str; 7] = [
    "largest",
    "not chain, rule",
    "not chain, operation",
    "product chain, rule",
    "for all over a not chain, rule",
    "for all within a not chain, rule",
    "for all within a not chain, operation",
];
const PAGE: usize = 4096;

fn main() {
    let words: Vec<String> = env::args().skip(1).collect();
    match &words[..] {
        [] => {
            println!("KB of stack, by call and sheet:\n");
            println!("| Call | {} |\n|---|{}", SHEETS.join(" | "), "---:|".repeat(SHEETS.len()));
            for call in Call::ALL {
                let figures = SHEETS.map(|sheet| (smallest(call.name(), sheet) / 1024).to_string());
                println!("| {} | {} |", call.name(), figures.join(" | "));
            }
        }
        [call, bytes] => SHEETS.into_iter().for_each(|sheet| attempt(call, sheet, number(bytes))),
        [call, sheet, bytes] => attempt(call, sheet, number(bytes)),
        _ => panic!("usage: stack [CALL [SHEET] BYTES]"),
    }
}

fn number(word: &str) -> usize {
    word.parse().expect("BYTES is a number")
}

/// The smallest size that passes, in whole pages.
fn smallest(call: &str, sheet: &str) -> usize {
    let passes = |bytes: usize| {
        let mut child = Command::new(env::current_exe().expect("the program knows its file"));
        child.args([call, sheet, &bytes.to_string()]).stderr(Stdio::null());
        child.status().expect("the program starts itself").success()
    };
    let (mut fails, mut good) = (0, 1 << 20);
    assert!(passes(good), "{call} on {sheet}");
    while good - fails > PAGE {
        let middle = (fails + good) / 2 / PAGE * PAGE;
        if passes(middle) {
            good = middle;
        } else {
            fails = middle;
        }
    }
    good
}

/// Makes the call on a thread with a stack of so many bytes.
fn attempt(call: &str, sheet: &str, bytes: usize) {
    let sheet = match sheet {
        "largest" => generate::full(8, &mut Random::new(1)),
        "not chain, rule" => chain([11, 0], RULES, None),
        "not chain, operation" => chain([11, 0], OPERATIONS, None),
        "product chain, rule" => chain([6, 1], RULES, None),
        "for all over a not chain, rule" => chain([11, 0], RULES, Some(1023)),
        "for all within a not chain, rule" => chain([11, 0], RULES, Some(512)),
        _ => chain([11, 0], OPERATIONS, Some(512)),
    };
    let words = sheet.words();
    let counts = [FACTS, RULES, ENTITIES].map(|kind| sheet.count(kind));
    let values: Vec<i64> = sheet.tables[FACTS].iter().map(|fact| fact[1]).collect();
    let (given, mut verdicts) = (vec![1; counts[0]], vec![0; counts[1]]);
    // Full lists, each of its smallest element.
    let lengths: Vec<i64> = sheet.lists().map(|list| sheet.tables[FACTS][list][7]).collect();
    let lists: Vec<i64> =
        sheet.lists().zip(&lengths).flat_map(|(list, &length)| vec![values[list]; length as usize]).collect();
    // As many instances as there may be.
    let each = (reference::MOST_INSTANCES / counts[2].max(1)) as i64;
    let instances_of = |(entity, record): (usize, &[i64; 8])| {
        let initial = record[1];
        (0..each).flat_map(move |number| [entity as i64, number, initial])
    };
    let mut states: Vec<i64> = sheet.tables[ENTITIES].iter().enumerate().flat_map(instances_of).collect();
    let instances = vec![each - 1; counts[2]];
    let (mut assembled, mut path) = (values.clone(), [0; 256]);
    let (mut text, mut read) = (vec![0; 12 * words.len()], vec![0; words.len()]);
    let length = reference::write_text(&words, &mut text).value as usize;
    let written = text[..length].to_vec();
    reference::first(&words, 0, &mut path);
    let steps = if sheet.count(FLOWS) == 0 { 0 } else { sheet.steps_of(0).1 };
    let wanted = vec![-1; steps];
    // The last node is the top of a chain; on the largest sheet the largest tree.
    let size = |node: &i64| reference::tree_size(&words, *node).value;
    let node = (0..sheet.count(NODES) as i64).max_by_key(size).unwrap_or(0);
    let call = call.to_owned();
    let work = move || match &call[..] {
        "check" => raw::check(&words),
        "read_text" => raw::read_text(&written, &mut read),
        "write_text" => raw::write_text(&words, &mut text),
        "assemble" => raw::assemble(&words, &mut assembled, &given, &lists, &lengths),
        "verdicts" => raw::verdicts(&words, &values, &given, &lists, &lengths, &mut verdicts),
        "operate" => raw::operate(&words, &values, &given, &lists, &lengths, &mut states, &instances, 0, 0, -1),
        "run" => raw::run(&words, &values, &given, &lists, &lengths, &mut states, &instances, 0, &wanted, &mut path),
        "first" => raw::first(&words, 0, &mut path),
        "next" => raw::next(&words, 0, &mut path),
        "states" => raw::states(&words, 0),
        "reachable" => raw::reachable(&words, 0),
        "admissible" => raw::admissible(&words, 0, 0, 0, 0),
        "can_cause" => raw::can_cause(&words, 0, 0, 0, 0),
        "rules" => raw::rules(&words),
        "stratum" => raw::stratum(&words, 0),
        "outcomes" => raw::outcomes(&words, 0),
        "tree_size" => raw::tree_size(&words, node),
        "depth" => raw::depth(&words, 0),
        other => panic!("no such call: {other}"),
    };
    let thread = thread::Builder::new().stack_size(bytes).spawn(work).expect("the thread starts");
    let answer = thread.join().expect("the call comes back");
    // A sheet without operations and flows has none to name (5).
    assert!([0, 5, 9, 10, 11, 13].contains(&answer.refusal), "{answer:?}");
}

/// 1,024 nodes, each the only child of the next, under the rule or the operation of the sheet. Node `for_all` is a "for all"
/// over the list, and the first node then the list's element.
fn chain([kind, factor]: [i64; 2], owner: usize, for_all: Option<i64>) -> Sheet {
    let mut sheet = Sheet { personas: 1, tables: Default::default() };
    let mut add = |table: usize, words: &[i64]| {
        let mut record = [0; 8];
        record[..words.len()].copy_from_slice(words);
        sheet.tables[table].push(record);
    };
    // Of products the two last nodes are a literal and a comparison; the first of the others is a fact.
    add(FACTS, &[(kind == 6) as i64, 0, 1]);
    add(FACTS, &[LIST, 0, 1, 0, 0, 0, 0, 2]);
    add(NODES, if for_all.is_some() { &[17, 1] } else { &[3, 0] });
    let links = if kind == 6 { 1022 } else { 1024 };
    (1..links).for_each(|node| match for_all {
        Some(place) if place == node => add(NODES, &[14, 1, node - 1]),
        _ => add(NODES, &[kind, node - 1, factor]),
    });
    if kind == 6 {
        add(NODES, &[0, 1]);
        add(NODES, &[7, 3, 1021, 1022]);
    }
    if owner == RULES {
        add(RULES, &[0, 1023]);
    }
    add(ENTITIES, &[1, 0]);
    add(TRANSITIONS, &[0, 0, 0]);
    if owner == OPERATIONS {
        add(OPERATIONS, &[1, 1023, 0, 1, 1]);
        add(generate::EFFECTS, &[0, 0, 0, 0]);
        add(FLOWS, &[0, 1]);
        add(STEPS, &[0, 0, 0, 0, 2]);
        add(ROUTES, &[1, 0]);
        add(ROUTES, &[1, 1]);
    }
    sheet
}

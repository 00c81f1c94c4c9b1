//! `bench [MILLISECONDS]`: each call on the largest sheet, an eighth of it, the escrow example, and 01's sheet.
//!
//! At last runs that are hard where a precondition is worked out again for each step, operations that are refused 11
//! after every effect was looked at, S2 of sheets with 32 entities and 512 transitions, verdicts of a rule that is for
//! all elements of a list, and operations and runs among many instances.
//!
//! The library and the reference are timed in turns in one process, the best of many rounds counts. Each case is
//! timed for so many milliseconds (300 unless told). The answers are compared before.

use difference::generate::{
    self, Sheet, EFFECTS, ENTITIES, FACTS, FLOWS, LIST, NODES, OPERATIONS, PERSONAS, ROUTES, RULES, STEPS, TRANSITIONS,
};
use difference::random::Random;
use fernpocket::{example, raw};
use std::env;
use std::hint::black_box;
use std::time::{Duration, Instant};

/// The call on both sides.
struct Case {
    name: &'static str,
    library: Box<dyn FnMut() -> [i64; 4]>,
    reference: Box<dyn FnMut() -> [i64; 4]>,
    /// How long the text is, for calls on text.
    bytes: usize,
}

/// The best times of a call in nanoseconds.
struct Times {
    library: f64,
    reference: f64,
}

/// A sheet's name, words, bytes of text, and the calls on it with their times.
type Timed = (&'static str, usize, usize, Vec<(Case, Times)>);

/// A sheet, and arguments that make each call work hard.
#[derive(Default)]
struct Desk {
    words: Vec<i64>,
    text: Vec<u8>,
    values: Vec<i64>,
    given: Vec<i64>,
    lists: Vec<i64>,
    lengths: Vec<i64>,
    rules: usize,
    states: Vec<i64>,
    instances: Vec<i64>,
    persona: i64,
    operation: i64,
    wanted: i64,
    run_flow: i64,
    run_wanted: Vec<i64>,
    entity: i64,
    from: i64,
    to: i64,
    long_flow: i64,
    steps: usize,
    node: i64,
    rule: i64,
}

fn main() {
    let milliseconds = env::args().nth(1).and_then(|word| word.parse().ok()).unwrap_or(300);
    let time = Duration::from_millis(milliseconds);
    let sheets = [(8, "Largest sheet"), (1, "An eighth")].map(|(eighths, name)| (name, Desk::random(eighths)));
    let examples = [("The escrow example", escrow()), ("01's sheet", example::sheet())];
    let sheets = sheets.into_iter().chain(examples.map(|(name, words)| (name, Desk::of(&Sheet::read(&words), 1))));

    let mut table: Vec<Timed> = vec![];
    for (name, desk) in sheets {
        let (words, bytes) = (desk.words.len(), desk.text.len());
        // The cases hold it until the program ends.
        let timed = cases(Box::leak(Box::new(desk))).into_iter().map(|mut case| {
            let times = measure(&mut case, time);
            (case, times)
        });
        table.push((name, words, bytes, timed.collect()));
    }

    println!("Times are the best of many rounds, library and reference in turns. Ratio: library / reference.\n");
    for (name, words, bytes, cases) in &table {
        println!("## {name}: {words} words, {bytes} bytes of text\n");
        println!("| Call | Library, µs | Reference, µs | Ratio |");
        println!("|---|---:|---:|---:|");
        for (case, times) in cases {
            let ratio = times.library / times.reference;
            println!("| {} | {:.2} | {:.2} | {ratio:.2} |", case.name, times.library / 1e3, times.reference / 1e3);
        }
        println!();
    }

    println!("## Text, million bytes a second\n");
    println!("| Call | Sheet | Library | Reference |");
    println!("|---|---|---:|---:|");
    for (name, _, _, cases) in &table {
        for (case, times) in cases.iter().filter(|(case, _)| case.bytes > 0) {
            let speed = |time: f64| format!("{:.0}", case.bytes as f64 * 1e3 / time);
            println!("| {} | {name} | {} | {} |", case.name, speed(times.library), speed(times.reference));
        }
    }

    let (whole, eighth) = (&table[0], &table[1]);
    let words = whole.1 as f64 / eighth.1 as f64;
    println!("\n## Growth from the eighth to the largest sheet, which has {words:.2} times the words\n");
    println!("| Call | Library | Reference |");
    println!("|---|---:|---:|");
    for ((case, large), (_, small)) in whole.3.iter().zip(&eighth.3) {
        let growth = (large.library / small.library, large.reference / small.reference);
        println!("| {} | {:.2} | {:.2} |", case.name, growth.0, growth.1);
    }

    println!("\n## Hard runs: each step performs one operation, whose precondition is one deep tree\n");
    println!("| Steps | Nodes | Library, µs | Reference, µs | Ratio |");
    println!("|---:|---:|---:|---:|---:|");
    for eighths in [1, 2, 4, 8] {
        let (steps, nodes) = (32 * eighths, 128 * eighths);
        let desk = Box::leak(Box::new(Desk::of(&hard_sheet(steps, nodes), 1)));
        hard(desk, "run", &format!("{steps} | {nodes}"), time);
    }

    println!("\n## Hard operations: eight outcomes, each blocked by the last entity that it names; refused 11\n");
    println!("| Entities | Effects | Library, µs | Reference, µs | Ratio |");
    println!("|---:|---:|---:|---:|---:|");
    for entities in [4, 8, 16, 32] {
        let mut desk = Desk::of(&blocked_sheet(entities), 1);
        (desk.persona, desk.operation, desk.wanted) = (0, 0, -1);
        desk.states[3 * (entities as usize - 1) + 2] = 2;
        hard(Box::leak(Box::new(desk)), "operate", &format!("{entities} | {}", 16 * entities), time);
    }

    println!("\n## Reachability: 32 entities, 512 transitions\n");
    println!("S2 alone: the time of `reachable` less that of `states` on the same sheet.\n");
    print!("| Sheet | Scans | Library, µs | Reference, µs | Ratio ");
    println!("| S2 alone, library, µs | S2 alone, reference, µs |");
    println!("|---|---:|---:|---:|---:|---:|---:|");
    for (name, owners, turns) in [
        ("every state to every state of two entities, entity by entity", 2, false),
        ("the same, the two entities in turns", 2, true),
        ("a ring of each entity's states, entity by entity", 32, false),
        ("the same, the entities in turns", 32, true),
    ] {
        let words = reach_sheet(owners, turns).words();
        let desk = Box::leak(Box::new(Desk { words, entity: owners - 1, ..Desk::default() }));
        let answer = reference::reachable(&desk.words, desk.entity);
        assert_eq!((answer.value, answer.count), (65_535, 16), "{name}");
        let [states, reach] = ["states", "reachable"].map(|call| times_of(desk, call, time));
        let ratio = reach.library / reach.reference;
        print!("| {name} | {} | {:.2} | {:.2} ", answer.count, reach.library / 1e3, reach.reference / 1e3);
        let alone = ((reach.library - states.library) / 1e3, (reach.reference - states.reference) / 1e3);
        println!("| {ratio:.2} | {:.2} | {:.2} |", alone.0, alone.1);
    }

    println!("\n## For all: verdicts of one rule over the last list of a sheet, with a body of 10 nodes that is always true\n");
    println!("| Lists | Elements | Node visits | Library, µs | Reference, µs | Ratio |");
    println!("|---:|---:|---:|---:|---:|---:|");
    for (lists, elements) in [(1, 0), (1, 1), (1, 10), (1, 100), (127, 0), (127, 100)] {
        let words = for_all_sheet(lists).words();
        // The other lists are empty. The last fact is a Bool, and false.
        let (mut slots, mut lengths) = (vec![0; 100 * lists], vec![0; lists]);
        (0..100).for_each(|place| slots[100 * (lists - 1) + place] = place as i64 % 10);
        lengths[lists - 1] = elements;
        let (values, given) = (vec![0; lists + 1], vec![1; lists + 1]);
        let desk = Desk { words, values, given, lists: slots, lengths, rules: 1, ..Desk::default() };
        let line = format!("{lists} | {elements} | {}", 1 + 10 * elements);
        hard(Box::leak(Box::new(desk)), "verdicts", &line, time);
    }

    println!("\n## Instances: the largest sheet, with so many of each entity, of which the last is named\n");
    println!("| Call | Of each entity | Records | Library, µs | Reference, µs | Ratio |");
    println!("|---|---:|---:|---:|---:|---:|");
    for count in [1, 2, 4, 8] {
        let mut desk = Desk::random(8);
        (desk.states, desk.instances) = several(&desk.states, count);
        let desk = Box::leak(Box::new(desk));
        for call in ["operate", "run"] {
            hard(desk, call, &format!("{call} | {count} | {}", desk.states.len() / 3), time);
        }
    }
}

/// Records of one instance of each entity, numbered 0, in these states.
fn one_each(states: impl IntoIterator<Item = i64>) -> Vec<i64> {
    states.into_iter().enumerate().flat_map(|(entity, state)| [entity as i64, 0, state]).collect()
}

/// So many instances for each that there is, in the same state, and the last of each entity.
fn several(states: &[i64], count: i64) -> (Vec<i64>, Vec<i64>) {
    let instances = |record: &[i64]| {
        let [entity, _, state] = [record[0], record[1], record[2]];
        (0..count).flat_map(move |number| [entity, number, state])
    };
    (states.chunks(3).flat_map(instances).collect(), vec![count - 1; states.len() / 3])
}

/// The times of one call of a desk.
fn times_of(desk: &'static Desk, call: &str, time: Duration) -> Times {
    let mut case = cases(desk).into_iter().find(|case| case.name == call).expect("it is among the calls");
    measure(&mut case, time)
}

/// A line of one call of a desk.
fn hard(desk: &'static Desk, call: &str, line: &str, time: Duration) {
    let times = times_of(desk, call, time);
    let ratio = times.library / times.reference;
    println!("| {line} | {:.2} | {:.2} | {ratio:.2} |", times.library / 1e3, times.reference / 1e3);
}

/// Adds a record to a table.
fn add(sheet: &mut Sheet, kind: usize, words: &[i64]) {
    let mut record = [0; 8];
    record[..words.len()].copy_from_slice(words);
    sheet.tables[kind].push(record);
}

/// One operation of eight outcomes, each with two effects on each of so many entities, from states 0 and 1 of three.
fn blocked_sheet(entities: i64) -> Sheet {
    let mut sheet = Sheet { personas: 1, tables: Default::default() };
    let mut add = |kind: usize, words: &[i64]| add(&mut sheet, kind, words);
    add(NODES, &[1, 1]);
    (0..entities).for_each(|_| add(ENTITIES, &[3, 0]));
    for entity in 0..entities {
        add(TRANSITIONS, &[entity, 0, 1]);
        add(TRANSITIONS, &[entity, 1, 0]);
    }
    add(OPERATIONS, &[1, 0, 0, 16 * entities, 8]);
    for outcome in 0..8 {
        for entity in 0..entities {
            add(EFFECTS, &[entity, 1, 0, outcome]);
            add(EFFECTS, &[entity, 0, 1, outcome]);
        }
    }
    add(FLOWS, &[0, 1]);
    add(STEPS, &[0, 0, 0, 0, 9]);
    (0..9).for_each(|_| add(ROUTES, &[1, 0]));
    sheet
}

/// 32 entities of 16 states, and 512 transitions: on the first two entities, every state to every state, or on all 32,
/// a ring of the states of each. They stand entity by entity, or the entities take turns.
fn reach_sheet(owners: i64, turns: bool) -> Sheet {
    let mut sheet = Sheet { personas: 0, tables: Default::default() };
    (0..32).for_each(|_| add(&mut sheet, ENTITIES, &[16, 0]));
    let each = 512 / owners;
    for k in 0..512 {
        let (entity, own) = if turns { (k % owners, k / owners) } else { (k / each, k % each) };
        let [from, to] = if owners == 2 { [own / 16, own % 16] } else { [own, (own + 1) % 16] };
        add(&mut sheet, TRANSITIONS, &[entity, from, to]);
    }
    sheet
}

/// So many lists of up to 100 Ints of 0..9, and a Bool. One rule: for all of the last list, the element is 0 or more, and 9
/// or less, and the Bool is not true.
fn for_all_sheet(lists: usize) -> Sheet {
    let mut sheet = Sheet { personas: 0, tables: Default::default() };
    let mut add = |kind: usize, words: &[i64]| add(&mut sheet, kind, words);
    (0..lists).for_each(|_| add(FACTS, &[LIST, 0, 9, 0, 0, 0, 1, 100]));
    add(FACTS, &[0, 0, 1]);
    let (list, truth) = (lists as i64 - 1, lists as i64);
    let body: [&[i64]; 10] = [
        &[17, list],
        &[0, 0],
        &[7, 5, 0, 1],
        &[17, list],
        &[0, 9],
        &[7, 3, 3, 4],
        &[9, 2, 5],
        &[3, truth],
        &[11, 7],
        &[9, 6, 8],
    ];
    body.into_iter().for_each(|node| add(NODES, node));
    add(NODES, &[14, list, 9]);
    add(RULES, &[0, 10]);
    sheet
}

/// A flow of so many steps of one operation, whose precondition is a chain of so many nodes.
fn hard_sheet(steps: i64, nodes: i64) -> Sheet {
    let mut sheet = Sheet { personas: 1, tables: Default::default() };
    let mut add = |kind: usize, words: &[i64]| add(&mut sheet, kind, words);
    add(FACTS, &[0, 0, 1]);
    add(NODES, &[3, 0]);
    (1..nodes).for_each(|node| add(NODES, &[11, node - 1]));
    add(ENTITIES, &[1, 0]);
    add(TRANSITIONS, &[0, 0, 0]);
    add(OPERATIONS, &[1, nodes - 1, 0, 1, 1]);
    add(EFFECTS, &[0, 0, 0, 0]);
    add(FLOWS, &[0, steps]);
    for step in 0..steps {
        add(STEPS, &[0, 0, 0, 2 * step, 2]);
        let on = if step + 1 < steps { [0, step + 1] } else { [1, 0] };
        add(ROUTES, &on);
        add(ROUTES, &on);
    }
    sheet
}

/// The words of examples/escrow.txt.
fn escrow() -> Vec<i64> {
    let text = include_bytes!("../../../examples/escrow.txt");
    let mut words = vec![0; text.len() / 2];
    let count = reference::read_text(text, &mut words).value as usize;
    words.truncate(count);
    words
}

/// The best time of each side.
fn measure(case: &mut Case, time: Duration) -> Times {
    let expected = (case.reference)();
    assert_eq!((case.library)(), expected, "{}", case.name);
    // A round takes at least some tens of microseconds, so that the clock does not count.
    let mut calls = 1;
    while sample(&mut case.reference, calls) < 50e3 {
        calls *= 2;
    }
    let mut best = Times { library: f64::MAX, reference: f64::MAX };
    let start = Instant::now();
    while start.elapsed() < time {
        best.library = best.library.min(sample(&mut case.library, calls) / calls as f64);
        best.reference = best.reference.min(sample(&mut case.reference, calls) / calls as f64);
    }
    best
}

/// The nanoseconds of so many calls.
fn sample(call: &mut Box<dyn FnMut() -> [i64; 4]>, calls: usize) -> f64 {
    let start = Instant::now();
    for _ in 0..calls {
        black_box(call());
    }
    start.elapsed().as_nanos() as f64
}

/// A wanted outcome for each operation step of a flow, -1 for a branch.
fn wanted_of(sheet: &Sheet, flow: usize, random: &mut Random) -> Vec<i64> {
    let (first, steps) = sheet.steps_of(flow);
    let words = sheet.tables[STEPS][first..first + steps].iter().map(|&[kind, what, ..]| match kind {
        0 => random.below(sheet.tables[OPERATIONS][what as usize][4] as usize) as i64,
        _ => -1,
    });
    words.collect()
}

impl Desk {
    fn random(eighths: usize) -> Desk {
        Desk::of(&generate::full(eighths, &mut Random::new(1)), 2)
    }

    /// Looks for facts and arguments under which an operation goes through and a run is long.
    fn of(sheet: &Sheet, seed: u64) -> Desk {
        let mut random = Random::new(seed);
        let words = sheet.words();
        let mut text = vec![0; 12 * words.len()];
        let length = reference::write_text(&words, &mut text).value as usize;
        text.truncate(length);
        let states = one_each(sheet.tables[ENTITIES].iter().map(|entity| entity[1]));
        let instances = vec![0; sheet.count(ENTITIES)];
        let given = vec![1; sheet.count(FACTS)];
        let steps = (0..sheet.count(FLOWS)).map(|flow| sheet.steps_of(flow).1).max().unwrap_or(0);

        let (mut values, mut lists, mut lengths) = (vec![], vec![], vec![]);
        let (mut run_flow, mut run_wanted, mut longest) = (0, vec![], -1);
        for _ in 0..400 {
            let tried: Vec<i64> = (0..given.len()).map(|fact| sheet.value_of(fact, &mut random)).collect();
            let (slots, counts) = sheet.lent_lists(&mut random);
            let flow = random.below(sheet.count(FLOWS)) as i64;
            let wanted = wanted_of(sheet, flow as usize, &mut random);
            let (mut states, mut path) = (states.clone(), vec![0; steps]);
            let run = reference::run(
                &words,
                &tried,
                &given,
                &slots,
                &counts,
                &mut states,
                &instances,
                flow,
                &wanted,
                &mut path,
            );
            if run.count > longest {
                (values, lists, lengths) = (tried, slots, counts);
                (run_flow, run_wanted, longest) = (flow, wanted, run.count);
            }
        }
        let (mut persona, mut operation, mut wanted) = (0, 0, -1);
        for _ in 0..2000 {
            let tried = (random.below(sheet.count(PERSONAS)) as i64, random.below(sheet.count(OPERATIONS)) as i64);
            let word = random.below(sheet.tables[OPERATIONS][tried.1 as usize][4] as usize) as i64;
            let mut states = states.clone();
            let answer = reference::operate(
                &words,
                &values,
                &given,
                &lists,
                &lengths,
                &mut states,
                &instances,
                tried.0,
                tried.1,
                word,
            );
            if answer.refusal == 0 {
                (persona, operation, wanted) = (tried.0, tried.1, word);
                break;
            }
        }
        let [entity, from, to, ..] = *sheet.tables[EFFECTS].last().expect("the sheet has effects");
        let largest =
            |count: usize, size: &dyn Fn(i64) -> i64| (0..count as i64).max_by_key(|&number| size(number)).unwrap_or(0);
        Desk {
            text,
            rules: sheet.count(RULES),
            persona,
            operation,
            wanted,
            run_flow,
            run_wanted,
            entity,
            from,
            to,
            long_flow: largest(sheet.count(FLOWS), &|flow| reference::depth(&words, flow).value),
            steps,
            node: largest(sheet.count(NODES), &|node| reference::tree_size(&words, node).value),
            rule: sheet.count(RULES) as i64 - 1,
            words,
            values,
            given,
            lists,
            lengths,
            states,
            instances,
        }
    }
}

/// The case of a call, compiled once for each side, with `$side` naming its functions.
macro_rules! case {
    ($name:literal, $bytes:expr, [$($buffer:ident = $content:expr),*], |$side:ident| $call:expr) => {{
        let make = |library: bool| -> Box<dyn FnMut() -> [i64; 4]> {
            $(#[allow(unused_mut)] let mut $buffer = $content;)*
            if library {
                use raw as $side;
                Box::new(move || numbers!($call))
            } else {
                use reference as $side;
                Box::new(move || numbers!($call))
            }
        };
        Case { name: $name, library: make(true), reference: make(false), bytes: $bytes }
    }};
}

macro_rules! numbers {
    ($call:expr) => {{
        let answer = $call;
        [answer.refusal, answer.place, answer.value, answer.count]
    }};
}

fn cases(desk: &'static Desk) -> Vec<Case> {
    let first = {
        let mut path = vec![0u16; desk.steps];
        reference::first(&desk.words, desk.long_flow, &mut path);
        path
    };
    vec![
        case!("check", 0, [], |side| side::check(&desk.words)),
        case!("read_text", desk.text.len(), [words = vec![0i64; desk.words.len()]], |side| {
            side::read_text(&desk.text, &mut words)
        }),
        case!("write_text", desk.text.len(), [text = vec![0u8; desk.text.len()]], |side| {
            side::write_text(&desk.words, &mut text)
        }),
        case!("assemble", 0, [values = desk.values.clone()], |side| {
            side::assemble(&desk.words, &mut values, &desk.given, &desk.lists, &desk.lengths)
        }),
        case!("verdicts", 0, [out = vec![0i64; desk.rules]], |side| {
            side::verdicts(&desk.words, &desk.values, &desk.given, &desk.lists, &desk.lengths, &mut out)
        }),
        case!("operate", 0, [states = desk.states.clone()], |side| {
            states.copy_from_slice(&desk.states);
            side::operate(
                &desk.words,
                &desk.values,
                &desk.given,
                &desk.lists,
                &desk.lengths,
                &mut states,
                &desk.instances,
                desk.persona,
                desk.operation,
                desk.wanted,
            )
        }),
        case!("run", 0, [states = desk.states.clone(), path = vec![0u16; desk.steps]], |side| {
            states.copy_from_slice(&desk.states);
            side::run(
                &desk.words,
                &desk.values,
                &desk.given,
                &desk.lists,
                &desk.lengths,
                &mut states,
                &desk.instances,
                desk.run_flow,
                &desk.run_wanted,
                &mut path,
            )
        }),
        case!("first", 0, [path = vec![0u16; desk.steps]], |side| {
            side::first(&desk.words, desk.long_flow, &mut path)
        }),
        case!("next", 0, [path = first.clone(), start = first.clone()], |side| {
            path.copy_from_slice(&start);
            side::next(&desk.words, desk.long_flow, &mut path)
        }),
        case!("states", 0, [], |side| side::states(&desk.words, desk.entity)),
        case!("reachable", 0, [], |side| side::reachable(&desk.words, desk.entity)),
        case!("admissible", 0, [], |side| {
            side::admissible(&desk.words, desk.entity, desk.from, desk.persona, desk.operation)
        }),
        case!("can_cause", 0, [], |side| {
            side::can_cause(&desk.words, desk.persona, desk.entity, desk.from, desk.to)
        }),
        case!("rules", 0, [], |side| side::rules(&desk.words)),
        case!("stratum", 0, [], |side| side::stratum(&desk.words, desk.rule)),
        case!("outcomes", 0, [], |side| side::outcomes(&desk.words, desk.operation)),
        case!("tree_size", 0, [], |side| side::tree_size(&desk.words, desk.node)),
        case!("depth", 0, [], |side| side::depth(&desk.words, desk.long_flow)),
    ]
}

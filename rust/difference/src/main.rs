//! `difference SEED SECONDS [ROUND]`: compares for so long, or only the one round.

use difference::compare::Comparer;
use std::env;
use std::process::ExitCode;
use std::time::{Duration, Instant};

fn main() -> ExitCode {
    let numbers: Option<Vec<u64>> = env::args().skip(1).map(|word| word.parse().ok()).collect();
    let (seed, seconds, only) = match numbers.as_deref() {
        Some([seed, seconds]) => (*seed, *seconds, None),
        Some([seed, seconds, round]) => (*seed, *seconds, Some(*round)),
        _ => {
            eprintln!("usage: difference SEED SECONDS [ROUND]");
            return ExitCode::from(2);
        }
    };
    println!("seed {seed}, {seconds} seconds");
    let start = Instant::now();
    let mut shown = start;
    let mut comparer = Comparer::default();
    let mut number = only.unwrap_or(0);
    loop {
        if let Err(disagreement) = difference::round(&mut comparer, seed, number) {
            let file = format!("disagreement-{seed}-{number}.txt");
            println!("{}", disagreement.head());
            match std::fs::write(&file, &disagreement.0) {
                Ok(()) => println!("the whole of it is in {file}"),
                Err(error) => println!("{file} could not be written: {error}"),
            }
            println!("seed {seed}, round {number}: again with `difference {seed} 0 {number}`");
            return ExitCode::FAILURE;
        }
        number += 1;
        if only.is_some() || start.elapsed() >= Duration::from_secs(seconds) {
            break;
        }
        if shown.elapsed() >= Duration::from_secs(10) {
            shown = Instant::now();
            println!("{:>6} s, round {number}, {} calls", start.elapsed().as_secs(), comparer.reached.total());
        }
    }
    println!("{}", comparer.reached);
    println!("seed {seed}: {number} rounds, {} calls, no disagreement", comparer.reached.total());
    ExitCode::SUCCESS
}

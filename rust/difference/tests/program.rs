//! The program `paths` on whole texts: what it writes against a listing by the reference.
//!
//! `rt run` in crates/paths builds it.

use fernpocket::example;
use std::io::Write;
use std::path::Path;
use std::process::{Command, Stdio};

/// The longest text that the program takes, and the paths that it lists of each flow.
const TEXT: usize = 16_000;
const PATHS: usize = 10_000;

/// What the program says on standard error: nothing, or one of these lines.
const SILENT: &str = "";
const REFUSED: &str = "paths: the text was refused: see the number and place\n";
const CUT: &str = "paths: a flow has more than 10,000 paths: the rest were left out\n";
const UNWRITTEN: &str = "paths: standard output could not be written\n";

/// What the program writes for a text to standard output, where this is a pipe, and to standard error.
fn written(text: &[u8], output: Stdio) -> (String, String) {
    let program = Path::new(env!("CARGO_MANIFEST_DIR")).join("../../crates/paths/out/paths");
    let mut child = Command::new(&program)
        .stdin(Stdio::piped())
        .stdout(output)
        .stderr(Stdio::piped())
        .spawn()
        .unwrap_or_else(|error| panic!("{}: {error}; `rt run` in crates/paths builds it", program.display()));
    // The program reads no more than it takes, so the rest of a longer text may find the pipe closed.
    let _ = child.stdin.take().unwrap().write_all(text);
    let output = child.wait_with_output().unwrap();
    (String::from_utf8(output.stdout).unwrap(), String::from_utf8(output.stderr).unwrap())
}

/// What 01 says of standard output, and what is said on standard error.
fn expected(text: &[u8]) -> (String, &'static str) {
    let refused = |number: i64, place: i64| (format!("refused\t{number}\t{place}\n"), REFUSED);
    if text.len() > TEXT {
        return refused(15, 0);
    }
    let mut words = vec![0; TEXT];
    let read = reference::read_text(text, &mut words);
    if read.refusal != 0 {
        return refused(read.refusal, read.place);
    }
    words.truncate(read.value as usize);
    let check = reference::check(&words);
    if check.refusal != 0 {
        return refused(check.refusal, check.place);
    }
    let mut lines = String::new();
    let mut said = SILENT;
    for flow in 0..words[9] {
        let mut path = vec![0u16; 256];
        let mut answer = reference::first(&words, flow, &mut path);
        for _ in 0..PATHS {
            if answer.refusal != 0 {
                break;
            }
            let routes: String = path[..answer.count as usize].iter().map(|route| format!("\t{route}")).collect();
            lines += &format!("{flow}\t{}{routes}\n", answer.value);
            answer = reference::next(&words, flow, &mut path);
        }
        if answer.refusal == 0 {
            said = CUT;
        }
    }
    (lines, said)
}

fn agree(text: &[u8]) -> String {
    let ((written, said), (lines, line)) = (written(text, Stdio::piped()), expected(text));
    let shown = String::from_utf8_lossy(&text[..text.len().min(400)]);
    assert!(written == lines, "for {shown:?}");
    assert_eq!(said, line, "on standard error, for {shown:?}");
    written
}

/// The text of words, eight to a line.
fn text_of(words: &[i64]) -> Vec<u8> {
    let mut text = vec![0; 12 * words.len()];
    let length = reference::write_text(words, &mut text).value as usize;
    text.truncate(length);
    text
}

/// A sheet with one flow of exactly so many paths: a ladder of branches, both routes of each to the next, and before it a
/// branch for each further bit of the number, to the rung from which that many paths are left, or on.
fn flow_of(paths: usize) -> Vec<i64> {
    let bits = (usize::BITS - 1 - paths.leading_zeros()) as usize;
    let set: Vec<usize> = (0..bits).filter(|bit| paths >> bit & 1 == 1).collect();
    let count = set.len() + bits;
    let mut targets = Vec::new();
    for (step, bit) in set.iter().enumerate() {
        targets.push(Some(step + 1));
        targets.push((*bit > 0).then(|| set.len() + bits - bit));
    }
    for step in set.len()..count {
        let on = (step + 1 < count).then_some(step + 1);
        targets.extend([on, on]);
    }
    let count = count as i64;
    let mut words = vec![1, 0, 0, count, 0, 0, 0, 0, 0, 1, count, 2 * count, 0, 0, 0, 0];
    let mut add = |record: [i64; 5]| words.extend(record.into_iter().chain([0; 3]));
    (0..count).for_each(|_| add([1, 1, 0, 0, 0]));
    add([0, count, 0, 0, 0]);
    (0..count).for_each(|step| add([1, step, 0, 2 * step, 2]));
    for target in targets {
        add(target.map_or([1, 0, 0, 0, 0], |step| [0, step as i64, 0, 0, 0]));
    }
    words
}

#[test]
fn the_document_s_sheet() {
    assert_eq!(agree(example::TEXT.as_bytes()), "0\t0\t0\t2\n0\t0\t0\t3\n0\t2\t0\t4\n0\t1\t1\n");
}

#[test]
fn the_examples() {
    agree(include_bytes!("../../../examples/escrow.txt"));
    agree(include_bytes!("../../../examples/documents.txt"));
    agree(include_bytes!("../../../examples/parcels.txt"));
}

#[test]
fn refused_texts_and_sheets() {
    assert_eq!(agree(b""), "refused\t1\t0\n");
    assert_eq!(agree(example::TEXT.replacen("\t1\t1\t2\t0", "\t1\t1\t2\t00", 1).as_bytes()), "refused\t14\t0\n");
    assert_eq!(agree(&example::TEXT.as_bytes()[..example::TEXT.len() - 1]), "refused\t14\t18\n");
    let mut words = example::sheet();
    words[16 + 8 * 8 + 3] = 2;
    assert_eq!(agree(&text_of(&words)), "refused\t3\t8\n");
}

#[test]
fn texts_as_long_as_they_may_be_and_longer() {
    // Lines of sixteen bytes: at the limit they are read and make no sheet; past it nothing is read.
    let line = b"0\t0\t0\t0\t0\t0\t0\t0\n";
    assert_eq!(agree(&line.repeat(TEXT / line.len())), "refused\t1\t0\n");
    assert_eq!(agree(&line.repeat(TEXT / line.len() + 1)), "refused\t15\t0\n");
    assert_eq!(agree(&b"x".repeat(TEXT)), "refused\t14\t0\n");
    assert_eq!(agree(&b"x".repeat(TEXT + 1)), "refused\t15\t0\n");
    assert_eq!(agree(&b"x".repeat(50 * TEXT)), "refused\t15\t0\n");
}

#[test]
fn the_stored_run() {
    // The text and the output that `rt ci` compares: as long as a text may be, more than one buffer of output, two
    // flows of which the first is cut. The output was made by the reference.
    let text = include_bytes!("../../../crates/paths/stdin");
    let lines = include_str!("../../../crates/paths/stdout");
    assert_eq!(text.len(), TEXT);
    assert!(lines.len() > 2 * 65_536);
    assert!(expected(text) == (lines.to_string(), CUT));
    agree(text);
}

#[test]
fn output_that_is_not_taken() {
    // A device that takes no byte: the paths of a sheet, and a refused line.
    for text in [example::TEXT, ""] {
        let full = std::fs::File::options().write(true).open("/dev/full").unwrap();
        assert_eq!(written(text.as_bytes(), full.into()), (String::new(), UNWRITTEN.to_string()));
    }
}

#[test]
fn the_first_ten_thousand_paths() {
    for (paths, said) in [(8_192, SILENT), (PATHS - 1, SILENT), (PATHS, SILENT), (PATHS + 1, CUT), (1 << 60, CUT)] {
        let text = text_of(&flow_of(paths));
        assert_eq!(expected(&text).1, said);
        assert_eq!(agree(&text).lines().count(), paths.min(PATHS));
    }
}

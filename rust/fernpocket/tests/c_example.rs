//! The C header in C and C++, and the C program of examples/c, compiled against the archive and run on the escrow contract.

use fernpocket::Refusal;
use std::fs;
use std::io::Write;
use std::path::{Path, PathBuf};
use std::process::{Command, Stdio};

/// Warnings are errors.
const STRICT: [&str; 4] = ["-pedantic", "-Wall", "-Wextra", "-Werror"];

fn root() -> PathBuf {
    Path::new(env!("CARGO_MANIFEST_DIR")).join("../..")
}

#[test]
fn the_header_is_c_and_c_plus_plus() {
    let compiles = |compiler: &str, language: &str, standard: &str| {
        let mut command = Command::new(compiler);
        command.args(STRICT).args(["-x", language, standard, "-fsyntax-only", "-include"]);
        command.arg(root().join("include/fernpocket.h")).arg("/dev/null");
        command.status().map(|status| assert!(status.success(), "{compiler} {standard}"))
    };
    compiles("cc", "c", "-std=c99").expect("cc runs");
    compiles("cc", "c", "-std=c11").expect("cc runs");
    if let Err(error) = compiles("c++", "c++", "-std=c++11") {
        println!("not tried as C++, c++: {error}");
    }
}

/// The compiled example.
struct Desk(PathBuf);

impl Desk {
    fn compiled() -> Desk {
        let archive = match std::env::var_os("FERNPOCKET_LIB") {
            Some(folder) => Path::new(env!("CARGO_MANIFEST_DIR")).join(folder),
            None => root().join("crates/fernpocket/out"),
        };
        let program = Path::new(env!("CARGO_TARGET_TMPDIR")).join("desk");
        let mut command = Command::new("cc");
        command.args(STRICT).args(["-std=c99", "-I"]).arg(root().join("include"));
        command.arg(root().join("examples/c/desk.c")).arg(archive.join("libfernpocket.a")).arg("-o").arg(&program);
        assert!(command.status().expect("cc runs").success());
        Desk(program)
    }

    /// What it writes for a text and words: the exit status, stdout, stderr.
    fn on(&self, text: &str, words: &[&str]) -> (i32, String, String) {
        let mut command = Command::new(&self.0);
        command.args(words).stdin(Stdio::piped()).stdout(Stdio::piped()).stderr(Stdio::piped());
        let mut child = command.spawn().unwrap();
        // Where the words are bad it may end before it has read the text.
        let _ = child.stdin.take().unwrap().write_all(text.as_bytes());
        let output = child.wait_with_output().unwrap();
        let text = |bytes| String::from_utf8(bytes).unwrap();
        (output.status.code().expect("it ends by itself"), text(output.stdout), text(output.stderr))
    }

    /// As the pages say it: answers line by line; of a refusal the number and the place.
    fn says(&self, text: &str, words: &[&str]) -> String {
        let (status, answered, said) = self.on(text, words);
        match status {
            0 => answered.lines().map(|line| format!("`{line}`")).collect::<Vec<_>>().join(", "),
            _ => format!("`refused {}`", said.split("refused ").nth(1).unwrap().split(':').next().unwrap()),
        }
    }
}

#[test]
fn the_desk() {
    let desk = Desk::compiled();
    let escrow = fs::read_to_string(root().join("examples/escrow.txt")).unwrap();
    let answers = |line: &str, expected: &str| {
        let words: Vec<&str> = line.split(' ').collect();
        assert_eq!(desk.on(&escrow, &words), (0, expected.to_owned(), String::new()), "{line}");
    };
    let (status, listed, errors) = desk.on(&escrow, &[]);
    assert_eq!((status, &errors[..]), (0, ""));
    assert!(listed.starts_with("accepted: 816 words\nflow 0, success: 0 2 4\nflow 0, failure: 0 2 5 8\n"), "{listed}");
    assert_eq!(listed.lines().count(), 10, "{listed}");

    // 5,000.00, delivery confirmed, line items valid: the escrow agent may release it.
    answers("operate 3 0 0=500000 1=1 2=1", "outcome 0\nstates: 1 0\n");
    answers("operate 3 0 0 0=500000 1=1 2=1", "outcome 0\nstates: 1 0\n");
    // Three line items; none, which is a list all the same; as many as there may be.
    answers("operate 3 0 0=500000 1=1 2=1,1,1", "outcome 0\nstates: 1 0\n");
    answers("operate 3 0 2= 0=500000 1=1", "outcome 0\nstates: 1 0\n");
    let items = |count: usize| format!("operate 3 0 0=500000 1=1 2={}", vec!["1"; count].join(","));
    answers(&items(100), "outcome 0\nstates: 1 0\n");
    answers("run 0 0=500000 1=1 2=1", "flow 0, success: 0 2 4\nstates: 1 1\n");
    answers("run 0 0:0 2:0 0=500000 1=1 2=1", "flow 0, success: 0 2 4\nstates: 1 1\n");

    // What the library refuses is said in the words of the Rust crate, and nothing is answered.
    let refused = |text: &str, line: &str, call: &str, refusal: Refusal| {
        let words: Vec<&str> = line.split(' ').filter(|word| !word.is_empty()).collect();
        assert_eq!(desk.on(text, &words), (1, String::new(), format!("desk: {call}: {refusal}\n")), "{line}");
    };
    refused(&escrow, "operate 0 0 0=500000 1=1 2=1", "operate", Refusal::Persona);
    refused(&escrow, "operate 3 0 0=2000000 1=1 2=1", "operate", Refusal::Precondition);
    refused(&escrow, "operate 4 0 0=500000 1=1 2=1", "operate", Refusal::Missing);
    refused(&escrow, "operate 3 0 0=500000 1=3 2=1", "operate", Refusal::FactValue(1));
    refused(&escrow, "operate 3 0 0=500000 1=1", "operate", Refusal::FactAbsent(2));
    // A line item that is not valid, wherever it stands; elements that are no Bools; a list that is too long.
    refused(&escrow, "operate 3 0 0=500000 1=1 2=0,1,1", "operate", Refusal::Precondition);
    refused(&escrow, "operate 3 0 0=500000 1=1 2=1,1,0", "operate", Refusal::Precondition);
    refused(&escrow, "operate 3 0 0=500000 1=1 2=1,1,2", "operate", Refusal::FactValue(2));
    refused(&escrow, "operate 3 0 0=500000 1=1 2=-1", "operate", Refusal::FactValue(2));
    refused(&escrow, &items(101), "operate", Refusal::FactValue(2));
    refused(&escrow, &items(1000), "operate", Refusal::FactValue(2));
    // The delivery record is still pending: there is no confirmation to revert.
    refused(&escrow, "operate 3 6 0=500000 1=1 2=1", "operate", Refusal::NoOutcome { entity: 1, wanted: None });
    refused(&escrow, "operate 3 6 0 0=500000 1=1 2=1", "operate", Refusal::NoOutcome { entity: 1, wanted: Some(0) });
    refused(&escrow, "run 2 0=500000 1=1 2=1", "run", Refusal::Missing);
    refused(&escrow, "operate 3 0 1 0=500000 1=1 2=1", "operate", Refusal::Missing);
    refused(&escrow, "run 0 1:0 0=500000 1=1 2=1", "run", Refusal::Missing);
    refused("", "", "check", Refusal::Header);
    refused(&escrow.replacen("7\t0\t0\t1\t", "7\t6\t0\t1\t", 1), "", "check", Refusal::Record(7));
    refused(&escrow.replacen("2\t0\t2\t0\t", "2\t0\t2\t00\t", 1), "operate 3 0", "read", Refusal::Line(3));

    // Names and half numbers must not become 0: each is refused with a sentence.
    let bad = |line: &str, sentence: &str| {
        let words: Vec<&str> = line.split('|').collect();
        let (status, answered, said) = desk.on(&escrow, &words);
        assert_eq!((status, &answered[..]), (2, ""), "{line}");
        assert!(said.starts_with(sentence), "{line}: {said}");
    };
    let number = |what: &str, word: &str| format!("desk: {what} is \"{word}\": it must be a whole number, ");
    bad("operate|escrow_agent|release_escrow", &number("PERSONA", "escrow_agent"));
    bad("operate|3|release_escrow", &number("OPERATION", "release_escrow"));
    bad("run|standard_release", &number("FLOW", "standard_release"));
    bad("operate|3|0|0=500000|1=zz|2=1", &number("VALUE", "zz"));
    bad("operate|3|0|0=500000|1=1,1|2=1", &number("VALUE", "1,1"));
    for (word, element) in
        [("zz", "zz"), (",", ""), ("1,", ""), (",1", ""), ("1,,1", ""), ("1, 1", " 1"), ("1;1", "1;1")]
    {
        bad(&format!("operate|3|0|0=500000|1=1|2={word}"), &number("ELEMENT", element));
    }
    bad("operate|3|0|0=500000|1=1|2=1,1000000001", &number("ELEMENT", "1000000001"));
    bad("operate|3|0|2=1|2=1", "desk: fact 2 is given twice\n");
    bad("operate|3|0|escrow_amount=500000|1=1|2=1", &number("FACT", "escrow_amount"));
    for word in ["", " 3", "3 ", "3x", "0x3", "+3", "-", "-1", "3.0", "1e0", "9223372036854775808"] {
        bad(&format!("operate|{word}|0|0=500000|1=1|2=1"), &number("PERSONA", word));
    }
    bad("operate|3|0|0=|1=1|2=1", &number("VALUE", ""));
    bad("operate|3|0|0=1000000001|1=1|2=1", &number("VALUE", "1000000001"));
    bad("operate|3|0|=1", &number("FACT", ""));
    bad("operate|3|0|0|0", "desk: \"0\" is not of the form FACT=VALUE\n");
    bad("run|0|0", "desk: \"0\" is not of the form FACT=VALUE\n");
    bad("operate|3|0|released|0=500000", &number("OUTCOME", "released"));
    bad("operate|3|0|-1|0=500000", &number("OUTCOME", "-1"));
    bad("run|0|step_confirm:0", &number("STEP", "step_confirm"));
    bad("run|0|0:", &number("OUTCOME", ""));
    bad("run|0|5:0", "desk: step 5 is not in the flow\n");
    bad("run|0|4:0|4:1", "desk: step 4 is named twice\n");
    bad("operate|3|0|5=1", "desk: fact 5 is not in the sheet\n");
    bad("operate|3|0|0=1|0=2", "desk: fact 0 is given twice\n");
    for line in ["", "operate", "operate|3", "run", "release|3|0"] {
        bad(line, "usage: desk");
    }
    format_page(&desk);
    example_page(&desk, "escrow");
    example_page(&desk, "adjudication");
    example_page(&desk, "documents");
    example_page(&desk, "parcels");
    instances(&desk);

    let long = "0\t0\t0\t0\t0\t0\t0\t0\n".repeat(30_000);
    assert_eq!(desk.on(&long, &[]).0, 2);
    fs::remove_file(&desk.0).unwrap();
}

/// Words on instances, good ones and bad ones.
fn instances(desk: &Desk) {
    let parcels = fs::read_to_string(root().join("examples/parcels.txt")).unwrap();
    let on = |line: &str| desk.on(&parcels, &line.split(' ').collect::<Vec<_>>());
    let says = |line: &str, states: &str| assert_eq!(on(line), (0, format!("{states}\n"), String::new()), "{line}");
    says("operate 0 0 1.12=0 0=1 1@12 1.11=2", "outcome 0\nstates: 0.0=0 1.11=2 1.12=1");
    says("operate 0 0 1.0=0 0.0=1 0=1", "outcome 0\nstates: 1 1");
    says("operate 0 2 0.4=0 0.3=1 0@4 0=1", "outcome 0\nstates: 0.3=1 0.4=2 1.0=0");
    let ends = "1.-9223372036854775808=0 1.9223372036854775807=0";
    says(
        &format!("operate 0 0 {ends} 1@9223372036854775807 0=1"),
        "outcome 0\nstates: 0.0=0 1.-9223372036854775808=0 1.9223372036854775807=1",
    );
    let refused = |line: &str, refusal: Refusal| {
        let call = line.split(' ').next().unwrap();
        assert_eq!(on(line), (1, String::new(), format!("desk: {call}: {refusal}\n")), "{line}");
    };
    refused("operate 0 0 1.11=0 0=1", Refusal::Missing);
    refused("operate 0 0 1.0=4 0=1", Refusal::State(1));
    refused("operate 0 0 1.0=0 2.0=0 0=1", Refusal::State(2));
    refused("operate 0 0 1.0=0 1.0=0 0=1", Refusal::State(2));
    refused("operate 0 0 1.0=-1 0=1", Refusal::State(1));
    refused("run 0 1.11=0 0=1", Refusal::Missing);
    refused("run 0 0.0=3 0=1", Refusal::State(0));
    // As many records as there may be, that of the order among them; and more.
    let many = |count: i64| (0..count).map(|number| format!(" 1.{number}=0")).collect::<String>();
    assert_eq!(on(&format!("operate 0 0 0=1{}", many(255))).0, 0);
    refused(&format!("operate 0 0 0=1{}", many(256)), Refusal::Length);
    refused(&format!("operate 0 0 0=1{}", many(400)), Refusal::Length);
    let bad = |line: &str, sentence: &str| {
        let (status, answered, said) = on(line);
        assert_eq!((status, &answered[..]), (2, ""), "{line}");
        assert!(said.starts_with(sentence), "{line}: {said}");
    };
    let number = |what: &str, word: &str| format!("desk: {what} is \"{word}\": it must be a whole number, ");
    bad("operate 0 0 parcel.1=0", &number("ENTITY", "parcel"));
    bad("operate 0 0 .1=0", &number("ENTITY", ""));
    bad("operate 0 0 1.=0", &number("INSTANCE", ""));
    bad("operate 0 0 1.x=0", &number("INSTANCE", "x"));
    bad("operate 0 0 1.9223372036854775808=0", &number("INSTANCE", "9223372036854775808"));
    bad("operate 0 0 1.1=packed", &number("STATE", "packed"));
    bad("operate 0 0 1.1=", &number("STATE", ""));
    bad("operate 0 0 1.1", &number("OUTCOME", "1.1"));
    bad("operate 0 0 0 1.1", "desk: \"1.1\" is not of the form FACT=VALUE\n");
    bad("operate 0 0 @1", &number("ENTITY", ""));
    bad("operate 0 0 1@", &number("INSTANCE", ""));
    bad("operate 0 0 1@1 1@1", "desk: entity 1 is named twice\n");
    bad("run 0 2@0", "desk: entity 2 is not in the sheet\n");
}

/// The sheet of docs/FORMAT.md, line by line, and what the page says comes out.
fn format_page(desk: &Desk) {
    let page = fs::read_to_string(root().join("docs/FORMAT.md")).unwrap();
    let sheet = fs::read_to_string(root().join("examples/claim.txt")).unwrap();
    let page = page.split_once("## A small sheet, line by line").unwrap().1;
    let tables: Vec<Vec<Vec<&str>>> = page.split("|\n\n").map(rows).filter(|table| !table.is_empty()).collect();
    let [lines, calls, wrong] = &tables[..] else { panic!("{} tables", tables.len()) };

    let line = |words: &str| words.trim_matches('`').replace(' ', "\t") + "\n";
    assert_eq!(lines.iter().map(|row| line(row[2])).collect::<String>(), sheet);
    for (index, row) in lines.iter().enumerate() {
        let place = index.checked_sub(2).map_or(String::new(), |place| place.to_string());
        assert_eq!((row[0], row[1]), (&(index + 1).to_string()[..], &place[..]));
    }
    let listed: String =
        page.lines().filter_map(|line| line.strip_prefix("    ")).map(|line| format!("{line}\n")).collect();
    assert_eq!(desk.on(&sheet, &[]), (0, listed, String::new()));
    for row in calls {
        let words: Vec<&str> = row[0].trim_matches('`').split(' ').collect();
        assert_eq!(desk.says(&sheet, &words), row[1], "{row:?}");
    }
    for row in wrong {
        let number: usize = row[0].parse().unwrap();
        let changed = sheet.split_inclusive('\n').enumerate();
        let changed: String =
            changed.map(|(index, old)| if index + 1 == number { line(row[1]) } else { old.to_owned() }).collect();
        assert_ne!(changed, sheet);
        assert_eq!(desk.says(&changed, &[]), row[2], "{row:?}");
    }
}

/// The calls of an example's page, and what the page says comes out.
fn example_page(desk: &Desk, name: &str) {
    let read = |ending: &str| fs::read_to_string(root().join("examples").join(format!("{name}.{ending}"))).unwrap();
    let (page, sheet) = (read("md"), read("txt"));
    let calls = rows(page.split_once("## What the desk says").unwrap().1);
    assert!(calls.len() >= 7, "{} rows", calls.len());
    for row in calls {
        let words: Vec<&str> = row[0].trim_matches('`').split(' ').collect();
        assert_eq!(desk.says(&sheet, &words), row[1], "{row:?}");
    }
}

/// The rows of a Markdown table, without its head.
fn rows(text: &str) -> Vec<Vec<&str>> {
    let rows = text.lines().filter(|line| line.starts_with('|')).skip(2);
    rows.map(|row| row.split('|').skip(1).map(str::trim).collect()).collect()
}

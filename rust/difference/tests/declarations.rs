//! One list of calls: the Rattle exports, the C header, the Rust declarations, the differential test and the benchmark
//! have the same calls in the same order, with the same parameters; the header says of each which refusals it gives.

use difference::calls::Call;
use std::fs;
use std::path::Path;

/// A call's name without `fernpocket_`, and its parameters as they stand in Rust.
type Declared = (String, Vec<String>);

/// A file of the repository.
fn source(name: &str) -> String {
    let file = Path::new(env!("CARGO_MANIFEST_DIR")).join("../..").join(name);
    fs::read_to_string(&file).unwrap_or_else(|error| panic!("{}: {error}", file.display()))
}

/// What stands after each `start` up to the first closing bracket: a name and a list of parameters.
fn lists<'a>(text: &'a str, start: &'a str) -> impl Iterator<Item = (String, Vec<&'a str>)> {
    text.split(start).skip(1).map(|rest| {
        let (name, rest) = rest.split_once('(').expect("a name is followed by parameters");
        let parameters = rest.split_once(')').expect("parameters end").0.split(',');
        (name.to_owned(), parameters.map(str::trim).filter(|parameter| !parameter.is_empty()).collect())
    })
}

/// The Rust type of a C parameter without its name.
fn of_c(declaration: &str) -> &str {
    match declaration {
        "const int64_t *" => "*const i64",
        "const uint8_t *" => "*const u8",
        "int64_t *" => "*mut i64",
        "uint8_t *" => "*mut u8",
        "uint16_t *" => "*mut u16",
        "size_t " => "usize",
        "int64_t " => "i64",
        other => panic!("include/fernpocket.h: a parameter of kind `{other}`"),
    }
}

fn header() -> Vec<Declared> {
    let text = source("include/fernpocket.h");
    let parameter = |parameter: &str| {
        let words = parameter.split_whitespace().collect::<Vec<_>>().join(" ");
        let at = words.rfind(['*', ' ']).expect("a parameter has a kind and a name") + 1;
        format!("{}: {}", &words[at..], of_c(&words[..at]))
    };
    lists(&text, "\nfernpocket_answer fernpocket_")
        .map(|(name, parameters)| (name, parameters.into_iter().map(parameter).collect()))
        .collect()
}

fn rust() -> Vec<Declared> {
    let text = source("rust/fernpocket/src/raw.rs");
    let block = text.split_once("extern \"C\" {").expect("an extern block").1;
    lists(block, "pub fn fernpocket_")
        .map(|(name, parameters)| (name, parameters.into_iter().map(str::to_owned).collect()))
        .collect()
}

/// A slice of the Rattle source is two parameters in C: a pointer and a count.
fn rattle() -> Vec<Declared> {
    let text = source("crates/fernpocket/src/lib.rt");
    let parameter = |parameter: &str| {
        let (name, kind) = parameter.split_once(": ").expect("a parameter has a name and a kind");
        let slice = |start| kind.strip_prefix(start).and_then(|rest: &str| rest.strip_suffix(']'));
        match (slice("&["), slice("&mut [")) {
            (Some(of), _) => vec![format!("{name}: *const {of}"), format!("{name}_len: usize")],
            (_, Some(of)) => vec![format!("{name}: *mut {of}"), format!("{name}_len: usize")],
            _ => vec![format!("{name}: {kind}")],
        }
    };
    lists(&text, "pub extern \"C\" fn fernpocket_")
        .map(|(name, parameters)| (name, parameters.into_iter().flat_map(parameter).collect()))
        .collect()
}

fn names(declared: &[Declared]) -> Vec<&str> {
    declared.iter().map(|(name, _)| &name[..]).collect()
}

#[test]
fn header_rust_and_rattle_declare_the_same() {
    let (header, rust, rattle) = (header(), rust(), rattle());
    assert!(header.len() >= 18 && header.iter().all(|(_, parameters)| parameters.len() >= 2));
    assert_eq!(names(&header), names(&rust), "include/fernpocket.h, rust/fernpocket/src/raw.rs");
    assert_eq!(names(&header), names(&rattle), "include/fernpocket.h, crates/fernpocket/src/lib.rt");
    for ((header, rust), rattle) in header.iter().zip(&rust).zip(&rattle) {
        assert_eq!(header, rust, "include/fernpocket.h, rust/fernpocket/src/raw.rs");
        assert_eq!(header, rattle, "include/fernpocket.h, crates/fernpocket/src/lib.rt");
    }
}

#[test]
fn the_four_numbers_stand_in_one_order() {
    let between = |name: &str, start: &str, end: &str| {
        let text = source(name);
        let fields = text.split_once(start).unwrap_or_else(|| panic!("{name}: no `{start}`")).1;
        let fields = fields.split_once(end).expect("the struct ends").0.lines().map(str::trim).map(str::to_owned);
        fields.filter(|line| !line.is_empty() && !line.starts_with("//")).collect::<Vec<_>>()
    };
    let in_c = between("include/fernpocket.h", "typedef struct {", "} fernpocket_answer;");
    let in_c: Vec<String> = in_c
        .iter()
        .map(|line| line.split(';').next().unwrap().strip_prefix("int64_t ").expect("a field is an int64_t"))
        .map(|field| format!("pub {field}: i64,"))
        .collect();
    assert_eq!(in_c, between("crates/answer/src/lib.rt", "#[repr(C)]\n#[derive(Clone, Copy)]\npub struct Answer {", "}"));
    assert_eq!(in_c, between("rust/fernpocket/src/raw.rs", "pub struct Answer {", "}"));
}

#[test]
fn every_call_is_compared_and_timed() {
    let header = header();
    assert_eq!(names(&header), Call::ALL.map(Call::name), "include/fernpocket.h, rust/difference/src/calls.rs");
    let bench = source("rust/bench/src/main.rs");
    let timed: Vec<&str> = bench.split("case!(\"").skip(1).map(|rest| rest.split('"').next().unwrap()).collect();
    assert_eq!(names(&header), timed, "include/fernpocket.h, rust/bench/src/main.rs");
}

/// The numbers of a list such as `1 to 4, 6, 7`.
fn numbers(list: &str) -> Vec<i64> {
    let number = |word: &str| word.trim().parse().unwrap_or_else(|_| panic!("`{word}` in `{list}`"));
    let part = |part: &str| match part.split_once(" to ") {
        Some((from, to)) => (number(from)..=number(to)).collect(),
        None => vec![number(part)],
    };
    list.split(',').flat_map(part).collect()
}

#[test]
fn the_documents_say_which_refusals_a_call_gives() {
    let (header, readme) = (source("include/fernpocket.h"), source("README.md"));
    for call in Call::ALL {
        let possible: Vec<i64> = call.possible().iter().copied().filter(|&refusal| refusal != 0).collect();
        let before = header.split(&format!("\nfernpocket_answer fernpocket_{}(", call.name())).next().unwrap();
        let comment = before.rsplit("/* ").next().unwrap();
        let list = comment.split("Refusals: ").nth(1).unwrap_or_else(|| panic!("{}: no refusals", call.name()));
        assert_eq!(numbers(list.split('.').next().unwrap()), possible, "include/fernpocket.h: {}", call.name());

        let row = readme.lines().find(|row| row.starts_with(&format!("| `{}` |", call.name())));
        let row = row.unwrap_or_else(|| panic!("README.md has no row for {}", call.name()));
        assert_eq!(numbers(row.split('|').nth(3).unwrap()), possible, "README.md: {}", call.name());
    }
}

#[test]
fn limits_are_the_same_everywhere() {
    let header = source("include/fernpocket.h");
    let constant = |name: &str| -> i64 {
        let rest = header.split(&format!("FERNPOCKET_{name} = ")).nth(1).unwrap_or_else(|| panic!("no {name}"));
        let digits: String = rest.chars().take_while(char::is_ascii_digit).collect();
        digits.parse().unwrap()
    };
    const TABLES: [&str; 11] = [
        "PERSONAS",
        "FACTS",
        "NODES",
        "RULES",
        "ENTITIES",
        "TRANSITIONS",
        "OPERATIONS",
        "EFFECTS",
        "FLOWS",
        "STEPS",
        "ROUTES",
    ];
    let format = source("docs/FORMAT.md").replace(',', "");
    for (place, table) in TABLES.into_iter().enumerate() {
        let (word, most) = (place as i64 + 1, reference::LIMITS[place]);
        assert_eq!(constant(&format!("AT_{table}")), word);
        assert_eq!(constant(&format!("MOST_{table}")), most);
        let row = format.lines().find(|line| line.starts_with(&format!("| {word} | {}", table.to_lowercase())));
        assert!(row.is_some_and(|row| row.ends_with(&format!("| {most} |"))), "docs/FORMAT.md: {table}");
    }
    let (header_words, record_words) = (constant("HEADER_WORDS"), constant("RECORD_WORDS"));
    let words = header_words + record_words * reference::LIMITS[1..].iter().sum::<i64>();
    assert_eq!((constant("MOST_WORDS"), constant("MOST_TEXT")), (words, 12 * words));
    assert_eq!(constant("MOST_LENGTH"), reference::MOST_LENGTH);
    assert_eq!(constant("MOST_SLOTS"), reference::MOST_LENGTH * constant("MOST_FACTS"));
    assert_eq!(constant("INSTANCE_WORDS"), reference::INSTANCE_WORDS as i64);
    assert_eq!(constant("MOST_INSTANCES"), reference::MOST_INSTANCES as i64);
    assert_eq!(constant("MOST_INSTANCES"), fernpocket::States::MOST as i64);
    assert_eq!(constant("LARGEST_NUMBER"), reference::M);
    assert_eq!(constant("STACK"), fernpocket::STACK as i64);
}

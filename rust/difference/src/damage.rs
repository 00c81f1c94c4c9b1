//! Damaged sheets and texts, and hostile numbers.

use crate::generate::{edge, Record, Sheet, EFFECTS, FACTS, FLOWS, LIST, NODES, OPERATIONS, ROUTES, RULES, STEPS};
use crate::random::Random;
use reference::{HEADER, LIMITS, M, RECORD};

/// Numbers at the ends of 01's ranges and of i64, or near an old one.
pub fn hostile(random: &mut Random, old: i64) -> i64 {
    #[rustfmt::skip]
    const ENDS: [i64; 46] = [
        i64::MIN, i64::MIN + 1, i64::MAX, i64::MAX - 1, -1, -1, 0, 0, 1, 2, 3, 4, 5, 6, 7, 8, 9, 11, 12, 13, 14, 15, 16,
        17, 18, 24, 25, 31, 32, 99, 100, 101, 127, 128, 129, 255, 256, 512, 1023, 1024, 1025, 65536, M, M + 1, -M,
        -M - 1,
    ];
    match random.below(12) {
        0..=4 => random.pick(&ENDS),
        5 => old.wrapping_add(1),
        6 => old.wrapping_sub(1),
        7 => old.wrapping_neg(),
        8 => old.wrapping_add(1 << random.pick(&[3, 8, 16, 31, 32, 48, 62, 63])),
        9 => random.word() as i64,
        10 => old ^ 1 << random.below(64),
        _ => random.within(-3, 40),
    }
}

/// The words of a damaged sheet. It may still be an accepted one.
pub fn sheet(sheet: &Sheet, random: &mut Random) -> Vec<i64> {
    let mut words = sheet.words();
    match random.below(19) {
        0..=5 => change_words(&mut words, random),
        6 => length(&mut words, random),
        7 => header(&mut words, random),
        8 => {
            change_words(&mut words, random);
            length(&mut words, random);
        }
        9 | 10 => return records(sheet, random).words(),
        11 => return counts(sheet, random).words(),
        12 => return durations(sheet, random).words(),
        13 | 14 => return lists(sheet, random).words(),
        _ => return rules_broken(sheet, random).words(),
    }
    words
}

/// One word, or several.
fn change_words(words: &mut [i64], random: &mut Random) {
    let times = if random.chance(2, 3) { 1 } else { 1 + random.below(6) };
    for _ in 0..times {
        let place = if random.chance(1, 10) || words.len() <= HEADER {
            random.below(HEADER.min(words.len()))
        } else {
            // Words in use are the interesting ones.
            let first = HEADER + random.below((words.len() - HEADER) / RECORD) * RECORD;
            first + random.pick(&[0, 0, 1, 1, 1, 2, 2, 3, 3, 4, 4, 5, 6, 7])
        };
        words[place] = match random.below(5) {
            0 => words[random.below(words.len())],
            _ => hostile(random, words[place]),
        };
    }
}

fn length(words: &mut Vec<i64>, random: &mut Random) {
    let length = words.len();
    match random.below(5) {
        0 => words.truncate(random.below(length)),
        1 => words.truncate(length - 1),
        2 => words.truncate(length.saturating_sub(RECORD)),
        3 => words.resize(length + random.pick(&[1, 7, 8, 16]), 0),
        _ => words.truncate(random.below(HEADER + 1)),
    }
}

fn header(words: &mut [i64], random: &mut Random) {
    match random.below(4) {
        // Two counts that keep the length.
        0 => {
            words[2 + random.below(10)] += 1;
            words[2 + random.below(10)] -= 1;
        }
        1 => {
            let kind = random.below(LIMITS.len());
            words[1 + kind] = LIMITS[kind] + random.below(2) as i64;
        }
        2 => words[1] = random.within(0, 24),
        _ => {
            let place = random.below(HEADER);
            words[place] = hostile(random, words[place]);
        }
    }
}

/// A table that is not empty.
fn table<'a>(sheet: &'a mut Sheet, random: &mut Random) -> Option<(usize, &'a mut Vec<Record>)> {
    let full: Vec<usize> = (1..11).filter(|&kind| !sheet.tables[kind].is_empty()).collect();
    if full.is_empty() {
        return None;
    }
    let kind = random.pick(&full);
    Some((kind, &mut sheet.tables[kind]))
}

/// Records swapped, copied, left out, doubled; counts in the header go with them.
fn records(sheet: &Sheet, random: &mut Random) -> Sheet {
    let mut sheet = sheet.clone();
    if let Some((kind, records)) = table(&mut sheet, random) {
        let [one, other] = [0; 2].map(|_| random.below(records.len()));
        match random.below(6) {
            0 | 1 => records.swap(one, other),
            2 => records[one] = records[other],
            3 => drop(records.remove(one)),
            4 if records.len() < LIMITS[kind] as usize => records.insert(other, records[one]),
            5 if records.len() < LIMITS[kind] as usize => records.insert(other, [0; 8]),
            _ => records[one].swap(random.below(8), random.below(8)),
        }
    }
    sheet
}

/// Counts of groups changed so that their sum stays, or goes wrong by as much as a count may.
fn counts(sheet: &Sheet, random: &mut Random) -> Sheet {
    let mut sheet = sheet.clone();
    let (kind, first_word, word) = random.pick(&[(OPERATIONS, 2, 3), (FLOWS, 0, 1), (STEPS, 3, 4)]);
    let owners = &mut sheet.tables[kind];
    if owners.is_empty() {
        return sheet;
    }
    let [one, other] = [0; 2].map(|_| random.below(owners.len()));
    let moved = match random.below(6) {
        0 => owners[one][word],
        1 => owners[one][word] + 1,
        2 => random.pick(&[1024, 1025, i64::MAX, i64::MIN]),
        _ => 1,
    };
    if random.chance(1, 6) {
        // One owner has all.
        let total = owners.iter().map(|owner| owner[word]).sum();
        owners.iter_mut().for_each(|owner| owner[word] = 0);
        owners[one][word] = total;
    } else {
        owners[one][word] = owners[one][word].wrapping_sub(moved);
        if random.chance(3, 4) {
            owners[other][word] = owners[other][word].wrapping_add(moved);
        }
    }
    if random.chance(1, 2) {
        // The first members follow the new counts.
        let mut first = 0i64;
        for owner in owners {
            owner[first_word] = first;
            first = first.wrapping_add(owner[word]);
        }
    }
    sheet
}

/// A flow of few steps with nearly as many routes as there may be, their counts at the ends of 0..1,024.
pub fn many_routes(random: &mut Random) -> Vec<i64> {
    let count = random.pick(&[1, 1, 2]);
    let routes = random.pick(&[1022, 1023, 1024, 1024, 1024]);
    let mut words = vec![1, 0, 0, count, 0, 0, 0, 0, 0, 1, count, routes, 0, 0, 0, 0];
    let mut record = |start: &[i64]| {
        words.extend_from_slice(start);
        words.resize(words.len() + RECORD - start.len(), 0);
    };
    (0..count).for_each(|_| record(&[1, 1]));
    record(&[0, count]);
    let first = random.pick(&[routes, routes, routes + 1, 2, 0]);
    record(&[1, 0, 0, 0, first]);
    if count == 2 {
        record(&[1, 1, 0, first, routes - first]);
    }
    (0..routes).for_each(|_| record(&[1, 1]));
    words
}

/// A duration's fact or literal with another unit, or with another range: as much as fits into a smaller unit, or more.
fn durations(sheet: &Sheet, random: &mut Random) -> Sheet {
    let mut sheet = sheet.clone();
    let of_kind = |table: usize, kind: i64| {
        let records = sheet.tables[table].iter().enumerate();
        records.filter(move |(_, record)| record[0] == kind).map(move |(index, _)| (table, index))
    };
    let all: Vec<(usize, usize)> = of_kind(FACTS, 4).chain(of_kind(NODES, 13)).collect();
    if all.is_empty() {
        return rules_broken(&sheet, random);
    }
    let (table, index) = random.pick(&all);
    let words = &mut sheet.tables[table][index];
    let v = edge(random);
    match (table, random.below(3)) {
        (FACTS, 0) => words[5] = random.within(0, 3),
        (FACTS, _) => {
            (words[1], words[2]) = random.pick(&[(v, v), (v.min(0), v.max(0))]);
            (words[3], words[4]) = (0, 0);
        }
        (_, 0) => words[2] = random.within(0, 3),
        _ => words[1] = v,
    }
    sheet
}

/// A list, a quantifier, a length or an element with another fact or of another kind; a quantifier put above or below
/// another; a node that becomes an element, or no longer is one.
fn lists(sheet: &Sheet, random: &mut Random) -> Sheet {
    let mut sheet = sheet.clone();
    let of_kind = |wanted: &[i64]| {
        let nodes = sheet.tables[NODES].iter().enumerate();
        nodes.filter(|(_, node)| wanted.contains(&node[0])).map(|(index, _)| index).collect::<Vec<_>>()
    };
    let lists: Vec<usize> = sheet.lists().collect();
    let (over, leaves, nots) = (of_kind(&[14, 15]), of_kind(&[1, 3, 16, 17]), of_kind(&[11]));
    let some = |from: &[usize], random: &mut Random| (!from.is_empty()).then(|| random.pick(from));
    let Some(list) = some(&lists, random) else { return rules_broken(&sheet, random) };
    let facts = sheet.tables[FACTS].len() as i64;
    match random.below(8) {
        // A quantifier over another list, or over a fact that is none.
        0 => {
            if let Some(node) = some(&over, random) {
                let any = random.within(-1, facts);
                sheet.tables[NODES][node][1] = random.pick(&[list as i64, any]);
            }
        }
        1 => {
            if let Some(node) = some(&over, random) {
                sheet.tables[NODES][node][0] = random.within(13, 16);
            }
        }
        // A quantifier in the place of a not: above another, or in a body.
        2 | 3 => {
            if let Some(node) = some(&nots, random) {
                let body = sheet.tables[NODES][node][1];
                sheet.tables[NODES][node] = [random.pick(&[14, 15]), list as i64, body, 0, 0, 0, 0, 0];
            }
        }
        // A leaf becomes another: in a body or not, of this list's type or not.
        4 | 5 => {
            if let Some(node) = some(&leaves, random) {
                sheet.tables[NODES][node] = [random.pick(&[3, 16, 17, 17, 17]), list as i64, 0, 0, 0, 0, 0, 0];
            }
        }
        // A fact that becomes a list of its type, or of another, and a list that becomes a fact.
        6 => {
            let fact = random.below(facts as usize);
            let [kind, .., element, _] = sheet.tables[FACTS][fact];
            let words = &mut sheet.tables[FACTS][fact];
            (words[3], words[4]) = (0, 0);
            match kind {
                LIST => (words[0], words[6], words[7]) = (element, 0, 0),
                _ => (words[0], words[6], words[7]) = (LIST, kind, random.within(0, 5)),
            }
        }
        _ => {
            let words = &mut sheet.tables[FACTS][list];
            match random.below(5) {
                0 => words[3 + random.below(2)] = 1,
                1 => words[6] = random.within(-1, 6),
                2 => words[7] = random.pick(&[-1, 0, 1, 99, 100, 101, 127, 128]),
                3 => words[5] = random.pick(&[-1, 0, 1, 2, 127, 128]),
                _ => words[2] += random.pick(&[-1, 1]),
            }
        }
    }
    sheet
}

/// One rule of 01 or 02 broken, or nearly, in a record that is otherwise good.
fn rules_broken(sheet: &Sheet, random: &mut Random) -> Sheet {
    let mut sheet = sheet.clone();
    let kind = random.pick(&[FACTS, NODES, NODES, NODES, RULES, OPERATIONS, EFFECTS, EFFECTS, STEPS, ROUTES]);
    let count = sheet.tables[kind].len();
    if count == 0 {
        return sheet;
    }
    let index = random.below(count);
    let facts = sheet.tables[FACTS].len() as i64;
    let nodes = sheet.tables[NODES].len().max(1) as i64;
    let rules = sheet.tables[RULES].len().max(1) as i64;
    let steps = sheet.tables[STEPS].len().max(1) as i64;
    let entity = sheet.tables[EFFECTS].first().map_or(0, |effect| effect[0]);
    let before = sheet.tables[kind][index.saturating_sub(1)];
    let words = &mut sheet.tables[kind][index];
    match kind {
        FACTS => match random.below(3) {
            0 => words[0] = random.within(0, 6),
            1 => words[5] = random.pick(&[-1, 0, 1, 2, 3, 4, 127, 128]),
            _ => {
                (words[1], words[2]) = (random.pick(&[0, -M, -M - 1, 1]), random.pick(&[0, M, M + 1, -1]));
                (words[3], words[4]) = (0, 0);
            }
        },
        NODES => match (words[0], random.below(4)) {
            (_, 0) => words[0] = random.within(0, 18),
            (8, _) => words[1] = random.within(0, rules - 1),
            (7, 1) => words[1] = random.within(0, 5),
            (7, 2) => words[2] = random.within(0, index as i64),
            (7, _) => words[3] = random.within(0, index as i64),
            (0 | 6, 1) => words[2 - (words[0] == 0) as usize] += random.pick(&[-1, 1]),
            (2, 1) => words[1] = random.pick(&[0, 255, 256, -1]),
            (2, 2) => words[2] = random.pick(&[0, 127, 128, -1]),
            (12, 1) => words[2] = random.pick(&[0, 127, 128, -1]),
            (13, 1) => words[2] = random.within(-1, 4),
            (13, 2) => words[1] = edge(random),
            (14 | 15, 1) => words[2] = random.within(0, index as i64),
            (14..=17, 2) => words[1] = random.within(-1, facts),
            (0..=3 | 12..=17, _) => words[1] = hostile(random, words[1]),
            (_, 1) => words[2] = words[1],
            _ => words[1 + random.below(2)] = random.within(0, index as i64),
        },
        RULES => match random.below(3) {
            0 => words[0] += random.pick(&[-1, 1]),
            1 => words[0] = before[0],
            _ => words[1] = random.within(0, nodes - 1),
        },
        OPERATIONS => match random.below(3) {
            0 => words[4] += random.pick(&[-1, 1]),
            1 => words[1] = random.within(0, nodes - 1),
            _ => words[0] = hostile(random, words[0]),
        },
        EFFECTS => match random.below(5) {
            0 => words[3] += random.pick(&[-1, 1]),
            1 => *words = before,
            2 => words[1] = before[1],
            3 => words[0] = entity,
            _ => words[2] = random.within(0, 16),
        },
        STEPS => match random.below(4) {
            0 => words[0] ^= 1,
            1 => words[1] = random.within(0, nodes - 1),
            2 => words[2] = random.within(0, 24),
            _ => words[4] += random.pick(&[-1, 1]),
        },
        _ => match random.below(3) {
            0 => words[0] ^= 1,
            1 => words[1] = random.within(0, steps),
            _ => words[1] += random.pick(&[-1, 1]),
        },
    }
    sheet
}

/// A text with bytes changed, put in, left out, or its end cut.
pub fn text(text: &mut Vec<u8>, random: &mut Random) {
    for _ in 0..1 + random.below(2) {
        let place = random.below(text.len() + 1);
        let byte = random.pick(b"\t\t\n\n0019-+ \r\x00\x0b\xffax,./:");
        let inside = place < text.len();
        match random.below(9) {
            0 | 1 if inside => text[place] = byte,
            2 => text.insert(place, byte),
            3 if inside => drop(text.remove(place)),
            4 => text.truncate(place),
            5 => {
                // Digits: past M, past 2 to the 32 and to the 64, and without end.
                let digits: &[u8] = random.pick(&[
                    b"0000000001" as &[u8],
                    b"1000000000",
                    b"1000000001",
                    b"4294967296",
                    b"9223372036854775808",
                    b"18446744073709551616",
                    b"18446744073709551617",
                    b"340282366920938463463374607431768211456",
                ]);
                text.splice(place..place, digits.iter().copied());
            }
            6 if inside => text[place] = random.word() as u8,
            7 => {
                let times = random.pick(&[20, 40, 300]);
                text.splice(place..place, std::iter::repeat_n(random.pick(b"09\t\n-"), times));
            }
            _ if text.len() > 1 && place + 1 < text.len() => text.swap(place, place + 1),
            _ => text.push(byte),
        }
    }
}

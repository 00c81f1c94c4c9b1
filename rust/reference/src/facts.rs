//! Facts: a given value in range is taken, else the default; a list is taken where it is given.

use crate::check::{Sheet, LIST};
use crate::tables::below;
use crate::Refused;

/// Facts as they are lent.
#[derive(Clone, Copy)]
pub struct Lent<'v, 'l> {
    pub values: &'v [i64],
    pub given: &'v [i64],
    /// For each list fact as many slots as its largest length, in the order of the facts.
    pub lists: &'l [i64],
    /// The length of each list, in the order of the facts.
    pub lengths: &'l [i64],
}

/// Facts as they are taken.
pub struct Taken<'l> {
    /// The value of each fact; that of a list is the word that was lent. Entries past the facts are 0.
    pub values: [i64; 128],
    /// The elements of each fact that is a list. Without entries where no fact is one.
    pub elements: Vec<&'l [i64]>,
}

/// Refusal 4 unless the four slices are as long as the sheet's facts and lists want it.
pub fn judge_lengths(sheet: &Sheet, lent: Lent) -> Result<(), Refused> {
    let facts = sheet.facts.len();
    let (mut lists, mut slots) = (0, 0);
    for [kind, .., largest] in sheet.facts {
        if *kind == LIST {
            lists += 1;
            slots += *largest as usize;
        }
    }
    let found = [lent.values.len(), lent.given.len(), lent.lists.len(), lent.lengths.len()];
    if found == [facts, facts, slots, lists] {
        Ok(())
    } else {
        Err(Refused::plain(4))
    }
}

/// Takes the facts. The first faulty fact decides between 6 and 7.
pub fn take<'l>(sheet: &Sheet, lent: Lent<'_, 'l>) -> Result<Taken<'l>, Refused> {
    let mut taken = Taken { values: [0; 128], elements: vec![] };
    let (mut slots, mut lengths) = (lent.lists, lent.lengths);
    for (fact, record) in sheet.facts.iter().enumerate() {
        let [kind, min, max, has_default, default, _, _, largest] = *record;
        let (value, given) = (lent.values[fact], lent.given[fact]);
        if kind == LIST {
            let (own, after) = slots.split_at(largest as usize);
            let length = lengths[0];
            (slots, lengths) = (after, &lengths[1..]);
            let elements = match given {
                1 => below(length, own.len() + 1).map(|length| &own[..length]),
                0 => return Err(Refused::at(7, fact)),
                _ => None,
            };
            let in_range = |elements: &&[i64]| elements.iter().all(|element| (min..=max).contains(element));
            let elements = elements.filter(in_range).ok_or(Refused::at(6, fact))?;
            taken.elements.resize(sheet.facts.len(), &[]);
            taken.elements[fact] = elements;
            taken.values[fact] = value;
        } else {
            taken.values[fact] = match given {
                1 if (min..=max).contains(&value) => value,
                0 if has_default == 1 => default,
                0 => return Err(Refused::at(7, fact)),
                _ => return Err(Refused::at(6, fact)),
            };
        }
    }
    Ok(taken)
}

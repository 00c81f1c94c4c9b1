//! Predicate trees: their values over facts and verdicts, and their sizes.

use crate::check::Sheet;
use crate::facts::Taken;

/// The facts taken, and the verdicts worked out from them.
pub struct World<'a> {
    sheet: &'a Sheet<'a>,
    facts: &'a Taken<'a>,
    pub verdicts: [i64; 128],
}

impl<'a> World<'a> {
    /// Works out the verdicts rule by rule. A rule cites only rules before it.
    pub fn new(sheet: &'a Sheet<'a>, facts: &'a Taken<'a>) -> Self {
        let mut world = World { sheet, facts, verdicts: [0; 128] };
        for (rule, record) in sheet.rules.iter().enumerate() {
            world.verdicts[rule] = world.holds(record[1] as usize) as i64;
        }
        world
    }

    /// Is this Bool node, the root of a tree, true?
    pub fn holds(&self, node: usize) -> bool {
        // No element is cited outside of a quantifier.
        self.value(node as i64, 0) == 1
    }

    /// The value of a node, for this element of the list that the quantifier around it is over.
    fn value(&self, node: i64, element: i64) -> i64 {
        let [kind, a, b, c, ..] = self.sheet.nodes[node as usize];
        let elements = |fact: i64| self.facts.elements[fact as usize].iter();
        match kind {
            0..=2 | 12 | 13 => a,
            3 => self.facts.values[a as usize],
            4 => {
                let (x, y) = self.two(a, b, element);
                x + y
            }
            5 => {
                let (x, y) = self.two(a, b, element);
                x - y
            }
            6 => self.value(a, element) * b,
            7 => {
                let (x, y) = self.two(b, c, element);
                compare(a, x, y) as i64
            }
            8 => self.verdicts[a as usize],
            9 => (self.value(a, element) == 1 && self.value(b, element) == 1) as i64,
            10 => (self.value(a, element) == 1 || self.value(b, element) == 1) as i64,
            14 => elements(a).all(|&element| self.value(b, element) == 1) as i64,
            15 => elements(a).any(|&element| self.value(b, element) == 1) as i64,
            16 => elements(a).len() as i64,
            17 => element,
            _ => 1 - self.value(a, element),
        }
    }

    /// The values of two nodes, two durations in the smaller of their units.
    fn two(&self, a: i64, b: i64, element: i64) -> (i64, i64) {
        let (x, y) = self.sheet.factors(a as usize, b as usize);
        (self.value(a, element) * x, self.value(b, element) * y)
    }
}

fn compare(operator: i64, x: i64, y: i64) -> bool {
    match operator {
        0 => x == y,
        1 => x != y,
        2 => x < y,
        3 => x <= y,
        4 => x > y,
        _ => x >= y,
    }
}

/// The number of nodes in the tree under a node, itself counted.
pub fn size(sheet: &Sheet, node: usize) -> usize {
    let [kind, a, b, c, ..] = sheet.nodes[node];
    let under = |child: i64| size(sheet, child as usize);
    1 + match kind {
        4 | 5 | 9 | 10 => under(a) + under(b),
        6 | 11 => under(a),
        7 => under(b) + under(c),
        14 | 15 => under(b),
        _ => 0,
    }
}

//! Libraries that refuse places wrongly on purpose, and whether the list is enough to tell each of them from the right
//! one: the run's cases are asked in slips.rs, the list's lines here.

use crate::classes::LINES;
use crate::list::entry;
use crate::places::{pattern, table, Line};

/// A library that is wrong in one entry: in what order it tests the numbers, and what it answers where a number is the
/// first that is not below the order.
pub struct Wrong {
    pub name: &'static str,
    pub entry: &'static str,
    pub tests: &'static [(usize, u64)],
}

/// A wrong library.
const fn wrong(name: &'static str, entry: &'static str, tests: &'static [(usize, u64)]) -> Wrong {
    Wrong { name, entry, tests }
}

/// Every wrong library.
pub const WRONG: [Wrong; 22] = [
    wrong("row: 11 for a row", "row", &[(0, 11)]),
    wrong("row: the second named", "row", &[(0, 268)]),
    wrong("truncate_n: 11 for a row", "truncate_n", &[(0, 11)]),
    wrong("truncate_n: the second named", "truncate_n", &[(0, 268)]),
    wrong("cofactor: row tested before column", "cofactor", &[(1, 12), (0, 11)]),
    wrong("cofactor: 11 for a row", "cofactor", &[(0, 11), (1, 11)]),
    wrong("cofactor: the row as a second place", "cofactor", &[(0, 11), (1, 268)]),
    wrong("swap_rows: 11 for a row", "swap_rows", &[(0, 11), (1, 267)]),
    wrong("swap_rows: the second tested first", "swap_rows", &[(1, 268), (0, 12)]),
    wrong("swap_rows: the second named as first", "swap_rows", &[(0, 12), (1, 12)]),
    wrong("swap_rows: the first named as second", "swap_rows", &[(0, 268), (1, 268)]),
    wrong("swap_columns: 12 for a column", "swap_columns", &[(0, 12), (1, 268)]),
    wrong("swap_columns: the second tested first", "swap_columns", &[(1, 267), (0, 11)]),
    wrong("swap_columns: the second named as first", "swap_columns", &[(0, 11), (1, 11)]),
    wrong("swap_columns: the first named as second", "swap_columns", &[(0, 267), (1, 267)]),
    wrong("swap_elements: 11 for a row", "swap_elements", &[(0, 11), (1, 11), (2, 267), (3, 267)]),
    wrong("swap_elements: the second tested first", "swap_elements", &[(2, 267), (3, 268), (0, 11), (1, 12)]),
    wrong("swap_elements: the second named as first", "swap_elements", &[(0, 11), (1, 12), (2, 11), (3, 12)]),
    wrong("swap_elements: the first named as second", "swap_elements", &[(0, 267), (1, 268), (2, 267), (3, 268)]),
    wrong("swap_elements: row before its column", "swap_elements", &[(1, 12), (0, 11), (3, 268), (2, 267)]),
    wrong("swap_elements: rows before columns", "swap_elements", &[(1, 12), (3, 268), (0, 11), (2, 267)]),
    wrong("swap_elements: columns before rows", "swap_elements", &[(0, 11), (2, 267), (1, 12), (3, 268)]),
];

impl Wrong {
    /// Its refusal of these numbers.
    pub fn refusal(&self, order: usize, places: &[usize]) -> Option<u64> {
        self.tests.iter().find(|(place, _)| places[*place] >= order).map(|(_, answer)| *answer)
    }

    /// How many of these lines state another refusal.
    fn seen(&self, asked: &[Asked], order: usize) -> usize {
        let lines = asked.iter().filter(|line| line.of(self.entry, order));
        lines.filter(|line| self.refusal(order, &line.places).is_some_and(|number| number != line.number)).count()
    }
}

/// A line of the list: the entry, the order, the places, and the number of the refusal, or 0.
struct Asked<'a> {
    entry: &'a str,
    order: usize,
    places: Vec<usize>,
    number: u64,
}

impl Asked<'_> {
    /// A line from its text; nothing where the table of places has no such entry, as for a comment.
    fn read(text: &str) -> Option<Asked<'_>> {
        let (read, number) = match text.split_once(" ! @") {
            Some((read, number)) => (read, u64::from_str_radix(number, 16).ok()?),
            None => (text.split_once(" = ")?.0, 0),
        };
        let words: Vec<&str> = read.split(' ').collect();
        let entry = entry(words[0]);
        table().iter().find(|line| line.entry == entry)?;
        let place = |word: &&str| usize::from_str_radix(word.strip_prefix('@')?, 16).ok();
        Some(Asked { entry, order: words[1].parse().ok()?, places: words.iter().filter_map(place).collect(), number })
    }

    /// Whether this is a line of an entry at an order.
    fn of(&self, entry: &str, order: usize) -> bool {
        self.entry == entry && self.order == order
    }
}

/// The orders that the list asks an entry at: a vector loses an element at length 4 alone.
fn orders(entry: &str) -> &'static [usize] {
    match entry {
        "truncate_n" => &[4],
        _ => &[2, 3, 4],
    }
}

/// Stops unless the list meets every line of the table, five times or more at each order, and has a line at each order
/// that tells every wrong library from the right one.
pub fn hold(list: &str) {
    let asked: Vec<Asked> = list.lines().filter_map(Asked::read).collect();
    for Line { entry, numbers, .. } in table() {
        for order in orders(entry) {
            let lines = asked.iter().filter(|line| line.of(entry, *order) && pattern(*order, &line.places) == *numbers);
            assert!(lines.count() >= LINES, "too few lines of {entry} {numbers} at order {order}");
        }
    }
    for wrong in &WRONG {
        for order in orders(wrong.entry) {
            assert!(wrong.seen(&asked, *order) > 0, "no line of order {order} sees: {}", wrong.name);
        }
    }
}

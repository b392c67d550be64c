//! The table of expected outcomes, include/test/places.txt: what is answered to an entry that names places, by which of
//! its numbers are below the order. It is read here and not worked out. And numbers that are not below the order.

use std::sync::LazyLock;

/// The table's text.
const TEXT: &str = include_str!("../../include/test/places.txt");

/// The table, read once.
static TABLE: LazyLock<Vec<Line>> =
    LazyLock::new(|| TEXT.lines().filter(|text| !text.starts_with('#')).map(Line::read).collect());

/// A line of the table.
pub struct Line {
    pub entry: &'static str,
    /// Its numbers: b for one that is below the order, n for one that is not.
    pub numbers: &'static str,
    /// 0: done.
    pub answer: u64,
}

impl Line {
    /// A line from its text.
    fn read(text: &'static str) -> Line {
        let words: Vec<&str> = text.split(' ').collect();
        if let [entry, numbers, answer] = words[..] {
            if let Ok(answer) = answer.parse() {
                return Line { entry, numbers, answer };
            }
        }
        panic!("places.txt: '{text}' is not an entry, its numbers and an answer")
    }
}

/// The lines of the table.
pub fn table() -> &'static [Line] {
    &TABLE
}

/// Numbers as the table writes them.
pub fn pattern(order: usize, places: &[usize]) -> String {
    places.iter().map(|place| if *place < order { 'b' } else { 'n' }).collect()
}

/// The table's refusal of an entry with these numbers, at an order or a length; nothing where it says that it is done.
pub fn refusal(name: &str, order: usize, places: &[usize]) -> Option<u64> {
    let entry = name.strip_suffix("_mut").unwrap_or(name);
    let numbers = pattern(order, places);
    let mut lines = TABLE.iter().filter(|line| line.entry == entry).peekable();
    assert!(lines.peek().is_some(), "places.txt has no entry '{entry}'");
    match lines.find(|line| line.numbers == numbers) {
        Some(line) => Some(line.answer).filter(|answer| *answer != 0),
        None => panic!("places.txt has no line '{entry} {numbers}'"),
    }
}

/// Numbers that are not below the order: at the edge, beside it, and far away.
pub fn outside(order: usize) -> [usize; 6] {
    [order, order + 1, 5, 1 << 32, 1 << 63, usize::MAX]
}

/// As many numbers, two or more of them not below the order: every choice of these, six times with numbers in turn.
pub fn several_outside(order: usize, count: usize) -> Vec<Vec<usize>> {
    let these = outside(order);
    let number = |chosen: usize, turn: usize, place: usize| {
        if chosen >> place & 1 == 1 {
            these[(turn + place) % these.len()]
        } else {
            (turn + place) % order
        }
    };
    let mut several = Vec::new();
    for chosen in (0..1usize << count).filter(|chosen| chosen.count_ones() > 1) {
        for turn in 0..these.len() {
            several.push((0..count).map(|place| number(chosen, turn, place)).collect());
        }
    }
    several
}

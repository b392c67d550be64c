//! What is answered to numbers that are and that are not below the order: every line of include/test/places.txt, over
//! slices, in place, and by the matrices' own methods.

use migthumo::{ffi, Matrix2, Matrix3, Matrix4, Place, Refusal};
use std::collections::HashSet;
use Place::{First, Second};
use Refusal::{Column, Row};

/// The expected outcomes, written out.
const TABLE: &str = include_str!("../../../include/test/places.txt");

/// An answer of the table, its refusal, and what that says: its number, its place and its words.
const SAYS: [(u32, Refusal, u32, Place, &str); 4] = [
    (11, Column(First), 11, First, "refusal 11: the first column number is not below the order"),
    (12, Row(First), 12, First, "refusal 12: the first row number is not below the order"),
    (267, Column(Second), 11, Second, "refusal 11: the second column number is not below the order"),
    (268, Row(Second), 12, Second, "refusal 12: the second row number is not below the order"),
];

/// An entry of the table that the library exports.
#[derive(Clone, Copy, Debug, PartialEq)]
enum Entry {
    Row,
    SwapRows,
    SwapColumns,
    SwapElements,
}

/// A line of the table: the entry, which of its numbers are below the order, and the answer.
struct Line {
    entry: Entry,
    below: Vec<bool>,
    answer: u32,
}

/// The line that is written so; none for a comment, and for an entry that is not exported.
fn line(text: &str) -> Option<Line> {
    if text.starts_with('#') {
        return None;
    }
    let words: Vec<&str> = text.split(' ').collect();
    let [entry, pattern, answer] = words[..] else { panic!("'{text}' is no line") };
    let entry = match entry {
        "row" => Entry::Row,
        "swap_rows" => Entry::SwapRows,
        "swap_columns" => Entry::SwapColumns,
        "swap_elements" => Entry::SwapElements,
        "truncate_n" | "cofactor" => return None,
        _ => panic!("'{text}' names no entry that is known"),
    };
    let below = pattern.chars().map(|letter| match letter {
        'b' => true,
        'n' => false,
        _ => panic!("'{text}' has no pattern"),
    });
    Some(Line { entry, below: below.collect(), answer: answer.parse().expect("an answer is a number") })
}

/// The lines of the entries that are exported: of each, every pattern once.
fn lines() -> Vec<Line> {
    let lines: Vec<Line> = TABLE.lines().filter_map(line).collect();
    for (entry, numbers) in [(Entry::Row, 1), (Entry::SwapRows, 2), (Entry::SwapColumns, 2), (Entry::SwapElements, 4)] {
        let patterns: Vec<_> = lines.iter().filter(|line| line.entry == entry).map(|line| &line.below).collect();
        assert!(patterns.iter().all(|pattern| pattern.len() == numbers), "{entry:?} takes {numbers} numbers");
        assert_eq!((patterns.len(), patterns.iter().collect::<HashSet<_>>().len()), (1 << numbers, 1 << numbers));
    }
    lines
}

/// Every choice of numbers that fits a pattern: below the order, each; not below, the order, one more and the largest.
fn choices(below: &[bool], order: usize) -> Vec<Vec<usize>> {
    let mut choices = vec![vec![]];
    for below in below {
        let numbers = if *below { (0..order).collect() } else { vec![order, order + 1, usize::MAX] };
        let and_one_more =
            |chosen: &Vec<usize>| numbers.iter().map(|&number| [&chosen[..], &[number]].concat()).collect();
        choices = choices.iter().flat_map::<Vec<_>, _>(and_one_more).collect();
    }
    choices
}

/// A matrix whose entries all differ: 1, 2, 3 and so on.
fn counted(order: usize) -> Vec<f64> {
    (1..=order * order).map(|number| number as f64).collect()
}

/// What an entry gives of that matrix for numbers below the order, worked out here.
fn given(entry: Entry, at: &[usize], order: usize) -> Vec<f64> {
    let mut m = counted(order);
    match entry {
        Entry::Row => return m.chunks(order).map(|column| column[at[0]]).collect(),
        Entry::SwapRows => m.chunks_mut(order).for_each(|column| column.swap(at[0], at[1])),
        Entry::SwapColumns => (0..order).for_each(|r| m.swap(at[0] * order + r, at[1] * order + r)),
        Entry::SwapElements => m.swap(at[0] * order + at[1], at[2] * order + at[3]),
    }
    m
}

/// The bits of each number.
fn bits(numbers: &[f64]) -> Vec<u64> {
    numbers.iter().map(|number| number.to_bits()).collect()
}

/// Tests a refusal against the answer of the table, with all that it says.
fn assert_says(refusal: Refusal, answer: u32, call: &str) {
    let says = (refusal.answer(), refusal, refusal.number(), refusal.place(), refusal.to_string());
    let want = SAYS.iter().find(|want| want.0 == answer).expect("an answer of the table is known");
    let (answer, want, number, place, words) = *want;
    assert_eq!(says, (answer, want, number, Some(place), words.to_owned()), "{call}");
}

/// Runs lines at one order, with every choice of numbers, and answers how many. `call` answers what came back, and what
/// its output or its matrix holds then; `before` is what that held.
fn run(
    lines: &[Line],
    order: usize,
    before: impl Fn(Entry) -> Vec<f64>,
    call: impl Fn(Entry, &[usize]) -> (Result<(), Refusal>, Vec<f64>),
) -> usize {
    let mut count = 0;
    for Line { entry, below, answer } in lines {
        for at in choices(below, order) {
            let text = format!("{entry:?} {at:?} at order {order}");
            let (outcome, after) = call(*entry, &at);
            if *answer == 0 {
                assert_eq!(outcome, Ok(()), "{text}");
                assert_eq!(bits(&after), bits(&given(*entry, &at, order)), "{text}");
            } else {
                assert_says(outcome.expect_err(&text), *answer, &text);
                assert_eq!(bits(&after), bits(&before(*entry)), "{text}");
            }
        }
        count += 1;
    }
    count
}

#[test]
fn over_slices() {
    for order in 2..=4 {
        let before = |entry| vec![7.5; if entry == Entry::Row { order } else { order * order }];
        let count = run(&lines(), order, before, |entry, at| {
            let (m, mut out) = (counted(order), before(entry));
            let outcome = match (entry, at) {
                (Entry::Row, &[r]) => ffi::row(order, r, &m, &mut out),
                (Entry::SwapRows, &[a, b]) => ffi::swap_rows(order, a, b, &m, &mut out),
                (Entry::SwapColumns, &[a, b]) => ffi::swap_columns(order, a, b, &m, &mut out),
                (Entry::SwapElements, &[ac, ar, bc, br]) => ffi::swap_elements(order, ac, ar, bc, br, &m, &mut out),
                _ => panic!("{entry:?} doesn't take {at:?}"),
            };
            (outcome, out)
        });
        assert_eq!(count, 26);
    }
}

#[test]
fn in_place() {
    // There is no row in place.
    let lines: Vec<Line> = lines().into_iter().filter(|line| line.entry != Entry::Row).collect();
    let before = |_| counted(4);
    let count = run(&lines, 4, before, |entry, at| {
        let mut m = counted(4);
        let lent = <&mut Matrix4>::from(<&mut [f64; 16]>::try_from(&mut m[..]).unwrap());
        let outcome = match (entry, at) {
            (Entry::SwapRows, &[a, b]) => ffi::swap_rows_mut(lent, a, b),
            (Entry::SwapColumns, &[a, b]) => ffi::swap_columns_mut(lent, a, b),
            (Entry::SwapElements, &[ac, ar, bc, br]) => ffi::swap_elements_mut(lent, ac, ar, bc, br),
            _ => panic!("{entry:?} doesn't take {at:?}"),
        };
        (outcome, m)
    });
    assert_eq!(count, 24);
}

/// The methods of one order's matrix. Where a row is refused, it is the matrix that is looked at.
macro_rules! methods {
    ($name:ident, $Matrix:ident, $order:literal) => {
        #[test]
        fn $name() {
            let before = |_| counted($order);
            let count = run(&lines(), $order, before, |entry, at| {
                let (mut m, mut row) = (counted($order), None);
                let matrix = <&mut $Matrix>::from(<&mut [f64; $order * $order]>::try_from(&mut m[..]).unwrap());
                let outcome = match (entry, at) {
                    (Entry::Row, &[r]) => matrix.row(r).map(|given| row = Some(<[f64; $order]>::from(given).to_vec())),
                    (Entry::SwapRows, &[a, b]) => matrix.swap_rows(a, b),
                    (Entry::SwapColumns, &[a, b]) => matrix.swap_columns(a, b),
                    (Entry::SwapElements, &[ac, ar, bc, br]) => matrix.swap_elements((ac, ar), (bc, br)),
                    _ => panic!("{entry:?} doesn't take {at:?}"),
                };
                (outcome, row.unwrap_or(m))
            });
            assert_eq!(count, 26);
        }
    };
}

methods!(methods_of_order_2, Matrix2, 2);
methods!(methods_of_order_3, Matrix3, 3);
methods!(methods_of_order_4, Matrix4, 4);

//! Matrices of whole numbers up to 1024 in magnitude, and the lines of the exact engine: the signed sum, whether it is
//! undoable, and the cofactors, all by the second computation in exact.rs, and cgmath's determinant, held to the sum.

use crate::exact;
use crate::list::{numbers, Answer, List, Word};
use crate::places::{outside, refusal, several_outside};
use crate::random::Random;

/// What a matrix of whole numbers is made of.
#[derive(Clone, Copy)]
pub enum Kind {
    /// From -9 to 9.
    Whole,
    /// From -100 to 100.
    Medium,
    /// From -1024 to 1024.
    Large,
    /// 1024 and -1024, in about half of the matrices with the numbers beside them and a few others.
    Limit,
    /// Zeros, and a few ones.
    Zeros,
    /// One column or one row is a combination of the others.
    Singular,
    /// The signed sum is a power of two or its negative.
    Power,
}

/// Every kind, its word in the list, and how many of its signed sums are asked for at each order.
pub const KINDS: [(Kind, &str, usize); 7] = [
    (Kind::Whole, "whole", 40),
    (Kind::Medium, "medium", 40),
    (Kind::Large, "large", 40),
    (Kind::Limit, "limit", 40),
    (Kind::Zeros, "zeros", 20),
    (Kind::Singular, "singular", 80),
    (Kind::Power, "power", 80),
];

/// How many lines of cgmath's determinant each kind has at each order.
const DETERMINANTS: usize = 6;

/// At least as many cofactors are asked for of each kind at each order, the same number at each place.
const COFACTORS: usize = 16;

/// Numbers on both sides of each edge of refusal 6.
pub const EDGES: [f64; 18] = [
    1024.0,
    -1024.0,
    1025.0,
    -1025.0,
    1023.9999999999999,
    -1023.9999999999999,
    1024.0000000000002,
    -1024.0000000000002,
    0.5,
    -0.0,
    5e-324,
    -5e-324,
    9223372036854775808.0,
    -9223372036854775808.0,
    1e300,
    f64::NAN,
    f64::INFINITY,
    f64::NEG_INFINITY,
];

impl Kind {
    /// The columns of a matrix of this kind.
    fn columns(self, random: &mut Random, order: usize) -> Vec<Vec<i64>> {
        match self {
            Kind::Whole => filled(order, || random.between(-9, 9)),
            Kind::Medium => filled(order, || random.between(-100, 100)),
            Kind::Large => filled(order, || random.between(-1024, 1024)),
            Kind::Limit if random.below(2) == 0 => filled(order, || random.one_of(&[1024, -1024])),
            Kind::Limit => filled(order, || random.one_of(&[1024, -1024, 1024, -1024, 1023, -1023, 512, 1, 0])),
            Kind::Zeros => filled(order, || random.one_of(&[0, 0, 0, 1, -1])),
            Kind::Singular => singular(random, order),
            Kind::Power => power(random, order),
        }
    }

    /// The numbers of a matrix of this kind, column by column; a zero has either sign.
    pub fn draw(self, random: &mut Random, order: usize) -> Vec<f64> {
        let entries = self.columns(random, order).concat();
        assert!(entries.iter().all(|entry| entry.abs() <= 1024));
        entries.into_iter().map(|entry| if entry == 0 { random.one_of(&[0.0, -0.0]) } else { entry as f64 }).collect()
    }
}

/// Columns of numbers drawn one by one.
fn filled(order: usize, mut entry: impl FnMut() -> i64) -> Vec<Vec<i64>> {
    (0..order).map(|_| (0..order).map(|_| entry()).collect()).collect()
}

/// Columns of which one is a combination of the others, or the same of the rows.
fn singular(random: &mut Random, order: usize) -> Vec<Vec<i64>> {
    let most = random.one_of(&[9, 100, 170]);
    let mut columns = filled(order, || random.between(-most, most));
    let chosen = random.below(order as u64) as usize;
    let times: Vec<i64> = (0..order).map(|place| if place == chosen { 0 } else { random.between(-2, 2) }).collect();
    columns[chosen] =
        (0..order).map(|row| (0..order).map(|column| times[column] * columns[column][row]).sum()).collect();
    if random.below(2) == 0 {
        columns = (0..order).map(|row| columns.iter().map(|column| column[row]).collect()).collect();
    }
    columns
}

/// Powers of two down the diagonal, then small multiples of columns added to others and of rows to others as long
/// as no entry passes 1024, then two columns exchanged.
fn power(random: &mut Random, order: usize) -> Vec<Vec<i64>> {
    let highest = random.one_of(&[0, 2, 5, 10]);
    let mut columns = vec![vec![0; order]; order];
    for (place, column) in columns.iter_mut().enumerate() {
        column[place] = random.one_of(&[1, -1]) << random.between(0, highest);
    }
    for _ in 0..3 * order {
        let to = random.below(order as u64) as usize;
        let from = (to + 1 + random.below(order as u64 - 1) as usize) % order;
        let times = random.between(-3, 3);
        let mut added = columns.clone();
        if random.below(2) == 0 {
            for row in 0..order {
                added[to][row] += times * columns[from][row];
            }
        } else {
            for column in &mut added {
                column[to] += times * column[from];
            }
        }
        if added.concat().iter().all(|entry| entry.abs() <= 1024) {
            columns = added;
        }
    }
    let first = random.below(order as u64) as usize;
    columns.swap(0, first);
    columns
}

/// The signed sum, or refusal 6.
pub fn signed_sum(order: usize, x: &[f64]) -> Answer {
    exact::whole(order, x).map_or(Answer::Refused(6), |m| Answer::Number(exact::signed_sum(&m) as i64))
}

/// Whether the signed sum is undoable, as 1 or 0, or refusal 6.
pub fn undoable(order: usize, x: &[f64]) -> Answer {
    exact::whole(order, x).map_or(Answer::Refused(6), |m| Answer::Number(exact::undoable(exact::signed_sum(&m)) as i64))
}

/// The cofactor of a place, the table's refusal of the place, or refusal 6.
fn cofactor(order: usize, x: &[f64], places: &[usize]) -> Answer {
    if let Some(number) = refusal("cofactor", order, places) {
        return Answer::Refused(number);
    }
    exact::whole(order, x)
        .map_or(Answer::Refused(6), |m| Answer::Number(exact::cofactor(&m, places[0], places[1]) as i64))
}

/// The lines of one order. `determinant` is cgmath's.
pub fn order(list: &mut List, order: usize, determinant: impl Fn(&[f64]) -> f64) {
    sums(list, order, &determinant);
    undoables(list, order);
    cofactors(list, order);
}

/// Signed sums of every kind, at least 300, and of every edge at every place; a few determinants of every kind.
/// Where a number is answered, the determinant has to be the same number.
fn sums(list: &mut List, order: usize, determinant: &impl Fn(&[f64]) -> f64) {
    for (kind, name, count) in KINDS {
        for number in 0..count {
            let x = kind.draw(&mut list.random, order);
            let answer = signed_sum(order, &x);
            assert!(matches!(answer, Answer::Number(sum) if sum as f64 == determinant(&x)), "{name} of order {order}");
            list.line("signed_sum", order, &format!("{name}*"), &numbers(&x), &answer);
            if number < DETERMINANTS {
                list.line("determinant", order, name, &numbers(&x), &Answer::Given(vec![determinant(&x)]));
            }
        }
    }
    for place in 0..order * order {
        for edge in EDGES {
            let x = with_edge(&mut list.random, order, place, edge);
            list.line("signed_sum", order, "edge*", &numbers(&x), &signed_sum(order, &x));
        }
    }
}

/// Whether sums of every kind are undoable, and of every edge and every place.
fn undoables(list: &mut List, order: usize) {
    for (kind, name, count) in KINDS {
        for _ in 0..count / 2 {
            let x = kind.draw(&mut list.random, order);
            list.line("undoable", order, &format!("{name}*"), &numbers(&x), &undoable(order, &x));
        }
    }
    for (number, edge) in EDGES.into_iter().enumerate() {
        let x = with_edge(&mut list.random, order, number % (order * order), edge);
        list.line("undoable", order, "edge*", &numbers(&x), &undoable(order, &x));
    }
}

/// Cofactors of every kind at every place, of every edge and every place, and of places that are not below the order,
/// also where an entry is refused.
fn cofactors(list: &mut List, order: usize) {
    let squared = order * order;
    for (kind, name, _) in KINDS {
        for number in 0..COFACTORS.div_ceil(squared) * squared {
            let x = kind.draw(&mut list.random, order);
            cofactor_line(list, order, &format!("{name}*"), &x, &[number / order % order, number % order]);
        }
    }
    for (number, edge) in EDGES.into_iter().enumerate() {
        let x = with_edge(&mut list.random, order, number % squared, edge);
        let places = [list.random.below(order as u64) as usize, list.random.below(order as u64) as usize];
        cofactor_line(list, order, "edge*", &x, &places);
    }
    for outside in outside(order) {
        for places in [[outside, 0], [order - 1, outside], [outside, outside]] {
            cofactors_outside(list, order, &places);
        }
    }
    list.added(|list| {
        for places in several_outside(order, 2) {
            cofactors_outside(list, order, &places);
        }
    });
}

/// Lines of a cofactor with places that are not below the order: of whole numbers, and where an entry is refused too.
fn cofactors_outside(list: &mut List, order: usize, places: &[usize]) {
    let x = Kind::Whole.draw(&mut list.random, order);
    cofactor_line(list, order, "outside*", &x, places);
    let x = with_edge(&mut list.random, order, 0, 0.5);
    cofactor_line(list, order, "outside*", &x, places);
}

/// A line of a cofactor.
fn cofactor_line(list: &mut List, order: usize, class: &str, x: &[f64], places: &[usize]) {
    let mut words = numbers(x);
    words.extend(places.iter().map(|place| Word::Place(*place)));
    list.line("cofactor", order, class, &words, &cofactor(order, x, places));
}

/// Whole numbers from -9 to 9, and this one at a place.
pub fn with_edge(random: &mut Random, order: usize, place: usize, edge: f64) -> Vec<f64> {
    let mut x = Kind::Whole.draw(random, order);
    x[place] = edge;
    x
}

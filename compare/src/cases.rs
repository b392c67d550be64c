//! The cases of the differential run: the classes of input in turn, so that each has the same share of every row.

use crate::bulk::COUNTS;
use crate::classes::{matrix, Class, Shape, CLASSES};
use crate::random::Random;
use crate::whole::{with_edge, EDGES, KINDS};

/// What both sides are asked about.
pub struct Case {
    pub class: &'static str,
    pub numbers: Vec<f64>,
    pub places: Vec<usize>,
}

/// How many of the shares of an exact row are edges of refusal 6.
const EDGE_SHARES: usize = 3;

/// One round of places in as many has one that is not below the order.
const OUTSIDE_ROUNDS: usize = 4;

/// The class whose turn it is among those that apply, and how often all of them had theirs.
fn turn(number: usize, shape: Shape) -> (Class, usize) {
    let left = CLASSES.iter().filter(|class| class.applies(shape)).count();
    let class = CLASSES.into_iter().filter(|class| class.applies(shape)).nth(number % left);
    (class.expect("a class"), number / left)
}

/// Numbers of the class whose turn it is.
pub fn numbers(random: &mut Random, number: usize, order: usize, shape: Shape) -> Case {
    let (class, _) = turn(number, shape);
    Case { class: class.name(), numbers: class.draw(random, order, shape), places: Vec::new() }
}

/// A matrix of the class whose turn it is, and places: in three rounds of four all below the order, in the fourth every
/// choice of those that are not takes its turn.
pub fn places(random: &mut Random, number: usize, order: usize, count: usize) -> Case {
    let (class, round) = turn(number, matrix(0));
    let numbers = class.draw(random, order, matrix(0));
    let mut places: Vec<usize> = (0..count).map(|_| random.below(order as u64) as usize).collect();
    if round % OUTSIDE_ROUNDS < OUTSIDE_ROUNDS - 1 {
        return Case { class: class.name(), numbers, places };
    }
    let (value, chosen) = (outside(random, order), 1 + round / OUTSIDE_ROUNDS % ((1 << count) - 1));
    for (place, kept) in places.iter_mut().enumerate() {
        if chosen >> place & 1 == 1 {
            *kept = if random.below(2) == 0 { value } else { outside(random, order) };
        }
    }
    Case { class: "outside", numbers, places }
}

/// A place that is not below the order: at the edge, beside it, far away, or below it in its lower bits alone.
fn outside(random: &mut Random, order: usize) -> usize {
    let inside = random.below(order as u64) as usize;
    let any = random.bits() as usize;
    let these = [order, order, order + 1, 5, 1 << 8 | inside, 1 << 32 | inside, 1 << 63 | inside, usize::MAX, any];
    random.one_of(&these).max(order)
}

/// A matrix for the exact engine: whole numbers of every kind, the edges of refusal 6, and every class.
pub fn exact(random: &mut Random, number: usize, order: usize) -> Case {
    let shares = KINDS.len() + EDGE_SHARES + CLASSES.len();
    let (share, round) = (number % shares, number / shares);
    let (class, numbers) = if share < KINDS.len() {
        let (kind, name, _) = KINDS[share];
        (name, kind.draw(random, order))
    } else if share < KINDS.len() + EDGE_SHARES {
        let edge = EDGES[(round * EDGE_SHARES + share - KINDS.len()) % EDGES.len()];
        let place = random.below((order * order) as u64) as usize;
        ("edge", with_edge(random, order, place, edge))
    } else {
        let class = CLASSES[share - KINDS.len() - EDGE_SHARES];
        (class.name(), class.draw(random, order, matrix(0)))
    };
    Case { class, numbers, places: Vec::new() }
}

/// A matrix, and 0, 1, 2, 3, 7 or 64 vectors of this length.
pub fn moved(random: &mut Random, number: usize, order: usize, length: usize) -> Case {
    let (_, round) = turn(number, matrix(0));
    numbers(random, number, order, matrix(COUNTS[round % COUNTS.len()] * length))
}

/// A matrix, an input of any length, and the length of an output: every pair of lengths up to two vectors and more.
pub fn lengths(random: &mut Random, number: usize, order: usize, length: usize) -> Case {
    let most = 3 * length;
    let (input, output) = (number % most, number / most % most);
    let case = numbers(random, number / most / most, order, matrix(input));
    Case { places: vec![output], ..case }
}

//! The lines of the bulk moves: vectors and points of each order moved by cgmath one by one, and refused moves.

use crate::classes::{Class, Shape};
use crate::entries::{Entries, Take};
use crate::list::{numbers, Answer, List, Word};
use cgmath::{Matrix2, Matrix3, Matrix4, Vector2, Vector3, Vector4};

/// How many vectors or points a move has.
pub const COUNTS: [usize; 6] = [0, 1, 2, 3, 7, 64];

/// The classes of its numbers.
const CLASSES: [Class; 5] = [Class::Whole, Class::Fraction, Class::Bits, Class::Nan, Class::Infinite];

/// What is handed to a move: the order, and the lengths of the matrix, the input and the output.
#[derive(Clone, Copy)]
struct Handed {
    order: usize,
    matrix: usize,
    input: usize,
    output: usize,
}

/// A bulk move of an order: its name, how much shorter than the order its vectors are, and cgmath's move of one.
struct Bulk<F: Fn(&[f64], &[f64]) -> Vec<f64>> {
    name: &'static str,
    order: usize,
    short: usize,
    one: F,
}

impl<F: Fn(&[f64], &[f64]) -> Vec<f64>> Bulk<F> {
    /// How long a vector or a point is.
    fn length(&self) -> usize {
        self.order - self.short
    }

    /// What fits the order and as many vectors or points.
    fn fitting(&self, count: usize) -> Handed {
        let length = count * self.length();
        Handed { order: self.order, matrix: self.order * self.order, input: length, output: length }
    }

    /// A line: what is handed in front, then the numbers of the matrix and of the input.
    fn line(&self, list: &mut List, class: &str, handed: Handed, x: &[f64], answer: &Answer) {
        let mut words = [handed.order, handed.matrix, handed.input, handed.output].map(Word::Place).to_vec();
        words.extend(numbers(x));
        list.line(self.name, self.order, class, &words, answer);
    }

    /// Lines of every count and class, two of each, and one where there are many.
    fn moved(&self, list: &mut List) {
        for count in COUNTS {
            for class in CLASSES {
                for _ in 0..if count > 7 { 1 } else { 2 } {
                    let handed = self.fitting(count);
                    let shape = Shape { matrices: 1, numbers: handed.input };
                    let x = class.draw(&mut list.random, self.order, shape);
                    let (m, flat) = x.split_at(handed.matrix);
                    let answer = flat.chunks(self.length()).flat_map(|one| (self.one)(m, one)).collect();
                    self.line(list, class.name(), handed, &x, &Answer::Given(answer));
                }
            }
        }
    }

    /// The refusal by document 01, 'The numbers a refusal carries': 5, then 3, then 4.
    fn refusal(&self, handed: Handed) -> Option<u64> {
        let Handed { order, matrix, input, output } = handed;
        if !(2 + self.short..=4).contains(&order) {
            Some(5)
        } else if matrix != order * order || input % (order - self.short) != 0 {
            Some(3)
        } else if output != input {
            Some(4)
        } else {
            None
        }
    }

    /// A line of whole numbers that is refused with this number.
    fn refused(&self, list: &mut List, class: &str, handed: Handed, number: u64) {
        assert!(self.refusal(handed) == Some(number), "{} of order {}, {class}", self.name, self.order);
        let shape = Shape { matrices: 0, numbers: handed.matrix + handed.input };
        let x = Class::Whole.draw(&mut list.random, self.order, shape);
        self.line(list, class, handed, &x, &Answer::Refused(number));
    }

    /// Orders that are not taken, with all that fits them, all that fits this order, and nothing that fits.
    fn orders(&self, list: &mut List) {
        let fits = self.fitting(2);
        for order in (0..2 + self.short).chain([5, 1 << 32, 1 << 63, usize::MAX]) {
            if order <= 5 {
                let length = 2 * order.saturating_sub(self.short);
                self.refused(list, "order*", Handed { order, matrix: order * order, input: length, output: length }, 5);
            }
            self.refused(list, "order*", Handed { order, ..fits }, 5);
            self.refused(list, "order*", Handed { order, matrix: 7, input: 5, output: 6 }, 5);
        }
    }

    /// Wrong lengths, each alone and with a wrong one of a later number.
    fn lengths(&self, list: &mut List) {
        let (square, length) = (self.order * self.order, self.length());
        let fits = self.fitting(2);
        for matrix in [0, 1, 4, 9, 16, square - 1, square + 1, 25].into_iter().filter(|matrix| *matrix != square) {
            self.refused(list, "matrix*", Handed { matrix, ..fits }, 3);
            self.refused(list, "matrix*", Handed { matrix, output: fits.input + 1, ..fits }, 3);
        }
        for input in [1, length + 1, 2 * length + 1, 7 * length - 1, 64 * length - 1] {
            self.refused(list, "input*", Handed { input, output: input, ..fits }, 3);
            self.refused(list, "input*", Handed { input, ..fits }, 3);
        }
        for output in [0, 1, length, 2 * length - 1, 2 * length + 1, 3 * length, 64 * length] {
            self.refused(list, "output*", Handed { output, ..fits }, 4);
        }
        for (count, output) in [(0, 1), (0, length), (1, 0), (64, 64 * length - 1), (64, 64 * length + 1)] {
            self.refused(list, "output*", Handed { output, ..self.fitting(count) }, 4);
        }
    }

    /// Every line of this move.
    fn lines(&self, list: &mut List) {
        self.moved(list);
        self.orders(list);
        self.lengths(list);
    }
}

/// Every bulk line.
pub fn all(list: &mut List) {
    let one = |m: &[f64], v: &[f64]| (Matrix2::take(m) * Vector2::take(v)).entries();
    Bulk { name: "move_vectors", order: 2, short: 0, one }.lines(list);
    let one = |m: &[f64], v: &[f64]| (Matrix3::take(m) * Vector3::take(v)).entries();
    Bulk { name: "move_vectors", order: 3, short: 0, one }.lines(list);
    let one = |m: &[f64], v: &[f64]| (Matrix4::take(m) * Vector4::take(v)).entries();
    Bulk { name: "move_vectors", order: 4, short: 0, one }.lines(list);
    let one = |m: &[f64], p: &[f64]| (Matrix3::take(m) * Vector2::take(p).extend(1.0)).truncate().entries();
    Bulk { name: "move_points", order: 3, short: 1, one }.lines(list);
    let one = |m: &[f64], p: &[f64]| (Matrix4::take(m) * Vector3::take(p).extend(1.0)).truncate().entries();
    Bulk { name: "move_points", order: 4, short: 1, one }.lines(list);
}

//! The exported functions over flat slices with the order as a number, where they refuse an order or a length:
//! refusals 5, 3 and 4 by document 01, 'The numbers a refusal carries', also where a later one would apply, and
//! nothing written.

use crate::cases::Case;
use crate::classes::{numbers, CLASSES};
use crate::differential::{Entry, Run};
use crate::list::Answer;
use crate::random::Random;
use crate::rows::output_of;
use crate::rule::Rule;
use migthumo::{ffi, Refusal};

/// How many scalars are handed over, of which a function takes what it needs.
const SCALARS: usize = 5;

/// How many places are handed over.
const PLACES: usize = 4;

/// How long a function's output is.
#[derive(Clone, Copy)]
enum Output {
    /// One number.
    Number,
    /// As many as the order.
    Vector,
    /// The order squared.
    Matrix,
    /// The larger order squared: an embedding.
    Larger,
    /// As many as the second input, in vectors that are so much shorter than the order: a bulk move.
    Moved(usize),
    /// Four numbers, and no order is taken.
    Plane,
}

/// An exported function: its name, the least order that it takes, how many inputs it has, its output, and the call.
struct Flat(&'static str, usize, usize, Output, Call);

/// The call of a function with what is handed to it.
type Call = fn(&Handed, &mut [f64]) -> Result<(), Refusal>;

/// What is handed to a function besides the output.
struct Handed<'a> {
    order: usize,
    to: usize,
    a: &'a [f64],
    b: &'a [f64],
    scalars: &'a [f64],
    places: &'a [usize],
}

/// The numbers that decide about the refusals.
#[derive(Clone, Copy)]
struct Lengths {
    order: usize,
    to: usize,
    a: usize,
    b: usize,
    output: usize,
}

/// Every function over flat slices.
const FLATS: [Flat; 26] = [
    Flat("move_vectors", 2, 2, Output::Moved(0), |x, out| ffi::move_vectors(x.order, x.a, x.b, out)),
    Flat("move_points", 3, 2, Output::Moved(1), |x, out| ffi::move_points(x.order, x.a, x.b, out)),
    Flat("determinant", 2, 1, Output::Number, |x, out| ffi::determinant(x.order, x.a, out)),
    Flat("invert", 2, 1, Output::Matrix, |x, out| ffi::invert(x.order, x.a, out)),
    Flat("transpose", 2, 1, Output::Matrix, |x, out| ffi::transpose(x.order, x.a, out)),
    Flat("product", 2, 2, Output::Matrix, |x, out| ffi::product(x.order, x.a, x.b, out)),
    Flat("add", 2, 2, Output::Matrix, |x, out| ffi::add(x.order, x.a, x.b, out)),
    Flat("subtract", 2, 2, Output::Matrix, |x, out| ffi::subtract(x.order, x.a, x.b, out)),
    Flat("signed_sum", 2, 1, Output::Number, |x, out| of_other(out, 77, |out| ffi::signed_sum(x.order, x.a, out))),
    Flat("undoable", 2, 1, Output::Number, |x, out| of_other(out, 77, |out| ffi::undoable(x.order, x.a, out))),
    Flat("swap_rows", 2, 1, Output::Matrix, |x, out| ffi::swap_rows(x.order, x.places[0], x.places[1], x.a, out)),
    Flat("swap_columns", 2, 1, Output::Matrix, |x, out| ffi::swap_columns(x.order, x.places[0], x.places[1], x.a, out)),
    Flat("swap_elements", 2, 1, Output::Matrix, |x, out| {
        ffi::swap_elements(x.order, x.places[0], x.places[1], x.places[2], x.places[3], x.a, out)
    }),
    Flat("row", 2, 1, Output::Vector, |x, out| ffi::row(x.order, x.places[0], x.a, out)),
    Flat("diagonal", 2, 1, Output::Vector, |x, out| ffi::diagonal(x.order, x.a, out)),
    Flat("scale", 2, 1, Output::Matrix, |x, out| ffi::scale(x.order, x.scalars[0], x.a, out)),
    Flat("divide", 2, 1, Output::Matrix, |x, out| ffi::divide(x.order, x.scalars[0], x.a, out)),
    Flat("scale_by", 2, 1, Output::Matrix, |x, out| ffi::scale_by(x.order, x.a, x.scalars[0], out)),
    Flat("divide_by", 2, 1, Output::Matrix, |x, out| ffi::divide_by(x.order, x.a, x.scalars[0], out)),
    Flat("negate", 2, 1, Output::Matrix, |x, out| ffi::negate(x.order, x.a, out)),
    Flat("embed", 2, 1, Output::Larger, |x, out| ffi::embed(x.order, x.to, x.a, out)),
    Flat("from_angle", 2, 0, Output::Plane, |x, out| ffi::from_angle(x.scalars[0], x.scalars[1], out)),
    Flat("from_angle_x", 3, 0, Output::Matrix, |x, out| ffi::from_angle_x(x.order, x.scalars[0], x.scalars[1], out)),
    Flat("from_angle_y", 3, 0, Output::Matrix, |x, out| ffi::from_angle_y(x.order, x.scalars[0], x.scalars[1], out)),
    Flat("from_angle_z", 3, 0, Output::Matrix, |x, out| ffi::from_angle_z(x.order, x.scalars[0], x.scalars[1], out)),
    Flat("from_axis_angle", 3, 0, Output::Matrix, |x, out| {
        let [s, c, ax, ay, az] = std::array::from_fn(|number| x.scalars[number]);
        ffi::from_axis_angle(x.order, ax, ay, az, s, c, out)
    }),
];

/// A call whose output is not of floats: where it writes, a zero is written for it.
fn of_other<T: Copy + PartialEq>(
    out: &mut [f64],
    before: T,
    call: impl FnOnce(&mut [T]) -> Result<(), Refusal>,
) -> Result<(), Refusal> {
    let mut other = vec![before; out.len()];
    let answer = call(&mut other);
    for (out, other) in out.iter_mut().zip(other) {
        if other != before {
            *out = 0.0;
        }
    }
    answer
}

impl Flat {
    /// Whether the order is taken.
    fn takes(&self, order: usize, to: usize) -> bool {
        match self.3 {
            Output::Plane => true,
            Output::Larger => matches!((order, to), (2, 3) | (2, 4) | (3, 4)),
            _ => (self.1..=4).contains(&order),
        }
    }

    /// How long the output has to be for an order that is taken.
    fn output(&self, x: Lengths) -> usize {
        match self.3 {
            Output::Number => 1,
            Output::Vector => x.order,
            Output::Matrix => x.order * x.order,
            Output::Larger => x.to * x.to,
            Output::Moved(_) => x.b,
            Output::Plane => 4,
        }
    }

    /// Whether the inputs' lengths fit an order that is taken.
    fn inputs_fit(&self, x: Lengths) -> bool {
        let square = x.order * x.order;
        let second = match self.3 {
            Output::Moved(short) => x.b % (x.order - short) == 0,
            _ => self.2 < 2 || x.b == square,
        };
        (self.2 < 1 || x.a == square) && second
    }

    /// The refusal by document 01, 'The numbers a refusal carries': 5, then 3, then 4.
    fn refusal(&self, x: Lengths) -> Option<u64> {
        if !self.takes(x.order, x.to) {
            Some(5)
        } else if !self.inputs_fit(x) {
            Some(3)
        } else if x.output != self.output(x) {
            Some(4)
        } else {
            None
        }
    }

    /// Lengths of which at least one is refused.
    fn lengths(&self, random: &mut Random) -> Lengths {
        let orders = [0, 1, 2, 2, 3, 3, 4, 4, 5, 6, 1 << 8 | 3, 1 << 32 | 2, 1 << 63 | 4, usize::MAX];
        let order = random.one_of(&orders);
        let fitting = if (2..=4).contains(&order) { order } else { random.one_of(&[2, 3, 4]) };
        let to = random.one_of(&[0, 2, 3, 3, 4, 4, 5, 1 << 32 | 3]);
        let square = fitting * fitting;
        let second = match self.3 {
            Output::Moved(short) => (fitting - short) * random.below(4) as usize,
            _ => square,
        };
        let mut x = Lengths { order, to, a: near(random, square), b: near(random, second), output: 0 };
        let output = self.output(Lengths { order: fitting, to: to.min(5), ..x });
        x.output = near(random, output);
        if self.refusal(x).is_none() {
            x.output += 1;
        }
        x
    }

    /// A case: what is handed over in front of the places, the inputs and the scalars as numbers of a class.
    fn case(&self, random: &mut Random, number: usize) -> Case {
        let x = self.lengths(random);
        let applying = CLASSES.iter().filter(|class| class.applies(numbers(1)));
        let left = applying.clone().count();
        let class = applying.clone().nth(number % left).expect("a class");
        let numbers = class.draw(random, 2, numbers(x.a + x.b + SCALARS));
        let mut places = vec![x.order, x.to, x.a, x.b, x.output];
        places.extend((0..PLACES).map(|_| random.below(6) as usize));
        Case { class: class.name(), numbers, places }
    }

    /// Calls the function.
    fn call(&self, case: &Case) -> Answer {
        let x = lengths_of(case);
        let (a, rest) = case.numbers.split_at(x.a);
        let (b, scalars) = rest.split_at(x.b);
        let handed = Handed { order: x.order, to: x.to, a, b, scalars, places: &case.places[5..] };
        output_of(x.output, |out| (self.4)(&handed, out))
    }

    /// The row of the function.
    fn row(&self, run: &mut Run) {
        run.row(
            Entry { name: self.0, order: 0, rule: Rule::Bits, against: "document 01", intended: false },
            |random, number| self.case(random, number),
            |case| Answer::Refused(self.refusal(lengths_of(case)).expect("a refusal")),
            |case| self.call(case),
        );
    }
}

/// The lengths that a case was made of.
fn lengths_of(case: &Case) -> Lengths {
    let [order, to, a, b, output] = std::array::from_fn(|place| case.places[place]);
    Lengths { order, to, a, b, output }
}

/// This length half of the time, otherwise one beside it or that of another matrix.
fn near(random: &mut Random, length: usize) -> usize {
    let others = [0, 1, 4, 9, 16, length.saturating_sub(1), length + 1, 2 * length];
    if random.below(2) == 0 {
        length
    } else {
        random.one_of(&others)
    }
}

/// A row for each function.
pub fn all(run: &mut Run) {
    for flat in &FLATS {
        flat.row(run);
    }
}

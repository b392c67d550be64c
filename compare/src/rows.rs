//! Rows of each kind, and what a call answers.

use crate::cases::{self, Case};
use crate::classes::{numbers, Shape};
use crate::differential::{Entry, Run};
use crate::entries::Entries;
use crate::list::{given, Answer};
use crate::panics::refusing;
use crate::random::Random;
use crate::rule::Rule;
use cgmath::{Angle, Rad};
use migthumo::Refusal;

/// What stands in an output before a call: a NaN with a payload that no arithmetic gives.
const UNTOUCHED: f64 = f64::from_bits(0x7ff4_dead_beef_0001);

/// A row that is held to cgmath's answers.
pub fn cgmath(name: &'static str, order: usize, rule: Rule) -> Entry {
    Entry { name, order, rule, against: "cgmath", intended: false }
}

/// A refusal as an answer: what the boundary answers for it.
pub fn refused(refusal: Refusal) -> Answer {
    Answer::Refused(u32::from(refusal).into())
}

/// What Migthumo answers: entries or a refusal.
pub fn result(answer: Result<impl Entries, Refusal>) -> Answer {
    answer.map_or_else(refused, given)
}

/// A whole number or a refusal.
pub fn whole_number(answer: Result<impl Into<i64>, Refusal>) -> Answer {
    answer.map_or_else(refused, |number| Answer::Number(number.into()))
}

/// What a change in place leaves, or its refusal; where a refused one has left anything, that is the answer.
pub fn changed<M: Entries + Copy>(m: M, change: impl Fn(&mut M) -> Result<(), Refusal>) -> Answer {
    let mut after = m;
    match change(&mut after) {
        Err(refusal) if Rule::Bits.same(&given(m), &given(after)) => refused(refusal),
        _ => given(after),
    }
}

/// What cgmath's change in place leaves.
pub fn changed_there<M: Entries>(mut m: M, change: impl Fn(&mut M)) -> Answer {
    change(&mut m);
    given(m)
}

impl Run {
    /// A row of arithmetic on numbers of every class.
    pub fn arithmetic(
        &mut self,
        name: &'static str,
        order: usize,
        shape: Shape,
        theirs: impl Fn(&[f64]) -> Answer,
        ours: impl Fn(&[f64]) -> Answer,
    ) {
        self.numbers(cgmath(name, order, Rule::Numbers), shape, theirs, ours);
    }

    /// A row of what only moves numbers.
    pub fn carried(
        &mut self,
        name: &'static str,
        order: usize,
        shape: Shape,
        theirs: impl Fn(&[f64]) -> Answer,
        ours: impl Fn(&[f64]) -> Answer,
    ) {
        self.numbers(cgmath(name, order, Rule::Bits), shape, theirs, ours);
    }

    /// A row of what only moves numbers, where the second computation stands for cgmath.
    pub fn carried_second(
        &mut self,
        name: &'static str,
        order: usize,
        shape: Shape,
        theirs: impl Fn(&[f64]) -> Vec<f64>,
        ours: impl Fn(&[f64]) -> Answer,
    ) {
        let entry = Entry { against: "second", ..cgmath(name, order, Rule::Bits) };
        self.numbers(entry, shape, |x| Answer::Given(theirs(x)), ours);
    }

    /// A row on numbers of every class.
    pub fn numbers(
        &mut self,
        entry: Entry,
        shape: Shape,
        theirs: impl Fn(&[f64]) -> Answer,
        ours: impl Fn(&[f64]) -> Answer,
    ) {
        let draw = |random: &mut Random, number| cases::numbers(random, number, entry.order, shape);
        self.row(entry, draw, |case| theirs(&case.numbers), |case| ours(&case.numbers));
    }

    /// A row on a matrix and places, on both sides of the edge.
    pub fn placed(
        &mut self,
        name: &'static str,
        order: usize,
        count: usize,
        theirs: impl Fn(&[f64], &[usize]) -> Answer,
        ours: impl Fn(&[f64], &[usize]) -> Answer,
    ) {
        self.row(
            cgmath(name, order, Rule::Bits),
            |random, number| cases::places(random, number, order, count),
            |case| refusing(name, order, &case.places, || theirs(&case.numbers, &case.places)),
            |case| ours(&case.numbers, &case.places),
        );
    }

    /// A row of the exact engine, held to the second computation.
    pub fn exact(
        &mut self,
        name: &'static str,
        order: usize,
        theirs: impl Fn(usize, &[f64]) -> Answer,
        ours: impl Fn(&[f64]) -> Answer,
    ) {
        self.row(
            Entry { against: "i128", ..cgmath(name, order, Rule::Numbers) },
            |random, number| cases::exact(random, number, order),
            |case| theirs(order, &case.numbers),
            |case| ours(&case.numbers),
        );
    }

    /// Two rows of a rotation: by an angle held to cgmath, and by any sine and cosine held to the second computation.
    /// The numbers are the angle, or the sine and the cosine, and then the axis.
    pub fn rotation(
        &mut self,
        name: &'static str,
        order: usize,
        axis: usize,
        theirs: impl Fn(&[f64], Rad<f64>) -> Answer,
        second: impl Fn(&[f64], f64, f64) -> Vec<f64>,
        ours: impl Fn(&[f64], f64, f64) -> Answer,
    ) {
        let by_angle = |x: &[f64]| {
            let (s, c) = Rad(x[0]).sin_cos();
            ours(&x[1..], s, c)
        };
        self.arithmetic(name, order, numbers(1 + axis), |x| theirs(&x[1..], Rad(x[0])), by_angle);
        self.numbers(
            Entry { against: "second", ..cgmath(name, order, Rule::Numbers) },
            numbers(2 + axis),
            |x| Answer::Given(second(&x[2..], x[0], x[1])),
            |x| ours(&x[2..], x[0], x[1]),
        );
    }

    /// Two rows of a bulk move: lengths that fit held to cgmath, and any lengths held to the refusals of document 01,
    /// 'The numbers a refusal carries', too.
    pub fn moves(
        &mut self,
        name: &'static str,
        order: usize,
        length: usize,
        one: impl Fn(&[f64], &[f64]) -> Vec<f64>,
        ours: impl Fn(&[f64], &[f64], &mut [f64]) -> Result<(), Refusal>,
    ) {
        let moved = |x: &[f64], output: usize| {
            let (m, flat) = x.split_at(order * order);
            output_of(output, |out| ours(m, flat, out))
        };
        self.row(
            cgmath(name, order, Rule::Numbers),
            |random, number| cases::moved(random, number, order, length),
            |case| Answer::Given(each(order, length, &case.numbers, &one)),
            |case| moved(&case.numbers, case.numbers.len() - order * order),
        );
        self.row(
            Entry { against: "document 01", ..cgmath(name, order, Rule::Numbers) },
            |random, number| cases::lengths(random, number, order, length),
            |case| {
                fitting(order, length, case).unwrap_or_else(|| Answer::Given(each(order, length, &case.numbers, &one)))
            },
            |case| moved(&case.numbers, case.places[0]),
        );
    }
}

/// Every vector of an input moved by cgmath, one by one.
pub fn each(order: usize, length: usize, x: &[f64], one: impl Fn(&[f64], &[f64]) -> Vec<f64>) -> Vec<f64> {
    let (m, flat) = x.split_at(order * order);
    flat.chunks(length).flat_map(|vector| one(m, vector)).collect()
}

/// The refusal of lengths that don't fit, by document 01, 'The numbers a refusal carries'.
pub fn fitting(order: usize, length: usize, case: &Case) -> Option<Answer> {
    let input = case.numbers.len() - order * order;
    if input % length != 0 {
        Some(Answer::Refused(3))
    } else if case.places[0] != input {
        Some(Answer::Refused(4))
    } else {
        None
    }
}

/// What a call leaves in its output, or its refusal; where a refused one has written, that is the answer.
pub fn output_of(output: usize, call: impl FnOnce(&mut [f64]) -> Result<(), Refusal>) -> Answer {
    let mut out = vec![UNTOUCHED; output];
    match call(&mut out) {
        Err(refusal) if out.iter().all(|x| Rule::Bits.same_number(*x, UNTOUCHED)) => refused(refusal),
        _ => Answer::Given(out),
    }
}

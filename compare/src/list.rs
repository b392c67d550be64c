//! The list: its lines, and how they are made class by class.

use crate::classes::{Class, Shape, CLASSES, LINES};
use crate::entries::Entries;
use crate::panics::refusing;
use crate::places::{outside, several_outside};
use crate::random::Random;
use crate::rule::Rule;
use cgmath::{Angle, Rad};
use std::fmt::Write;
use std::mem::swap;

/// A word that an operation reads.
#[derive(Clone, Copy)]
pub enum Word {
    Number(f64),
    Place(usize),
}

/// What an operation answers.
#[derive(Clone)]
pub enum Answer {
    Given(Vec<f64>),
    Number(i64),
    /// What the boundary answers: a refusal's number, and 256 more for a second place.
    Refused(u64),
    /// cgmath gave something where it has to panic. The same as no other answer.
    NoPanic,
}

/// The answer that gives these entries.
pub fn given(answer: impl Entries) -> Answer {
    Answer::Given(answer.entries())
}

/// What `invert` gives: `None` is refusal 2.
pub fn inverse(answer: Option<impl Entries>) -> Answer {
    answer.map_or(Answer::Refused(2), given)
}

/// The list, and where its inputs come from.
#[derive(Default)]
pub struct List {
    pub text: String,
    pub random: Random,
    /// Where the inputs of the added lines come from.
    apart: Random,
}

impl List {
    /// A line that `crates/replay` passes over.
    pub fn comment(&mut self, text: &str) {
        self.text += &format!("# {text}\n");
    }

    /// A line.
    pub fn line(&mut self, name: &str, order: usize, class: &str, words: &[Word], answer: &Answer) {
        self.text += &format!("{name} {order} {class}");
        for word in words {
            self.text.push(' ');
            match word {
                Word::Number(x) => self.text += &pattern(*x),
                Word::Place(place) => write!(self.text, "@{place:x}").unwrap(),
            }
        }
        match answer {
            Answer::Given(entries) => {
                self.text += " =";
                for entry in entries {
                    self.text.push(' ');
                    self.text += &pattern(if entry.is_nan() { f64::from_bits(0x7ff8 << 48) } else { *entry });
                }
            }
            Answer::Number(number) => write!(self.text, " = @{number:x}").unwrap(),
            Answer::Refused(number) => write!(self.text, " ! @{number:x}").unwrap(),
            Answer::NoPanic => panic!("cgmath does not panic: {}", self.text.lines().last().unwrap_or_default()),
        }
        self.text.push('\n');
    }

    /// Lines that were added later: their inputs come from a generator of their own, so that the inputs of the others
    /// stay as they are.
    pub fn added(&mut self, lines: impl FnOnce(&mut List)) {
        swap(&mut self.random, &mut self.apart);
        lines(self);
        swap(&mut self.random, &mut self.apart);
    }

    /// Lines of an operation on numbers, of every class that applies. `mark` goes behind the class.
    fn of_classes(&mut self, name: &str, order: usize, mark: &str, shape: Shape, does: impl Fn(&[f64]) -> Answer) {
        if shape.matrices + shape.numbers == 0 {
            return self.line(name, order, "none", &[], &does(&[]));
        }
        for class in CLASSES.into_iter().filter(|class| class.applies(shape)) {
            for _ in 0..class.lines() {
                let x = class.draw(&mut self.random, order, shape);
                let class = format!("{}{mark}", class.name());
                self.line(name, order, &class, &numbers(&x), &does(&x));
            }
        }
    }

    /// Lines of an operation on numbers.
    pub fn numbers(&mut self, name: &str, order: usize, shape: Shape, does: impl Fn(&[f64]) -> Answer) {
        self.of_classes(name, order, "", shape, does);
    }

    /// Lines of an operation on numbers whose answers are a second computation's.
    pub fn second(&mut self, name: &str, order: usize, count: usize, does: impl Fn(&[f64]) -> Vec<f64>) {
        let shape = Shape { matrices: 0, numbers: count };
        self.of_classes(name, order, "*", shape, |x| Answer::Given(does(x)));
    }

    /// Lines of an operation on numbers and places: every class with places below the order, every place
    /// below the order, and places that are not, in every choice of these.
    pub fn places(
        &mut self,
        name: &str,
        order: usize,
        shape: Shape,
        count: usize,
        does: impl Fn(&[f64], &[usize]) -> Answer,
    ) {
        let line = |list: &mut List, class: Class, word: &str, places: &[usize]| {
            let x = class.draw(&mut list.random, order, shape);
            let mut words = numbers(&x);
            words.extend(places.iter().map(|place| Word::Place(*place)));
            let answer = refusing(entry(name), order, places, || does(&x, places));
            list.line(name, order, word, &words, &answer);
        };
        for class in CLASSES.into_iter().filter(|class| class.applies(shape)) {
            for _ in 0..class.lines() {
                let places: Vec<usize> = (0..count).map(|_| self.random.below(order as u64) as usize).collect();
                line(self, class, class.name(), &places);
            }
        }
        for number in 0..order.pow(count as u32).max(LINES) {
            let places: Vec<usize> = (0..count).map(|place| number / order.pow(place as u32) % order).collect();
            line(self, Class::Whole, "below", &places);
        }
        for outside in outside(order) {
            for place in 0..count {
                let mut places = vec![place % order; count];
                places[place] = outside;
                line(self, Class::Whole, "outside", &places);
            }
            line(self, Class::Whole, "outside", &vec![outside; count]);
        }
        self.added(|list| {
            for places in several_outside(order, count) {
                line(list, Class::Whole, "outside", &places);
            }
        });
    }

    /// Lines of a rotation: by the angle from cgmath, with the sine and the cosine of the angle as the words,
    /// and with any two numbers in their place from the second computation. The two must agree on an angle.
    pub fn rotation(
        &mut self,
        name: &str,
        order: usize,
        axis: usize,
        does: impl Fn(&[f64], Rad<f64>) -> Answer,
        second: impl Fn(&[f64], f64, f64) -> Vec<f64>,
    ) {
        let line = |list: &mut List, class: &str, axis: &[f64], theta: f64| {
            let (s, c) = Rad(theta).sin_cos();
            let answer = does(axis, Rad(theta));
            assert!(Rule::Numbers.same(&answer, &Answer::Given(second(axis, s, c))), "{name} of order {order}");
            list.line(name, order, class, &numbers(&[&[s, c], axis].concat()), &answer);
        };
        let shape = Shape { matrices: 0, numbers: axis };
        for theta in [0.0, -0.0, 1.0, -2.5, 1e-310, 1e22, f64::MAX, f64::INFINITY, f64::NAN] {
            let axis = Class::Whole.draw(&mut self.random, order, shape);
            line(self, "angle", &axis, theta);
        }
        if axis > 0 {
            for class in CLASSES.into_iter().filter(|class| class.applies(shape)) {
                for _ in 0..class.lines() {
                    let axis = class.draw(&mut self.random, order, shape);
                    let theta = Class::Fraction.draw(&mut self.random, order, Shape { matrices: 0, numbers: 1 });
                    line(self, class.name(), &axis, theta[0]);
                }
            }
        }
        self.second(name, order, 2 + axis, |x| second(&x[2..], x[0], x[1]));
    }
}

/// The digits of a number's bit pattern, without the zeros at their end.
fn pattern(x: f64) -> String {
    let digits = format!("{:016x}", x.to_bits());
    match digits.trim_end_matches('0') {
        "" => "0".to_string(),
        kept => kept.to_string(),
    }
}

/// Numbers as words.
pub fn numbers(x: &[f64]) -> Vec<Word> {
    x.iter().map(|x| Word::Number(*x)).collect()
}

/// The entry of an operation in the table of places: the list puts `vector_` in front of what vectors do.
pub fn entry(name: &str) -> &str {
    name.strip_prefix("vector_").unwrap_or(name)
}

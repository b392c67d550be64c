//! The differential run: case after case asked of both sides, compared, and counted row by row.

use crate::cases::Case;
use crate::list::Answer;
use crate::random::Random;
use crate::rule::Rule;
use std::collections::BTreeMap;
use std::io::{stderr, IsTerminal};

/// How often the progress line is written, in cases.
const STEP: u64 = 1_000_000;

/// What a refusal has added for a second place.
const SECOND: u64 = 256;

/// What a row compares: an operation of an order, by a rule, with somebody's answers.
#[derive(Clone, Copy)]
pub struct Entry {
    pub name: &'static str,
    /// 0 where the order is among what is drawn.
    pub order: usize,
    pub rule: Rule,
    pub against: &'static str,
    /// Whether differences are meant to be there, so that they are counted and not held against us.
    pub intended: bool,
}

impl Entry {
    /// The order, or "any" where the order is among what is drawn.
    pub fn order(&self) -> String {
        match self.order {
            0 => "any".to_string(),
            order => order.to_string(),
        }
    }
}

/// What was counted of it.
pub struct Row {
    pub entry: Entry,
    pub cases: u64,
    pub refused: u64,
    pub differences: u64,
    pub first: Option<String>,
}

/// A run over all rows.
pub struct Run {
    random: Random,
    cases: usize,
    planted: bool,
    expected: u64,
    done: u64,
    pub rows: Vec<Row>,
    pub classes: BTreeMap<&'static str, u64>,
    pub refusals: BTreeMap<u64, u64>,
}

impl Row {
    /// Nothing counted yet.
    fn new(entry: Entry) -> Row {
        Row { entry, cases: 0, refused: 0, differences: 0, first: None }
    }

    /// Counts a case, and keeps the first that differs.
    fn count(&mut self, case: &Case, theirs: &Answer, ours: &Answer) {
        self.cases += 1;
        self.refused += u64::from(matches!(theirs, Answer::Refused(_)));
        if self.entry.rule.same(theirs, ours) {
            return;
        }
        self.differences += 1;
        if self.first.is_none() {
            self.first = Some(told(case, theirs, ours));
        }
    }
}

impl Run {
    /// A run of as many cases for each row, `expected` in all.
    pub fn new(seed: u64, cases: usize, expected: u64) -> Run {
        Run {
            random: Random::seeded(seed),
            cases,
            planted: false,
            expected,
            done: 0,
            rows: Vec::new(),
            classes: BTreeMap::new(),
            refusals: BTreeMap::new(),
        }
    }

    /// A run in which every one of our answers is made wrong.
    pub fn planted(seed: u64, cases: usize) -> Run {
        Run { planted: true, ..Run::new(seed, cases, 0) }
    }

    /// One row: as many cases as the run has for each.
    pub fn row(
        &mut self,
        entry: Entry,
        draw: impl Fn(&mut Random, usize) -> Case,
        theirs: impl Fn(&Case) -> Answer,
        ours: impl Fn(&Case) -> Answer,
    ) {
        let mut row = Row::new(entry);
        for number in 0..self.cases {
            let case = draw(&mut self.random, number);
            let (theirs, mut ours) = (theirs(&case), ours(&case));
            if self.planted {
                spoil(entry.rule, number, &mut ours);
            }
            row.count(&case, &theirs, &ours);
            *self.classes.entry(case.class).or_default() += 1;
            if let Answer::Refused(number) = theirs {
                *self.refusals.entry(number).or_default() += 1;
            }
            self.progress(&row);
        }
        self.rows.push(row);
    }

    /// The progress line, now and then.
    fn progress(&mut self, row: &Row) {
        self.done += 1;
        if self.expected == 0 || (self.done % STEP != 0 && self.done != self.expected) {
            return;
        }
        let unexpected = self.unexpected() + if row.entry.intended { 0 } else { row.differences };
        let (done, expected) = (self.done, self.expected);
        let line =
            format!("{done} of {expected} cases, {unexpected} differences; {} {}", row.entry.name, row.entry.order());
        if stderr().is_terminal() && done < expected {
            eprint!("\r{line:<78}");
        } else {
            eprintln!("{line}");
        }
    }

    /// How many cases differed that should not.
    pub fn unexpected(&self) -> u64 {
        self.rows.iter().filter(|row| !row.entry.intended).map(|row| row.differences).sum()
    }

    /// How many cases the run had.
    pub fn total(&self) -> u64 {
        self.rows.iter().map(|row| row.cases).sum()
    }
}

/// Makes an answer wrong: one number after the other by its last bit or its sign, a refusal by its number or its place,
/// now and then a refusal in place of what was given or the other way round.
fn spoil(rule: Rule, number: usize, answer: &mut Answer) {
    let bit = if number % 2 == 0 { 0 } else { 63 };
    match answer {
        Answer::Given(entries) if entries.is_empty() || number % 7 == 0 => *answer = Answer::Refused(2),
        Answer::Refused(_) if number % 7 == 0 => *answer = Answer::Given(Vec::new()),
        Answer::Given(entries) => {
            let place = number % entries.len();
            entries[place] = match rule {
                Rule::Numbers if entries[place].is_nan() => 1.0,
                _ => f64::from_bits(entries[place].to_bits() ^ 1 << bit),
            };
        }
        Answer::Number(whole) => *whole ^= 1 << bit,
        Answer::Refused(refusal) => *refusal ^= if number % 2 == 0 { 1 } else { SECOND },
        Answer::NoPanic => {}
    }
}

/// A case that differs: its class and input, and both answers, numbers as 16 hexadecimal digits.
fn told(case: &Case, theirs: &Answer, ours: &Answer) -> String {
    let places: String = case.places.iter().map(|place| format!(" @{place:x}")).collect();
    format!(
        "class {}\n  input   {}{places}\n  theirs  {}\n  ours    {}",
        case.class,
        patterns(&case.numbers),
        answered(theirs),
        answered(ours)
    )
}

/// An answer in words.
fn answered(answer: &Answer) -> String {
    match answer {
        Answer::Given(entries) => patterns(entries),
        Answer::Number(whole) => whole.to_string(),
        Answer::Refused(number) => format!("refusal {number}"),
        Answer::NoPanic => "no panic".to_string(),
    }
}

/// The bit patterns of numbers.
fn patterns(x: &[f64]) -> String {
    let words: Vec<String> = x.iter().map(|x| format!("{:016x}", x.to_bits())).collect();
    words.join(" ")
}

//! Compares Migthumo with cgmath, case after case, and prints a table. Exit status 1: they differ; 2: a wrong answer
//! that was planted went unseen.

use compare::differential::{Row, Run};
use compare::random::SEED;
use compare::rule::Rule;
use compare::{exported, grouping, panics, slips};
use std::env;
use std::process::ExitCode;
use std::time::Instant;

/// How many cases a row has, unless an argument says otherwise.
const CASES: usize = 200_000;

/// How many planted answers a row has.
const PLANTED: usize = 2_000;

/// How many cases a slip has.
const SLIPS: usize = 20_000;

/// What is asked for when an argument is not understood.
const USAGE: &str = "differential [--seed NUMBER] [--cases NUMBER], decimal or 0x and hexadecimal";

fn main() -> ExitCode {
    let [seed, cases] = match numbers() {
        Some(numbers) => numbers,
        None => {
            eprintln!("{USAGE}");
            return ExitCode::from(64);
        }
    };
    panics::quiet();
    println!("seed {seed:#x}, {cases} cases for each row\n");
    print_grouping();
    let (rows, planted_seen) = planted(seed);
    let slips_seen = slipped(seed);
    let started = Instant::now();
    let mut run = Run::new(seed, cases as usize, rows * cases);
    exported::all(&mut run);
    report(&run, started.elapsed().as_secs_f64());
    ExitCode::from(match (run.unexpected(), planted_seen && slips_seen) {
        (0, true) => 0,
        (0, false) => 2,
        _ => 1,
    })
}

/// The seed and the number of cases, from the arguments.
fn numbers() -> Option<[u64; 2]> {
    let mut numbers = [SEED, CASES as u64];
    let arguments: Vec<String> = env::args().skip(1).collect();
    for pair in arguments.chunks(2) {
        let place = ["--seed", "--cases"].iter().position(|name| *name == pair[0])?;
        numbers[place] = number(pair.get(1)?)?;
    }
    Some(numbers)
}

/// A number, decimal or hexadecimal.
fn number(word: &str) -> Option<u64> {
    match word.strip_prefix("0x") {
        Some(digits) => u64::from_str_radix(digits, 16).ok(),
        None => word.parse().ok(),
    }
}

/// How sums are grouped.
fn print_grouping() {
    println!("{:<32} {:<22} Migthumo", "how a sum is grouped", "the crate given");
    for (asked, theirs, ours) in grouping::lines() {
        println!("{asked:<32} {theirs:<22} {ours}");
    }
    println!("\"The crate given\" is whatever stood for cgmath 0.18.0 when this was built: a stand-in's grouping is its own.\n");
}

/// Every answer of ours made wrong: each has to be seen. How many rows there are, and whether it was so.
fn planted(seed: u64) -> (u64, bool) {
    let mut run = Run::planted(seed, PLANTED);
    exported::all(&mut run);
    let held: Vec<&Row> = run.rows.iter().filter(|row| !row.entry.intended).collect();
    let unseen: Vec<&&Row> = held.iter().filter(|row| row.differences != row.cases).collect();
    for row in &unseen {
        println!(
            "planted: {} of order {}, {} of {} seen",
            row.entry.name,
            row.entry.order(),
            row.differences,
            row.cases
        );
    }
    let all_seen = held.len() - unseen.len();
    println!("planted: {} rows of {PLANTED} wrong answers each, all of them seen in {all_seen} rows\n", held.len());
    (run.rows.len() as u64, unseen.is_empty())
}

/// Every slip has to be seen.
fn slipped(seed: u64) -> bool {
    let mut run = Run::new(seed, SLIPS, 0);
    slips::all(&mut run);
    println!("{:<40} {:>5} {:>9} {:>9}", "a function wrong on purpose", "order", "cases", "seen");
    for row in &run.rows {
        println!("{:<40} {:>5} {:>9} {:>9}", row.entry.name, row.entry.order, row.cases, row.differences);
    }
    println!();
    run.rows.iter().all(|row| row.differences > 0)
}

/// The table, what it is made of, and the first case of each row that differs.
fn report(run: &Run, seconds: f64) {
    println!(
        "{:<17} {:>5}  {:<12} {:<8} {:>9} {:>9} {:>12}",
        "operation", "order", "held to", "NaN bits", "cases", "refused", "differences"
    );
    for row in &run.rows {
        line(row);
    }
    println!();
    println!("cases of each class:{}", counts(run.classes.iter()));
    println!("refusals by number:{}", counts(run.refusals.iter()));
    for row in run.rows.iter().filter(|row| row.first.is_some()) {
        let meant = if row.entry.intended { ", which is intended" } else { "" };
        let (name, order) = (row.entry.name, row.entry.order());
        println!("\nfirst difference of {name}, order {order}{meant}: {}", row.first.as_deref().unwrap_or_default());
    }
    println!(
        "\n{} cases in {} rows, {} differences, {seconds:.0} seconds",
        run.total(),
        run.rows.len(),
        run.unexpected()
    );
}

/// A line of the table.
fn line(row: &Row) {
    let entry = row.entry;
    let bits = if entry.rule == Rule::Bits { "compared" } else { "any" };
    let differences = if entry.intended { format!("({})", row.differences) } else { row.differences.to_string() };
    println!(
        "{:<17} {:>5}  {:<12} {bits:<8} {:>9} {:>9} {differences:>12}",
        entry.name,
        entry.order(),
        entry.against,
        row.cases,
        row.refused
    );
}

/// Names and how often each came.
fn counts<'a, K: std::fmt::Display + 'a>(counted: impl Iterator<Item = (&'a K, &'a u64)>) -> String {
    counted.map(|(name, count)| format!(" {name} {count}")).collect::<Vec<String>>().join(",")
}

//! Times cgmath and Migthumo side by side, or does one operation on one side for an instruction counter.

use compare::timed::{self, Timed, Work, INPUTS};
use std::env;
use std::process::ExitCode;
use std::time::Instant;

/// What is asked for when the arguments are not understood.
const USAGE: &str = "\
benchmark                    times both sides
benchmark list               the lines whose instructions can be counted: line, name, order, vectors, few, many
benchmark run LINE SIDE N    does that line N times on one side, cgmath or migthumo";

fn main() -> ExitCode {
    let arguments: Vec<String> = env::args().skip(1).collect();
    let words: Vec<&str> = arguments.iter().map(String::as_str).collect();
    let done = match words[..] {
        [] => table(),
        ["list"] => list(),
        ["run", line, side, times] => run(line, side, times),
        _ => None,
    };
    if done.is_none() {
        eprintln!("{USAGE}");
        return ExitCode::from(64);
    }
    ExitCode::SUCCESS
}

/// How often the whole table is gone through, so that a time when the machine is busy does not fall on one line alone.
const PASSES: usize = 8;

/// How often a line is done between two looks at the clock.
fn block(timed: &Timed) -> usize {
    match timed.vectors {
        1 => 32 * INPUTS,
        1_000 => 20,
        _ => 1,
    }
}

/// How many rounds a line has in a pass.
fn rounds(timed: &Timed) -> usize {
    match timed.vectors {
        1 => 500,
        1_000 => 250,
        _ => 40,
    }
}

/// The shortest seconds of each side for a block in one pass, the sides in turn.
fn pass(timed: &Timed) -> [f64; 2] {
    let mut sides = (timed.sides)();
    let mut best = [f64::INFINITY; 2];
    for round in 0..rounds(timed) {
        for turn in 0..2 {
            let side = (round + turn) % 2;
            best[side] = best[side].min(seconds(&mut sides[side], block(timed)));
        }
    }
    best
}

/// The nanoseconds of each line and side for one call, or for one vector of many: the best of all passes.
fn best(all: &[Timed]) -> Vec<[f64; 2]> {
    let mut best = vec![[f64::INFINITY; 2]; all.len()];
    for _ in 0..PASSES {
        for (timed, best) in all.iter().zip(&mut best) {
            let nanoseconds = pass(timed).map(|seconds| seconds * 1e9 / (block(timed) * timed.vectors) as f64);
            *best = [best[0].min(nanoseconds[0]), best[1].min(nanoseconds[1])];
        }
    }
    best
}

/// How long a side takes for as many.
fn seconds(side: &mut Work, times: usize) -> f64 {
    let started = Instant::now();
    side(times);
    started.elapsed().as_secs_f64()
}

/// The table of times.
fn table() -> Option<()> {
    let all = timed::all();
    let best = best(&all);
    println!("nanoseconds of a call, or of one vector of many; the best of {PASSES} passes of many rounds\n");
    println!("{:<18} {:>5} {:>9} {:>10} {:>10} {:>7}", "operation", "order", "vectors", "cgmath", "Migthumo", "ratio");
    for (Timed { name, order, vectors, .. }, [theirs, ours]) in all.iter().zip(best) {
        println!("{name:<18} {order:>5} {vectors:>9} {theirs:>10.2} {ours:>10.2} {:>7.2}", ours / theirs);
    }
    Some(())
}

/// The lines that an instruction counter can go through in a short time, with two numbers of repetitions.
fn list() -> Option<()> {
    for (line, timed) in timed::all().iter().enumerate().filter(|(_, timed)| timed.vectors <= 1_000) {
        let few = if timed.vectors == 1 { 16 * INPUTS } else { 4 };
        let name = timed.name.replace(", ", "_").replace(' ', "_");
        println!("{line} {name} {} {} {few} {}", timed.order, timed.vectors, 3 * few);
    }
    Some(())
}

/// Does one line on one side.
fn run(line: &str, side: &str, times: &str) -> Option<()> {
    let all = timed::all();
    let timed = all.get(line.parse::<usize>().ok()?)?;
    let side = ["cgmath", "migthumo"].iter().position(|name| *name == side)?;
    (timed.sides)()[side](times.parse().ok()?);
    Some(())
}

//! Sixteen dealer lines, each with its own dice and its own records, on the C functions of the library; what they leave is
//! compared with the Rust original and with libopus, each where it is built in. README.md says what a line does.
//! Run: suite [--threads N] [--rounds N | --seconds N] [--seed N] [--progress]

mod carried;
mod damaged;
mod dealer;
mod decimators;
mod described;
mod digest;
#[cfg(libopus)]
#[allow(dead_code)]
#[path = "../bench/libopus.rs"]
mod libopus;
#[allow(dead_code)]
#[path = "../bench/line.rs"]
mod line;
mod ours;
mod refusals;
mod running;
mod schedule;
#[path = "../bench/signals.rs"]
mod signals;
#[cfg(original)]
#[allow(dead_code)]
#[path = "../oracle/stages.rs"]
mod stages;
mod tally;
#[path = "../oracle/values.rs"]
mod values;
mod wild;

use dealer::{Dealer, LINES};
use decimators::OTHERS;
use schedule::{Schedule, Until};
use std::io::IsTerminal;
use std::process::exit;
use tally::Tally;

/// What an untouched place holds.
const UNTOUCHED: i16 = 12345;

fn untouched(places: &[i16]) -> bool {
    places.iter().all(|place| *place == UNTOUCHED)
}

struct Options {
    threads: u64,
    until: Until,
    seed: u64,
    progress: bool,
}

impl Options {
    /// Nothing where the words are not options.
    fn read(mut words: impl Iterator<Item = String>) -> Option<Options> {
        let (mut threads, mut seed, mut until) = (LINES, 1, None);
        let mut progress = std::io::stderr().is_terminal();
        while let Some(word) = words.next() {
            if word == "--progress" {
                progress = true;
                continue;
            }
            let number = words.next()?.parse().ok()?;
            match word.as_str() {
                "--threads" if number > 0 => threads = LINES.min(number),
                "--seed" => seed = number,
                "--rounds" if until.is_none() => until = Some(Until::Rounds(number)),
                "--seconds" if until.is_none() => until = Some(Until::Seconds(number)),
                _ => return None,
            }
        }
        // In thirty rounds each line meets every pair once.
        let until = until.unwrap_or(Until::Rounds(30));
        Some(Options {
            threads,
            until,
            seed,
            progress,
        })
    }
}

fn main() {
    let options = Options::read(std::env::args().skip(1)).unwrap_or_else(|| {
        eprintln!("usage: suite [--threads N] [--rounds N | --seconds N] [--seed N] [--progress]");
        exit(2);
    });
    let schedule = Schedule::new(options.until, options.progress);
    let lines = run(&options, &schedule);
    let sum = report(options.seed, schedule.rounds(), &lines);
    eprintln!(
        "suite: compared with {} ({} samples; threads: {}, {:.1} s)",
        compared_with(),
        if OTHERS.is_empty() { 0 } else { sum.compared },
        options.threads,
        schedule.seconds()
    );
    let first = lines.iter().filter_map(Tally::first).min();
    if let Some((round, number, what)) = first {
        eprintln!("suite: the first difference: line {number}, round {round}, {what}");
    }
    exit((sum.differ != 0) as i32);
}

/// The lines in order, each as its last round left it.
fn run(options: &Options, schedule: &Schedule) -> Vec<Tally> {
    let mut lines: Vec<Tally> = std::thread::scope(|scope| {
        let thread = |thread| scope.spawn(move || dealt(thread, options, schedule));
        let threads: Vec<_> = (0..options.threads).map(thread).collect();
        let ended = threads.into_iter().map(|thread| thread.join());
        ended
            .flat_map(|lines| lines.expect("a thread that ends"))
            .collect()
    });
    lines.sort_by_key(|line| line.number);
    lines
}

/// The lines of one thread. They take turns, round by round, so that what a call might leave behind meets another line.
fn dealt(thread: u64, options: &Options, schedule: &Schedule) -> Vec<Tally> {
    let mine = (1..=LINES).filter(|number| number % options.threads == thread);
    let mut dealers: Vec<Dealer> = mine.map(|n| Dealer::new(options.seed, n)).collect();
    let mut made = 0;
    for round in 1.. {
        let all = dealers.iter().map(|dealer| dealer.tally.samples).sum();
        if dealers.is_empty() || !schedule.begins(round, all - made) {
            break;
        }
        made = all;
        for dealer in &mut dealers {
            dealer.round(round);
        }
    }
    dealers.into_iter().map(|dealer| dealer.tally).collect()
}

/// Prints what depends on the seed and the rounds and on nothing else; returns the sum.
fn report(seed: u64, rounds: u64, lines: &[Tally]) -> Tally {
    println!("seed {seed}, {rounds} rounds");
    let mut sum = Tally::new(0);
    for line in lines {
        println!("line {:2}: {line}", line.number);
        sum.add(line);
    }
    println!("sum: {sum}, {} differ", sum.differ);
    sum
}

fn compared_with() -> &'static str {
    match (cfg!(original), cfg!(libopus)) {
        (true, true) => "the Rust and libopus",
        (true, false) => "the Rust",
        (false, true) => "libopus",
        (false, false) => "neither the Rust nor libopus",
    }
}

//! Runs what is to be measured, on any samples: the stages on calls of 20 ms, and the thirty conversions on calls of 10, 20
//! and 1,000 ms.
//! Run: measure list: for each its name, the milliseconds of a call and how many samples a call puts out.
//!      measure times: for each its name and, for each implementation, nanoseconds for an output sample.
//!      measure run NUMBER IMPLEMENTATION CALLS, the first two by number: just the calls.
//!      measure threads: sixteen lines on one thread and on sixteen.

#[cfg(libopus)]
#[allow(dead_code)]
mod libopus;
#[allow(dead_code)]
mod line;
#[allow(dead_code)]
mod stage;
#[allow(dead_code)]
#[path = "../oracle/values.rs"]
mod values;

use line::{others, resampler, thirty, Pair, Record};
use stage::{stages, Stage};
use std::hint::black_box;
use std::time::Instant;
use values::Dice;

const ROUNDS: usize = 31;

/// Milliseconds of input that are timed in a round.
const TIMED: usize = 6000;

/// The milliseconds of a call.
const STAGE_MS: usize = 20;
const LINE_MS: [usize; 3] = [10, 20, 1000];

/// A call of one implementation: its input, its output, and in the split the output of the high band.
type Call = Box<dyn FnMut(&[i16], &mut [i16], &mut [i16])>;

enum Measured {
    Stage(Stage),
    Line(Pair, usize),
}

use Measured::{Line, Stage as Of};

fn all() -> Vec<Measured> {
    let lines = thirty().into_iter();
    let lines = lines.flat_map(|pair| LINE_MS.map(|ms| Line(pair, ms)));
    stages().into_iter().map(Of).chain(lines).collect()
}

impl Measured {
    fn name(&self) -> String {
        match self {
            Of(stage) => stage.name.to_string(),
            Line(pair, _) => pair.named(),
        }
    }

    fn ms(&self) -> usize {
        match self {
            Of(_) => STAGE_MS,
            Line(_, ms) => *ms,
        }
    }

    /// The input of a call.
    fn frame(&self) -> usize {
        match self {
            Of(stage) => stage.frame,
            Line(pair, ms) => ms * pair.in_khz,
        }
    }

    fn places(&self) -> usize {
        match self {
            Of(stage) => stage.outputs(stage.frame),
            Line(pair, ms) => ms * pair.out_khz,
        }
    }

    /// How many samples a call puts out, of both bands where there are two.
    fn made(&self) -> usize {
        match self {
            Of(stage) => stage.bands() * self.places(),
            Line(..) => self.places(),
        }
    }

    /// Ours, the original's, and libopus's where it is linked; each carries its words on.
    fn calls(&self) -> Vec<Call> {
        match self {
            Of(stage) => {
                let all = stage.implementations().into_iter();
                let call = |mut one: Box<dyn stage::Implementation>| -> Call {
                    Box::new(move |input, out, high| {
                        one.call(input, out, high);
                    })
                };
                all.map(call).collect()
            }
            Line(pair, _) => {
                let mut record = Record::fresh(*pair);
                let ours: Call = Box::new(move |input, out, _| {
                    record = resampler(record, out, input).record;
                });
                let call = |mut one: Box<dyn line::Other>| -> Call {
                    Box::new(move |input, out, _| one.call(input, out))
                };
                let others = others(*pair).into_iter().map(call);
                [ours].into_iter().chain(others).collect()
            }
        }
    }

    fn run(&self, call: &mut Call, calls: usize) {
        let mut dice = Dice::new(1);
        let input: Vec<i16> = (0..self.frame()).map(|_| dice.sample()).collect();
        let mut out = vec![0; self.places()];
        let mut high = out.clone();
        for _ in 0..calls {
            call(black_box(&input), &mut out, &mut high);
            black_box((&mut out, &mut high));
        }
    }

    /// The middle one of the times of several rounds; in each round the implementations take turns.
    fn times(&self) -> Vec<f64> {
        let mut calls = self.calls();
        let each = TIMED / self.ms();
        let mut rounds = vec![vec![]; calls.len()];
        for _ in 0..ROUNDS {
            for (call, times) in calls.iter_mut().zip(&mut rounds) {
                let start = Instant::now();
                self.run(call, each);
                times.push(start.elapsed().as_nanos() as f64);
            }
        }
        let samples = (each * self.made()) as f64;
        let middle = |mut times: Vec<f64>| {
            times.sort_by(f64::total_cmp);
            times[ROUNDS / 2] / samples
        };
        rounds.into_iter().map(middle).collect()
    }
}

/// Sixteen lines, of the encoder's fifteen pairs and the first again, each with its own record, on calls of 20 ms: seconds for
/// a minute of sound on each, dealt out to so many threads.
fn sixteen(threads: usize) -> f64 {
    let pairs: Vec<Pair> = thirty().into_iter().cycle().take(16).collect();
    let start = Instant::now();
    std::thread::scope(|scope| {
        for thread in 0..threads {
            let own: Vec<Pair> = pairs.iter().skip(thread).step_by(threads).copied().collect();
            scope.spawn(move || {
                for pair in own {
                    let line = Line(pair, 20);
                    line.run(&mut line.calls()[0], 3000);
                }
            });
        }
    });
    start.elapsed().as_secs_f64()
}

/// The middle one of five runs on each number of threads, by turns.
fn threads() {
    let mut times = [vec![], vec![]];
    for _ in 0..5 {
        for (times, threads) in times.iter_mut().zip([1, 16]) {
            times.push(sixteen(threads));
        }
    }
    let [one, many] = times.map(|mut times| {
        times.sort_by(f64::total_cmp);
        times[2]
    });
    let cores = std::thread::available_parallelism().map_or(1, usize::from);
    println!("sixteen lines, a minute of sound each, on {cores} cores: {one:.2} s on one thread, {many:.2} s on sixteen");
}

fn main() {
    let words: Vec<String> = std::env::args().skip(1).collect();
    let words: Vec<&str> = words.iter().map(String::as_str).collect();
    match words[..] {
        ["list"] => {
            for measured in all() {
                let (ms, made) = (measured.ms(), measured.made());
                println!("{}\t{ms}\t{made}", measured.name());
            }
        }
        ["times"] => {
            for measured in all() {
                let times = measured.times().into_iter();
                let times: Vec<String> = times.map(|time| format!("{time:.2}")).collect();
                println!("{}\t{}", measured.name(), times.join("\t"));
            }
        }
        ["threads"] => threads(),
        ["run", number, implementation, calls] => {
            let [number, implementation, calls] = [number, implementation, calls]
                .map(|word| word.parse::<usize>().expect("a number"));
            let measured = &all()[number];
            measured.run(&mut measured.calls()[implementation], calls);
        }
        _ => {
            eprintln!("usage: measure list | times | threads | run NUMBER IMPLEMENTATION CALLS");
            std::process::exit(2);
        }
    }
}

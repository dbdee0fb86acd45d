//! Compares the stages with the Rust original and with libopus: every output sample and every carried word.
//! Run: compare [SAMPLES], how many output samples to compare at the least.

#[cfg(libopus)]
#[allow(dead_code)]
mod libopus;
mod signals;
#[allow(dead_code)]
mod stage;
#[path = "../oracle/values.rs"]
mod values;

use signals::{any_samples, SIGNALS};
use stage::{stages, Implementation, Stage, NAMES};
use values::Dice;

type Word = fn(&mut Dice) -> i32;

const WORDS: [Word; 3] = [zero_word, any_word, extreme_word];

/// What an untouched place holds.
const UNTOUCHED: i16 = 12345;

#[derive(Default)]
struct Tally {
    calls: u64,
    samples: u64,
    libopus_samples: u64,
    refused: u64,
    differ: u64,
}

/// A stage, with the words that any call may start from, and with words that only calls made.
struct Compared {
    stage: Stage,
    /// Ours and the original, on any words. In C a sum that overflows means nothing, so libopus is not asked about
    /// words that no call makes.
    any: Vec<Box<dyn Implementation>>,
    /// All, from zero words on.
    carried: Vec<Box<dyn Implementation>>,
}

impl Compared {
    fn new(stage: Stage) -> Compared {
        let mut any = stage.implementations();
        any.truncate(2);
        Compared {
            stage,
            any,
            carried: stage.implementations(),
        }
    }
}

fn main() {
    let least = match std::env::args().nth(1) {
        None => 100_000_000,
        Some(word) => word.parse().unwrap_or_else(|_| {
            eprintln!("usage: compare [SAMPLES]");
            std::process::exit(2);
        }),
    };
    let mut tally = Tally::default();
    let mut dice = Dice::new(1);
    let mut all: Vec<Compared> = stages().into_iter().map(Compared::new).collect();
    for compared in &mut all {
        set_lengths(compared, &mut tally, &mut dice);
        refusals(compared, &mut tally, &mut dice);
    }
    while tally.samples < least {
        for compared in &mut all {
            any_call(compared, &mut tally, &mut dice);
        }
    }
    println!(
        "{} stages, {} calls, {} refusals; of the samples {} also with libopus",
        all.len(),
        tally.calls,
        tally.refused,
        tally.libopus_samples
    );
    println!("{} samples, {} differ", tally.samples, tally.differ);
    std::process::exit((tally.differ != 0) as i32);
}

/// Every short length, and those around a batch and around the most that an entry point takes.
fn lengths(stage: &Stage) -> Vec<usize> {
    let unit = stage.unit;
    let short = match unit {
        1 => 64,
        2 | 3 => 32,
        _ => 12,
    };
    let mut units: Vec<usize> = (0..=short).collect();
    for around in [480 / unit, 48_000 / unit] {
        units.extend(around - 1..=around + 1);
    }
    let lengths = units.into_iter().map(|n| n * unit);
    lengths.filter(|n| *n <= stage.most()).collect()
}

fn set_lengths(compared: &mut Compared, tally: &mut Tally, dice: &mut Dice) {
    let stage = compared.stage;
    for length in lengths(&stage) {
        for signal in SIGNALS {
            let input = signal(length, dice);
            for word in WORDS {
                let words = words(&stage, word, dice);
                call(&stage, &mut compared.any, Some(&words), &input, tally);
            }
            let zero = vec![0; stage.words()];
            call(&stage, &mut compared.carried, Some(&zero), &input, tally);
            let more = signal(length, dice);
            call(&stage, &mut compared.carried, None, &more, tally);
        }
    }
}

fn any_call(compared: &mut Compared, tally: &mut Tally, dice: &mut Dice) {
    let stage = compared.stage;
    let most = 960 / stage.unit;
    let length = stage.unit * dice.between(0, most as i64) as usize;
    let input = SIGNALS[[0, 0, 0, 1, 2, 2, 3, 4][dice.between(0, 7) as usize]](length, dice);
    let words = words(&stage, WORDS[dice.between(1, 2) as usize], dice);
    call(&stage, &mut compared.any, Some(&words), &input, tally);
    call(&stage, &mut compared.any, None, &input, tally);
    call(&stage, &mut compared.carried, None, &input, tally);
}

/// A call of each implementation, from words that are given or from those that the last call left.
fn call(
    stage: &Stage,
    implementations: &mut [Box<dyn Implementation>],
    words: Option<&[i32]>,
    input: &[i16],
    tally: &mut Tally,
) {
    let made = stage.outputs(input.len());
    let mut ours = None;
    for (k, implementation) in implementations.iter_mut().enumerate() {
        if let Some(words) = words {
            implementation.set(words);
        }
        let mut out = vec![UNTOUCHED; made + stage.spare()];
        let mut high = vec![UNTOUCHED; (stage.bands() - 1) * made];
        let written = implementation.call(input, &mut out, &mut high);
        let after = (written, out, high, implementation.words());
        match &ours {
            None => ours = Some(after),
            Some(ours) if *ours == after => {}
            Some(ours) => {
                let differ = apart(&ours.1, &after.1)
                    + apart(&ours.2, &after.2)
                    + apart(&ours.3, &after.3)
                    + (ours.0 != after.0) as u64;
                if tally.differ < 20 {
                    let (name, who) = (stage.name, NAMES[k]);
                    println!(
                        "{name}, {} samples: {differ} differ from {who}",
                        input.len()
                    );
                }
                tally.differ += differ;
            }
        }
    }
    let samples = (stage.bands() * made) as u64;
    tally.calls += 1;
    tally.samples += samples;
    if implementations.len() > 2 {
        tally.libopus_samples += samples;
    }
}

/// How many places of two lists of one length differ.
fn apart<N: PartialEq>(a: &[N], b: &[N]) -> u64 {
    a.iter().zip(b).filter(|(a, b)| a != b).count() as u64
}

/// What ours refuses: a sample over the units, more than the most, a place too few.
fn refusals(compared: &mut Compared, tally: &mut Tally, dice: &mut Dice) {
    let stage = compared.stage;
    let whole = 8 * stage.unit;
    let made = stage.outputs(whole);
    refused(compared, whole, made - 1, tally, dice);
    if stage.unit > 1 {
        refused(compared, whole + 1, made, tally, dice);
    }
    if stage.most() < usize::MAX {
        let samples = stage.most() + stage.unit;
        refused(compared, samples, stage.outputs(samples), tally, dice);
    }
}

/// Ours alone: the words and the outputs stay as they were.
fn refused(
    compared: &mut Compared,
    samples: usize,
    room: usize,
    tally: &mut Tally,
    dice: &mut Dice,
) {
    let stage = compared.stage;
    let ours = &mut compared.any[0];
    let words = words(&stage, any_word, dice);
    ours.set(&words);
    let mut out = vec![UNTOUCHED; room];
    let mut high = vec![UNTOUCHED; (stage.bands() - 1) * room];
    let written = ours.call(&any_samples(samples, dice), &mut out, &mut high);
    let kept = out.iter().chain(&high).all(|place| *place == UNTOUCHED);
    if written != 0 || !kept || ours.words() != words {
        let name = stage.name;
        println!("{name}, {samples} samples, {room} places: not refused");
        tally.differ += 1;
    }
    tally.refused += 1;
}

/// Words for a call; where a word holds a sample, the upper half.
fn words(stage: &Stage, word: Word, dice: &mut Dice) -> Vec<i32> {
    let one = |k| {
        let w = word(dice);
        if stage.holds_sample(k) {
            w >> 16
        } else {
            w
        }
    };
    (0..stage.words()).map(one).collect()
}

fn zero_word(_: &mut Dice) -> i32 {
    0
}

fn any_word(dice: &mut Dice) -> i32 {
    dice.word()
}

/// Near where 32 bits end.
fn extreme_word(dice: &mut Dice) -> i32 {
    i32::MAX.wrapping_add(dice.between(-3, 4) as i32)
}

//! Writes the stored answers of the original. README.md describes the file.
//! Run: answers FILE.

mod lines;
mod probes;
mod stages;
mod values;
mod word;

use lines::{thirty, Original, Pair, Record};
use stages::{Stage, DOWN_TABLES, UNTOUCHED};
use unopus::silk::resampler::rom::{silk_Resampler_2_3_COEFS_LQ, silk_resampler_frac_FIR_12};
use values::{Dice, EDGES};

const SUM: usize = 0;
const DIFFERENCE: usize = 1;
const FOURFOLD: usize = 2;
const PRODUCT: usize = 3;
const NARROWING: usize = 4;
// The stages have 5 to 11.
const LINE: usize = 12;

/// What a dead entry of a line's record holds before a call: nothing may come of it.
const DEAD: i32 = 0x5a5a_5a5a;

/// What each kind's cases are called in the count of them.
const NAMES: [&str; 13] = [
    "sums",
    "differences",
    "four-folds",
    "products",
    "narrowings",
    "runs of AR2",
    "of the 1/2 decimator",
    "of the split",
    "of the 2/3 decimator",
    "of the doubler",
    "of the interpolator",
    "of the down filters",
    "calls of a line",
];

#[derive(Default)]
struct Answers {
    bytes: Vec<u8>,
    cases: [usize; NAMES.len()],
    checked: usize,
}

impl Answers {
    fn case(
        &mut self,
        kind: usize,
        given: &[i32],
        samples: &[i16],
        outputs: &[i32],
        after: &[i32],
    ) {
        let lengths = [kind, given.len(), samples.len(), outputs.len(), after.len()];
        let lengths = lengths.map(|n| n as i32);
        let numbers = [&lengths, given, &widened(samples), outputs, after].concat();
        assert!(numbers.len() <= 1024, "a case is too long: {lengths:?}");
        for number in numbers {
            self.bytes.extend(number.to_le_bytes());
        }
        self.cases[kind] += 1;
    }

    /// A case of one word operation; `shown`: a call of the original gave the same answer.
    fn word(&mut self, kind: usize, given: &[i32], answer: i32, shown: bool) {
        self.case(kind, given, &[], &[], &[answer]);
        self.checked += shown as usize;
    }
}

fn main() {
    let Some(file) = std::env::args_os().nth(1) else {
        eprintln!("usage: answers FILE");
        std::process::exit(2);
    };
    let mut answers = Answers::default();
    let mut dice = Dice::new(1);
    sums(&mut answers, &mut dice);
    differences(&mut answers, &mut dice);
    fourfolds(&mut answers, &mut dice);
    products(&mut answers, &mut dice);
    narrowings(&mut answers, &mut dice);
    for stage in all_stages(&mut dice) {
        runs(&mut answers, &stage, &mut dice);
    }
    for pair in thirty() {
        calls(&mut answers, pair, &mut dice);
    }
    std::fs::write(file, &answers.bytes).expect("the file can be written");

    for (name, cases) in NAMES.iter().zip(answers.cases) {
        print!("{cases} {name}, ");
    }
    println!(
        "{} cases; {} word answers cross-checked against a call of the original",
        answers.cases.iter().sum::<usize>(),
        answers.checked
    );
}

fn sums(answers: &mut Answers, dice: &mut Dice) {
    for (a, b) in pairs(dice) {
        let answer = word::sum(a, b);
        let shown = probes::sum(a, b, answer);
        answers.word(SUM, &[a, b], answer, shown);
    }
}

fn differences(answers: &mut Answers, dice: &mut Dice) {
    for (a, b) in pairs(dice) {
        let answer = word::difference(a, b);
        let shown = probes::difference(a, b, answer);
        answers.word(DIFFERENCE, &[a, b], answer, shown);
    }
}

fn fourfolds(answers: &mut Answers, dice: &mut Dice) {
    let mut words = EDGES.to_vec();
    words.extend((0..584).map(|_| dice.word()));
    for x in words {
        let answer = word::fourfold(x);
        let shown = probes::fourfold(x, answer);
        answers.word(FOURFOLD, &[x], answer, shown);
    }
}

fn products(answers: &mut Answers, dice: &mut Dice) {
    for (c, y) in factors(dice) {
        let answer = word::product(c, y);
        let shown = probes::product(c, y, answer);
        answers.word(PRODUCT, &[c, y], answer, shown);
    }
}

fn narrowings(answers: &mut Answers, dice: &mut Dice) {
    for n in [6, 10, 11, 15] {
        for x in wide_words(n, dice) {
            let answer = word::narrow(x, n);
            let shown = probes::narrow(x, n, answer);
            answers.word(NARROWING, &[x, n], answer, shown);
        }
    }
}

/// AR2 with each pair of coefficients, and the others; the readers at each pair of rates whose path has them.
fn all_stages(dice: &mut Dice) -> Vec<Stage> {
    let pairs = coefficient_pairs(dice).into_iter();
    let mut all: Vec<Stage> = pairs.map(stages::ar2).collect();
    all.extend([
        stages::down2(),
        stages::split(),
        stages::down2_3(),
        stages::up2_hq(),
    ]);
    let interpolated = [
        (8, 12),
        (8, 24),
        (8, 48),
        (12, 16),
        (12, 48),
        (16, 24),
        (16, 48),
    ];
    let filtered = [
        (12, 8),
        (16, 8),
        (16, 12),
        (24, 8),
        (24, 12),
        (24, 16),
        (48, 8),
        (48, 12),
        (48, 16),
    ];
    let pairs = interpolated.into_iter().chain(filtered);
    all.extend(pairs.map(|(in_khz, out_khz)| stages::reader(in_khz, out_khz)));
    all
}

/// Each choice of words with each signal, each short length, and longer runs.
fn runs(answers: &mut Answers, stage: &Stage, dice: &mut Dice) {
    for _ in 0..stage.rounds {
        for word in [zero_word, any_word, extreme_word] {
            for signal in [silence, impulse, full_scale, any_samples] {
                let units = dice.between(0, stage.short as i64) as usize;
                run(answers, stage, units, word, signal, dice);
            }
        }
    }
    for units in [0, 1, 2, 3, stage.short] {
        run(answers, stage, units, any_word, any_samples, dice);
    }
    for &units in stage.longer {
        run(answers, stage, units, zero_word, full_scale, dice);
        run(answers, stage, units, any_word, any_samples, dice);
        run(answers, stage, units, extreme_word, any_samples, dice);
    }
}

/// The answer of the original itself.
fn run(
    answers: &mut Answers,
    stage: &Stage,
    units: usize,
    word: Word,
    signal: Signal,
    dice: &mut Dice,
) {
    let words = words(stage, word, dice);
    let samples = signal(units * stage.unit, dice);
    let mut after = words.clone();
    let outputs = stage.call(&mut after, &samples);
    let given = [&stage.told[..], &words].concat();
    answers.case(stage.kind, &given, &samples, &outputs, &after);
}

/// Three calls in a row from a fresh line on, the last with two batches behind its first millisecond; then calls on records
/// that no call leaves.
fn calls(answers: &mut Answers, pair: Pair, dice: &mut Dice) {
    let mut line = Original::open(pair);
    let in_a_row: [(usize, Signal); 3] = [(1, impulse), (2, full_scale), (12, any_samples)];
    for (ms, signal) in in_a_row {
        call(answers, &mut line, &signal(ms * pair.in_khz, dice));
    }
    for word in [any_word, extreme_word] {
        line.put(&made_up(pair, word, dice));
        call(answers, &mut line, &any_samples(2 * pair.in_khz, dice));
    }
}

fn call(answers: &mut Answers, line: &mut Original, samples: &[i16]) {
    let pair = line.pair;
    let before = line.shown().with_dead(&pair.live(), DEAD);
    let told = [before.direction, before.in_khz, before.out_khz].map(i32::from);
    let mut out = vec![UNTOUCHED; pair.made(samples.len()) + 2];
    line.resample(samples, &mut out);
    let given = [&told[..], &entries(&before)].concat();
    let after = entries(&line.shown());
    answers.case(LINE, &given, samples, &widened(&out), &after);
}

fn made_up(pair: Pair, word: Word, dice: &mut Dice) -> Record {
    Record {
        doubler: [0; 6].map(|_| word(dice)),
        samples: [0; 8].map(|_| (word(dice) >> 16) as i16),
        ar2: [0; 2].map(|_| word(dice)),
        fir: [0; 36].map(|_| word(dice)),
        delay: [0; 48].map(|_| (word(dice) >> 16) as i16),
        ..Record::fresh(pair)
    }
}

/// The entries of a record, one array behind the other.
fn entries(record: &Record) -> Vec<i32> {
    let samples = widened(&record.samples);
    let delay = widened(&record.delay);
    let arrays = [
        &record.doubler[..],
        &samples,
        &record.ar2,
        &record.fir,
        &delay,
    ];
    arrays.concat()
}

fn widened(samples: &[i16]) -> Vec<i32> {
    samples.iter().map(|x| i32::from(*x)).collect()
}

/// All pairs of edges, pairs of any words, and words with 256 times a sample.
fn pairs(dice: &mut Dice) -> Vec<(i32, i32)> {
    let mut pairs = all_pairs(&EDGES);
    pairs.extend((0..172).map(|_| (dice.word(), dice.word())));
    pairs.extend((0..172).map(|_| (dice.word(), 256 * dice.sample() as i32)));
    pairs
}

/// Coefficients at an edge with all edges, those of the tables with one word each, and any others.
fn factors(dice: &mut Dice) -> Vec<(i32, i32)> {
    let mut factors = all_pairs(&[
        -65535, -65534, -32769, -32768, -32767, -1, 0, 1, 32767, 32768, 39083, 39809, 41246, 55542,
        65534, 65535,
    ]);
    factors.extend(table_coefficients().into_iter().map(|c| (c, dice.word())));
    while factors.len() < 600 {
        factors.push((dice.between(-65535, 65535) as i32, dice.word()));
    }
    factors
}

fn all_pairs(firsts: &[i32]) -> Vec<(i32, i32)> {
    firsts.iter().flat_map(|a| EDGES.map(|b| (*a, b))).collect()
}

fn table_coefficients() -> Vec<i32> {
    let fractions = silk_resampler_frac_FIR_12.as_flattened();
    let tables = [&ar2_tables()[..], &[fractions]].concat();
    let mut coefficients: Vec<i32> = tables.concat().into_iter().map(i32::from).collect();
    for sections in [&probes::UP2[..], &probes::DOWN2, &probes::SPLIT] {
        coefficients.extend(sections);
    }
    coefficients
}

/// The tables that begin with a pair for AR2.
fn ar2_tables() -> Vec<&'static [i16]> {
    [&DOWN_TABLES[..], &[&silk_Resampler_2_3_COEFS_LQ]].concat()
}

/// Words at the edges of rounding by `n` bits: where 32 bits end, where it clips, at halves.
fn wide_words(n: i32, dice: &mut Dice) -> Vec<i32> {
    let half = 1i64 << (n - 1);
    let mut words = EDGES.to_vec();
    for edge in [(1 << 31) - half, 65535 * half, -65537 * half, half, -half] {
        words.extend((-4..=4).map(|step| (edge + step) as i32));
    }
    words.extend((0..30).map(|_| {
        let odd = 2 * dice.sample() as i64 + 1;
        (odd * half + dice.between(-1, 1)) as i32
    }));
    words.extend((0..59).map(|_| dice.word()));
    words
}

/// The first two entries of each table, the largest and smallest pairs, and four others.
fn coefficient_pairs(dice: &mut Dice) -> Vec<[i16; 2]> {
    let tables = ar2_tables().into_iter();
    let mut pairs: Vec<[i16; 2]> = tables.map(|table| [table[0], table[1]]).collect();
    for a0 in [i16::MIN, i16::MAX] {
        pairs.extend([[a0, i16::MIN], [a0, i16::MAX]]);
    }
    pairs.extend((0..4).map(|_| [dice.sample(), dice.sample()]));
    pairs
}

type Word = fn(&mut Dice) -> i32;

/// Words for a run; of a word that holds a sample the upper half.
fn words(stage: &Stage, word: Word, dice: &mut Dice) -> Vec<i32> {
    let mut words: Vec<i32> = (0..stage.words).map(|_| word(dice)).collect();
    for held in &mut words[stage.words - stage.held..] {
        *held >>= 16;
    }
    words
}

fn zero_word(_: &mut Dice) -> i32 {
    0
}

fn any_word(dice: &mut Dice) -> i32 {
    dice.word()
}

fn extreme_word(dice: &mut Dice) -> i32 {
    [i32::MIN, i32::MIN + 1, i32::MAX - 1, i32::MAX][dice.between(0, 3) as usize]
}

type Signal = fn(usize, &mut Dice) -> Vec<i16>;

fn silence(length: usize, _: &mut Dice) -> Vec<i16> {
    vec![0; length]
}

fn impulse(length: usize, dice: &mut Dice) -> Vec<i16> {
    let mut samples = silence(length, dice);
    if let Some(first) = samples.first_mut() {
        *first = dice.sample();
    }
    samples
}

/// The largest and the smallest sample by turns.
fn full_scale(length: usize, _: &mut Dice) -> Vec<i16> {
    [i16::MAX, i16::MIN]
        .into_iter()
        .cycle()
        .take(length)
        .collect()
}

fn any_samples(length: usize, dice: &mut Dice) -> Vec<i16> {
    (0..length).map(|_| dice.sample()).collect()
}

//! Looks for inputs on which the doubler lies far from the exact filter, and prints the largest distances beside the bounds
//! that are proved. The sections are written out twice here: on words, as the doubler has them, and on fixed-point numbers
//! that stand for the exact filter's. What the words make is compared with the proved function, sample by sample.

mod signals;
#[allow(dead_code)]
#[path = "../oracle/values.rs"]
mod values;

use signals::{any_samples, SIGNALS};
use values::Dice;

/// The coefficients of the even output's sections, and of the odd one's.
const ROWS: [[i64; 3]; 2] = [[1746, 14986, 39083], [6854, 25769, 55542]];

/// So many bits of an exact value stand behind the point, where 1 is a 1024th of a step. Its sections round at the last of
/// them as the doubler's do at 1, so by the law that bounds the doubler it is off by less than 18 / 2^72.
const POINT: u32 = 72;

/// What is proved of the even row and of the odd: its output lies less than so many 1024ths of a step from the exact one
/// before rounding, and as written; its three words are at most so many times 2^20.
const PROVED: [[u32; 5]; 2] = [[13, 525, 34, 55, 203], [18, 530, 40, 93, 890]];

/// A row, and which of the five.
type Figure = (usize, usize);

#[rustfmt::skip]
const FIGURES: [Figure; 10] = [
    (0, 0), (1, 0),
    (0, 1), (1, 1),
    (0, 2), (0, 3), (0, 4), (1, 2), (1, 3), (1, 4),
];

/// The lengths of inputs that are searched, how many searches there are of each, and how much each one tries.
const LENGTHS: [usize; 4] = [8, 16, 32, 64];
const SEARCHES: usize = 8;
const CANDIDATES: usize = 10_000;
const CHANGES: usize = 40_000;

/// The three sections of an output.
#[derive(Clone, Copy, Default)]
struct Row {
    words: [i32; 3],
    exact: [i128; 3],
}

impl Row {
    /// The output before it is rounded, and the exact one.
    fn step(&mut self, row: usize, sample: i16) -> (i32, i128) {
        let mut x = i32::from(sample) << 10;
        let mut u = i128::from(x) << POINT;
        for (k, a) in ROWS[row].into_iter().enumerate() {
            let (s, w) = (self.words[k], self.exact[k]);
            let part = ((a * i64::from(x.wrapping_sub(s))) >> 16) as i32;
            self.words[k] = x.wrapping_add(part);
            x = s.wrapping_add(part);
            let part = (i128::from(a) * (u - w)) >> 16;
            self.exact[k] = u + part;
            u = w + part;
        }
        (x, u)
    }

    fn figure(&self, figure: usize, (out, exact): (i32, i128)) -> f64 {
        match figure {
            0 => above(out.into(), exact).abs(),
            1 => {
                let held = exact.clamp(-32768 << (10 + POINT), 32767 << (10 + POINT));
                above(i128::from(written(out)) << 10, held).abs()
            }
            _ => f64::from(self.words[figure - 2]).abs() / f64::from(1 << 20),
        }
    }
}

/// In 1024ths of a step.
fn above(value: i128, exact: i128) -> f64 {
    ((value << POINT) - exact) as f64 / 2f64.powi(POINT as i32)
}

/// Rounded to the nearest, halves upwards, and clipped.
fn written(out: i32) -> i16 {
    ((i64::from(out) + 512) >> 10).clamp(-32768, 32767) as i16
}

/// The largest of each figure so far, with what it was seen on.
#[derive(Default)]
struct Seen {
    largest: [[(f64, String); 5]; 2],
    samples: usize,
    differ: usize,
}

impl Seen {
    /// An input, from zero words.
    fn look(&mut self, name: &str, input: &[i16]) {
        let mut rows = [Row::default(); 2];
        let mut out = Vec::with_capacity(2 * input.len());
        for sample in input {
            for (row, largest) in self.largest.iter_mut().enumerate() {
                let made = rows[row].step(row, *sample);
                out.push(written(made.0));
                for (figure, largest) in largest.iter_mut().enumerate() {
                    let value = rows[row].figure(figure, made);
                    if value > largest.0 {
                        *largest = (value, name.to_string());
                    }
                }
            }
        }
        let (proved, words) = doubled(input);
        self.samples += out.len();
        self.differ += out.iter().zip(&proved).filter(|(a, b)| a != b).count();
        self.differ += (words[..3] != rows[0].words || words[3..] != rows[1].words) as usize;
    }
}

#[derive(Clone, Copy)]
#[repr(C)]
struct Six {
    w: [i32; 6],
}

#[repr(C)]
struct Doubles {
    written: usize,
    words: Six,
}

#[rustfmt::skip]
unsafe extern "C" {
    fn probe_up2_HQ(words: Six, out: *mut i16, room: usize, input: *const i16, samples: usize) -> Doubles;
}

/// What the proved function makes of an input, from zero words, and the words that it leaves.
fn doubled(input: &[i16]) -> (Vec<i16>, [i32; 6]) {
    let zero = Six { w: [0; 6] };
    let mut out = vec![0; 2 * input.len()];
    let (at, room) = (out.as_mut_ptr(), out.len());
    // It gets slices in two parts.
    let after = unsafe { probe_up2_HQ(zero, at, room, input.as_ptr(), input.len()) };
    assert_eq!(after.written, room);
    (out, after.words.w)
}

/// What an error of 1 in a word comes to in the output so many samples on, if nothing more is rounded.
fn weight(row: usize, word: usize, samples: usize) -> f64 {
    let mut words = [0.0; 3];
    words[word] = 1.0;
    let mut x = 0.0;
    for _ in 0..samples {
        x = 0.0;
        for (a, s) in ROWS[row].into_iter().zip(&mut words) {
            let part = a as f64 / 65536.0 * (x - *s);
            (x, *s) = (*s + part, x + part);
        }
    }
    x
}

/// Chooses one sample after the other: of some candidates the one whose words' errors weigh most in the last output, and
/// at the end the one with the largest figure.
fn chosen((row, figure): Figure, length: usize, dice: &mut Dice) -> Vec<i16> {
    let mut now = Row::default();
    let mut input = vec![];
    for left in (0..length).rev() {
        let weights = [0, 1, 2].map(|word| weight(row, word, left));
        let value = |sample| {
            let mut next = now;
            let made = next.step(row, sample);
            let error = |k: usize| weights[k] * above(next.words[k].into(), next.exact[k]);
            match left {
                0 => next.figure(figure, made),
                _ => (error(0) + error(1) + error(2)).abs(),
            }
        };
        let candidates = any_samples(CANDIDATES, dice).into_iter();
        let best = candidates.max_by(|a, b| value(*a).total_cmp(&value(*b)));
        let best = best.expect("a candidate");
        now.step(row, best);
        input.push(best);
    }
    input
}

/// Changes one sample at a time, and keeps what makes the figure after the last one no smaller.
fn climbed((row, figure): Figure, mut input: Vec<i16>, dice: &mut Dice) -> Vec<i16> {
    let length = input.len();
    // The row before each sample of the input, and of the one that is tried.
    let mut rows = vec![Row::default(); length];
    let mut tried = rows.clone();
    let mut largest = 0.0;
    for turn in 0..CHANGES {
        let at = dice.between(0, length as i64 - 1) as usize * (turn > 0) as usize;
        let kept = input[at];
        if turn > 0 {
            input[at] = changed(kept, dice);
        }
        let mut now = rows[at];
        let mut made = (0, 0);
        for k in at..length {
            tried[k] = now;
            made = now.step(row, input[k]);
        }
        let value = now.figure(figure, made);
        if value < largest {
            input[at] = kept;
        } else {
            largest = value;
            rows[at..].copy_from_slice(&tried[at..]);
        }
    }
    input
}

/// The largest or the smallest sample, one near by, or any.
fn changed(sample: i16, dice: &mut Dice) -> i16 {
    match dice.between(0, 3) {
        0 => [i16::MAX, i16::MIN][dice.between(0, 1) as usize],
        1 => sample.saturating_add(dice.between(-64, 64) as i16),
        _ => dice.sample(),
    }
}

fn signals(seen: &mut Seen, dice: &mut Dice) {
    let names = [
        "any samples",
        "full scale by turns",
        "extreme samples",
        "impulse",
        "silence",
    ];
    for (name, signal) in names.into_iter().zip(SIGNALS) {
        for length in (0..=64).chain([480, 48_000, 1_000_000]) {
            seen.look(name, &signal(length, dice));
        }
    }
    for _ in 0..1_000 {
        seen.look("any samples", &any_samples(8_000, dice));
    }
    // So many samples of a half, full scale.
    for half in 1..=1_000 {
        let sample = |k: usize| [i16::MAX, i16::MIN][k / half % 2];
        let wave: Vec<i16> = (0..8_000).map(sample).collect();
        seen.look("square wave", &wave);
    }
}

fn searches(seen: &mut Seen, dice: &mut Dice) {
    for of in FIGURES {
        for length in LENGTHS {
            for _ in 0..SEARCHES {
                let any = any_samples(length, dice);
                seen.look("climb", &climbed(of, any, dice));
                if of.1 < 2 {
                    let start = chosen(of, length, dice);
                    seen.look("chosen", &start);
                    seen.look("chosen, then climb", &climbed(of, start, dice));
                }
            }
        }
    }
}

fn main() {
    let mut seen = Seen::default();
    let mut dice = Dice::new(1);
    signals(&mut seen, &mut dice);
    searches(&mut seen, &mut dice);
    println!("| | largest seen | proved | seen on |");
    println!("|---|---|---|---|");
    let mut beyond = 0;
    for (row, figure) in FIGURES {
        let side = ["even", "odd"][row];
        let name = match figure {
            0 => format!("{side} output before rounding, less than"),
            1 => format!("{side} output as written, less than"),
            _ => format!("word {}, at most", 3 * row + figure - 2),
        };
        let (value, on) = &seen.largest[row][figure];
        let proved = PROVED[row][figure];
        println!("| {name} | {value:.3} | {proved} | {on} |");
        beyond += (*value > proved.into()) as usize;
    }
    println!("{} samples, {} differ", seen.samples, seen.differ);
    std::process::exit((seen.differ + beyond != 0) as i32);
}

//! Shows where the Rust original and libopus do otherwise than ours: the facts of docs/DIFFERENCES.md about whole lines.

#[cfg(libopus)]
#[allow(dead_code)]
mod libopus;
#[allow(dead_code)]
mod line;

use line::{others, park, resampler, thirty, Pair, Record};
use std::panic::{catch_unwind, set_hook, AssertUnwindSafe};
use unopus::silk::resampler::silk_resampler_init;

/// What an untouched place holds.
const UNTOUCHED: i16 = 12345;

fn main() {
    set_hook(Box::new(|_| {}));
    openings();
    short_inputs();
    part_milliseconds();
    short_outputs();
    long_inputs();
    dead_entries();
    last_sample();
}

fn pair(direction: u8, in_khz: usize, out_khz: usize) -> Pair {
    Pair {
        direction,
        in_khz,
        out_khz,
    }
}

/// What a call of the Rust comes to, and how many places it wrote. The samples are 1000 and the places enough, if not said.
fn rust(pair: Pair, samples: usize, room: Option<usize>) -> (bool, usize) {
    let mut line = others(pair).remove(0);
    let made = pair.made(samples);
    let mut out = vec![UNTOUCHED; room.unwrap_or(made + 2 * pair.out_khz)];
    let input = vec![1000; samples];
    let ended = catch_unwind(AssertUnwindSafe(|| {
        line.call_into(&input, &mut out);
    }));
    let written = out.iter().filter(|place| **place != UNTOUCHED).count();
    (ended.is_err(), written)
}

fn ours(pair: Pair, samples: usize, room: usize) -> u8 {
    let mut out = vec![UNTOUCHED; room];
    resampler(Record::fresh(pair), &mut out, &vec![1000; samples]).row
}

fn said(panicked: bool) -> &'static str {
    ["takes it", "panics"][panicked as usize]
}

fn openings() {
    for (from, to, for_enc) in [
        (24000, 48000, 0),
        (24000, 48000, 1),
        (8000, 11025, 0),
        (0, 0, 0),
    ] {
        let panicked = catch_unwind(|| silk_resampler_init(from, to, for_enc)).is_err();
        let row = line::init(from, to, for_enc).row;
        println!(
            "opening {from} to {to}, {for_enc}: the Rust {}; ours {row}",
            said(panicked)
        );
    }
}

fn short_inputs() {
    for samples in [0, 7] {
        let pair = pair(1, 8, 16);
        let (panicked, _) = rust(pair, samples, None);
        println!(
            "8 to 16, {samples} samples: the Rust {}; ours {}",
            said(panicked),
            ours(pair, samples, 16)
        );
    }
}

fn part_milliseconds() {
    let mut panicking = 0;
    for pair in thirty() {
        let k = pair.in_khz;
        let lengths = (k..40 * k).filter(|n| n % k != 0);
        let first = lengths.clone().find(|n| rust(pair, *n, None).0);
        panicking += first.is_some() as usize;
        let name = pair.named();
        match first {
            None => println!(
                "{name}: the Rust takes every length from {k} to {}; ours 3",
                40 * k - 1
            ),
            Some(n) => {
                let (_, written) = rust(pair, n, None);
                let row = ours(pair, n, 4096);
                println!("{name}, {n} samples: the Rust panics with {written} places written; ours {row}");
            }
        }
    }
    println!("{panicking} of 30 panic on a part of a millisecond");
}

fn short_outputs() {
    let pair = pair(1, 8, 16);
    for (samples, room) in [(8, 15), (16, 31)] {
        let (panicked, written) = rust(pair, samples, Some(room));
        let row = ours(pair, samples, room);
        println!(
            "8 to 16, {samples} samples, {room} places: the Rust {}, {written} written; ours {row}",
            said(panicked)
        );
    }
}

fn long_inputs() {
    let pair = pair(1, 8, 16);
    let (panicked, written) = rust(pair, 8008, None);
    println!(
        "8 to 16, 8008 samples: the Rust {}, {written} written; ours {}",
        said(panicked),
        ours(pair, 8008, 16016)
    );
}

/// What stands behind the live delay samples after a call of a millisecond.
fn dead_entries() {
    let pair = pair(1, 8, 16);
    let input: Vec<i16> = (1..=8).collect();
    let mut out = [0; 16];
    let ours = resampler(Record::fresh(pair), &mut out, &input)
        .record
        .delay;
    let mut state = silk_resampler_init(8000, 16000, 1);
    unopus::silk::resampler::silk_resampler(&mut state, &mut out, &input);
    println!(
        "8 to 16, samples 1 to 8: the Rust's delay samples {:?}, ours {:?}",
        &state.delay_buf[..8],
        &ours[..8]
    );
    let mut block = [0; 512];
    let dead = Record {
        delay: [1; 48],
        ..Record::fresh(pair)
    };
    park(dead, &mut block);
    println!(
        "8 to 16, delay samples of 1, parked: {:?}",
        &block[196..206]
    );
}

/// One sample behind a whole batch: the Rust goes on with it, libopus stops before it.
fn last_sample() {
    let pair = pair(1, 16, 8);
    let (panicked, written) = rust(pair, 177, Some(89));
    println!(
        "16 to 8, 177 samples, 89 places: the Rust {}, {written} written; ours {}",
        said(panicked),
        ours(pair, 177, 89)
    );
    #[cfg(libopus)]
    {
        let mut all = others(pair);
        let mut out = [UNTOUCHED; 120];
        all[1].call_into(&[1000; 177], &mut out);
        let written = out.iter().filter(|place| **place != UNTOUCHED).count();
        let mut whole = others(pair).remove(1);
        whole.call_into(&[1000; 176], &mut out);
        let same = all[1].record() == whole.record();
        println!("16 to 8, 177 samples: libopus writes {written}, and its record is that of 176 samples: {same}");
    }
}

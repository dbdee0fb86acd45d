//! How to write a fixture, and how not to: docs/FIXTURES.md is about this file and quotes it.
//!
//! Sixteen dealer lines, each with its own pair and its own signal, are converted call by call by three fixtures that differ
//! only in where the record is between two calls. Each fixture is run on one thread, on sixteen, and on sixteen with the
//! lines moving from thread to thread; a digest of each line, beside a stored one, shows whether it put out what it should.

mod common;

use std::cell::Cell;
use std::sync::{Barrier, Mutex};
use std::thread;

use common::Dice;
use simmerpatch::{open, Direction, Record};
use Direction::{Decoder, Encoder};

#[derive(Clone, Copy)]
struct Dealer {
    seed: u64,
    direction: Direction,
    in_khz: usize,
    out_khz: usize,
}

const LINES: usize = 16;
type Dealers = [Dealer; LINES];

/// Every path is there: copy, doubler, interpolator, and down filters of the orders 18, 24 and 36. No two of the lines would
/// make the same samples of one signal.
#[rustfmt::skip]
const DEALERS: Dealers = [
    dealer(1, Encoder, 8, 8),    dealer(2, Encoder, 8, 12),   dealer(3, Encoder, 8, 16),   dealer(4, Encoder, 12, 8),
    dealer(5, Encoder, 12, 16),  dealer(6, Encoder, 16, 8),   dealer(7, Encoder, 16, 12),  dealer(8, Encoder, 24, 16),
    dealer(9, Encoder, 48, 8),   dealer(10, Encoder, 48, 16), dealer(11, Decoder, 8, 24),  dealer(12, Decoder, 8, 48),
    dealer(13, Decoder, 12, 12), dealer(14, Decoder, 12, 24), dealer(15, Decoder, 16, 16), dealer(16, Decoder, 16, 48),
];

const fn dealer(seed: u64, direction: Direction, in_khz: usize, out_khz: usize) -> Dealer {
    Dealer {
        seed,
        direction,
        in_khz,
        out_khz,
    }
}

impl Dealer {
    fn open(&self) -> Record {
        let [in_hz, out_hz] = [self.in_khz, self.out_khz].map(|khz| 1_000 * khz as i32);
        open(self.direction, in_hz, out_hz).expect("every dealer's pair is supported")
    }
}

/// How many calls each line makes, and of how many milliseconds, by turns. A digest belongs to its cuts.
const CALLS: usize = 200;
const CUTS: [usize; 5] = [20, 10, 1, 40, 5];

/// All that a line put out, as one number: FNV-1a.
struct Digest(u64);

impl Digest {
    const EMPTY: Digest = Digest(0xcbf2_9ce4_8422_2325);

    fn add(&mut self, bytes: &[u8]) {
        for byte in bytes {
            self.0 = (self.0 ^ u64::from(*byte)).wrapping_mul(0x0000_0100_0000_01b3);
        }
    }
}

/// What goes into a line and what comes out of it; not its record.
struct Sound {
    dealer: Dealer,
    /// Which the line's seed alone decides.
    signal: Dice,
    digest: Digest,
}

impl Sound {
    fn new(dealer: &Dealer) -> Sound {
        Sound {
            dealer: *dealer,
            signal: Dice(dealer.seed),
            digest: Digest::EMPTY,
        }
    }

    /// Call number `k`: takes a record and hands back the next. A refusal is an outcome too and goes into the digest; were it
    /// to panic, the other threads would wait for this one for ever.
    fn call(&mut self, record: Record, k: usize) -> Record {
        let ms = CUTS[k % CUTS.len()];
        let input = self.signal.sound(ms * self.dealer.in_khz);
        let mut out = vec![0; ms * self.dealer.out_khz];
        match record.resample(&mut out, &input) {
            Ok((next, written)) => {
                self.digest.add(&[0]);
                for sample in &out[..written] {
                    self.digest.add(&sample.to_le_bytes());
                }
                next
            }
            Err(refusal) => {
                self.digest.add(&[refusal.number()]);
                record
            }
        }
    }
}

/// A line under test.
trait Fixture: Send {
    fn open(dealer: &Dealer) -> Self;
    fn call(&mut self, k: usize);
    fn digest(&self) -> u64;
}

/// The one to copy: it owns its record, and no other code can reach it.
struct ByValue {
    record: Record,
    sound: Sound,
}

impl Fixture for ByValue {
    fn open(dealer: &Dealer) -> ByValue {
        ByValue {
            record: dealer.open(),
            sound: Sound::new(dealer),
        }
    }

    fn call(&mut self, k: usize) {
        self.record = self.sound.call(self.record, k);
    }

    fn digest(&self) -> u64 {
        self.sound.digest.0
    }
}

/// Wrong: one record for all lines. The lock keeps two calls from running at once; whose call is next it does not know.
static SHARED: Mutex<Option<Record>> = Mutex::new(None);

struct OneStatic {
    sound: Sound,
}

impl Fixture for OneStatic {
    fn open(dealer: &Dealer) -> OneStatic {
        *SHARED.lock().unwrap() = Some(dealer.open());
        OneStatic {
            sound: Sound::new(dealer),
        }
    }

    fn call(&mut self, k: usize) {
        let mut shared = SHARED.lock().unwrap();
        let record = shared.take().expect("a line was opened");
        *shared = Some(self.sound.call(record, k));
    }

    fn digest(&self) -> u64 {
        self.sound.digest.0
    }
}

thread_local! {
    /// Wrong too: one record for each thread. It is the line's for as long as the line is the thread's.
    static MINE: Cell<Option<Record>> = const { Cell::new(None) };
}

struct OnePerThread {
    sound: Sound,
}

impl Fixture for OnePerThread {
    fn open(dealer: &Dealer) -> OnePerThread {
        MINE.set(Some(dealer.open()));
        OnePerThread {
            sound: Sound::new(dealer),
        }
    }

    fn call(&mut self, k: usize) {
        let record = MINE.take().expect("a line was opened on this thread");
        MINE.set(Some(self.sound.call(record, k)));
    }

    fn digest(&self) -> u64 {
        self.sound.digest.0
    }
}

type Digests = [u64; LINES];

/// What the dealers' lines put out, from the first to the last call.
#[rustfmt::skip]
const STORED: Digests = [
    0xd347_9091_53f1_6312, 0xda3a_3be2_ce1d_9546, 0x7fa4_13c9_b985_7e9f, 0xe5ae_feec_195a_7422,
    0x2aa8_30ba_5fc9_0714, 0xa68b_9381_07c9_fc8c, 0x12c5_3a80_51bd_b341, 0xc491_a030_8cdc_80ce,
    0x4fce_8be9_e63d_526c, 0x88fd_ba5d_dfa9_3a8d, 0x6018_862d_5887_5dbd, 0x12c8_31c1_7901_8a7c,
    0x786f_ebe9_a102_0d32, 0x8101_2a94_6a7d_fe4c, 0x18b2_057c_b2e6_69c4, 0x48fa_4591_6460_6e0f,
];

const NONE: Vec<usize> = Vec::new();

/// One line after the other, each opened and run to its end before the next.
fn on_one_thread<F: Fixture>(dealers: &Dealers) -> Digests {
    dealers.each_ref().map(|dealer| {
        let mut line = F::open(dealer);
        for k in 0..CALLS {
            line.call(k);
        }
        line.digest()
    })
}

/// A thread for each line. Before every call all threads meet, so each line has made `k` calls when any line makes the next:
/// they interleave on every run, and not by luck. With `step` 0 a line stays with its thread; with 1 its next call is made by
/// the thread before.
fn on_sixteen_threads<F: Fixture>(dealers: &Dealers, step: usize) -> Digests {
    let barrier = Barrier::new(LINES);
    let lines = dealers.each_ref().map(|_| Mutex::new(None));
    thread::scope(|scope| {
        for (number, dealer) in dealers.iter().enumerate() {
            let (barrier, lines) = (&barrier, &lines);
            scope.spawn(move || {
                *lines[number].lock().unwrap() = Some(F::open(dealer));
                for k in 0..CALLS {
                    barrier.wait();
                    let mut line = lines[(number + k * step) % LINES].lock().unwrap();
                    line.as_mut().expect("every line was opened").call(k);
                }
            });
        }
    });
    lines.map(|line| {
        line.into_inner()
            .unwrap()
            .expect("every line was opened")
            .digest()
    })
}

/// The numbers, from 1 on, of the lines that put out something else.
fn differing(digests: Digests, expected: Digests) -> Vec<usize> {
    let differs = |line: &usize| digests[line - 1] != expected[line - 1];
    (1..=LINES).filter(differs).collect()
}

#[test]
fn by_value_is_the_same_on_any_threads() {
    assert_eq!(differing(on_one_thread::<ByValue>(&DEALERS), STORED), NONE);
    for step in [0, 1] {
        let digests = on_sixteen_threads::<ByValue>(&DEALERS, step);
        assert_eq!(differing(digests, STORED), NONE);
    }
}

/// One test, since the record is one: a second that ran beside it would share it too.
#[test]
fn one_static_record_passes_on_one_thread_and_is_caught_on_sixteen() {
    assert_eq!(
        differing(on_one_thread::<OneStatic>(&DEALERS), STORED),
        NONE
    );
    // The record has the pair of the line that was opened last: every other line's first call is already wrong.
    for step in [0, 1] {
        let digests = on_sixteen_threads::<OneStatic>(&DEALERS, step);
        assert!(differing(digests, STORED).len() >= LINES - 1);
    }

    // With one pair for all nothing is refused. One line's first call gets the fresh record, the others what that left.
    let one_pair = std::array::from_fn(|k| dealer(1 + k as u64, Encoder, 8, 16));
    let expected = on_one_thread::<ByValue>(&one_pair);
    assert_eq!(
        differing(on_one_thread::<OneStatic>(&one_pair), expected),
        NONE
    );
    let digests = on_sixteen_threads::<OneStatic>(&one_pair, 0);
    assert!(differing(digests, expected).len() >= LINES - 1);
}

#[test]
fn one_record_per_thread_is_caught_where_lines_move() {
    assert_eq!(
        differing(on_one_thread::<OnePerThread>(&DEALERS), STORED),
        NONE
    );
    let stayed = on_sixteen_threads::<OnePerThread>(&DEALERS, 0);
    assert_eq!(differing(stayed, STORED), NONE);
    let moved = on_sixteen_threads::<OnePerThread>(&DEALERS, 1);
    assert_eq!(differing(moved, STORED).len(), LINES);
}

/// The lines that docs/FIXTURES.md quotes are those of this file.
#[test]
fn the_lesson_quotes_this_file() {
    let lesson = include_str!("../../../docs/FIXTURES.md");
    let code: Vec<&str> = lesson
        .split("```rust\n")
        .skip(1)
        .map(|part| part.split("```").next().unwrap())
        .collect();
    assert!(!code.is_empty());
    for quoted in code {
        assert!(
            include_str!("fixtures.rs").contains(quoted),
            "not in this file:\n{quoted}"
        );
    }
}

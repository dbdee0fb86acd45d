//! A dealer line: what it does in a round is fixed by the seed, its number and the round, and by what its own rounds before
//! left. It shares nothing with the others.

use crate::carried::Carried;
use crate::damaged::damaged;
use crate::decimators::Stage;
use crate::digest::Digest;
use crate::line::{thirty, Pair};
use crate::refusals::{calls, openings, parking};
use crate::running::{any_input, parked, resampled, Running};
use crate::signals::any_samples;
use crate::tally::Tally;
use crate::values::Dice;
use crate::wild::{any_signal, made_up, shuffled};

/// How many lines there are, numbered from 1 on.
pub const LINES: u64 = 16;

pub struct Dealer {
    seed: u64,
    pub tally: Tally,
    /// The line that the last round opened. It goes on in this one.
    kept: Option<Running>,
    stages: [Carried; 3],
    /// Samples for calls that are refused, more than any call takes.
    long: Vec<i16>,
}

impl Dealer {
    pub fn new(seed: u64, number: u64) -> Dealer {
        Dealer {
            seed,
            tally: Tally::new(number),
            kept: None,
            stages: Stage::ALL.map(Carried::new),
            long: any_samples(49_000, &mut dice_of(seed, number, 0)),
        }
    }

    /// A line is opened and called twice with each signal, and between its calls everything else is done.
    pub fn round(&mut self, round: u64) {
        let number = self.tally.number;
        let dice = &mut dice_of(self.seed, number, round);
        self.tally.begin(round);
        let pair = pair(number, round);
        let mut line = Running::open(pair, &mut self.tally, dice);
        for (k, signal) in shuffled(dice).into_iter().enumerate() {
            line.go_on(signal, &mut self.tally, dice);
            self.between(k, &line, dice);
        }
        line.through_a_block(&mut self.tally);
        for signal in shuffled(dice) {
            line.go_on(signal, &mut self.tally, dice);
        }
        self.kept = Some(line);
    }

    fn between(&mut self, k: usize, line: &Running, dice: &mut Dice) {
        let tally = &mut self.tally;
        match k {
            0 => {
                if let Some(kept) = &mut self.kept {
                    kept.go_on(any_signal, tally, dice);
                }
            }
            1 => {
                openings(tally, dice);
                calls(line.pair, line.record, &self.long, tally, dice);
                parking(line.record, tally, dice);
            }
            2 => damaged(&line.record, tally, dice),
            3 => made_up_records(line.pair, &self.long, tally, dice),
            _ => {
                for stage in &mut self.stages {
                    stage.run(&self.long, tally, dice);
                }
            }
        }
    }
}

/// Records that no call made: parked without their dead entries, refused as any other, and converted. What that makes is the
/// definition's alone to say, and so goes into the digest and is compared with nothing.
fn made_up_records(pair: Pair, long: &[i16], tally: &mut Tally, dice: &mut Dice) {
    let mut record = made_up(pair, dice);
    let cleaned = record.cleaned(&pair.live());
    parked(record, cleaned.block(), tally);
    calls(pair, record, long, tally, dice);
    for _ in 0..2 {
        let input = any_input(pair, 40, dice);
        (record, _) = resampled(pair, record, &input, tally, dice);
    }
}

fn dice_of(seed: u64, number: u64, round: u64) -> Dice {
    let mut mixed = Digest::new();
    for part in [seed, number, round] {
        mixed.number(part);
    }
    Dice::new(mixed.value)
}

/// In fifteen rounds the sixteen lines meet every pair eight times, and in thirty each line meets every pair once.
fn pair(number: u64, round: u64) -> Pair {
    let (number, round) = (number - 1, round - 1);
    thirty()[((LINES * round + number + round / 15) % 30) as usize]
}

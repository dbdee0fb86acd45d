//! Lines that calls reached from opening, in ours and in what it is compared with; and calls of ours alone.

use crate::described::{left, named};
use crate::line::{others, Other, Pair, Record, OTHERS};
use crate::ours;
use crate::refusals::opened;
use crate::signals::Signal;
use crate::tally::Tally;
use crate::values::Dice;
use crate::wild::any_signal;
use crate::{untouched, UNTOUCHED};

pub struct Running {
    pub pair: Pair,
    pub record: Record,
    others: Vec<(&'static str, Box<dyn Other>)>,
}

impl Running {
    pub fn open(pair: Pair, tally: &mut Tally, dice: &mut Dice) -> Running {
        let [from, to] = [pair.in_khz, pair.out_khz].map(|khz| 1000 * khz as i32);
        // Any number but 0 is the encoder's.
        let for_enc = match pair.direction {
            0 => 0,
            _ => [1, -1, i32::MIN, 256][dice.between(0, 3) as usize],
        };
        // The original stands first; where it is not built in, nothing that converts stands there.
        let built_in = OTHERS.into_iter().zip(others(pair));
        Running {
            pair,
            record: opened(from, to, for_enc, tally).record,
            others: built_in.skip(cfg!(not(original)) as usize).collect(),
        }
    }

    /// A call of 1 to 1,000 ms, and now and then a block behind it.
    pub fn go_on(&mut self, signal: Signal, tally: &mut Tally, dice: &mut Dice) {
        let milliseconds = match dice.between(0, 9) {
            0 => 1,
            1 => 1000,
            2..=5 => dice.between(1, 20),
            6..=8 => dice.between(1, 200),
            _ => dice.between(1, 1000),
        };
        let input = signal(milliseconds as usize * self.pair.in_khz, dice);
        self.call(&input, tally, dice);
        if dice.between(0, 3) == 0 {
            self.through_a_block(tally);
        }
    }

    fn call(&mut self, input: &[i16], tally: &mut Tally, dice: &mut Dice) {
        let (record, out) = resampled(self.pair, self.record, input, tally, dice);
        self.record = record;
        tally.compared += self.pair.made(input.len()) as u64;
        for (who, other) in &mut self.others {
            let mut theirs = vec![UNTOUCHED; out.len()];
            other.call(input, &mut theirs);
            let named = |what: String| {
                let (pair, samples) = (self.pair.named(), input.len());
                format!("{pair}, {samples} samples, {what} beside {who}")
            };
            tally.same(&out, &theirs, |k| named(format!("place {k}")));
            let shown = other.record();
            if shown != record {
                let [ours, theirs] = [record, shown].map(|record| entries(&record));
                tally.same(&ours, &theirs, |k| named(entry(k)));
            }
        }
    }

    /// Parks the record and resumes it: the block is the one described, and the record comes back.
    pub fn through_a_block(&mut self, tally: &mut Tally) {
        let block = parked(self.record, self.record.block(), tally);
        let resumed = ours::resume(&block);
        tally.blocks += 1;
        tally.line(&resumed);
        tally.due(resumed == left(0, self.record), [resumed.row, 0], || {
            format!("resuming {}", self.pair.named())
        });
        self.record = resumed.record;
    }
}

/// Parks a record. The block has to be just this one.
pub fn parked(record: Record, expected: [u8; 512], tally: &mut Tally) -> [u8; 512] {
    let mut block = [255; 512];
    let line = ours::park(record, &mut block);
    tally.line(&line);
    tally.digest.bytes(&block);
    tally.due(line == left(0, record), [line.row, 0], || {
        format!("parking {}", named(&record))
    });
    tally.same(&block, &expected, |k| {
        format!("a block of {}, byte {k}", named(&record))
    });
    block
}

/// Any samples of at most so many milliseconds.
pub fn any_input(pair: Pair, most: i64, dice: &mut Dice) -> Vec<i16> {
    let milliseconds = dice.between(1, most) as usize;
    any_signal(milliseconds * pair.in_khz, dice)
}

/// Ours alone: the record, its dead entries zero, and the output of a call that is done, with up to two places behind its
/// samples.
pub fn resampled(
    pair: Pair,
    record: Record,
    input: &[i16],
    tally: &mut Tally,
    dice: &mut Dice,
) -> (Record, Vec<i16>) {
    let made = pair.made(input.len());
    let mut out = vec![UNTOUCHED; made + dice.between(0, 2) as usize];
    let line = ours::resample(record, &mut out, input);
    tally.line(&line);
    tally.wrote(made, &out);
    let done = (line.row, line.written) == (0, made);
    let clean = line.record == line.record.cleaned(&pair.live());
    let holds = done && clean && untouched(&out[made..]);
    tally.due(holds, [line.row, 0], || {
        format!("{}, {} samples", pair.named(), input.len())
    });
    (line.record, out)
}

/// The entries of a record, one behind the other.
fn entries(record: &Record) -> Vec<i32> {
    let pair = [record.direction, record.in_khz, record.out_khz].map(i32::from);
    let (samples, delay) = (record.samples.map(i32::from), record.delay.map(i32::from));
    [
        &pair[..],
        &record.doubler,
        &samples,
        &record.ar2,
        &record.fir,
        &delay,
    ]
    .concat()
}

/// Which entry stands at a place of them.
fn entry(mut place: usize) -> String {
    let arrays = [
        ("the pair's number", 3),
        ("the doubler's word", 6),
        ("sample", 8),
        ("AR2's word", 2),
        ("the filter's word", 36),
        ("delay sample", 48),
    ];
    for (name, length) in arrays {
        if place < length {
            return format!("{name} {place}");
        }
        place -= length;
    }
    unreachable!("a record has 103 entries")
}

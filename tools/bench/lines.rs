//! Compares the thirty conversions with the Rust original and with libopus: every output sample and every live entry of the
//! record; and parked blocks and refusals with what the requirements say of them.
//! Run: lines [SAMPLES], how many output samples to compare at the least.

#[allow(dead_code)]
#[path = "../suite/described.rs"]
mod described;
#[cfg(libopus)]
#[allow(dead_code)]
mod libopus;
mod line;
mod signals;
#[path = "../oracle/values.rs"]
mod values;

use described::described;
use line::{init, others, park, resampler, resume, seal, thirty};
use line::{Line, Other, Pair, Record, OTHERS};
use signals::{any_samples, SIGNALS};
use values::Dice;

/// What an untouched place holds.
const UNTOUCHED: i16 = 12345;

#[derive(Default)]
struct Tally {
    calls: u64,
    samples: u64,
    libopus_samples: u64,
    refused: u64,
    blocks: u64,
    damaged: u64,
    differ: u64,
}

impl Tally {
    fn wrong(&mut self, differ: u64, what: String) {
        if differ > 0 && self.differ < 20 {
            println!("{what}");
        }
        self.differ += differ;
    }

    fn hold(&mut self, holds: bool, what: impl Fn() -> String) {
        if !holds {
            self.wrong(1, what());
        }
    }
}

/// A line that goes on from call to call, in each implementation.
struct Running {
    pair: Pair,
    ours: Record,
    others: Vec<Box<dyn Other>>,
}

impl Running {
    fn fresh(pair: Pair) -> Running {
        Running {
            pair,
            ours: Record::fresh(pair),
            others: others(pair),
        }
    }

    /// From a record that no call made: libopus is not asked, for in C a sum that overflows means nothing.
    fn made_up(pair: Pair, record: Record) -> Running {
        let mut running = Running::fresh(pair);
        running.ours = record;
        running.others.truncate(1);
        running.others[0].set(&record);
        running
    }

    fn call(&mut self, input: &[i16], tally: &mut Tally) {
        let made = self.pair.made(input.len());
        let mut out = vec![UNTOUCHED; made + 2];
        let line = resampler(self.ours, &mut out, input);
        self.ours = line.record;
        let what = |who| {
            format!(
                "{}, {} samples: differs from {who}",
                self.pair.named(),
                input.len()
            )
        };
        tally.hold((line.row, line.written) == (0, made), || {
            what("a call that is done")
        });
        for (k, other) in self.others.iter_mut().enumerate() {
            let mut theirs = vec![UNTOUCHED; made + 2];
            other.call(input, &mut theirs);
            let apart = out.iter().zip(&theirs).filter(|(a, b)| a != b).count() as u64;
            let record = (other.record() != self.ours) as u64;
            tally.wrong(apart + record, what(OTHERS[k]));
        }
        tally.calls += 1;
        tally.samples += made as u64;
        if self.others.len() > 1 {
            tally.libopus_samples += made as u64;
        }
    }

    /// Parks ours and resumes it: the block is the one described, and the record comes back.
    fn through_a_block(&mut self, tally: &mut Tally) {
        let mut block = [255; 512];
        let parked = park(self.ours, &mut block);
        let resumed = resume(&block);
        let named = || format!("{}: a block differs", self.pair.named());
        tally.hold(
            done(&parked, self.ours) && block == self.ours.block(),
            named,
        );
        tally.hold(done(&resumed, self.ours), named);
        self.ours = resumed.record;
        tally.blocks += 1;
    }
}

fn done(line: &Line, record: Record) -> bool {
    let expected = Line {
        row: 0,
        written: 0,
        record,
    };
    *line == expected
}

fn main() {
    let least = match std::env::args().nth(1) {
        None => 100_000_000,
        Some(word) => word.parse().unwrap_or_else(|_| {
            eprintln!("usage: lines [SAMPLES]");
            std::process::exit(2);
        }),
    };
    let mut tally = Tally::default();
    let mut dice = Dice::new(1);
    openings(&mut tally);
    for pair in thirty() {
        set_lengths(pair, &mut tally, &mut dice);
        made_up_records(pair, &mut tally, &mut dice);
        refusals(pair, &mut tally, &mut dice);
        damaged_blocks(pair, &mut tally, &mut dice);
    }
    unsupported_pairs(&mut tally, &mut dice);
    let mut running: Vec<Running> = thirty().into_iter().map(Running::fresh).collect();
    while tally.samples < least {
        for line in &mut running {
            any_call(line, &mut tally, &mut dice);
        }
    }
    println!(
        "30 conversions, {} calls, {} refusals, {} blocks, {} damaged; of the samples {} also with libopus",
        tally.calls, tally.refused, tally.blocks, tally.damaged, tally.libopus_samples
    );
    println!("{} samples, {} differ", tally.samples, tally.differ);
    std::process::exit((tally.differ != 0) as i32);
}

/// Every pair of eight numbers, five of them rates, in both directions; any number but 0 is the encoder's.
fn openings(tally: &mut Tally) {
    let numbers = [8000, 12000, 16000, 24000, 48000, 0, 8001, -8000];
    for in_hz in numbers {
        for out_hz in numbers {
            for for_enc in [0, 1, -5, i32::MIN] {
                let pair = Pair {
                    direction: (for_enc != 0) as u8,
                    in_khz: in_hz as usize / 1000,
                    out_khz: out_hz as usize / 1000,
                };
                let whole = in_hz % 1000 == 0 && out_hz % 1000 == 0;
                let (row, record) = if whole && thirty().contains(&pair) {
                    (0, Record::fresh(pair))
                } else {
                    (1, Record::BLANK)
                };
                let expected = Line {
                    row,
                    written: 0,
                    record,
                };
                let line = init(in_hz, out_hz, for_enc);
                tally.hold(line == expected, || {
                    format!("opening {in_hz} to {out_hz}, {for_enc}")
                });
                tally.refused += (row != 0) as u64;
            }
        }
    }
}

/// Two calls in a row from a fresh record, of each of these many milliseconds and each signal.
fn set_lengths(pair: Pair, tally: &mut Tally, dice: &mut Dice) {
    let lengths = (1..=12).chain([19, 20, 21, 30, 31, 100, 171, 999, 1000]);
    for milliseconds in lengths {
        for signal in SIGNALS {
            let mut line = Running::fresh(pair);
            for _ in 0..2 {
                line.call(&signal(milliseconds * pair.in_khz, dice), tally);
                line.through_a_block(tally);
            }
        }
    }
}

/// Records whose words are any, or near where 32 bits end, and whose dead entries are not zero.
fn made_up_records(pair: Pair, tally: &mut Tally, dice: &mut Dice) {
    for round in 0..200 {
        let record = any_record(pair, round % 2 == 1, dice);
        let mut line = Running::made_up(pair, record);
        let mut block = [0; 512];
        let parked = park(record, &mut block);
        let cleaned = record.cleaned(&pair.live());
        let holds = done(&parked, record) && block == cleaned.block();
        tally.hold(holds, || {
            format!("{}: a made-up record's block differs", pair.named())
        });
        for signal in [any_samples, SIGNALS[2]] {
            let milliseconds = dice.between(1, 12) as usize;
            line.call(&signal(milliseconds * pair.in_khz, dice), tally);
        }
        line.through_a_block(tally);
    }
}

fn any_record(pair: Pair, extreme: bool, dice: &mut Dice) -> Record {
    let mut word = || {
        if extreme {
            i32::MAX.wrapping_add(dice.between(-3, 4) as i32)
        } else {
            dice.word()
        }
    };
    Record {
        doubler: std::array::from_fn(|_| word()),
        samples: std::array::from_fn(|_| (word() >> 16) as i16),
        ar2: std::array::from_fn(|_| word()),
        fir: std::array::from_fn(|_| word()),
        delay: std::array::from_fn(|_| (word() >> 16) as i16),
        ..Record::fresh(pair)
    }
}

/// Lengths and rooms around every limit: the first row that applies refuses the call, and nothing changes.
fn refusals(pair: Pair, tally: &mut Tally, dice: &mut Dice) {
    let k = pair.in_khz;
    let most = 1000 * k;
    let lengths = [
        0,
        1,
        k - 1,
        k,
        k + 1,
        2 * k,
        most - 1,
        most,
        most + 1,
        most + k,
    ];
    for samples in lengths {
        let made = pair.made(samples);
        let rooms = [0, made.saturating_sub(1), made, made + 1];
        for room in rooms {
            let record = any_record(pair, false, dice);
            let row = if samples == 0 || samples % k != 0 {
                3
            } else if samples > most {
                4
            } else if room < made {
                5
            } else {
                0
            };
            ruled(record, row, made, samples, room, tally, dice);
        }
    }
}

/// The first row is tested before the others, also where one of them applies.
fn unsupported_pairs(tally: &mut Tally, dice: &mut Dice) {
    let fresh = Pair {
        direction: 1,
        in_khz: 8,
        out_khz: 16,
    };
    let pairs = [
        [0, 0, 0],
        [2, 8, 16],
        [1, 8, 24],
        [0, 24, 8],
        [1, 24, 48],
        [1, 9, 16],
        [255, 255, 255],
    ];
    for [direction, in_khz, out_khz] in pairs {
        for (samples, room) in [(0, 0), (8, 16), (7, 16), (48_001, 0)] {
            let record = Record {
                direction,
                in_khz,
                out_khz,
                ..any_record(fresh, false, dice)
            };
            ruled(record, 2, 0, samples, room, tally, dice);
            for room in [512, 511, 0] {
                let mut block = vec![77; room];
                let line = park(record, &mut block);
                let kept = block.iter().all(|byte| *byte == 77);
                let expected = Line {
                    row: 2,
                    written: 0,
                    record,
                };
                tally.hold(line == expected && kept, || "parking no pair".into());
                tally.refused += 1;
            }
        }
    }
    for pair in thirty() {
        for room in [0, 1, 511, 513, 1024] {
            let record = any_record(pair, false, dice);
            let mut block = vec![77; room];
            let line = park(record, &mut block);
            let kept = block.iter().all(|byte| *byte == 77);
            let expected = Line {
                row: 8,
                written: 0,
                record,
            };
            tally.hold(line == expected && kept, || {
                format!("parking into {room} bytes")
            });
            tally.refused += 1;
        }
    }
}

fn ruled(
    record: Record,
    row: u8,
    made: usize,
    samples: usize,
    room: usize,
    tally: &mut Tally,
    dice: &mut Dice,
) {
    let mut out = vec![UNTOUCHED; room];
    let line = resampler(record, &mut out, &any_samples(samples, dice));
    let untouched = if row == 0 { made } else { 0 };
    let kept = out[untouched..].iter().all(|place| *place == UNTOUCHED);
    let holds = match row {
        0 => (line.row, line.written) == (0, made),
        _ => {
            line == Line {
                row,
                written: 0,
                record,
            }
        }
    };
    tally.hold(holds && kept, || {
        format!(
            "{samples} samples into {room} places: {}, not {row}",
            line.row
        )
    });
    tally.refused += (row != 0) as u64;
}

/// Copies of a good block: each byte changed, as it is and with the check made right again; and of other lengths.
fn damaged_blocks(pair: Pair, tally: &mut Tally, dice: &mut Dice) {
    let record = any_record(pair, false, dice).cleaned(&pair.live());
    let good = record.block();
    for place in 0..512 {
        for sealed in [false, true] {
            let mut block = good;
            block[place] ^= dice.between(1, 255) as u8;
            if sealed {
                seal(&mut block);
            }
            resumed(&block, tally);
        }
    }
    for bytes in [0, 1, 508, 511, 513, 1024] {
        let mut block = good.to_vec();
        block.resize(bytes, 0);
        resumed(&block, tally);
    }
}

/// What resuming has to leave, from the bytes alone.
fn resumed(bytes: &[u8], tally: &mut Tally) {
    let expected = described(bytes);
    let line = resume(bytes);
    tally.hold(line == expected, || {
        format!("a damaged block: {}, not {}", line.row, expected.row)
    });
    tally.damaged += 1;
}

/// Mostly short calls; now and then a long one, and now and then through a block.
fn any_call(line: &mut Running, tally: &mut Tally, dice: &mut Dice) {
    let most = [20, 20, 20, 60, 60, 120, 250, 1000][dice.between(0, 7) as usize];
    let milliseconds = dice.between(1, most) as usize;
    let signal = SIGNALS[[0, 0, 0, 1, 2, 2, 3, 4][dice.between(0, 7) as usize]];
    line.call(&signal(milliseconds * line.pair.in_khz, dice), tally);
    if dice.between(0, 3) == 0 {
        line.through_a_block(tally);
    }
}

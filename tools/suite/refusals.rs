//! Refused calls of opening, resampling and parking: each is refused by the row that has to, writes nothing, and hands back
//! what it was given. Those of resuming are in damaged.rs, those of the decimators and the split in carried.rs.

use crate::described::{left, named, pair_in};
use crate::line::{thirty, Line, Pair, Record};
use crate::ours;
use crate::tally::Tally;
use crate::values::Dice;
use crate::{untouched, UNTOUCHED};

/// Opens a line of any numbers: the fresh record of a pair, or the first row.
pub fn opened(in_hz: i32, out_hz: i32, for_enc: i32, tally: &mut Tally) -> Line {
    let hz = |khz: usize| 1000 * khz as i32;
    let named = |pair: &Pair| {
        (pair.direction != 0, hz(pair.in_khz), hz(pair.out_khz)) == (for_enc != 0, in_hz, out_hz)
    };
    let (row, record) = match thirty().into_iter().find(named) {
        Some(pair) => (0, Record::fresh(pair)),
        None => (1, Record::BLANK),
    };
    let line = ours::open(in_hz, out_hz, for_enc);
    tally.line(&line);
    tally.due(line == left(row, record), [line.row, row], || {
        format!("opening {in_hz} to {out_hz}, {for_enc}")
    });
    line
}

/// Openings of rates and of other numbers, the last one to no rate.
pub fn openings(tally: &mut Tally, dice: &mut Dice) {
    for _ in 0..4 {
        let for_enc = [0, number(dice)][dice.between(0, 1) as usize];
        opened(number(dice), number(dice), for_enc, tally);
    }
    opened(number(dice), 44100, number(dice), tally);
}

/// Mostly a rate in Hz.
fn number(dice: &mut Dice) -> i32 {
    match dice.between(0, 15) as usize {
        k @ 0..=11 => [8000, 12000, 16000, 24000, 48000, 8001][k / 2],
        12 => -8000,
        13 => 8,
        _ => dice.word(),
    }
}

/// A call of each row on a record; `long` has more samples than any of them takes.
pub fn calls(pair: Pair, record: Record, long: &[i16], tally: &mut Tally, dice: &mut Dice) {
    let k = pair.in_khz as i64;
    let mut any = |low: i64, high: i64| dice.between(low, high) as usize;
    let (samples, room) = (any(0, 1001 * k), any(0, 600));
    let part = any(0, 1001) * pair.in_khz + any(1, k - 1);
    let over = any(1001, 1020) * pair.in_khz;
    let whole = any(1, 1000) * pair.in_khz;
    let short = any(0, pair.made(whole) as i64 - 1);
    let enough = pair.made(over) - any(0, 1);
    let nothing = no_pair(record, dice);
    refused(2, nothing, &long[..samples], room, tally);
    refused(2, nothing, &long[..0], 0, tally);
    refused(3, record, &long[..0], room, tally);
    refused(3, record, &long[..part], room, tally);
    refused(4, record, &long[..over], room, tally);
    refused(4, record, &long[..over], enough, tally);
    refused(5, record, &long[..whole], short, tally);
    refused(5, record, &long[..whole], pair.made(whole) - 1, tally);
}

fn refused(row: u8, record: Record, input: &[i16], room: usize, tally: &mut Tally) {
    let mut out = vec![UNTOUCHED; room];
    let line = ours::resample(record, &mut out, input);
    ruled(row, record, line, untouched(&out), tally, || {
        format!("{} samples, {room} places", input.len())
    });
}

/// Parking a record of no pair, whatever the bytes, and any record in other than 512 bytes.
pub fn parking(record: Record, tally: &mut Tally, dice: &mut Dice) {
    let nothing = no_pair(record, dice);
    let few = dice.between(1, 511) as usize;
    let rows = [(2, nothing, 512), (2, nothing, few)];
    let lengths = [0, few, 511, 513];
    let rows = rows
        .into_iter()
        .chain(lengths.map(|bytes| (8, record, bytes)));
    for (row, record, bytes) in rows {
        let mut block = vec![77; bytes];
        let line = ours::park(record, &mut block);
        let kept = block.iter().all(|byte| *byte == 77);
        ruled(row, record, line, kept, tally, || {
            format!("parking into {bytes} bytes")
        });
    }
}

fn ruled(
    row: u8,
    record: Record,
    line: Line,
    kept: bool,
    tally: &mut Tally,
    what: impl FnOnce() -> String,
) {
    tally.line(&line);
    let holds = line == left(row, record) && kept;
    tally.due(holds, [line.row, row], || {
        format!("{}, {}", named(&record), what())
    });
}

/// The record with a direction and rates that are no pair.
fn no_pair(record: Record, dice: &mut Dice) -> Record {
    let near = [[0, 0, 0], [2, 8, 16], [1, 8, 24], [0, 24, 8], [1, 24, 48]];
    let [direction, in_khz, out_khz] = match dice.between(0, 6) as usize {
        k @ 0..=4 => near[k],
        _ => [(); 3].map(|()| dice.sample() as u8),
    };
    let other = Record {
        direction,
        in_khz,
        out_khz,
        ..record
    };
    match pair_in(&other) {
        None => other,
        Some(_) => no_pair(record, dice),
    }
}

//! Damaged blocks.

use crate::described::{described, named, pair_in};
use crate::line::{seal, Record};
use crate::ours;
use crate::running::{any_input, resampled};
use crate::tally::Tally;
use crate::values::Dice;

/// From where to where a byte is changed, and whether the check is made right again. Together they come to every row.
const DAMAGE: [(i64, i64, bool); 8] = [
    (0, 511, false),
    (508, 511, false),
    (3, 3, true),
    (0, 2, true),
    (292, 507, true),
    (4, 291, true),
    (4, 291, true),
    (4, 291, true),
];

/// Copies of a record's block, each with a byte changed, and copies of other lengths.
pub fn damaged(record: &Record, tally: &mut Tally, dice: &mut Dice) {
    let good = record.block();
    for (first, last, sealed) in DAMAGE {
        let mut block = good;
        block[dice.between(first, last) as usize] ^= dice.between(1, 255) as u8;
        if sealed {
            seal(&mut block);
        }
        given(record, &block, tally, dice);
    }
    for bytes in [0, 511, 513, dice.between(1, 511) as usize] {
        let mut block = good.to_vec();
        block.resize(bytes, 0);
        given(record, &block, tally, dice);
    }
}

/// Resumes what became of a record's block. What is accepted is a made-up record, which converts.
fn given(of: &Record, bytes: &[u8], tally: &mut Tally, dice: &mut Dice) {
    let expected = described(bytes);
    let line = ours::resume(bytes);
    tally.blocks += 1;
    tally.line(&line);
    tally.due(line == expected, [line.row, expected.row], || {
        format!("a damaged block of {}", named(of))
    });
    if let (0, Some(pair)) = (line.row, pair_in(&line.record)) {
        let input = any_input(pair, 12, dice);
        resampled(pair, line.record, &input, tally, dice);
    }
}

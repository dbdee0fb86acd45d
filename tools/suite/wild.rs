//! Words, records and signals by the dice.

use crate::described::record_in;
use crate::line::{Pair, Record};
use crate::signals::{Signal, SIGNALS};
use crate::values::Dice;

/// A call's samples, of any of the signals.
pub fn any_signal(samples: usize, dice: &mut Dice) -> Vec<i16> {
    let last = SIGNALS.len() as i64 - 1;
    SIGNALS[dice.between(0, last) as usize](samples, dice)
}

/// The signals in any order.
pub fn shuffled(dice: &mut Dice) -> Vec<Signal> {
    let mut left = SIGNALS.to_vec();
    let mut all = vec![];
    while !left.is_empty() {
        let at = dice.between(0, left.len() as i64 - 1);
        all.push(left.swap_remove(at as usize));
    }
    all
}

/// Words that no call need have made: any, or all of them near where 32 bits end.
pub fn wild_words<const N: usize>(dice: &mut Dice) -> [i32; N] {
    let extreme = dice.between(0, 1) == 1;
    let mut word = || {
        if extreme {
            i32::MAX.wrapping_add(dice.between(-3, 4) as i32)
        } else {
            dice.word()
        }
    };
    std::array::from_fn(|_| word())
}

/// A made-up record of a pair: no entry need be what a call makes, and dead ones are not zero.
pub fn made_up(pair: Pair, dice: &mut Dice) -> Record {
    let words: [i32; 128] = wild_words(dice);
    let mut block = [0; 512];
    for (bytes, word) in block.chunks_exact_mut(4).zip(words) {
        bytes.copy_from_slice(&word.to_le_bytes());
    }
    Record {
        direction: pair.direction,
        in_khz: pair.in_khz as u8,
        out_khz: pair.out_khz as u8,
        ..record_in(&block)
    }
}

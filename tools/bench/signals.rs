//! The signals that are asked about.

use crate::values::Dice;

pub type Signal = fn(usize, &mut Dice) -> Vec<i16>;

pub const SIGNALS: [Signal; 5] = [any_samples, full_scale, extreme_samples, impulse, silence];

pub fn any_samples(length: usize, dice: &mut Dice) -> Vec<i16> {
    (0..length).map(|_| dice.sample()).collect()
}

/// The largest and the smallest sample by turns.
fn full_scale(length: usize, _: &mut Dice) -> Vec<i16> {
    (0..length).map(|k| [i16::MAX, i16::MIN][k % 2]).collect()
}

/// The largest and the smallest sample in any order.
fn extreme_samples(length: usize, dice: &mut Dice) -> Vec<i16> {
    (0..length)
        .map(|_| [i16::MAX, i16::MIN][dice.between(0, 1) as usize])
        .collect()
}

fn impulse(length: usize, dice: &mut Dice) -> Vec<i16> {
    let mut samples = vec![0; length];
    if let Some(first) = samples.first_mut() {
        *first = dice.sample();
    }
    samples
}

fn silence(length: usize, _: &mut Dice) -> Vec<i16> {
    vec![0; length]
}

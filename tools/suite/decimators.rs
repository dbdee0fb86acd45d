//! The two decimators and the split behind one interface: ours, the original's and libopus's. Where there are two bands, the
//! high one stands behind the low one in one output. Words that a stage does not carry are zero.

use crate::ours::{self, Left};

#[derive(Clone, Copy)]
pub enum Stage {
    Down2,
    Split,
    Down23,
}

/// The most samples that a call takes.
pub const MOST: usize = 48_000;

/// What a call left.
#[derive(Clone, Copy, PartialEq)]
pub struct After {
    pub row: u8,
    pub written: usize,
    pub words: [i32; 6],
}

impl<const N: usize> From<Left<N>> for After {
    fn from(left: Left<N>) -> After {
        let mut words = [0; 6];
        words[..N].copy_from_slice(&left.words.w);
        After {
            row: left.row,
            written: left.written,
            words,
        }
    }
}

impl Stage {
    pub const ALL: [Stage; 3] = [Stage::Down2, Stage::Split, Stage::Down23];

    pub fn name(self) -> &'static str {
        match self {
            Stage::Down2 => "the 1/2 decimator",
            Stage::Split => "the split",
            Stage::Down23 => "the 2/3 decimator",
        }
    }

    /// So many samples go in together.
    pub fn unit(self) -> usize {
        match self {
            Stage::Down2 | Stage::Split => 2,
            Stage::Down23 => 3,
        }
    }

    /// So many samples of each band come out. Two bands and the 1/2 decimator take outputs of just the length.
    pub fn made(self, samples: usize) -> usize {
        samples / self.unit() * (self.unit() - 1)
    }

    pub fn bands(self) -> usize {
        match self {
            Stage::Down2 | Stage::Down23 => 1,
            Stage::Split => 2,
        }
    }

    /// How many words it carries.
    pub fn words(self) -> usize {
        match self {
            Stage::Down2 | Stage::Split => 2,
            Stage::Down23 => 6,
        }
    }

    /// Of the output so many places are the low band's, and the others the high one's.
    pub fn ours(self, words: [i32; 6], out: &mut [i16], low: usize, input: &[i16]) -> After {
        let two = [words[0], words[1]];
        match self {
            Stage::Down2 => ours::down2(two, out, input).into(),
            Stage::Split => {
                let (low, high) = out.split_at_mut(low);
                ours::split(two, low, high, input).into()
            }
            Stage::Down23 => ours::down2_3(words, out, input).into(),
        }
    }
}

/// A call of another implementation: its output. The words become those after the call.
pub type Call = fn(Stage, &mut [i32; 6], &[i16]) -> Vec<i16>;

pub const OTHERS: &[(&str, Call)] = &[
    #[cfg(original)]
    ("the Rust", original),
    #[cfg(libopus)]
    ("libopus", libopus),
];

#[cfg(original)]
fn original(stage: Stage, words: &mut [i32; 6], input: &[i16]) -> Vec<i16> {
    let asked = match stage {
        Stage::Down2 => crate::stages::down2(),
        Stage::Split => crate::stages::split(),
        Stage::Down23 => crate::stages::down2_3(),
    };
    let out = asked.call(&mut words[..stage.words()], input);
    // Behind its samples there may be places that it got lent besides.
    let made = stage.bands() * stage.made(input.len());
    out[..made].iter().map(|sample| *sample as i16).collect()
}

#[cfg(libopus)]
fn libopus(stage: Stage, words: &mut [i32; 6], input: &[i16]) -> Vec<i16> {
    use crate::libopus::{silk_ana_filt_bank_1, silk_resampler_down2, silk_resampler_down2_3};
    let made = stage.made(input.len());
    let mut out = vec![0; stage.bands() * made];
    let (words, at) = (words.as_mut_ptr(), out.as_mut_ptr());
    let (from, samples) = (input.as_ptr(), input.len() as i32);
    // Each writes as many samples as `made` says, to each band.
    unsafe {
        match stage {
            Stage::Down2 => silk_resampler_down2(words, at, from, samples),
            Stage::Split => silk_ana_filt_bank_1(from, words, at, at.add(made), samples),
            Stage::Down23 => silk_resampler_down2_3(words, at, from, samples),
        }
    }
    out
}

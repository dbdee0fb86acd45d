//! What the tests share: the thirty pairs with the entries that each uses, written from the definitions of the pairs, and
//! values that are the same on every run.

// No test uses all of it.
#![allow(dead_code)]

use simmerpatch::{Direction, Record};

pub const BLANK: Record = Record {
    direction: 0,
    in_khz: 0,
    out_khz: 0,
    doubler: [0; 6],
    samples: [0; 8],
    ar2: [0; 2],
    fir: [0; 36],
    delay: [0; 48],
};

/// How many entries of each array a pair uses, from the first on.
#[derive(Clone, Copy, Debug, PartialEq)]
pub struct Live {
    pub doubler: usize,
    pub samples: usize,
    pub ar2: usize,
    pub fir: usize,
    pub delay: usize,
}

#[derive(Clone, Copy, Debug, PartialEq)]
pub struct Pair {
    pub direction: Direction,
    pub in_khz: u8,
    pub out_khz: u8,
}

const RATES: [u8; 5] = [8, 12, 16, 24, 48];

/// In input samples: a row for each rate in, a column for each rate out.
const ENCODER_DELAYS: [[usize; 3]; 5] = [[6, 0, 3], [0, 7, 3], [0, 1, 10], [0, 2, 6], [18, 10, 12]];
const DECODER_DELAYS: [[usize; 5]; 3] = [[4, 0, 2, 0, 0], [0, 9, 4, 7, 4], [0, 3, 12, 7, 7]];

pub fn thirty() -> Vec<Pair> {
    let mut pairs = Vec::new();
    for three in &RATES[..3] {
        for five in &RATES {
            pairs.push(pair(Direction::Encoder, *five, *three));
            pairs.push(pair(Direction::Decoder, *three, *five));
        }
    }
    pairs
}

pub fn pair(direction: Direction, in_khz: u8, out_khz: u8) -> Pair {
    Pair {
        direction,
        in_khz,
        out_khz,
    }
}

impl Pair {
    /// As opened.
    pub fn fresh(self) -> Record {
        Record {
            direction: self.direction as u8,
            in_khz: self.in_khz,
            out_khz: self.out_khz,
            ..BLANK
        }
    }

    pub fn input(self, ms: usize) -> usize {
        ms * usize::from(self.in_khz)
    }

    pub fn output(self, ms: usize) -> usize {
        ms * usize::from(self.out_khz)
    }

    pub fn live(self) -> Live {
        let (from, to) = (u32::from(self.in_khz), u32::from(self.out_khz));
        let (doubler, samples, ar2, fir) = match from {
            _ if from == to => (0, 0, 0, 0),
            _ if 2 * from == to => (6, 0, 0, 0),
            _ if from < to => (6, 8, 0, 0),
            _ if 3 * from == 4 * to || 2 * from == 3 * to => (0, 0, 2, 18),
            _ if from == 2 * to => (0, 0, 2, 24),
            _ => (0, 0, 2, 36),
        };
        Live {
            doubler,
            samples,
            ar2,
            fir,
            delay: self.delay(),
        }
    }

    fn delay(self) -> usize {
        let [row, column] = [self.in_khz, self.out_khz].map(|khz| {
            RATES
                .iter()
                .position(|rate| *rate == khz)
                .expect("one of the five")
        });
        match self.direction {
            Direction::Encoder => ENCODER_DELAYS[row][column],
            Direction::Decoder => DECODER_DELAYS[row][column],
        }
    }
}

/// Puts a block's check behind its other bytes: their sum, each times its place counted from 1.
pub fn seal(block: &mut [u8; 512]) {
    let check: u32 = (1..)
        .zip(&block[..508])
        .map(|(place, byte)| place * u32::from(*byte))
        .sum();
    block[508..].copy_from_slice(&check.to_le_bytes());
}

/// The generator splitmix64.
pub struct Dice(pub u64);

impl Dice {
    pub fn next(&mut self) -> u64 {
        self.0 = self.0.wrapping_add(0x9e37_79b9_7f4a_7c15);
        let z = (self.0 ^ (self.0 >> 30)).wrapping_mul(0xbf58_476d_1ce4_e5b9);
        let z = (z ^ (z >> 27)).wrapping_mul(0x94d0_49bb_1331_11eb);
        z ^ (z >> 31)
    }

    pub fn word(&mut self) -> i32 {
        self.next() as i32
    }

    pub fn sample(&mut self) -> i16 {
        self.next() as i16
    }

    pub fn sound(&mut self, samples: usize) -> Vec<i16> {
        (0..samples).map(|_| self.sample()).collect()
    }

    /// With any words and samples, also in entries that the pair does not use.
    pub fn record(&mut self, pair: Pair) -> Record {
        Record {
            doubler: std::array::from_fn(|_| self.word()),
            samples: std::array::from_fn(|_| self.sample()),
            ar2: std::array::from_fn(|_| self.word()),
            fir: std::array::from_fn(|_| self.word()),
            delay: std::array::from_fn(|_| self.sample()),
            ..pair.fresh()
        }
    }
}

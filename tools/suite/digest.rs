//! FNV-1a of 64 bits. Every number goes in as its bytes, the lowest first.

use crate::line::Record;
use std::fmt::{Display, Formatter, Result};

#[derive(Clone, Copy)]
pub struct Digest {
    pub value: u64,
}

impl Digest {
    pub fn new() -> Digest {
        Digest {
            value: 0xcbf2_9ce4_8422_2325,
        }
    }

    pub fn bytes(&mut self, bytes: &[u8]) {
        for byte in bytes {
            self.value = (self.value ^ u64::from(*byte)).wrapping_mul(0x0000_0100_0000_01b3);
        }
    }

    pub fn number(&mut self, number: u64) {
        self.bytes(&number.to_le_bytes());
    }

    pub fn samples(&mut self, samples: &[i16]) {
        for sample in samples {
            self.bytes(&sample.to_le_bytes());
        }
    }

    pub fn words(&mut self, words: &[i32]) {
        for word in words {
            self.bytes(&word.to_le_bytes());
        }
    }

    pub fn record(&mut self, record: &Record) {
        self.bytes(&[record.direction, record.in_khz, record.out_khz]);
        self.words(&record.doubler);
        self.samples(&record.samples);
        self.words(&record.ar2);
        self.words(&record.fir);
        self.samples(&record.delay);
    }
}

impl Display for Digest {
    fn fmt(&self, to: &mut Formatter) -> Result {
        write!(to, "{:016x}", self.value)
    }
}

//! That both sides lay a record out in one way. A record with its own bytes in every live entry is parked by the library, and
//! the block compared with one that is laid out here: a field that lies elsewhere on either side puts a byte out of place.

mod common;

use common::{pair, seal, thirty, Live, Pair, BLANK};
use simmerpatch::{resume, Direction, Record};

/// Where the parts of a block begin.
const DOUBLER: usize = 4;
const SAMPLES: usize = 28;
const AR2: usize = 44;
const FIR: usize = 52;
const DELAY: usize = 196;

/// The block of a pair in which every live byte is another: 64, 65 and so on.
fn block_of(pair: Pair, live: Live) -> [u8; 512] {
    let mut block = [0; 512];
    block[..4].copy_from_slice(&[pair.direction as u8, pair.in_khz, pair.out_khz, 1]);
    let mut bytes = 64..=255;
    let parts = [
        (DOUBLER, 4 * live.doubler),
        (SAMPLES, 2 * live.samples),
        (AR2, 4 * live.ar2),
        (FIR, 4 * live.fir),
        (DELAY, 2 * live.delay),
    ];
    for (at, length) in parts {
        for place in &mut block[at..at + length] {
            *place = bytes.next().expect("no pair has 192 live bytes");
        }
    }
    seal(&mut block);
    block
}

/// The record that stands in a block, field by field.
fn record_in(block: &[u8; 512]) -> Record {
    let word = |at: usize| i32::from_le_bytes(std::array::from_fn(|k| block[at + k]));
    let sample = |at: usize| i16::from_le_bytes(std::array::from_fn(|k| block[at + k]));
    Record {
        direction: block[0],
        in_khz: block[1],
        out_khz: block[2],
        doubler: std::array::from_fn(|k| word(DOUBLER + 4 * k)),
        samples: std::array::from_fn(|k| sample(SAMPLES + 2 * k)),
        ar2: std::array::from_fn(|k| word(AR2 + 4 * k)),
        fir: std::array::from_fn(|k| word(FIR + 4 * k)),
        delay: std::array::from_fn(|k| sample(DELAY + 2 * k)),
    }
}

/// The record with something in each dead entry.
fn soiled(mut record: Record, live: Live) -> Record {
    record.doubler[live.doubler..].fill(-1);
    record.samples[live.samples..].fill(-1);
    record.ar2[live.ar2..].fill(-1);
    record.fir[live.fir..].fill(-1);
    record.delay[live.delay..].fill(-1);
    record
}

fn goes_round(pair: Pair, live: Live) {
    let block = block_of(pair, live);
    let record = record_in(&block);
    for parked in [record, soiled(record, live)] {
        let parked = parked.park().unwrap();
        for (place, (byte, expected)) in parked.iter().zip(&block).enumerate() {
            assert_eq!(byte, expected, "byte {place} of the block of {pair:?}");
        }
    }
    assert_eq!(resume(&block), Ok(record), "{pair:?}");
}

#[test]
fn a_doubler_pair() {
    let live = Live {
        doubler: 6,
        samples: 0,
        ar2: 0,
        fir: 0,
        delay: 3,
    };
    goes_round(pair(Direction::Encoder, 8, 16), live);
}

#[test]
fn an_interpolated_pair() {
    let live = Live {
        doubler: 6,
        samples: 8,
        ar2: 0,
        fir: 0,
        delay: 7,
    };
    goes_round(pair(Direction::Decoder, 16, 48), live);
}

/// With the longest delay of all.
#[test]
fn a_down_pair_of_order_36() {
    let live = Live {
        doubler: 0,
        samples: 0,
        ar2: 2,
        fir: 36,
        delay: 18,
    };
    goes_round(pair(Direction::Encoder, 48, 8), live);
}

/// With the longest delay of a copy pair.
#[test]
fn a_copy_pair() {
    let live = Live {
        doubler: 0,
        samples: 0,
        ar2: 0,
        fir: 0,
        delay: 12,
    };
    goes_round(pair(Direction::Decoder, 16, 16), live);
}

#[test]
fn every_pair() {
    for pair in thirty() {
        goes_round(pair, pair.live());
    }
}

/// One entry at a time, so that no two can stand in for each other.
#[test]
fn every_entry_is_where_its_field_says() {
    for pair in thirty() {
        let full = block_of(pair, pair.live());
        for at in (DOUBLER..508).filter(|at| full[*at] != 0) {
            let mut block = [0; 512];
            block[..4].copy_from_slice(&full[..4]);
            block[at] = full[at];
            seal(&mut block);
            let record = record_in(&block);
            assert_eq!(record.park(), Ok(block), "byte {at} of {pair:?}");
            assert_eq!(resume(&block), Ok(record), "byte {at} of {pair:?}");
        }
    }
}

/// A record of no pair comes back from a refused call as it was, dead entries and all.
#[test]
fn every_entry_comes_back() {
    let mut entries = 1..;
    let mut next = || entries.next().expect("a number");
    let record = Record {
        doubler: std::array::from_fn(|_| next() << 20),
        samples: std::array::from_fn(|_| next() as i16),
        ar2: std::array::from_fn(|_| next() << 20),
        fir: std::array::from_fn(|_| next() << 20),
        delay: std::array::from_fn(|_| next() as i16),
        ..BLANK
    };
    let mut out = [0; 1];
    // Both lengths are those of arrays.
    let line = unsafe {
        simmerpatch::raw::simmerpatch_resample(record, out.as_mut_ptr(), 1, [0; 1].as_ptr(), 1)
    };
    assert_eq!((line.refused, line.written, line.record), (2, 0, record));
}

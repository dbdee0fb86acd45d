//! Parked blocks: what resuming has to leave, worked out from the bytes alone.

use crate::line::{check, thirty, Line, Pair, Record};

/// The entries that the bytes of a block hold, whatever they are.
pub fn record_in(block: &[u8; 512]) -> Record {
    let word = |at: usize| i32::from_le_bytes(block[at..at + 4].try_into().unwrap());
    let sample = |at: usize| i16::from_le_bytes(block[at..at + 2].try_into().unwrap());
    Record {
        direction: block[0],
        in_khz: block[1],
        out_khz: block[2],
        doubler: std::array::from_fn(|k| word(4 + 4 * k)),
        samples: std::array::from_fn(|k| sample(28 + 2 * k)),
        ar2: std::array::from_fn(|k| word(44 + 4 * k)),
        fir: std::array::from_fn(|k| word(52 + 4 * k)),
        delay: std::array::from_fn(|k| sample(196 + 2 * k)),
    }
}

/// The pair that a record names, where it names one.
pub fn pair_in(record: &Record) -> Option<Pair> {
    let named = [record.direction, record.in_khz, record.out_khz].map(usize::from);
    let names = |pair: &Pair| [pair.direction as usize, pair.in_khz, pair.out_khz] == named;
    thirty().into_iter().find(names)
}

/// Its pair, or the three numbers that are none.
pub fn named(record: &Record) -> String {
    let numbers = [record.direction, record.in_khz, record.out_khz];
    let pair = pair_in(record);
    pair.map_or_else(|| format!("{numbers:?}"), |pair| pair.named())
}

/// What a call leaves that writes no samples.
pub fn left(row: u8, record: Record) -> Line {
    Line {
        row,
        written: 0,
        record,
    }
}

/// What resuming has to leave: the first row that applies, or the record.
pub fn described(bytes: &[u8]) -> Line {
    let row = |row| left(row, Record::BLANK);
    let Ok(block) = <&[u8; 512]>::try_from(bytes) else {
        return row(8);
    };
    let record = record_in(block);
    if block[508..] != check(block).to_le_bytes() {
        return row(9);
    }
    if block[3] != 1 {
        return row(10);
    }
    let Some(pair) = pair_in(&record) else {
        return row(11);
    };
    // The block of the record without its dead entries has zeros wherever the pair uses nothing.
    if *block != record.cleaned(&pair.live()).block() {
        return row(12);
    }
    left(0, record)
}

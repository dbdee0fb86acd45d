//! That what this crate answers of lengths, before it calls, is the library's own answer: at every length around every limit.

mod common;

use common::{thirty, Dice, Pair, BLANK};
use simmerpatch::raw::{self, Six, Two};
use simmerpatch::{lengths, open, Direction, Record, Refusal};

/// An answer as C has it: a number, and a count.
fn told(answer: Result<usize, Refusal>) -> (u8, usize) {
    match answer {
        Ok(written) => (0, written),
        Err(refusal) => (refusal.number(), 0),
    }
}

/// Rooms from two fewer to two more than this, and none.
fn around(room: usize) -> impl Iterator<Item = usize> {
    (room.saturating_sub(2)..=room + 2).chain([0])
}

/// Every length up to two milliseconds, and from a millisecond under the most to a millisecond over it.
fn resampled(pair: Pair) -> impl Iterator<Item = usize> {
    (0..=pair.input(2) + 1).chain(pair.input(999) - 1..=pair.input(1001) + 1)
}

fn resample(record: Record, n: usize, room: usize) -> (u8, usize) {
    let (mut out, input) = (vec![0; room], vec![0; n]);
    // The lengths are those of the lists; so in the other calls here.
    let line =
        unsafe { raw::simmerpatch_resample(record, out.as_mut_ptr(), room, input.as_ptr(), n) };
    (line.refused, line.written)
}

#[test]
fn resampling() {
    for pair in thirty() {
        let record = pair.fresh();
        for n in resampled(pair) {
            for room in around(pair.output(n / pair.input(1))) {
                let ours = lengths::resample(&record, n, room);
                assert_eq!(
                    told(ours),
                    resample(record, n, room),
                    "{pair:?}, {n} samples into {room}"
                );
            }
        }
    }
}

/// Row 2 comes before all others, and the library's list of pairs is ours.
#[test]
fn pairs() {
    let mut block = [0; 511];
    let mut supported = 0;
    for direction in [0, 1, 2, 3, 128, 255] {
        for in_khz in 0..=255 {
            for out_khz in 0..=255 {
                let record = Record {
                    direction,
                    in_khz,
                    out_khz,
                    ..BLANK
                };
                let theirs =
                    unsafe { raw::simmerpatch_park(record, block.as_mut_ptr(), block.len()) };
                let ours = lengths::park(&record, block.len());
                assert_eq!(told(ours.map(|()| 0)), (theirs.refused, 0), "{record:?}");
                supported += usize::from(lengths::supported(direction, in_khz, out_khz));
            }
        }
    }
    assert_eq!(supported, 30);
    for (n, room) in [(0, 0), (7, 16), (8, 15), (8, 16), (48_001, 0)] {
        assert_eq!(told(lengths::resample(&BLANK, n, room)), (2, 0));
        assert_eq!(resample(BLANK, n, room), (2, 0));
    }
}

/// What is opened is what is supported.
#[test]
fn openings() {
    let directions = [Direction::Decoder, Direction::Encoder];
    for direction in directions {
        for in_khz in 0..=50 {
            for out_khz in 0..=50 {
                let pair = common::pair(direction, in_khz, out_khz);
                let [in_hz, out_hz] = [in_khz, out_khz].map(|khz| 1_000 * i32::from(khz));
                let expected = if lengths::supported(direction as u8, in_khz, out_khz) {
                    Ok(pair.fresh())
                } else {
                    Err(Refusal::NoSuchPair)
                };
                assert_eq!(open(direction, in_hz, out_hz), expected, "{pair:?}");
                assert_eq!(open(direction, in_hz + 1, out_hz), Err(Refusal::NoSuchPair));
                assert_eq!(
                    open(direction, in_hz, -out_hz - 1),
                    Err(Refusal::NoSuchPair)
                );
            }
        }
    }
}

#[test]
fn parking_and_resuming() {
    let mut dice = Dice(1);
    for pair in thirty() {
        let record = dice.record(pair);
        let good = record.park().unwrap();
        for bytes in 0..=1_025 {
            let mut block = good.to_vec();
            block.resize(bytes, 0);
            let theirs = unsafe { raw::simmerpatch_resume(block.as_ptr(), bytes) };
            assert_eq!(
                told(lengths::resume(bytes).map(|()| 0)),
                (theirs.refused, theirs.written),
                "{bytes} bytes"
            );
            let theirs = unsafe { raw::simmerpatch_park(record, block.as_mut_ptr(), bytes) };
            let ours = lengths::park(&record, bytes);
            assert_eq!(
                told(ours.map(|()| 0)),
                (theirs.refused, theirs.written),
                "{pair:?}, {bytes} bytes"
            );
        }
    }
}

/// Every length up to this, and around the most.
fn grouped(few: usize) -> impl Iterator<Item = usize> {
    (0..=few).chain(48_000 - few..=48_000 + few)
}

#[test]
fn half_decimator() {
    for n in grouped(8) {
        for room in around(n / 2) {
            let (mut out, input) = (vec![0; room], vec![0; n]);
            let words = Two { w: [0; 2] };
            let theirs =
                unsafe { raw::simmerpatch_down2(words, out.as_mut_ptr(), room, input.as_ptr(), n) };
            let ours = lengths::down2(n, room);
            assert_eq!(
                told(ours),
                (theirs.refused, theirs.written),
                "{n} samples into {room}"
            );
        }
    }
}

#[test]
fn splitting() {
    for n in grouped(8) {
        for low_room in around(n / 2) {
            for high_room in around(n / 2) {
                let (mut low, mut high, input) =
                    (vec![0; low_room], vec![0; high_room], vec![0; n]);
                let words = Two { w: [0; 2] };
                let (low_at, high_at) = (low.as_mut_ptr(), high.as_mut_ptr());
                let theirs = unsafe {
                    raw::simmerpatch_split(
                        words,
                        low_at,
                        low_room,
                        high_at,
                        high_room,
                        input.as_ptr(),
                        n,
                    )
                };
                let ours = lengths::split(n, low_room, high_room);
                let rooms = format!("{n} samples into {low_room} and {high_room}");
                assert_eq!(told(ours), (theirs.refused, theirs.written), "{rooms}");
            }
        }
    }
}

#[test]
fn two_thirds_decimator() {
    for n in grouped(12) {
        for room in around(2 * (n / 3)) {
            let (mut out, input) = (vec![0; room], vec![0; n]);
            let words = Six { w: [0; 6] };
            let theirs = unsafe {
                raw::simmerpatch_down2_3(words, out.as_mut_ptr(), room, input.as_ptr(), n)
            };
            let ours = lengths::down2_3(n, room);
            assert_eq!(
                told(ours),
                (theirs.refused, theirs.written),
                "{n} samples into {room}"
            );
        }
    }
}

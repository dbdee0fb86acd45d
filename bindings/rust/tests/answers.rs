//! That the crate hands on what the library answers: the marked cases of the definitions, and calls beside the C functions
//! themselves.

mod common;

use common::{pair, thirty, Dice};
use simmerpatch::raw::{self, Six, Two};
use simmerpatch::{down2, down2_3, open, split, Direction, Record};

/// A millisecond, from fresh, with one sample that is not zero: the last that is filtered, since those behind it are held
/// back by the delay.
fn after_one(
    direction: Direction,
    in_khz: usize,
    out_khz: usize,
    delay: usize,
    sample: i16,
) -> Record {
    let mut input = vec![0; in_khz];
    input[in_khz - delay - 1] = sample;
    let [in_hz, out_hz] = [in_khz, out_khz].map(|khz| 1_000 * khz as i32);
    let record = open(direction, in_hz, out_hz).unwrap();
    let (record, written) = record.resample(&mut vec![0; out_khz], &input).unwrap();
    assert_eq!(written, out_khz);
    record
}

#[test]
fn words_of_the_doubler() {
    let record = after_one(Direction::Encoder, 8, 16, 3, 1);
    assert_eq!(record.doubler, [1051, 33, 9, 1131, 149, 77]);
    let record = after_one(Direction::Encoder, 8, 16, 3, -1);
    assert_eq!(record.doubler, [-1052, -35, -12, -1132, -151, -80]);
}

#[test]
fn words_of_a_down_filter() {
    let record = after_one(Direction::Encoder, 48, 8, 18, 1);
    assert_eq!(record.ar2, [430, -239]);
    assert_eq!(record.fir[..35], [0; 35]);
    assert_eq!(record.fir[35], 256);
}

#[test]
fn delay_samples() {
    let record = open(Direction::Encoder, 8_000, 16_000).unwrap();
    let (record, _) = record
        .resample(&mut [0; 16], &[1, 2, 3, 4, 5, 6, 7, 8])
        .unwrap();
    assert_eq!(record.delay[..3], [6, 7, 8]);
    assert_eq!(record.delay[3..], [0; 45]);
}

#[test]
fn check_of_a_fresh_block() {
    let block = open(Direction::Encoder, 8_000, 16_000)
        .unwrap()
        .park()
        .unwrap();
    assert_eq!(block[..4], [1, 8, 16, 1]);
    assert_eq!(block[4..508], [0; 504]);
    assert_eq!(block[508..], [69, 0, 0, 0]);
}

#[test]
fn half_decimator() {
    let mut out = [0];
    assert_eq!(down2([0; 2], &mut out, &[1024, 0]), Ok(([1_685_520, 0], 1)));
    assert_eq!(out, [311]);
}

#[test]
fn bands() {
    let (mut low, mut high) = ([0], [0]);
    let (_, written) = split([0; 2], &mut low, &mut high, &[1024, 0]).unwrap();
    assert_eq!((written, low, high), (1, [322], [-322]));
}

#[test]
fn two_thirds_decimator() {
    let mut out = [0; 2];
    let words = [0, 262_144, -44_752, -96_473, 34_242, 38_314];
    assert_eq!(down2_3([0; 6], &mut out, &[1024, 0, 0]), Ok((words, 2)));
    assert_eq!(out, [0, 294]);
    let carried = down2_3([11, 22, 33, 44, 0, 0], &mut out, &[0; 3]);
    assert_eq!(carried, Ok(([44, 0, 0, 0, 0, 0], 2)));
}

/// Any records, with any entries, on every pair.
#[test]
fn resampling_beside_the_library() {
    let mut dice = Dice(14);
    for pair in thirty() {
        for ms in [1, 10, 11, 12, 40] {
            let (record, input) = (dice.record(pair), dice.sound(pair.input(ms)));
            let [mut ours, mut theirs] = [(); 2].map(|()| vec![0; pair.output(ms)]);
            let (n, room) = (input.len(), theirs.len());
            // The lengths are those of the lists; so in the other calls here.
            let line = unsafe {
                raw::simmerpatch_resample(record, theirs.as_mut_ptr(), room, input.as_ptr(), n)
            };
            assert_eq!(line.refused, 0);
            assert_eq!(
                record.resample(&mut ours, &input),
                Ok((line.record, line.written)),
                "{pair:?}"
            );
            assert_eq!(ours, theirs, "{pair:?}");
        }
    }
}

#[test]
fn the_others_beside_the_library() {
    let mut dice = Dice(15);
    for n in [0, 6, 12, 480, 486] {
        let input = dice.sound(n);
        let six = Six {
            w: std::array::from_fn(|_| dice.word()),
        };
        let two = Two {
            w: [six.w[0], six.w[1]],
        };
        let from = input.as_ptr();

        let [mut ours, mut theirs, mut high, mut their_high] = [(); 4].map(|()| vec![0; n / 2]);
        let left = unsafe { raw::simmerpatch_down2(two, theirs.as_mut_ptr(), n / 2, from, n) };
        assert_eq!(
            down2(two.w, &mut ours, &input),
            Ok((left.words.w, left.written))
        );
        assert_eq!(ours, theirs);

        let (low_at, high_at) = (theirs.as_mut_ptr(), their_high.as_mut_ptr());
        let left = unsafe { raw::simmerpatch_split(two, low_at, n / 2, high_at, n / 2, from, n) };
        assert_eq!(
            split(two.w, &mut ours, &mut high, &input),
            Ok((left.words.w, left.written))
        );
        assert_eq!((ours, high), (theirs, their_high));

        let [mut ours, mut theirs] = [(); 2].map(|()| vec![0; n / 3 * 2]);
        let room = theirs.len();
        let left = unsafe { raw::simmerpatch_down2_3(six, theirs.as_mut_ptr(), room, from, n) };
        assert_eq!(
            down2_3(six.w, &mut ours, &input),
            Ok((left.words.w, left.written))
        );
        assert_eq!(ours, theirs);
    }
}

/// `for_enc` is 0 for the decoder, and any other number is the encoder's.
#[test]
fn opening_beside_the_library() {
    for (for_enc, direction) in [
        (0, Direction::Decoder),
        (1, Direction::Encoder),
        (-5, Direction::Encoder),
    ] {
        let line = raw::simmerpatch_open(12_000, 8_000, for_enc);
        assert_eq!((line.refused, line.written), (0, 0));
        assert_eq!(line.record, pair(direction, 12, 8).fresh());
        assert_eq!(open(direction, 12_000, 8_000), Ok(line.record));
    }
}

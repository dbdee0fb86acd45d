//! Lines that go on from call to call: they repeat, they keep apart, they go through blocks, and where no reader is on the
//! path it does not matter how the sound is cut into calls. With a reader that is not promised, and not looked at here.

mod common;

use common::{thirty, Dice, Pair};
use simmerpatch::{down2, down2_3, open, resume, split, Record};

/// Milliseconds of the calls: of one, of whole batches, and of batches with a rest.
const CUTS: [usize; 10] = [1, 10, 11, 2, 20, 21, 5, 100, 7, 33];

/// What an untouched place holds.
const UNTOUCHED: i16 = 12_345;

fn opened(pair: Pair) -> Record {
    let [in_hz, out_hz] = [pair.in_khz, pair.out_khz].map(|khz| 1_000 * i32::from(khz));
    open(pair.direction, in_hz, out_hz).unwrap()
}

/// A call into an output with two places too many, which stay as they were.
fn call(pair: Pair, record: Record, input: &[i16], out: &mut Vec<i16>) -> Record {
    let made = input.len() / pair.input(1) * pair.output(1);
    let mut places = vec![UNTOUCHED; made + 2];
    let (next, written) = record.resample(&mut places, input).unwrap();
    assert_eq!(written, made, "{pair:?}");
    assert_eq!(places[made..], [UNTOUCHED; 2], "{pair:?}");
    out.extend(&places[..made]);
    next
}

/// All that a line puts out, cut so, with something done to its record after each call; and its last record.
fn run(
    pair: Pair,
    sound: &[i16],
    cuts: &[usize],
    between: impl Fn(Record) -> Record,
) -> (Vec<i16>, Record) {
    let (mut record, mut out, mut left) = (opened(pair), Vec::new(), sound);
    for ms in cuts {
        let (input, rest) = left.split_at(pair.input(*ms));
        record = between(call(pair, record, input, &mut out));
        left = rest;
    }
    assert!(left.is_empty());
    (out, record)
}

fn sound(pair: Pair, seed: u64) -> Vec<i16> {
    Dice(seed).sound(pair.input(CUTS.iter().sum()))
}

fn as_it_is(record: Record) -> Record {
    record
}

#[test]
fn the_same_calls_repeat() {
    for pair in thirty() {
        let sound = sound(pair, 7);
        assert_eq!(
            run(pair, &sound, &CUTS, as_it_is),
            run(pair, &sound, &CUTS, as_it_is),
            "{pair:?}"
        );
    }
}

/// Thirty lines by turns put out what each does alone.
#[test]
fn lines_keep_apart() {
    let pairs = thirty();
    let mut lines: Vec<(Vec<i16>, Record)> = pairs
        .iter()
        .map(|pair| (Vec::new(), opened(*pair)))
        .collect();
    let mut at = 0;
    for ms in CUTS {
        for (number, (pair, (out, record))) in (0..).zip(pairs.iter().zip(&mut lines)) {
            let sound = sound(*pair, number);
            *record = call(
                *pair,
                *record,
                &sound[pair.input(at)..pair.input(at + ms)],
                out,
            );
        }
        at += ms;
    }
    for (number, (pair, line)) in (0..).zip(pairs.iter().zip(lines)) {
        assert_eq!(
            line,
            run(*pair, &sound(*pair, number), &CUTS, as_it_is),
            "{pair:?}"
        );
    }
}

#[test]
fn a_parked_line_goes_on() {
    let through_a_block = |record: Record| {
        let block = record.park().unwrap();
        let mut into = [255; 512];
        record.park_into(&mut into).unwrap();
        assert_eq!(into, block);
        let resumed = resume(&block).unwrap();
        assert_eq!(resumed, record);
        resumed
    };
    for pair in thirty() {
        let sound = sound(pair, 8);
        let expected = run(pair, &sound, &CUTS, as_it_is);
        assert_eq!(
            run(pair, &sound, &CUTS, through_a_block),
            expected,
            "{pair:?}"
        );
    }
}

/// A copy of a record is a line of its own.
#[test]
fn a_copy_goes_its_own_way() {
    for pair in thirty() {
        let [first, second, other] = [9, 10, 11].map(|seed| Dice(seed).sound(pair.input(20)));
        let record = call(pair, opened(pair), &first, &mut Vec::new());
        let (mut out, mut again) = (Vec::new(), Vec::new());
        let next = call(pair, record, &second, &mut out);
        call(pair, record, &other, &mut Vec::new());
        assert_eq!(call(pair, record, &second, &mut again), next, "{pair:?}");
        assert_eq!(again, out, "{pair:?}");
    }
}

/// An equal rate is copied and twice the rate doubled: neither reads between samples.
#[test]
fn without_a_reader_cuts_do_not_matter() {
    let no_reader = |pair: &Pair| pair.out_khz == pair.in_khz || pair.out_khz == 2 * pair.in_khz;
    let pairs: Vec<Pair> = thirty().into_iter().filter(no_reader).collect();
    assert_eq!(pairs.len(), 9);
    for pair in pairs {
        let sound = sound(pair, 12);
        let whole = run(pair, &sound, &[CUTS.iter().sum()], as_it_is);
        assert_eq!(run(pair, &sound, &CUTS, as_it_is), whole, "{pair:?}");
        let single = vec![1; CUTS.iter().sum()];
        assert_eq!(run(pair, &sound, &single, as_it_is), whole, "{pair:?}");
    }
}

/// A step of a decimator or of the split, from carried words, puts what it makes behind the rest: in one call and in several
/// it makes the same.
fn cuts_do_not_matter<const N: usize>(step: impl Fn([i32; N], &[i16], &mut Vec<i16>) -> [i32; N]) {
    let sound = Dice(13).sound(6_000);
    let mut whole = Vec::new();
    let end = step([0; N], &sound, &mut whole);

    let (mut words, mut parts, mut left) = ([0; N], Vec::new(), &sound[..]);
    for n in [6, 60, 480, 486, 0, 1_002, 3_966] {
        let (input, rest) = left.split_at(n);
        words = step(words, input, &mut parts);
        left = rest;
    }
    assert!(left.is_empty());
    assert_eq!((parts, words), (whole, end));
}

#[test]
fn half_decimator_goes_on() {
    cuts_do_not_matter(|words, input, all| {
        let mut out = vec![0; input.len() / 2];
        let (words, written) = down2(words, &mut out, input).unwrap();
        assert_eq!(written, out.len());
        all.extend(out);
        words
    });
}

#[test]
fn split_goes_on() {
    cuts_do_not_matter(|words, input, all| {
        let [mut low, mut high] = [(); 2].map(|()| vec![0; input.len() / 2]);
        let (words, written) = split(words, &mut low, &mut high, input).unwrap();
        assert_eq!(written, low.len());
        all.extend(
            low.into_iter()
                .zip(high)
                .flat_map(|(low, high)| [low, high]),
        );
        words
    });
}

#[test]
fn two_thirds_decimator_goes_on() {
    cuts_do_not_matter(|words, input, all| {
        let made = input.len() / 3 * 2;
        let mut out = vec![UNTOUCHED; made + 2];
        let (words, written) = down2_3(words, &mut out, input).unwrap();
        assert_eq!(written, made);
        assert_eq!(out[made..], [UNTOUCHED; 2]);
        all.extend(&out[..made]);
        words
    });
}

//! The refusals: their numbers are the header's, and a refused call leaves everything as it was.

mod common;

use common::{pair, seal, thirty, Dice, BLANK};
use simmerpatch::raw::{self, Six, Two};
use simmerpatch::{down2, down2_3, lengths, resume, split, Direction, Refusal};

const HEADER: &str = include_str!("../../c/simmerpatch.h");

/// What an untouched place holds.
const UNTOUCHED: i16 = 12_345;

/// The header's name of a refusal: `Not512Bytes` is `SIMMERPATCH_NOT_512_BYTES`.
fn named(refusal: Refusal) -> String {
    let mut name = String::from("SIMMERPATCH");
    let mut before = ' ';
    for letter in format!("{refusal:?}").chars() {
        if letter.is_uppercase() || letter.is_ascii_digit() && !before.is_ascii_digit() {
            name.push('_');
        }
        name.extend(letter.to_uppercase());
        before = letter;
    }
    name
}

#[test]
fn numbers_are_the_headers() {
    let (_, list) = HEADER.split_once("enum simmerpatch_refusal {").unwrap();
    let (list, _) = list.split_once("};").unwrap();
    let theirs: Vec<(&str, u8)> = list
        .lines()
        .filter_map(|line| line.trim().split_once(" = "))
        .map(|(name, rest)| {
            let digits = rest.split([',', ' ']).next().unwrap();
            (name, digits.parse().unwrap())
        })
        .collect();
    let ours: Vec<(String, u8)> = Refusal::ALL
        .iter()
        .map(|refusal| (named(*refusal), refusal.number()))
        .collect();
    assert_eq!(theirs[0], ("SIMMERPATCH_DONE", 0));
    assert_eq!(theirs.len(), 13);
    for (theirs, ours) in theirs[1..].iter().zip(&ours) {
        assert_eq!(*theirs, (ours.0.as_str(), ours.1));
    }
}

#[test]
fn constants_are_the_headers() {
    for (name, number) in [
        ("BLOCK", simmerpatch::BLOCK),
        ("MOST_MS", simmerpatch::MOST_MS),
        ("MOST_SAMPLES", simmerpatch::MOST_SAMPLES),
    ] {
        assert!(
            HEADER.contains(&format!("#define SIMMERPATCH_{name} {number}\n")),
            "{name}"
        );
    }
}

#[test]
fn numbers_go_both_ways() {
    for refusal in Refusal::ALL {
        assert_eq!(Refusal::from_number(refusal.number()), Some(refusal));
    }
    for number in (13..=255).chain([0]) {
        assert_eq!(Refusal::from_number(number), None);
    }
}

#[test]
fn each_says_something_else() {
    let mut said: Vec<String> = Refusal::ALL.iter().map(Refusal::to_string).collect();
    said.sort();
    said.dedup();
    assert_eq!(said.len(), 12);
    let error: Box<dyn std::error::Error> = Refusal::NoRoom.into();
    assert_eq!(
        error.to_string(),
        "the output is too short for what the call makes"
    );
}

/// Of each pair and of none: rows 2 to 5, through the crate and through the library itself.
#[test]
fn resampling_refused() {
    let mut dice = Dice(2);
    for pair in thirty() {
        let (one, most) = (pair.input(1), pair.input(1_000));
        let made = pair.output(2);
        let good = dice.record(pair);
        let none = simmerpatch::Record {
            direction: 2,
            ..good
        };
        for (record, n, room, refusal) in [
            (none, 2 * one, made, Refusal::NoPairInRecord),
            (none, 0, 0, Refusal::NoPairInRecord),
            (good, 0, made, Refusal::NotWholeMs),
            (good, one - 1, made, Refusal::NotWholeMs),
            (good, most + 1, made, Refusal::NotWholeMs),
            (good, most + one, pair.output(1_001), Refusal::TooLong),
            (good, most + one, 0, Refusal::TooLong),
            (good, 2 * one, made - 1, Refusal::NoRoom),
            (good, 2 * one, 0, Refusal::NoRoom),
        ] {
            let input = dice.sound(n);
            let mut out = vec![UNTOUCHED; room];
            assert_eq!(record.resample(&mut out, &input), Err(refusal), "{pair:?}");
            // The lengths are those of the lists; so in the other calls here.
            let line = unsafe {
                raw::simmerpatch_resample(record, out.as_mut_ptr(), room, input.as_ptr(), n)
            };
            assert_eq!(
                (line.refused, line.written, line.record),
                (refusal.number(), 0, record),
                "{pair:?}"
            );
            assert!(untouched(&out), "{pair:?}");
        }
    }
}

#[test]
fn parking_refused() {
    let mut dice = Dice(3);
    for pair in thirty() {
        let good = dice.record(pair);
        let none = simmerpatch::Record { in_khz: 9, ..good };
        for (record, bytes, refusal) in [
            (none, 512, Refusal::NoPairInRecord),
            (none, 511, Refusal::NoPairInRecord),
            (good, 511, Refusal::Not512Bytes),
            (good, 513, Refusal::Not512Bytes),
            (good, 0, Refusal::Not512Bytes),
        ] {
            let mut block = vec![77; bytes];
            assert_eq!(record.park_into(&mut block), Err(refusal), "{pair:?}");
            let line = unsafe { raw::simmerpatch_park(record, block.as_mut_ptr(), bytes) };
            assert_eq!(
                (line.refused, line.written, line.record),
                (refusal.number(), 0, record),
                "{pair:?}"
            );
            assert!(block.iter().all(|byte| *byte == 77), "{pair:?}");
        }
        assert_eq!(none.park(), Err(Refusal::NoPairInRecord));
    }
}

/// Rows 8 to 12, each on a block to which later ones apply as well; and the record is zero throughout.
#[test]
fn resuming_refused() {
    let good = Dice(4)
        .record(pair(Direction::Encoder, 16, 16))
        .park()
        .unwrap();
    let changed = |places: &[(usize, u8)]| {
        let mut block = good;
        for (place, byte) in places {
            block[*place] = *byte;
        }
        seal(&mut block);
        block
    };
    let mut unchecked = changed(&[(1, 9), (3, 2), (4, 1)]);
    unchecked[508] ^= 1;
    // Of this pair ten delay samples are live, and nothing else.
    for (block, refusal) in [
        (&unchecked[..511], Refusal::Not512Bytes),
        (&unchecked, Refusal::CheckDiffers),
        (&changed(&[(1, 9), (3, 2), (4, 1)]), Refusal::OtherLayout),
        (&changed(&[(1, 9), (4, 1)]), Refusal::NoPairInBlock),
        (&changed(&[(4, 1)]), Refusal::NotZero),
        (&changed(&[(196 + 2 * 10, 1)]), Refusal::NotZero),
        (&changed(&[(292, 1)]), Refusal::NotZero),
        (&changed(&[(507, 1)]), Refusal::NotZero),
    ] {
        assert_eq!(resume(block), Err(refusal));
        let line = unsafe { raw::simmerpatch_resume(block.as_ptr(), block.len()) };
        assert_eq!(
            (line.refused, line.written, line.record),
            (refusal.number(), 0, BLANK)
        );
    }
    assert!(resume(&changed(&[(196 + 2 * 9, 1)])).is_ok());
}

#[test]
fn decimators_and_split_refused() {
    let mut dice = Dice(5);
    for (n, room) in [
        (3, 1),
        (3, 2),
        (48_001, 0),
        (48_002, 24_001),
        (4, 1),
        (4, 3),
        (2, 0),
    ] {
        let input = dice.sound(n);
        let words = [dice.word(), dice.word()];
        let (mut low, mut high) = (vec![UNTOUCHED; room], vec![UNTOUCHED; n / 2]);
        let refusal = lengths::down2(n, room).unwrap_err();
        assert_eq!(down2(words, &mut low, &input), Err(refusal));
        assert_eq!(split(words, &mut low, &mut high, &input), Err(refusal));
        assert_eq!(split(words, &mut high, &mut low, &input), Err(refusal));

        let two = Two { w: words };
        let (from, low_at, high_at) = (input.as_ptr(), low.as_mut_ptr(), high.as_mut_ptr());
        let left = unsafe {
            [
                raw::simmerpatch_down2(two, low_at, room, from, n),
                raw::simmerpatch_split(two, low_at, room, high_at, n / 2, from, n),
                raw::simmerpatch_split(two, high_at, n / 2, low_at, room, from, n),
            ]
        };
        for left in left {
            assert_eq!(
                (left.refused, left.written, left.words),
                (refusal.number(), 0, two)
            );
        }
        assert!(untouched(&low) && untouched(&high));
    }
}

#[test]
fn two_thirds_decimator_refused() {
    let mut dice = Dice(6);
    for (n, room) in [
        (4, 2),
        (48_001, 32_001),
        (48_003, 32_002),
        (3, 1),
        (48_000, 31_999),
    ] {
        let input = dice.sound(n);
        let words = std::array::from_fn(|_| dice.word());
        let mut out = vec![UNTOUCHED; room];
        let refusal = lengths::down2_3(n, room).unwrap_err();
        assert_eq!(down2_3(words, &mut out, &input), Err(refusal));
        let six = Six { w: words };
        let left =
            unsafe { raw::simmerpatch_down2_3(six, out.as_mut_ptr(), room, input.as_ptr(), n) };
        assert_eq!(
            (left.refused, left.written, left.words),
            (refusal.number(), 0, six)
        );
        assert!(untouched(&out));
    }
}

fn untouched(out: &[i16]) -> bool {
    out.iter().all(|place| *place == UNTOUCHED)
}

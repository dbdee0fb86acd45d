//! The runs of a decimator or the split: on words that it carries from call to call, on wild words, and refused.

use crate::decimators::{After, Call, Stage, MOST, OTHERS};
use crate::tally::Tally;
use crate::values::Dice;
use crate::wild::{any_signal, wild_words};
use crate::{untouched, UNTOUCHED};

/// A stage and its words from zero on, in ours and in what it is compared with.
pub struct Carried {
    stage: Stage,
    words: [i32; 6],
    others: Vec<(&'static str, Call, [i32; 6])>,
}

impl Carried {
    pub fn new(stage: Stage) -> Carried {
        let other = |(who, call): &(&'static str, Call)| (*who, *call, [0; 6]);
        Carried {
            stage,
            words: [0; 6],
            others: OTHERS.iter().map(other).collect(),
        }
    }

    /// A call on the carried words and one on wild words, then refused calls on what the two left.
    pub fn run(&mut self, long: &[i16], tally: &mut Tally, dice: &mut Dice) {
        self.carry(tally, dice);
        let mut wild: [i32; 6] = wild_words(dice);
        wild[self.stage.words()..].fill(0);
        let few = self.stage.unit() * dice.between(0, 480) as usize;
        let input = any_signal(few, dice);
        let (wild, _) = accepted(self.stage, wild, &input, tally, dice);
        for words in [self.words, wild] {
            refusals(self.stage, words, long, tally, dice);
        }
    }

    fn carry(&mut self, tally: &mut Tally, dice: &mut Dice) {
        let stage = self.stage;
        let input = any_signal(length(stage, dice), dice);
        let (words, out) = accepted(stage, self.words, &input, tally, dice);
        self.words = words;
        tally.compared += (stage.bands() * stage.made(input.len())) as u64;
        for (who, call, theirs) in &mut self.others {
            let made = call(stage, theirs, &input);
            let named = |what, place| {
                let (name, samples) = (stage.name(), input.len());
                format!("{name}, {samples} samples, {what} {place} beside {who}")
            };
            tally.same(&out[..made.len()], &made, |k| named("place", k));
            tally.same(&words, theirs, |k| named("word", k));
        }
    }
}

/// None, the most, or some in between, mostly few.
fn length(stage: Stage, dice: &mut Dice) -> usize {
    let most = MOST / stage.unit();
    let units = match dice.between(0, 15) {
        0 => 0,
        1 => most,
        2..=4 => dice.between(1, most as i64) as usize,
        _ => dice.between(1, 480) as usize,
    };
    stage.unit() * units
}

/// Ours alone: the words and the output of a call that is done, with places behind its samples where that may be.
fn accepted(
    stage: Stage,
    words: [i32; 6],
    input: &[i16],
    tally: &mut Tally,
    dice: &mut Dice,
) -> ([i32; 6], Vec<i16>) {
    let made = stage.made(input.len());
    let samples = stage.bands() * made;
    let spare = match stage {
        Stage::Down2 | Stage::Split => 0,
        Stage::Down23 => dice.between(0, 2) as usize,
    };
    let mut out = vec![UNTOUCHED; samples + spare];
    let after = stage.ours(words, &mut out, made, input);
    tally.words(after.row, after.written, &after.words);
    tally.wrote(samples, &out);
    let done = (after.row, after.written) == (0, made);
    tally.due(done && untouched(&out[samples..]), [after.row, 0], || {
        format!("{}, {} samples", stage.name(), input.len())
    });
    (after.words, out)
}

/// A call for each row: not whole groups, too long, and an output that does not fit.
fn refusals(stage: Stage, words: [i32; 6], long: &[i16], tally: &mut Tally, dice: &mut Dice) {
    let unit = stage.unit();
    let (whole, few) = (dice.between(0, 16_000), dice.between(1, 200));
    let over = unit * whole as usize + dice.between(1, unit as i64 - 1) as usize;
    let any = [dice.between(0, 3), dice.between(0, 3)].map(|room| room as usize);
    refused(stage, words, 6, &long[..over], any, tally);
    let samples = MOST + unit * dice.between(1, 300) as usize;
    let made = stage.made(samples);
    let rooms = [any, [made, (stage.bands() - 1) * made]][dice.between(0, 1) as usize];
    refused(stage, words, 4, &long[..samples], rooms, tally);
    let samples = unit * few as usize;
    let made = stage.made(samples);
    let short = dice.between(0, made as i64 - 1) as usize;
    let rows = match stage {
        Stage::Down2 => vec![(7, [short, 0]), (7, [made + 1, 0])],
        Stage::Split => vec![
            (7, [short, made]),
            (7, [made, made + 1]),
            (7, [made + 1, short]),
        ],
        Stage::Down23 => vec![(5, [short, 0]), (5, [made - 1, 0])],
    };
    for (row, rooms) in rows {
        refused(stage, words, row, &long[..samples], rooms, tally);
    }
}

/// Nothing is written and the words come back. Where there is one band, all the places are its own.
fn refused(
    stage: Stage,
    words: [i32; 6],
    row: u8,
    input: &[i16],
    rooms: [usize; 2],
    tally: &mut Tally,
) {
    let [low, high] = rooms;
    let mut out = vec![UNTOUCHED; low + high];
    let after = stage.ours(words, &mut out, low, input);
    tally.words(after.row, after.written, &after.words);
    let expected = After {
        row,
        written: 0,
        words,
    };
    let holds = after == expected && untouched(&out);
    tally.due(holds, [after.row, row], || {
        let (name, samples) = (stage.name(), input.len());
        format!("{name}, {samples} samples, {low} and {high} places")
    });
}

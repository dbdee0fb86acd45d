//! What a line counts, the digest of all that its calls leave, and its first difference.

use crate::digest::Digest;
use crate::line::Line;
use std::fmt::{Display, Formatter, Result};

pub struct Tally {
    pub number: u64,
    /// Calls that convert, and what they wrote.
    pub calls: u64,
    pub samples: u64,
    /// How many of them were compared with all that is built in.
    pub compared: u64,
    /// Blocks that were parked and resumed, or only given to be resumed.
    pub blocks: u64,
    pub refusals: u64,
    pub differ: u64,
    pub digest: Digest,
    round: u64,
    /// How many functions the round has called.
    asked: u64,
    /// In which round, and what.
    first: Option<(u64, String)>,
}

impl Tally {
    pub fn new(number: u64) -> Tally {
        Tally {
            number,
            calls: 0,
            samples: 0,
            compared: 0,
            blocks: 0,
            refusals: 0,
            differ: 0,
            digest: Digest::new(),
            round: 0,
            asked: 0,
            first: None,
        }
    }

    pub fn begin(&mut self, round: u64) {
        self.round = round;
        self.asked = 0;
    }

    /// Every call of ours comes by here or by `line`, with its answer and what it carries.
    pub fn words(&mut self, row: u8, written: usize, words: &[i32]) {
        self.answer(row, written);
        self.digest.words(words);
    }

    pub fn line(&mut self, line: &Line) {
        self.answer(line.row, line.written);
        self.digest.record(&line.record);
    }

    fn answer(&mut self, row: u8, written: usize) {
        self.asked += 1;
        self.refusals += (row != 0) as u64;
        self.digest.number(row.into());
        self.digest.number(written as u64);
    }

    /// A call that converts: the whole output that was lent to it, of which so many samples are its own.
    pub fn wrote(&mut self, samples: usize, out: &[i16]) {
        self.calls += 1;
        self.samples += samples as u64;
        self.digest.samples(out);
    }

    /// Whether a call left all that it has to, and the row that it answered beside the one that is due.
    pub fn due(&mut self, holds: bool, rows: [u8; 2], what: impl FnOnce() -> String) {
        if !holds {
            let [answered, due] = rows;
            let how = if answered == due {
                "as is due, but left something else".into()
            } else {
                format!("not {due}")
            };
            self.wrong(1, format!("{}: answered {answered}, {how}", what()));
        }
    }

    /// Two lists of one length that must be the same; `what` gets the first place at which they are not.
    pub fn same<N>(&mut self, ours: &[N], theirs: &[N], what: impl FnOnce(usize) -> String)
    where
        N: Display + PartialEq,
    {
        if ours == theirs {
            return;
        }
        let pairs = ours.iter().zip(theirs).enumerate();
        let mut apart = pairs.filter(|(_, (a, b))| a != b);
        if let Some((place, (a, b))) = apart.next() {
            let what = format!("{}: {a}, not {b}", what(place));
            self.wrong(1 + apart.count() as u64, what);
        }
    }

    fn wrong(&mut self, differ: u64, what: String) {
        self.differ += differ;
        let what = format!("call {}: {what}", self.asked);
        self.first.get_or_insert((self.round, what));
    }

    /// The first difference: its round, the line, and what.
    pub fn first(&self) -> Option<(u64, u64, &str)> {
        let (round, what) = self.first.as_ref()?;
        Some((*round, self.number, what))
    }

    /// The counts of another, and its digest as a number.
    pub fn add(&mut self, line: &Tally) {
        self.calls += line.calls;
        self.samples += line.samples;
        self.compared += line.compared;
        self.blocks += line.blocks;
        self.refusals += line.refusals;
        self.differ += line.differ;
        self.digest.number(line.digest.value);
    }
}

impl Display for Tally {
    fn fmt(&self, to: &mut Formatter) -> Result {
        write!(
            to,
            "{} calls, {} samples, {} blocks, {} refusals, digest {}",
            self.calls, self.samples, self.blocks, self.refusals, self.digest
        )
    }
}

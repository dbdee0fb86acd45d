//! Why a call was refused.

use std::{error, fmt};

/// Why a call was refused. The numbers are those of the C header.
#[derive(Clone, Copy, Debug, PartialEq, Eq, Hash)]
#[repr(u8)]
pub enum Refusal {
    /// Opening: the two rates are not in the direction's list.
    NoSuchPair = 1,
    /// The record names no supported pair.
    NoPairInRecord = 2,
    /// Resampling: no samples, or not whole milliseconds of them.
    NotWholeMs = 3,
    /// Over 1,000 ms (resampling), over 48,000 samples (decimators, split).
    TooLong = 4,
    /// The output is too short (resampling, 2/3 decimator).
    NoRoom = 5,
    /// An odd number of samples (1/2 decimator, split), or not a multiple of three (2/3 decimator).
    NotWholeGroups = 6,
    /// An output that is not just half as long as the input (1/2 decimator, split).
    NotHalf = 7,
    /// A block of another length.
    Not512Bytes = 8,
    /// Resuming: the block's check.
    CheckDiffers = 9,
    /// Resuming: the block's layout byte is not 1.
    OtherLayout = 10,
    /// Resuming: the block's direction and rates are no supported pair.
    NoPairInBlock = 11,
    /// Resuming: a byte that the pair does not use is not 0.
    NotZero = 12,
}

impl Refusal {
    /// All twelve, by their numbers.
    pub const ALL: [Refusal; 12] = [
        Refusal::NoSuchPair,
        Refusal::NoPairInRecord,
        Refusal::NotWholeMs,
        Refusal::TooLong,
        Refusal::NoRoom,
        Refusal::NotWholeGroups,
        Refusal::NotHalf,
        Refusal::Not512Bytes,
        Refusal::CheckDiffers,
        Refusal::OtherLayout,
        Refusal::NoPairInBlock,
        Refusal::NotZero,
    ];

    /// Its number, from 1 to 12.
    pub const fn number(self) -> u8 {
        self as u8
    }

    /// The refusal of a number; none for 0, which is a call that was done, and from 13 on.
    ///
    /// ```
    /// use simmerpatch::Refusal;
    ///
    /// assert_eq!(Refusal::from_number(5), Some(Refusal::NoRoom));
    /// assert_eq!(Refusal::from_number(0), None);
    /// ```
    pub fn from_number(number: u8) -> Option<Refusal> {
        Refusal::ALL
            .iter()
            .copied()
            .find(|refusal| refusal.number() == number)
    }
}

impl fmt::Display for Refusal {
    fn fmt(&self, f: &mut fmt::Formatter<'_>) -> fmt::Result {
        f.write_str(match self {
            Refusal::NoSuchPair => "the two rates are not a pair of this direction",
            Refusal::NoPairInRecord => "the record names no supported pair",
            Refusal::NotWholeMs => "the input is empty or not whole milliseconds",
            Refusal::TooLong => "the input is longer than a call takes",
            Refusal::NoRoom => "the output is too short for what the call makes",
            Refusal::NotWholeGroups => "the input is not whole groups of two or of three samples",
            Refusal::NotHalf => "an output is not just half as long as the input",
            Refusal::Not512Bytes => "the block is not 512 bytes long",
            Refusal::CheckDiffers => "the block's check does not fit its bytes",
            Refusal::OtherLayout => "the block is of another layout",
            Refusal::NoPairInBlock => "the block names no supported pair",
            Refusal::NotZero => "a byte of the block that its pair does not use is not zero",
        })
    }
}

impl error::Error for Refusal {}

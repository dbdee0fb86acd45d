//! Simmerpatch: the SILK resampler, its two decimators and the two-band split, proved.
//!
//! Sound is 16-bit samples. A line is converted from one rate to another by handing its [`Record`] to each call and keeping
//! the record that the call hands back:
//!
//! ```
//! use simmerpatch::{open, resume, Direction};
//!
//! # fn main() -> Result<(), simmerpatch::Refusal> {
//! let record = open(Direction::Encoder, 8_000, 16_000)?;
//!
//! let input = [1_000; 80]; // 10 ms at 8 kHz
//! let mut out = [0; 160]; // 10 ms at 16 kHz
//! let (record, written) = record.resample(&mut out, &input)?;
//! assert_eq!(written, 160);
//!
//! let block = record.park()?; // 512 bytes, from which the line goes on anywhere
//! assert_eq!(resume(&block)?, record);
//! # Ok(())
//! # }
//! ```
//!
//! Everything goes by value: the library keeps nothing between calls, allocates nothing and locks nothing. Any number of
//! threads may call it at once, each with records of its own.
//!
//! What a call does not do it refuses, with a [`Refusal`]. A refused call writes nothing, and the record that was handed to
//! it is still the line's. Lengths are looked at here, by [`lengths`], before the library is called; it looks at them again,
//! and its answer is the same.
//!
//! The samples, words, counts and refusals are what the library's contracts say. This crate is not proved: what it adds is
//! Rust's slices in place of pointers, and the layout of the structs, which is tested while it is compiled and by its tests.

#![deny(missing_docs)]

pub mod lengths;
pub mod raw;
mod refusal;

pub use crate::refusal::Refusal;

/// The bytes of a parked block.
pub const BLOCK: usize = 512;

/// The most milliseconds that a call of [`Record::resample`] takes.
pub const MOST_MS: usize = 1_000;

/// The most samples that a call of [`down2`], [`split`] or [`down2_3`] takes.
pub const MOST_SAMPLES: usize = 48_000;

/// Which of the two lists a line's pair of rates is in.
#[derive(Clone, Copy, Debug, PartialEq, Eq, Hash)]
#[repr(u8)]
pub enum Direction {
    /// From 8, 12 or 16 kHz to 8, 12, 16, 24 or 48.
    Decoder = 0,
    /// From 8, 12, 16, 24 or 48 kHz to 8, 12 or 16.
    Encoder = 1,
}

/// A line's whole state, as C has it.
///
/// [`open`] and [`resume`] make one, and each call hands back the next. A copy is a line of its own: it goes on from where
/// it was taken. The fields are public because the library takes any record: one that names no supported pair it refuses,
/// and any other it converts as it stands.
///
/// Which entries a pair uses, from the first on, is fixed by its rates: as many delay samples as the pair's delay; the six
/// doubler words where it goes to a higher rate, and the eight samples too where that is not twice the rate; the two AR2
/// words and as many FIR words as the filter's order where it goes to a lower one. A call that is done reads no others, and
/// hands them back as zero.
#[derive(Clone, Copy, Debug, PartialEq, Eq)]
#[repr(C)]
pub struct Record {
    /// 1 for the encoder and 0 for the decoder.
    pub direction: u8,
    /// The incoming rate.
    pub in_khz: u8,
    /// The outgoing rate.
    pub out_khz: u8,
    /// The carried words of the doubler's six sections.
    pub doubler: [i32; 6],
    /// The doubled samples that the interpolator reads on from.
    pub samples: [i16; 8],
    /// The carried words of AR2.
    pub ar2: [i32; 2],
    /// The words that the down filter reads on from.
    pub fir: [i32; 36],
    /// The input that has come in and not gone out.
    pub delay: [i16; 48],
}

/// Opens a line.
///
/// # Errors
///
/// [`Refusal::NoSuchPair`] where the rates, in Hz, are not in the direction's list.
///
/// ```
/// use simmerpatch::{open, Direction, Refusal};
///
/// assert!(open(Direction::Encoder, 48_000, 16_000).is_ok());
/// assert_eq!(open(Direction::Decoder, 48_000, 16_000), Err(Refusal::NoSuchPair));
/// ```
pub fn open(direction: Direction, in_hz: i32, out_hz: i32) -> Result<Record, Refusal> {
    let line = raw::simmerpatch_open(in_hz, out_hz, direction as i32);
    answered(line.refused, line.record)
}

impl Record {
    /// Converts whole milliseconds, at least one and at most [`MOST_MS`], into the front of `out`: for each as many samples
    /// as the outgoing rate has kHz. What lies beyond them stays as it was. Hands back the record for the next call, and how
    /// many samples were written.
    ///
    /// # Errors
    ///
    /// [`Refusal::NoPairInRecord`], [`NotWholeMs`](Refusal::NotWholeMs), [`TooLong`](Refusal::TooLong) or
    /// [`NoRoom`](Refusal::NoRoom), the first that applies. Nothing is written, and the line goes on from this record.
    ///
    /// ```
    /// # use simmerpatch::{open, Direction, Refusal};
    /// let record = open(Direction::Decoder, 16_000, 48_000)?;
    /// let mut out = [0; 100];
    /// assert_eq!(record.resample(&mut out, &[0; 33]), Err(Refusal::NotWholeMs));
    ///
    /// let (record, written) = record.resample(&mut out, &[0; 32])?;
    /// assert_eq!(written, 96);
    /// # let _ = record;
    /// # Ok::<(), Refusal>(())
    /// ```
    pub fn resample(self, out: &mut [i16], input: &[i16]) -> Result<(Record, usize), Refusal> {
        lengths::resample(&self, input.len(), out.len())?;
        // Each pointer has its slice's length behind it, and what is lent to be written is lent to nobody else.
        let line = unsafe {
            raw::simmerpatch_resample(
                self,
                out.as_mut_ptr(),
                out.len(),
                input.as_ptr(),
                input.len(),
            )
        };
        answered(line.refused, (line.record, line.written))
    }

    /// The record as a block, from which [`resume`] takes it up again, here or elsewhere. Entries that the pair does not use
    /// are zero in it.
    ///
    /// # Errors
    ///
    /// [`Refusal::NoPairInRecord`].
    pub fn park(self) -> Result<[u8; BLOCK], Refusal> {
        let mut block = [0; BLOCK];
        self.park_into(&mut block)?;
        Ok(block)
    }

    /// [`park`](Record::park) into bytes that the caller has.
    ///
    /// # Errors
    ///
    /// [`Refusal::NoPairInRecord`], or [`Not512Bytes`](Refusal::Not512Bytes) where there are more bytes or fewer. Nothing is
    /// written then.
    pub fn park_into(self, block: &mut [u8]) -> Result<(), Refusal> {
        lengths::park(&self, block.len())?;
        // As in `resample`.
        let line = unsafe { raw::simmerpatch_park(self, block.as_mut_ptr(), block.len()) };
        answered(line.refused, ())
    }
}

/// The record of a parked block.
///
/// # Errors
///
/// [`Refusal::Not512Bytes`], [`CheckDiffers`](Refusal::CheckDiffers), [`OtherLayout`](Refusal::OtherLayout),
/// [`NoPairInBlock`](Refusal::NoPairInBlock) or [`NotZero`](Refusal::NotZero), the first that applies. So a block that is
/// accepted is the one that its record parks as, byte for byte.
///
/// ```
/// # use simmerpatch::{open, resume, Direction, Refusal};
/// let mut block = open(Direction::Encoder, 24_000, 8_000)?.park()?;
/// block[100] ^= 1;
/// assert_eq!(resume(&block), Err(Refusal::CheckDiffers));
/// # Ok::<(), Refusal>(())
/// ```
pub fn resume(block: &[u8]) -> Result<Record, Refusal> {
    lengths::resume(block.len())?;
    // The pointer has its slice's length behind it.
    let line = unsafe { raw::simmerpatch_resume(block.as_ptr(), block.len()) };
    answered(line.refused, line.record)
}

/// The 1/2 decimator: one sample for each two. The input is even and at most [`MOST_SAMPLES`] long, and `out` is just half
/// as long. The words are zero before the first call. Hands back those for the next call, and how many samples were written.
///
/// # Errors
///
/// [`Refusal::NotWholeGroups`], [`TooLong`](Refusal::TooLong) or [`NotHalf`](Refusal::NotHalf), the first that applies.
/// Nothing is written then.
///
/// ```
/// # use simmerpatch::{down2, Refusal};
/// let mut out = [0; 240];
/// let (words, written) = down2([0; 2], &mut out, &[500; 480])?;
/// assert_eq!(written, 240);
/// let (words, written) = down2(words, &mut out, &[500; 480])?;
/// # let _ = (words, written);
/// # Ok::<(), Refusal>(())
/// ```
pub fn down2(
    words: [i32; 2],
    out: &mut [i16],
    input: &[i16],
) -> Result<([i32; 2], usize), Refusal> {
    lengths::down2(input.len(), out.len())?;
    let given = raw::Two { w: words };
    // As in `Record::resample`.
    let halves = unsafe {
        raw::simmerpatch_down2(
            given,
            out.as_mut_ptr(),
            out.len(),
            input.as_ptr(),
            input.len(),
        )
    };
    answered(halves.refused, (halves.words.w, halves.written))
}

/// Splits into a low and a high band, a sample of each for each two. The input is even and at most [`MOST_SAMPLES`] long,
/// and both bands are just half as long. The words are zero before the first call. Hands back those for the next call, and
/// how many samples of each band were written.
///
/// # Errors
///
/// [`Refusal::NotWholeGroups`], [`TooLong`](Refusal::TooLong) or [`NotHalf`](Refusal::NotHalf), the first that applies.
/// Nothing is written then.
///
/// ```
/// # use simmerpatch::{split, Refusal};
/// let (mut low, mut high) = ([0; 160], [0; 160]);
/// let (words, written) = split([0; 2], &mut low, &mut high, &[500; 320])?;
/// assert_eq!(written, 160);
/// # let _ = words;
/// # Ok::<(), Refusal>(())
/// ```
pub fn split(
    words: [i32; 2],
    low: &mut [i16],
    high: &mut [i16],
    input: &[i16],
) -> Result<([i32; 2], usize), Refusal> {
    lengths::split(input.len(), low.len(), high.len())?;
    let given = raw::Two { w: words };
    // As in `Record::resample`.
    let halves = unsafe {
        raw::simmerpatch_split(
            given,
            low.as_mut_ptr(),
            low.len(),
            high.as_mut_ptr(),
            high.len(),
            input.as_ptr(),
            input.len(),
        )
    };
    answered(halves.refused, (halves.words.w, halves.written))
}

/// The 2/3 decimator: two samples for each three, into the front of `out`. The input's length is a multiple of three and at
/// most [`MOST_SAMPLES`]. What lies beyond what is made stays as it was. The words are zero before the first call. Hands
/// back those for the next call, and how many samples were written.
///
/// # Errors
///
/// [`Refusal::NotWholeGroups`], [`TooLong`](Refusal::TooLong) or [`NoRoom`](Refusal::NoRoom), the first that applies.
/// Nothing is written then.
///
/// ```
/// # use simmerpatch::{down2_3, Refusal};
/// let mut out = [0; 320];
/// let (words, written) = down2_3([0; 6], &mut out, &[500; 480])?;
/// assert_eq!(written, 320);
/// # let _ = words;
/// # Ok::<(), Refusal>(())
/// ```
pub fn down2_3(
    words: [i32; 6],
    out: &mut [i16],
    input: &[i16],
) -> Result<([i32; 6], usize), Refusal> {
    lengths::down2_3(input.len(), out.len())?;
    let given = raw::Six { w: words };
    // As in `Record::resample`.
    let thirds = unsafe {
        raw::simmerpatch_down2_3(
            given,
            out.as_mut_ptr(),
            out.len(),
            input.as_ptr(),
            input.len(),
        )
    };
    answered(thirds.refused, (thirds.words.w, thirds.written))
}

/// What a call left, where its number says that it was done.
fn answered<T>(number: u8, left: T) -> Result<T, Refusal> {
    match Refusal::from_number(number) {
        Some(refusal) => Err(refusal),
        None => {
            assert_eq!(
                number, 0,
                "another library is linked: no refusal has this number"
            );
            Ok(left)
        }
    }
}

//! The C functions of `simmerpatch.h` as they are, and what they take and hand back. The safe functions of this crate are
//! these behind Rust's slices; here the library's own answers can be seen, for any lengths.
//!
//! Each takes any record, any words, any bytes and any lengths, and refuses what it does not do with a number in `refused`.
//! A refused call writes nothing and hands back what it was given; where no record was given, as to [`simmerpatch_open`] and
//! [`simmerpatch_resume`], one that is zero throughout.
//!
//! # Safety
//!
//! Of the functions that take pointers:
//!
//! - a pointer and the length behind it belong together, and it is not null, not even where the length is 0;
//! - what is lent to be written overlaps nothing else that the same call is given.

use crate::Record;

/// The carried words of the 1/2 decimator and of the split.
#[derive(Clone, Copy, Debug, PartialEq, Eq)]
#[repr(C)]
pub struct Two {
    /// Zero before the first call.
    pub w: [i32; 2],
}

/// The carried words of the 2/3 decimator.
#[derive(Clone, Copy, Debug, PartialEq, Eq)]
#[repr(C)]
pub struct Six {
    /// Zero before the first call.
    pub w: [i32; 6],
}

/// What a call with a record leaves.
#[derive(Clone, Copy, Debug, PartialEq, Eq)]
#[repr(C)]
pub struct Line {
    /// 0, or the number of the refusal.
    pub refused: u8,
    /// How many samples were written.
    pub written: usize,
    /// The state for the next call.
    pub record: Record,
}

/// What a call of the 1/2 decimator or of the split leaves.
#[derive(Clone, Copy, Debug, PartialEq, Eq)]
#[repr(C)]
pub struct Halves {
    /// 0, or the number of the refusal.
    pub refused: u8,
    /// How many samples were written, to each band where there are two.
    pub written: usize,
    /// The state for the next call.
    pub words: Two,
}

/// What a call of the 2/3 decimator leaves.
#[derive(Clone, Copy, Debug, PartialEq, Eq)]
#[repr(C)]
pub struct Thirds {
    /// 0, or the number of the refusal.
    pub refused: u8,
    /// How many samples were written.
    pub written: usize,
    /// The state for the next call.
    pub words: Six,
}

#[rustfmt::skip]
unsafe extern "C" {
    /// Opens a line: rates in Hz; `for_enc` is 0 for the decoder and anything else for the encoder. Refuses with 1.
    pub safe fn simmerpatch_open(in_hz: i32, out_hz: i32, for_enc: i32) -> Line;

    /// Converts whole milliseconds. Refuses with 2, 3, 4, 5.
    pub fn simmerpatch_resample(s: Record, out: *mut i16, room: usize, input: *const i16, n: usize) -> Line;

    /// Parks a record in a block. Refuses with 2, 8.
    pub fn simmerpatch_park(s: Record, block: *mut u8, bytes: usize) -> Line;

    /// The record of a parked block. Refuses with 8 to 12.
    pub fn simmerpatch_resume(block: *const u8, bytes: usize) -> Line;

    /// One sample for each two. Refuses with 6, 4, 7.
    pub fn simmerpatch_down2(s: Two, out: *mut i16, room: usize, input: *const i16, n: usize) -> Halves;

    /// A sample of each band for each two. Refuses with 6, 4, 7.
    pub fn simmerpatch_split(s: Two, low: *mut i16, low_room: usize, high: *mut i16, high_room: usize,
                             input: *const i16, n: usize) -> Halves;

    /// Two samples for each three. Refuses with 6, 4, 5.
    pub fn simmerpatch_down2_3(s: Six, out: *mut i16, room: usize, input: *const i16, n: usize) -> Thirds;
}

/// The layout that the library was built with; the C header asserts the same.
mod laid_out {
    use super::{Halves, Line, Record, Six, Thirds, Two};
    use std::mem::{align_of, offset_of, size_of};

    const _: () = {
        assert!(size_of::<Record>() == 292 && align_of::<Record>() == 4);
        assert!(offset_of!(Record, direction) == 0);
        assert!(offset_of!(Record, in_khz) == 1);
        assert!(offset_of!(Record, out_khz) == 2);
        assert!(offset_of!(Record, doubler) == 4);
        assert!(offset_of!(Record, samples) == 28);
        assert!(offset_of!(Record, ar2) == 44);
        assert!(offset_of!(Record, fir) == 52);
        assert!(offset_of!(Record, delay) == 196);

        assert!(size_of::<Two>() == 8 && offset_of!(Two, w) == 0);
        assert!(size_of::<Six>() == 24 && offset_of!(Six, w) == 0);

        assert!(size_of::<Line>() == 312 && offset_of!(Line, refused) == 0);
        assert!(offset_of!(Line, written) == 8 && offset_of!(Line, record) == 16);
        assert!(size_of::<Halves>() == 24 && offset_of!(Halves, refused) == 0);
        assert!(offset_of!(Halves, written) == 8 && offset_of!(Halves, words) == 16);
        assert!(size_of::<Thirds>() == 40 && offset_of!(Thirds, refused) == 0);
        assert!(offset_of!(Thirds, written) == 8 && offset_of!(Thirds, words) == 16);
    };
}

//! Ours: the C functions that bindings/c/simmerpatch.h declares.

use crate::line::{Line, Record};

/// The header's simmerpatch_two and simmerpatch_six.
#[repr(C)]
#[derive(Clone, Copy)]
pub struct Words<const N: usize> {
    pub w: [i32; N],
}

/// The header's simmerpatch_halves and simmerpatch_thirds.
#[repr(C)]
pub struct Left<const N: usize> {
    pub row: u8,
    pub written: usize,
    pub words: Words<N>,
}

// As the header says that they are laid out.
const _: () = assert!(size_of::<Record>() == 292 && size_of::<Line>() == 312);
const _: () = assert!(size_of::<Left<2>>() == 24 && size_of::<Left<6>>() == 40);

#[rustfmt::skip]
unsafe extern "C" {
    fn simmerpatch_open(in_hz: i32, out_hz: i32, for_enc: i32) -> Line;
    fn simmerpatch_resample(s: Record, out: *mut i16, room: usize, input: *const i16, n: usize) -> Line;
    fn simmerpatch_park(s: Record, block: *mut u8, bytes: usize) -> Line;
    fn simmerpatch_resume(block: *const u8, bytes: usize) -> Line;
    fn simmerpatch_down2(s: Words<2>, out: *mut i16, room: usize, input: *const i16, n: usize) -> Left<2>;
    fn simmerpatch_split(s: Words<2>, low: *mut i16, low_room: usize, high: *mut i16, high_room: usize, input: *const i16, n: usize) -> Left<2>;
    fn simmerpatch_down2_3(s: Words<6>, out: *mut i16, room: usize, input: *const i16, n: usize) -> Left<6>;
}

// Each takes any numbers, words, bytes and lengths, and writes within what is lent to it. So a slice in two parts is safe.

pub fn open(in_hz: i32, out_hz: i32, for_enc: i32) -> Line {
    unsafe { simmerpatch_open(in_hz, out_hz, for_enc) }
}

pub fn resample(s: Record, out: &mut [i16], input: &[i16]) -> Line {
    let (at, from) = (out.as_mut_ptr(), input.as_ptr());
    unsafe { simmerpatch_resample(s, at, out.len(), from, input.len()) }
}

pub fn park(s: Record, block: &mut [u8]) -> Line {
    unsafe { simmerpatch_park(s, block.as_mut_ptr(), block.len()) }
}

pub fn resume(block: &[u8]) -> Line {
    unsafe { simmerpatch_resume(block.as_ptr(), block.len()) }
}

pub fn down2(w: [i32; 2], out: &mut [i16], input: &[i16]) -> Left<2> {
    let (at, from) = (out.as_mut_ptr(), input.as_ptr());
    unsafe { simmerpatch_down2(Words { w }, at, out.len(), from, input.len()) }
}

pub fn split(w: [i32; 2], low: &mut [i16], high: &mut [i16], input: &[i16]) -> Left<2> {
    let (low_room, high_room) = (low.len(), high.len());
    let (low, high, from) = (low.as_mut_ptr(), high.as_mut_ptr(), input.as_ptr());
    unsafe {
        simmerpatch_split(
            Words { w },
            low,
            low_room,
            high,
            high_room,
            from,
            input.len(),
        )
    }
}

pub fn down2_3(w: [i32; 6], out: &mut [i16], input: &[i16]) -> Left<6> {
    let (at, from) = (out.as_mut_ptr(), input.as_ptr());
    unsafe { simmerpatch_down2_3(Words { w }, at, out.len(), from, input.len()) }
}

//! The Rust original as C functions for the fuzzer: it makes the same call, and says whether it comes to the same.

#[allow(dead_code)]
#[path = "../oracle/lines.rs"]
mod lines;

use lines::{Original, Pair, Record};
use std::slice::from_raw_parts;
use unopus::silk::ana_filt_bank_1::silk_ana_filt_bank_1;
use unopus::silk::resampler::down2::silk_resampler_down2;
use unopus::silk::resampler::down2_3::silk_resampler_down2_3;

#[repr(C)]
pub struct Two {
    w: [i32; 2],
}

#[repr(C)]
pub struct Six {
    w: [i32; 6],
}

/// # Safety
/// Pointers and lengths belong together.
#[no_mangle]
pub unsafe extern "C" fn original_resamples(
    given: Record,
    input: *const i16,
    n: usize,
    out: *const i16,
    made: usize,
    after: Record,
) -> i32 {
    let (input, out) = unsafe { (from_raw_parts(input, n), from_raw_parts(out, made)) };
    let mut original = Original::open(Pair {
        direction: given.direction,
        in_khz: given.in_khz as usize,
        out_khz: given.out_khz as usize,
    });
    original.put(&given);
    let mut own = vec![0; made];
    original.resample(input, &mut own);
    (own == out && original.shown() == after) as i32
}

/// # Safety
/// As above; each band is half as long as the input.
#[no_mangle]
pub unsafe extern "C" fn original_by_two(
    split: i32,
    given: Two,
    input: *const i16,
    n: usize,
    low: *const i16,
    high: *const i16,
    after: Two,
) -> i32 {
    let half = n / 2;
    let mut words = given.w;
    let (input, low) = unsafe { (from_raw_parts(input, n), from_raw_parts(low, half)) };
    let mut own = [vec![0i16; half], vec![0i16; half]];
    if split == 0 {
        silk_resampler_down2(&mut words, &mut own[0], input);
        return (own[0] == low && words == after.w) as i32;
    }
    let high = unsafe { from_raw_parts(high, half) };
    let [low_own, high_own] = &mut own;
    unsafe {
        silk_ana_filt_bank_1(
            input.as_ptr(),
            words.as_mut_ptr(),
            low_own.as_mut_ptr(),
            high_own.as_mut_ptr(),
            n as i32,
        );
    }
    (own[0] == low && own[1] == high && words == after.w) as i32
}

/// # Safety
/// As above; of three samples come two.
#[no_mangle]
pub unsafe extern "C" fn original_by_three(
    given: Six,
    input: *const i16,
    n: usize,
    out: *const i16,
    after: Six,
) -> i32 {
    let made = 2 * (n / 3);
    let mut words = given.w;
    let (input, out) = unsafe { (from_raw_parts(input, n), from_raw_parts(out, made)) };
    let mut own = vec![0; made];
    silk_resampler_down2_3(&mut words, &mut own, input);
    (own == out && words == after.w) as i32
}

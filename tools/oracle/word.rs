//! The original's operations on 32-bit words, with the operators of a release build: sums wrap.

pub fn sum(a: i32, b: i32) -> i32 {
    a + b
}

pub fn difference(a: i32, b: i32) -> i32 {
    a - b
}

pub fn fourfold(x: i32) -> i32 {
    x << 2
}

/// For |c| < 65536 the answer fits.
pub fn product(c: i32, y: i32) -> i32 {
    ((c as i64 * y as i64) >> 16) as i32
}

pub fn narrow(x: i32, n: i32) -> i32 {
    (((x >> (n - 1)) + 1) >> 1).clamp(i16::MIN as i32, i16::MAX as i32)
}

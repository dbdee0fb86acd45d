//! Stands in for the crate arrayref: the one macro that the original uses.

/// `array_mut_ref![words, 4, 2]` borrows words 4 and 5 as an array of two.
#[macro_export]
macro_rules! array_mut_ref {
    ($words:expr, $start:expr, $count:expr) => {
        <&mut [_; $count]>::try_from(&mut $words[$start..][..$count]).unwrap()
    };
}

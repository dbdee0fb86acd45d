//! Reads single word operations off calls of the original. Each public function gets our answer,
//! stops the program where the original shows another, and says whether a call shows it at all.

use crate::word;
use unopus::silk::ana_filt_bank_1::silk_ana_filt_bank_1;
use unopus::silk::resampler::ar2::silk_resampler_private_AR2;
use unopus::silk::resampler::down2::silk_resampler_down2;
use unopus::silk::resampler::down_fir::silk_resampler_private_down_FIR_INTERPOL;
use unopus::silk::resampler::iir_fir::silk_resampler_private_IIR_FIR_INTERPOL;
use unopus::silk::resampler::up2_hq::{silk_resampler_private_up2_HQ, ResamplerUp2HqState};

/// Coefficients of the allpass sections: the doubler's two chains, the halver, the band split.
pub const UP2: [i32; 6] = [1746, 14986, 39083, 6854, 25769, 55542];
pub const DOWN2: [i32; 2] = [39809, 9872];
pub const SPLIT: [i32; 2] = [41246, 10788];

/// The FIR stage adds the words of a pair of taps and shows all of the sum but its lowest bit.
/// AR2 shows it whole where `b` is 256 times a sample, or a product with its first coefficient.
pub fn sum(a: i32, b: i32, answer: i32) -> bool {
    tap_adds(i16::MIN, a, b, word::product(-32768, answer));
    if let (Ok(sample), 0) = (i16::try_from(b / 256), b % 256) {
        assert_eq!(ar2([a, 0], sample, [0, 0]).0, answer, "sum {a} {b}");
    }
    if (-(1 << 29)..1 << 29).contains(&b) {
        assert_eq!(ar2([b, a], 0, [16384, 0]).1[0], answer, "sum {a} {b}");
    }
    true
}

/// Shown through the products of the third sections of the doubler, which get `a` and hold `b`.
pub fn difference(a: i32, b: i32, answer: i32) -> bool {
    let (words, _) = up2(both_third_sections(a, b));
    for (held, c) in [(words[2], UP2[2]), (words[5], UP2[5])] {
        let expected = word::sum(a, word::product(c, answer));
        assert_eq!(held, expected, "difference {a} {b}");
    }
    true
}

/// AR2 halves the four-fold word, which is even: nothing is lost.
pub fn fourfold(x: i32, answer: i32) -> bool {
    let (_, words) = ar2([x, 0], 0, [0, i16::MIN]);
    assert_eq!(words[1], word::product(-32768, answer), "four-fold {x}");
    true
}

/// Shown by a FIR tap and AR2 where `c` fits a table entry, by the section where it is a section's.
pub fn product(c: i32, y: i32, answer: i32) -> bool {
    let mut shown = false;
    if let Ok(c) = i16::try_from(c) {
        tap_adds(c, y, 0, answer);
        if y % 4 == 0 {
            assert_eq!(ar2([y / 4, 0], 0, [0, c]).1[1], answer, "product {c} {y}");
        }
        shown = true;
    }
    for (coefficient, held) in sections(word::difference(0, y)) {
        if coefficient == c {
            assert_eq!(held, answer, "product {c} {y}");
            shown = true;
        }
    }
    shown
}

/// Shown for every `x`, but by 15 only for those that four taps of the interpolator can sum to.
pub fn narrow(x: i32, n: i32, answer: i32) -> bool {
    let outputs = match n {
        6 => vec![fir(0, 0, 0, x)],
        10 => up2(both_third_sections(x, x)).1.to_vec(),
        11 => vec![narrow_by_halver(x), narrow_by_split(x)],
        _ => narrow_by_interpolator(x).into_iter().collect(),
    };
    for output in &outputs {
        assert_eq!(*output as i32, answer, "narrowing {x} {n}");
    }
    !outputs.is_empty()
}

/// One sample through AR2: the output and the new words.
fn ar2(mut words: [i32; 2], sample: i16, coefficients: [i16; 2]) -> (i32, [i32; 2]) {
    let mut out = [0];
    silk_resampler_private_AR2(&mut words, &mut out, &[sample], &coefficients);
    (out[0], words)
}

/// One output of the FIR stage of order 24, on a sum of `x` and the product of `c` and `a + b`.
/// A tap of -32768 halves its word, so four words carry any `x`.
fn fir(c: i16, a: i32, b: i32, x: i32) -> i16 {
    let quarter = x >> 2;
    let mut words = [0; 24];
    words[0] = a;
    words[23] = b;
    words[1..4].fill(-2 * quarter);
    words[4] = -2 * (x - 3 * quarter);
    let mut coefficients = [0; 12];
    coefficients[0] = c;
    coefficients[1..5].fill(i16::MIN);
    let mut out = [0];
    silk_resampler_private_down_FIR_INTERPOL(&mut out, &words, &coefficients, 24, 1, 1, 65536);
    out[0]
}

/// The tap of `c` adds exactly `x`: only a sum of 31 gives 0, and 1 when it is one more.
fn tap_adds(c: i16, a: i32, b: i32, x: i32) {
    for (sum, output) in [(31, 0), (32, 1)] {
        let rest = word::difference(sum, x);
        assert_eq!(fir(c, a, b, rest), output, "tap {c} on {a} and {b}");
    }
}

/// A sample 0 through the doubler: the new words and the two outputs.
fn up2(words: [i32; 6]) -> ([i32; 6], [i16; 2]) {
    let mut state = ResamplerUp2HqState { iir_state: words };
    let mut out = [0; 2];
    silk_resampler_private_up2_HQ(&mut state, &mut out, &[0]);
    (state.iir_state, out)
}

/// The samples 0, 0 through the halver: the new words and the output.
fn down2(mut words: [i32; 2]) -> ([i32; 2], i16) {
    let mut out = [0];
    silk_resampler_down2(&mut words, &mut out, &[0, 0]);
    (words, out[0])
}

/// The samples 0, 0 through the band split: the new words, the low and the high output.
fn split(mut words: [i32; 2]) -> ([i32; 2], i16, i16) {
    let (samples, mut low, mut high) = ([0i16; 2], 0i16, 0i16);
    // SAFETY: of two samples the original makes one output for each side; the words are two.
    unsafe { silk_ana_filt_bank_1(samples.as_ptr(), words.as_mut_ptr(), &mut low, &mut high, 2) };
    (words, low, high)
}

/// Each section alone, given 0 and holding `word`: its coefficient and its new word.
fn sections(word: i32) -> Vec<(i32, i32)> {
    let mut shown = Vec::new();
    for i in 0..6 {
        let mut words = [0; 6];
        words[i] = word;
        shown.push((UP2[i], up2(words).0[i]));
    }
    shown.extend(DOWN2.into_iter().zip(down2([word; 2]).0));
    shown.extend(SPLIT.into_iter().zip(split([word; 2]).0));
    shown
}

/// The word with which a section of coefficient `c`, given 0, hands on exactly `x`.
/// It hands on the floor of the word times (65536 - c) / 65536.
fn word_for(c: i32, x: i32) -> i32 {
    let kept = 65536 - c as i64;
    let word = -(-65536 * x as i64).div_euclid(kept);
    i32::try_from(word).expect("a section reaches the value")
}

/// The words of two sections that together hand on exactly `x`, for every `x`: where the first
/// can't reach it, the second wraps.
fn two_words_for(c: [i32; 2], x: i32) -> [i32; 2] {
    let y = match x {
        -0x6000_0000..=0x6000_0000 => 0,
        1.. => i32::MIN,
        _ => i32::MAX,
    };
    let second = word::difference(x, word::product(c[1], y));
    [word_for(c[0], word::sum(second, y)), second]
}

/// Words of the doubler with which both third sections are given `x` and hold `word`.
fn both_third_sections(x: i32, word: i32) -> [i32; 6] {
    let [even_0, even_1] = two_words_for([UP2[0], UP2[1]], x);
    let [odd_0, odd_1] = two_words_for([UP2[3], UP2[4]], x);
    [even_0, even_1, word, odd_0, odd_1, word]
}

/// The two sections of the halver hand on a quarter of `x` and the rest.
fn narrow_by_halver(x: i32) -> i16 {
    let quarter = x >> 2;
    down2([word_for(DOWN2[0], quarter), word_for(DOWN2[1], x - quarter)]).1
}

/// The band split likewise; its other side shows the difference of the two.
fn narrow_by_split(x: i32) -> i16 {
    let quarter = x >> 2;
    let rest = x - quarter;
    let (_, low, high) = split([word_for(SPLIT[0], quarter), word_for(SPLIT[1], rest)]);
    let expected = word::narrow(word::difference(rest, quarter), 11);
    assert_eq!(high as i32, expected, "high side for {x}");
    low
}

/// The interpolator at fraction 0 on samples whose sum is `x`, if there are any:
/// 30567 and 2996 take the bulk, 189 and -46 the rest exactly.
fn narrow_by_interpolator(x: i32) -> Option<i16> {
    let most = (x / 30567).clamp(-32768, 32767);
    let more = (x - 30567 * most) / 2996;
    let rest = x - 30567 * most - 2996 * more;
    let (first, last) = (0..46)
        .map(|k| (k, 189 * k - rest))
        .find(|(_, left)| left % 46 == 0)?;
    let mut samples = [0; 8];
    for (place, value) in [(0, first), (3, most), (4, more), (7, last / 46)] {
        samples[place] = i16::try_from(value).ok()?;
    }
    let mut out = [0];
    silk_resampler_private_IIR_FIR_INTERPOL(&mut out, &samples, 1, 65536);
    Some(out[0])
}

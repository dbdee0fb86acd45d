//! libopus, as its own headers declare it.

/// A resampler as libopus holds it. The interpolator keeps its samples in the first words of `fir`, two in each.
#[repr(C)]
pub struct State {
    pub iir: [i32; 6],
    pub fir: [i32; 36],
    pub delay: [i16; 48],
    pub function: i32,
    pub batch_size: i32,
    pub increment: i32,
    pub order: i32,
    pub rows: i32,
    pub in_khz: i32,
    pub out_khz: i32,
    pub input_delay: i32,
    pub coefs: *const i16,
}

#[rustfmt::skip]
unsafe extern "C" {
    pub fn silk_resampler_init(state: *mut State, in_hz: i32, out_hz: i32, for_enc: i32) -> i32;
    pub fn silk_resampler(state: *mut State, out: *mut i16, input: *const i16, samples: i32) -> i32;
    pub fn silk_resampler_down2(words: *mut i32, out: *mut i16, input: *const i16, samples: i32);
    pub fn silk_resampler_down2_3(words: *mut i32, out: *mut i16, input: *const i16, samples: i32);
    pub fn silk_ana_filt_bank_1(input: *const i16, words: *mut i32, low: *mut i16, high: *mut i16, samples: i32);
    pub fn silk_resampler_private_up2_HQ(words: *mut i32, out: *mut i16, input: *const i16, samples: i32);
    pub fn silk_resampler_private_down_FIR(state: *mut State, out: *mut i16, input: *const i16, samples: i32);
    pub fn silk_resampler_private_IIR_FIR(state: *mut State, out: *mut i16, input: *const i16, samples: i32);
}

/// Opens a line. The tables and the increment are those that libopus chooses for the pair.
pub fn opened(in_khz: usize, out_khz: usize, for_enc: bool) -> State {
    // Numbers, and a pointer that may be null.
    let mut state: State = unsafe { std::mem::zeroed() };
    let [from, to] = [in_khz, out_khz].map(|khz| 1000 * khz as i32);
    let refused = unsafe { silk_resampler_init(&mut state, from, to, for_enc as i32) };
    assert_eq!(refused, 0, "libopus opens {in_khz} to {out_khz}");
    assert_eq!(
        [state.in_khz, state.out_khz, state.batch_size],
        [in_khz, out_khz, 10 * in_khz].map(|n| n as i32),
        "libopus lays its record out in another way"
    );
    state
}

/// The first words of `fir` as samples, two in each, and back.
pub fn samples_in(fir: &[i32; 36]) -> [i16; 8] {
    std::array::from_fn(|k| (fir[k / 2] >> (16 * (k % 2))) as i16)
}

pub fn put_samples(fir: &mut [i32; 36], samples: [i16; 8]) {
    for k in 0..4 {
        let [low, high] = [samples[2 * k], samples[2 * k + 1]].map(|x| x as u16 as u32);
        fir[k] = (low | high << 16) as i32;
    }
}

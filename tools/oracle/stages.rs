//! The stages of the original behind one interface: words go in and come out as a list, and so do the outputs.

use unopus::silk::ana_filt_bank_1::silk_ana_filt_bank_1;
use unopus::silk::resampler::ar2::silk_resampler_private_AR2;
use unopus::silk::resampler::down2::silk_resampler_down2;
use unopus::silk::resampler::down2_3::silk_resampler_down2_3;
use unopus::silk::resampler::down_fir::{
    silk_resampler_private_down_FIR, ResamplerDownFirParams, ResamplerDownFirState,
};
use unopus::silk::resampler::iir_fir::{silk_resampler_private_IIR_FIR, ResamplerIirFirState};
use unopus::silk::resampler::rom::*;
use unopus::silk::resampler::up2_hq::{silk_resampler_private_up2_HQ, ResamplerUp2HqState};
use unopus::silk::resampler::{silk_resampler_init, ResamplerMode, ResamplerParams};

/// What a place of an output holds before a call.
pub const UNTOUCHED: i16 = 12345;

/// The kinds of their cases.
pub const AR2: usize = 5;
pub const DOWN2: usize = 6;
pub const SPLIT: usize = 7;
pub const DOWN2_3: usize = 8;
pub const UP2_HQ: usize = 9;
pub const IIR_FIR: usize = 10;
pub const DOWN_FIR: usize = 11;

pub struct Stage {
    pub kind: usize,
    call: Call,
    /// What it is told before its words: coefficients, or a table and rates.
    pub told: Vec<i32>,
    /// How many words it carries, and how many of them, the last ones, hold a sample.
    pub words: usize,
    pub held: usize,
    /// So many samples go in together, a group or a millisecond, and so many come out.
    pub unit: usize,
    made: usize,
    /// So many places more than needed are lent to it.
    spare: usize,
    /// How often each choice of words meets each signal in a short run, and of how many units at the most.
    pub rounds: usize,
    pub short: usize,
    /// Longer runs, in units. Where there are batches, these go past the first.
    pub longer: &'static [usize],
}

enum Call {
    Ar2([i16; 2]),
    Down2,
    Split,
    Down23,
    Up2,
    IirFir(ResamplerParams),
    DownFir(ResamplerParams, ResamplerDownFirParams),
}

pub fn ar2(coefficients: [i16; 2]) -> Stage {
    Stage {
        kind: AR2,
        call: Call::Ar2(coefficients),
        told: coefficients.map(i32::from).to_vec(),
        words: 2,
        held: 0,
        unit: 1,
        made: 1,
        spare: 0,
        rounds: 1,
        short: 96,
        longer: &[],
    }
}

pub fn down2() -> Stage {
    Stage {
        kind: DOWN2,
        call: Call::Down2,
        told: vec![],
        words: 2,
        held: 0,
        unit: 2,
        made: 1,
        spare: 0,
        rounds: 4,
        short: 48,
        longer: &[200],
    }
}

/// The low band and behind it the high one are one output.
pub fn split() -> Stage {
    Stage {
        kind: SPLIT,
        call: Call::Split,
        made: 2,
        ..down2()
    }
}

pub fn down2_3() -> Stage {
    Stage {
        kind: DOWN2_3,
        call: Call::Down23,
        told: vec![],
        words: 6,
        held: 0,
        unit: 3,
        made: 2,
        spare: 2,
        rounds: 4,
        short: 32,
        longer: &[161, 200],
    }
}

pub fn up2_hq() -> Stage {
    Stage {
        kind: UP2_HQ,
        call: Call::Up2,
        unit: 1,
        short: 64,
        longer: &[200],
        ..down2_3()
    }
}

/// The interpolator or the down filter that the original opens for a pair of rates.
pub fn reader(in_khz: usize, out_khz: usize) -> Stage {
    let for_encoder = (out_khz <= 16) as i32;
    let [in_hz, out_hz] = [in_khz, out_khz].map(|khz| 1000 * khz as i32);
    let opened = silk_resampler_init(in_hz, out_hz, for_encoder);
    let params = opened.params;
    let rates = [in_khz as i32, out_khz as i32, params.inv_ratio_q16];
    let interpolator = Stage {
        kind: IIR_FIR,
        call: Call::IirFir(params),
        told: rates.to_vec(),
        words: 6 + 8,
        held: 8,
        unit: in_khz,
        made: out_khz,
        spare: 2,
        rounds: 1,
        short: 4,
        longer: &[12],
    };
    match opened.mode {
        ResamplerMode::IirFir(_) => interpolator,
        ResamplerMode::DownFir(filter, _) => Stage {
            kind: DOWN_FIR,
            call: Call::DownFir(params, filter),
            told: [&[which(filter.coefs)][..], &rates].concat(),
            words: 2 + filter.fir_order,
            held: 0,
            ..interpolator
        },
        _ => panic!("{in_khz} to {out_khz} has no reader"),
    }
}

/// The tables of the down filters. Each begins with a pair for AR2.
pub const DOWN_TABLES: [&[i16]; 6] = [
    &silk_Resampler_3_4_COEFS,
    &silk_Resampler_2_3_COEFS,
    &silk_Resampler_1_2_COEFS,
    &silk_Resampler_1_3_COEFS,
    &silk_Resampler_1_4_COEFS,
    &silk_Resampler_1_6_COEFS,
];

fn which(coefs: &[i16]) -> i32 {
    let found = DOWN_TABLES.iter().position(|table| *table == coefs);
    found.expect("a table of a down filter") as i32
}

impl Stage {
    /// The outputs, and behind them the spare places. The words become those after the call.
    pub fn call(&self, words: &mut [i32], input: &[i16]) -> Vec<i32> {
        let made = input.len() / self.unit * self.made;
        let mut out = vec![UNTOUCHED; made + self.spare];
        match &self.call {
            Call::Ar2(coefficients) => return filtered(array(words), input, coefficients),
            Call::Down2 => silk_resampler_down2(array(words), &mut out, input),
            Call::Split => bands(array(words), &mut out, input),
            Call::Down23 => silk_resampler_down2_3(array(words), &mut out, input),
            // It takes an output of just the length.
            Call::Up2 => doubled(array(words), &mut out[..made], input),
            Call::IirFir(params) => interpolated(params, words, &mut out, input),
            Call::DownFir(params, filter) => decimated(params, filter, words, &mut out, input),
        }
        out.into_iter().map(i32::from).collect()
    }
}

fn array<const N: usize>(words: &mut [i32]) -> &mut [i32; N] {
    words
        .try_into()
        .expect("as many words as the stage carries")
}

fn filtered(words: &mut [i32; 2], input: &[i16], coefficients: &[i16; 2]) -> Vec<i32> {
    let mut out = vec![0; input.len()];
    silk_resampler_private_AR2(words, &mut out, input, coefficients);
    out
}

fn bands(words: &mut [i32; 2], out: &mut [i16], input: &[i16]) {
    let (low, high) = out.split_at_mut(input.len() / 2);
    assert_eq!(low.len(), high.len());
    // SAFETY: of the input the original makes half as many outputs for each band; the words are two.
    unsafe {
        silk_ana_filt_bank_1(
            input.as_ptr(),
            words.as_mut_ptr(),
            low.as_mut_ptr(),
            high.as_mut_ptr(),
            input.len() as i32,
        );
    }
}

fn doubled(words: &mut [i32; 6], out: &mut [i16], input: &[i16]) {
    let mut state = ResamplerUp2HqState { iir_state: *words };
    silk_resampler_private_up2_HQ(&mut state, out, input);
    *words = state.iir_state;
}

fn interpolated(params: &ResamplerParams, words: &mut [i32], out: &mut [i16], input: &[i16]) {
    let (doubler, samples) = words.split_at_mut(6);
    let mut state = ResamplerIirFirState::default();
    state.up2_HQ.iir_state.copy_from_slice(doubler);
    state.fir_state = std::array::from_fn(|k| samples[k] as i16);
    silk_resampler_private_IIR_FIR(params, &mut state, out, input);
    doubler.copy_from_slice(&state.up2_HQ.iir_state);
    samples.copy_from_slice(&state.fir_state.map(i32::from));
}

fn decimated(
    params: &ResamplerParams,
    filter: &ResamplerDownFirParams,
    words: &mut [i32],
    out: &mut [i16],
    input: &[i16],
) {
    let (ar2, fir) = words.split_at_mut(2);
    let mut state = ResamplerDownFirState::default();
    state.ar2_state.copy_from_slice(ar2);
    state.fir_state[..filter.fir_order].copy_from_slice(fir);
    silk_resampler_private_down_FIR(params, filter, &mut state, out, input);
    ar2.copy_from_slice(&state.ar2_state);
    fir.copy_from_slice(&state.fir_state[..filter.fir_order]);
}

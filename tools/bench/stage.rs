//! The stages, each in up to three implementations behind one interface: ours (the static library of crates/probes), the
//! Rust original's, and libopus's.

use unopus::silk::ana_filt_bank_1::silk_ana_filt_bank_1;
use unopus::silk::resampler::down2::silk_resampler_down2;
use unopus::silk::resampler::down2_3::silk_resampler_down2_3;
use unopus::silk::resampler::down_fir::{
    silk_resampler_private_down_FIR, ResamplerDownFirParams, ResamplerDownFirState,
};
use unopus::silk::resampler::iir_fir::{silk_resampler_private_IIR_FIR, ResamplerIirFirState};
use unopus::silk::resampler::rom::*;
use unopus::silk::resampler::up2_hq::{silk_resampler_private_up2_HQ, ResamplerUp2HqState};
use unopus::silk::resampler::ResamplerParams;

#[derive(Clone, Copy)]
pub struct Stage {
    pub name: &'static str,
    pub kind: Kind,
    /// So many samples go in together: a group, or a millisecond.
    pub unit: usize,
    /// So many come out for each unit; the split puts them out twice.
    pub made: usize,
    /// The input of 20 ms.
    pub frame: usize,
}

#[derive(Clone, Copy)]
pub enum Kind {
    Down2,
    Split,
    Down23,
    Up2,
    Down(Filter),
    Up(Interpolator),
}

#[derive(Clone, Copy)]
pub struct Filter {
    probe: DownProbe,
    increment: i32,
    order: usize,
    rows: i32,
    coefs: &'static [i16],
}

#[derive(Clone, Copy)]
pub struct Interpolator {
    probe: UpProbe,
    increment: i32,
}

impl Stage {
    pub fn outputs(&self, samples: usize) -> usize {
        samples / self.unit * self.made
    }

    pub fn bands(&self) -> usize {
        if matches!(self.kind, Kind::Split) {
            2
        } else {
            1
        }
    }

    /// The 1/2 decimator and the split take an output of just the length.
    pub fn spare(&self) -> usize {
        if matches!(self.kind, Kind::Down2 | Kind::Split) {
            0
        } else {
            2
        }
    }

    /// The most samples that ours takes in a call, where there is a limit.
    pub fn most(&self) -> usize {
        match self.kind {
            Kind::Down2 | Kind::Split | Kind::Down23 => 48_000,
            _ => usize::MAX,
        }
    }

    /// How many live words there are.
    pub fn words(&self) -> usize {
        match self.kind {
            Kind::Down2 | Kind::Split => 2,
            Kind::Down23 | Kind::Up2 => 6,
            Kind::Down(filter) => 2 + filter.order,
            Kind::Up(_) => 6 + 8,
        }
    }

    /// Whether a word holds a sample.
    pub fn holds_sample(&self, word: usize) -> bool {
        matches!(self.kind, Kind::Up(_)) && word >= 6
    }

    /// Ours, the original, and libopus where it is linked.
    pub fn implementations(&self) -> Vec<Box<dyn Implementation>> {
        let all: [Box<dyn Implementation>; NAMES.len()] = [
            Box::new(Ours::new(*self)),
            Box::new(Original::new(*self)),
            #[cfg(libopus)]
            Box::new(c::Libopus::new(*self)),
        ];
        all.into()
    }
}

/// The first is ours; libopus comes last.
pub const NAMES: &[&str] = &[
    "ours",
    "Rust",
    #[cfg(libopus)]
    "libopus",
];

pub fn stages() -> Vec<Stage> {
    let mut all = vec![
        stage("down2", Kind::Down2, 2, 1, 960),
        stage("ana_filt_bank_1", Kind::Split, 2, 1, 960),
        stage("down2_3", Kind::Down23, 3, 2, 960),
        stage("up2_HQ", Kind::Up2, 1, 2, 240),
    ];
    let mut down = |name, in_khz, out_khz, probe, increment, order, rows, coefs| {
        let filter = Filter {
            probe,
            increment,
            order,
            rows,
            coefs,
        };
        all.push(stage(
            name,
            Kind::Down(filter),
            in_khz,
            out_khz,
            20 * in_khz,
        ));
    };
    down(
        "down_FIR 16 to 12",
        16,
        12,
        probe_down_16_12,
        87382,
        18,
        3,
        &silk_Resampler_3_4_COEFS,
    );
    down(
        "down_FIR 12 to 8",
        12,
        8,
        probe_down_12_8,
        98304,
        18,
        2,
        &silk_Resampler_2_3_COEFS,
    );
    down(
        "down_FIR 16 to 8",
        16,
        8,
        probe_down_16_8,
        131072,
        24,
        1,
        &silk_Resampler_1_2_COEFS,
    );
    down(
        "down_FIR 48 to 16",
        48,
        16,
        probe_down_48_16,
        196608,
        36,
        1,
        &silk_Resampler_1_3_COEFS,
    );
    down(
        "down_FIR 48 to 12",
        48,
        12,
        probe_down_48_12,
        262144,
        36,
        1,
        &silk_Resampler_1_4_COEFS,
    );
    down(
        "down_FIR 48 to 8",
        48,
        8,
        probe_down_48_8,
        393216,
        36,
        1,
        &silk_Resampler_1_6_COEFS,
    );
    let mut up = |name, in_khz, out_khz, probe, increment| {
        let interpolator = Interpolator { probe, increment };
        all.push(stage(
            name,
            Kind::Up(interpolator),
            in_khz,
            out_khz,
            20 * in_khz,
        ));
    };
    up("IIR_FIR 8 to 12", 8, 12, probe_up_8_12, 87382);
    up("IIR_FIR 8 to 24", 8, 24, probe_up_8_24, 43691);
    up("IIR_FIR 8 to 48", 8, 48, probe_up_8_48, 21846);
    up("IIR_FIR 12 to 16", 12, 16, probe_up_12_16, 98304);
    up("IIR_FIR 12 to 48", 12, 48, probe_up_12_48, 32768);
    up("IIR_FIR 16 to 24", 16, 24, probe_up_16_24, 87382);
    up("IIR_FIR 16 to 48", 16, 48, probe_up_16_48, 43691);
    all
}

fn stage(name: &'static str, kind: Kind, unit: usize, made: usize, frame: usize) -> Stage {
    Stage {
        name,
        kind,
        unit,
        made,
        frame,
    }
}

pub trait Implementation {
    /// Starts from these words.
    fn set(&mut self, words: &[i32]);

    /// The live words.
    fn words(&self) -> Vec<i32>;

    /// Fills the front of `out`, and of `high` where there are two bands; returns how many samples of each.
    fn call(&mut self, input: &[i16], out: &mut [i16], high: &mut [i16]) -> usize;
}

#[derive(Clone, Copy)]
#[repr(C)]
struct Two {
    w: [i32; 2],
}

#[derive(Clone, Copy)]
#[repr(C)]
struct Six {
    w: [i32; 6],
}

#[derive(Clone, Copy)]
#[repr(C)]
pub struct DownWords {
    ar2: [i32; 2],
    fir: [i32; 36],
}

#[derive(Clone, Copy)]
#[repr(C)]
pub struct UpWords {
    doubler: [i32; 6],
    samples: [i16; 8],
}

#[repr(C)]
struct Halves {
    row: u8,
    written: usize,
    words: Two,
}

#[repr(C)]
struct Thirds {
    row: u8,
    written: usize,
    words: Six,
}

#[repr(C)]
struct Doubles {
    written: usize,
    words: Six,
}

#[repr(C)]
pub struct DownPass {
    written: usize,
    words: DownWords,
}

#[repr(C)]
pub struct UpPass {
    written: usize,
    words: UpWords,
}

type DownProbe = unsafe extern "C" fn(DownWords, *mut i16, usize, *const i16, usize) -> DownPass;
type UpProbe = unsafe extern "C" fn(UpWords, *mut i16, usize, *const i16, usize) -> UpPass;

#[rustfmt::skip]
unsafe extern "C" {
    fn simmerpatch_down2(words: Two, out: *mut i16, room: usize, input: *const i16, samples: usize) -> Halves;
    fn simmerpatch_split(words: Two, low: *mut i16, low_room: usize, high: *mut i16, high_room: usize, input: *const i16, samples: usize) -> Halves;
    fn simmerpatch_down2_3(words: Six, out: *mut i16, room: usize, input: *const i16, samples: usize) -> Thirds;
    fn probe_up2_HQ(words: Six, out: *mut i16, room: usize, input: *const i16, samples: usize) -> Doubles;
    fn probe_down_16_12(words: DownWords, out: *mut i16, room: usize, input: *const i16, samples: usize) -> DownPass;
    fn probe_down_12_8(words: DownWords, out: *mut i16, room: usize, input: *const i16, samples: usize) -> DownPass;
    fn probe_down_16_8(words: DownWords, out: *mut i16, room: usize, input: *const i16, samples: usize) -> DownPass;
    fn probe_down_48_16(words: DownWords, out: *mut i16, room: usize, input: *const i16, samples: usize) -> DownPass;
    fn probe_down_48_12(words: DownWords, out: *mut i16, room: usize, input: *const i16, samples: usize) -> DownPass;
    fn probe_down_48_8(words: DownWords, out: *mut i16, room: usize, input: *const i16, samples: usize) -> DownPass;
    fn probe_up_8_12(words: UpWords, out: *mut i16, room: usize, input: *const i16, samples: usize) -> UpPass;
    fn probe_up_8_24(words: UpWords, out: *mut i16, room: usize, input: *const i16, samples: usize) -> UpPass;
    fn probe_up_8_48(words: UpWords, out: *mut i16, room: usize, input: *const i16, samples: usize) -> UpPass;
    fn probe_up_12_16(words: UpWords, out: *mut i16, room: usize, input: *const i16, samples: usize) -> UpPass;
    fn probe_up_12_48(words: UpWords, out: *mut i16, room: usize, input: *const i16, samples: usize) -> UpPass;
    fn probe_up_16_24(words: UpWords, out: *mut i16, room: usize, input: *const i16, samples: usize) -> UpPass;
    fn probe_up_16_48(words: UpWords, out: *mut i16, room: usize, input: *const i16, samples: usize) -> UpPass;
}

/// Only the words of the stage's kind are used.
struct Ours {
    stage: Stage,
    two: Two,
    six: Six,
    down: DownWords,
    up: UpWords,
}

impl Ours {
    fn new(stage: Stage) -> Ours {
        Ours {
            stage,
            two: Two { w: [0; 2] },
            six: Six { w: [0; 6] },
            down: DownWords {
                ar2: [0; 2],
                fir: [0; 36],
            },
            up: UpWords {
                doubler: [0; 6],
                samples: [0; 8],
            },
        }
    }
}

impl Implementation for Ours {
    fn set(&mut self, words: &[i32]) {
        match self.stage.kind {
            Kind::Down2 | Kind::Split => self.two.w.copy_from_slice(words),
            Kind::Down23 | Kind::Up2 => self.six.w.copy_from_slice(words),
            Kind::Down(filter) => {
                self.down.ar2.copy_from_slice(&words[..2]);
                // The dead ones must not be read.
                self.down.fir = [0x5a5a_5a5a; 36];
                self.down.fir[..filter.order].copy_from_slice(&words[2..]);
            }
            Kind::Up(_) => {
                self.up.doubler.copy_from_slice(&words[..6]);
                self.up.samples = samples_of(&words[6..]);
            }
        }
    }

    fn words(&self) -> Vec<i32> {
        match self.stage.kind {
            Kind::Down2 | Kind::Split => self.two.w.to_vec(),
            Kind::Down23 | Kind::Up2 => self.six.w.to_vec(),
            Kind::Down(filter) => [&self.down.ar2, &self.down.fir[..filter.order]].concat(),
            Kind::Up(_) => [&self.up.doubler[..], &self.up.samples.map(i32::from)].concat(),
        }
    }

    fn call(&mut self, input: &[i16], out: &mut [i16], high: &mut [i16]) -> usize {
        let (at, room) = (out.as_mut_ptr(), out.len());
        let (from, samples) = (input.as_ptr(), input.len());
        // Each gets slices in two parts, and words by value.
        unsafe {
            match self.stage.kind {
                Kind::Down2 => {
                    let after = simmerpatch_down2(self.two, at, room, from, samples);
                    assert!(after.row == 0 || after.written == 0);
                    self.two = after.words;
                    after.written
                }
                Kind::Split => {
                    let (high_at, high_room) = (high.as_mut_ptr(), high.len());
                    let after = simmerpatch_split(
                        self.two, at, room, high_at, high_room, from, samples,
                    );
                    assert!(after.row == 0 || after.written == 0);
                    self.two = after.words;
                    after.written
                }
                Kind::Down23 => {
                    let after = simmerpatch_down2_3(self.six, at, room, from, samples);
                    assert!(after.row == 0 || after.written == 0);
                    self.six = after.words;
                    after.written
                }
                Kind::Up2 => {
                    let after = probe_up2_HQ(self.six, at, room, from, samples);
                    self.six = after.words;
                    after.written
                }
                Kind::Down(filter) => {
                    let after = (filter.probe)(self.down, at, room, from, samples);
                    self.down = after.words;
                    after.written
                }
                Kind::Up(interpolator) => {
                    let after = (interpolator.probe)(self.up, at, room, from, samples);
                    self.up = after.words;
                    after.written
                }
            }
        }
    }
}

fn samples_of(words: &[i32]) -> [i16; 8] {
    std::array::from_fn(|k| words[k] as i16)
}

struct Original {
    stage: Stage,
    params: ResamplerParams,
    two: [i32; 2],
    six: [i32; 6],
    doubler: ResamplerUp2HqState,
    filter: ResamplerDownFirParams,
    down: ResamplerDownFirState,
    up: ResamplerIirFirState,
}

impl Original {
    fn new(stage: Stage) -> Original {
        let (increment, order, rows, coefs): (i32, usize, i32, &'static [i16]) = match stage.kind {
            Kind::Down(filter) => (filter.increment, filter.order, filter.rows, filter.coefs),
            Kind::Up(interpolator) => (interpolator.increment, 0, 0, &[]),
            _ => (0, 0, 0, &[]),
        };
        Original {
            stage,
            params: ResamplerParams {
                batch_size: 10 * stage.unit,
                inv_ratio_q16: increment,
                fs_in_khz: stage.unit,
                fs_out_khz: stage.made,
                input_delay: 0,
            },
            two: [0; 2],
            six: [0; 6],
            doubler: ResamplerUp2HqState { iir_state: [0; 6] },
            filter: ResamplerDownFirParams {
                fir_order: order,
                fir_fracs: rows,
                coefs,
            },
            down: ResamplerDownFirState {
                ar2_state: [0; 2],
                fir_state: [0; 36],
            },
            up: ResamplerIirFirState {
                up2_HQ: ResamplerUp2HqState { iir_state: [0; 6] },
                fir_state: [0; 8],
            },
        }
    }
}

impl Implementation for Original {
    fn set(&mut self, words: &[i32]) {
        match self.stage.kind {
            Kind::Down2 | Kind::Split => self.two.copy_from_slice(words),
            Kind::Down23 => self.six.copy_from_slice(words),
            Kind::Up2 => self.doubler.iir_state.copy_from_slice(words),
            Kind::Down(filter) => {
                self.down.ar2_state.copy_from_slice(&words[..2]);
                self.down.fir_state[..filter.order].copy_from_slice(&words[2..]);
            }
            Kind::Up(_) => {
                self.up.up2_HQ.iir_state.copy_from_slice(&words[..6]);
                self.up.fir_state = samples_of(&words[6..]);
            }
        }
    }

    fn words(&self) -> Vec<i32> {
        match self.stage.kind {
            Kind::Down2 | Kind::Split => self.two.to_vec(),
            Kind::Down23 => self.six.to_vec(),
            Kind::Up2 => self.doubler.iir_state.to_vec(),
            Kind::Down(filter) => {
                [&self.down.ar2_state, &self.down.fir_state[..filter.order]].concat()
            }
            Kind::Up(_) => [
                &self.up.up2_HQ.iir_state[..],
                &self.up.fir_state.map(i32::from),
            ]
            .concat(),
        }
    }

    fn call(&mut self, input: &[i16], out: &mut [i16], high: &mut [i16]) -> usize {
        let made = self.stage.outputs(input.len());
        let out = &mut out[..made];
        match self.stage.kind {
            Kind::Down2 => silk_resampler_down2(&mut self.two, out, input),
            // Reads the input and both words, and writes half as many samples to each band.
            Kind::Split => unsafe {
                silk_ana_filt_bank_1(
                    input.as_ptr(),
                    self.two.as_mut_ptr(),
                    out.as_mut_ptr(),
                    high[..made].as_mut_ptr(),
                    input.len() as i32,
                )
            },
            Kind::Down23 => silk_resampler_down2_3(&mut self.six, out, input),
            Kind::Up2 => silk_resampler_private_up2_HQ(&mut self.doubler, out, input),
            Kind::Down(_) => silk_resampler_private_down_FIR(
                &self.params,
                &self.filter,
                &mut self.down,
                out,
                input,
            ),
            Kind::Up(_) => silk_resampler_private_IIR_FIR(&self.params, &mut self.up, out, input),
        }
        made
    }
}

#[cfg(libopus)]
mod c {
    use super::{samples_of, Implementation, Kind, Stage};
    use crate::libopus::*;

    pub struct Libopus {
        stage: Stage,
        state: State,
    }

    impl Libopus {
        pub fn new(stage: Stage) -> Libopus {
            let state = match stage.kind {
                Kind::Down(_) | Kind::Up(_) => opened(stage.unit, stage.made, stage.unit == 48),
                // Of these only the words are used.
                _ => opened(8, 16, true),
            };
            Libopus { stage, state }
        }
    }

    impl Implementation for Libopus {
        fn set(&mut self, words: &[i32]) {
            let state = &mut self.state;
            match self.stage.kind {
                Kind::Down2 | Kind::Split => state.iir[..2].copy_from_slice(words),
                Kind::Down23 | Kind::Up2 => state.iir.copy_from_slice(words),
                Kind::Down(filter) => {
                    state.iir[..2].copy_from_slice(&words[..2]);
                    state.fir[..filter.order].copy_from_slice(&words[2..]);
                }
                Kind::Up(_) => {
                    state.iir.copy_from_slice(&words[..6]);
                    put_samples(&mut state.fir, samples_of(&words[6..]));
                }
            }
        }

        fn words(&self) -> Vec<i32> {
            let state = &self.state;
            match self.stage.kind {
                Kind::Down2 | Kind::Split => state.iir[..2].to_vec(),
                Kind::Down23 | Kind::Up2 => state.iir.to_vec(),
                Kind::Down(filter) => [&state.iir[..2], &state.fir[..filter.order]].concat(),
                Kind::Up(_) => [&state.iir[..], &samples_in(&state.fir).map(i32::from)].concat(),
            }
        }

        fn call(&mut self, input: &[i16], out: &mut [i16], high: &mut [i16]) -> usize {
            let made = self.stage.outputs(input.len());
            let at = out[..made].as_mut_ptr();
            let (from, samples) = (input.as_ptr(), input.len() as i32);
            let words = self.state.iir.as_mut_ptr();
            // Each writes as many samples as `made` says.
            unsafe {
                match self.stage.kind {
                    Kind::Down2 => silk_resampler_down2(words, at, from, samples),
                    Kind::Split => {
                        let high = high[..made].as_mut_ptr();
                        silk_ana_filt_bank_1(from, words, at, high, samples)
                    }
                    Kind::Down23 => silk_resampler_down2_3(words, at, from, samples),
                    Kind::Up2 => silk_resampler_private_up2_HQ(words, at, from, samples),
                    Kind::Down(_) => {
                        silk_resampler_private_down_FIR(&mut self.state, at, from, samples)
                    }
                    Kind::Up(_) => {
                        silk_resampler_private_IIR_FIR(&mut self.state, at, from, samples)
                    }
                }
            }
            made
        }
    }
}

//! Lines of the original: the thirty pairs, and a line whose state is shown as our record.

use unopus::silk::resampler::{silk_resampler, silk_resampler_init, ResamplerMode, ResamplerState};

#[derive(Clone, Copy, Debug, PartialEq)]
pub struct Pair {
    pub direction: u8,
    pub in_khz: usize,
    pub out_khz: usize,
}

/// The encoder's from five rates to three, the decoder's from three to five.
pub fn thirty() -> Vec<Pair> {
    let three = [8, 12, 16];
    let five = [8, 12, 16, 24, 48];
    let both = |direction, from: &[usize], to: &[usize]| {
        let mut all = Vec::new();
        for in_khz in from {
            for out_khz in to {
                all.push(Pair {
                    direction,
                    in_khz: *in_khz,
                    out_khz: *out_khz,
                });
            }
        }
        all
    };
    [both(1, &five, &three), both(0, &three, &five)].concat()
}

/// How many entries of each array a pair uses.
pub struct Live {
    pub doubler: usize,
    pub samples: usize,
    pub ar2: usize,
    pub fir: usize,
    pub delay: usize,
}

impl Pair {
    pub fn made(&self, samples: usize) -> usize {
        samples / self.in_khz * self.out_khz
    }

    pub fn live(&self) -> Live {
        let opened = self.opened();
        let (doubler, samples, ar2, fir) = match opened.mode {
            ResamplerMode::Copy => (0, 0, 0, 0),
            ResamplerMode::Up2Hq(_) => (6, 0, 0, 0),
            ResamplerMode::IirFir(_) => (6, 8, 0, 0),
            ResamplerMode::DownFir(filter, _) => (0, 0, 2, filter.fir_order),
        };
        Live {
            doubler,
            samples,
            ar2,
            fir,
            delay: opened.params.input_delay,
        }
    }

    fn opened(&self) -> ResamplerState {
        let [from, to] = [self.in_khz, self.out_khz].map(|khz| 1000 * khz as i32);
        silk_resampler_init(from, to, self.direction as i32)
    }
}

/// Laid out as ours, to be handed over by value.
#[repr(C)]
#[derive(Clone, Copy, Debug, PartialEq)]
pub struct Record {
    pub direction: u8,
    pub in_khz: u8,
    pub out_khz: u8,
    pub doubler: [i32; 6],
    pub samples: [i16; 8],
    pub ar2: [i32; 2],
    pub fir: [i32; 36],
    pub delay: [i16; 48],
}

impl Record {
    pub const BLANK: Record = Record {
        direction: 0,
        in_khz: 0,
        out_khz: 0,
        doubler: [0; 6],
        samples: [0; 8],
        ar2: [0; 2],
        fir: [0; 36],
        delay: [0; 48],
    };

    pub fn fresh(pair: Pair) -> Record {
        Record {
            direction: pair.direction,
            in_khz: pair.in_khz as u8,
            out_khz: pair.out_khz as u8,
            ..Record::BLANK
        }
    }

    /// With the dead entries zero.
    pub fn cleaned(self, live: &Live) -> Record {
        self.with_dead(live, 0)
    }

    /// With this word in each dead entry, or its lower half where that is a sample.
    pub fn with_dead(mut self, live: &Live, word: i32) -> Record {
        self.doubler[live.doubler..].fill(word);
        self.samples[live.samples..].fill(word as i16);
        self.ar2[live.ar2..].fill(word);
        self.fir[live.fir..].fill(word);
        self.delay[live.delay..].fill(word as i16);
        self
    }
}

pub struct Original {
    pub pair: Pair,
    state: ResamplerState,
}

impl Original {
    pub fn open(pair: Pair) -> Original {
        let state = pair.opened();
        Original { pair, state }
    }

    /// Takes the live entries of a record.
    pub fn put(&mut self, record: &Record) {
        let live = self.pair.live();
        self.state = self.pair.opened();
        match &mut self.state.mode {
            ResamplerMode::Copy => {}
            ResamplerMode::Up2Hq(state) => state.iir_state = record.doubler,
            ResamplerMode::IirFir(state) => {
                state.up2_HQ.iir_state = record.doubler;
                state.fir_state = record.samples;
            }
            ResamplerMode::DownFir(_, state) => {
                state.ar2_state = record.ar2;
                state.fir_state[..live.fir].copy_from_slice(&record.fir[..live.fir]);
            }
        }
        self.state.delay_buf[..live.delay].copy_from_slice(&record.delay[..live.delay]);
    }

    /// The live entries, and zeros in the dead ones.
    pub fn shown(&self) -> Record {
        let mut record = Record::fresh(self.pair);
        match &self.state.mode {
            ResamplerMode::Copy => {}
            ResamplerMode::Up2Hq(state) => record.doubler = state.iir_state,
            ResamplerMode::IirFir(state) => {
                record.doubler = state.up2_HQ.iir_state;
                record.samples = state.fir_state;
            }
            ResamplerMode::DownFir(_, state) => {
                record.ar2 = state.ar2_state;
                record.fir = state.fir_state;
            }
        }
        record.delay = self.state.delay_buf;
        record.cleaned(&self.pair.live())
    }

    pub fn resample(&mut self, input: &[i16], out: &mut [i16]) {
        silk_resampler(&mut self.state, out, input);
    }
}

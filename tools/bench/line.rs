//! A line in up to three implementations: ours (the static library of crates/simmerpatch), the Rust original's, and libopus's.
//! The state of each is shown as our record, its dead entries zero.

#[path = "../oracle/lines.rs"]
mod original;

use original::Original;
pub use original::{thirty, Pair, Record};

impl Pair {
    pub fn named(&self) -> String {
        let direction = ["decoder", "encoder"][self.direction as usize];
        format!("{direction} {} to {}", self.in_khz, self.out_khz)
    }
}

impl Record {
    /// The bytes of the parked block, one entry behind the other.
    pub fn block(&self) -> [u8; 512] {
        let mut bytes = vec![self.direction, self.in_khz, self.out_khz, 1];
        let words =
            |words: &[i32]| -> Vec<u8> { words.iter().flat_map(|w| w.to_le_bytes()).collect() };
        let halves =
            |samples: &[i16]| -> Vec<u8> { samples.iter().flat_map(|x| x.to_le_bytes()).collect() };
        bytes.extend(words(&self.doubler));
        bytes.extend(halves(&self.samples));
        bytes.extend(words(&self.ar2));
        bytes.extend(words(&self.fir));
        bytes.extend(halves(&self.delay));
        let mut block = [0; 512];
        block[..292].copy_from_slice(&bytes);
        seal(&mut block);
        block
    }
}

pub fn check(block: &[u8]) -> u32 {
    (1..)
        .zip(&block[..508])
        .map(|(place, byte)| place * *byte as u32)
        .sum()
}

pub fn seal(block: &mut [u8; 512]) {
    let sum = check(block);
    block[508..].copy_from_slice(&sum.to_le_bytes());
}

/// What one of ours left.
#[repr(C)]
#[derive(Clone, Copy, Debug, PartialEq)]
pub struct Line {
    pub row: u8,
    pub written: usize,
    pub record: Record,
}

#[rustfmt::skip]
unsafe extern "C" {
    fn simmerpatch_open(in_hz: i32, out_hz: i32, for_enc: i32) -> Line;
    fn simmerpatch_resample(record: Record, out: *mut i16, room: usize, input: *const i16, samples: usize) -> Line;
    fn simmerpatch_park(record: Record, block: *mut u8, room: usize) -> Line;
    fn simmerpatch_resume(block: *const u8, bytes: usize) -> Line;
}

/// Ours take any numbers, records, lengths and bytes, and write within the output that is lent to them.
pub fn init(in_hz: i32, out_hz: i32, for_enc: i32) -> Line {
    unsafe { simmerpatch_open(in_hz, out_hz, for_enc) }
}

pub fn resampler(record: Record, out: &mut [i16], input: &[i16]) -> Line {
    unsafe {
        simmerpatch_resample(
            record,
            out.as_mut_ptr(),
            out.len(),
            input.as_ptr(),
            input.len(),
        )
    }
}

pub fn park(record: Record, block: &mut [u8]) -> Line {
    unsafe { simmerpatch_park(record, block.as_mut_ptr(), block.len()) }
}

pub fn resume(block: &[u8]) -> Line {
    unsafe { simmerpatch_resume(block.as_ptr(), block.len()) }
}

pub trait Other {
    /// Takes the live entries of a record.
    fn set(&mut self, record: &Record);

    fn record(&self) -> Record;

    /// Gets the whole output.
    fn call_into(&mut self, input: &[i16], out: &mut [i16]);

    /// Writes `made` samples to the front of `out`.
    fn call(&mut self, input: &[i16], out: &mut [i16]);
}

/// The original, and libopus where it is linked.
pub fn others(pair: Pair) -> Vec<Box<dyn Other>> {
    vec![
        Box::new(Original::open(pair)),
        #[cfg(libopus)]
        Box::new(Libopus::new(pair)),
    ]
}

/// The original first.
pub const OTHERS: [&str; 2] = ["the Rust", "libopus"];

impl Other for Original {
    fn set(&mut self, record: &Record) {
        self.put(record);
    }

    fn record(&self) -> Record {
        self.shown()
    }

    fn call_into(&mut self, input: &[i16], out: &mut [i16]) {
        self.resample(input, out);
    }

    fn call(&mut self, input: &[i16], out: &mut [i16]) {
        let made = self.pair.made(input.len());
        self.call_into(input, &mut out[..made]);
    }
}

#[cfg(libopus)]
struct Libopus {
    pair: Pair,
    state: crate::libopus::State,
}

#[cfg(libopus)]
impl Libopus {
    fn new(pair: Pair) -> Libopus {
        let state = crate::libopus::opened(pair.in_khz, pair.out_khz, pair.direction == 1);
        Libopus { pair, state }
    }
}

#[cfg(libopus)]
impl Other for Libopus {
    fn set(&mut self, record: &Record) {
        let live = self.pair.live();
        let state = &mut self.state;
        state.iir = record.doubler;
        if live.ar2 > 0 {
            state.iir[..2].copy_from_slice(&record.ar2);
        }
        state.fir = record.fir;
        if live.samples > 0 {
            crate::libopus::put_samples(&mut state.fir, record.samples);
        }
        state.delay = record.delay;
    }

    fn record(&self) -> Record {
        let mut record = Record::fresh(self.pair);
        record.doubler = self.state.iir;
        record.samples = crate::libopus::samples_in(&self.state.fir);
        record.ar2.copy_from_slice(&self.state.iir[..2]);
        record.fir = self.state.fir;
        record.delay = self.state.delay;
        record.cleaned(&self.pair.live())
    }

    fn call_into(&mut self, input: &[i16], out: &mut [i16]) {
        assert!(input.len() >= self.pair.in_khz && out.len() >= self.pair.made(input.len()));
        let samples = input.len() as i32;
        // It writes as many samples as `made` says.
        unsafe {
            crate::libopus::silk_resampler(
                &mut self.state,
                out.as_mut_ptr(),
                input.as_ptr(),
                samples,
            )
        };
    }

    fn call(&mut self, input: &[i16], out: &mut [i16]) {
        let made = self.pair.made(input.len());
        self.call_into(input, &mut out[..made]);
    }
}

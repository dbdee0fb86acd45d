//! Stands in for the crate unopus where the original is not here: the form of its states, with the path that each pair takes
//! and the samples that it delays, which is what lines.rs of tools/oracle reads off them. It converts nothing.

pub mod silk {
    pub mod resampler {
        pub struct ResamplerState {
            pub params: ResamplerParams,
            pub mode: ResamplerMode,
            pub delay_buf: [i16; 48],
        }

        pub struct ResamplerParams {
            pub input_delay: usize,
        }

        pub enum ResamplerMode {
            Copy,
            Up2Hq(Doubler),
            IirFir(Interpolator),
            DownFir(Filter, FilterState),
        }

        #[derive(Default)]
        pub struct Doubler {
            pub iir_state: [i32; 6],
        }

        #[derive(Default)]
        #[allow(non_snake_case)]
        pub struct Interpolator {
            pub up2_HQ: Doubler,
            pub fir_state: [i16; 8],
        }

        pub struct Filter {
            pub fir_order: usize,
        }

        pub struct FilterState {
            pub ar2_state: [i32; 2],
            pub fir_state: [i32; 36],
        }

        /// A row for each rate that comes in, a column for each that goes out.
        #[rustfmt::skip]
        const ENCODER: [[usize; 3]; 5] = [[6, 0, 3], [0, 7, 3], [0, 1, 10], [0, 2, 6], [18, 10, 12]];
        const DECODER: [[usize; 5]; 3] = [[4, 0, 2, 0, 0], [0, 9, 4, 7, 4], [0, 3, 12, 7, 7]];

        /// Only pairs of the two lists are opened here.
        pub fn silk_resampler_init(from: i32, to: i32, for_enc: i32) -> ResamplerState {
            let place = |hz| {
                let rates = [8000, 12000, 16000, 24000, 48000];
                rates.iter().position(|rate| *rate == hz).expect("a rate")
            };
            let input_delay = match for_enc {
                0 => DECODER[place(from)][place(to)],
                _ => ENCODER[place(from)][place(to)],
            };
            ResamplerState {
                params: ResamplerParams { input_delay },
                mode: mode(from, to),
                delay_buf: [0; 48],
            }
        }

        fn mode(from: i32, to: i32) -> ResamplerMode {
            if to == from {
                ResamplerMode::Copy
            } else if to == 2 * from {
                ResamplerMode::Up2Hq(Doubler::default())
            } else if to > from {
                ResamplerMode::IirFir(Interpolator::default())
            } else {
                let fir_order = match 2 * to - from {
                    1.. => 18,
                    0 => 24,
                    _ => 36,
                };
                let state = FilterState {
                    ar2_state: [0; 2],
                    fir_state: [0; 36],
                };
                ResamplerMode::DownFir(Filter { fir_order }, state)
            }
        }

        pub fn silk_resampler(_: &mut ResamplerState, _: &mut [i16], _: &[i16]) -> i32 {
            unreachable!("the original is not here")
        }
    }
}

//! The crate unopus, cut down to the resampler and the band split: the files that `build` opened.

#[path = "../../target/oracle/original/silk"]
pub mod silk {
    pub mod ana_filt_bank_1;
    pub mod resampler;
}

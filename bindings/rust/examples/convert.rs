//! Converts raw 16-bit little-endian samples from standard input to standard output, 100 ms to a call.
//!
//!     cargo run --example convert -- encoder 48 16 <in.raw >out.raw
//!
//! What is left over below a millisecond it says on standard error.

use std::error::Error;
use std::io::{self, Read, Write};
use std::process::ExitCode;

use simmerpatch::{open, Direction};

const USAGE: &str = "usage: convert decoder|encoder IN-KHZ OUT-KHZ";
const MS_TO_A_CALL: u16 = 100;

fn main() -> ExitCode {
    let words: Vec<String> = std::env::args().skip(1).collect();
    let Some((direction, in_khz, out_khz)) = asked(&words) else {
        eprintln!("{USAGE}");
        return ExitCode::from(2);
    };
    match convert(direction, in_khz, out_khz) {
        Ok(0) => ExitCode::SUCCESS,
        Ok(bytes) => {
            eprintln!("left over {bytes} bytes");
            ExitCode::SUCCESS
        }
        Err(error) => {
            eprintln!("convert: {error}");
            ExitCode::FAILURE
        }
    }
}

fn asked(words: &[String]) -> Option<(Direction, u8, u8)> {
    let [direction, in_khz, out_khz] = words else {
        return None;
    };
    let direction = match direction.as_str() {
        "decoder" => Direction::Decoder,
        "encoder" => Direction::Encoder,
        _ => return None,
    };
    Some((direction, in_khz.parse().ok()?, out_khz.parse().ok()?))
}

/// Converts all of standard input, and answers how many bytes of it are no whole millisecond.
fn convert(direction: Direction, in_khz: u8, out_khz: u8) -> Result<usize, Box<dyn Error>> {
    let [in_hz, out_hz] = [in_khz, out_khz].map(|khz| 1_000 * i32::from(khz));
    let mut record = open(direction, in_hz, out_hz)?;

    let millisecond = 2 * usize::from(in_khz);
    let piece = u64::from(MS_TO_A_CALL) * millisecond as u64;
    let mut out = vec![0; usize::from(MS_TO_A_CALL) * usize::from(out_khz)];
    let (mut from, mut to) = (io::stdin().lock(), io::stdout().lock());
    loop {
        let mut bytes = Vec::new();
        from.by_ref().take(piece).read_to_end(&mut bytes)?;
        let left_over = bytes.len() % millisecond;
        bytes.truncate(bytes.len() - left_over);
        if !bytes.is_empty() {
            let input: Vec<i16> = bytes
                .chunks(2)
                .map(|two| i16::from_le_bytes([two[0], two[1]]))
                .collect();
            let (next, written) = record.resample(&mut out, &input)?;
            record = next;
            let made: Vec<u8> = out[..written]
                .iter()
                .flat_map(|sample| sample.to_le_bytes())
                .collect();
            to.write_all(&made)?;
        }
        if bytes.len() as u64 + (left_over as u64) < piece {
            to.flush()?;
            return Ok(left_over);
        }
    }
}

//! What a call's lengths, and its record's pair, decide before any sample is looked at: that it is refused, and by which of
//! the rows, or how many samples it writes. The rows are tested in the library's order.

use crate::{Record, Refusal, BLOCK, MOST_MS, MOST_SAMPLES};

/// Whether a pair is in the list of its direction: 1 is the encoder, 0 the decoder.
pub fn supported(direction: u8, in_khz: u8, out_khz: u8) -> bool {
    let three = |khz| matches!(khz, 8 | 12 | 16);
    let five = |khz| three(khz) || matches!(khz, 24 | 48);
    match direction {
        0 => three(in_khz) && five(out_khz),
        1 => five(in_khz) && three(out_khz),
        _ => false,
    }
}

/// [`Record::resample`] of `n` samples into an output of this room: rows 2, 3, 4, 5.
pub fn resample(record: &Record, n: usize, room: usize) -> Result<usize, Refusal> {
    of_a_pair(record)?;
    let (in_khz, out_khz) = (usize::from(record.in_khz), usize::from(record.out_khz));
    let ms = n / in_khz;
    if n == 0 || n != ms * in_khz {
        return Err(Refusal::NotWholeMs);
    }
    if ms > MOST_MS {
        return Err(Refusal::TooLong);
    }
    fits(ms * out_khz, room)
}

/// [`Record::park`] into so many bytes: rows 2, 8.
pub fn park(record: &Record, bytes: usize) -> Result<(), Refusal> {
    of_a_pair(record)?;
    resume(bytes)
}

/// [`resume`](crate::resume) of so many bytes: row 8. What the bytes say is the library's to refuse.
pub fn resume(bytes: usize) -> Result<(), Refusal> {
    if bytes == BLOCK {
        Ok(())
    } else {
        Err(Refusal::Not512Bytes)
    }
}

/// [`down2`](crate::down2) of `n` samples: rows 6, 4, 7.
pub fn down2(n: usize, room: usize) -> Result<usize, Refusal> {
    split(n, room, room)
}

/// [`split`](crate::split) of `n` samples: rows 6, 4, 7. The count is that of one band.
pub fn split(n: usize, low_room: usize, high_room: usize) -> Result<usize, Refusal> {
    groups_of(2, n)?;
    if low_room == n / 2 && high_room == n / 2 {
        Ok(n / 2)
    } else {
        Err(Refusal::NotHalf)
    }
}

/// [`down2_3`](crate::down2_3) of `n` samples: rows 6, 4, 5.
pub fn down2_3(n: usize, room: usize) -> Result<usize, Refusal> {
    groups_of(3, n)?;
    fits(2 * (n / 3), room)
}

fn of_a_pair(record: &Record) -> Result<(), Refusal> {
    if supported(record.direction, record.in_khz, record.out_khz) {
        Ok(())
    } else {
        Err(Refusal::NoPairInRecord)
    }
}

fn groups_of(group: usize, n: usize) -> Result<(), Refusal> {
    if n != n / group * group {
        Err(Refusal::NotWholeGroups)
    } else if n > MOST_SAMPLES {
        Err(Refusal::TooLong)
    } else {
        Ok(())
    }
}

fn fits(made: usize, room: usize) -> Result<usize, Refusal> {
    if made <= room {
        Ok(made)
    } else {
        Err(Refusal::NoRoom)
    }
}

//! Random bytes, with more and more of a job's form.

use crate::job::{FRAME_BYTES, HEADER_BYTES, MOST_NODES, RECORD_BYTES};
use crate::reading::Case;
use crate::rng::Rng;

/// Up to 12 bytes, at times with the first bytes of a job.
pub fn short(_: u64, rng: &mut Rng) -> Case {
    let length = rng.index(13);
    let mut bytes = rng.bytes(length);
    let right = rng.index(HEADER_BYTES + 1).min(length);
    if rng.one_in(2) {
        bytes[..right].copy_from_slice(&b"RLY\0\x01\x02\0\0\0\x01"[..right]);
    }
    if length < HEADER_BYTES {
        Case::known(bytes, 1)
    } else {
        Case::unknown(bytes)
    }
}

/// Up to 300 bytes.
pub fn plain(_: u64, rng: &mut Rng) -> Case {
    let length = rng.index(301);
    Case::unknown(rng.bytes(length))
}

/// Random bytes of a job's length, of which the first few fields, in the order
/// of the checks, are right.
pub fn in_form(_: u64, rng: &mut Rng) -> Case {
    let nodes = rng.within(2..=MOST_NODES as u64) as usize;
    let frames = rng.within(1..=20) as usize;
    let frames_start = HEADER_BYTES + RECORD_BYTES * (nodes - 1);
    let mut bytes = rng.bytes(frames_start + FRAME_BYTES * frames);
    let right = rng.below(9);

    if right >= 1 {
        bytes[..3].copy_from_slice(b"RLY");
    }
    if right >= 2 {
        bytes[3..5].copy_from_slice(&[0, 1]);
    }
    if right >= 3 {
        bytes[5] = nodes as u8;
    }
    if right >= 4 {
        bytes[6..10].copy_from_slice(&(frames as u32).to_be_bytes());
    }
    let records = bytes[HEADER_BYTES..frames_start].chunks_mut(RECORD_BYTES);
    for (i, record) in records.enumerate() {
        if right >= 5 {
            record[0] %= i as u8 + 1;
        }
        if right >= 6 {
            record[1..3].fill(0);
        }
        if right >= 7 {
            record[3..6].fill(0);
            record[11..14].fill(0);
        }
    }
    if right >= 8 {
        for frame in bytes[frames_start..].chunks_mut(FRAME_BYTES) {
            frame[0] = 0;
        }
    }
    Case::unknown(bytes)
}

//! Document 01, "Layout": a file is 32-bit words, low byte first.

/// Document 01, "Judging order": a number and a word place from 0.
#[derive(Clone, Copy, PartialEq, Eq, Debug)]
pub struct Refusal {
    pub number: u32,
    pub place: usize,
}

pub fn refuse<T>(number: u32, place: usize) -> Result<T, Refusal> {
    Err(Refusal { number, place })
}

/// A word taken apart: the top 6 bits are the kind, the low 26 the payload.
#[derive(Clone, Copy, PartialEq, Eq, Debug)]
pub struct Word {
    pub place: usize,
    pub kind: u32,
    pub payload: u32,
}

pub const PAYLOAD_BITS: u32 = 26;
pub const PAYLOAD_MASK: u32 = (1 << PAYLOAD_BITS) - 1;
pub const MOST_BYTES: usize = 32_768;
/// The most procedures of a file (request [3]).
pub const MOST_PROCEDURES: u32 = 16;

/// k:p of the document as one number.
pub fn pack(kind: u32, payload: u32) -> u32 {
    (kind << PAYLOAD_BITS) | (payload & PAYLOAD_MASK)
}

pub fn take_apart(place: usize, word: u32) -> Word {
    Word {
        place,
        kind: word >> PAYLOAD_BITS,
        payload: word & PAYLOAD_MASK,
    }
}

/// A constant's payload (request [4]): below 33,554,432 the payload itself, otherwise the payload less 67,108,864.
pub fn constant_of(payload: u32) -> i64 {
    if payload < 33_554_432 {
        i64::from(payload)
    } else {
        i64::from(payload) - 67_108_864
    }
}

/// The payload that `constant_of` takes back; only for -33,554,432 to 33,554,431.
pub fn payload_of(constant: i64) -> u32 {
    assert!((-33_554_432..=33_554_431).contains(&constant), "{constant} is no constant");
    let payload = if constant < 0 { constant + 67_108_864 } else { constant };
    payload as u32
}

/// Bytes to words; refusal 1.
pub fn words_of(bytes: &[u8]) -> Result<Vec<u32>, Refusal> {
    if bytes.is_empty() || bytes.len() > MOST_BYTES || bytes.len() % 4 != 0 {
        return refuse(1, 0);
    }
    let mut words = Vec::new();
    for four in bytes.chunks(4) {
        words.push(u32::from_le_bytes([four[0], four[1], four[2], four[3]]));
    }
    Ok(words)
}

pub fn bytes_of(words: &[u32]) -> Vec<u8> {
    let mut bytes = Vec::new();
    for word in words {
        bytes.extend_from_slice(&word.to_le_bytes());
    }
    bytes
}

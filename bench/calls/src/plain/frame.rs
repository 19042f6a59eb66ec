//! A frame read and written.
use super::*;

const HEADER_SIZE: usize = 34;
const SIZE: usize = 64;

/// A byte that no writer touches.
const RESERVED: usize = 46;

/// An unsigned number of the wire.
pub fn number(bytes: &[u8]) -> u64 {
    let mut wide = [0; 8];
    wide[8 - bytes.len()..].copy_from_slice(bytes);
    u64::from_be_bytes(wide)
}

/// Whether a list is even entries; of a reader's list the last has a value, so that at least 5 bytes remain.
fn list(mut bytes: &[u8], least: usize) -> Result<(), u32> {
    while !bytes.is_empty() {
        if bytes.len() < least {
            return Err(SHORT);
        }
        let length = number(&bytes[2..4]) as usize;
        if length % 2 != 0 {
            return Err(ODD_TLV);
        }
        bytes = bytes.get(4 + length..).ok_or(SHORT)?;
    }
    Ok(())
}

/// The length of the announce that stands in a frame.
pub fn length(frame: &[u8]) -> Result<usize, u32> {
    if frame.len() < HEADER_SIZE {
        return Err(SHORT);
    }
    let kind = frame[0] & 0xF;
    let length = number(&frame[2..4]) as usize;
    match kind {
        4..=7 | 14.. => Err(RESERVED_TYPE),
        _ if length < HEADER_SIZE => Err(LENGTH_FIELD),
        _ if length > frame.len() => Err(SHORT),
        0..=10 | 12.. => Err(NO_ANNOUNCE),
        11 if length < SIZE => Err(SHORT),
        11 => list(&frame[SIZE..length], 5).map(|()| length),
    }
}

#[no_mangle]
#[inline(never)]
pub fn plain_read_frame(frame: &[u8], answer: &mut [u64]) -> u32 {
    let Some(answer) = answer.first_chunk_mut::<FRAME_WORDS>() else {
        return SHORT;
    };
    let length = match length(frame) {
        Ok(length) => length,
        Err(refused) => return refused,
    };
    let f: &[u8; SIZE] = frame.first_chunk().expect("an announce has 64 bytes");
    *answer = [
        (f[0] as u64 >> 4) << 8 | f[5] as u64,
        f[1] as u64 & 0xF,
        f[1] as u64 >> 4,
        f[4] as u64,
        number(&f[6..8]) & 0x677F,
        number(&f[8..16]),
        number(&f[20..28]),
        number(&f[28..30]),
        number(&f[30..32]),
        f[33] as u64,
        number(&f[34..40]),
        number(&f[40..44]),
        number(&f[44..46]),
        f[47] as u64,
        f[48] as u64,
        f[49] as u64,
        number(&f[50..52]),
        f[52] as u64,
        number(&f[53..61]),
        number(&f[61..63]),
        f[63] as u64,
        SIZE as u64,
        length as u64,
    ];
    DONE
}

/// The most that each word holds.
const LIMITS: [u64; ANNOUNCE_WORDS] = [
    0xFFF,
    0xF,
    0xF,
    0xFF,
    0xFFFF,
    u64::MAX,
    u64::MAX,
    0xFFFF,
    0xFFFF,
    0xFF,
    0xFFFF_FFFF_FFFF,
    0xFFFF_FFFF,
    0xFFFF,
    0xFF,
    0xFF,
    0xFF,
    0xFFFF,
    0xFF,
    u64::MAX,
    0xFFFF,
    0xFF,
];

/// A number of so many bytes from a place on.
fn put<const WIDTH: usize>(frame: &mut [u8; SIZE], at: usize, number: u64) {
    frame[at..at + WIDTH].copy_from_slice(&number.to_be_bytes()[8 - WIDTH..]);
}

/// The bytes of an announce, for a message of so many.
fn frame_of(words: &[u64; ANNOUNCE_WORDS], length: usize) -> [u8; SIZE] {
    let mut f = [0; SIZE];
    f[0] = (words[0] >> 4 & 0xF0) as u8 | 11;
    f[1] = (words[2] << 4 | words[1]) as u8;
    put::<2>(&mut f, 2, length as u64);
    f[4] = words[3] as u8;
    f[5] = words[0] as u8;
    put::<2>(&mut f, 6, words[4] & 0x677F);
    put::<8>(&mut f, 8, words[5]);
    put::<8>(&mut f, 20, words[6]);
    put::<2>(&mut f, 28, words[7]);
    put::<2>(&mut f, 30, words[8]);
    f[32] = 5;
    f[33] = words[9] as u8;
    put::<6>(&mut f, 34, words[10]);
    put::<4>(&mut f, 40, words[11]);
    put::<2>(&mut f, 44, words[12]);
    f[47] = words[13] as u8;
    f[48] = words[14] as u8;
    f[49] = words[15] as u8;
    put::<2>(&mut f, 50, words[16]);
    f[52] = words[17] as u8;
    put::<8>(&mut f, 53, words[18]);
    put::<2>(&mut f, 61, words[19]);
    f[63] = words[20] as u8;
    f
}

#[no_mangle]
#[inline(never)]
pub fn plain_write_announce(announce: &[u64], tlvs: &[u8], buffer: &mut [u8]) -> u32 {
    let Some(words) = announce.first_chunk::<ANNOUNCE_WORDS>() else {
        return SHORT;
    };
    let length = SIZE + tlvs.len();
    let fit = words.iter().zip(LIMITS).all(|(word, limit)| *word <= limit);
    if !fit || length > 0xFFFF || list(tlvs, 4).is_err() {
        return UNFIT;
    }
    let Some(buffer) = buffer.get_mut(..length) else {
        return SHORT;
    };
    let (message, list) = buffer.split_at_mut(SIZE);
    let frame = frame_of(words, length);
    message[..RESERVED].copy_from_slice(&frame[..RESERVED]);
    message[RESERVED + 1..].copy_from_slice(&frame[RESERVED + 1..]);
    list.copy_from_slice(tlvs);
    DONE
}

//! Update files that pass the body check, and files that one byte keeps from it: the bytes as the device decodes them, and as a computer copies
//! them, scrambled in blocks of 128.
use crate::rng::Rng;
use std::ops::Range;

const BLOCK: usize = 128;
/// Byte of a block that is subtracted from the others; it also says where the key lies.
const ADD: usize = 0x1F;
/// Where the body begins, and its bytes that the CRC leaves out.
const BODY: usize = 12;
const MARKER: Range<usize> = BODY + 0x4000..BODY + 0x400C;

/// A file as the device decodes it, and whether the check must take it.
pub struct Plain {
    pub bytes: Vec<u8>,
    pub valid: bool,
}

fn key_at(add: u8) -> usize {
    if add < 128 {
        add as usize
    } else {
        add as usize >> 1
    }
}

/// The CRC of the body by bits: 0x8005, the highest bit first, from 0xFFFF.
fn crc(plain: &[u8]) -> u16 {
    let mut c = 0xFFFF_u16;
    for (_, &b) in plain.iter().enumerate().skip(BODY).filter(|(i, _)| !MARKER.contains(i)) {
        for bit in (0..8).rev() {
            let out = (c >> 15) as u8 ^ (b >> bit & 1);
            c = c << 1 ^ 0x8005 * out as u16;
        }
    }
    c
}

/// A valid file of `size` bytes, 128 at least. A short last block has its key inside; now and then whole sectors are zeros.
pub fn valid(r: &mut Rng, size: usize) -> Plain {
    let mut bytes: Vec<u8> = (0..size).map(|_| r.next() as u8).collect();
    for sector in bytes.chunks_mut(512) {
        if r.one_in(6) {
            sector.fill(0);
        }
    }
    let last = size / BLOCK * BLOCK;
    if size - last > ADD && key_at(bytes[last + ADD]) >= size - last {
        bytes[last + ADD] = r.below(size - last) as u8;
    }
    bytes[4..8].copy_from_slice(&(size as u32 - BODY as u32).to_le_bytes());
    let sum = crc(&bytes);
    bytes[8..10].copy_from_slice(&sum.to_le_bytes());
    Plain { bytes, valid: true }
}

/// The same with one byte wrong, by one or by one bit: one that counts makes it invalid, one that doesn't leaves it valid.
pub fn nearly(r: &mut Rng, plain: &Plain) -> Plain {
    let mut bytes = plain.bytes.clone();
    let size = bytes.len();
    let any = r.range(BODY as u32, size as u32 - 1) as usize;
    let edges = [MARKER.start - 1, MARKER.start, MARKER.end - 1, MARKER.end];
    let at = match r.below(10) {
        0..=1 => 4 + r.below(4),
        2..=3 => 8 + r.below(2),
        4 => r.pick(&[0, 1, 2, 3, 10, 11]),
        5 => r.pick(&[BODY, size - 1]),
        6..=7 if size > MARKER.end => r.pick(&edges),
        8 => any / BLOCK * BLOCK + ADD.min((size - 1) % BLOCK),
        _ => any,
    };
    bytes[at] = match r.below(3) {
        0 => bytes[at].wrapping_add(1),
        1 => bytes[at].wrapping_sub(1),
        _ => bytes[at] ^ 1 << r.below(8),
    };
    let counts = (4..10).contains(&at) || (at >= BODY && !MARKER.contains(&at));
    Plain { bytes, valid: plain.valid && !counts }
}

/// A file whose short last block has its key past its end, and all else as it must be; none where the last block is whole or has no such byte.
pub fn hazard(r: &mut Rng, plain: &Plain) -> Option<Plain> {
    let mut bytes = plain.bytes.clone();
    let size = bytes.len();
    let last = size / BLOCK * BLOCK;
    if size - last <= ADD {
        return None;
    }
    bytes[last + ADD] = r.range((size - last) as u32, BLOCK as u32 - 1) as u8;
    let sum = crc(&bytes);
    bytes[8..10].copy_from_slice(&sum.to_le_bytes());
    Some(Plain { bytes, valid: false })
}

/// The bytes as they are copied: the device's decoding gives them back. A block that it can't decode stays as it is.
pub fn scrambled(plain: &Plain) -> Vec<u8> {
    let mut bytes = plain.bytes.clone();
    for block in bytes.chunks_mut(BLOCK).filter(|b| b.len() > ADD) {
        let add = block[ADD];
        let at = key_at(add);
        let Some(&key) = block.get(at) else { continue };
        for (_, b) in block.iter_mut().enumerate().filter(|(i, _)| *i != ADD && *i != at) {
            *b = b.wrapping_add(add) ^ key;
        }
    }
    bytes
}

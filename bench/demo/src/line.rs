//! The line: what is heard on it, and a detector that listens.

use crate::setting::{BLOCK, HEADER, LINE, RING, RING_BLOCKS};
use kounpheray::Bench;

/// Louder than this is no speech on this line.
const TOO_LOUD: i32 = 4000;

/// ITU-T G.711, mu-law: the byte's complement is a sign, an exponent and a
/// step. Positive where the line byte's top bit is 1.
pub fn linear(byte: u8) -> i32 {
    let turned = !byte;
    let exponent = i32::from(turned >> 4 & 7);
    let step = i32::from(turned & 15);
    let magnitude = ((2 * step + 33) << exponent) - 33;
    if byte & 0x80 != 0 {
        magnitude
    } else {
        -magnitude
    }
}

/// Puts the next block where the line card does, from outside the engine. A
/// block stays where it is, so that what was played can be played again.
pub fn deliver(bench: &mut Bench, block: usize) {
    let base = bench.base();
    let at = (LINE - base) as usize + block * BLOCK;
    let header = (HEADER - base) as usize;
    let window = bench.window_mut();
    for (n, byte) in window[at..at + BLOCK].iter_mut().enumerate() {
        *byte = speech(block * BLOCK + n);
    }
    // Full scale, up and down: what a fax header looks like as sound.
    window[header..header + 8].copy_from_slice(&[0x80, 0x00, 0x80, 0x00, 0x80, 0x00, 0x80, 0x00]);
}

/// Something like speech: a low tone that swells, as mu-law bytes.
fn speech(n: usize) -> u8 {
    let phase = (n % 40) as i32;
    let triangle = (phase - 20).abs() - 10;
    let swell = (n / 64 % 7) as i32;
    let step = (triangle.abs() * swell * 4 / 3) as u8;
    let sign = if triangle >= 0 { 0x80 } else { 0x00 };
    sign | (0x7F - step)
}

/// The first sample in the ring that is too loud: its address and magnitude.
pub fn detector(bench: &Bench) -> Option<(u32, i32)> {
    let ring = bench.bytes(RING, RING_BLOCKS * BLOCK)?;
    let at = ring.iter().position(|&byte| linear(byte).abs() > TOO_LOUD)?;
    Some((RING + at as u32, linear(ring[at]).abs()))
}

/// A block's loudness as a row of signs, one for each ten samples.
pub fn loudness(block: &[u8]) -> String {
    block
        .chunks(10)
        .map(|part| match part.iter().map(|&byte| linear(byte).abs()).max().unwrap_or(0) {
            0..=10 => ' ',
            11..=100 => '.',
            101..=400 => ':',
            401..=TOO_LOUD => '+',
            _ => '#',
        })
        .collect()
}

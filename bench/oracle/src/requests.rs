//! What takes the place of the peripherals' requests: a standing mask, and
//! four counts that serve the channels named for this run.
//!
//! The counts are the four of the Rust. The mask and the four channel numbers
//! lie in fields of the sources' `Io` that no function called here looks at:
//! the mask in `ssi.frames`, the channels in `ssi0.regs`.

use crate::io::Io;

pub(crate) fn set_standing(io: &mut Io, mask: u64) {
    io.ssi.frames = mask;
}

pub(crate) fn standing(io: &Io) -> u64 {
    io.ssi.frames
}

/// The channel that count number `n` serves.
pub(crate) fn channel(io: &Io, n: usize) -> usize {
    io.ssi0.regs[n] as usize
}

pub(crate) fn counts(io: &Io) -> [u32; 4] {
    [io.ssi.tx_pending, io.ssi.rx_pending, io.ssi0.tx_pending, io.ssi0.rx_pending]
}

fn count_mut(io: &mut Io, n: usize) -> &mut u32 {
    match n {
        0 => &mut io.ssi.tx_pending,
        1 => &mut io.ssi.rx_pending,
        2 => &mut io.ssi0.tx_pending,
        _ => &mut io.ssi0.rx_pending,
    }
}

pub(crate) fn set_count(io: &mut Io, n: usize, channel: usize, count: u32) {
    io.ssi0.regs[n] = channel as u32;
    *count_mut(io, n) = count;
}

/// In the place of the body of `dma_requesting`.
pub(crate) fn requesting(io: &Io) -> u64 {
    let mut mask = standing(io);
    for (n, count) in counts(io).into_iter().enumerate() {
        if count > 0 {
            mask |= 1 << channel(io, n);
        }
    }
    mask
}

/// In the place of the `match ch` that picks the count to spend.
pub(crate) fn spend(io: &mut Io, ch: usize) {
    for n in 0..4 {
        if channel(io, n) == ch && counts(io)[n] > 0 {
            *count_mut(io, n) -= 1;
            return;
        }
    }
}

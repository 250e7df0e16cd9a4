//! Descriptors, one minor loop, the major end, links.

use crate::act::Act;
use crate::device::{big_endian, CR, ERQ, INT, KICK, MAJORS};
use crate::Refused;

pub(crate) const START: u16 = 0x01;
const INTMAJOR: u16 = 0x02;
const INTHALF: u16 = 0x04;
const DREQ: u16 = 0x08;
const ESG: u16 = 0x10;
const MAJORELINK: u16 = 0x20;
const ACTIVE: u16 = 0x40;
pub(crate) const DONE: u16 = 0x80;

#[derive(Clone, Copy)]
pub(crate) struct Descriptor {
    saddr: u32,
    attr: u16,
    soff: i16,
    pub(crate) nbytes: u32,
    slast: u32,
    daddr: u32,
    citer: u16,
    doff: i16,
    dlast: u32,
    biter: u16,
    pub(crate) csr: u16,
}

impl Descriptor {
    pub(crate) fn of(act: &Act, channel: usize) -> Descriptor {
        let bytes = &act.device.table[32 * channel..32 * channel + 32];
        let word = |at: usize| big_endian(&bytes[at..at + 4]) as u32;
        let half = |at: usize| big_endian(&bytes[at..at + 2]) as u16;
        Descriptor {
            saddr: word(0x00),
            attr: half(0x04),
            soff: half(0x06) as i16,
            nbytes: word(0x08),
            slast: word(0x0C),
            daddr: word(0x10),
            citer: half(0x14),
            doff: half(0x16) as i16,
            dlast: word(0x18),
            biter: half(0x1C),
            csr: half(0x1E),
        }
    }

    fn bytes(&self) -> Vec<u8> {
        let mut bytes = Vec::new();
        bytes.extend(self.saddr.to_be_bytes());
        bytes.extend(self.attr.to_be_bytes());
        bytes.extend(self.soff.to_be_bytes());
        bytes.extend(self.nbytes.to_be_bytes());
        bytes.extend(self.slast.to_be_bytes());
        bytes.extend(self.daddr.to_be_bytes());
        bytes.extend(self.citer.to_be_bytes());
        bytes.extend(self.doff.to_be_bytes());
        bytes.extend(self.dlast.to_be_bytes());
        bytes.extend(self.biter.to_be_bytes());
        bytes.extend(self.csr.to_be_bytes());
        bytes
    }

    fn source_size(&self) -> u32 {
        size(self.attr >> 8)
    }

    fn destination_size(&self) -> u32 {
        size(self.attr)
    }

    fn source_modulo(&self) -> u32 {
        u32::from(self.attr >> 11 & 0x1F)
    }

    fn destination_modulo(&self) -> u32 {
        u32::from(self.attr >> 3 & 0x1F)
    }
}

fn size(code: u16) -> u32 {
    match code & 7 {
        0 => 1,
        1 => 2,
        2 => 4,
        4 => 16,
        5 => 32,
        _ => 1,
    }
}

/// With modulo m above 0 only the low m bits move.
fn stepped(address: u32, by: u32, modulo: u32) -> u32 {
    let moved = address.wrapping_add(by);
    if modulo == 0 {
        return moved;
    }
    let low = (1 << modulo) - 1;
    address & !low | moved & low
}

fn count(raw: u16) -> u16 {
    if raw & 0x8000 != 0 {
        raw & 0x1FF
    } else {
        raw & 0x7FFF
    }
}

fn link(raw: u16) -> Option<usize> {
    (raw & 0x8000 != 0).then_some(usize::from(raw >> 9 & 0x3F))
}

/// A pass: one minor loop of a channel. Whether it answers yes.
pub(crate) fn pass(act: &mut Act, channel: usize) -> Result<bool, Refused> {
    let t = Descriptor::of(act, channel);
    let left = count(t.citer);
    if left == 0 {
        return Ok(false);
    }
    let mapped = act.device.fields[CR] & 0x80 != 0;
    let source_offset = mapped && t.nbytes >> 31 & 1 == 1;
    let destination_offset = mapped && t.nbytes >> 30 & 1 == 1;
    let low = if source_offset || destination_offset { 0x3FF } else { 0x3FFF_FFFF };
    let bytes = match t.nbytes & low {
        0 => 1 << 30,
        some => some,
    };
    let (mut saddr, mut daddr) = moved(act, &t, bytes.min(1 << 22))?;
    // The signed 20 bits 29..10.
    let offset = ((t.nbytes << 2) as i32 >> 12) as u32;
    if left > 1 && source_offset {
        saddr = saddr.wrapping_add(offset);
    }
    if left > 1 && destination_offset {
        daddr = daddr.wrapping_add(offset);
    }
    let citer = t.citer - 1;
    let csr = t.csr & !START & !DONE | ACTIVE;
    act.put(32 * channel, &saddr.to_be_bytes())?;
    act.put(32 * channel + 0x10, &daddr.to_be_bytes())?;
    act.put(32 * channel + 0x14, &citer.to_be_bytes())?;
    act.put(32 * channel + 0x1E, &csr.to_be_bytes())?;
    let half = count(t.biter) / 2;
    if csr & INTHALF != 0 && half != 0 && left - 1 == half {
        act.device.fields[INT] |= 1 << channel;
    }
    if left == 1 {
        major_end(act, channel)?;
    } else if let Some(to) = link(citer) {
        start_linked(act, channel, to)?;
    }
    Ok(true)
}

/// Moves the bytes of one minor loop; answers both addresses after it.
fn moved(act: &mut Act, t: &Descriptor, bytes: u32) -> Result<(u32, u32), Refused> {
    let (ssize, dsize) = (t.source_size(), t.destination_size());
    let (soff, doff) = (t.soff as u32, t.doff as u32);
    let (mut saddr, mut daddr) = (t.saddr, t.daddr);
    let sizes = bytes.div_ceil(ssize);
    if ssize == dsize {
        let unit = ssize.min(4);
        for _ in 0..sizes {
            for k in 0..ssize / unit {
                let value = act.load(saddr.wrapping_add(k * unit), unit as usize)?;
                act.store(daddr.wrapping_add(k * unit), &value)?;
            }
            saddr = stepped(saddr, soff, t.source_modulo());
            daddr = stepped(daddr, doff, t.destination_modulo());
        }
        return Ok((saddr, daddr));
    }
    if (sizes * ssize) as usize > act.staging {
        return Err(10);
    }
    let mut read = Vec::new();
    for _ in 0..sizes {
        let unit = ssize.min(4);
        for k in 0..ssize / unit {
            read.extend(act.load(saddr.wrapping_add(k * unit), unit as usize)?);
        }
        saddr = stepped(saddr, soff, t.source_modulo());
    }
    for whole in read.chunks_exact(dsize as usize) {
        let unit = dsize.min(4);
        for (k, value) in whole.chunks(unit as usize).enumerate() {
            act.store(daddr.wrapping_add(k as u32 * unit), value)?;
        }
        daddr = stepped(daddr, doff, t.destination_modulo());
    }
    Ok((saddr, daddr))
}

fn major_end(act: &mut Act, channel: usize) -> Result<(), Refused> {
    let t = Descriptor::of(act, channel);
    let majors = &mut act.device.fields[MAJORS + channel];
    *majors = majors.wrapping_add(1);
    if t.csr & ESG != 0 {
        let mut next = Vec::new();
        for n in 0..32 {
            next.extend(act.load(t.dlast.wrapping_add(n), 1)?);
        }
        act.put_descriptor(channel, &next)?;
        if act.device.started(channel) {
            act.device.fields[KICK] |= 1 << channel;
        }
    } else {
        let begun_anew = Descriptor {
            saddr: stepped(t.saddr, t.slast, t.source_modulo()),
            daddr: stepped(t.daddr, t.dlast, t.destination_modulo()),
            citer: t.biter,
            csr: t.csr & !ACTIVE & !START | DONE,
            ..t
        };
        act.put_descriptor(channel, &begun_anew.bytes())?;
    }
    if t.csr & INTMAJOR != 0 {
        act.device.fields[INT] |= 1 << channel;
    }
    if t.csr & DREQ != 0 {
        act.device.fields[ERQ] &= !(1 << channel);
    }
    if t.csr & MAJORELINK != 0 {
        start_linked(act, channel, usize::from(t.csr >> 8 & 0x3F))?;
    }
    Ok(())
}

/// A link sets START and KICK of another channel; one to itself is ignored.
fn start_linked(act: &mut Act, from: usize, to: usize) -> Result<(), Refused> {
    if from != to {
        start(act, to)?;
        act.device.fields[KICK] |= 1 << to;
    }
    Ok(())
}

/// Sets a channel's START bit.
pub(crate) fn start(act: &mut Act, channel: usize) -> Result<(), Refused> {
    let at = 32 * channel + 0x1F;
    let flags = act.device.table[at] | START as u8;
    act.put(at, &[flags])
}

//! The registers: the arms of `edma_read`, `edma_write`, `intc_read` and
//! `intc_write`, the descriptor table, and the priorities of document 02.

use crate::act::Act;
use crate::device::{
    big_endian, Device, CR, EEI, ERQ, ERR, FRC, ICONFIG, IMR, INT, KICK, LINES, PRIORITY, SOURCE,
};
use crate::pass;
use crate::Refused;

/// Which block an address lies in.
enum Block {
    Dma,
    Controller(usize),
}

fn block(address: u32) -> Option<Block> {
    match address & !0x3FFF {
        0xFC04_4000 => Some(Block::Dma),
        0xFC04_8000 => Some(Block::Controller(0)),
        0xFC04_C000 => Some(Block::Controller(1)),
        0xFC05_0000 => Some(Block::Controller(2)),
        _ => None,
    }
}

fn in_table(offset: u32) -> bool {
    (0x1000..0x1800).contains(&offset)
}

/// The refusal that a write's address and size give.
pub(crate) fn refusal(address: u32, size: u32) -> Option<Refused> {
    if !matches!(size, 1 | 2 | 4) {
        return Some(1);
    }
    let offset = address & 0x3FFF;
    match block(address) {
        None => Some(2),
        Some(Block::Dma) if in_table(offset) => (offset + size > 0x1800).then_some(4),
        Some(Block::Dma) => (!dma_written(offset, size)).then_some(3),
        Some(Block::Controller(_)) => match (offset, size) {
            (0x08..=0x17, _) => (offset % 4 + size > 4).then_some(4),
            (0x00..=0x07, _) | (0x18, 2) | (0x1C..=0x1F, 1) | (0x40..=0x7F, _) => None,
            _ => Some(3),
        },
    }
}

fn dma_written(offset: u32, size: u32) -> bool {
    match size {
        1 => matches!(offset, 0x18..=0x1F | 0x100..=0x13F),
        4 => matches!(
            offset,
            0x00 | 0x08 | 0x0C | 0x10 | 0x14 | 0x18 | 0x1C | 0x20 | 0x24 | 0x28 | 0x2C
        ),
        _ => false,
    }
}

pub(crate) fn read(device: &Device, address: u32, size: u32) -> Result<u32, Refused> {
    if !matches!(size, 1 | 2 | 4) {
        return Err(1);
    }
    let offset = address & 0x3FFF;
    match block(address) {
        None => Err(2),
        Some(Block::Dma) if in_table(offset) => {
            if offset + size > 0x1800 {
                return Err(4);
            }
            let at = offset as usize - 0x1000;
            Ok(big_endian(&device.table[at..at + size as usize]) as u32)
        }
        Some(Block::Dma) => read_dma(device, offset, size).ok_or(3),
        Some(Block::Controller(n)) => read_controller(device, n, offset, size).ok_or(3),
    }
}

fn read_dma(device: &Device, offset: u32, size: u32) -> Option<u32> {
    let high = |field: usize| (device.fields[field] >> 32) as u32;
    let low = |field: usize| device.fields[field] as u32;
    Some(match (offset, size) {
        (0x00, 4) => low(CR),
        (0x04, 4) => 0,
        (0x08, 4) => high(ERQ),
        (0x0C, 4) => low(ERQ),
        (0x10, 4) => high(EEI),
        (0x14, 4) => low(EEI),
        (0x18..=0x1F, 1) => 0,
        (0x20, 4) => high(INT),
        (0x24, 4) => low(INT),
        (0x28, 4) => high(ERR),
        (0x2C, 4) => low(ERR),
        (0x30, 4) | (0x34, 4) => 0,
        (0x100..=0x13F, 1) if device.chip => low(PRIORITY + offset as usize - 0x100),
        _ => return None,
    })
}

fn read_controller(device: &Device, n: usize, offset: u32, size: u32) -> Option<u32> {
    let of = |first: usize| device.fields[first + 4 * n];
    let pending = of(LINES) | of(FRC);
    Some(match (offset, size) {
        (0x00, 4) => (pending >> 32) as u32,
        (0x04, 4) => pending as u32,
        (0x08, 4) => (of(IMR) >> 32) as u32,
        (0x0C, 4) => of(IMR) as u32,
        (0x10, 4) => (of(FRC) >> 32) as u32,
        (0x14, 4) => of(FRC) as u32,
        (0x18, 2) => of(ICONFIG) as u32,
        (0x1C..=0x1F, 1) => 0,
        (0x40..=0x7F, 1) => device.fields[SOURCE + 64 * n + offset as usize - 0x40] as u32,
        _ => return None,
    })
}

/// A write that no address or size bars.
pub(crate) fn write(act: &mut Act, address: u32, size: u32, value: u32) -> Result<(), Refused> {
    let offset = address & 0x3FFF;
    match block(address) {
        Some(Block::Dma) if in_table(offset) => write_table(act, offset - 0x1000, size, value),
        Some(Block::Dma) => write_dma(act, offset, size, value),
        Some(Block::Controller(n)) => {
            write_controller(&mut act.device, n, offset, size, value);
            Ok(())
        }
        None => Err(2),
    }
}

fn write_table(act: &mut Act, at: u32, size: u32, value: u32) -> Result<(), Refused> {
    let (at, size) = (at as usize, size as usize);
    act.put(at, &value.to_be_bytes()[4 - size..])?;
    let channel = at / 32;
    let flags = 32 * channel + 0x1F;
    if (at..at + size).contains(&flags) && act.device.started(channel) {
        act.device.fields[KICK] |= 1 << channel;
    }
    Ok(())
}

fn write_dma(act: &mut Act, offset: u32, size: u32, value: u32) -> Result<(), Refused> {
    let fields = &mut act.device.fields;
    let (high, low) = (u64::from(value) << 32, u64::from(value));
    let set_high = |word: u64| word & 0xFFFF_FFFF | high;
    let set_low = |word: u64| word >> 32 << 32 | low;
    match (offset, size) {
        (0x00, _) => fields[CR] = low,
        (0x08, _) => fields[ERQ] = set_high(fields[ERQ]),
        (0x0C, _) => fields[ERQ] = set_low(fields[ERQ]),
        (0x10, _) => fields[EEI] = set_high(fields[EEI]),
        (0x14, _) => fields[EEI] = set_low(fields[EEI]),
        (0x20, _) => fields[INT] &= !high,
        (0x24, _) => fields[INT] &= !low,
        (0x28, _) => fields[ERR] &= !high,
        (0x2C, _) => fields[ERR] &= !low,
        (0x18 | 0x1C, 4) => {
            for (n, byte) in value.to_be_bytes().into_iter().enumerate() {
                command(act, offset + n as u32, byte)?;
            }
        }
        (0x18..=0x1F, _) => command(act, offset, value as u8)?,
        _ => {
            if act.device.chip {
                act.device.fields[PRIORITY + offset as usize - 0x100] = low % 64;
            }
        }
    }
    Ok(())
}

/// A command byte: bit 6 means every channel, else the low six bits name one.
fn command(act: &mut Act, offset: u32, byte: u8) -> Result<(), Refused> {
    let selected = if byte & 0x40 != 0 { u64::MAX } else { 1 << (byte & 0x3F) };
    let requesting = act.device.requesting();
    let fields = &mut act.device.fields;
    match offset {
        0x18 => {
            fields[ERQ] |= selected;
            fields[KICK] |= selected & requesting;
        }
        0x19 => fields[ERQ] &= !selected,
        0x1A => fields[EEI] |= selected,
        0x1B => fields[EEI] &= !selected,
        0x1C => fields[INT] &= !selected,
        0x1D => fields[ERR] &= !selected,
        0x1E => {
            fields[KICK] |= selected;
            for channel in (0..64).filter(|channel| selected >> channel & 1 == 1) {
                pass::start(act, channel)?;
            }
        }
        _ => {
            for channel in (0..64).filter(|channel| selected >> channel & 1 == 1) {
                let at = 32 * channel + 0x1F;
                let flags = act.device.table[at] & !(pass::DONE as u8);
                act.put(at, &[flags])?;
            }
        }
    }
    Ok(())
}

fn write_controller(device: &mut Device, n: usize, offset: u32, size: u32, value: u32) {
    let fields = &mut device.fields;
    let selected = if value & 0x40 != 0 { u64::MAX } else { 1 << (value & 0x3F) };
    match (offset, size) {
        (0x08..=0x17, _) => {
            // A part of one of four words, two to a field.
            let field = if offset < 0x10 { IMR } else { FRC } + 4 * n;
            let mut eight = fields[field].to_be_bytes();
            let first = offset as usize % 8;
            let bytes = &value.to_be_bytes()[4 - size as usize..];
            eight[first..first + bytes.len()].copy_from_slice(bytes);
            fields[field] = u64::from_be_bytes(eight);
        }
        (0x18, _) => fields[ICONFIG + 4 * n] = u64::from(value as u16),
        (0x1C, _) => fields[IMR + 4 * n] |= selected,
        (0x1D, _) => fields[IMR + 4 * n] &= !selected,
        (0x40..=0x7F, _) => {
            let bytes = &value.to_be_bytes()[4 - size as usize..];
            let first = offset as usize - 0x40;
            for (source, byte) in (first..64).zip(bytes) {
                fields[SOURCE + 64 * n + source] = u64::from(*byte);
            }
        }
        _ => {}
    }
}

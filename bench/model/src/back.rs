//! The take-back: whether the last group is damaged, and what undoing gives.

use crate::device::{big_endian, bits, fits, Device};
use crate::Refused;

/// Undoes the last group; answers the used length that is left.
pub(crate) fn take_back(
    device: &mut Device,
    base: u32,
    window: &mut [u8],
    used: &[u8],
) -> Result<usize, Refused> {
    let rows: Vec<&[u8]> = used.chunks(16).collect();
    let Some((end, before)) = rows.split_last() else { return Err(12) };
    if end[..8] != [0x4A, 0x52, 3, 0, 0, 0, 0, 0] {
        return Err(13);
    }
    let length = usize::try_from(big_endian(&end[8..])).unwrap_or(usize::MAX);
    let first = before.len().checked_sub(length).ok_or(13)?;
    let group = &before[first..];
    if !group.iter().all(|row| sound(device, base, window.len(), row)) {
        return Err(13);
    }
    for row in group.iter().rev() {
        let width = usize::from(row[3]);
        let (place, old) = (big_endian(&row[4..8]) as usize, &row[16 - width..]);
        match row[2] {
            0 => {
                let at = place - base as usize;
                window[at..at + width].copy_from_slice(old);
            }
            1 => device.table[place..place + width].copy_from_slice(old),
            _ => device.fields[place] = big_endian(old),
        }
    }
    Ok(16 * first)
}

fn sound(device: &Device, base: u32, window: usize, row: &[u8]) -> bool {
    let width = row[3];
    let (place, old) = (big_endian(&row[4..8]), big_endian(&row[8..]));
    let end = place + u64::from(width);
    let first = u64::from(base);
    let fits_width = fits(old, 8 * u32::from(width.min(8)));
    row[..2] == [0x4A, 0x52]
        && match row[2] {
            0 => {
                let inside = first <= place && end <= first + window as u64;
                matches!(width, 1 | 2 | 4) && inside && fits_width
            }
            1 => matches!(width, 1 | 2 | 4 | 8) && end <= 2048 && fits_width,
            2 => width == 8 && bits(device.chip, place as usize).is_some_and(|n| fits(old, n)),
            _ => false,
        }
}

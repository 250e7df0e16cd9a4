//! Lines and level, inputs, acknowledge.

use crate::device::{bit, Device, FRC, IMR, INT, LEVEL, LINES, SOURCE, STANDING, TAKEN};

/// The lines that the DMA's INT bits drive, by controller.
const OWNED: [u64; 3] = [0xFFFF << 8, 0xFF_FFFF_FFFF << 8, 1];

/// Works out lines and level anew.
pub(crate) fn work_out(device: &mut Device) {
    let int = device.fields[INT];
    let driven =
        [(int & 0xFFFF) << 8, (int >> 16 & 0xFF_FFFF_FFFF) << 8, u64::from(int >> 56 != 0)];
    for controller in 0..3 {
        let lines = &mut device.fields[LINES + 4 * controller];
        *lines = *lines & !OWNED[controller] | driven[controller];
    }
    let loudest = sources(device).into_iter().map(|(level, ..)| level).max();
    device.fields[LEVEL] = loudest.unwrap_or(0);
}

/// New standing requests and lines; those that the DMA owns stay.
pub(crate) fn put_inputs(device: &mut Device, standing: u64, given: [u64; 3]) {
    device.fields[STANDING] = standing;
    for controller in 0..3 {
        let lines = &mut device.fields[LINES + 4 * controller];
        *lines = *lines & OWNED[controller] | given[controller] & !OWNED[controller];
    }
}

/// The deliverable sources: level, controller, source.
fn sources(device: &Device) -> Vec<(u64, usize, usize)> {
    let mut all = Vec::new();
    for controller in 0..3 {
        let of = |first: usize| device.fields[first + 4 * controller];
        let unmasked = if device.ignore_masks { of(LINES) } else { of(LINES) & !of(IMR) };
        let deliverable = unmasked | of(FRC);
        for source in (0..64).filter(|&source| bit(deliverable, source)) {
            let level = device.fields[SOURCE + 64 * controller + source] & 7;
            all.push((level, controller, source));
        }
    }
    all
}

/// Takes the highest source that `ipl` does not hold back; its level and
/// vector.
pub(crate) fn acknowledge(device: &mut Device, ipl: u8) -> Option<(u8, u8)> {
    let heard = |level: u64| level != 0 && (level > u64::from(ipl) || level == 7);
    let found = sources(device).into_iter().filter(|(level, ..)| heard(*level)).max();
    let (level, controller, source) = found?;
    let vector = 64 + 64 * controller + source;
    let taken = &mut device.fields[TAKEN + vector];
    *taken = taken.wrapping_add(1);
    Some((level as u8, vector as u8))
}

//! The entries over a device in memory, and the judge of captures (docs/ABI.md),
//! as safe functions. The only module of this crate with `unsafe` in it.
//!
//! Why each call is sound. The entries are total: for any device, slices and
//! numbers they read and write nothing but what they are lent, and return. A
//! [`Device`] holds a struct of the layout that the archive has (module `raw`
//! asserts it), aligned and initialised, in which the two bytes that are not free
//! are `bool`s. A Rust slice is a pointer that is never null, also where it is
//! empty, to that many initialised bytes; what is borrowed mutably at the same
//! time does not overlap, and nobody else looks at it during the call. The
//! entries keep no pointer after they return and never unwind. So whatever is
//! passed here meets what the entries ask for, and each function below is safe.
#![allow(unsafe_code)]

use crate::answer::Answer;
use crate::device::Device;
use crate::lent::{Lent, LentJournal, Time};
use crate::raw::RawDevice;

// `bool` and nested structs with declared layout pass behind a pointer as C has
// them.
extern "C" {
    fn kp_device_fresh(device: *mut RawDevice, ignore_masks: u32, mode: u32) -> u64;
    fn kp_device_read(device: *const RawDevice, address: u32, size: u32) -> u64;
    fn kp_device_write(
        device: *mut RawDevice,
        address: u32,
        size: u32,
        value: u32,
        journal: *mut u8,
        journal_len: usize,
        used: u64,
    ) -> u64;
    fn kp_device_inputs(
        device: *mut RawDevice,
        standing: u64,
        lines0: u64,
        lines1: u64,
        lines2: u64,
        journal: *mut u8,
        journal_len: usize,
        used: u64,
    ) -> u64;
    fn kp_device_pending(
        device: *mut RawDevice,
        channel: u32,
        count: u32,
        journal: *mut u8,
        journal_len: usize,
        used: u64,
    ) -> u64;
    fn kp_device_run(
        device: *mut RawDevice,
        now: u64,
        pace: u64,
        base: u32,
        window: *mut u8,
        window_len: usize,
        staging: *mut u8,
        staging_len: usize,
        journal: *mut u8,
        journal_len: usize,
        used: u64,
    ) -> u64;
    fn kp_device_service(
        device: *mut RawDevice,
        now: u64,
        pace: u64,
        base: u32,
        window: *mut u8,
        window_len: usize,
        staging: *mut u8,
        staging_len: usize,
        journal: *mut u8,
        journal_len: usize,
        used: u64,
    ) -> u64;
    fn kp_device_acknowledge(
        device: *mut RawDevice,
        ipl: u32,
        journal: *mut u8,
        journal_len: usize,
        used: u64,
    ) -> u64;
    fn kp_device_take_back(
        device: *mut RawDevice,
        base: u32,
        window: *mut u8,
        window_len: usize,
        journal: *mut u8,
        journal_len: usize,
        used: u64,
    ) -> u64;
    fn kp_device_save(device: *const RawDevice, image: *mut u8, image_len: usize) -> u64;
    fn kp_device_load(device: *mut RawDevice, image: *const u8, image_len: usize) -> u64;
    #[cfg(feature = "capture")]
    fn kp_capture(
        descriptor: *const u8,
        descriptor_len: usize,
        cr: u32,
        records: *const u8,
        records_len: usize,
    ) -> u64;
}

/// Makes the device a fresh one; 0 and 1 are the settings that there are.
pub fn fresh(device: &mut Device, ignore_masks: u32, mode: u32) -> Answer {
    // SAFETY: as the module says.
    Answer(unsafe { kp_device_fresh(&mut *device.raw, ignore_masks, mode) })
}

/// Reads a register.
pub fn read(device: &Device, address: u32, size: u32) -> Answer {
    // SAFETY: as the module says; this entry writes nothing.
    Answer(unsafe { kp_device_read(&*device.raw, address, size) })
}

/// Writes a register.
pub fn write(
    device: &mut Device,
    address: u32,
    size: u32,
    value: u32,
    journal: LentJournal<'_>,
) -> Answer {
    let LentJournal { bytes, used } = journal;
    // SAFETY: as the module says.
    Answer(unsafe {
        kp_device_write(
            &mut *device.raw,
            address,
            size,
            value,
            bytes.as_mut_ptr(),
            bytes.len(),
            used,
        )
    })
}

/// Puts the standing requests and the three controllers' lines.
pub fn inputs(
    device: &mut Device,
    standing: u64,
    lines: [u64; 3],
    journal: LentJournal<'_>,
) -> Answer {
    let LentJournal { bytes, used } = journal;
    // SAFETY: as the module says.
    Answer(unsafe {
        kp_device_inputs(
            &mut *device.raw,
            standing,
            lines[0],
            lines[1],
            lines[2],
            bytes.as_mut_ptr(),
            bytes.len(),
            used,
        )
    })
}

/// Adds to the pending count of one channel.
pub fn pending(device: &mut Device, channel: u32, count: u32, journal: LentJournal<'_>) -> Answer {
    let LentJournal { bytes, used } = journal;
    // SAFETY: as the module says.
    Answer(unsafe {
        kp_device_pending(&mut *device.raw, channel, count, bytes.as_mut_ptr(), bytes.len(), used)
    })
}

/// Runs the channels that have work, as the device's mode has it.
pub fn run(
    device: &mut Device,
    time: Time,
    memory: Lent<'_>,
    staging: &mut [u8],
    journal: LentJournal<'_>,
) -> Answer {
    timed(kp_device_run, device, time, memory, staging, journal)
}

/// Offers busy and deferred channels again, and runs.
pub fn service(
    device: &mut Device,
    time: Time,
    memory: Lent<'_>,
    staging: &mut [u8],
    journal: LentJournal<'_>,
) -> Answer {
    timed(kp_device_service, device, time, memory, staging, journal)
}

/// What `kp_device_run` and `kp_device_service` are given.
type Timed = unsafe extern "C" fn(
    *mut RawDevice,
    u64,
    u64,
    u32,
    *mut u8,
    usize,
    *mut u8,
    usize,
    *mut u8,
    usize,
    u64,
) -> u64;

/// One of the two entries that move samples.
fn timed(
    entry: Timed,
    device: &mut Device,
    time: Time,
    memory: Lent<'_>,
    staging: &mut [u8],
    journal: LentJournal<'_>,
) -> Answer {
    let Lent { base, window } = memory;
    let LentJournal { bytes, used } = journal;
    // SAFETY: as the module says, of either entry.
    Answer(unsafe {
        entry(
            &mut *device.raw,
            time.now,
            time.pace,
            base,
            window.as_mut_ptr(),
            window.len(),
            staging.as_mut_ptr(),
            staging.len(),
            bytes.as_mut_ptr(),
            bytes.len(),
            used,
        )
    })
}

/// Takes the interrupt that stands highest.
pub fn acknowledge(device: &mut Device, ipl: u8, journal: LentJournal<'_>) -> Answer {
    let LentJournal { bytes, used } = journal;
    // SAFETY: as the module says.
    Answer(unsafe {
        kp_device_acknowledge(
            &mut *device.raw,
            u32::from(ipl),
            bytes.as_mut_ptr(),
            bytes.len(),
            used,
        )
    })
}

/// Undoes the last standing act.
pub fn take_back(device: &mut Device, memory: Lent<'_>, journal: LentJournal<'_>) -> Answer {
    let Lent { base, window } = memory;
    let LentJournal { bytes, used } = journal;
    // SAFETY: as the module says.
    Answer(unsafe {
        kp_device_take_back(
            &mut *device.raw,
            base,
            window.as_mut_ptr(),
            window.len(),
            bytes.as_mut_ptr(),
            bytes.len(),
            used,
        )
    })
}

/// Lays the device down as an image.
pub fn save(device: &Device, image: &mut [u8]) -> Answer {
    // SAFETY: as the module says; this entry writes the image alone.
    Answer(unsafe { kp_device_save(&*device.raw, image.as_mut_ptr(), image.len()) })
}

/// Reads the device from an image, if it is one.
pub fn load(device: &mut Device, image: &[u8]) -> Answer {
    // SAFETY: as the module says; this entry writes the device alone.
    Answer(unsafe { kp_device_load(&mut *device.raw, image.as_ptr(), image.len()) })
}

/// Judges the records of a capture.
#[cfg(feature = "capture")]
pub fn capture(descriptor: &[u8], cr: u32, records: &[u8]) -> Answer {
    // SAFETY: as the module says; this entry writes nothing.
    Answer(unsafe {
        kp_capture(descriptor.as_ptr(), descriptor.len(), cr, records.as_ptr(), records.len())
    })
}

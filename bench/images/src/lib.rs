//! The entries that work on a device's image (docs/ABI.md), as safe functions
//! over bytes that the caller owns. An image is how a device is saved, sent and
//! compared: these are for tests, and for callers who keep images. Whoever
//! works with a device wants [`kounpheray::Bench`].
//!
//! Why each call is sound. The entries are total: for any slices and numbers
//! they read and write nothing but the slices lent, and return. A Rust slice
//! is a pointer that is never null, also where it is empty, to that many
//! initialised bytes; `&mut` slices that live at the same time do not overlap,
//! and nobody else looks at them during the call. The entries keep no pointer
//! after they return and never unwind. So whatever is passed here meets what
//! the entries ask for, and each function below is safe.
#![warn(missing_docs)]

use kounpheray::entries::{Answer, Lent, LentJournal};
use kounpheray::Time;

extern "C" {
    fn kp_fresh(image: *mut u8, image_len: usize, ignore_masks: u32, mode: u32) -> u64;
    fn kp_read(image: *const u8, image_len: usize, address: u32, size: u32) -> u64;
    fn kp_write(
        image: *mut u8,
        image_len: usize,
        address: u32,
        size: u32,
        value: u32,
        journal: *mut u8,
        journal_len: usize,
        used: u64,
    ) -> u64;
    fn kp_inputs(
        image: *mut u8,
        image_len: usize,
        standing: u64,
        lines0: u64,
        lines1: u64,
        lines2: u64,
        journal: *mut u8,
        journal_len: usize,
        used: u64,
    ) -> u64;
    fn kp_pending(
        image: *mut u8,
        image_len: usize,
        channel: u32,
        count: u32,
        journal: *mut u8,
        journal_len: usize,
        used: u64,
    ) -> u64;
    fn kp_run(
        image: *mut u8,
        image_len: usize,
        now: u64,
        pace: u64,
        base: u32,
        window: *mut u8,
        window_len: usize,
        staging: *mut u8,
        staging_len: usize,
        journal: *mut u8,
        journal_len: usize,
        used: u64,
    ) -> u64;
    fn kp_service(
        image: *mut u8,
        image_len: usize,
        now: u64,
        pace: u64,
        base: u32,
        window: *mut u8,
        window_len: usize,
        staging: *mut u8,
        staging_len: usize,
        journal: *mut u8,
        journal_len: usize,
        used: u64,
    ) -> u64;
    fn kp_acknowledge(
        image: *mut u8,
        image_len: usize,
        ipl: u32,
        journal: *mut u8,
        journal_len: usize,
        used: u64,
    ) -> u64;
    fn kp_take_back(
        image: *mut u8,
        image_len: usize,
        base: u32,
        window: *mut u8,
        window_len: usize,
        journal: *mut u8,
        journal_len: usize,
        used: u64,
    ) -> u64;
}

/// Makes a fresh device in the image; 0 and 1 are the settings that there are.
pub fn fresh(image: &mut [u8], ignore_masks: u32, mode: u32) -> Answer {
    // SAFETY: as the module says.
    Answer(unsafe { kp_fresh(image.as_mut_ptr(), image.len(), ignore_masks, mode) })
}

/// Reads a register.
pub fn read(image: &[u8], address: u32, size: u32) -> Answer {
    // SAFETY: as the module says; this entry writes nothing.
    Answer(unsafe { kp_read(image.as_ptr(), image.len(), address, size) })
}

/// Writes a register.
pub fn write(
    image: &mut [u8],
    address: u32,
    size: u32,
    value: u32,
    journal: LentJournal<'_>,
) -> Answer {
    let LentJournal { bytes, used } = journal;
    // SAFETY: as the module says.
    Answer(unsafe {
        kp_write(
            image.as_mut_ptr(),
            image.len(),
            address,
            size,
            value,
            bytes.as_mut_ptr(),
            bytes.len(),
            used,
        )
    })
}

/// Puts the standing requests and the three controllers' lines.
pub fn inputs(
    image: &mut [u8],
    standing: u64,
    lines: [u64; 3],
    journal: LentJournal<'_>,
) -> Answer {
    let LentJournal { bytes, used } = journal;
    // SAFETY: as the module says.
    Answer(unsafe {
        kp_inputs(
            image.as_mut_ptr(),
            image.len(),
            standing,
            lines[0],
            lines[1],
            lines[2],
            bytes.as_mut_ptr(),
            bytes.len(),
            used,
        )
    })
}

/// Adds to the pending count of one channel.
pub fn pending(image: &mut [u8], channel: u32, count: u32, journal: LentJournal<'_>) -> Answer {
    let LentJournal { bytes, used } = journal;
    // SAFETY: as the module says.
    Answer(unsafe {
        kp_pending(
            image.as_mut_ptr(),
            image.len(),
            channel,
            count,
            bytes.as_mut_ptr(),
            bytes.len(),
            used,
        )
    })
}

/// Runs the channels that have work, as the device's mode has it.
pub fn run(
    image: &mut [u8],
    time: Time,
    memory: Lent<'_>,
    staging: &mut [u8],
    journal: LentJournal<'_>,
) -> Answer {
    timed(kp_run, image, time, memory, staging, journal)
}

/// Offers busy and deferred channels again, and runs.
pub fn service(
    image: &mut [u8],
    time: Time,
    memory: Lent<'_>,
    staging: &mut [u8],
    journal: LentJournal<'_>,
) -> Answer {
    timed(kp_service, image, time, memory, staging, journal)
}

/// What `kp_run` and `kp_service` are given.
type Timed = unsafe extern "C" fn(
    *mut u8,
    usize,
    u64,
    u64,
    u32,
    *mut u8,
    usize,
    *mut u8,
    usize,
    *mut u8,
    usize,
    u64,
) -> u64;

/// One of the two entries that move samples.
fn timed(
    entry: Timed,
    image: &mut [u8],
    time: Time,
    memory: Lent<'_>,
    staging: &mut [u8],
    journal: LentJournal<'_>,
) -> Answer {
    let Lent { base, window } = memory;
    let LentJournal { bytes, used } = journal;
    // SAFETY: as the module says, of either entry.
    Answer(unsafe {
        entry(
            image.as_mut_ptr(),
            image.len(),
            time.now,
            time.pace,
            base,
            window.as_mut_ptr(),
            window.len(),
            staging.as_mut_ptr(),
            staging.len(),
            bytes.as_mut_ptr(),
            bytes.len(),
            used,
        )
    })
}

/// Takes the interrupt that stands highest.
pub fn acknowledge(image: &mut [u8], ipl: u8, journal: LentJournal<'_>) -> Answer {
    let LentJournal { bytes, used } = journal;
    // SAFETY: as the module says.
    Answer(unsafe {
        kp_acknowledge(
            image.as_mut_ptr(),
            image.len(),
            u32::from(ipl),
            bytes.as_mut_ptr(),
            bytes.len(),
            used,
        )
    })
}

/// Undoes the last standing act.
pub fn take_back(image: &mut [u8], memory: Lent<'_>, journal: LentJournal<'_>) -> Answer {
    let Lent { base, window } = memory;
    let LentJournal { bytes, used } = journal;
    // SAFETY: as the module says.
    Answer(unsafe {
        kp_take_back(
            image.as_mut_ptr(),
            image.len(),
            base,
            window.as_mut_ptr(),
            window.len(),
            bytes.as_mut_ptr(),
            bytes.len(),
            used,
        )
    })
}

//! A device as it lies in memory: `struct kp_device` of include/kounpheray.h,
//! field by field. The archive, that header and this module agree on the
//! places; the assertions below hold them here, those of the header there.

use std::mem::{align_of, offset_of, size_of};

/// One interrupt controller.
#[repr(C)]
#[derive(Clone, Copy, PartialEq, Eq)]
pub(crate) struct RawController {
    pub(crate) masks: u64,
    pub(crate) forced: u64,
    pub(crate) lines: u64,
    pub(crate) levels: [u8; 64],
    pub(crate) config: u16,
}

/// The numbers that stand alone.
#[repr(C)]
#[derive(Clone, Copy, PartialEq, Eq)]
pub(crate) struct RawScalars {
    pub(crate) erq: u64,
    pub(crate) eei: u64,
    pub(crate) int: u64,
    pub(crate) err: u64,
    pub(crate) kick: u64,
    pub(crate) deferred: u64,
    pub(crate) deadline: u64,
    pub(crate) standing: u64,
    pub(crate) cr: u32,
    pub(crate) level: u8,
}

/// The whole device.
#[repr(C)]
#[derive(Clone, PartialEq, Eq)]
pub(crate) struct RawDevice {
    pub(crate) scalars: RawScalars,
    pub(crate) table: [u8; 2048],
    pub(crate) busy: [u64; 64],
    pub(crate) majors: [u64; 64],
    pub(crate) taken: [u64; 192],
    pub(crate) pending: [u32; 64],
    pub(crate) priorities: [u8; 64],
    pub(crate) controllers: [RawController; 3],
    pub(crate) ignore_masks: bool,
    pub(crate) chip: bool,
}

impl RawDevice {
    /// All zero: a device too, though not a fresh one.
    pub(crate) const ZERO: RawDevice = RawDevice {
        scalars: RawScalars {
            erq: 0,
            eei: 0,
            int: 0,
            err: 0,
            kick: 0,
            deferred: 0,
            deadline: 0,
            standing: 0,
            cr: 0,
            level: 0,
        },
        table: [0; 2048],
        busy: [0; 64],
        majors: [0; 64],
        taken: [0; 192],
        pending: [0; 64],
        priorities: [0; 64],
        controllers: [RawController { masks: 0, forced: 0, lines: 0, levels: [0; 64], config: 0 };
            3],
        ignore_masks: false,
        chip: false,
    };
}

const _: () = {
    assert!(size_of::<RawDevice>() == 5296 && align_of::<RawDevice>() == 8);
    assert!(offset_of!(RawDevice, scalars) == 0);
    assert!(offset_of!(RawDevice, table) == 72);
    assert!(offset_of!(RawDevice, busy) == 2120);
    assert!(offset_of!(RawDevice, majors) == 2632);
    assert!(offset_of!(RawDevice, taken) == 3144);
    assert!(offset_of!(RawDevice, pending) == 4680);
    assert!(offset_of!(RawDevice, priorities) == 4936);
    assert!(offset_of!(RawDevice, controllers) == 5000);
    assert!(offset_of!(RawDevice, ignore_masks) == 5288);
    assert!(offset_of!(RawDevice, chip) == 5289);
    assert!(size_of::<RawScalars>() == 72);
    assert!(offset_of!(RawScalars, standing) == 56);
    assert!(offset_of!(RawScalars, cr) == 64);
    assert!(offset_of!(RawScalars, level) == 68);
    assert!(size_of::<RawController>() == 96);
    assert!(offset_of!(RawController, levels) == 24);
    assert!(offset_of!(RawController, config) == 88);
};

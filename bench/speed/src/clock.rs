//! The processor time that this program has used. What else the computer does
//! is not in it.
#![allow(unsafe_code)]

#[repr(C)]
struct Timespec {
    seconds: i64,
    nanoseconds: i64,
}

const CLOCK_PROCESS_CPUTIME_ID: i32 = 2;

extern "C" {
    fn clock_gettime(clock: i32, to: *mut Timespec) -> i32;
}

/// In nanoseconds.
pub fn used() -> u64 {
    let mut time = Timespec { seconds: 0, nanoseconds: 0 };
    // SAFETY: the C library, which the standard library is linked with, writes
    // a `struct timespec` here, which on x86-64 Linux is two 64-bit numbers.
    let failed = unsafe { clock_gettime(CLOCK_PROCESS_CPUTIME_ID, &mut time) };
    assert_eq!(failed, 0, "this computer tells no processor time");
    time.seconds as u64 * 1_000_000_000 + time.nanoseconds as u64
}

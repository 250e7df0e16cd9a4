//! Run and service, in both modes.

use crate::act::Act;
use crate::device::{bit, BUSY, DEADLINE, DEFERRED, ERQ, KICK, MAJORS, PENDING, PRIORITY};
use crate::pass::{pass, Descriptor, DONE};
use crate::Refused;

const TURNS: usize = 4096;

/// The channel whose pace is that of its wire.
const PACED: usize = 35;

pub(crate) fn run(act: &mut Act, now: u64, pace: u64) -> Result<(), Refused> {
    if act.device.chip {
        run_as_the_chip(act, now, pace)
    } else {
        run_old(act, now, pace)
    }
}

pub(crate) fn service(act: &mut Act, now: u64, pace: u64) -> Result<(), Refused> {
    let fields = &mut act.device.fields;
    let mut again = fields[DEFERRED];
    for channel in 0..64 {
        if fields[BUSY + channel] != 0 && fields[BUSY + channel] <= now {
            fields[BUSY + channel] = 0;
            again |= fields[ERQ] & 1 << channel;
        }
    }
    fields[DEFERRED] = 0;
    let requesting = act.device.requesting();
    let kick = &mut act.device.fields[KICK];
    *kick |= again & (requesting | *kick);
    if *kick != 0 {
        run(act, now, pace)?;
    }
    Ok(())
}

/// Document 02, [10]: one minor loop a turn, for the channel that comes first.
fn run_as_the_chip(act: &mut Act, now: u64, pace: u64) -> Result<(), Refused> {
    let mut passed_over = 0;
    for _ in 0..TURNS {
        let Some(channel) = first(act, now, passed_over) else { break };
        act.device.fields[KICK] &= !(1 << channel);
        let led_by_start = act.device.started(channel);
        if !led_by_start && channel != PACED {
            spend(act, channel);
        }
        let bytes = Descriptor::of(act, channel).nbytes;
        let answer = pass(act, channel)?;
        if !led_by_start && channel == PACED {
            let moved = if answer { bytes.into() } else { 0 };
            keep_busy(act, now + moved * pace);
        }
        if !answer {
            passed_over |= 1 << channel;
        }
    }
    Ok(())
}

/// Of the channels that have START or both ERQ and a request, aren't busy past
/// `now` and aren't passed over, the one with the highest priority value, the
/// higher number among equals.
fn first(act: &Act, now: u64, passed_over: u64) -> Option<usize> {
    let device = &act.device;
    let asking = device.fields[ERQ] & device.requesting();
    (0..64)
        .filter(|&channel| device.started(channel) || bit(asking, channel))
        .filter(|channel| device.fields[BUSY + channel] <= now)
        .filter(|&channel| !bit(passed_over, channel))
        .max_by_key(|channel| (device.fields[PRIORITY + channel], *channel))
}

/// Document 01: the lowest set bit of KICK is served next and goes first.
fn run_old(act: &mut Act, now: u64, pace: u64) -> Result<(), Refused> {
    for _ in 0..TURNS {
        let kick = act.device.fields[KICK];
        if kick == 0 {
            break;
        }
        let channel = kick.trailing_zeros() as usize;
        act.device.fields[KICK] &= !(1 << channel);
        if act.device.fields[BUSY + channel] > now {
            act.device.fields[DEFERRED] |= 1 << channel;
        } else if act.device.started(channel) {
            let majors = act.device.fields[MAJORS + channel];
            while pass(act, channel)? && act.device.fields[MAJORS + channel] == majors {}
        } else if act.device.asks(channel) && channel == PACED {
            let moved = moved_at_a_pace(act)?;
            keep_busy(act, now + moved * pace);
        } else {
            let mut passes = 0;
            while passes < 1_048_577 && act.device.asks(channel) {
                spend(act, channel);
                if !pass(act, channel)? {
                    break;
                }
                passes += 1;
            }
        }
    }
    Ok(())
}

/// Channel 35's passes, until one answers no, DONE shows, or the sum of raw
/// `nbytes` is above 2^20; the sum.
fn moved_at_a_pace(act: &mut Act) -> Result<u64, Refused> {
    let mut sum = 0;
    loop {
        let bytes = Descriptor::of(act, PACED).nbytes;
        if !pass(act, PACED)? {
            return Ok(sum);
        }
        sum += u64::from(bytes);
        if Descriptor::of(act, PACED).csr & DONE != 0 || sum > 1 << 20 {
            return Ok(sum);
        }
    }
}

fn keep_busy(act: &mut Act, until: u64) {
    let fields = &mut act.device.fields;
    fields[BUSY + PACED] = until;
    fields[DEADLINE] = fields[DEADLINE].min(until);
}

/// Spends one pending count, if there is one.
fn spend(act: &mut Act, channel: usize) {
    let count = &mut act.device.fields[PENDING + channel];
    *count = count.saturating_sub(1);
}

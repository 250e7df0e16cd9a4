//! What this runs on, as far as it can be told.

use std::fs;

/// The processor's name, and the emulator's where there is one.
pub fn name() -> String {
    let processor = fs::read_to_string("/proc/cpuinfo")
        .ok()
        .and_then(|told| {
            let line = told.lines().find(|line| line.starts_with("model name"))?;
            Some(line.split_once(':')?.1.trim().to_string())
        })
        .unwrap_or_else(|| "a processor that does not tell its name".to_string());
    match std::env::var("KOUNPHERAY_RUNNER") {
        Ok(runner) => {
            let emulator = runner.split_whitespace().next().unwrap_or("an emulator");
            format!("{processor}, through the emulator {emulator}: no verdict on time")
        }
        Err(_) => processor,
    }
}

//! The most memory that this process has held, as Linux counts it.

use std::fs;

/// Counts anew from what is held now, so that what earlier parts held hides nothing. Where that is not allowed the old count stands.
pub fn forget_most_held() {
    fs::write("/proc/self/clear_refs", "5").ok();
}

/// VmHWM, in bytes.
pub fn most_held() -> u64 {
    let status = fs::read_to_string("/proc/self/status").expect("Linux says this of each process");
    let line = status.lines().find_map(|line| line.strip_prefix("VmHWM:"));
    let kilobytes = line.and_then(|line| line.trim().strip_suffix(" kB")?.parse().ok());
    1_024 * kilobytes.unwrap_or(0)
}

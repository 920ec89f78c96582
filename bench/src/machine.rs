//! What the measurements ran on.

use crate::proj;
use std::fs;
use std::process::Command;
use std::thread;

/// The machine and the programs.
pub fn words() -> String {
    let cpu = fs::read_to_string("/proc/cpuinfo").unwrap_or_default();
    let model = cpu
        .lines()
        .find_map(|line| line.strip_prefix("model name\t: "));
    let output = Command::new("rustc").arg("--version").output();
    let rustc = output.map(|it| String::from_utf8_lossy(&it.stdout).trim().to_string());
    let cores = thread::available_parallelism().map_or(0, |it| it.get());
    format!(
        "Machine: {cores} cores, {}; {}; PROJ {}.\n",
        model.unwrap_or("unknown"),
        rustc.unwrap_or_default(),
        proj::release()
    )
}

/// The number of running programs, over the last 5 minutes.
pub fn load() -> String {
    let loads = fs::read_to_string("/proc/loadavg").unwrap_or_default();
    loads.split(' ').nth(1).unwrap_or("unknown").to_string()
}

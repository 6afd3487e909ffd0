//! What the scripts and the programs found out about the machine, for the pages in docs/bench/.

use std::{env, fs};

/// The fact of a name.
pub fn fact(name: &str) -> String {
    env::var(name).unwrap_or_else(|_| "not known".to_string())
}

/// How busy the machine is.
pub fn load_average() -> String {
    let line = fs::read_to_string("/proc/loadavg").unwrap_or_default();
    line.split(' ').next().unwrap_or("unknown").to_string()
}

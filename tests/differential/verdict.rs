//! How a comparison ends.

use std::process::ExitCode;

/// Says how many calls were compared, how many differ, and how many of the answers that must occur are missing. A success is none of either.
pub fn verdict(calls: u64, differ: u64, missing: usize) -> ExitCode {
    if missing > 0 {
        println!("{missing} of what must occur did not");
    }
    println!("{calls} calls compared, {differ} differ");
    if differ == 0 && missing == 0 {
        ExitCode::SUCCESS
    } else {
        ExitCode::FAILURE
    }
}

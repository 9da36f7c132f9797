//! Measures the kernels of one side: of the original, or, with `--cfg ported`, of the port.

extern crate alloc;

#[cfg(not(ported))]
mod engine;
mod engine_workloads;
#[cfg(not(ported))]
mod kernels;
mod measure;
/// The original's modules under the paths that they ask for, and what they name beside.
#[cfg(not(ported))]
#[allow(dead_code)]
mod util {
    include!(env!("ORIGINAL_MODULES"));
}
mod workloads;

use std::process::ExitCode;

const USAGE: &str = "usage: bench time [FILTER]    the nanoseconds of an operation of each workload
       bench count [FILTER]   has callgrind count instructions (bench/instructions.py)
       bench sums [FILTER]    what one repetition of each workload adds
       bench list             the kernel, the parameter, the operations and the bytes of each";

fn main() -> ExitCode {
    let args: Vec<String> = std::env::args().skip(1).collect();
    let args: Vec<&str> = args.iter().map(|a| a.as_str()).collect();
    let done = match args[..] {
        ["time"] => measure::times(""),
        ["time", filter] => measure::times(filter),
        ["count"] => measure::count(""),
        ["count", filter] => measure::count(filter),
        ["sums"] => measure::sums(""),
        ["sums", filter] => measure::sums(filter),
        ["list"] => measure::list(),
        _ => {
            eprintln!("{USAGE}");
            return ExitCode::FAILURE;
        }
    };
    match done {
        Ok(()) => ExitCode::SUCCESS,
        Err(err) => {
            eprintln!("bench: {err}");
            ExitCode::FAILURE
        }
    }
}

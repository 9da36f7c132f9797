//! Measures the workloads.

use std::arch::asm;
use std::ffi::CString;
use std::io::{self, Write};
use std::time::Duration;

use crate::workloads::{self, Kernel, Workload};

#[cfg(ported)]
extern "C" {
    /// The port's kernels, from the static library of the crate rsc_kernels.
    fn rsc_kernel(kernel: u32, data: *const u8, len: usize, param: u64, reps: u64) -> u64;
}

#[cfg(ported)]
const MEASURED: Kernel = rsc_kernel;
#[cfg(not(ported))]
const MEASURED: Kernel = crate::kernels::original;

/// A sample's time, and how many samples the least is of.
const SAMPLE: Duration = Duration::from_millis(2);
const SAMPLES: usize = 9;

fn call(workload: &Workload, kernel: u32, reps: u64) -> u64 {
    let data = &workload.data;
    // The pointer and length are those of a slice.
    unsafe { MEASURED(kernel, data.as_ptr(), data.len(), workload.param, reps) }
}

/// The processor time of this thread, which a busy machine disturbs less than the time of day
/// (Linux).
fn now() -> Duration {
    #[repr(C)]
    struct Time {
        seconds: i64,
        nanoseconds: i64,
    }
    extern "C" {
        fn clock_gettime(clock: i32, time: *mut Time) -> i32;
    }
    const THREAD_CPU: i32 = 3;
    let mut time = Time { seconds: 0, nanoseconds: 0 };
    // The clock is one of Linux's and `time` is as it fills it.
    let status = unsafe { clock_gettime(THREAD_CPU, &mut time) };
    assert_eq!(status, 0, "no clock of the thread's processor time");
    Duration::new(time.seconds as u64, time.nanoseconds as u32)
}

fn time(workload: &Workload, kernel: u32, reps: u64) -> Duration {
    let start = now();
    std::hint::black_box(call(workload, kernel, reps));
    now() - start
}

/// The least of some samples, in nanoseconds: what disturbs a sample only adds to it.
fn least(workload: &Workload, kernel: u32, reps: u64) -> f64 {
    let samples = (0..SAMPLES).map(|_| time(workload, kernel, reps));
    samples.min().map_or(0.0, |time| time.as_nanos() as f64)
}

/// The nanoseconds of one repetition, without what is made before them.
fn repetition(workload: &Workload, kernel: u32) -> f64 {
    let mut reps = 1;
    loop {
        // Long beside what is made first, so that its time doesn't blur the difference.
        let made = time(workload, kernel, 0);
        if time(workload, kernel, reps) >= SAMPLE + 5 * made || reps >= 1 << 40 {
            break;
        }
        reps *= 2;
    }
    (least(workload, kernel, reps) - least(workload, kernel, 0)) / reps as f64
}

fn chosen(filter: &str) -> Vec<Workload> {
    let mut all = workloads::all();
    all.retain(|w| w.name.contains(filter));
    all
}

/// Prints `name ns` for each workload whose name has the filter in it.
pub fn times(filter: &str) -> io::Result<()> {
    for workload in chosen(filter) {
        let less = workload.less.map_or(0.0, |kernel| repetition(&workload, kernel));
        let ns = (repetition(&workload, workload.kernel) - less) / workload.ops as f64;
        writeln!(io::stdout(), "{} {:.3}", workload.name, ns)?;
    }
    Ok(())
}

/// Prints `name sum`, the answer of two repetitions, which both sides must give.
pub fn sums(filter: &str) -> io::Result<()> {
    for workload in chosen(filter) {
        writeln!(io::stdout(), "{} {}", workload.name, call(&workload, workload.kernel, 2))?;
    }
    Ok(())
}

/// Prints `name kernel param ops bytes` for each workload.
pub fn list() -> io::Result<()> {
    for w in workloads::all() {
        let bytes = w.data.len();
        writeln!(io::stdout(), "{} {} {} {} {}", w.name, w.kernel, w.param, w.ops, bytes)?;
    }
    Ok(())
}

// Requests that callgrind answers.
const ZERO: u64 = 0x4354_0001;
const DUMP: u64 = 0x4354_0003;
const BEGIN: u64 = 0x4354_0004;
const END: u64 = 0x4354_0005;

/// Asks callgrind, where it runs the program. The rotations turn once around and the exchange is of a register with itself, so nothing
/// happens without it.
fn ask(request: u64, text: &str) {
    let text = CString::new(text).unwrap_or_default();
    let request = [request, text.as_ptr() as u64, 0, 0, 0, 0];
    // The request is read, and no register but rdx changes.
    unsafe {
        asm!(
            "rol rdi, 3", "rol rdi, 13", "rol rdi, 61", "rol rdi, 51", "xchg rbx, rbx",
            in("rax") request.as_ptr(), inout("rdx") 0_u64 => _,
        );
    }
}

/// Has callgrind count the instructions of one and of three repetitions of each workload whose name has the filter in it, and of what is
/// taken off. Prints `name ops` for each.
pub fn count(filter: &str) -> io::Result<()> {
    for workload in chosen(filter) {
        for (part, kernel) in [("of", Some(workload.kernel)), ("less", workload.less)] {
            let Some(kernel) = kernel else { continue };
            std::hint::black_box(call(&workload, kernel, 1));
            for reps in [1, 3] {
                ask(BEGIN, "");
                ask(ZERO, "");
                std::hint::black_box(call(&workload, kernel, reps));
                ask(DUMP, &format!("{} {part} {reps}", workload.name));
                ask(END, "");
            }
        }
        writeln!(io::stdout(), "{} {}", workload.name, workload.ops)?;
    }
    Ok(())
}

//! Clocks, medians and the progress line.

use std::io::{self, IsTerminal, Write};
use std::sync::OnceLock;
use std::time::Duration;

#[repr(C)]
struct Timespec {
    seconds: i64,
    nanoseconds: i64,
}

unsafe extern "C" {
    fn clock_gettime(clock: i32, time: *mut Timespec) -> i32;
}

/// The clock of the CPU time that this process has used: what other processes use is not counted.
const PROCESS_CPU_TIME: i32 = 2;

fn now() -> Duration {
    let mut time = Timespec {
        seconds: 0,
        nanoseconds: 0,
    };
    // The clock exists, and the time is lent for this call.
    unsafe { clock_gettime(PROCESS_CPU_TIME, &mut time) };
    Duration::new(time.seconds as u64, time.nanoseconds as u32)
}

/// What looking at the clock costs, the middle one of some looks.
fn look() -> Duration {
    static LOOK: OnceLock<Duration> = OnceLock::new();
    *LOOK.get_or_init(|| {
        let mut looks = [Duration::ZERO; 1_001];
        looks.fill_with(|| {
            let begun = now();
            now() - begun
        });
        looks.sort();
        looks[looks.len() / 2]
    })
}

/// The CPU time that something takes.
pub fn time<T>(work: impl FnOnce() -> T) -> (Duration, T) {
    let look = look();
    let begun = now();
    let made = work();
    let spent = now() - begun;
    (spent.saturating_sub(look), made)
}

/// The middle one of some numbers; of an even number of them the upper.
pub fn median(mut numbers: Vec<f64>) -> Option<f64> {
    numbers.sort_by(f64::total_cmp);
    numbers.get(numbers.len() / 2).copied()
}

/// Nanoseconds of one of `count` operations.
pub fn each(time: Duration, count: u64) -> f64 {
    time.as_nanos() as f64 / count as f64
}

/// Shows where a long run stands, on standard error.
pub fn progress(at: usize, of: usize, what: &str) {
    let (begin, end) = if io::stderr().is_terminal() {
        ("\r\x1b[K", "")
    } else {
        ("", "\n")
    };
    eprint!("{begin}{at} of {of}: {what}{end}");
    let _ = io::stderr().flush();
}

/// Ends the progress line.
pub fn progressed() {
    if io::stderr().is_terminal() {
        eprint!("\r\x1b[K");
    }
}

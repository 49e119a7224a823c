//! 4 KiB blocks of malloc: the C library's, or the one that is loaded before it.

use std::env;
use std::ffi::c_void;
use std::hint::black_box;
use std::process::Command;

use crate::engines::Engine;
use crate::timing::{each, median, time};
use crate::workload::{Case, Kind, give, repeat, shuffle, take};

unsafe extern "C" {
    fn malloc(size: usize) -> *mut c_void;
    fn free(block: *mut c_void);
}

/// The hidden command that prints a heap's numbers.
pub const COMMAND: &str = "heap";
/// Huge frames that the heap is measured for: 128 MiB.
pub const N: u64 = 64;
const REPETITIONS: usize = 3;

struct Heap;

impl Engine for Heap {
    #[inline]
    fn get(&mut self, _: u64, _: u64) -> u64 {
        // Any size may be asked for; the block is given back by `put`, once.
        black_box(unsafe { malloc(4096) }) as u64
    }

    #[inline]
    fn put(&mut self, _: u64, frame: u64, _: u64) {
        unsafe { free(frame as *mut c_void) }
    }
}

/// Nanoseconds an operation of 4 KiB blocks in this process.
pub fn measure(kind: Kind) -> Option<f64> {
    let case = Case {
        kind,
        order: 0,
        n: N,
        cpus: 1,
    };
    let pinned = warmed(case);
    let spent = median((0..REPETITIONS).map(|_| once(case)).collect());
    Heap.put(0, pinned, 0);
    spent
}

/// Touches the memory once. The block kept at its end keeps the heap from giving it back to the system.
fn warmed(case: Case) -> u64 {
    let mut frames = vec![0; case.blocks() as usize];
    take(&mut Heap, case, &mut frames);
    let pinned = Heap.get(0, 0);
    give(&mut Heap, case, &frames);
    pinned
}

fn once(case: Case) -> f64 {
    let blocks = case.blocks() as usize;
    match case.kind {
        Kind::Bulk => {
            let mut frames = vec![0; blocks / 2];
            let (spent, ()) = time(|| {
                take(&mut Heap, case, &mut frames);
                give(&mut Heap, case, &frames);
            });
            each(spent, 2 * frames.len() as u64)
        }
        Kind::Random => {
            let mut frames = vec![0; blocks];
            take(&mut Heap, case, &mut frames);
            shuffle(&mut frames);
            let (spent, ()) = time(|| give(&mut Heap, case, &frames));
            each(spent, frames.len() as u64)
        }
        Kind::Repeat => {
            let rounds = 300_000;
            let (spent, ()) = time(|| repeat(&mut Heap, case, rounds));
            each(spent, 2 * rounds)
        }
    }
}

/// Prints the three numbers, for the process that asked.
pub fn print() {
    for kind in [Kind::Bulk, Kind::Random, Kind::Repeat] {
        println!("{}", measure(kind).unwrap_or(0.0));
    }
}

/// Where mimalloc is installed, if it is.
pub fn mimalloc() -> Option<String> {
    let listed = Command::new("ldconfig").arg("-p").output().ok()?;
    let listed = String::from_utf8(listed.stdout).ok()?;
    let line = listed.lines().find(|line| line.contains("libmimalloc"))?;
    Some(String::from(line.split("=> ").nth(1)?.trim()))
}

/// The three numbers with another library loaded before the C library.
pub fn preloaded(library: &str) -> Option<Vec<f64>> {
    let own = env::current_exe().ok()?;
    let mut command = Command::new(own);
    let output = command.arg(COMMAND).env("LD_PRELOAD", library).output();
    let printed = String::from_utf8(output.ok()?.stdout).ok()?;
    printed.lines().map(|line| line.parse().ok()).collect()
}

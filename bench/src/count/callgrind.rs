//! Runs this program under callgrind, and reads the counts.

use std::fs;
use std::io;
use std::path::{Path, PathBuf};
use std::process::{Command, Stdio};

use super::work::{COMMAND, ORDERS, SIZES, TIMES, WAYS, trees};
use crate::engines::Side;
use crate::stages;
use crate::table::Sides;

/// Whether callgrind is installed.
pub fn installed() -> bool {
    Command::new("valgrind").arg("--version").output().is_ok()
}

/// A stage's instructions at a size and tree.
#[derive(Clone, Copy, Debug)]
pub struct Step {
    pub library: f64,
    pub plain: f64,
    pub words: f64,
}

/// A stage: its name, and its instructions at each size in the first and in the last tree.
pub struct Stage {
    pub name: &'static str,
    /// `steps[tree][size]`.
    pub steps: [[Step; 2]; 2],
}

/// A get and a put of one block: the instructions of each side.
pub struct Pair {
    pub order: u64,
    pub n: u64,
    pub sides: Sides,
}

/// All counts.
pub struct Counts {
    pub stages: Vec<Stage>,
    pub pairs: Vec<Pair>,
}

/// Does the work under callgrind and reads its counts.
pub fn counted() -> io::Result<Counts> {
    let folder = std::env::temp_dir().join(format!("bench-count-{}", std::process::id()));
    fs::create_dir(&folder)?;
    let jobs = jobs(&folder.join("out"));
    fs::remove_dir_all(&folder)?;
    Ok(read(&jobs?))
}

/// The stages in any one tree.
fn stages() -> usize {
    stages::all(trees(SIZES[0])[0]).len()
}

fn jobs_of_size() -> usize {
    trees(SIZES[0]).len() * stages() * WAYS + ORDERS.len() * Side::ALL.len()
}

/// The instructions of each job, in their order.
fn jobs(file: &Path) -> io::Result<Vec<f64>> {
    let status = Command::new("valgrind")
        .arg("--tool=callgrind")
        .arg("--dump-before=bench_mark")
        .arg(format!("--callgrind-out-file={}", file.display()))
        .arg(std::env::current_exe()?)
        .arg(COMMAND)
        .stdout(Stdio::null())
        .stderr(Stdio::null())
        .status()?;
    if !status.success() {
        return Err(io::Error::other("callgrind failed"));
    }
    let jobs = SIZES.len() * jobs_of_size();
    (0..jobs).map(|job| of_job(file, job)).collect()
}

/// The instructions of one job: the part of 2 N jobs less that of N. Each job has three marks.
fn of_job(file: &Path, job: usize) -> io::Result<f64> {
    let once = total(file, 3 * job + 2)?;
    let twice = total(file, 3 * job + 3)?;
    Ok((twice - once) / TIMES as f64)
}

/// The counter of a dump.
fn total(file: &Path, part: usize) -> io::Result<f64> {
    let mut path = file.as_os_str().to_owned();
    path.push(format!(".{part}"));
    let text = fs::read_to_string(PathBuf::from(path))?;
    let mut lines = text.lines();
    let total = lines.find_map(|line| line.strip_prefix("summary:"));
    let total = total.and_then(|total| total.trim().parse().ok());
    total.ok_or_else(|| io::Error::other("a dump has no summary"))
}

/// The counts of all jobs.
fn read(jobs: &[f64]) -> Counts {
    let names = stages::all(trees(SIZES[0])[0]);
    let stages = names.iter().enumerate().map(|(at, stage)| Stage {
        name: stage.name,
        steps: [0, 1].map(|tree| [0, 1].map(|size| step(jobs, size, tree, at))),
    });
    let sizes = SIZES.iter().enumerate();
    let pairs = sizes.flat_map(|(size, &n)| pairs(jobs, size, n));
    Counts {
        stages: stages.collect(),
        pairs: pairs.collect(),
    }
}

/// A stage's counts, without the restoring.
fn step(jobs: &[f64], size: usize, tree: usize, stage: usize) -> Step {
    let at = size * jobs_of_size() + (tree * stages() + stage) * WAYS;
    let restoring = jobs[at];
    Step {
        library: jobs[at + 1] - restoring,
        plain: jobs[at + 2] - restoring,
        words: jobs[at + 3] - restoring,
    }
}

/// The gets and puts of a size.
fn pairs(jobs: &[f64], size: usize, n: u64) -> impl Iterator<Item = Pair> {
    let first = size * jobs_of_size() + 2 * stages() * WAYS;
    ORDERS.iter().enumerate().map(move |(at, &order)| {
        let counts = &jobs[first + at * Side::ALL.len()..][..Side::ALL.len()];
        let sides = Sides(counts.iter().copied().map(Some).collect());
        Pair { order, n, sides }
    })
}

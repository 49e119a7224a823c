//! The process that kills, reopens and checks.

use std::fmt;
use std::io::{self, Read};
use std::os::unix::process::ExitStatusExt;
use std::path::PathBuf;
use std::process::{Child, Command, Stdio};
use std::thread;
use std::time::{Duration, Instant};

use super::Shared;
use super::account::{Lost, account};
use super::journal::{Journal, Phase, Reading};
use super::worker::Task;
use super::zone::Zone;
use crate::block::Block;
use crate::check;
use crate::frames::Taken;
use crate::life;
use reference::rng::Rng;

/// The signal of a kill.
const SIGKILL: i32 = 9;

/// How long a worker may take until it begins.
const START: Duration = Duration::from_secs(20);

/// What to do.
#[derive(Clone, Debug)]
pub struct Plan {
    pub shared: Shared,
    pub kills: u64,
    pub seed: u64,
    /// The program that is run as the worker.
    pub program: PathBuf,
}

/// What was done.
#[derive(Clone, Copy, Debug, Default, PartialEq, Eq)]
pub struct Tally {
    pub kills: u64,
    /// Kills that fell into an open.
    pub inside: u64,
    /// Opens after kills, each with its check.
    pub checks: u64,
    pub lost_gets: u64,
    pub lost_puts: u64,
    /// The frames of the lost blocks.
    pub lost_frames: u64,
    /// The most blocks that one kill has lost.
    pub most: u64,
    /// Operations under way at a kill, of which one block each could have been lost.
    pub doubts: u64,
    /// Zones created, the first one and those after too much was lost.
    pub zones: u64,
}

/// Why the rounds ended early.
enum Stop {
    /// What differs.
    Fault(String),
    /// An error of the system, which is no fault.
    System(io::Error),
}

impl From<String> for Stop {
    fn from(what: String) -> Self {
        Stop::Fault(what)
    }
}

impl From<io::Error> for Stop {
    fn from(error: io::Error) -> Self {
        Stop::System(error)
    }
}

/// Kills workers, or those up to the first fault, which is told.
pub fn play(plan: &Plan) -> io::Result<(Tally, Option<String>)> {
    plan.shared.remove();
    let mut zone = plan.shared.zone()?;
    let map = plan.shared.journal()?;
    let mut parent = Parent {
        plan,
        journal: Journal::new(map.cells(), plan.shared.cpus),
        rng: Rng::new(plan.seed, 0),
        tally: Tally::default(),
    };
    let played = parent.all(&mut zone);
    plan.shared.remove();
    match played {
        Ok(()) => Ok((parent.tally, None)),
        Err(Stop::Fault(what)) => Ok((parent.tally, Some(parent.told(&what)))),
        Err(Stop::System(error)) => Err(error),
    }
}

/// The parent's memory.
struct Parent<'a> {
    plan: &'a Plan,
    journal: Journal<'a>,
    rng: Rng,
    tally: Tally,
}

impl Parent<'_> {
    /// All rounds: a worker is killed, at times another one inside its open, and the zone is reopened and checked.
    fn all(&mut self, zone: &mut Zone) -> Result<(), Stop> {
        self.create(zone)?;
        while self.tally.kills < self.plan.kills {
            self.kill(Task::Work)?;
            while self.tally.kills < self.plan.kills && self.rng.percent(20) {
                self.kill(Task::Open)?;
            }
            self.reopen(zone)?;
        }
        Ok(())
    }

    /// Creates the zone anew, with an empty journal.
    fn create(&mut self, zone: &mut Zone) -> Result<(), String> {
        self.tally.zones += 1;
        self.journal.clear();
        life::create(&mut zone.lend(), self.plan.shared.n)
    }

    /// Starts a worker, lets it run for a short time, and kills it.
    fn kill(&mut self, task: Task) -> Result<(), Stop> {
        self.journal.set_phase(Phase::Starting);
        let mut child = self.start(task)?;
        let begun = self.wait_for_start(&mut child);
        let (least, most) = delay(task);
        thread::sleep(Duration::from_micros(self.rng.between(least, most)));
        child.kill()?;
        let status = child.wait()?;
        if begun && status.signal() == Some(SIGKILL) {
            self.tally.kills += 1;
            self.tally.inside += u64::from(self.journal.phase() == Phase::Opening);
            return Ok(());
        }
        let mut said = String::new();
        if let Some(mut stderr) = child.stderr.take() {
            stderr.read_to_string(&mut said)?;
        }
        let said = said.trim();
        Err(Stop::Fault(format!(
            "the worker has not begun, or ended by itself, {status}: {said}"
        )))
    }

    /// Starts a worker.
    fn start(&mut self, task: Task) -> io::Result<Child> {
        let Shared { file, n, cpus } = &self.plan.shared;
        let task = match task {
            Task::Work => "work",
            Task::Open => "open",
        };
        let seed = self.rng.any();
        let numbers = [*n, *cpus, seed].map(|number| number.to_string());
        Command::new(&self.plan.program)
            .arg("worker")
            .arg(task)
            .arg(file)
            .args(numbers)
            .stdin(Stdio::null())
            .stdout(Stdio::null())
            .stderr(Stdio::piped())
            .spawn()
    }

    /// Waits until the worker has begun; false if it does not.
    fn wait_for_start(&self, child: &mut Child) -> bool {
        let began = Instant::now();
        while self.journal.phase() == Phase::Starting {
            let ended = !matches!(child.try_wait(), Ok(None));
            if ended || began.elapsed() > START {
                return false;
            }
            thread::sleep(Duration::from_micros(100));
        }
        true
    }

    /// Opens the zone, checks it against the journal, and notes what is lost. When half of the zone is lost, it is created anew.
    fn reopen(&mut self, zone: &mut Zone) -> Result<(), String> {
        let n = self.plan.shared.n;
        zone.junk(&mut self.rng);
        let mut tables = zone.lend();
        life::open_all(&mut tables)?;
        let reading = self.journal.read()?;
        let (lost, expected) = account(&reading, &Taken::found(&tables))?;
        check::opened(&tables, &expected)?;
        life::settled(&mut tables)?;
        if self.rng.percent(25) {
            life::close(&mut tables)?;
        }
        self.count(&reading, &lost)?;
        let blocks: Vec<_> = lost.blocks().collect();
        let noted = self.journal.settle(&blocks);
        if !noted || frames(&reading.lost) + frames(&blocks) > n * 256 {
            self.create(zone)?;
        }
        Ok(())
    }

    /// Counts what a kill has lost: at most one block for each CPU.
    fn count(&mut self, reading: &Reading, lost: &Lost) -> Result<(), String> {
        let blocks = (lost.gets.len() + lost.puts.len()) as u64;
        if blocks > self.plan.shared.cpus {
            return Err(format!("{blocks} blocks lost, more than CPUs"));
        }
        let tally = &mut self.tally;
        tally.checks += 1;
        tally.doubts += reading.doubts.len() as u64;
        tally.lost_gets += lost.gets.len() as u64;
        tally.lost_puts += lost.puts.len() as u64;
        tally.lost_frames += frames(&lost.gets) + frames(&lost.puts);
        tally.most = tally.most.max(blocks);
        Ok(())
    }

    /// A fault in three lines.
    fn told(&self, what: &str) -> String {
        let Shared { n, cpus, .. } = &self.plan.shared;
        let (seed, kills) = (self.plan.seed, self.tally.kills);
        format!("seed {seed}: {n} huge frames, {cpus} CPUs\n  after kill {kills}\n  {what}")
    }
}

/// The frames of blocks.
fn frames(blocks: &[Block]) -> u64 {
    blocks.iter().map(|block| block.order.frames()).sum()
}

/// After how many microseconds a worker may be killed: one that opens, while it does.
const fn delay(task: Task) -> (u64, u64) {
    match task {
        Task::Work => (500, 20_000),
        Task::Open => (0, 4_000),
    }
}

impl fmt::Display for Tally {
    fn fmt(&self, f: &mut fmt::Formatter<'_>) -> fmt::Result {
        write!(
            f,
            "{} kills, {} of them inside opens; {} checks, {} zones, {} operations under way; blocks lost: {}, {} by gets, {} by puts, at most {} by one kill, {} frames",
            self.kills,
            self.inside,
            self.checks,
            self.zones,
            self.doubts,
            self.lost_gets + self.lost_puts,
            self.lost_gets,
            self.lost_puts,
            self.most,
            self.lost_frames
        )
    }
}

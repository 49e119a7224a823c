//! The command line.

use std::io;
use std::path::PathBuf;
use std::process::ExitCode;

use appliance::cuts;
use appliance::kills::journal::Journal;
use appliance::kills::worker::{Task, Worker};
use appliance::kills::{Shared, parent};
use reference::rng::Rng;

const USAGE: &str = "\
usage:
  appliance cuts [--seed S] [--scripts N] [--cpus C] [--n N] [--steps K]
      plays scripts, and cuts the power after every store of each, and again
      after every store of the opens that follow
  appliance kills [--kills K] [--seed S] [--cpus C] [--n N] [--file PATH]
      kills a process that works on a zone in mapped files, PATH.zone and
      PATH.journal, which are made anew and removed at the end
C is 1 to 64, N 1 to 65,536
";

#[derive(Default)]
struct Options {
    seed: Option<u64>,
    scripts: Option<u64>,
    steps: Option<u64>,
    kills: Option<u64>,
    cpus: Option<u64>,
    n: Option<u64>,
    file: Option<PathBuf>,
}

fn main() -> ExitCode {
    let args: Vec<String> = std::env::args().skip(1).collect();
    let Some((command, rest)) = args.split_first() else {
        return usage("a command is missing");
    };
    let performed = match command.as_str() {
        "cuts" => parse(rest, &["--scripts", "--steps"]).map(|options| Ok(cut(&options))),
        "kills" => parse(rest, &["--kills", "--file"]).map(|options| kill(&options)),
        "worker" => work(rest).map(|worked| worked.map(|()| true)),
        _ => Err(format!("no command {command:?}")),
    };
    match performed {
        Ok(Ok(true)) => ExitCode::SUCCESS,
        Ok(Ok(false)) => ExitCode::FAILURE,
        Ok(Err(error)) => {
            eprintln!("appliance: {error}");
            ExitCode::from(2)
        }
        Err(message) => usage(&message),
    }
}

fn usage(message: &str) -> ExitCode {
    eprint!("appliance: {message}\n{USAGE}");
    ExitCode::from(2)
}

/// Reads the options of a command: those of all commands, and its own.
fn parse(args: &[String], own: &[&str]) -> Result<Options, String> {
    let mut options = Options::default();
    let mut args = args.iter();
    while let Some(name) = args.next() {
        if !["--seed", "--cpus", "--n"].contains(&name.as_str()) && !own.contains(&name.as_str()) {
            return Err(format!("no option {name:?}"));
        }
        let value = args.next().ok_or(format!("{name} has no value"))?;
        let number = match name.as_str() {
            "--seed" => &mut options.seed,
            "--scripts" => &mut options.scripts,
            "--steps" => &mut options.steps,
            "--kills" => &mut options.kills,
            "--cpus" => &mut options.cpus,
            "--n" => &mut options.n,
            _ => {
                options.file = Some(PathBuf::from(value));
                continue;
            }
        };
        *number = Some(number_of(value)?);
    }
    let in_range = options.cpus.is_none_or(|cpus| (1..=64).contains(&cpus))
        && options.n.is_none_or(|n| (1..=65_536).contains(&n));
    in_range
        .then_some(options)
        .ok_or(String::from("a number is out of range"))
}

/// Reads a number.
fn number_of(value: &str) -> Result<u64, String> {
    value
        .parse()
        .map_err(|_| format!("{value:?} is not a number"))
}

/// Plays scripts; true if there is no fault.
fn cut(options: &Options) -> bool {
    let (tally, fault) = cuts::play(&cuts::Plan {
        seed: options.seed.unwrap_or(1),
        scripts: options.scripts.unwrap_or(160),
        cpus: options.cpus,
        n: options.n,
        steps: options.steps.unwrap_or(120),
    });
    if let Some(fault) = &fault {
        println!("{fault}");
    }
    println!("cuts: {tally}; {} faults", u64::from(fault.is_some()));
    fault.is_none()
}

/// Kills workers; true if there is no fault.
fn kill(options: &Options) -> io::Result<bool> {
    let file = match &options.file {
        Some(file) => file.clone(),
        None => std::env::temp_dir().join(format!("appliance-{}", std::process::id())),
    };
    let (tally, fault) = parent::play(&parent::Plan {
        shared: Shared {
            file,
            n: options.n.unwrap_or(65),
            cpus: options.cpus.unwrap_or(4),
        },
        kills: options.kills.unwrap_or(50),
        seed: options.seed.unwrap_or(1),
        program: std::env::current_exe()?,
    })?;
    if let Some(fault) = &fault {
        println!("{fault}");
    }
    println!("kills: {tally}; {} faults", u64::from(fault.is_some()));
    Ok(fault.is_none())
}

/// The hidden command: works on the mapped files until it is killed. It ends only by an answer that must not be.
fn work(args: &[String]) -> Result<io::Result<()>, String> {
    let [task, file, n, cpus, seed] = args else {
        return Err(String::from("no command \"worker\""));
    };
    let task = match task.as_str() {
        "work" => Task::Work,
        _ => Task::Open,
    };
    let shared = Shared {
        file: PathBuf::from(file),
        n: number_of(n)?,
        cpus: number_of(cpus)?,
    };
    Ok(worked(&shared, task, number_of(seed)?))
}

/// A worker's work, in the files that it maps.
fn worked(shared: &Shared, task: Task, seed: u64) -> io::Result<()> {
    let map = shared.journal()?;
    let journal = Journal::new(map.cells(), shared.cpus);
    let rng = Rng::new(seed, 1);
    let mut worker = Worker::new(shared.zone()?, journal, shared.cpus, rng);
    worker.work(task).map_err(io::Error::other)
}

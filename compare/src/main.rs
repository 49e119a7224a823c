//! The command line of the comparison.

use std::io::{self, BufWriter, Write};
use std::process::ExitCode;

use compare::fault::Fault;
use compare::pair::Side;
use compare::player::Stop;
use compare::replay::Replay;
use compare::{lengths, scenes, tried};

const USAGE: &str = "\
usage:
  compare calls [--seed S] [--calls N] [--fault NAME]
      compares N calls, and prints how often each case was reached
  compare tried [--seed S] [--calls N]
      checks that each seeded fault is seen within N calls
  compare replay --cpus C --steps K [--seed S] [--n N] [--fault NAME]
      plays one schedule of C CPUs (1 to 64) on N huge frames (1 to 65,536),
      K single steps (at most 1,000,000,000)
each of them with --side reference
      lets the reference without a fault answer in the library's place
";

#[derive(Default)]
struct Options {
    seed: Option<u64>,
    calls: Option<u64>,
    cpus: Option<u64>,
    steps: Option<u64>,
    n: Option<u64>,
    fault: Option<Fault>,
    side: Side,
}

fn main() -> ExitCode {
    let args: Vec<String> = std::env::args().skip(1).collect();
    let Some((command, rest)) = args.split_first() else {
        return usage("a command is missing");
    };
    let performed = match parse(rest) {
        Ok(options) => perform(command, &options),
        Err(message) => return usage(&message),
    };
    match performed {
        Ok(Ok(true)) => ExitCode::SUCCESS,
        Ok(Ok(false)) => ExitCode::FAILURE,
        Ok(Err(message)) => usage(&message),
        Err(error) => {
            eprintln!("compare: {error}");
            ExitCode::from(2)
        }
    }
}

fn usage(message: &str) -> ExitCode {
    eprint!("compare: {message}\n{USAGE}");
    ExitCode::from(2)
}

fn parse(args: &[String]) -> Result<Options, String> {
    let mut options = Options::default();
    let mut args = args.iter();
    while let Some(name) = args.next() {
        let value = args.next().ok_or(format!("{name} has no value"))?;
        let number = match name.as_str() {
            "--seed" => &mut options.seed,
            "--calls" => &mut options.calls,
            "--cpus" => &mut options.cpus,
            "--steps" => &mut options.steps,
            "--n" => &mut options.n,
            "--fault" => {
                let fault = Fault::named(value);
                options.fault = Some(fault.ok_or(format!("no fault {value:?}"))?);
                continue;
            }
            "--side" => {
                options.side = side_of(value)?;
                continue;
            }
            _ => return Err(format!("no option {name:?}")),
        };
        let parsed = value.parse().ok();
        *number = Some(parsed.ok_or(format!("{value:?} is not a number"))?);
    }
    Ok(options)
}

fn side_of(value: &str) -> Result<Side, String> {
    match value {
        "library" => Ok(Side::Library),
        "reference" => Ok(Side::Reference),
        _ => Err(format!("no side {value:?}")),
    }
}

/// Performs a command: whether it went well, or what is wrong with it.
fn perform(command: &str, options: &Options) -> io::Result<Result<bool, String>> {
    let mut out = BufWriter::new(io::stdout().lock());
    let seed = options.seed.unwrap_or(1);
    let well = match command {
        "calls" => calls(&mut out, seed, options)?,
        "tried" => {
            let calls = options.calls.unwrap_or(300_000);
            tried::all(&mut out, seed, calls, options.side)?
        }
        "replay" => match replay_of(options, seed) {
            Ok(replay) => play(&mut out, replay)?,
            Err(message) => return Ok(Err(message)),
        },
        _ => return Ok(Err(format!("no command {command:?}"))),
    };
    out.flush()?;
    Ok(Ok(well))
}

/// Compares calls; true if none differs and every case was reached.
fn calls(out: &mut impl Write, seed: u64, options: &Options) -> io::Result<bool> {
    writeln!(out, "seed {seed}")?;
    let calls = options.calls.unwrap_or(1_200_000);
    let mut player = scenes::player(seed, options.fault, calls);
    player.pair.side = options.side;
    let stop = scenes::play(&mut player, seed);
    player.cover.print(out)?;
    match lengths::first_difference() {
        None => writeln!(out, "equal lengths for {} sizes", lengths::sizes().count())?,
        Some(difference) => {
            writeln!(out, "{difference}")?;
            return Ok(false);
        }
    }
    if let Stop::Differs(difference) = stop {
        writeln!(out, "call {}, {difference}", difference.number)?;
        return Ok(false);
    }
    let missing = player.cover.missing();
    for name in &missing {
        writeln!(out, "too seldom: {name}")?;
    }
    writeln!(
        out,
        "{} cases of {} reached",
        player.cover.len() - missing.len(),
        player.cover.len()
    )?;
    writeln!(out, "equal after {calls} calls")?;
    Ok(missing.is_empty())
}

fn replay_of(options: &Options, seed: u64) -> Result<Replay, String> {
    let replay = Replay {
        seed,
        cpus: options.cpus.ok_or("--cpus is missing")?,
        steps: options.steps.ok_or("--steps is missing")?,
        n: options.n,
        fault: options.fault,
        side: options.side,
    };
    if replay.in_range() {
        Ok(replay)
    } else {
        Err(String::from("a number is out of range"))
    }
}

fn play(out: &mut impl Write, replay: Replay) -> io::Result<bool> {
    match replay.play() {
        Stop::Enough => {
            writeln!(out, "equal after {} steps", replay.steps)?;
            Ok(true)
        }
        Stop::Differs(difference) => {
            writeln!(out, "step {}, {difference}", difference.number)?;
            Ok(false)
        }
    }
}

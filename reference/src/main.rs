//! The command line of the reference.

use std::io::{self, BufWriter, Write};
use std::process::ExitCode;

use reference::compare::{Comparison, Program};
use reference::fault::Fault;
use reference::script::Scripts;
use reference::session;

const USAGE: &str = "\
usage:
  reference run [--fault NAME]
      reads a script from standard input and prints its output
  reference faults
      lists the names of the faults that scripts show
  reference compare --program PATH [--arg ARG].. [--scripts N] [--requests M]
                    [--seed S] [--fault NAME]
      compares a program's output with the model's
  reference tried --program PATH [--arg ARG].. [--scripts N] [--requests M]
                  [--seed S]
      compares, and then checks that every such fault shows a difference
  reference script --number K [--requests M] [--seed S]
      prints a generated script
";

struct Options {
    program: Program,
    scripts: Scripts,
    count: u64,
    number: u64,
    fault: Option<Fault>,
}

fn main() -> ExitCode {
    let args: Vec<String> = std::env::args().skip(1).collect();
    let Some((command, rest)) = args.split_first() else {
        return usage("a command is missing");
    };
    let options = match parse(rest) {
        Ok(options) => options,
        Err(message) => return usage(&message),
    };
    if matches!(command.as_str(), "compare" | "tried") && options.program.path.is_empty() {
        return usage("--program is missing");
    }
    match perform(command, options) {
        Ok(Some(true)) => ExitCode::SUCCESS,
        Ok(Some(false)) => ExitCode::FAILURE,
        Ok(None) => usage(&format!("no command {command:?}")),
        Err(error) => {
            eprintln!("reference: {error}");
            ExitCode::from(2)
        }
    }
}

fn usage(message: &str) -> ExitCode {
    eprint!("reference: {message}\n{USAGE}");
    ExitCode::from(2)
}

/// Performs a command: whether it went well, or none if it is unknown.
fn perform(command: &str, options: Options) -> io::Result<Option<bool>> {
    let mut out = BufWriter::new(io::stdout().lock());
    let comparison = Comparison {
        program: options.program,
        scripts: options.scripts,
        count: options.count,
    };
    let well = match command {
        "run" => {
            session::run(io::stdin().lock(), &mut out, options.fault)?;
            true
        }
        "faults" => {
            for fault in Fault::in_scripts() {
                writeln!(out, "{}", fault.name())?;
            }
            true
        }
        "script" => {
            out.write_all(&options.scripts.script(options.number))?;
            true
        }
        "compare" => {
            print_seed(&mut out, options.scripts.seed)?;
            comparison.compare(&mut out, options.fault)? == 0
        }
        "tried" => {
            print_seed(&mut out, options.scripts.seed)?;
            comparison.try_faults(&mut out)?
        }
        _ => return Ok(None),
    };
    out.flush()?;
    Ok(Some(well))
}

fn print_seed(out: &mut impl Write, seed: u64) -> io::Result<()> {
    writeln!(out, "seed {seed}")?;
    out.flush()
}

fn parse(args: &[String]) -> Result<Options, String> {
    let mut options = Options {
        program: Program {
            path: String::new(),
            args: Vec::new(),
        },
        scripts: Scripts {
            seed: 1,
            requests: 500,
        },
        count: 1_000,
        number: 0,
        fault: None,
    };
    let mut args = args.iter();
    while let Some(name) = args.next() {
        let value = args.next().ok_or(format!("{name} has no value"))?;
        match name.as_str() {
            "--program" => options.program.path = value.clone(),
            "--arg" => options.program.args.push(value.clone()),
            "--scripts" => options.count = number(value)?,
            "--requests" => options.scripts.requests = number(value)? as usize,
            "--seed" => options.scripts.seed = number(value)?,
            "--number" => options.number = number(value)?,
            "--fault" => options.fault = Some(fault(value)?),
            _ => return Err(format!("no option {name:?}")),
        }
    }
    Ok(options)
}

fn number(value: &str) -> Result<u64, String> {
    value
        .parse()
        .map_err(|_| format!("{value:?} is not a number"))
}

fn fault(value: &str) -> Result<Fault, String> {
    Fault::named(value).ok_or(format!("no fault {value:?}"))
}

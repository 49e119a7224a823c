//! The command line of the benchmarks.

use std::fs;
use std::io::{self, BufWriter, Write};
use std::process::ExitCode;

use bench::{chart, count, heap, open, run, sizes, verdict};

const USAGE: &str = "\
usage:
  bench [all] [--quick] [--plot FILE] [--strict]
      everything that follows in one run, a chart (bench.svg), and what the
      figures show
  bench run [--quick]
      bulk, random and repeat: nanoseconds an operation
  bench open
      create, and open after a cut and after a close, at 65,536 huge frames
  bench count [--strict]
      instructions of each stage and of a get and put, by callgrind
  bench memory
      bytes that the tables take
  bench plot FILE [RESULT]
      a chart of `bench run`: of its output in RESULT, or of a quick run
--strict: status 1 also where a get and put run to their end take too many
instructions
";

fn main() -> ExitCode {
    let args: Vec<String> = std::env::args().skip(1).collect();
    let args: Vec<&str> = args.iter().map(String::as_str).collect();
    match perform(&args) {
        Ok(true) => ExitCode::SUCCESS,
        Ok(false) => ExitCode::FAILURE,
        Err(Stop::Usage) => {
            eprint!("{USAGE}");
            ExitCode::from(2)
        }
        Err(Stop::Io(error)) => {
            eprintln!("bench: {error}");
            ExitCode::from(2)
        }
    }
}

/// Why nothing was measured.
enum Stop {
    Usage,
    Io(io::Error),
}

impl From<io::Error> for Stop {
    fn from(error: io::Error) -> Self {
        Stop::Io(error)
    }
}

/// What the options say.
struct Options<'a> {
    quick: bool,
    strict: bool,
    plot: &'a str,
}

impl<'a> Options<'a> {
    /// Reads options, of which a command knows some.
    fn read(args: &[&'a str], known: &[&str]) -> Result<Self, Stop> {
        let mut options = Options {
            quick: false,
            strict: false,
            plot: "bench.svg",
        };
        let mut args = args.iter();
        while let Some(&option) = args.next() {
            if !known.contains(&option) {
                return Err(Stop::Usage);
            }
            match option {
                "--quick" => options.quick = true,
                "--strict" => options.strict = true,
                _ => options.plot = args.next().ok_or(Stop::Usage)?,
            }
        }
        Ok(options)
    }
}

/// Performs a command; false if something is not as it should be.
fn perform(args: &[&str]) -> Result<bool, Stop> {
    let (command, rest) = match *args {
        [command, ref rest @ ..] if !command.starts_with("--") => (command, rest),
        _ => ("all", args),
    };
    let read = |known: &[&str]| Options::read(rest, known);
    let out = &mut BufWriter::new(io::stdout().lock());
    let well = match command {
        "all" => all(out, &read(&["--quick", "--plot", "--strict"])?)?,
        "run" => times(out, read(&["--quick"])?.quick)?,
        "open" => {
            read(&[])?;
            opens(out)?
        }
        "count" => counts(out, read(&["--strict"])?.strict)?,
        "memory" => {
            read(&[])?;
            memory(out)?
        }
        "plot" => plot(rest)?,
        heap::COMMAND => {
            heap::print();
            true
        }
        count::work::COMMAND => {
            count::work::work();
            true
        }
        _ => return Err(Stop::Usage),
    };
    out.flush()?;
    Ok(well)
}

/// The command `run`.
fn times(out: &mut impl Write, quick: bool) -> io::Result<bool> {
    let measured = run::measured(quick);
    run::print(out, &measured)?;
    verdict::print(out, &run::verdicts(&measured))
}

/// The command `open`.
fn opens(out: &mut impl Write) -> io::Result<bool> {
    let measured = open::measured();
    open::print(out, &measured)?;
    verdict::print(out, &open::verdicts(&measured))
}

/// The command `count`, which tells of the sizes too.
fn counts(out: &mut impl Write, strict: bool) -> io::Result<bool> {
    let counts = count::counted()?;
    count::print(out, counts.as_ref())?;
    let mut verdicts = count::verdicts(counts.as_ref(), strict);
    verdicts.push(sizes::verdict(&sizes::checked()));
    verdict::print(out, &verdicts)
}

/// The command `memory`.
fn memory(out: &mut impl Write) -> io::Result<bool> {
    let checked = sizes::checked();
    sizes::print(out, &checked)?;
    verdict::print(out, &[sizes::verdict(&checked)])
}

/// The command `plot`.
fn plot(args: &[&str]) -> Result<bool, Stop> {
    match *args {
        [file] => Ok(chart::draw(file, &printed(&run::measured(true))?)?),
        [file, result] => Ok(chart::draw(file, &fs::read_to_string(result)?)?),
        _ => Err(Stop::Usage),
    }
}

/// The tables of `run` as text.
fn printed(measured: &run::Measured) -> io::Result<String> {
    let mut text = Vec::new();
    run::print(&mut text, measured)?;
    Ok(String::from_utf8_lossy(&text).into_owned())
}

/// The command `all`: every table, the chart, and what the figures show.
fn all(out: &mut impl Write, options: &Options<'_>) -> io::Result<bool> {
    heading(out, "Gets and puts: time")?;
    let times = run::measured(options.quick);
    let text = printed(&times)?;
    write!(out, "{text}")?;
    heading(out, "Create and open: time")?;
    let opens = open::measured();
    open::print(out, &opens)?;
    heading(out, "Instructions")?;
    let counts = count::counted()?;
    count::print(out, counts.as_ref())?;
    heading(out, "Memory")?;
    let checked = sizes::checked();
    sizes::print(out, &checked)?;
    let drawn = chart::draw(options.plot, &text)?;
    eprintln!("chart: {}", options.plot);
    heading(out, "What the figures show")?;
    let mut verdicts = count::verdicts(counts.as_ref(), options.strict);
    verdicts.extend(run::verdicts(&times));
    verdicts.extend(open::verdicts(&opens));
    verdicts.push(sizes::verdict(&checked));
    Ok(verdict::print(out, &verdicts)? && drawn)
}

/// A heading, with what was printed before it shown.
fn heading(out: &mut impl Write, text: &str) -> io::Result<()> {
    writeln!(out, "\n## {text}\n")?;
    out.flush()
}

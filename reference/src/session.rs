//! Sessions of requests, each run to its end.

use std::io::{self, BufRead, Write};

use crate::answer::{Answer, Refusal};
use crate::fault::Fault;
use crate::get::{Get, Stage};
use crate::operation::Operation;
use crate::zone::Zone;

const MAX_HUGE_FRAMES: u64 = 256;
const MAX_CPUS: u64 = 8;

#[derive(Clone, Copy, Debug, PartialEq, Eq)]
pub enum Request {
    Get { cpu: u64, order: u64 },
    Put { cpu: u64, frame: u64, order: u64 },
}

/// What is printed for a request.
#[derive(Clone, Copy, Debug, PartialEq, Eq)]
pub struct Reply {
    pub number: u8,
    pub frame: u64,
    pub steps: u64,
}

/// A freshly created zone that answers requests.
#[derive(Clone, Debug)]
pub struct Session {
    pub zone: Zone,
}

impl Session {
    /// A session of `n` huge frames, or none for numbers out of range.
    pub fn new(n: u64, cpus: u64, fault: Option<Fault>) -> Option<Self> {
        let in_range = (1..=MAX_HUGE_FRAMES).contains(&n) && (1..=MAX_CPUS).contains(&cpus);
        in_range.then(|| Session {
            zone: created(n, cpus, fault),
        })
    }

    /// Runs a request to its end.
    pub fn ask(&mut self, request: Request) -> Reply {
        let mut steps = 0;
        let mut answer = match request {
            Request::Get { cpu, order } => self.zone.begin_get(cpu, order),
            Request::Put { cpu, frame, order } => self.zone.begin_put(cpu, frame, order),
        };
        while let Answer::UnderWay(operation) = answer {
            answer = self.zone.step(operation);
            steps += self.counted(operation, answer);
        }
        Reply {
            number: answer.number(),
            frame: answer.frame(),
            steps,
        }
    }

    /// How often a step counts: once, but for a fault.
    fn counted(&self, operation: Operation, answer: Answer<Operation>) -> u64 {
        match self.zone.fault {
            None => 1,
            Some(Fault::NoRoomStepTwice) if answer == Answer::Refused(Refusal::NoRoom) => 2,
            Some(Fault::RefusedStepFree) if answer == Answer::Refused(Refusal::NotTaken) => 0,
            Some(Fault::ReleaseStepTwice) if releases(operation) => 2,
            Some(_) => 1,
        }
    }
}

fn releases(operation: Operation) -> bool {
    let Operation::Get(Get { stage, .. }) = operation else {
        return false;
    };
    matches!(stage, Stage::ReleaseTree { .. })
}

fn created(n: u64, cpus: u64, fault: Option<Fault>) -> Zone {
    let mut zone = Zone::blank(n as usize, cpus as usize);
    zone.fault = fault;
    let mut answer = zone.create_first(n);
    while let Answer::UnderWay(record) = answer {
        answer = zone.create_next(n, record);
    }
    zone
}

/// Runs the requests of `input`; a line of any other form ends the run.
pub fn run(
    mut input: impl BufRead,
    mut output: impl Write,
    fault: Option<Fault>,
) -> io::Result<()> {
    let mut line = Vec::new();
    if !read_line(&mut input, &mut line)? {
        return Ok(());
    }
    let Some(mut session) = parse_first(&line).and_then(|(n, cpus)| Session::new(n, cpus, fault))
    else {
        return Ok(());
    };
    output.write_all(&line)?;
    output.write_all(b"\n")?;
    while read_line(&mut input, &mut line)? {
        let Some(request) = parse_request(&line) else {
            break;
        };
        let Reply {
            number,
            frame,
            steps,
        } = session.ask(request);
        writeln!(output, "{number} {frame} {steps}")?;
    }
    output.flush()
}

/// The output for a whole script.
pub fn output_of(script: &[u8], fault: Option<Fault>) -> Vec<u8> {
    let mut output = Vec::new();
    run(script, &mut output, fault).expect("slices and vectors do not fail");
    output
}

/// Reads a line without its newline; false at the end of the input.
fn read_line(input: &mut impl BufRead, line: &mut Vec<u8>) -> io::Result<bool> {
    line.clear();
    let read = input.read_until(b'\n', line)?;
    if line.last() == Some(&b'\n') {
        line.pop();
    }
    Ok(read > 0)
}

/// `z n cpus`.
fn parse_first(line: &[u8]) -> Option<(u64, u64)> {
    let (b"z", [n, cpus, ..], 2) = parse_fields(line)? else {
        return None;
    };
    Some((n, cpus))
}

/// `g cpu order` or `p cpu frame order`.
pub fn parse_request(line: &[u8]) -> Option<Request> {
    match parse_fields(line)? {
        (b"g", [cpu, order, _], 2) => Some(Request::Get { cpu, order }),
        (b"p", [cpu, frame, order], 3) => Some(Request::Put { cpu, frame, order }),
        _ => None,
    }
}

/// A word and at most three numbers, one space before each; how many too.
fn parse_fields(line: &[u8]) -> Option<(&[u8], [u64; 3], usize)> {
    let mut fields = line.split(|&byte| byte == b' ');
    let word = fields.next()?;
    let mut numbers = [0; 3];
    let mut count = 0;
    for field in fields {
        *numbers.get_mut(count)? = parse_number(field)?;
        count += 1;
    }
    Some((word, numbers, count))
}

/// A run of decimal digits; past 64 bits it counts as the largest number.
fn parse_number(digits: &[u8]) -> Option<u64> {
    let all_digits = !digits.is_empty() && digits.iter().all(u8::is_ascii_digit);
    all_digits.then(|| {
        digits.iter().fold(0, |number: u64, digit| {
            number
                .checked_mul(10)
                .and_then(|number| number.checked_add(u64::from(digit - b'0')))
                .unwrap_or(u64::MAX)
        })
    })
}

//! The calls of the interface, and what they answer.

use std::fmt;

/// A call with its numbers.
#[derive(Clone, Copy, Debug, PartialEq, Eq)]
pub enum Call {
    Create {
        n: u64,
    },
    CreateStep {
        n: u64,
    },
    CreateRun {
        n: u64,
        fuel: u64,
    },
    Open,
    OpenStep,
    OpenRun {
        fuel: u64,
    },
    Close,
    Settled,
    Get {
        cpu: u64,
        order: u64,
    },
    Put {
        cpu: u64,
        frame: u64,
        order: u64,
    },
    Step,
    Run {
        fuel: u64,
    },
    GetRun {
        cpu: u64,
        order: u64,
        fuel: u64,
    },
    PutRun {
        cpu: u64,
        frame: u64,
        order: u64,
        fuel: u64,
    },
}

impl Call {
    pub fn name(&self) -> &'static str {
        match self {
            Call::Create { .. } => "create",
            Call::CreateStep { .. } => "create_step",
            Call::CreateRun { .. } => "create_run",
            Call::Open => "open",
            Call::OpenStep => "open_step",
            Call::OpenRun { .. } => "open_run",
            Call::Close => "close",
            Call::Settled => "settled",
            Call::Get { .. } => "get",
            Call::Put { .. } => "put",
            Call::Step => "step",
            Call::Run { .. } => "run",
            Call::GetRun { .. } => "get_run",
            Call::PutRun { .. } => "put_run",
        }
    }

    /// Whether the call is lent a record.
    pub fn has_record(&self) -> bool {
        !matches!(self, Call::Close | Call::Settled)
    }

    /// The fuel of a run.
    pub fn fuel(&self) -> Option<u64> {
        match *self {
            Call::CreateRun { fuel, .. }
            | Call::OpenRun { fuel }
            | Call::Run { fuel }
            | Call::GetRun { fuel, .. }
            | Call::PutRun { fuel, .. } => Some(fuel),
            _ => None,
        }
    }

    /// The get or put that the call begins.
    pub fn beginning(&self) -> Option<Call> {
        match *self {
            Call::Get { .. } | Call::Put { .. } => Some(*self),
            Call::GetRun { cpu, order, .. } => Some(Call::Get { cpu, order }),
            Call::PutRun {
                cpu, frame, order, ..
            } => Some(Call::Put { cpu, frame, order }),
            _ => None,
        }
    }

    /// The same get or put, begun and run in one call; any other call is left as it is.
    pub fn in_one(self, fuel: u64) -> Call {
        match self {
            Call::Get { cpu, order } => Call::GetRun { cpu, order, fuel },
            Call::Put { cpu, frame, order } => Call::PutRun {
                cpu,
                frame,
                order,
                fuel,
            },
            other => other,
        }
    }

    /// Whether the call begins a get or put and runs it.
    pub fn is_one(&self) -> bool {
        matches!(self, Call::GetRun { .. } | Call::PutRun { .. })
    }
}

impl fmt::Display for Call {
    fn fmt(&self, out: &mut fmt::Formatter) -> fmt::Result {
        write!(out, "{}", self.name())?;
        match *self {
            Call::Create { n } | Call::CreateStep { n } => write!(out, "(n {n})"),
            Call::CreateRun { n, fuel } => write!(out, "(n {n}, fuel {fuel})"),
            Call::OpenRun { fuel } | Call::Run { fuel } => write!(out, "(fuel {fuel})"),
            Call::Get { cpu, order } => write!(out, "(cpu {cpu}, order {order})"),
            Call::Put { cpu, frame, order } => {
                write!(out, "(cpu {cpu}, frame {frame}, order {order})")
            }
            Call::GetRun { cpu, order, fuel } => {
                write!(out, "(cpu {cpu}, order {order}, fuel {fuel})")
            }
            Call::PutRun {
                cpu,
                frame,
                order,
                fuel,
            } => {
                write!(
                    out,
                    "(cpu {cpu}, frame {frame}, order {order}, fuel {fuel})"
                )
            }
            _ => Ok(()),
        }
    }
}

/// What a call answers; steps are those of a run.
#[derive(Clone, Copy, Debug, PartialEq, Eq)]
pub struct Outcome {
    pub number: u64,
    pub frame: u64,
    pub steps: Option<u64>,
}

//! Seeded faults: those of the reference, and those of many steps in one call, which the reference has not.

use reference::fault::Fault as Rule;

/// Declares the faults of many steps in one call, their names and what each of them does.
macro_rules! faults {
    ($($fault:ident $name:literal $what:literal,)*) => {
        #[derive(Clone, Copy, Debug, PartialEq, Eq)]
        pub enum InRuns {
            $(#[doc = $what] $fault,)*
        }

        impl InRuns {
            pub const ALL: &'static [InRuns] = &[$(InRuns::$fault,)*];

            pub fn name(self) -> &'static str {
                match self {
                    $(InRuns::$fault => $name,)*
                }
            }
        }
    };
}

faults! {
    BeginCounted "begin_counted" "The beginning counts as a step.",
    BeginTakesFuel "begin_takes_fuel" "The beginning uses up one of the steps allowed.",
    RecordLost "record_lost" "Out of steps, no record is handed back.",
    RecordOfBegin "record_of_begin" "Out of steps, the beginning's record is handed back.",
    RefusedKeepsRecord "refused_keeps_record" "A refused beginning leaves the record as it was lent.",
    RefusedRuns "refused_runs" "After a refused beginning the record that was lent is run.",
    NoFuelNoStep "no_fuel_no_step" "A run with fuel 0 makes no step.",
}

/// A fault of the reference's side.
#[derive(Clone, Copy, Debug, PartialEq, Eq)]
pub enum Fault {
    Rule(Rule),
    InRuns(InRuns),
}

impl Fault {
    /// The faults that single calls show.
    pub fn all() -> impl Iterator<Item = Fault> {
        let own = InRuns::ALL.iter().copied().map(Fault::InRuns);
        Rule::in_calls().map(Fault::Rule).chain(own)
    }

    pub fn name(self) -> &'static str {
        match self {
            Fault::Rule(rule) => rule.name(),
            Fault::InRuns(own) => own.name(),
        }
    }

    /// The fault of a name.
    pub fn named(name: &str) -> Option<Fault> {
        let own = InRuns::ALL.iter().copied();
        let mut own = own.filter(|fault| fault.name() == name);
        let rule = Rule::named(name).map(Fault::Rule);
        rule.or_else(|| own.next().map(Fault::InRuns))
    }

    /// The fault for the reference's zone, if it is one of the reference.
    pub fn rule(self) -> Option<Rule> {
        match self {
            Fault::Rule(rule) => Some(rule),
            Fault::InRuns(_) => None,
        }
    }

    /// The fault for many steps in one call, if it is one of these.
    pub fn in_runs(self) -> Option<InRuns> {
        match self {
            Fault::Rule(_) => None,
            Fault::InRuns(own) => Some(own),
        }
    }
}

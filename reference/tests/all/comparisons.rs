//! Generated scripts and comparisons with programs.

use std::collections::BTreeSet;

use reference::compare::{Comparison, Program};
use reference::fault::Fault;
use reference::script::Scripts;
use reference::session::output_of;

const SCRIPTS: Scripts = Scripts {
    seed: 1,
    requests: 500,
};

/// A comparison with this package's own program.
fn comparison(args: &[&str], requests: usize) -> Comparison {
    Comparison {
        program: Program {
            path: env!("CARGO_BIN_EXE_reference").to_string(),
            args: args.iter().map(|arg| arg.to_string()).collect(),
        },
        scripts: Scripts {
            requests,
            ..SCRIPTS
        },
        count: 16,
    }
}

#[test]
fn scripts_have_all_sizes() {
    let short = Scripts {
        requests: 1,
        ..SCRIPTS
    };
    let (mut sizes, mut cpus) = (BTreeSet::new(), BTreeSet::new());
    for number in (0..352).filter(|number| number % 4 != 3) {
        let script = String::from_utf8(short.script(number)).unwrap();
        let first: Vec<&str> = script.lines().next().unwrap().split(' ').collect();
        sizes.insert(first[1].parse::<u64>().unwrap());
        cpus.insert(first[2].parse::<u64>().unwrap());
    }
    assert!(sizes.into_iter().eq(1..=256));
    assert!(cpus.into_iter().eq(1..=8));
}

#[test]
fn scripts_have_their_length() {
    for number in [0, 1, 2, 4] {
        let script = SCRIPTS.script(number);
        let lines = script.iter().filter(|&&byte| byte == b'\n').count();
        assert_eq!(lines, 1 + SCRIPTS.requests);
        assert_eq!(script, SCRIPTS.script(number));
    }
}

#[test]
fn every_fault_shows() {
    let scripts: Vec<_> = (0..64)
        .map(|number| SCRIPTS.script(number))
        .map(|script| (output_of(&script, None), script))
        .collect();
    for fault in Fault::in_scripts() {
        let seen = scripts
            .iter()
            .any(|(output, script)| *output != output_of(script, Some(fault)));
        assert!(seen, "{}", fault.name());
    }
}

#[test]
fn equal_programs_do_not_differ() {
    let mut printed = Vec::new();
    let differences = comparison(&["run"], 100).compare(&mut printed, None);
    assert_eq!(differences.unwrap(), 0);
    let printed = String::from_utf8(printed).unwrap();
    assert_eq!(
        printed,
        "compared 16 scripts of 100 requests, seed 1, 0 differences\n"
    );
}

#[test]
fn faulty_programs_differ() {
    let mut printed = Vec::new();
    let faulty = comparison(&["run", "--fault", "highest_bit"], 100);
    assert!(faulty.compare(&mut printed, None).unwrap() > 0);
    assert!(!faulty.try_faults(&mut printed).unwrap());
    let same = faulty.compare(&mut printed, Some(Fault::HighestBit));
    assert_eq!(same.unwrap(), 0);
}

/// Scripts longer than a pipe holds.
#[test]
fn long_scripts_do_not_block() {
    let long = Comparison {
        count: 1,
        ..comparison(&["run"], 30_000)
    };
    assert_eq!(long.compare(&mut Vec::new(), None).unwrap(), 0);
}

#[test]
fn fault_names_are_distinct() {
    let names: BTreeSet<_> = Fault::ALL.iter().map(|fault| fault.name()).collect();
    assert_eq!(names.len(), Fault::ALL.len());
    for &fault in Fault::ALL {
        assert_eq!(Fault::named(fault.name()), Some(fault));
    }
}

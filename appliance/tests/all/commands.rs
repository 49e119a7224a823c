//! Both commands, by their output and exit status.

use std::path::PathBuf;
use std::process::{Command, Output};

use appliance::kills::Shared;
use appliance::kills::parent::{Plan, play};

fn appliance(args: &[&str]) -> Output {
    Command::new(env!("CARGO_BIN_EXE_appliance"))
        .args(args)
        .output()
        .unwrap()
}

fn well(args: &[&str]) -> String {
    let output = appliance(args);
    assert!(output.status.success(), "{output:?}");
    String::from_utf8(output.stdout).unwrap()
}

#[test]
fn scripts_of_every_size_and_fill_state() {
    let said = well(&["cuts", "--scripts", "16", "--steps", "20"]);
    assert!(said.starts_with("cuts: 16 scripts, "), "{said}");
    assert!(said.ends_with("; 0 faults\n"), "{said}");
    assert_eq!(said, well(&["cuts", "--scripts", "16", "--steps", "20"]));
    assert_ne!(
        said,
        well(&["cuts", "--scripts", "16", "--steps", "20", "--seed", "2"])
    );
}

#[test]
fn a_few_kills() {
    let said = well(&["kills", "--kills", "6", "--n", "2", "--cpus", "3"]);
    assert!(said.starts_with("kills: 6 kills, "), "{said}");
    assert!(said.ends_with("; 0 faults\n"), "{said}");
}

#[test]
fn files_are_removed_at_the_end() {
    let name = format!("appliance-test-{}.a", std::process::id());
    let file = std::env::temp_dir().join(&name);
    well(&["kills", "--kills", "2", "--file", file.to_str().unwrap()]);
    for entry in std::fs::read_dir(std::env::temp_dir()).unwrap() {
        let found = entry.unwrap().file_name();
        assert!(!found.to_string_lossy().starts_with(&name));
    }
}

#[test]
fn a_worker_that_ends_by_itself_is_a_fault() {
    let name = format!("appliance-ended-{}", std::process::id());
    let plan = Plan {
        shared: Shared {
            file: std::env::temp_dir().join(name),
            n: 1,
            cpus: 1,
        },
        kills: 3,
        seed: 1,
        program: PathBuf::from("true"),
    };
    let (tally, fault) = play(&plan).unwrap();
    let fault = fault.unwrap();
    assert_eq!(tally.kills, 0);
    assert_eq!(fault.lines().count(), 3);
    assert!(fault.contains("ended by itself"), "{fault}");
}

#[test]
fn bad_arguments_end_with_status_2() {
    for args in [
        &[][..],
        &["cut"],
        &["worker"],
        &["cuts", "--seed"],
        &["cuts", "--kills", "1"],
        &["kills", "--cpus", "65"],
        &["kills", "--n", "0"],
        &["cuts", "--n", "x"],
    ] {
        let output = appliance(args);
        assert_eq!(output.status.code(), Some(2), "{args:?}");
        assert!(String::from_utf8(output.stderr).unwrap().contains("usage:"));
    }
}

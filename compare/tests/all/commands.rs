//! The command line: it ends well for any arguments.

use std::process::Command;

/// The exit status, what was printed, and the errors.
fn run(args: &[&str]) -> (i32, String, String) {
    let output = Command::new(env!("CARGO_BIN_EXE_compare"))
        .args(args)
        .output()
        .unwrap();
    let text = |bytes| String::from_utf8(bytes).unwrap();
    let status = output.status.code().expect("an exit status");
    (status, text(output.stdout), text(output.stderr))
}

#[test]
fn replays_end_equal() {
    for args in [
        &["--cpus", "1", "--steps", "3000", "--n", "1"][..],
        &["--cpus", "64", "--steps", "3000"],
        &[
            "--cpus", "5", "--steps", "3000", "--n", "97", "--seed", "12",
        ],
        &["--cpus", "2", "--steps", "3000", "--n", "1030"],
        &["--cpus", "64", "--steps", "30", "--n", "65536"],
        &["--cpus", "1", "--steps", "0"],
    ] {
        let (status, printed, _) = run(&[&["replay"], args].concat());
        assert_eq!(status, 0);
        assert_eq!(printed, format!("equal after {} steps\n", args[3]));
    }
}

#[test]
fn bad_arguments_print_the_usage() {
    for args in [
        &[][..],
        &["other"],
        &["replay"],
        &["replay", "--cpus", "2"],
        &["replay", "--steps", "2"],
        &["replay", "--cpus", "0", "--steps", "2"],
        &["replay", "--cpus", "65", "--steps", "2"],
        &["replay", "--cpus", "1", "--steps", "2", "--n", "0"],
        &["replay", "--cpus", "1", "--steps", "2", "--n", "65537"],
        &["replay", "--cpus", "1", "--steps", "1000000001"],
        &["replay", "--cpus", "1", "--steps", "x"],
        &["replay", "--cpus", "-1", "--steps", "1"],
        &["replay", "--cpus", "18446744073709551616", "--steps", "1"],
        &["replay", "--cpus"],
        &["replay", "--cpu", "1"],
        &["replay", "--cpus", "1", "--steps", "1", "--fault", "none"],
        &["calls", "--calls", ""],
        &["calls", "--calls", "1", "--side", "both"],
    ] {
        let (status, printed, errors) = run(args);
        assert_eq!((status, &printed[..]), (2, ""), "{args:?}");
        assert!(errors.contains("usage:"), "{args:?}");
    }
}

#[test]
fn a_replay_names_its_first_difference() {
    let args = "replay --cpus 2 --steps 5000 --n 40 --fault highest_bit";
    let (status, printed, _) = run(&args.split(' ').collect::<Vec<_>>());
    assert_eq!(status, 1);
    assert!(printed.starts_with("step "), "{printed}");
    assert!(printed.contains("library"), "{printed}");
}

#[test]
fn a_replay_of_the_reference_alone() {
    let args = "replay --cpus 3 --steps 3000 --side reference";
    let (status, printed, _) = run(&args.split(' ').collect::<Vec<_>>());
    assert_eq!((status, &printed[..]), (0, "equal after 3000 steps\n"));
}

#[test]
fn too_few_calls_leave_cases_out() {
    let (status, printed, _) = run(&["calls", "--calls", "1000"]);
    assert_eq!(status, 1);
    assert!(printed.contains("too seldom: "));
    assert!(printed.ends_with("equal after 1000 calls\n"));
}

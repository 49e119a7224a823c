//! Sessions as they are worked by hand, and the forms of their lines.

use reference::session::output_of;

fn output(script: &str) -> String {
    String::from_utf8(output_of(script.as_bytes(), None)).unwrap()
}

const TABLE: [(&str, &str); 9] = [
    ("z 65 2", "z 65 2"),
    ("g 0 0", "0 0 9"),
    ("g 1 0", "0 16384 10"),
    ("g 0 9", "0 512 4"),
    ("p 1 0 0", "0 0 4"),
    ("p 1 0 0", "6 0 1"),
    ("g 2 0", "7 0 0"),
    ("p 0 33280 0", "4 0 0"),
    ("p 0 1 9", "5 0 0"),
];

#[test]
fn worked_table() {
    let input: String = TABLE.iter().map(|(line, _)| format!("{line}\n")).collect();
    let printed: String = TABLE.iter().map(|(_, line)| format!("{line}\n")).collect();
    assert_eq!(output(&input), printed);
    assert_eq!(
        output(input.trim_end()),
        printed,
        "without the last newline"
    );
}

#[test]
fn one_huge_frame_frame_by_frame() {
    let mut input = String::from("z 1 1\n");
    input.push_str(&"g 0 0\n".repeat(513));
    input.push_str("p 0 7 0\ng 0 0\n");
    let printed = output(&input);
    let answers: Vec<&str> = printed.lines().skip(1).collect();
    for (frame, answer) in answers[..512].iter().enumerate() {
        assert!(answer.starts_with(&format!("0 {frame} ")), "{answer}");
    }
    // Look, take, fill, two of the release, three passes, No room.
    assert_eq!(answers[512], "2 0 9");
    // The entry is absent: clear, raise, look, tree.
    assert_eq!(answers[513], "0 7 4");
    // Look, three passes, write, child, word, keep.
    assert_eq!(answers[514], "0 7 8");
}

#[test]
fn huge_get_over_one_taken_frame() {
    assert_eq!(output("z 1 1\ng 0 0\ng 0 9\n"), "z 1 1\n0 0 8\n2 0 9\n");
}

/// Own tree without success, then near and the other places.
#[test]
fn failed_search_moves_on() {
    let mut input = String::from("z 64 1\n");
    for _ in 0..16 {
        input.push_str("g 0 0\ng 0 9\n");
    }
    input.push_str("g 0 9\n");
    let printed = output(&input);
    // Claim, 32 children, claim returned, two of the release, near tree 1,
    // write, child, keep.
    assert_eq!(printed.lines().last(), Some("0 16384 40"));
}

/// A steal that gets the tree's count as well.
#[test]
fn steal_takes_the_trees_count() {
    let input = "z 1 2\ng 0 0\np 1 0 0\ng 1 9\n";
    // Look, three passes, victim, its tree, write, child, keep.
    assert_eq!(output(input), "z 1 2\n0 0 8\n0 0 4\n0 0 9\n");
}

/// A steal that comes short returns the hand and clears r.
#[test]
fn steal_that_comes_short() {
    let input = "z 1 2\ng 0 0\ng 1 9\ng 1 0\n";
    assert_eq!(output(input), "z 1 2\n0 0 8\n2 0 8\n0 1 8\n");
}

#[test]
fn other_forms_end_the_run() {
    for line in [
        "",
        " ",
        "g",
        "g 0",
        "g 0 0 0",
        "g 0 0 ",
        " g 0 0",
        "g  0 0",
        "g -1 0",
        "g +1 0",
        "g x 0",
        "G 0 0",
        "x 0 0",
        "p 0 0",
        "p 0 0 0 0",
        "g 0 0\r",
        "g\t0 0",
        "z 1 1",
        "g 0 0\0",
    ] {
        let input = format!("z 1 1\ng 0 0\n{line}\ng 0 0\n");
        assert_eq!(output(&input), "z 1 1\n0 0 8\n", "{line:?}");
    }
}

#[test]
fn wrong_first_lines_print_nothing() {
    for line in [
        "",
        "z",
        "z 1",
        "z 1 1 1",
        "z 0 1",
        "z 257 1",
        "z 1 0",
        "z 1 9",
        "z 1 1 ",
        " z 1 1",
        "z  1 1",
        "Z 1 1",
        "z 1 1\r",
        "z -1 1",
        "g 0 0",
        "z 18446744073709551617 1",
    ] {
        assert_eq!(output(&format!("{line}\ng 0 0\n")), "", "{line:?}");
    }
    assert_eq!(output(""), "");
}

#[test]
fn first_line_is_repeated_as_it_stands() {
    assert_eq!(output("z 00256 08"), "z 00256 08\n");
}

#[test]
fn long_numbers_count_as_the_largest() {
    let long = "9".repeat(400);
    let past = "18446744073709551616";
    for (line, answer) in [
        (format!("g {long} 0"), "7 0 0"),
        (format!("g 0 {past}"), "3 0 0"),
        (format!("g 0 {}", "0".repeat(400)), "0 0 8"),
        (format!("g 0 {}9", "0".repeat(400)), "0 0 7"),
        (format!("p 0 {past} 0"), "4 0 0"),
        (format!("p 0 {long} 9"), "4 0 0"),
        (format!("p {past} {past} {past}"), "7 0 0"),
        (format!("p 0 {past} {past}"), "3 0 0"),
    ] {
        assert_eq!(
            output(&format!("z 1 1\n{line}\n")),
            format!("z 1 1\n{answer}\n")
        );
    }
}

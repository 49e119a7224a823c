//! Short runs: equal, and every case is in the table.

use std::collections::BTreeSet;

use compare::cover::Cover;
use compare::pair::Side;
use compare::player::Stop;
use compare::{lengths, scenes, tried};

#[test]
fn a_short_run_is_equal_and_has_no_unknown_case() {
    let mut player = scenes::player(5, None, 20_000);
    let known = player.cover.len();
    let stop = scenes::play(&mut player, 5);
    assert!(matches!(stop, Stop::Enough), "{stop:?}");
    assert_eq!(player.made, 20_000);
    assert_eq!(player.cover.len(), known);
}

/// What the comparison comes to does not depend on the library: the reference in its place reaches every case.
#[test]
fn the_reference_in_the_librarys_place_reaches_every_case() {
    let mut player = scenes::player(1, None, 1_200_000);
    player.pair.side = Side::Reference;
    let stop = scenes::play(&mut player, 1);
    assert!(matches!(stop, Stop::Enough), "{stop:?}");
    assert_eq!(player.cover.missing(), [""; 0]);
}

#[test]
fn the_reference_in_the_librarys_place_shows_every_fault() {
    let mut printed = Vec::new();
    let all = tried::all(&mut printed, 1, 300_000, Side::Reference).unwrap();
    assert!(all, "{}", String::from_utf8(printed).unwrap());
}

#[test]
fn a_case_outside_the_table_is_missing() {
    let mut cover = Cover::new();
    for _ in 0..200 {
        cover.note("something else");
    }
    assert!(
        cover
            .missing()
            .contains(&"something else (not in the table)")
    );
    assert_eq!(cover.missing().len(), cover.len());
}

#[test]
fn case_names_are_distinct() {
    let mut printed = Vec::new();
    Cover::new().print(&mut printed).unwrap();
    let printed = String::from_utf8(printed).unwrap();
    let names: BTreeSet<&str> = printed.lines().collect();
    assert_eq!(names.len(), printed.lines().count());
}

#[test]
fn lengths_are_equal() {
    assert_eq!(lengths::first_difference(), None);
}

#[test]
fn a_fault_that_is_not_seen_fails() {
    let mut printed = Vec::new();
    assert!(!tried::all(&mut printed, 1, 1, Side::Library).unwrap());
    let printed = String::from_utf8(printed).unwrap();
    assert!(printed.contains("fault highest_bit: not seen"));
}

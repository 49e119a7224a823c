//! Stages, sizes, judgement lines and the chart.

use bench::memory::Memory;
use bench::stages::{self, At, CPUS};
use bench::verdict::{self, Verdict};
use bench::{chart, sizes};
use lovarntek::calls;

/// Both engines make every stage's step alike, in the first and in the last tree.
#[test]
fn stages_are_steps_of_both_engines() {
    for n in [64, 1_000] {
        for at in [At::first(), At::last(n)] {
            for stage in stages::all(at) {
                let mut library = Memory::created(n, CPUS);
                stage.prepare(&mut library);
                let mut plain = library.clone();
                let mut words = stage.words();
                let told = library.library().step(&mut words);
                let answer = plain.plain().step(stage.record);
                assert!(told.number <= 2, "{}", stage.name);
                assert_eq!(told.number, answer.number(), "{}", stage.name);
                assert!(library == plain, "{}", stage.name);
            }
        }
    }
}

#[test]
fn the_last_tree_is_not_the_first() {
    let words = |at| -> Vec<[u64; 2]> {
        let stages = stages::all(at);
        stages.iter().map(|stage| stage.words()).collect()
    };
    let (first, last) = (words(At::first()), words(At::last(65_536)));
    let equal = first.iter().zip(&last).filter(|(one, other)| one == other);
    // The stages that name no tree: own, three ways, steal and no room.
    assert_eq!(equal.count(), 5);
    assert!(last.iter().any(|words| words[1] >> 48 == 2_047));
}

#[test]
fn sizes_are_those_of_the_formula() {
    let checked = sizes::checked();
    assert!(sizes::verdict(&checked).holds());
    let mut printed = Vec::new();
    sizes::print(&mut printed, &checked).unwrap();
    let printed = String::from_utf8(printed).unwrap();
    assert!(printed.ends_with("65545 sizes checked\n"), "{printed}");
    let lengths = [calls::words(33), calls::children(33), calls::trees(33)];
    assert_eq!(lengths, [264, 33, 2]);
    assert_eq!(Memory::blank(33, 3).bytes(), 66 * 33 + 2 * 2 + 8 * 3 + 8);
}

/// The lines, and whether the exit status would be 0.
fn judged(verdicts: &[Verdict]) -> (String, bool) {
    let mut printed = Vec::new();
    let well = verdict::print(&mut printed, verdicts).unwrap();
    (String::from_utf8(printed).unwrap(), well)
}

#[test]
fn the_worst_row_is_judged() {
    let rows = || [(1.0, String::from("a")), (3.004, String::from("b"))];
    let well = Verdict::worst("apart", 3.01, rows()).binding(true);
    assert_eq!(
        judged(&[well]),
        (String::from("holds: apart: 3.00, bound 3.01 (b)\n"), true)
    );
    let ill = Verdict::worst("apart", 3.0, rows());
    let line = String::from("does not hold: apart: 3.00, bound 3 (b)\n");
    assert_eq!(judged(std::slice::from_ref(&ill)), (line.clone(), true));
    assert_eq!(judged(&[ill.binding(true)]), (line, false));
}

#[test]
fn nothing_measured_does_not_hold() {
    let (line, well) = judged(&[Verdict::worst("apart", 3.0, []).binding(true)]);
    assert!(line.starts_with("does not hold: "), "{line}");
    assert!(!well);
}

#[test]
fn a_chart_has_the_bars_of_all_tables() {
    let printed = "# a note of 4 2 1 words\n\
        benchmark order n CPUs lib-run rust-run ratio\n\
        bulk 0 64 1 10.0 5.0 2.00\n\
        benchmark order n CPUs malloc mimalloc\n\
        bulk 0 64 1 7.5 -\n";
    let name = format!("bench-chart-{}.svg", std::process::id());
    let file = std::env::temp_dir().join(name);
    assert!(chart::draw(file.to_str().unwrap(), printed).unwrap());
    let svg = std::fs::read_to_string(&file).unwrap();
    std::fs::remove_file(&file).unwrap();
    assert_eq!(svg.matches("bulk, order 0, n 64, 1 CPU").count(), 1);
    for number in [">10<", ">5<", ">7.5<"] {
        assert_eq!(svg.matches(number).count(), 1, "{svg}");
    }
    assert!(!chart::draw("", "# no row\n").unwrap());
}

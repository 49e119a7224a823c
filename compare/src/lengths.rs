//! The lengths that the library gives for a size.

use reference::layout::MAX_HUGE_FRAMES;
use reference::zone::trees_for;

/// Every size of a zone, and numbers that are none.
pub fn sizes() -> impl Iterator<Item = u64> {
    let past = (0..64).map(|shift| 1 << shift);
    (0..=MAX_HUGE_FRAMES + 100)
        .chain(past)
        .chain([u64::MAX - 1, u64::MAX])
}

/// The library's lengths, and the lengths of the reference's tables; 0 where there is no such zone.
fn lengths(n: u64) -> [[u64; 3]; 2] {
    use lovarntek::calls::{children, trees, words};
    let library = [words(n), children(n), trees(n)];
    let reference = match n {
        1..=MAX_HUGE_FRAMES => [8 * n, n, trees_for(n as usize) as u64],
        _ => [0; 3],
    };
    [library, reference]
}

/// The first size for which a length differs, with both sides' lengths.
pub fn first_difference() -> Option<String> {
    let named = |n| {
        let [library, reference] = lengths(n);
        format!("lengths for n = {n}: library {library:?}, reference {reference:?}")
    };
    sizes()
        .find(|&n| {
            let [library, reference] = lengths(n);
            library != reference
        })
        .map(named)
}

//! The seeded faults, each of which the comparison must see.

use std::io::{self, Write};

use crate::fault::Fault;
use crate::pair::Side;
use crate::player::Stop;
use crate::scenes;

/// Tries every fault that single calls show; true if all are seen.
pub fn all(out: &mut impl Write, seed: u64, calls: u64, side: Side) -> io::Result<bool> {
    let faults: Vec<Fault> = Fault::all().collect();
    let mut seen = 0;
    for &fault in &faults {
        let mut player = scenes::player(seed, Some(fault), calls);
        player.pair.side = side;
        match scenes::play(&mut player, seed) {
            Stop::Enough => writeln!(out, "fault {}: not seen", fault.name())?,
            Stop::Differs(difference) => {
                seen += 1;
                writeln!(
                    out,
                    "fault {}: seen by call {}, {}: {}",
                    fault.name(),
                    difference.number,
                    difference.call,
                    difference.unequal.what
                )?;
            }
        }
    }
    writeln!(out, "{seen} faults of {} seen", faults.len())?;
    Ok(seen == faults.len())
}

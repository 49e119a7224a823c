//! Cases of a refusal that came before another one which applied too.

use reference::layout::{Child, Header};
use reference::operation::Order;

use crate::call::Call;
use crate::cover::Seen;
use crate::cover::answers::wrong_lengths;
use crate::record::{Record, stage};

pub fn cases(seen: &Seen) -> Vec<String> {
    let first = seen.outcome.number;
    if first < 3 {
        return Vec::new();
    }
    let applies = |&later: &u64| match later {
        3 => bad_order(seen),
        4 => bad_frame(seen),
        5 => misaligned(seen),
        6 => child_to_put(seen).is_some_and(|child| !child.a),
        7 => bad_cpu(seen),
        8 => !wrong_lengths(seen).is_empty(),
        9 => bad_header(seen),
        11 => no_record(seen),
        12 => damaged(seen),
        _ => uncounted(seen),
    };
    let order = if seen.call.is_one() {
        "order in one call"
    } else {
        "order"
    };
    after(first)
        .iter()
        .filter(|later| applies(later))
        .map(|later| format!("{order}: {first} before {later}"))
        .collect()
}

/// The refusals that come after one.
fn after(first: u64) -> &'static [u64] {
    match first {
        3 => &[4],
        4 => &[5],
        7 => &[3, 4, 5],
        8 => &[7, 9, 11, 12],
        9 => &[7, 8, 11],
        10 => &[7, 8, 11, 12],
        11 => &[12],
        12 => &[6, 13],
        14 => &[8, 11],
        _ => &[],
    }
}

fn bad_cpu(seen: &Seen) -> bool {
    let cpus = seen.pair.library.cpus.len() as u64;
    matches!(seen.call.beginning(), Some(Call::Get { cpu, .. } | Call::Put { cpu, .. }) if cpu >= cpus)
}

fn bad_order(seen: &Seen) -> bool {
    matches!(seen.call.beginning(), Some(Call::Get { order, .. } | Call::Put { order, .. }) if Order::from_number(order).is_none())
}

fn bad_frame(seen: &Seen) -> bool {
    let frames = 512 * seen.pair.library.children.len() as u64;
    matches!(seen.call.beginning(), Some(Call::Put { frame, .. }) if frame >= frames)
}

fn misaligned(seen: &Seen) -> bool {
    let Some(Call::Put { frame, order, .. }) = seen.call.beginning() else {
        return false;
    };
    Order::from_number(order).is_some_and(|order| order.misaligned(frame))
}

/// A header slice of another length whose first entry is malformed, at a call that looks at it.
fn bad_header(seen: &Seen) -> bool {
    let creates = matches!(
        seen.call,
        Call::Create { .. } | Call::CreateStep { .. } | Call::CreateRun { .. }
    );
    let malformed = seen
        .header
        .is_some_and(|bits| !Header::split(bits).well_formed());
    !creates && malformed && seen.pair.library.header.len() != 1
}

/// Whether the call goes on with a record, and was lent none.
fn no_record(seen: &Seen) -> bool {
    let goes_on = matches!(
        seen.call,
        Call::CreateStep { .. } | Call::OpenStep | Call::Step
    );
    goes_on && seen.record.is_none_or(|record| record == Record::FINISHED)
}

/// Whether the own entry of a step, or a child at open or close, is malformed.
fn damaged(seen: &Seen) -> bool {
    let zone = &seen.pair.model.zone;
    match seen.call {
        Call::Open | Call::Close | Call::Settled => {
            zone.children.iter().any(|child| !child.well_formed())
        }
        Call::Step => seen.record.is_some_and(|record| {
            let cpu = usize::from(record.cpu);
            record.stage != 0 && cpu < zone.cpus.len() && zone.cpu(cpu).is_err()
        }),
        _ => false,
    }
}

/// The child that a put of a huge frame is to clear.
fn child_to_put(seen: &Seen) -> Option<Child> {
    let record = seen.record.filter(|_| seen.call == Call::Step)?;
    let clears = record.stage == stage::CLEAR && record.order == 9;
    let children = &seen.pair.model.zone.children;
    clears.then(|| children.get(record.number as usize).copied())?
}

/// Whether a close finds a child that does not count its zero bits.
fn uncounted(seen: &Seen) -> bool {
    let zone = &seen.pair.model.zone;
    matches!(seen.call, Call::Close | Call::Settled)
        && (0..zone.children.len()).any(|huge| {
            let child = zone.children[huge];
            !child.a && usize::from(child.count) != zone.zeros(huge)
        })
}

//! The numbers of answers.

use lovarntek::calls::{Answered, Ran};
use lovarntek::{Answer, Order, Refusal, Run};

#[test]
fn every_number() {
    assert_eq!(read(0, 5), Answer::Done(5));
    assert_eq!(read(1, 0), Answer::UnderWay);
    let refusals = [
        (2, Refusal::NoRoom, "no room"),
        (3, Refusal::BadOrder, "bad order"),
        (4, Refusal::BadFrame, "bad frame"),
        (5, Refusal::Misaligned, "misaligned"),
        (6, Refusal::NotTaken, "not taken"),
        (7, Refusal::BadCpu, "bad CPU"),
        (8, Refusal::BadBuffers, "bad buffers"),
        (9, Refusal::NotAZone, "not a zone"),
        (10, Refusal::Closed, "closed"),
        (11, Refusal::BadRecord, "bad record"),
        (12, Refusal::Damaged, "damaged"),
        (13, Refusal::NotSettled, "not settled"),
        (14, Refusal::BadSize, "bad size"),
    ];
    for (number, refusal, name) in refusals {
        assert_eq!(read(number, 0), Answer::Refused(refusal));
        assert_eq!(refusal.to_string(), name);
    }
    for number in 0..15 {
        assert_eq!(read(number, 0).number(), number);
        assert_eq!(read(number, 5).frame(), if number == 0 { 5 } else { 0 });
    }
}

#[test]
fn a_number_that_is_never_answered() {
    for number in [15, u64::MAX] {
        assert_eq!(read(number, u64::MAX), Answer::Refused(Refusal::Damaged));
    }
    let run = Run::from(Ran {
        number: 15,
        frame: 0,
        steps: 3,
    });
    assert_eq!((run.answer.number(), run.steps), (12, 3));
}

#[test]
fn orders() {
    assert_eq!(Order::Base.number(), 0);
    assert_eq!(Order::Huge.number(), 9);
    assert_eq!(Order::ALL.map(Order::number), [0, 1, 2, 3, 4, 5, 6, 9]);
    assert_eq!(Order::ALL.map(Order::frames), [1, 2, 4, 8, 16, 32, 64, 512]);
}

fn read(number: u64, frame: u64) -> Answer {
    Answered { number, frame }.into()
}

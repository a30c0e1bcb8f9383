//! The record's figure `deepest`, the greatest SHR reached since start.
#![cfg(feature = "alloc")]

use tak::raw::record;
use tak::{Ending, Machine, Parameters, RECORD_LENGTH, Record, Refusal};

/// Up to two deep, down again, and one deep. A step costs 8 cycles.
const TEXT: &[u8] = b"PUSH R0\nPUSH R0\nPOP R0\nPOP R0\nPUSH R0\n";

fn parameters(s: i32, b: i32) -> Parameters {
    Parameters {
        k: 16,
        n: 2,
        s: s.try_into().unwrap(),
        b: b.try_into().unwrap(),
        t: 16,
    }
}

/// SHR and the figure.
fn depths(machine: &Machine) -> (i32, i32) {
    (machine.record().shr, machine.record().deepest)
}

/// The machine with another figure in its record.
fn with_deepest(machine: &Machine, deepest: i32) -> Machine {
    let (mut record, image, registers, cells) = machine.clone().into_parts();
    record.deepest = deepest;
    Machine::from_parts(record, image, registers, cells)
}

#[test]
fn a_pop_does_not_lower_it() {
    for b in [0, 2] {
        let mut machine = Machine::new(parameters(5, b), TEXT).unwrap();
        let empty = b - 1;
        assert_eq!(depths(&machine), (empty, empty));
        for (shr, deepest) in [(1, 1), (2, 2), (1, 2), (0, 2), (1, 2), (1, 2)] {
            machine.grant(8, b"").unwrap();
            assert_eq!(depths(&machine), (empty + shr, empty + deepest));
        }
        machine.restart().unwrap();
        assert_eq!(depths(&machine), (empty, empty));
        machine.grant(1_000, b"").unwrap();
        assert_eq!(depths(&machine), (empty + 1, empty + 2));
    }
}

#[test]
fn a_push_that_fails_does_not_raise_it() {
    for (s, b) in [(3, 3), (3, 2), (3, 1), (1, 0)] {
        let mut machine = Machine::new(parameters(s, b), b"PUSH R0\nPUSH R0\nPUSH R0\n").unwrap();
        assert_eq!(machine.grant(1_000, b"").unwrap().ending, Ending::Failed);
        assert_eq!(machine.record().ircr, 1);
        assert_eq!(depths(&machine), (s - 1, s - 1));
    }
}

#[test]
fn it_gives_the_least_s() {
    // Counts up to 7 on the stack, then pops and outputs one number after the other.
    let text = b"SET R1 7\nINC R0 1\nPUSH R0\nJMPNEQ 1 R0 R1\nPOP R0\nOUT R0\nDEC R1 1\nSETF R0\nJMPNEQ 4 R0 R1\n";
    for b in [0, 3] {
        let run = |s| {
            let mut machine = Machine::new(parameters(s, b), text).unwrap();
            let mut values = Vec::new();
            let ending = machine.run(1_000_000, b"", |some| values.extend_from_slice(some));
            (ending.unwrap(), values, *machine.record())
        };
        let (ending, values, record) = run(100);
        assert_eq!(
            (ending, &values[..]),
            (Ending::Ended, &[7, 6, 5, 4, 3, 2, 1][..])
        );
        assert_eq!(record.deepest, b + 6);

        let least = record.deepest + 1;
        let (ending, same, least_record) = run(least);
        assert_eq!((ending, same), (Ending::Ended, values));
        assert_eq!(least_record.spent, record.spent);
        assert_eq!(least_record.deepest, record.deepest);

        let (ending, _, record) = run(least - 1);
        assert_eq!((ending, record.iar, record.ircr), (Ending::Failed, 2, 1));
        assert_eq!(record.deepest, least - 2);
    }
}

#[test]
fn outside_its_limits_it_is_refused() {
    let mut machine = Machine::new(parameters(5, 2), TEXT).unwrap();
    machine.grant(8, b"").unwrap();
    assert_eq!(depths(&machine), (2, 2));
    for deepest in [i32::MIN, -1, 0, 1, 5, 6, i32::MAX] {
        let mut other = with_deepest(&machine, deepest);
        assert_eq!(other.grant(0, b""), Err(Refusal::Record), "{deepest}");
        assert_eq!(depths(&other), (2, deepest));
    }
    // One that is greater than any SHR of the call stays.
    for (deepest, after) in [(2, 3), (3, 3), (4, 4)] {
        let mut other = with_deepest(&machine, deepest);
        assert_eq!(other.check(b""), Ok(()));
        other.grant(0, b"").unwrap();
        assert_eq!(depths(&other), (2, deepest));
        other.grant(1_000, b"").unwrap();
        assert_eq!(depths(&other), (2, after));
    }
}

#[test]
fn a_record_of_version_0_2_0_is_carried_over() {
    let mut machine = Machine::new(parameters(5, 2), TEXT).unwrap();
    machine.grant(4 * 8, b"").unwrap();
    assert_eq!(depths(&machine), (1, 3));
    let (record, image, registers, cells) = machine.into_parts();
    let stored = &<[i64; RECORD_LENGTH]>::from(record)[..11];
    assert_eq!(Record::try_from(stored), Err(Refusal::RecordLength));

    let mut fields = [0; RECORD_LENGTH];
    fields[..11].copy_from_slice(stored);
    fields[record::DEEPEST] = fields[record::SHR];
    let record = Record::try_from(fields).unwrap();
    let mut machine = Machine::from_parts(record, image, registers, cells);
    machine.check(b"").unwrap();
    // The figure counts from there on.
    machine.grant(8, b"").unwrap();
    assert_eq!(depths(&machine), (2, 2));
}

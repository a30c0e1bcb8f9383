//! Machines that own their buffers, against the same calls over borrowed ones.
#![cfg(feature = "alloc")]

use tak::{Ending, Machine, Parameters, Record, Refusal};

const PARAMETERS: Parameters = Parameters {
    k: 16,
    n: 4,
    s: 3,
    b: 1,
    t: 16,
};

/// Adds up the input's numbers, up to a 0, and outputs each sum; then the registers and the data cells.
const TEXT: &[u8] =
    b"IN R0\nJMPEQ 6 R0 R3\nADD R1 R0 R1\nOUT R1\nMOV R1 DM0\nJMP 0\nDUMP_REG\nDUMP_DATA_MEM\n";
const INPUT: &[u8] = b"120 35 -20 48 6 500 12 0";
const VALUES: [i32; 14] = [120, 155, 135, 183, 189, 689, 701, 0, 701, 0, 0, 701, 0, 0];

fn machine() -> Machine {
    Machine::new(PARAMETERS, TEXT).expect("the program loads")
}

#[test]
fn a_run_in_slices_of_any_size_outputs_the_same() {
    for slice in [1, 50, 51, 600, 1_000_000] {
        let mut machine = machine();
        let mut values = Vec::new();
        let mut ending = Ending::Paused;
        while ending == Ending::Paused {
            ending = machine
                .run(slice, INPUT, |some| values.extend_from_slice(some))
                .unwrap();
        }
        assert_eq!(
            (ending, &values[..]),
            (Ending::Ended, &VALUES[..]),
            "{slice}"
        );
        assert_eq!((machine.record().iar, machine.record().spent), (8, 1268));
    }
}

#[test]
fn a_full_output_goes_on_with_a_grant_of_0() {
    let parameters = Parameters {
        s: 300,
        ..PARAMETERS
    };
    let mut machine = Machine::new(parameters, b"OUT SHR\nDUMP_DATA_MEM\nOUT SHR\n").unwrap();
    for (cycles, ending, values, spent) in [
        (1_000_000, Ending::OutputFull, vec![0], 51),
        (0, Ending::OutputFull, vec![0; 300], 51 * 300),
        (0, Ending::Ended, vec![0], 51),
    ] {
        let granted = machine.grant(cycles, INPUT).unwrap();
        assert_eq!((granted.ending, granted.spent), (ending, spent));
        assert_eq!(granted.values, values);
    }
}

#[test]
fn owned_and_borrowed_calls_agree() {
    let mut owned = machine();
    let mut image = vec![7; PARAMETERS.image_length()];
    let (mut registers, mut cells, mut output) = ([7; 4], [7; 3], [7; 256]);
    assert_eq!(tak::load(PARAMETERS, TEXT, &mut image), Ok(8));
    let mut record = tak::start(PARAMETERS, &image, &mut registers, &mut cells).unwrap();
    for cycles in [0, 100, 1_000_000_001, 700, 0, 0, 400] {
        let one = owned.grant(cycles, INPUT);
        let other = tak::grant(
            &mut record,
            cycles,
            &image,
            INPUT,
            &mut registers,
            &mut cells,
            &mut output,
        );
        assert_eq!(one, other);
        assert_eq!(owned.record(), &record);
        assert_eq!(
            (owned.registers(), owned.cells()),
            (&registers[..], &cells[..])
        );
        assert_eq!(owned.image(), image);
    }
}

#[test]
fn every_dump_has_room() {
    for (n, s, values) in [(2, 6, 8), (6, 2, 8), (1, 1, 2), (256, 4096, 4352)] {
        let parameters = Parameters {
            k: 16,
            n,
            s,
            b: 0,
            t: 2,
        };
        let mut machine = Machine::new(parameters, b"DUMP_DATA_MEM\nDUMP_REG\n").unwrap();
        let mut count = 0;
        let ending = machine.run(1_000_000, b"", |some| count += some.len());
        assert_eq!((ending, count), (Ok(Ending::Ended), values), "{n} {s}");
    }
}

#[test]
fn a_refused_grant_changes_nothing() {
    let mut machine = machine();
    machine.grant(300, INPUT).unwrap();
    let before = machine.clone();
    assert_eq!(machine.grant(1_000_000_001, INPUT), Err(Refusal::Cycles));
    assert_eq!(machine.grant(1, &[b' '; 65_537]), Err(Refusal::InputLength));
    assert_eq!(machine.grant(1, b""), Err(Refusal::Record)); // the place is past this input
    assert_eq!(machine.record(), before.record());
    assert_eq!(machine.registers(), before.registers());
    assert_eq!(machine.cells(), before.cells());
}

#[test]
fn parameters_are_refused_before_memory_is_asked_for() {
    let with = |k, n, s, b, t| Machine::new(Parameters { k, n, s, b, t }, TEXT).unwrap_err();
    assert_eq!(with(31, 4, 3, 1, 16), Refusal::ParameterK);
    assert_eq!(with(16, u32::MAX, 3, 1, 16), Refusal::ParameterN);
    assert_eq!(with(16, 4, u32::MAX, 1, 16), Refusal::ParameterS);
    assert_eq!(with(16, 4, 3, 4, 16), Refusal::ParameterB);
    assert_eq!(with(16, 4, 3, 1, u32::MAX), Refusal::ParameterT);
    assert_eq!(with(16, 4, 3, 1, 7), Refusal::LineCount);
    let of_image = |n, image| {
        let parameters = Parameters { n, ..PARAMETERS };
        Machine::from_image(parameters, image).unwrap_err()
    };
    assert_eq!(of_image(u32::MAX, vec![0; 64]), Refusal::ParameterN);
    assert_eq!(of_image(4, vec![0; 63]), Refusal::ImageLength);
    assert_eq!(of_image(4, vec![55; 64]), Refusal::Image);
}

#[test]
fn a_faulty_line_is_named() {
    let refusal = Machine::new(PARAMETERS, b"NOP\nSCREW R0\nADD\n").unwrap_err();
    assert_eq!(refusal, Refusal::Instruction { line: 1 });
    assert_eq!(refusal.line(), Some(1));
}

#[test]
fn boxes_and_loose_pieces() {
    let text = b"IN R0\nIN R1\nDIVR R0 R1 R2\nOUT R2\nOUT R0\n";
    let mut machine = Machine::new(PARAMETERS, text).unwrap();
    let granted = machine.grant(51 + 51 + 31 + 51 + 51, b"-100 12").unwrap();
    assert_eq!(granted.ending, Ending::Ended);
    assert_eq!(granted.values, [-8, -4]);
    let refusal = Machine::new(PARAMETERS, b"NOP\nDIVR R0 R1 R00\n").unwrap_err();
    assert_eq!(refusal, Refusal::SameTarget { line: 1 });
}

#[test]
fn a_machine_goes_on_from_its_parts() {
    let mut machine = machine();
    machine.grant(300, INPUT).unwrap();
    let (record, image, registers, cells) = machine.clone().into_parts();
    let stored: [i64; tak::RECORD_LENGTH] = record.into();
    let mut other = Machine::from_parts(Record::try_from(stored).unwrap(), image, registers, cells);
    assert_eq!(machine.grant(300, INPUT), other.grant(300, INPUT));
    assert_eq!(machine.record(), other.record());
}

#[test]
fn a_check_takes_no_step() {
    let mut machine = machine();
    machine.grant(300, INPUT).unwrap();
    let before = machine.clone();
    assert_eq!(machine.check(INPUT), Ok(()));
    assert_eq!(machine.check(b""), Err(Refusal::Record));
    assert_eq!(machine.record(), before.record());
    assert_eq!(machine.registers(), before.registers());
    assert_eq!(machine.cells(), before.cells());
}

#[test]
fn values_are_taken_where_there_are_some() {
    let parameters = Parameters { n: 1, ..PARAMETERS };
    let mut machine = Machine::new(parameters, b"OUT IAR\nJMP 0\n").unwrap();
    let mut taken = Vec::new();
    let ending = machine.run(55 * 1_000, b"", |some| taken.push(some.len()));
    assert_eq!(
        (ending, &taken[..]),
        (Ok(Ending::Paused), &[256, 256, 256, 232][..])
    );
    let ending = machine.run(1, b"", |_| panic!("there is no value"));
    assert_eq!(ending, Ok(Ending::Paused));
}

#[test]
fn parts_that_do_not_fit_are_refused() {
    let machine = machine();
    let mut other =
        Machine::from_parts(*machine.record(), machine.image().to_vec(), vec![], vec![]);
    assert_eq!(other.grant(1, b""), Err(Refusal::MemoryLength));
}

#[test]
fn a_machine_begins_anew() {
    let mut machine = machine();
    machine.run(1_000_000, INPUT, |_| ()).unwrap();
    machine.restart().unwrap();
    assert_eq!(machine.record(), self::machine().record());
    assert_eq!(
        (machine.registers(), machine.cells()),
        (&[0; 4][..], &[0; 3][..])
    );
}

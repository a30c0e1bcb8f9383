//! Compares the proved library with the model on pseudo-random calls; see README.md.

mod case;
mod compare;
mod cover;
mod generate;
mod machine;
mod marked;
mod random;
mod shrink;
mod sweep;
mod wrong;

use std::process::ExitCode;
use std::time::Instant;

use compare::compare;
use cover::Cover;
use machine::{Library, Machine, Model};
use wrong::{Fault, Wrong};

const SEED: u64 = 20_250_101;
const COUNT: u64 = 250_000;

/// After so many disagreements the run stops: they have one cause as a rule.
const MOST_FAILURES: u64 = 5;

/// A wrong variant must show within so many cases.
const SELF_TEST_CASES: u64 = 20_000;

/// The model by single steps must not differ from the model in so many cases.
const RIGHT_CASES: u64 = 1000;

fn main() -> ExitCode {
    let arguments: Vec<String> = std::env::args().skip(1).collect();
    let number = |name: &str, variable: &str, otherwise: Option<u64>| {
        let given = match arguments.iter().position(|argument| argument == name) {
            Some(index) => arguments.get(index + 1).cloned(),
            None => std::env::var(variable).ok(),
        };
        match given {
            Some(text) => Some(text.parse().expect("SEED, COUNT and cases are numbers")),
            None => otherwise,
        }
    };
    let seed = number("--seed", "SEED", Some(SEED)).unwrap_or(SEED);
    let count = number("--count", "COUNT", Some(COUNT)).unwrap_or(COUNT);
    if let Some(case) = number("--case", "CASE", None) {
        return replay(seed, case);
    }

    if let Some(index) = arguments.iter().position(|argument| argument == "--wrong") {
        return show(seed, arguments.get(index + 1).map_or("", String::as_str));
    }

    let begin = Instant::now();
    let mut cover = Cover::new();
    let (mut passed, mut failed) = (0, 0);

    for (name, machine) in [("library", &Library as &dyn Machine), ("model", &Model)] {
        let faults = marked::check(machine);
        for fault in &faults {
            println!("marked runs, {name}: {fault}");
        }
        if faults.is_empty() {
            passed += 1;
        } else {
            failed += 1;
        }
    }

    let (made, found) = sweep::sweep(&Model, &Library);
    for disagreement in &found {
        println!("DISAGREEMENT in a sweep (the model's side first): {disagreement}");
    }
    passed += made - found.len() as u64;
    failed += found.len() as u64;
    println!("{made} sweeps in {:.1} s", begin.elapsed().as_secs_f64());

    let begin = Instant::now();
    for number in 0..count {
        match difference(seed, number, &Library, &mut cover) {
            None => passed += 1,
            Some(_) => {
                failed += 1;
                report(seed, number, &Library);
                if failed >= MOST_FAILURES {
                    break;
                }
            }
        }
    }
    println!(
        "seed {seed}, {count} cases in {:.1} s",
        begin.elapsed().as_secs_f64()
    );
    print!("{}", cover.summary());
    for name in cover.missing() {
        println!("never seen: {name}");
        failed += 1;
    }

    let begin = Instant::now();
    let mut slowest = 0;
    match (0..RIGHT_CASES)
        .find(|number| difference(seed, *number, &Wrong(Fault::None), &mut Cover::off()).is_some())
    {
        None => passed += 1,
        Some(case) => {
            failed += 1;
            println!(
                "self-test: case {case} differs although the model was run step by step without a fault"
            );
        }
    }
    for fault in Fault::ALL {
        let wrong = Wrong(fault);
        let shown = first_difference(seed, &wrong);
        match shown {
            Some(case) => {
                passed += 1;
                slowest = slowest.max(case + 1);
            }
            None => {
                failed += 1;
                println!("self-test: the wrong variant {fault:?} was not told from the model");
            }
        }
    }
    println!(
        "{} wrong variants of the model, the last one told after {slowest} cases, in {:.1} s",
        Fault::ALL.len(),
        begin.elapsed().as_secs_f64()
    );
    println!("{passed} passed, {failed} failed");
    if failed == 0 {
        ExitCode::SUCCESS
    } else {
        ExitCode::FAILURE
    }
}

fn difference(seed: u64, number: u64, machine: &dyn Machine, cover: &mut Cover) -> Option<String> {
    compare(&generate::case(seed, number), &Model, machine, cover)
}

/// Shrinks a case on which a machine and the model disagree, and prints it.
fn report(seed: u64, number: u64, machine: &dyn Machine) {
    let case = generate::case(seed, number);
    let fails = |case: &case::Case| compare(case, &Model, machine, &mut Cover::off()).is_some();
    let small = shrink::shrink(&case, fails);
    let found = compare(&small, &Model, machine, &mut Cover::off()).unwrap_or_default();
    println!("DISAGREEMENT; replay it with: compare --seed {seed} --case {number}");
    println!("the smallest case found (the model's side first): {found}");
    print!("{small}");
}

/// The first case on which a machine and the model disagree.
fn first_difference(seed: u64, machine: &dyn Machine) -> Option<u64> {
    (0..SELF_TEST_CASES)
        .find(|number| difference(seed, *number, machine, &mut Cover::off()).is_some())
}

/// Shows the report that a wrong variant of the model gets.
fn show(seed: u64, name: &str) -> ExitCode {
    for fault in Fault::ALL {
        if format!("{fault:?}") == name {
            if let Some(number) = first_difference(seed, &Wrong(fault)) {
                report(seed, number, &Wrong(fault));
            }
            return ExitCode::SUCCESS;
        }
    }
    println!("the wrong variants are {:?}", Fault::ALL);
    ExitCode::FAILURE
}

fn replay(seed: u64, number: u64) -> ExitCode {
    print!("{}", generate::case(seed, number));
    match difference(seed, number, &Library, &mut Cover::off()) {
        None => {
            println!("library and model agree");
            println!("1 passed, 0 failed");
            ExitCode::SUCCESS
        }
        Some(found) => {
            println!("model and library differ: {found}");
            report(seed, number, &Library);
            println!("0 passed, 1 failed");
            ExitCode::FAILURE
        }
    }
}

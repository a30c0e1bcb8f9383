//! Runs the program of a folder with takrun's three files, the current one if none is named, and says how deep its stack has been.

use std::path::PathBuf;
use std::{env, fs};

use tak::{Ending, Machine, Parameters};

/// The number of the instruction PUSH, the first word of its cell.
const PUSH: u32 = 9;

fn main() -> Result<(), String> {
    let folder = PathBuf::from(env::args_os().nth(1).unwrap_or_else(|| ".".into()));
    // A missing file counts as empty, as for takrun.
    let read = |name| fs::read(folder.join(name)).unwrap_or_default();
    let numbers = String::from_utf8_lossy(&read("tak.par"))
        .split_ascii_whitespace()
        .map(str::parse)
        .collect::<Result<Vec<u32>, _>>();
    let Ok(&[k, n, s, b, t]) = numbers.as_deref() else {
        return Err("tak.par does not have five numbers".into());
    };

    // As much as takrun grants; the values are not wanted here.
    let mut machine = Machine::new(Parameters { k, n, s, b, t }, &read("tak.tcl"))
        .map_err(|refusal| refusal.to_string())?;
    let ending = machine
        .run(tak::MAX_GRANT, &read("tak.in"), |_| ())
        .map_err(|refusal| refusal.to_string())?;
    let record = machine.record();
    println!(
        "{ending}: return code {}, cell {}, {} cycles",
        record.ircr, record.iar, record.spent
    );
    let deepest = record.deepest;
    let least = (deepest + 1).max(1);
    match ending {
        Ending::Failed if machine.image()[4 * record.iar as usize] == PUSH => {
            println!("deepest {deepest}: S = {s} is too small")
        }
        Ending::Paused => println!("deepest {deepest} so far: S = {least} would do up to here"),
        _ => println!("deepest {deepest}: S = {least} would do"),
    }
    Ok(())
}

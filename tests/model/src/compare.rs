//! Runs one case on two machines and compares every reply and the whole of every buffer after every call.

use std::fmt::Debug;

use model::record::{GRANTED, SPENT};
use model::{MAX_GRANT, MAX_GRANTED, RECORD_LENGTH, ending};

use crate::case::{Case, Edit};
use crate::cover::Cover;
use crate::machine::Machine;
use crate::random::Random;

/// A grant that could spend more cycles is made only if the program stops before; otherwise a loop would run for hours.
pub const LONGEST: i64 = 60_000;

/// Elements before and behind each slice, which no call may touch.
const MARGIN: usize = 4;

/// A lent slice between two margins.
#[derive(Clone, PartialEq)]
struct Lent<T> {
    all: Vec<T>,
}

impl<T: Copy + PartialEq + Debug> Lent<T> {
    fn new(length: usize, random: &mut Random, mut value: impl FnMut(u64) -> T) -> Lent<T> {
        let all = (0..length + 2 * MARGIN)
            .map(|_| value(random.next()))
            .collect();
        Lent { all }
    }

    fn of(contents: &[T], margin: T) -> Lent<T> {
        let mut all = vec![margin; MARGIN];
        all.extend_from_slice(contents);
        all.extend_from_slice(&[margin; MARGIN]);
        Lent { all }
    }

    fn len(&self) -> usize {
        self.all.len() - 2 * MARGIN
    }

    fn get(&self) -> &[T] {
        &self.all[MARGIN..self.all.len() - MARGIN]
    }

    fn get_mut(&mut self) -> &mut [T] {
        let end = self.all.len() - MARGIN;
        &mut self.all[MARGIN..end]
    }

    fn set(&mut self, index: usize, value: T) {
        if self.len() > 0 {
            let index = index % self.len();
            self.get_mut()[index] = value;
        }
    }

    /// Another length; what is added has the contents `added`.
    fn resize(&mut self, length: usize, added: T) {
        let mut contents = self.get().to_vec();
        contents.resize(length, added);
        *self = Lent::of(&contents, self.all[0]);
    }

    /// Says where two slices differ.
    fn difference(&self, other: &Lent<T>, name: &str) -> Option<String> {
        let index = self.all.iter().zip(&other.all).position(|(a, b)| a != b)?;
        Some(format!(
            "{name}[{}] of {}: {:?} and {:?}",
            index as i64 - MARGIN as i64,
            self.len(),
            self.all[index],
            other.all[index]
        ))
    }
}

/// What start and grant are lent.
#[derive(Clone)]
struct State {
    image: Lent<u32>,
    input: Lent<u8>,
    registers: Lent<i32>,
    cells: Lent<i32>,
    record: Lent<i64>,
}

impl State {
    fn edit(&mut self, edits: &[Edit]) {
        for edit in edits {
            match *edit {
                Edit::Record(index, value) => self.record.set(index, value),
                Edit::Register(index, value) => self.registers.set(index, value),
                Edit::Cell(index, value) => self.cells.set(index, value),
                Edit::Word(index, value) => self.image.set(index, value),
                Edit::RecordLength(length) => self.record.resize(length, 7),
                Edit::RegistersLength(length) => self.registers.resize(length, 5),
                Edit::CellsLength(length) => self.cells.resize(length, 5),
                Edit::ImageLength(length) => self.image.resize(length, 0),
                Edit::InputLength(length) => self.input.resize(length, b' '),
            }
        }
    }

    fn difference(&self, other: &State) -> Option<String> {
        self.record
            .difference(&other.record, "record")
            .or_else(|| self.registers.difference(&other.registers, "registers"))
            .or_else(|| self.cells.difference(&other.cells, "cells"))
            .or_else(|| self.image.difference(&other.image, "image"))
            .or_else(|| self.input.difference(&other.input, "input"))
    }
}

/// The disagreement of two replies.
fn replies<T: PartialEq + Debug>(ours: &T, theirs: &T) -> Option<String> {
    (ours != theirs).then(|| format!("replies {ours:?} and {theirs:?}"))
}

/// Runs a case on both machines; gives the first disagreement, the first machine's side first.
pub fn compare(
    case: &Case,
    first: &dyn Machine,
    second: &dyn Machine,
    cover: &mut Cover,
) -> Option<String> {
    let random = &mut Random::new(case.fill);
    let mut image = Lent::new(0, random, |old| old as u32);
    for (index, load) in case.loads.iter().enumerate() {
        if image.len() != load.image_length {
            image = Lent::new(load.image_length, random, |old| old as u32);
        }
        let mut other = image.clone();
        let text = Lent::of(&load.text, 0xA5);
        let other_text = text.clone();
        let reply = first.load(load.parameters, text.get(), image.get_mut());
        let other_reply = second.load(load.parameters, other_text.get(), other.get_mut());
        cover.load(load.parameters, &load.text, &reply);
        let found = replies(&reply, &other_reply)
            .or_else(|| image.difference(&other, "image"))
            .or_else(|| text.difference(&other_text, "text"));
        if let Some(found) = found {
            return Some(format!("load {index}: {found}"));
        }
    }

    let mut state = State {
        image,
        input: Lent::of(&case.input, 0xA5),
        registers: Lent::new(case.parameters.n as usize, random, |old| old as i32),
        cells: Lent::new(case.parameters.s as usize, random, |old| old as i32),
        record: Lent::new(RECORD_LENGTH, random, |old| old as i64),
    };
    for (index, start) in case.starts.iter().enumerate() {
        let saved = start.restore.then(|| state.clone());
        state.edit(&start.edits);
        let mut other = state.clone();
        let reply = first.start(
            start.parameters,
            state.image.get(),
            state.registers.get_mut(),
            state.cells.get_mut(),
            state.record.get_mut(),
        );
        let other_reply = second.start(
            start.parameters,
            other.image.get(),
            other.registers.get_mut(),
            other.cells.get_mut(),
            other.record.get_mut(),
        );
        cover.start(
            reply,
            start.parameters,
            state.image.get(),
            state.registers.len(),
        );
        let found = replies(&reply, &other_reply).or_else(|| state.difference(&other));
        if let Some(found) = found {
            return Some(format!("start {index}: {found}"));
        }
        if let Some(saved) = saved {
            state = saved;
        }
    }

    // How many grants of the list that begins at the start took steps, and whether each had what the one before it left.
    let (mut stepping, mut unedited) = (0, true);
    for (index, grant) in case.grants.iter().enumerate() {
        let saved = grant.restore.then(|| state.clone());
        state.edit(&grant.edits);
        let mut output = Lent::new(grant.output_length, random, |old| old as i32);
        if too_long(&state, grant.cycles, grant.output_length) {
            cover.skipped += 1;
        } else {
            let mut other = state.clone();
            let mut other_output = output.clone();
            let before = state.record.get().to_vec();
            cover.before_grant(
                grant.cycles,
                state.record.get(),
                state.image.get(),
                state.input.get(),
                state.registers.get(),
                state.cells.get(),
                grant.output_length,
            );
            let reply = first.grant(
                state.record.get_mut(),
                grant.cycles,
                state.image.get(),
                state.input.get(),
                state.registers.get_mut(),
                state.cells.get_mut(),
                output.get_mut(),
            );
            let other_reply = second.grant(
                other.record.get_mut(),
                grant.cycles,
                other.image.get(),
                other.input.get(),
                other.registers.get_mut(),
                other.cells.get_mut(),
                other_output.get_mut(),
            );
            cover.after_grant(&reply, grant.cycles, &before, state.record.get());
            let found = replies(&reply, &other_reply)
                .or_else(|| state.difference(&other))
                .or_else(|| output.difference(&other_output, "output"));
            if let Some(found) = found {
                return Some(format!("grant {index}: {found}"));
            }
            if unedited && grant.edits.is_empty() && !grant.restore && reply.spent > 0 {
                stepping += 1;
                cover.list(stepping);
            }
        }
        match saved {
            Some(saved) => state = saved,
            None => unedited &= grant.edits.is_empty(),
        }
    }

    for (index, (value, length)) in case.decimals.iter().enumerate() {
        let mut bytes = Lent::new(*length, random, |old| old as u8);
        let mut other = bytes.clone();
        let reply = first.decimal(*value, bytes.get_mut());
        let other_reply = second.decimal(*value, other.get_mut());
        cover.decimal(&reply, *length);
        let found = replies(&reply, &other_reply).or_else(|| bytes.difference(&other, "bytes"));
        if let Some(found) = found {
            return Some(format!("decimal {index}: {found}"));
        }
    }
    None
}

/// Whether a grant would be accepted with more than `LONGEST` cycles to spend and would not stop before.
fn too_long(state: &State, cycles: u64, output_length: usize) -> bool {
    let record = state.record.get();
    if record.len() != RECORD_LENGTH || cycles > MAX_GRANT {
        return false;
    }
    let (granted, spent) = (record[GRANTED], record[SPENT]);
    let refused = granted < 0
        || spent < 0
        || spent > granted
        || granted.saturating_add(cycles as i64) > MAX_GRANTED as i64;
    if refused || granted - spent + cycles as i64 <= LONGEST {
        return false;
    }
    let mut trial = state.clone();
    trial.record.set(GRANTED, LONGEST);
    trial.record.set(SPENT, 0);
    let reply = model::grant(
        trial.record.get_mut(),
        0,
        trial.image.get(),
        trial.input.get(),
        trial.registers.get_mut(),
        trial.cells.get_mut(),
        &mut vec![0; output_length],
    );
    reply.ending == ending::PAUSED
}

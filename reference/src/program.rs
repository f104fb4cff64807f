//! The program: a first record for the world, then steps; one line for each
//! completed operation, and one for the end.

use std::fmt::Write;

use crate::layout::STEP_SIZE;
use crate::record::Step;
use crate::refusal::Reason;
use crate::rules::Sound;
use crate::step::step;
use crate::world::{operation_kind, World};

/// The whole output for this input.
pub fn run(input: &[u8]) -> String {
    let mut lines = String::new();
    let mut accepted = 0;
    let refusal = match session(input, &mut accepted, &mut lines) {
        Ok(()) => 0,
        Err(reason) => reason.number(),
    };
    line(&mut lines, format_args!("done {accepted} {refusal}"));
    lines
}

fn line(lines: &mut String, text: std::fmt::Arguments) {
    writeln!(lines, "{text}").expect("a string takes every line");
}

fn session(input: &[u8], accepted: &mut usize, lines: &mut String) -> Result<(), Reason> {
    let (first, steps) = input
        .split_first_chunk::<STEP_SIZE>()
        .ok_or(Reason::StepLength)?;
    let mut world = first_world(&Step::load(first))?;
    for bytes in steps.chunks(STEP_SIZE) {
        let bytes: &[u8; STEP_SIZE] = bytes.try_into().map_err(|_| Reason::StepLength)?;
        let done = step::<Sound>(&mut world, &Step::load(bytes))?;
        *accepted += 1;
        if done.completed != 0 {
            completed(&world, done.completed, lines);
        }
    }
    Ok(())
}

/// The fresh world that the first record asks for: only f, the read size and
/// the member bits may be set.
fn first_world(first: &Step) -> Result<World, Reason> {
    if *first != Step::fresh(first.value, first.f, first.who) {
        return Err(Reason::UnknownKind);
    }
    World::fresh(first.value, first.f, first.who)
}

fn completed(world: &World, number: u8, lines: &mut String) {
    let client = world.client(number);
    let kind = if client.kind == operation_kind::WRITE {
        'W'
    } else {
        'R'
    };
    let entry = &client.entry;
    line(
        lines,
        format_args!(
            "{number} {kind} {} {} {}",
            entry.count, entry.writer, entry.value
        ),
    );
}

//! Logs to be judged: of a register that keeps its promise, of none at all, and
//! spoiled ones.

use crate::entry::Entry;
use crate::judge::Line;
use crate::layout::LAST_CLIENT;
use crate::xorshift::Draws;

/// A log of up to so many lines: kept promises, a promise broken somewhere, or
/// lines with no regard to one; now and then with a field spoiled.
pub fn log(draws: &mut Draws, most: usize) -> Vec<Line> {
    let count = draws.below(most + 1);
    let mut lines = if draws.chance(25) {
        at_will(draws, count)
    } else {
        kept(draws, count)
    };
    if draws.chance(35) {
        mislead(draws, &mut lines);
    }
    if draws.chance(20) {
        spoil(draws, &mut lines);
    }
    lines
}

/// Different numbers from 1 on, with gaps, in no order.
fn numbers(draws: &mut Draws, count: usize) -> Vec<u16> {
    let widest = (usize::from(u16::MAX) / count.max(1)).min(4);
    let step = draws.between(1, widest);
    let mut numbers: Vec<u16> = (0..count)
        .map(|number| (1 + number * step + draws.below(step)) as u16)
        .collect();
    draws.shuffle(&mut numbers);
    numbers
}

/// Each operation happens at one moment between its begin and its end, and a
/// read returns what the last write before that moment left.
pub fn kept(draws: &mut Draws, count: usize) -> Vec<Line> {
    let drawn = numbers(draws, 3 * count);
    let mut moments: Vec<[u16; 3]> = drawn.as_chunks().0.to_vec();
    moments.iter_mut().for_each(|three| three.sort());
    moments.sort_by_key(|three| three[1]);
    let (mut last, mut largest) = (Entry::EMPTY, Entry::EMPTY);
    let mut lines = Vec::new();
    for [begin, _, end] in moments {
        let end = if draws.chance(12) { 0 } else { end };
        if draws.chance(40) {
            let entry = next_entry(draws, &largest);
            largest = entry;
            lines.push(Line::write(begin, end, entry));
            // An unfinished write may never have happened.
            if end != 0 || draws.chance(60) {
                last = entry;
            }
        } else {
            lines.push(Line::read(begin, end, last));
        }
    }
    draws.shuffle(&mut lines);
    lines
}

/// An entry with a larger stamp.
fn next_entry(draws: &mut Draws, last: &Entry) -> Entry {
    let value = draws.below(3) as u32;
    if last.count > 0 && last.writer < LAST_CLIENT && draws.chance(30) {
        return Entry::new(last.count, last.writer + 1, value);
    }
    let writer = draws.below(usize::from(LAST_CLIENT) + 1) as u8;
    let most = (u32::MAX - last.count).min(3).max(1) as usize;
    Entry::new(
        last.count.saturating_add(draws.between(1, most) as u32),
        writer,
        value,
    )
}

/// Intervals and entries with no regard to each other.
fn at_will(draws: &mut Draws, count: usize) -> Vec<Line> {
    let numbers = numbers(draws, 2 * count);
    let pool = draws.between(1, 3);
    numbers
        .chunks(2)
        .map(|pair| {
            let (begin, end) = (pair[0].min(pair[1]), pair[0].max(pair[1]));
            let end = if draws.chance(15) { 0 } else { end };
            let stamp = draws.below(pool + 1) as u32;
            let entry = Entry::new(stamp, stamp as u8, stamp);
            if stamp > 0 && draws.chance(40) {
                Line::write(begin, end, entry)
            } else {
                Line::read(begin, end, entry)
            }
        })
        .collect()
}

/// Changes what one line says, within what a log may say.
fn mislead(draws: &mut Draws, lines: &mut [Line]) {
    if lines.is_empty() {
        return;
    }
    let other = lines[draws.below(lines.len())];
    let place = draws.below(lines.len());
    let line = &mut lines[place];
    match draws.below(5) {
        0 if !line.is_write() => line.entry = other.entry,
        1 if !line.is_write() => line.entry.value ^= 1,
        2 if !line.is_write() => line.entry = Entry::EMPTY,
        3 => line.end = 0,
        _ => {
            let other = draws.below(lines.len());
            let entry = lines[other].entry;
            lines[other].entry = lines[place].entry;
            lines[place].entry = entry;
        }
    }
}

/// Puts something into one line that no log may say, most often.
fn spoil(draws: &mut Draws, lines: &mut [Line]) {
    if lines.is_empty() {
        return;
    }
    let other = lines[draws.below(lines.len())];
    let place = draws.below(lines.len());
    let line = &mut lines[place];
    match draws.below(10) {
        0 => line.begin = 0,
        1 => line.kind = *draws.pick(&[0, 3, 128, 255]).expect("there are some"),
        2 => line.spare[draws.below(3)] = 1,
        3 => line.entry.spare[draws.below(3)] = 1,
        4 => line.entry.writer = draws.between(17, 255) as u8,
        5 => line.end = draws.below(usize::from(line.begin)) as u16,
        6 => line.end = line.begin,
        7 => line.begin = other.end,
        8 => line.entry.count = 0,
        _ => line.entry = other.entry,
    }
}

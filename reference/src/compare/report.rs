//! The comparison's result in words and numbers.

use std::collections::BTreeSet;
use std::fmt::Write;

use crate::compare::check::Comparison;
use crate::compare::counts::{Around, LAST_REFUSAL, OPERATIONS};
use crate::record::step_kind;

/// Every refusal must be met at least this often.
pub const LEAST: u64 = 50;

/// The tables, the differences and the last line.
pub fn report(comparison: &Comparison) -> String {
    let mut text = String::new();
    refusals(comparison, &mut text);
    paths(comparison, &mut text);
    deeds(comparison, &mut text);
    around(comparison, &mut text);
    rules(comparison, &mut text);
    phases(comparison, &mut text);
    broken(comparison, &mut text);
    clauses(comparison, &mut text);
    for told in &comparison.told {
        line(&mut text, &format!("DIFFERS: {told}"));
    }
    let rare = comparison.counts.rare(LEAST);
    for number in &rare {
        line(
            &mut text,
            &format!("refusal {number} was met fewer than {LEAST} times"),
        );
    }
    line(
        &mut text,
        &format!(
            "{} single steps, {} journals ({} replays), {} calls of single machines, {} logs, {} lists of \
             answers, {} answers to phases, {} watched and {} shortened journals compared",
            comparison.steps,
            comparison.journals,
            comparison.replays,
            comparison.singles,
            comparison.logs,
            comparison.lists,
            comparison.given,
            comparison.watched,
            comparison.shortened,
        ),
    );
    line(
        &mut text,
        &format!(
            "{} passed, {} failed",
            comparison.passed,
            comparison.failed + rare.len() as u64
        ),
    );
    text
}

/// Whether all agree and every refusal was met often enough.
pub fn is_good(comparison: &Comparison) -> bool {
    comparison.failed == 0 && comparison.counts.rare(LEAST).is_empty()
}

fn line(text: &mut String, words: &str) {
    writeln!(text, "{words}").expect("a string takes every line");
}

fn refusals(comparison: &Comparison, text: &mut String) {
    line(text, "Answers by operation and refusal (0: done)");
    let mut head = format!("{:14}", "");
    for number in 0..=LAST_REFUSAL {
        write!(head, "{number:>8}").expect("a string takes every word");
    }
    line(text, &head);
    for operation in OPERATIONS {
        let mut row = format!("{:14}", format!("{operation:?}"));
        for number in 0..=LAST_REFUSAL {
            let count = comparison.counts.of(operation, number);
            write!(row, "{count:>8}").expect("a string takes every word");
        }
        line(text, &row);
    }
    let mut row = format!("{:14}", "all");
    for number in 0..=LAST_REFUSAL {
        write!(row, "{:>8}", comparison.counts.total(number)).expect("a string takes every word");
    }
    line(text, &row);
    line(text, "");
}

fn paths(comparison: &Comparison, text: &mut String) {
    line(text, "Refusals by path");
    for ((operation, reason), count) in &comparison.counts.refused {
        line(
            text,
            &format!(
                "{:14}{:>3}  {:40}{count:>8}",
                format!("{operation:?}"),
                reason.number(),
                format!("{reason:?}")
            ),
        );
    }
    line(text, "");
}

fn clauses(comparison: &Comparison, text: &mut String) {
    line(text, "Unreadable images that one clause alone refuses");
    for (clause, count) in &comparison.counts.clauses {
        line(text, &format!("{:40}{count:>8}", format!("{clause:?}")));
    }
    line(text, "");
}

fn broken(comparison: &Comparison, text: &mut String) {
    line(
        text,
        "Watched journals in which the premise breaks, by the step",
    );
    for (operation, count) in &comparison.counts.broke {
        line(text, &format!("{:40}{count:>8}", format!("{operation:?}")));
    }
    line(text, "");
}

fn around(comparison: &Comparison, text: &mut String) {
    line(
        text,
        "Around a restart, by the lengths of the chain that it empties (least and most often at one)",
    );
    let counts = &comparison.counts.around;
    let sorts: BTreeSet<(Around, bool)> = counts.keys().map(|(met, new, _)| (*met, *new)).collect();
    for (met, renewed) in sorts {
        let at: Vec<(usize, u64)> = counts
            .iter()
            .filter(|((a, b, _), _)| (*a, *b) == (met, renewed))
            .map(|((_, _, length), count)| (*length, *count))
            .collect();
        let (first, last) = (at[0].0, at[at.len() - 1].0);
        let least = at.iter().map(|(_, count)| *count).min().unwrap_or(0);
        let most = at.iter().map(|(_, count)| *count).max().unwrap_or(0);
        let view = if renewed { "new view" } else { "same view" };
        line(
            text,
            &format!(
                "{:14}{view:12}{:>5} lengths, {first} to {last}: {least} to {most}",
                format!("{met:?}"),
                at.len(),
            ),
        );
    }
    line(text, "");
}

fn rules(comparison: &Comparison, text: &mut String) {
    line(
        text,
        "Calls of single machines by rule and refusal (0: done)",
    );
    for ((operation, rule, number), count) in &comparison.counts.rules {
        if (1..=step_kind::LAST).contains(rule) {
            line(
                text,
                &format!(
                    "{:14}rule {rule}{number:>4}{count:>8}",
                    format!("{operation:?}")
                ),
            );
        }
    }
    line(text, "");
}

fn phases(comparison: &Comparison, text: &mut String) {
    line(text, "What answers did to phases, by the request's kind");
    for ((kind, verdict), count) in &comparison.counts.given {
        let words = match verdict {
            0 => "open",
            1 => "closed",
            _ => "closed, and a read may end",
        };
        line(text, &format!("{:40}{count:>8}", format!("{kind} {words}")));
    }
    line(text, "");
}

fn deeds(comparison: &Comparison, text: &mut String) {
    line(text, "What the accepted single steps did");
    for (deed, count) in &comparison.counts.deeds {
        line(text, &format!("{:40}{count:>8}", format!("{deed:?}")));
    }
    line(text, "");
}

//! Runs drawn journals and looks for an order of their operations: under the
//! rules there is one whenever the premise holds, and under each wrong idea a
//! journal without one turns up. A number argument multiplies the runs.

use std::process::ExitCode;

use reference::generate::journals::journal;
use reference::generate::profile::{
    Profile, FULL, GLIMPSE, RESTARTS, RUSH, STILL, STORM, TINY, WIDE, WRECK,
};
use reference::history::ideas::{Idea, IDEAS, LIMIT};
use reference::history::verdict::examine;
use reference::rules::Sound;

/// Journals of each profile under the sound rules, for a factor of 1.
const SOUND: [(&Profile, u64); 9] = [
    (&STORM, 4000),
    (&STILL, 4000),
    (&GLIMPSE, 2000),
    (&WRECK, 4000),
    (&TINY, 4000),
    (&RESTARTS, 4000),
    (&RUSH, 50),
    (&FULL, 50),
    (&WIDE, 20),
];

/// From each of these seeds on the hunt for a wrong idea must succeed.
const SEEDS: [u64; 3] = [0, 1_000_000, 2_000_000];

#[derive(Default)]
struct Tally {
    passed: u64,
    failed: u64,
}

impl Tally {
    fn note(&mut self, good: bool) {
        if good {
            self.passed += 1;
        } else {
            self.failed += 1;
        }
    }
}

fn main() -> ExitCode {
    let factor = match std::env::args().nth(1).map(|word| word.parse::<u64>()) {
        None => 1,
        Some(Ok(factor)) if factor > 0 => factor,
        Some(_) => {
            eprintln!("usage: history [FACTOR]");
            return ExitCode::from(2);
        }
    };
    let mut tally = Tally::default();
    println!("Journals under the rules");
    println!(
        "                               premise holds              premise fails   all orders"
    );
    println!(
        "           journals   operations  journals  none  by stamp  journals  none       tried"
    );
    for (profile, journals) in SOUND {
        sound(profile, journals * factor, &mut tally);
    }
    println!();
    println!("Wrong ideas: the journal by hand, and the first of at most {LIMIT} drawn journals");
    println!("that shows them wrong, from {} seeds on", SEEDS.len());
    for idea in &IDEAS {
        wrong(idea, &mut tally);
    }
    println!();
    println!("{} passed, {} failed", tally.passed, tally.failed);
    ExitCode::from(u8::from(tally.failed > 0))
}

/// Every journal whose premise holds has an order, none gives a stamp to two
/// writes, and the ways to find an order agree on all.
fn sound(profile: &Profile, journals: u64, tally: &mut Tally) {
    let (mut held, mut operations, mut by_stamp, mut tried) = (0, 0, 0, 0);
    let (mut violations, mut beyond) = (0, 0);
    for seed in 0..journals {
        let verdict = examine::<Sound>(&journal::<Sound>(seed, profile));
        held += u64::from(verdict.premise);
        operations += verdict.operations.len();
        violations += u64::from(verdict.is_violation());
        beyond += u64::from(!verdict.premise && !verdict.order);
        by_stamp += u64::from(verdict.premise && verdict.by_stamp);
        tried += u64::from(verdict.tried.is_some());
        tally.note(!verdict.is_wrong() && !verdict.is_at_odds());
    }
    println!(
        "{:8} {journals:10} {operations:12} {held:9} {violations:5} {by_stamp:9} {:9} {beyond:5} {tried:11}",
        profile.name,
        journals - held,
    );
}

/// The journal by hand and some drawn one show the idea wrong; under the rules
/// the same journal by hand does no harm.
fn wrong(idea: &Idea, tally: &mut Tally) {
    let by_hand = (idea.by_hand)();
    let found = (idea.examine)(&by_hand).is_violation();
    let harmless = !examine::<Sound>(&by_hand).is_violation();
    tally.note(found);
    tally.note(harmless);
    let runs: Vec<String> = SEEDS
        .iter()
        .map(|seed| {
            let run = idea.hunt(*seed, LIMIT);
            tally.note(run.is_some());
            run.map_or("not found".to_string(), |run| run.to_string())
        })
        .collect();
    println!(
        "{:46} by hand: {:9} drawn ({}): run {}",
        idea.name,
        if found { "found," } else { "not found," },
        idea.profile.name,
        runs.join(", "),
    );
}

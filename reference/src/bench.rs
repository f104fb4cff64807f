//! The benchmark: the same calls on both sides by turns, in one run.

use std::hint::black_box;
use std::time::{Duration, Instant};

use crate::compare::library::{pack, Library, Reference};
use crate::generate::journals::journal;
use crate::generate::logs::kept;
use crate::generate::profile::{Profile, FULL, WIDE};
use crate::generate::stops::{stopped, STOPS};
use crate::journal::Journal;
use crate::judge::{bytes, LINES, LINE_SIZE, PLACE_SIZE};
use crate::layout::{IMAGE_SIZE, LAST_MESSAGE, STEP_SIZE};
use crate::operations::{fresh, replay, watch_counted, FIRST_SIZE};
use crate::rules::Sound;
use crate::shorten::STEPS;
use crate::xorshift::Draws;

/// How often each row is measured on each side; odd, so that a median is one of
/// the measurements.
pub const ROUNDS: usize = 31;

/// A row of the table: nanoseconds for one unit on each side, and the library's
/// time as a part of the reference's in the same round. Each is a median.
pub struct Row {
    pub what: &'static str,
    pub unit: &'static str,
    pub reference: f64,
    pub library: f64,
    pub ratio: f64,
}

/// A journal that uses every message number, with its fresh image and the image
/// after it.
struct Full {
    fresh: Vec<u8>,
    journal: Vec<u8>,
    after: Vec<u8>,
}

impl Full {
    fn steps(&self) -> usize {
        self.journal.len() / STEP_SIZE
    }
}

/// The first journals of this profile that use every message number.
fn full_journals(profile: &Profile, count: usize) -> Vec<Full> {
    (0..)
        .filter_map(|seed| full_journal(seed, profile))
        .take(count)
        .collect()
}

fn full_journal(seed: u64, profile: &Profile) -> Option<Full> {
    let drawn = journal::<Sound>(seed, profile);
    let mut image = vec![0; IMAGE_SIZE];
    fresh(&mut image, drawn.members, drawn.f, drawn.r)
        .expect("a journal begins with a fresh world");
    let full = Full {
        fresh: image.clone(),
        journal: drawn.bytes(),
        after: {
            let replayed = replay(&mut image, &drawn.bytes());
            assert!(
                replayed.stopped.is_none(),
                "a journal without odd steps is accepted"
            );
            image
        },
    };
    let used = u16::from_le_bytes([full.after[2], full.after[3]]);
    (used == LAST_MESSAGE).then_some(full)
}

/// All rows, the library against the reference.
pub fn rows(library: &dyn Library) -> Vec<Row> {
    let full = full_journals(&FULL, 8);
    let wide = full_journals(&WIDE, 8);
    let worst = worst_to_shorten(200);
    let logs = ordered_logs(8);
    vec![
        row(library, "replay of full journals", "step", |side| {
            replays(side, &full)
        }),
        row(
            library,
            "replay of full journals, 32 servers",
            "step",
            |side| replays(side, &wide),
        ),
        row(
            library,
            "single step, readable test included",
            "step",
            |side| steps(side, &full[..2]),
        ),
        row(library, "fresh world", "call", fresh_worlds),
        row(
            library,
            "readable test alone (premise, full image)",
            "call",
            |side| premises(side, &full),
        ),
        row(
            library,
            "readable test alone (premise, fresh image)",
            "call",
            |side| premises_of_fresh(side, &full),
        ),
        between(
            "watched replay, against the library's own replay",
            "step",
            || replays(library, &full),
            || {
                watches(&full, |image, journal, first| {
                    library.watch(image, journal, first)
                })
            },
        ),
        between(
            "watched replay, against a full count after each step",
            "step",
            || watches(&full, counted),
            || {
                watches(&full, |image, journal, first| {
                    library.watch(image, journal, first)
                })
            },
        ),
        between(
            "the same, 32 servers",
            "step",
            || watches(&wide, counted),
            || {
                watches(&wide, |image, journal, first| {
                    library.watch(image, journal, first)
                })
            },
        ),
        row(library, "load of a seed", "step", loads),
        row(library, "log of 256 operations, in order", "call", |side| {
            judgements(side, &logs)
        }),
        row(
            library,
            "short journal of 512 steps (worst of 200)",
            "call",
            |side| shortenings(side, &worst),
        ),
    ]
}

fn loads(side: &dyn Library) -> Spent {
    const STEPS: usize = 10_000;
    let mut journal = vec![0; STEPS * STEP_SIZE];
    let begin = Instant::now();
    let answer = side.load(black_box(&mut journal), black_box(1), STEPS as u32);
    let spent = begin.elapsed();
    assert_eq!(answer, 0, "the buffer has the load's length");
    (spent, STEPS)
}

/// The first logs of the largest size that are drawn and have an order.
fn ordered_logs(count: usize) -> Vec<Vec<u8>> {
    let mut draws = Draws::new(5);
    let drawn = std::iter::repeat_with(|| bytes(&kept(&mut draws, LINES)));
    drawn
        .filter(|log| judged(&Reference, log) % 256 == 0)
        .take(count)
        .collect()
}

fn judged(side: &dyn Library, log: &[u8]) -> u64 {
    let mut order = vec![0; log.len() / LINE_SIZE * PLACE_SIZE];
    side.judge(black_box(log), black_box(&mut order))
}

fn judgements(side: &dyn Library, logs: &[Vec<u8>]) -> Spent {
    let begin = Instant::now();
    for log in logs {
        assert_eq!(judged(side, log) % 256, 0, "the log has an order");
    }
    (begin.elapsed(), logs.len())
}

/// The journal that takes the reference longest to shorten, among so many of
/// the largest length.
fn worst_to_shorten(count: usize) -> Journal {
    let mut draws = Draws::new(6);
    let timed = (0..count).map(|number| {
        let journal = stopped(&mut draws, STOPS[number % STOPS.len()], STEPS);
        (shortenings(&Reference, &journal).0, journal)
    });
    timed
        .max_by_key(|(time, _)| *time)
        .expect("there are some")
        .1
}

fn shortenings(side: &dyn Library, journal: &Journal) -> Spent {
    let bytes = journal.bytes();
    let mut image = vec![0; IMAGE_SIZE];
    let mut buffer = vec![0; bytes.len()];
    let begin = Instant::now();
    let answer = side.shorten(
        black_box(&mut image),
        journal.members,
        journal.f,
        journal.r,
        black_box(&bytes),
        &mut buffer,
    );
    let spent = begin.elapsed();
    assert_eq!(answer % 256, 0, "the journal stops");
    (spent, 1)
}

/// Time spent, and on how many units.
type Spent = (Duration, usize);

/// Measures both sides by turns.
fn row(
    library: &dyn Library,
    what: &'static str,
    unit: &'static str,
    measure: impl Fn(&dyn Library) -> Spent,
) -> Row {
    between(what, unit, || measure(&Reference), || measure(library))
}

/// The same of any two: the second stands in the library's place.
fn between(
    what: &'static str,
    unit: &'static str,
    one: impl Fn() -> Spent,
    other: impl Fn() -> Spent,
) -> Row {
    let mut ours = Vec::new();
    let mut theirs = Vec::new();
    // One round of each to warm up, which is not counted.
    one();
    other();
    for _ in 0..ROUNDS {
        ours.push(per_unit(one()));
        theirs.push(per_unit(other()));
    }
    // The sides of one round met the same load of the machine.
    let ratios = ours.iter().zip(&theirs).map(|(our, their)| their / our);
    Row {
        what,
        unit,
        ratio: median(ratios.collect()),
        reference: median(ours),
        library: median(theirs),
    }
}

fn per_unit((time, units): Spent) -> f64 {
    time.as_nanos() as f64 / units as f64
}

fn median(mut times: Vec<f64>) -> f64 {
    times.sort_by(f64::total_cmp);
    times[times.len() / 2]
}

/// Each journal on its fresh image; copying the image is not timed.
fn replays(side: &dyn Library, journals: &[Full]) -> Spent {
    let mut spent = Duration::ZERO;
    let mut steps = 0;
    let mut image = vec![0; IMAGE_SIZE];
    for full in journals {
        image.copy_from_slice(&full.fresh);
        let begin = Instant::now();
        let answer = side.replay(black_box(&mut image), black_box(&full.journal));
        spent += begin.elapsed();
        assert_eq!(answer, 256 * full.steps() as u64, "every step is accepted");
        assert!(image == full.after, "the journal leads to the same image");
        steps += full.steps();
    }
    (spent, steps)
}

/// A replay of the reference with a premise report after each step: a count of
/// all servers against all views.
fn counted(image: &mut [u8], journal: &[u8], first: &mut [u8]) -> u64 {
    let replayed = watch_counted(image, journal, first).replayed;
    pack(replayed.refusal(), replayed.done as u64)
}

/// Each journal with the premise watched.
fn watches(journals: &[Full], watch: impl Fn(&mut [u8], &[u8], &mut [u8]) -> u64) -> Spent {
    let mut spent = Duration::ZERO;
    let mut steps = 0;
    let mut image = vec![0; IMAGE_SIZE];
    let mut first = [0; FIRST_SIZE];
    for full in journals {
        image.copy_from_slice(&full.fresh);
        let begin = Instant::now();
        let answer = watch(black_box(&mut image), black_box(&full.journal), &mut first);
        spent += begin.elapsed();
        assert_eq!(answer, 256 * full.steps() as u64, "every step is accepted");
        assert!(image == full.after, "the journal leads to the same image");
        steps += full.steps();
    }
    (spent, steps)
}

/// Each journal step by step, with the image tested at every one.
fn steps(side: &dyn Library, journals: &[Full]) -> Spent {
    let mut spent = Duration::ZERO;
    let mut steps = 0;
    for full in journals {
        let mut image = full.fresh.clone();
        let begin = Instant::now();
        for step in full.journal.chunks_exact(STEP_SIZE) {
            let answer = side.step(black_box(&mut image), black_box(step));
            assert_eq!(answer % 256, 0, "every step is accepted");
        }
        spent += begin.elapsed();
        assert!(image == full.after, "the journal leads to the same image");
        steps += full.steps();
    }
    (spent, steps)
}

/// Fresh worlds over a buffer that holds one already.
fn fresh_worlds(side: &dyn Library) -> Spent {
    const CALLS: usize = 500;
    let mut image = vec![0; IMAGE_SIZE];
    let begin = Instant::now();
    for number in 0..CALLS {
        let members = black_box(0xffff_ffff >> (number % 16));
        let answer = side.fresh(black_box(&mut image), members, black_box(1), 0);
        assert_eq!(answer, 0, "the world is accepted");
    }
    (begin.elapsed(), CALLS)
}

fn premises(side: &dyn Library, journals: &[Full]) -> Spent {
    timed_premises(side, journals, |full| &full.after)
}

fn premises_of_fresh(side: &dyn Library, journals: &[Full]) -> Spent {
    timed_premises(side, journals, |full| &full.fresh)
}

fn timed_premises(side: &dyn Library, journals: &[Full], image: impl Fn(&Full) -> &[u8]) -> Spent {
    const CALLS: usize = 50;
    let begin = Instant::now();
    for full in journals {
        for _ in 0..CALLS {
            let answer = side.premise(black_box(image(full)));
            assert_eq!(answer % 256, 0, "the image is readable");
        }
    }
    (begin.elapsed(), journals.len() * CALLS)
}

/// The table, as Markdown.
pub fn table(rows: &[Row]) -> String {
    let mut text = String::from("| what | unit | reference | library | ratio |\n");
    text += "|---|---|---:|---:|---:|\n";
    for row in rows {
        text += &format!(
            "| {} | {} | {:.1} ns | {:.1} ns | {:.2} |\n",
            row.what, row.unit, row.reference, row.library, row.ratio,
        );
    }
    text
}

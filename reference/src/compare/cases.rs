//! The calls that are compared: single steps on images of every sort, and
//! whole journals.

use crate::codec::image_of;
use crate::compare::check::Comparison;
use crate::compare::restarts::{every_cut, long_chains, mixed_chains};
use crate::generate::answers::list;
use crate::generate::calls::{administrator_call, client_call, server_call, spoil_call};
use crate::generate::journals::{any_read_size, journal};
use crate::generate::logs::{kept, log};
use crate::generate::phases::{arriving, given, opened, spoiled as spoiled_phase};
use crate::generate::profile::{Profile, LATECOMERS, PROFILES, WRECK};
use crate::generate::specimen::specimen;
use crate::generate::spoils::{change_byte, spoiled};
use crate::generate::steps::{aimed_start, aimed_step, aimed_step_of, odd_step};
use crate::generate::stops::{many_passes, stopped, STOPS};
use crate::generate::worlds::world;
use crate::history::operations::run;
use crate::journal::Journal;
use crate::judge::{bytes, log_of, LINES, LINE_SIZE, PLACE_SIZE};
use crate::layout::{ENTRY_SIZE, HOLDERS_AT, IMAGE_SIZE, STEP_SIZE, VIEWS};
use crate::operations::FIRST_SIZE;
use crate::phase::{answer_and_view, PHASE_SIZE};
use crate::readable::Clause;
use crate::record::{step_kind, Step};
use crate::rules::Sound;
use crate::script::Script;
use crate::shorten::STEPS as LONGEST;
use crate::step::step;
use crate::vouch;
use crate::world::{View, World};
use crate::xorshift::Draws;

/// Journals in a run of the least size.
pub const JOURNALS: usize = 300;
/// Long journals to be shortened in a run of the least size.
pub const SHORTENED: usize = 500;
/// Single steps in a run of the least size.
pub const STEPS: usize = 20_000;

/// All cases, for at least this many single steps and journals.
pub fn run_all(comparison: &mut Comparison, steps: usize, journals: usize, seed: u64) {
    let mut draws = Draws::new(seed);
    quorum_sizes(comparison);
    read_sizes(comparison, &mut draws);
    fresh_worlds(comparison, &mut draws, steps / 20);
    every_clause(comparison, &mut draws);
    whole_journals(comparison, &mut draws, journals);
    loads(comparison, &mut draws);
    // In a run of the least size restarts at every length.
    let apart = STEPS.div_ceil(steps.max(1));
    long_chains(comparison, apart);
    mixed_chains(comparison);
    every_cut(comparison, &mut draws, apart);
    broken_premises(comparison, &mut draws, journals);
    logs(comparison, &mut draws, steps / 4);
    lists(comparison, &mut draws, steps);
    openings(comparison, &mut draws, steps / 10);
    phases(comparison, &mut draws, steps / 10);
    let before = comparison.steps;
    while comparison.steps - before < steps as u64 {
        // Images from runs, and images from nowhere.
        steps_along_a_run(comparison, &mut draws, 200);
        steps_on_drawn_worlds(comparison, &mut draws, 150);
        closes_on_drawn_worlds(comparison, &mut draws, 100);
        single_machines(comparison, &mut draws, 100);
    }
}

/// Records of drawn worlds and what is asked of them, some with a byte changed
/// or of another length.
fn single_machines(comparison: &mut Comparison, draws: &mut Draws, count: usize) {
    for _ in 0..count / 10 {
        let world = world(draws);
        for _ in 0..10 {
            let (record, asked) = spoil_call(server_call(&world, draws), draws);
            comparison.server(&record, &asked);
            let (record, asked) = spoil_call(client_call(&world, draws), draws);
            comparison.client(&record, &asked);
            let (record, asked) = spoil_call(administrator_call(&world, draws), draws);
            comparison.administrator(&record, &asked);
        }
    }
}

fn quorum_sizes(comparison: &mut Comparison) {
    let edges = [
        43,
        255,
        256,
        0x5555_5555,
        0x5555_5556,
        0x7fff_ffff,
        0x8000_0000,
        u32::MAX - 1,
        u32::MAX,
    ];
    let sizes: Vec<u32> = (0..=40).chain(edges).collect();
    for n in &sizes {
        for f in &sizes {
            for r in &sizes {
                comparison.quorum(*n, *f, *r);
            }
        }
    }
}

/// Fresh worlds over buffers that hold something, of right and wrong length.
fn fresh_worlds(comparison: &mut Comparison, draws: &mut Draws, count: usize) {
    for _ in 0..count {
        let length = if draws.chance(10) {
            wrong_length(draws)
        } else {
            IMAGE_SIZE
        };
        let byte = draws.word() as u8;
        let n = draws.between(0, 32);
        let members = draws.bits(n, 32);
        let f = match draws.below(4) {
            0 => draws.below(256),
            1 => n.div_ceil(3),
            _ => n.saturating_sub(1) / 3,
        };
        let r = any_read_size(draws, n, f);
        comparison.fresh(&vec![byte; length], members, f as u8, r);
    }
}

/// Every read size up to two beyond its bounds of every n and f that obey the
/// size rule: in a fresh world, in a new view, and in an image. Where it is
/// permitted, a filing and a read that end as soon as they can, END and START.
fn read_sizes(comparison: &mut Comparison, draws: &mut Draws) {
    let base = comparison.fresh(&[0; IMAGE_SIZE], 0b1111, 1, 0);
    for n in 1..=32 {
        for f in 0..=(n - 1) / 3 {
            for r in 0..=n + f + 3 {
                let view = View {
                    members: draws.bits(n, 32),
                    f: f as u8,
                    r: r as u8,
                    ..View::default()
                };
                one_read_size(comparison, &base, view);
            }
        }
    }
}

fn one_read_size(comparison: &mut Comparison, base: &[u8], view: View) {
    let View { members, f, r, .. } = view;
    let image = comparison.fresh(&[0xff; IMAGE_SIZE], members, f, r);
    comparison.step(base, &Step::sized_view(members, f, r).bytes());
    if view.size_rule().is_ok() {
        let journal = as_soon_as_it_can(view);
        comparison.replay(&image, &journal.bytes());
        return;
    }
    let mut world = World::fresh(members, f, 0).expect("n and f obey the size rule");
    world.views[0].r = r;
    comparison.premise(&image_of(&world)[..]);
    comparison.step(&image_of(&world)[..], &Step::read(1).bytes());
}

/// A filing and a read by servers in number order, and then the view's end.
fn as_soon_as_it_can(view: View) -> Journal {
    let View { members, f, r, .. } = view;
    let mut script = Script::sized(members, f, r);
    let servers: Vec<u8> = (1..=32).filter(|s| view.has_member(*s)).collect();
    script.act(Step::write(1, 7));
    script.finish_in_turn(1, &servers);
    script.act(Step::read(2));
    script.finish_in_turn(2, &servers);
    script.act(Step::sized_view(members, f, r));
    let end = script.world.header.end;
    for server in &servers {
        if script.world.is_ending() {
            script.exchange(end, &[*server]);
        }
    }
    script.journal
}

/// A thousand steps of one seed, and shorter loads of 200 others; then what the
/// first one does in a world, step by step.
fn loads(comparison: &mut Comparison, draws: &mut Draws) {
    let thousand = comparison.load(&vec![0xff; 1000 * STEP_SIZE], 1, 1000);
    for number in 0..200 {
        let seed = match number {
            0 => 0,
            1 => 1,
            2 => u32::MAX,
            _ => draws.word() as u32,
        };
        let steps = draws.below(60);
        comparison.load(&vec![0xff; steps * STEP_SIZE], seed, steps as u32);
        let length = draws.below(60 * STEP_SIZE);
        comparison.load(&vec![0xff; length], seed, steps as u32);
    }
    for steps in [u32::MAX, u32::MAX / 12 + 1, 357_913_942, 1] {
        comparison.load(&[0xff; 24], 7, steps);
    }
    let mut image = comparison.fresh(&[0; IMAGE_SIZE], 0b1111, 1, 0);
    for step in thousand.chunks(STEP_SIZE).take(400) {
        image = comparison.step(&image, step);
    }
}

/// Small logs, large ones, those of runs, and too large ones; orders' buffers of
/// other lengths.
fn logs(comparison: &mut Comparison, draws: &mut Draws, count: usize) {
    for number in 0..count {
        let lines = match number % 50 {
            0 => log(draws, LINES),
            1 => kept(draws, LINES),
            2 => {
                let profile = *draws.pick(&PROFILES).expect("there are profiles");
                log_of(&run::<Sound>(&journal::<Sound>(draws.word(), profile)).operations)
            }
            3 => kept(draws, LINES + 1),
            _ => log(draws, 8),
        };
        let mut bytes = bytes(&lines);
        comparison.judge(&bytes, lines.len() * PLACE_SIZE);
        if draws.chance(5) {
            comparison.judge(&bytes, draws.below(2 * lines.len() * PLACE_SIZE + 1));
            bytes.truncate(draws.below(bytes.len() + 1));
            comparison.judge(&bytes, bytes.len() / LINE_SIZE * PLACE_SIZE);
        }
    }
}

/// Lists of answers, both choices from each; other lengths too.
fn lists(comparison: &mut Comparison, draws: &mut Draws, count: usize) {
    for _ in 0..count {
        let list = list(draws);
        let mut answers = vouch::bytes(&list.answers);
        comparison.vouch(&list, &answers, ENTRY_SIZE);
        if draws.chance(2) {
            comparison.vouch(&list, &answers, draws.below(2 * ENTRY_SIZE));
            answers.truncate(draws.below(answers.len() + 1));
            comparison.vouch(&list, &answers, ENTRY_SIZE);
            // More answers than there can be servers.
            let many = [0x21; 40 * vouch::ANSWER_SIZE];
            comparison.vouch(&list, &many, ENTRY_SIZE);
        }
    }
}

/// Records of phases opened over buffers that hold something.
fn openings(comparison: &mut Comparison, draws: &mut Draws, count: usize) {
    for _ in 0..count {
        let length = match draws.below(20) {
            0 => draws.below(2 * PHASE_SIZE),
            _ => PHASE_SIZE,
        };
        let kind = draws.below(6) as u8;
        let view = *draws.pick(&[0, 0, 1, 31, 32, 33, 255]).expect("views");
        let request = *draws
            .pick(&[0, 1, 9, 1023, 1024, u16::MAX])
            .expect("numbers");
        comparison.open(&vec![0xff; length], kind, view, request);
    }
}

/// Phases with all the answers that arrive for them, and some after they are
/// closed. The record is at each place that of the list of the answers taken.
fn phases(comparison: &mut Comparison, draws: &mut Draws, count: usize) {
    for _ in 0..count {
        let mut opened = opened(draws);
        let head = opened.phase.head;
        let mut record = comparison.open(&[0xff; PHASE_SIZE], head.kind, head.view, head.request);
        let mut late = 0;
        while late < 3 {
            late += usize::from(opened.phase.head.request == 0);
            let (message, view) = arriving(&opened, head.request, draws);
            let bytes = given(message, view, draws);
            if draws.chance(5) {
                let mut garbage = spoiled_phase(&record, opened.views[0].0, draws);
                comparison.answer(&mut garbage, &bytes, ENTRY_SIZE);
            }
            if draws.chance(2) {
                let length = draws.below(ENTRY_SIZE);
                comparison.answer(&mut record.clone(), &bytes, length);
                comparison.answer(&mut record.clone(), &bytes, length + ENTRY_SIZE + 1);
            }
            if comparison.answer(&mut record, &bytes, ENTRY_SIZE) {
                let (message, view) = answer_and_view(&bytes);
                let taken = opened.phase.take(&message, &view);
                taken.expect("what the record takes the list takes");
            }
            comparison.same_end(&record, &opened.phase.record(), "the list of the answers");
        }
    }
}

/// Long journals that stop with each refusal, one that takes many passes, those
/// that stop on none, and every wrong length.
pub fn short_journals(comparison: &mut Comparison, count: usize, seed: u64) {
    let draws = &mut Draws::new(seed);
    for number in 0..count {
        let steps = draws.between(400, LONGEST);
        let journal = stopped(draws, STOPS[number % STOPS.len()], steps);
        shorten_one(comparison, draws, &journal);
    }
    shorten_one(comparison, draws, &many_passes(20));
    for number in 0..60 {
        let profile = PROFILES[number % PROFILES.len()].with_odd(number % 4 == 0);
        let mut journal = journal::<Sound>(draws.word(), &profile);
        journal.steps.retain(|step| step.len() == STEP_SIZE);
        shorten_one(comparison, draws, &journal);
        let steps = draws.below(4);
        journal.steps.truncate(steps);
        shorten_one(comparison, draws, &journal);
    }
}

fn shorten_one(comparison: &mut Comparison, draws: &mut Draws, journal: &Journal) {
    let bytes = journal.bytes();
    let view = View {
        members: journal.members,
        f: journal.f,
        r: journal.r,
        ..View::default()
    };
    let none = View { members: 0, ..view };
    let (image, buffer) = (vec![0xff; IMAGE_SIZE], vec![0xff; bytes.len()]);
    comparison.shorten(&image, view, &bytes, &buffer);
    match draws.below(20) {
        0 => comparison.shorten(&image, view, &bytes, &buffer[buffer.len().min(1)..]),
        1 => comparison.shorten(&image[1..], view, &bytes, &buffer),
        2 => comparison.shorten(&image, none, &bytes, &buffer),
        3 => comparison.shorten(&image, View { r: 255, ..view }, &bytes, &buffer),
        4 => {
            let length = draws.below(bytes.len() + 1);
            comparison.shorten(&image, view, &bytes[..length], &buffer[..length]);
        }
        _ => {}
    }
}

/// Lengths near the right one, and far from it.
fn wrong_length(draws: &mut Draws) -> usize {
    match draws.below(6) {
        0 => 0,
        1 => IMAGE_SIZE - 1,
        2 => IMAGE_SIZE + 1,
        3 => STEP_SIZE,
        4 => 2 * IMAGE_SIZE,
        _ => draws.below(IMAGE_SIZE),
    }
}

/// The specimen, and the specimen spoiled against each clause in turn.
fn every_clause(comparison: &mut Comparison, draws: &mut Draws) {
    let whole = specimen();
    let spoiled = Clause::ALL.iter().flat_map(|clause| spoiled(*clause));
    for world in std::iter::once(specimen()).chain(spoiled) {
        let image = image_of(&world);
        comparison.premise(&image[..]);
        comparison.replay(&image[..], &[]);
        comparison.step(&image[..], &aimed_step(&whole, draws).bytes());
    }
}

/// Worlds that no run reaches, a few steps on each.
fn steps_on_drawn_worlds(comparison: &mut Comparison, draws: &mut Draws, count: usize) {
    for _ in 0..count / 4 {
        let world = world(draws);
        comparison.premise(&image_of(&world)[..]);
        for _ in 0..4 {
            one_step(comparison, draws, &world);
        }
    }
}

/// Worlds that no run reaches, and on each some answers to take and a START:
/// the steps with the most ways to go.
fn closes_on_drawn_worlds(comparison: &mut Comparison, draws: &mut Draws, count: usize) {
    for _ in 0..count / 5 {
        let world = world(draws);
        let image = image_of(&world);
        for _ in 0..4 {
            let take = aimed_step_of(step_kind::TAKE, &world, draws);
            comparison.step(&image[..], &take.bytes());
        }
        if let Some(start) = aimed_start(&world, draws) {
            comparison.step(&image[..], &start.bytes());
        }
    }
}

/// Images along a drawn run, at places where steps are then tried.
fn steps_along_a_run(comparison: &mut Comparison, draws: &mut Draws, count: usize) {
    let profile = *draws.pick(&PROFILES).expect("there are profiles");
    let journal = journal::<Sound>(draws.word(), profile);
    let mut world =
        World::fresh(journal.members, journal.f, journal.r).expect("the journal's world");
    let every = journal.steps.len().max(1).div_ceil(count / 2);
    for (place, bytes) in journal.steps.iter().enumerate() {
        if place % every == 0 {
            comparison.step(&image_of(&world)[..], bytes);
            one_step(comparison, draws, &world);
        }
        if let Ok(bytes) = bytes.as_slice().try_into() {
            // Odd steps of a journal may be refused; they change nothing then.
            let _ = step::<Sound>(&mut world, &Step::load(bytes));
        }
    }
    comparison.premise(&image_of(&world)[..]);
}

/// A step on this world's image, or on what is left of it: one byte changed, or
/// a wrong length.
fn one_step(comparison: &mut Comparison, draws: &mut Draws, world: &World) {
    let mut image = image_of(world);
    let bytes = if draws.chance(70) {
        aimed_step(world, draws).bytes().to_vec()
    } else {
        odd_step(world, draws)
    };
    match draws.below(20) {
        0 => {
            let mut image = image.to_vec();
            image.resize(wrong_length(draws), 0);
            comparison.step(&image, &bytes);
            comparison.premise(&image);
        }
        1..=4 => {
            change_byte(&mut image, world.header.used, draws);
            comparison.step(&image[..], &bytes);
            comparison.premise(&image[..]);
        }
        _ => {
            comparison.step(&image[..], &bytes);
        }
    }
}

/// Journals from fresh worlds, with and without odd steps, whole, in parts, on
/// spoiled images and cut short.
fn whole_journals(comparison: &mut Comparison, draws: &mut Draws, count: usize) {
    for number in 0..count {
        let profile = PROFILES[number % PROFILES.len()];
        let odd = number % 3 == 0;
        one_journal(comparison, draws, &profile.with_odd(odd));
        comparison.journals += 1;
        if number % 10 == 0 {
            journal_on_drawn_world(comparison, draws);
        }
    }
}

fn one_journal(comparison: &mut Comparison, draws: &mut Draws, profile: &Profile) {
    let mut journal = journal::<Sound>(draws.word(), profile);
    // A replay takes whole steps only; others are tried at its end.
    journal.steps.retain(|step| step.len() == STEP_SIZE);
    let bytes = journal.bytes();
    let fresh = comparison.fresh(&[0xff; IMAGE_SIZE], journal.members, journal.f, journal.r);
    let (whole, _) = replay_past_refusals(comparison, &fresh, &bytes);
    let cut = draws.below(bytes.len() / STEP_SIZE + 1) * STEP_SIZE;
    let (part, _) = replay_past_refusals(comparison, &fresh, &bytes[..cut]);
    let (parts, _) = replay_past_refusals(comparison, &part, &bytes[cut..]);
    comparison.same_end(&parts, &whole, "a journal in two parts");
    resumed(comparison, draws, &fresh, &bytes);
    watched(comparison, draws, &fresh, &bytes);
    let short = draws.below(bytes.len() + 1);
    comparison.replay(&fresh, &bytes[..short]);
    if draws.chance(20) {
        comparison.replay(&whole[..draws.below(IMAGE_SIZE)], &bytes);
        let mut image = *image_of(&specimen());
        change_byte(&mut image, specimen().header.used, draws);
        comparison.replay(&image, &bytes);
    }
}

/// A journal watched, whole and from somewhere on, where the premise may have
/// failed already; buffers of other lengths.
fn watched(comparison: &mut Comparison, draws: &mut Draws, fresh: &[u8], journal: &[u8]) {
    comparison.watch(fresh, journal, FIRST_SIZE);
    let cut = draws.below(journal.len() / STEP_SIZE + 1) * STEP_SIZE;
    let (part, done) = comparison.replay(fresh, &journal[..cut]);
    comparison.watch(&part, &journal[done * STEP_SIZE..], FIRST_SIZE);
    comparison.watch(&part, &[], FIRST_SIZE);
    match draws.below(8) {
        0 => comparison.watch(fresh, journal, draws.below(2 * FIRST_SIZE)),
        1 => comparison.watch(&fresh[1..], journal, FIRST_SIZE),
        2 => {
            let mut image = part;
            image[HOLDERS_AT + draws.below(VIEWS)] ^= 1;
            comparison.watch(&image, journal, FIRST_SIZE);
        }
        3 => comparison.watch(
            fresh,
            &journal[..draws.below(journal.len() + 1)],
            FIRST_SIZE,
        ),
        _ => {}
    }
}

/// Runs in which the premise breaks by a fault, or by a START that gives a key
/// to one more faulty server.
fn broken_premises(comparison: &mut Comparison, draws: &mut Draws, count: usize) {
    for number in 0..count {
        let profile = [&WRECK, &LATECOMERS][number % 2].with_odd(false);
        let journal = journal::<Sound>(draws.word(), &profile);
        let fresh = comparison.fresh(&[0; IMAGE_SIZE], journal.members, journal.f, journal.r);
        comparison.watch(&fresh, &journal.bytes(), FIRST_SIZE);
    }
}

/// A journal resumed where a part of it ended, at its stop, at its end and
/// beyond it.
fn resumed(comparison: &mut Comparison, draws: &mut Draws, fresh: &[u8], journal: &[u8]) {
    let steps = journal.len() / STEP_SIZE;
    let (whole, done) = comparison.replay(fresh, journal);
    let cut = draws.below(done + 1);
    let (part, _) = comparison.replay(fresh, &journal[..cut * STEP_SIZE]);
    let after = comparison.resume(&part, journal, cut as u64);
    comparison.same_end(&after, &whole, "a journal resumed");
    comparison.resume(&whole, journal, done as u64);
    comparison.resume(&whole, journal, steps as u64);
    let beyond = [
        steps as u64 + 1,
        u64::from(u32::MAX),
        u64::MAX / 12 + 1,
        u64::MAX,
    ];
    comparison.resume(
        &whole,
        journal,
        *draws.pick(&beyond).expect("there are some"),
    );
    let short = draws.below(journal.len() + 1);
    comparison.resume(&whole, &journal[..short], draws.below(steps + 1) as u64);
    if draws.chance(10) {
        comparison.resume(&whole[1..], journal, 0);
        let mut image = whole;
        image[0] ^= 3;
        comparison.resume(&image, journal, cut as u64);
    }
}

/// Replays the journal; after each stop the refused step is tried again, then
/// left out and the rest replayed on the same image.
pub fn replay_past_refusals(
    comparison: &mut Comparison,
    image: &[u8],
    journal: &[u8],
) -> (Vec<u8>, usize) {
    let (mut after, mut done) = comparison.replay(image, journal);
    let mut rest = &journal[done * STEP_SIZE..];
    while rest.len() >= STEP_SIZE {
        comparison.step(&after, &rest[..STEP_SIZE]);
        rest = &rest[STEP_SIZE..];
        let (next, more) = comparison.replay(&after, rest);
        after = next;
        done += more;
        rest = &rest[more * STEP_SIZE..];
    }
    (after, done)
}

/// A handful of aimed steps on a world that no run reaches.
fn journal_on_drawn_world(comparison: &mut Comparison, draws: &mut Draws) {
    let world = world(draws);
    let mut bytes = Vec::new();
    for _ in 0..draws.between(1, 20) {
        bytes.extend(aimed_step(&world, draws).bytes());
    }
    replay_past_refusals(comparison, &image_of(&world)[..], &bytes);
}

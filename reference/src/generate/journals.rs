//! Journals drawn from a seed, each step chosen in view of the world so far.

use crate::generate::moves::Run;
use crate::generate::profile::{Faults, Move, Profile, MOVES};
use crate::journal::Journal;
use crate::premise::premise;
use crate::record::{step_kind, Step};
use crate::rules::Rules;
use crate::step::step;
use crate::world::{View, World};
use crate::xorshift::Draws;

/// After that many proposals in vain a run is taken to be stuck.
const STUCK: usize = 1000;

/// The journal of this seed and profile. The rules in force shape it, since
/// each step is drawn for the world that the earlier ones left.
pub fn journal<R: Rules>(seed: u64, profile: &Profile) -> Journal {
    let mut draws = Draws::new(seed);
    let View { members, f, r, .. } = draw_view(&mut draws, profile);
    let world = World::fresh(members, f, r).expect("a drawn view keeps the size rule");
    let mut journal = Journal::sized(members, f, r);
    let mut run = Run::new(world, draws);
    let mut in_vain = 0;
    while journal.steps.len() < profile.steps && in_vain < STUCK {
        in_vain += 1;
        run.part_network(profile);
        let drawn = MOVES[run.draws.by_weight(&profile.weights)];
        let Some(bytes) = run.propose(drawn, profile) else {
            continue;
        };
        if profile.faults == Faults::Within && breaks_premise::<R>(&run.world, &bytes) {
            continue;
        }
        // A proposal that is refused takes no place, but for odd ones.
        let accepted = run.apply::<R>(&bytes);
        if accepted {
            in_vain = 0;
        }
        if accepted || drawn == Move::Odd {
            journal.steps.push(bytes);
        }
    }
    journal
}

/// A view that keeps the size rule.
pub fn draw_view(draws: &mut Draws, profile: &Profile) -> View {
    let n = draws.between(1, usize::from(profile.largest_view.min(profile.servers)));
    let most = (n - 1) / 3;
    // The largest f is what gives faulty servers room.
    let f = if draws.chance(80) {
        most
    } else {
        draws.below(most + 1)
    };
    View {
        members: draws.bits(n, usize::from(profile.servers)),
        f: f as u8,
        r: permitted_read_size(draws, n, f),
        ..View::default()
    }
}

/// A read size that n servers with f faulty ones permit: 0, or one from 2f+1 to
/// (n+f+1)/2, the ends for preference.
pub fn permitted_read_size(draws: &mut Draws, n: usize, f: usize) -> u8 {
    let (least, most) = (2 * f + 1, (n + f).div_ceil(2));
    let r = match draws.below(5) {
        0 | 1 => 0,
        2 => least,
        3 => most,
        _ => draws.between(least, most),
    };
    r as u8
}

/// Any read size: a permitted one where there are some, one beside the bounds,
/// or any byte.
pub fn any_read_size(draws: &mut Draws, n: usize, f: usize) -> u8 {
    match draws.below(10) {
        0 => (2 * f) as u8,
        1 => ((n + f).div_ceil(2) + 1) as u8,
        2 => draws.word() as u8,
        _ if n > 3 * f => permitted_read_size(draws, n, f),
        _ => 0,
    }
}

/// Whether the premise held and no longer does after the step. Only a fault
/// and a START to a faulty server can do that.
fn breaks_premise<R: Rules>(world: &World, bytes: &[u8]) -> bool {
    let Ok(bytes) = bytes.try_into() else {
        return false;
    };
    let record = Step::load(bytes);
    if !matches!(record.kind, step_kind::FAULT | step_kind::DELIVER) {
        return false;
    }
    if record.kind == step_kind::DELIVER && !to_faulty(world, &record) {
        return false;
    }
    let mut after = world.clone();
    step::<R>(&mut after, &record).is_ok() && !premise::<R>(&after)
}

fn to_faulty(world: &World, record: &Step) -> bool {
    record.check().is_ok() && world.server(record.who).is_faulty()
}

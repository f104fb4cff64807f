//! Restarts of the administrator at every length of the chain of its END, each
//! with the answers taken again and others that come late.

use crate::codec::image_of;
use crate::compare::cases::replay_past_refusals;
use crate::compare::check::Comparison;
use crate::compare::counts::Around;
use crate::generate::journals::permitted_read_size;
use crate::layout::LAST_MESSAGE;
use crate::record::Step;
use crate::refusal::Reason;
use crate::rules::Sound;
use crate::script::Script;
use crate::step::{step, Close, Deed, Outcome};
use crate::world::{View, World};
use crate::xorshift::Draws;

/// The longest chain: END has one number, and its answers all others.
pub const LONGEST: usize = LAST_MESSAGE as usize - 1;

/// What follows a restart: the steps, the world that they lead to, and what was
/// met on the way.
struct After {
    world: World,
    steps: Vec<Step>,
    met: Vec<Around>,
}

impl After {
    fn act(&mut self, record: Step) -> Outcome {
        self.steps.push(record);
        step::<Sound>(&mut self.world, &record)
    }

    fn take(&mut self, answer: u16, open: Around) {
        let met = match self.act(Step::take(answer)) {
            Ok(done) if done.deed == Deed::Closed(Close::End) => Around::Closed,
            Ok(done) if done.deed == Deed::CountsForNothing => Around::ForNothing,
            Ok(_) => open,
            Err(Reason::NoNumberToClose(Close::End)) => Around::NoNumber,
            Err(Reason::NobodyWaits) => Around::TooLate,
            Err(reason) => panic!("an answer to END is refused: {reason:?}"),
        };
        self.met.push(met);
    }

    /// END reaches a server late, and its answer is taken.
    fn late(&mut self, server: u8, end: u16) {
        if self.act(Step::deliver(server, end)).is_ok() {
            self.take(self.world.header.used, Around::Late);
        }
    }

    /// Another restart, which is refused where END has closed.
    fn again(&mut self) {
        if self.act(Step::restart(0, 0, 0)) == Err(Reason::NothingEnding) {
            self.met.push(Around::RefusedAfter);
        }
    }
}

/// One restart of this world: it is compared, and then what follows.
fn restart(
    comparison: &mut Comparison,
    world: &World,
    restart: Step,
    length: usize,
    follow: impl FnOnce(&mut After),
) -> After {
    let image = comparison.step(&image_of(world)[..], &restart.bytes());
    let mut after = After {
        world: world.clone(),
        steps: Vec::new(),
        met: vec![Around::Restarted],
    };
    step::<Sound>(&mut after.world, &restart).expect("END is open");
    follow(&mut after);
    let journal: Vec<u8> = after.steps.iter().flat_map(Step::bytes).collect();
    let (end, _) = replay_past_refusals(comparison, &image, &journal);
    comparison.same_end(&end, &image_of(&after.world)[..], "after a restart");
    for met in &after.met {
        comparison.counts.around(*met, restart.value != 0, length);
    }
    after
}

/// Every length that a chain can have, or every so many of them. Server 2 answers
/// END, and then server 1, which is faulty, as often as there are numbers; 3 and 4
/// answer late. Of a long chain mostly the first and the last two are taken again.
pub fn long_chains(comparison: &mut Comparison, apart: usize) {
    let mut script = Script::new(0b1111, 1);
    script.act(Step::fault(1));
    script.act(Step::new_view(0b11_1100, 1));
    let end = script.last();
    let mut chain = Vec::new();
    let records = [Step::restart(0, 0, 0), Step::restart(0b111_1100, 0, 2)];
    while chain.len() <= LONGEST {
        let length = chain.len();
        let whole = length <= 64 || length % 16 == 0 || length == LONGEST;
        let tried = length % apart == 0 || length + 4 > LONGEST;
        for record in records.iter().filter(|_| tried) {
            restart(comparison, &script.world, *record, length, |after| {
                for (place, answer) in chain.iter().enumerate() {
                    if whole || place == 0 || place + 2 >= length {
                        after.take(*answer, Around::TakenAgain);
                    }
                }
                after.late(3, end);
                after.late(4, end);
                after.late(2, end);
                after.again();
            });
        }
        if script.last() == LAST_MESSAGE {
            break;
        }
        let answer = if chain.is_empty() {
            script.answer(2, end)
        } else {
            script.act(Step::false_answer(1, 1, end, 0));
            script.last()
        };
        script.act(Step::take(answer));
        chain.push(answer);
    }
}

/// The longest chain with answers of another view.
pub const LONGEST_MIXED: usize = 40;

/// Chains of answers with the newest view, 2, and with view 1, in turn: server 1
/// is faulty and holds the keys of both. 2, 3 and 4 answer late.
pub fn mixed_chains(comparison: &mut Comparison) {
    let mut script = Script::new(0b1111, 1);
    script.act(Step::fault(1));
    script.change_view(0b1111, 1, &[2, 3, 4], &[1, 2, 3, 4]);
    script.act(Step::new_view(0b11_1100, 1));
    let end = script.last();
    let mut chain = Vec::new();
    for length in 0..=LONGEST_MIXED {
        for record in [Step::restart(0, 0, 0), Step::restart(0b111_1100, 0, 2)] {
            restart(comparison, &script.world, record, length, |after| {
                for answer in &chain {
                    after.take(*answer, Around::TakenAgain);
                }
                for server in [2, 3, 4] {
                    after.late(server, end);
                }
                after.again();
            });
        }
        script.lie(1, 1 + (length % 2) as u8, end, 0);
        chain.push(script.last());
    }
}

/// Views of every n, or of every so many, and the cut after each number of
/// answers but the last that closes END. The answers are taken again in their
/// order, and END closes with the START that would have come; or in another order.
pub fn every_cut(comparison: &mut Comparison, draws: &mut Draws, apart: usize) {
    for n in (1..=32).step_by(apart.min(8)) {
        let most = (n - 1) / 3;
        let sizes = [
            // The longest chains.
            (0, 1),
            (0, permitted_read_size(draws, n, 0)),
            (most, permitted_read_size(draws, n, most)),
        ];
        for (f, r) in sizes {
            let view = View {
                members: draws.bits(n, 32),
                f: f as u8,
                r,
                ..View::default()
            };
            cuts_of(comparison, draws, view);
        }
    }
}

fn cuts_of(comparison: &mut Comparison, draws: &mut Draws, view: View) {
    let mut script = Script::sized(view.members, view.f, view.r);
    let servers: Vec<u8> = (1..=32).filter(|s| view.has_member(*s)).collect();
    script.act(Step::write(1, 7));
    script.finish_in_turn(1, &servers);
    script.act(Step::new_view(0b11_1100, 1));
    let end = script.last();
    let size = view.sizes().write as usize;
    // All but the last of those that close END have answered.
    let answers: Vec<u16> = servers[..size - 1]
        .iter()
        .map(|server| script.answer(*server, end))
        .collect();
    for taken in 0..size {
        unfit(comparison, &script.world);
        for new in [None, Some(View { r: 0, ..view })] {
            let record = new.map_or(Step::restart(0, 0, 0), |view| {
                Step::restart(view.members, view.f, view.r)
            });
            let mut order: Vec<usize> = (0..size - 1).collect();
            let shuffled = draws.chance(25);
            if shuffled {
                order.sort_by_cached_key(|_| draws.word());
            }
            let last = servers[size - 1];
            let after = restart(comparison, &script.world, record, taken, |after| {
                for place in order {
                    let sort = if place < taken {
                        Around::TakenAgain
                    } else {
                        Around::Late
                    };
                    after.take(answers[place], sort);
                }
                after.late(last, end);
                for server in &servers[size..] {
                    after.late(*server, end);
                }
                after.again();
            });
            if !shuffled {
                straight_on(comparison, script.clone(), &answers[taken..], &after, new);
            }
        }
        if let Some(answer) = answers.get(taken) {
            script.act(Step::take(*answer));
        }
    }
}

/// Without the restart the same answers lead to the same world, up to the record
/// of a new pending view.
fn straight_on(
    comparison: &mut Comparison,
    script: Script,
    rest: &[u16],
    after: &After,
    new: Option<View>,
) {
    let mut world = script.world;
    let takes = rest.iter().map(|answer| Step::take(*answer));
    let skipped = after.steps.iter().position(|record| record.kind != 4);
    let late = skipped.map_or(&[][..], |place| &after.steps[place..after.steps.len() - 1]);
    let mut image = image_of(&world).to_vec();
    for record in takes.chain(late.iter().copied()) {
        image = comparison.step(&image, &record.bytes());
        // A late answer after END has closed is refused here too.
        let _ = step::<Sound>(&mut world, &record);
    }
    if let Some(view) = new {
        world.views[1] = view;
    }
    let straight = image_of(&world);
    comparison.same_end(
        &straight[..],
        &image_of(&after.world)[..],
        "a restart and none",
    );
}

/// Restarts that are refused: with a threshold or a size and no members, and
/// with members that do not bear them.
fn unfit(comparison: &mut Comparison, world: &World) {
    for record in [
        Step::restart(0, 1, 0),
        Step::restart(0, 0, 1),
        Step::restart(0b111, 1, 0),
        Step::restart(0b1111, 1, 2),
        Step::restart(0b1111, 0, 3),
    ] {
        let image = image_of(world);
        let after = comparison.step(&image[..], &record.bytes());
        comparison.same_end(&after, &image[..], "a restart that is refused");
    }
}

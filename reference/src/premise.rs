//! The premise: no view t has more than f(t) faulty servers that hold its key.

use crate::layout::VIEWS;
use crate::rules::Rules;
use crate::world::{bit, message_kind, World};

/// True if the premise holds in this world.
pub fn premise<R: Rules>(world: &World) -> bool {
    let holders = faulty_holders(world);
    (1..=world.header.newest).all(|view| {
        let counted = !(R::FORGETS_LEFT_VIEWS && left_by_quorum(world, view));
        !counted || holders[usize::from(view) - 1] <= world.view(view).f
    })
}

/// The same from the bytes that are kept beside the views, without a walk.
pub fn premise_kept(world: &World) -> bool {
    let kept = world.holders.iter().zip(&world.views);
    kept.into_iter().all(|(holders, view)| *holders <= view.f)
}

/// For each view, how many faulty servers hold its key, members or not.
pub fn faulty_holders(world: &World) -> [u8; VIEWS] {
    let mut holders = [0; VIEWS];
    for server in world.servers.iter().filter(|server| server.is_faulty()) {
        let mut keys = server.keys;
        while keys != 0 {
            holders[keys.trailing_zeros() as usize] += 1;
            keys &= keys - 1;
        }
    }
    holders
}

/// Whether answers to an END of the view, with that view, have been sent by a
/// quorum of it: the moment from which a wrong idea stops counting.
fn left_by_quorum(world: &World, view: u8) -> bool {
    let mut left = 0;
    for answer in &world.messages[1..=usize::from(world.header.used)] {
        let ends = world
            .message(answer.request)
            .is_some_and(|request| request.kind == message_kind::END && request.view == view);
        if ends && answer.view == view {
            left |= bit(answer.sender);
        }
    }
    left.count_ones() >= world.view(view).sizes().write
}

//! Request 9: the administrator restarts between END and START.

use reference::readable::readable;
use reference::record::Step;
use reference::refusal::Reason;
use reference::script::Script;
use reference::world::{View, World};

use crate::{act, number};

/// View 2 of servers 3 to 6 is pending on servers 1 to 4 with f 1; 1, 2 and 3
/// answered its END, and so many of the answers are taken.
fn ending(taken: usize) -> (Script, Vec<u16>) {
    let mut script = Script::new(0b1111, 1);
    script.write(1, 7, &[1, 2, 3]);
    script.act(Step::new_view(0b11_1100, 1));
    let end = script.world.header.end;
    let answers: Vec<u16> = [1, 2, 3]
        .into_iter()
        .map(|server| script.answer(server, end))
        .collect();
    for answer in &answers[..taken] {
        script.act(Step::take(*answer));
    }
    (script, answers)
}

#[test]
fn the_same_answers_close_end_again_with_the_same_start() {
    for taken in 0..=2 {
        let (script, answers) = ending(taken);
        let mut straight = script.clone();
        let mut cut = script;
        cut.act(Step::restart(0, 0, 0));
        assert_eq!(cut.world.message(cut.world.header.end).unwrap().next, 0);
        assert!(answers.iter().all(|answer| {
            let answer = cut.world.message(*answer).unwrap();
            answer.taken == 0 && answer.next == 0
        }));
        assert!(readable(&cut.world));
        for answer in &answers[taken..] {
            straight.act(Step::take(*answer));
        }
        for answer in &answers {
            cut.act(Step::take(*answer));
        }
        assert_eq!(cut.world.header.newest, 2);
        assert!(cut.world == straight.world);
    }
}

#[test]
fn new_members_replace_the_pending_view() {
    let (mut script, answers) = ending(2);
    script.act(Step::restart(0b111_1100, 0, 2));
    let pending = View {
        members: 0b111_1100,
        f: 0,
        r: 2,
        ..View::default()
    };
    assert!(*script.world.view(2) == pending);
    assert_eq!(script.world.header.newest, 1);
    for answer in answers {
        script.act(Step::take(answer));
    }
    assert_eq!(script.world.header.newest, 2);
    assert!(*script.world.view(2) == pending);
}

#[test]
fn it_is_3_then_7_then_8() {
    let mut world = World::fresh(0b1111, 1, 0).unwrap();
    assert_eq!(number(act(&mut world, Step::restart(0, 1, 0))), 3);
    assert_eq!(number(act(&mut world, Step::restart(0, 0, 1))), 3);
    assert_eq!(
        act(&mut world, Step::restart(0, 0, 0)),
        Err(Reason::NothingEnding)
    );
    assert_eq!(number(act(&mut world, Step::restart(1, 1, 0))), 7);
    act(&mut world, Step::new_view(0b1111, 1)).unwrap();
    assert_eq!(number(act(&mut world, Step::restart(0, 1, 0))), 3);
    assert_eq!(number(act(&mut world, Step::restart(1, 1, 0))), 8);
    assert_eq!(number(act(&mut world, Step::restart(0b1111, 0, 3))), 8);
    act(&mut world, Step::restart(0, 0, 0)).unwrap();
    act(&mut world, Step::restart(0b1111, 0, 2)).unwrap();
}

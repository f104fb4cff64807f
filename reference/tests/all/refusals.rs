//! Each refusal by each path, and the order in which they are tested.

use reference::codec::image_of;
use reference::entry::Entry;
use reference::generate::specimen::specimen;
use reference::layout::{IMAGE_SIZE, LAST_MESSAGE};
use reference::operations;
use reference::premise::faulty_holders;
use reference::record::{Field, Step, FIELDS};
use reference::refusal::Reason;
use reference::script::Script;
use reference::step::Close;
use reference::world::{message_kind, Message, Server, World};

use crate::{act, number};

/// Fills the message numbers up to the last with READs of client 16.
fn filled(mut world: World) -> World {
    while world.header.used < LAST_MESSAGE {
        world.send(Message {
            kind: message_kind::READ,
            sender: 16,
            ..Message::default()
        });
    }
    world
}

fn fresh() -> World {
    World::fresh(0b1111, 1, 0).unwrap()
}

/// The refusal of the step on the world.
fn refused(world: &World, record: Step) -> Reason {
    act(&mut world.clone(), record).expect_err("the step is refused")
}

fn accepted(world: &World, record: Step) {
    act(&mut world.clone(), record).expect("the step is accepted");
}

#[test]
fn lengths_come_first() {
    let image = image_of(&fresh());
    let step = Step::read(1).bytes();
    for length in [0, 11, 13, 24] {
        let mut bytes = step.to_vec();
        bytes.resize(length, 0);
        let mut whole = image.clone();
        assert_eq!(
            operations::step(&mut whole[..], &bytes),
            Err(Reason::StepLength)
        );
        assert!(whole == image);
        // A wrong length comes before an unreadable image.
        assert_eq!(
            operations::step(&mut [0; IMAGE_SIZE], &bytes),
            Err(Reason::StepLength)
        );
    }
    for length in [0, 12, IMAGE_SIZE - 1, IMAGE_SIZE + 1] {
        let mut other = image.to_vec();
        other.resize(length, 0);
        let before = other.clone();
        assert_eq!(
            operations::step(&mut other, &step),
            Err(Reason::ImageLength)
        );
        assert_eq!(operations::premise(&other), Err(Reason::ImageLength));
        assert_eq!(operations::replay(&mut other, &step).refusal(), 1);
        assert_eq!(
            operations::fresh(&mut other, 0b1, 0, 0),
            Err(Reason::ImageLength)
        );
        // A wrong length comes before a broken size rule.
        assert_eq!(
            operations::fresh(&mut other, 0, 0, 0),
            Err(Reason::ImageLength)
        );
        assert_eq!(other, before);
    }
}

#[test]
fn a_journal_is_made_of_whole_steps() {
    let image = image_of(&fresh());
    for length in [1, 11, 13, 23] {
        let mut after = image.clone();
        let journal = vec![1; length];
        let replayed = operations::replay(&mut after[..], &journal);
        assert_eq!(
            (replayed.done, replayed.stopped),
            (0, Some(Reason::JournalLength))
        );
        assert!(after == image);
        assert_eq!(
            operations::replay(&mut [0; IMAGE_SIZE], &journal).refusal(),
            1
        );
    }
    let replayed = operations::replay(&mut [0; IMAGE_SIZE], &[]);
    assert_eq!(
        (replayed.done, replayed.stopped),
        (0, Some(Reason::Unreadable))
    );
    let replayed = operations::replay(&mut image.clone()[..], &[]);
    assert_eq!((replayed.done, replayed.stopped), (0, None));
}

#[test]
fn an_unreadable_image_comes_before_an_unknown_kind() {
    let step = Step {
        kind: 99,
        ..Step::default()
    };
    let mut image = [0; IMAGE_SIZE];
    assert_eq!(
        operations::step(&mut image, &step.bytes()),
        Err(Reason::Unreadable)
    );
    assert_eq!(image, [0; IMAGE_SIZE]);
}

/// For each kind a step with its used fields set, and those fields.
fn steps_with_used_fields() -> [(Step, &'static [Field]); 9] {
    use Field::{Message, Source, Value, View, Who, F};
    [
        (Step::write(16, u32::MAX), &[Who, Value]),
        (Step::read(16), &[Who]),
        (Step::deliver(32, 1023), &[Who, Message]),
        (Step::take(1023), &[Message]),
        (Step::fault(32), &[Who]),
        (
            Step::false_answer(32, 32, 1023, 1023),
            &[Who, View, Message, Source],
        ),
        (Step::sized_view(u32::MAX, 255, 255), &[Who, F, Value]),
        (Step::give_up(16), &[Who]),
        (Step::restart(u32::MAX, 255, 255), &[Who, F, Value]),
    ]
}

fn with(mut step: Step, field: Field, value: u32) -> Step {
    step.set(field, value);
    step
}

#[test]
fn the_largest_fields_pass_check_3() {
    for (step, _) in steps_with_used_fields() {
        assert_eq!(step.check(), Ok(()), "{step:?}");
    }
}

#[test]
fn an_unused_field_is_zero() {
    for (step, used) in steps_with_used_fields() {
        for field in FIELDS.into_iter().filter(|field| !used.contains(field)) {
            for value in [1, 128] {
                assert_eq!(with(step, field, value).check(), Err(Reason::Unused(field)));
            }
        }
    }
    // The high bytes too.
    assert_eq!(
        with(Step::read(1), Field::Value, 1 << 31).check(),
        Err(Reason::Unused(Field::Value))
    );
    assert_eq!(
        with(Step::read(1), Field::Message, 256).check(),
        Err(Reason::Unused(Field::Message))
    );
}

#[test]
fn a_used_field_is_in_range() {
    for (step, used) in steps_with_used_fields() {
        for field in used {
            let (below, above) = match field {
                Field::Who if matches!(step.kind, 1 | 2 | 8) => (Some(0), Some(17)),
                // Any read size: 8 judges it.
                Field::Who if matches!(step.kind, 7 | 9) => (None, None),
                Field::Who | Field::View => (Some(0), Some(33)),
                Field::Message => (Some(0), Some(1024)),
                Field::Source => (None, Some(1024)),
                Field::F | Field::Value => (None, None),
            };
            for value in [below, above].into_iter().flatten() {
                assert_eq!(
                    with(step, *field, value).check(),
                    Err(Reason::OutOfRange(*field))
                );
            }
        }
    }
}

#[test]
fn kinds_are_1_to_9() {
    for kind in (0..=255).filter(|kind| !(1..=9).contains(kind)) {
        let step = Step {
            kind,
            ..Step::default()
        };
        assert_eq!(step.check(), Err(Reason::UnknownKind));
    }
}

#[test]
fn check_3_comes_before_the_state() {
    // Client 1 is busy, and the table is full.
    let world = filled(specimen());
    let busy = Step::write(1, 1);
    assert_eq!(refused(&world, busy), Reason::ClientBusy);
    assert_eq!(number(act(&mut world.clone(), Step { f: 1, ..busy })), 3);
    assert_eq!(number(act(&mut world.clone(), Step::new_view(0, 0))), 4);
}

#[test]
fn write_and_read() {
    let mut world = fresh();
    accepted(&world, Step::write(1, 0));
    act(&mut world, Step::read(1)).unwrap();
    assert_eq!(refused(&world, Step::write(1, 1)), Reason::ClientBusy);
    assert_eq!(refused(&world, Step::read(1)), Reason::ClientBusy);
    let world = filled(world);
    assert_eq!(refused(&world, Step::read(1)), Reason::ClientBusy);
    assert_eq!(refused(&world, Step::read(2)), Reason::NoNumber);
    assert_eq!(refused(&world, Step::write(2, 1)), Reason::NoNumber);
}

#[test]
fn deliver() {
    let mut script = Script::new(0b1111, 1);
    script.act(Step::read(1)); // 1
    script.answer(1, 1); // 2
    script.act(Step::fault(4));
    script.act(Step::new_view(0b1111, 1)); // 3
    script.answer(1, 3); // 4
    let world = script.world;
    assert_eq!(refused(&world, Step::deliver(2, 5)), Reason::NoSuchMessage);
    assert_eq!(
        refused(&world, Step::deliver(2, 1023)),
        Reason::NoSuchMessage
    );
    assert_eq!(
        refused(&world, Step::deliver(2, 2)),
        Reason::AnswerDelivered
    );
    assert_eq!(
        refused(&world, Step::deliver(4, 2)),
        Reason::AnswerDelivered
    );
    assert_eq!(refused(&world, Step::deliver(4, 1)), Reason::ServerFaulty);
    assert_eq!(refused(&world, Step::deliver(4, 3)), Reason::ServerFaulty);
    assert_eq!(refused(&world, Step::deliver(9, 1)), Reason::NoViewYet);
    assert_eq!(refused(&world, Step::deliver(1, 1)), Reason::KeyGivenUp);
    assert_eq!(refused(&world, Step::deliver(1, 3)), Reason::KeyGivenUp);
    accepted(&world, Step::deliver(2, 1));
    let world = filled(world);
    assert_eq!(refused(&world, Step::deliver(4, 1)), Reason::ServerFaulty);
    assert_eq!(refused(&world, Step::deliver(1, 1)), Reason::KeyGivenUp);
    assert_eq!(refused(&world, Step::deliver(2, 1)), Reason::NoNumber);
    assert_eq!(refused(&world, Step::deliver(2, 3)), Reason::NoNumber);
}

#[test]
fn take() {
    let mut script = Script::new(0b1111, 1);
    script.act(Step::read(1)); // 1
    for server in 1..=4 {
        script.answer(server, 1); // 2 to 5
    }
    script.world.messages[2].entry = Entry::new(1, 1, 1);
    let world = script.world.clone();
    assert_eq!(refused(&world, Step::take(6)), Reason::NoSuchMessage);
    assert_eq!(refused(&world, Step::take(1)), Reason::NotAnAnswer);
    for answer in 2..=3 {
        script.act(Step::take(answer));
        assert_eq!(
            refused(&script.world, Step::take(answer)),
            Reason::TakenBefore
        );
    }
    let full = filled(script.world.clone());
    assert_eq!(refused(&full, Step::take(2)), Reason::TakenBefore);
    assert_eq!(
        refused(&full, Step::take(4)),
        Reason::NoNumberToClose(Close::ReadOfRead)
    );
    script.act(Step::take(4));
    assert_eq!(refused(&script.world, Step::take(5)), Reason::NobodyWaits);
    assert_eq!(refused(&script.world, Step::take(4)), Reason::TakenBefore);
}

#[test]
fn take_of_an_old_end() {
    let mut script = Script::new(0b111, 0);
    script.act(Step::new_view(0b111, 0)); // 1
    for server in 1..=3 {
        script.answer(server, 1); // 2 to 4
    }
    script.act(Step::take(2));
    let full = filled(script.world.clone());
    assert_eq!(
        refused(&full, Step::take(3)),
        Reason::NoNumberToClose(Close::End)
    );
    script.act(Step::take(3));
    assert_eq!(refused(&script.world, Step::take(4)), Reason::NobodyWaits);
}

#[test]
fn fault() {
    let mut world = fresh();
    act(&mut world, Step::fault(32)).unwrap();
    assert_eq!(refused(&world, Step::fault(32)), Reason::FaultyAlready);
    accepted(&filled(world), Step::fault(1));
}

#[test]
fn false_answer() {
    let mut script = Script::new(0b1111, 1);
    script.write(1, 1, &[1, 2, 3]); // 1, its WRITE is 5, used are 8
    script.act(Step::fault(4));
    script.act(Step::fault(9));
    let world = script.world;
    let lie = Step::false_answer;
    assert_eq!(refused(&world, lie(4, 1, 9, 0)), Reason::NoSuchMessage);
    assert_eq!(refused(&world, lie(4, 1, 2, 0)), Reason::NotARequest);
    assert_eq!(refused(&world, lie(4, 1, 1, 9)), Reason::NoSuchSource);
    assert_eq!(refused(&world, lie(4, 1, 1, 1)), Reason::SourceNotWrite);
    assert_eq!(refused(&world, lie(4, 1, 1, 2)), Reason::SourceNotWrite);
    assert_eq!(refused(&world, lie(1, 1, 1, 5)), Reason::ServerCorrect);
    assert_eq!(refused(&world, lie(9, 1, 1, 5)), Reason::LacksKey);
    assert_eq!(refused(&world, lie(4, 2, 1, 5)), Reason::LacksKey);
    // Each before the next.
    assert_eq!(number(act(&mut world.clone(), lie(1, 2, 1, 1))), 5);
    assert_eq!(number(act(&mut world.clone(), lie(1, 2, 1, 5))), 6);
    assert_eq!(number(act(&mut filled(world.clone()), lie(9, 1, 1, 5))), 9);
    assert_eq!(number(act(&mut filled(world.clone()), lie(4, 1, 1, 5))), 10);
    for source in [0, 5] {
        accepted(&world, lie(4, 1, 1, source));
        accepted(&world, lie(4, 1, 5, source));
    }
}

#[test]
fn a_false_answer_to_a_start_is_refused_and_to_an_old_end_is_not() {
    let mut script = Script::new(0b111, 0);
    let start = script.change_view(0b111, 0, &[1, 2], &[]);
    script.act(Step::fault(3));
    let lie = |message| Step::false_answer(3, 1, message, 0);
    assert_eq!(refused(&script.world, lie(start)), Reason::NotARequest);
    accepted(&script.world, lie(1));
}

#[test]
fn new_view() {
    let world = fresh();
    assert_eq!(refused(&world, Step::new_view(0, 0)), Reason::SizeRule);
    assert_eq!(refused(&world, Step::new_view(0b111, 1)), Reason::SizeRule);
    for r in [2, 4, 255] {
        let step = Step::sized_view(0b1111, 1, r);
        assert_eq!(refused(&world, step), Reason::ReadSize);
    }
    assert_eq!(
        refused(&filled(world.clone()), Step::new_view(0, 0)),
        Reason::SizeRule
    );
    assert_eq!(
        refused(&filled(world.clone()), Step::new_view(1, 0)),
        Reason::NoNumber
    );
    let mut ending = world;
    act(&mut ending, Step::new_view(0b1111, 1)).unwrap();
    assert_eq!(
        refused(&ending, Step::new_view(0, 0)),
        Reason::EndingAlready
    );
    assert_eq!(
        refused(&filled(ending), Step::new_view(1, 0)),
        Reason::EndingAlready
    );
}

#[test]
fn start_to_correct_and_faulty_servers() {
    let mut script = Script::new(0b1111, 1);
    let start = script.change_view(0b110011, 1, &[1, 2, 3], &[1]);
    script.act(Step::fault(2));
    script.act(Step::deliver(2, start));
    let world = script.world;
    assert_eq!(refused(&world, Step::deliver(3, start)), Reason::NotAMember);
    assert_eq!(
        refused(&world, Step::deliver(1, start)),
        Reason::ViewNotBelow
    );
    assert_eq!(
        refused(&world, Step::deliver(2, start)),
        Reason::KeyHeldAlready
    );
    accepted(&filled(world.clone()), Step::deliver(5, start));
    // A faulty server whose recorded view is not below.
    let mut world = world;
    act(&mut world, Step::fault(1)).unwrap();
    *world.server_mut(1) = Server {
        keys: 0,
        ..*world.server(1)
    };
    world.holders = faulty_holders(&world);
    assert_eq!(
        refused(&world, Step::deliver(1, start)),
        Reason::ViewNotBelow
    );
}

#[test]
fn a_refused_fresh_world_leaves_the_buffer() {
    for (members, f) in [(0, 0), (0b111, 1), (u32::MAX, 11), (u32::MAX, 255)] {
        let mut image = [7; IMAGE_SIZE];
        assert_eq!(
            operations::fresh(&mut image, members, f, 0),
            Err(Reason::SizeRule)
        );
        assert_eq!(image, [7; IMAGE_SIZE]);
    }
    let mut image = [7; IMAGE_SIZE];
    assert_eq!(operations::fresh(&mut image, u32::MAX, 10, 0), Ok(()));
}

#[test]
fn a_replay_keeps_the_steps_before_its_stop() {
    let fresh = image_of(&fresh());
    let steps = [
        Step::read(1),
        Step::deliver(1, 1),
        Step::read(1),
        Step::read(2),
    ];
    let journal: Vec<u8> = steps.iter().flat_map(Step::bytes).collect();
    let mut image = fresh.clone();
    let replayed = operations::replay(&mut image[..], &journal);
    assert_eq!((replayed.done, replayed.refusal()), (2, 4));
    let mut by_steps = fresh.clone();
    for step in &steps[..2] {
        operations::step(&mut by_steps[..], &step.bytes()).unwrap();
    }
    assert!(image == by_steps);
    // The rest stops at the same step, with nothing done.
    let again = operations::replay(&mut image[..], &journal[24..]);
    assert_eq!((again.done, again.refusal()), (0, 4));
    assert!(image == by_steps);
    // Without that step the rest goes on.
    let rest = operations::replay(&mut image[..], &journal[36..]);
    assert_eq!((rest.done, rest.refusal()), (1, 0));
}

#[test]
fn eleven_only_where_a_write_would_close() {
    let largest = Entry::new(u32::MAX, 1, 0);
    for (begin, refusal) in [(Step::write(1, 1), 11), (Step::read(1), 0)] {
        let mut script = Script::new(0b11, 0);
        script.act(begin);
        script.answer(1, 1);
        script.answer(2, 1);
        script.world.messages[2].entry = largest;
        script.act(Step::take(2));
        assert_eq!(
            number(act(&mut script.world.clone(), Step::take(3))),
            refusal
        );
    }
    // One below the largest count can still be written.
    let mut script = Script::new(0b1, 0);
    script.act(Step::write(1, 1));
    script.answer(1, 1);
    script.world.messages[2].entry = Entry::new(u32::MAX - 1, 1, 0);
    script.act(Step::take(2));
    assert_eq!(script.world.client(1).entry, Entry::new(u32::MAX, 1, 1));
}

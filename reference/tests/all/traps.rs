//! Sentences of document 01 that are easy to get wrong, one test for each.

use reference::codec::image_of;
use reference::compare::library::{pack, Library, Reference};
use reference::entry::Entry;
use reference::generate::specimen::specimen;
use reference::generate::spoils::spoiled;
use reference::history::claim::fits;
use reference::history::operations::{ordered, run, Kind, Operation};
use reference::history::verdict::examine;
use reference::journal::Journal;
use reference::layout::{IMAGE_SIZE, LAST_MESSAGE};
use reference::operations;
use reference::premise::premise;
use reference::readable::{broken, readable, Clause};
use reference::record::Step;
use reference::refusal::Reason;
use reference::rules::Sound;
use reference::script::Script;
use reference::step::{Close, Deed};
use reference::world::{bit, message_kind, phase, Message, Server, World};

use crate::{act, number};

/// A read by client 1 on servers 1 to 5, answered by the first three with these
/// entries; the answers 2, 3, 4 are not taken. A quorum is three.
fn three_answers(entries: [Entry; 3]) -> World {
    let mut script = Script::new(0b11111, 0);
    script.act(Step::read(1));
    for (server, entry) in (1..).zip(entries) {
        let answer = script.answer(server, 1);
        script.world.messages[usize::from(answer)].entry = entry;
    }
    script.world
}

fn take_all(world: &mut World, answers: [u16; 3]) -> Entry {
    for answer in answers {
        act(world, Step::take(answer)).unwrap();
    }
    assert_eq!(world.client(1).phase, phase::WRITING);
    world.client(1).entry
}

#[test]
fn trap_01_of_equal_stamps_the_one_taken_first() {
    let entries = [10, 20, 30].map(|value| Entry::new(5, 1, value));
    for answers in [
        [2, 3, 4],
        [2, 4, 3],
        [3, 2, 4],
        [3, 4, 2],
        [4, 2, 3],
        [4, 3, 2],
    ] {
        let chosen = take_all(&mut three_answers(entries), answers);
        assert_eq!(chosen, entries[usize::from(answers[0]) - 2], "{answers:?}");
    }
    // Only among the largest stamps.
    let entries = [
        Entry::new(4, 9, 10),
        Entry::new(5, 1, 20),
        Entry::new(5, 1, 30),
    ];
    assert_eq!(take_all(&mut three_answers(entries), [2, 4, 3]), entries[2]);
    assert_eq!(take_all(&mut three_answers(entries), [3, 2, 4]), entries[1]);
    // The writer decides between equal counts.
    let entries = [
        Entry::new(5, 2, 0),
        Entry::new(5, 1, 9),
        Entry::new(4, 16, 9),
    ];
    assert_eq!(take_all(&mut three_answers(entries), [3, 4, 2]), entries[0]);
}

/// Marks an answer as taken without asking whether it closes anything.
fn link(world: &mut World, answer: usize) {
    let request = usize::from(world.messages[answer].request);
    world.messages[answer].taken = 1;
    world.messages[answer].next = world.messages[request].next;
    world.messages[request].next = answer as u16;
}

#[test]
fn trap_02_only_the_view_of_the_answer_just_taken() {
    // View 2 has one member; a quorum of view 1 is two. Both views' answers are
    // in the chain of client 1's READ.
    let mut script = Script::new(0b111, 0);
    script.act(Step::read(1)); // 1
    for server in 1..=3 {
        script.answer(server, 1); // 2 to 4
    }
    script.change_view(0b1111, 0, &[1, 2], &[1, 2, 4]);
    let late = script.answer(4, 1);
    let mut world = script.world;
    link(&mut world, 2);
    link(&mut world, 3);
    // View 1 has its quorum, the answer is of view 2.
    let done = act(&mut world, Step::take(late)).unwrap();
    assert_eq!(done.deed, Deed::LeftOpen(Close::ReadOfRead));
    // The next one of view 1 closes.
    let mut again = world.clone();
    let done = act(&mut again, Step::take(4)).unwrap();
    assert_eq!(done.deed, Deed::OneExchange);
    // So does one of a server that was counted already.
    world.messages[4].sender = 1;
    let done = act(&mut world, Step::take(4)).unwrap();
    assert_eq!(done.deed, Deed::OneExchange);
}

#[test]
fn trap_03_an_honest_server_may_answer_many_times() {
    let mut script = Script::new(0b111, 0);
    script.act(Step::read(1));
    for _ in 0..4 {
        script.exchange(1, &[2]);
        assert_eq!(script.world.client(1).phase, phase::READING);
    }
    script.exchange(1, &[3]);
    assert_eq!(script.world.client(1).phase, phase::IDLE);
}

#[test]
fn trap_04_the_answer_to_write_shows_the_entry_kept() {
    let mut script = Script::new(0b111, 0);
    let first = script.write(1, 7, &[1, 2]);
    let second = script.write(2, 8, &[2, 3]);
    let entry = |script: &Script, number: u16| script.world.messages[usize::from(number)].entry;
    // A smaller one is answered with the larger one held.
    let answer = script.answer(3, first);
    assert_eq!(entry(&script, answer), Entry::new(2, 2, 8));
    // A larger one is kept and shown.
    let answer = script.answer(1, second);
    assert_eq!(entry(&script, answer), Entry::new(2, 2, 8));
    assert_eq!(script.world.server(1).entry, Entry::new(2, 2, 8));
    // Of equal stamps the server keeps its own.
    script.world.server_mut(1).entry.value = 99;
    let answer = script.answer(1, second);
    assert_eq!(entry(&script, answer), Entry::new(2, 2, 99));
}

#[test]
fn trap_05_end_of_another_view_is_7() {
    let mut script = Script::new(0b111, 0);
    script.change_view(0b111, 0, &[1, 2], &[1, 2]);
    script.act(Step::new_view(0b111, 0));
    let (old, new) = (1, script.world.header.end);
    let world = &mut script.world;
    // Servers 1 and 3 hold the keys of views 2 and 1.
    assert!(world.server(1).serves() && world.server(3).serves());
    assert_eq!(
        act(world, Step::deliver(1, old)),
        Err(Reason::EndOfOtherView)
    );
    assert_eq!(
        act(world, Step::deliver(3, new)),
        Err(Reason::EndOfOtherView)
    );
    assert_eq!(number(act(world, Step::deliver(1, new))), 0);
    assert_eq!(number(act(world, Step::deliver(3, old))), 0);
}

#[test]
fn trap_06_a_faulty_server_gathers_keys_and_changes_in_nothing_else() {
    let mut script = Script::new(0b1111, 1);
    script.write(1, 7, &[1, 2, 3]);
    script.act(Step::fault(4));
    let second = script.change_view(0b1111, 1, &[1, 2, 3], &[1, 2, 3]);
    let third = script.change_view(0b1111, 1, &[1, 2, 3], &[1, 2, 3]);
    let before = *script.world.server(4);
    // The later START first; the earlier one still works.
    script.act(Step::deliver(4, third));
    script.act(Step::deliver(4, second));
    let after = *script.world.server(4);
    assert_eq!(after.keys, bit(1) | bit(2) | bit(3));
    assert_eq!(
        Server {
            keys: before.keys,
            ..after
        },
        before
    );
    // It may show any of these views, and no other.
    for view in 1..=3 {
        script.act(Step::false_answer(4, view, 1, 0));
    }
    assert_eq!(
        act(&mut script.world, Step::false_answer(4, 4, 1, 0)),
        Err(Reason::LacksKey)
    );
}

#[test]
fn trap_06_a_correct_server_outside_the_new_view_keeps_its_key() {
    let mut script = Script::new(0b111, 0);
    let start = script.change_view(0b011, 0, &[1, 2], &[]);
    assert_eq!(
        act(&mut script.world, Step::deliver(3, start)),
        Err(Reason::NotAMember)
    );
    assert_eq!(script.world.server(3).keys, bit(1));
    script.answer(3, 1);
}

#[test]
fn trap_07_start_asks_for_no_key() {
    let mut script = Script::new(0b11, 0);
    script.write(1, 7, &[1, 2]);
    let start = script.change_view(0b111, 0, &[1, 2], &[]);
    // Server 3 has no view yet; 1 gave its key up.
    assert_eq!(
        (script.world.server(3).view, script.world.server(1).keys),
        (0, 0)
    );
    for server in [1, 3] {
        assert_eq!(script.act(Step::deliver(server, start)).deed, Deed::Started);
        let record = script.world.server(server);
        assert_eq!((record.view, record.keys), (2, bit(2)));
        assert_eq!(record.entry, Entry::new(1, 1, 7));
    }
}

#[test]
fn trap_07_start_keeps_the_servers_own_entry_on_equal_stamps() {
    let mut script = Script::new(0b11, 0);
    script.write(1, 7, &[1, 2]);
    let start = script.change_view(0b11, 0, &[1, 2], &[]);
    script.world.server_mut(1).entry.value = 70;
    script.act(Step::deliver(1, start));
    assert_eq!(script.world.server(1).entry, Entry::new(1, 1, 70));
}

#[test]
fn trap_08_answers_to_end_with_another_view_count_for_nothing() {
    let mut script = Script::new(0b1111, 1);
    script.act(Step::fault(4));
    script.change_view(0b1111, 1, &[1, 2, 3], &[1, 2, 3]);
    script.act(Step::new_view(0b1111, 1));
    let end = script.world.header.end;
    script.act(Step::false_answer(4, 1, end, 0));
    let other = script.last();
    let own: Vec<u16> = (1..=3).map(|server| script.answer(server, end)).collect();
    script.act(Step::take(own[0]));
    script.act(Step::take(own[1]));
    let done = script.act(Step::take(other));
    assert_eq!(done.deed, Deed::CountsForNothing);
    assert!(script.world.is_ending());
    assert_eq!(script.world.messages[usize::from(end)].next, other);
    // Not even with the quorum in the chain, which no run leaves open.
    let mut world = script.world.clone();
    link(&mut world, usize::from(own[2]));
    act(&mut world, Step::false_answer(4, 1, end, 0)).unwrap();
    let other = world.header.used;
    assert_eq!(
        act(&mut world, Step::take(other)).unwrap().deed,
        Deed::CountsForNothing
    );
    assert!(world.is_ending());
    // The quorum's last answer closes.
    assert_eq!(
        script.act(Step::take(own[2])).deed,
        Deed::Closed(Close::End)
    );
    assert_eq!(script.world.header.newest, 3);
}

#[test]
fn trap_09_a_reader_of_the_empty_entry_may_write_it_back() {
    let mut script = Script::new(0b1111, 1);
    script.act(Step::fault(4));
    script.act(Step::read(1));
    for server in 1..=3 {
        script.answer(server, 1);
    }
    // No run has a value beside count 0; a readable image may.
    script.world.messages[4].entry.value = 9;
    for answer in 2..=4 {
        script.act(Step::take(answer));
    }
    let write = script.request(1);
    let message = script.world.messages[usize::from(write)];
    assert_eq!(
        (message.kind, message.sender, message.entry),
        (message_kind::WRITE, 1, Entry::EMPTY)
    );
    script.act(Step::false_answer(4, 1, 1, write));
    let shown = script.last();
    assert_eq!(
        script.world.messages[usize::from(shown)].entry,
        Entry::EMPTY
    );
}

#[test]
fn trap_10_the_premise_counts_faulty_holders() {
    let mut script = Script::new(0b1111, 1);
    script.act(Step::fault(1));
    assert!(premise::<Sound>(&script.world));
    script.act(Step::fault(9));
    assert!(premise::<Sound>(&script.world), "9 holds no key");
    script.change_view(0b1111, 1, &[2, 3, 4], &[2, 3, 4]);
    script.act(Step::fault(2));
    assert!(
        premise::<Sound>(&script.world),
        "2 gave key 1 up; 1 lacks key 2"
    );
    let start = script
        .world
        .messages
        .iter()
        .position(|m| m.kind == message_kind::START)
        .unwrap();
    let mut world = script.world.clone();
    act(&mut world, Step::deliver(1, start as u16)).unwrap();
    assert!(!premise::<Sound>(&world), "1 and 2 hold key 2");
    // A holder that is no member counts as well.
    let mut world = script.world.clone();
    world.server_mut(9).keys = bit(1);
    world.holders[0] += 1;
    assert!(readable(&world) && !premise::<Sound>(&world));
    // The pending view has no holders, whatever its f.
    act(&mut script.world, Step::new_view(0b1, 0)).unwrap();
    assert_eq!(operations::premise(&image_of(&script.world)[..]), Ok(true));
}

/// All numbers used, the last ones by READs of client 16.
fn filled(mut world: World) -> World {
    while world.header.used < LAST_MESSAGE {
        world.send(Message {
            kind: message_kind::READ,
            sender: 16,
            ..Message::default()
        });
    }
    world
}

#[test]
fn trap_11_take_refuses_with_11_before_10_and_only_if_it_closes() {
    let largest = Entry::new(u32::MAX, 3, 0);
    for (begin, last) in [
        (Step::write(1, 5), Reason::CountTooLarge),
        (Step::read(1), Reason::NoNumberToClose(Close::ReadOfRead)),
    ] {
        let mut script = Script::new(0b111, 0);
        script.act(begin);
        for server in 1..=2 {
            script.answer(server, 1);
        }
        script.world.messages[2].entry = largest;
        let mut world = filled(script.world);
        // The first leaves the phase open and is taken.
        assert_eq!(number(act(&mut world, Step::take(2))), 0);
        assert_eq!(act(&mut world, Step::take(3)), Err(last));
    }
}

#[test]
fn trap_11_a_closing_write_sends_nothing() {
    let mut script = Script::new(0b11, 0);
    script.act(Step::write(1, 5));
    script.exchange(1, &[1, 2]);
    let write = script.request(1);
    let answers = [script.answer(1, write), script.answer(2, write)];
    let mut world = filled(script.world);
    act(&mut world, Step::take(answers[0])).unwrap();
    let done = act(&mut world, Step::take(answers[1])).unwrap();
    assert_eq!(
        (done.deed, done.completed),
        (Deed::Closed(Close::WriteOfWrite), 1)
    );
    let client = world.client(1);
    assert_eq!(
        (client.phase, client.kind, client.request),
        (phase::IDLE, 1, 0)
    );
    assert_eq!(client.entry, Entry::new(1, 1, 5));
}

#[test]
fn trap_12_deliver_refuses_start_neither_with_6_nor_with_10() {
    let mut script = Script::new(0b1111, 1);
    let start = script.change_view(0b1111, 1, &[1, 2, 3], &[]);
    script.act(Step::fault(4));
    let mut world = filled(script.world);
    assert_eq!(
        act(&mut world, Step::deliver(1, start)).unwrap().deed,
        Deed::Started
    );
    assert_eq!(
        act(&mut world, Step::deliver(4, start)).unwrap().deed,
        Deed::KeyAdded
    );
    assert_eq!(
        act(&mut world, Step::deliver(4, start)),
        Err(Reason::KeyHeldAlready)
    );
    assert_eq!(
        act(&mut world, Step::deliver(4, 1)),
        Err(Reason::ServerFaulty)
    );
}

#[test]
fn trap_13_message_and_source_come_before_the_server() {
    let mut world = World::fresh(0b1, 0, 0).unwrap();
    let lie = Step::false_answer;
    assert_eq!(number(act(&mut world, lie(1, 1, 1, 0))), 5);
    act(&mut world, Step::read(1)).unwrap();
    assert_eq!(number(act(&mut world, lie(1, 1, 1, 1))), 5);
    assert_eq!(number(act(&mut world, lie(1, 1, 1, 1023))), 5);
    assert_eq!(number(act(&mut world, lie(1, 32, 1, 0))), 6);
    act(&mut world, Step::fault(1)).unwrap();
    // A view above the newest is a key that nobody holds.
    for view in 2..=32 {
        assert_eq!(number(act(&mut world, lie(1, view, 1, 0))), 9);
    }
    assert_eq!(number(act(&mut filled(world.clone()), lie(1, 2, 1, 0))), 9);
    assert_eq!(number(act(&mut filled(world), lie(1, 1, 1, 0))), 10);
}

#[test]
fn trap_14_any_f_and_value_are_in_range() {
    let mut world = World::fresh(0b1, 0, 0).unwrap();
    for (members, f) in [(u32::MAX, 255), (u32::MAX, 11), (0, 0), (0, 255), (1, 86)] {
        assert_eq!(number(act(&mut world, Step::new_view(members, f))), 8);
    }
    assert_eq!(number(act(&mut world, Step::deliver(1, 0))), 3);
    assert_eq!(number(act(&mut world, Step::take(0))), 3);
    assert_eq!(number(act(&mut world, Step::deliver(1, 1))), 5);
    assert_eq!(number(act(&mut world, Step::take(1023))), 5);
    assert_eq!(number(act(&mut world, Step::take(1024))), 3);
}

#[test]
fn trap_14_view_32_is_the_last() {
    let mut script = Script::new(0b1, 0);
    for _ in 1..32 {
        script.change_view(0b1, 0, &[1], &[1]);
    }
    assert_eq!(script.world.header.newest, 32);
    assert_eq!(
        act(&mut script.world, Step::new_view(0b1, 0)),
        Err(Reason::LastView)
    );
    script.write(1, 7, &[1]);
    assert_eq!(script.world.server(1).keys, bit(32));
}

#[test]
fn trap_15_an_unused_field_comes_before_the_state() {
    let mut world = World::fresh(0b1, 0, 0).unwrap();
    act(&mut world, Step::read(1)).unwrap();
    assert_eq!(number(act(&mut world, Step::read(1))), 4);
    assert_eq!(
        number(act(
            &mut world,
            Step {
                value: 1,
                ..Step::read(1)
            }
        )),
        3
    );
    assert_eq!(
        number(act(
            &mut world,
            Step {
                who: 1,
                ..Step::take(1)
            }
        )),
        3
    );
    assert_eq!(
        number(act(
            &mut world,
            Step {
                source: 1,
                ..Step::fault(1)
            }
        )),
        3
    );
}

#[test]
fn trap_16_beside_a_refusal_other_results_are_0() {
    let image = image_of(&specimen());
    assert_eq!(
        Reference.step(&mut image.clone()[..], &Step::read(1).bytes()),
        4
    );
    assert_eq!(Reference.quorum(3, 1, 0), 8);
    assert_eq!(Reference.premise(&[]), 1);
    assert_eq!(Reference.premise(&[0; IMAGE_SIZE]), 2);
    // But for the count of a replay.
    let steps = [Step::read(9), Step::read(9)];
    let journal: Vec<u8> = steps.iter().flat_map(Step::bytes).collect();
    assert_eq!(
        Reference.replay(&mut image.clone()[..], &journal),
        pack(4, 1)
    );
    // Without a refusal they stand beside 0.
    assert_eq!(Reference.quorum(4, 1, 0), pack(0, 3 + 256 * 3));
    let fresh = image_of(&World::fresh(0b1, 0, 0).unwrap());
    assert_eq!(Reference.premise(&fresh[..]), pack(0, 1));
    assert_eq!(Reference.premise(&image[..]), pack(0, 0));
}

#[test]
fn trap_17_in_phase_2_the_entry_is_what_is_written() {
    for world in spoiled(Clause::WritingEntry) {
        assert_eq!(broken(&world), [Clause::WritingEntry]);
    }
    // The writer in it need not be the client.
    let mut world = specimen();
    let entry = Entry::new(1, 9, 70);
    world.client_mut(1).entry = entry;
    world.messages[5].entry = entry;
    assert!(readable(&world));
}

#[test]
fn trap_18_what_runs_ensure_is_not_asked_of_images() {
    let mut world = specimen();
    // A key holder that is no member, an answer before its request, a second
    // START of a view, count 0 with a value.
    world.server_mut(30).view = 1;
    world.server_mut(30).keys = bit(1);
    world.server_mut(30).entry = Entry::new(0, 0, 9);
    world.messages[4].request = 10;
    world.send(world.messages[9]);
    assert_eq!(broken(&world), []);
    // And the steps work there.
    assert_eq!(number(act(&mut world, Step::deliver(30, 10))), 0);
    assert_eq!(number(act(&mut world, Step::take(4))), 0);
}

#[test]
fn trap_19_chains_hold_only_and_all_and_once() {
    for clause in [Clause::ChainOnly, Clause::ChainOnce, Clause::ChainAll] {
        for world in spoiled(clause) {
            assert_eq!(broken(&world), [clause]);
        }
    }
    // A link to itself, and a chain that enters another one.
    let mut world = specimen();
    world.messages[3].next = 3;
    assert!(!readable(&world));
    let mut world = specimen();
    world.messages[2].next = world.messages[6].next;
    assert!(!readable(&world));
}

#[test]
fn trap_20_the_pending_view_is_recorded() {
    let mut world = specimen();
    assert!(world.is_ending());
    assert_eq!(world.views[2].members, 0b11111);
    world.views[2].members = 0;
    world.views[2].f = 0;
    assert_eq!(broken(&world), [Clause::ViewSize]);
}

#[test]
fn trap_21_bytes_of_the_fresh_world() {
    let mut image = [0xee; IMAGE_SIZE];
    operations::fresh(&mut image, 0x8000_0002, 0, 0).unwrap();
    let mut expected = [0; IMAGE_SIZE];
    expected[0] = 3; // version
    expected[4] = 1; // newest view
    expected[16] = 0x02; // members of view 1
    expected[19] = 0x80;
    for server in [2, 32] {
        let at = 16 + 32 * 8 + 32 + (server - 1) * 20;
        expected[at] = 1; // view
        expected[at + 4] = 1; // key
    }
    assert!(image == expected);
}

#[test]
fn trap_22_steps_of_any_bytes_take_places() {
    let plain = reference::sessions::worked();
    let mut noisy = Journal::new(plain.members, plain.f);
    for step in &plain.steps {
        noisy.steps.push(vec![]);
        noisy.steps.push(vec![1; 11]);
        noisy.steps.push(step.clone());
        noisy.steps.push([step.as_slice(), &[0]].concat());
        noisy.steps.push(vec![0xff; 12]);
    }
    let (plain, noisy) = (run::<Sound>(&plain), run::<Sound>(&noisy));
    assert!(plain.world == noisy.world);
    for (one, other) in plain.operations.iter().zip(&noisy.operations) {
        assert_eq!(one.began * 5 + 2, other.began);
        assert_eq!(one.ended.map(|place| place * 5 + 2), other.ended);
        assert_eq!(
            (one.client, one.kind, one.entry),
            (other.client, other.kind, other.entry)
        );
    }
}

#[test]
fn trap_23_the_premise_is_that_of_the_last_image() {
    let journal = Journal::new(0b1, 0)
        .then(Step::read(1))
        .then(Step::fault(2));
    assert!(examine::<Sound>(&journal).premise);
    assert!(!examine::<Sound>(&journal.then(Step::fault(1))).premise);
}

fn operation(kind: Kind, began: usize, ended: Option<usize>, entry: Entry) -> Operation {
    Operation {
        client: 1,
        kind,
        began,
        ended,
        entry: Some(entry),
    }
}

#[test]
fn trap_24_two_reads_are_ordered_by_time_too() {
    let reads = [
        operation(Kind::Read, 0, Some(1), Entry::EMPTY),
        operation(Kind::Read, 2, Some(3), Entry::EMPTY),
    ];
    assert!(fits(&reads, &[0, 1]));
    assert!(!fits(&reads, &[1, 0]));
}

#[test]
fn trap_25_one_claim_about_the_whole_list() {
    // A read returns a write that is still open; its entry is known, and the
    // order has both, though the write ends only later.
    let mut script = Script::new(0b111, 0);
    script.act(Step::write(1, 7));
    script.exchange(1, &[1, 2]);
    let write = script.request(1);
    script.answer(1, write);
    let answer = script.last();
    script.read(2, &[1, 2]);
    let half = script.journal.clone();
    script.act(Step::take(answer));
    script.exchange(write, &[3]);
    for (journal, ended) in [(half, false), (script.journal, true)] {
        let verdict = examine::<Sound>(&journal);
        assert!(verdict.order && verdict.operations.len() == 2);
        assert_eq!(verdict.operations[0].is_completed(), ended);
    }
}

#[test]
fn trap_26_an_unfinished_write_has_the_entry_of_its_write_message() {
    let mut script = Script::new(0b1, 0);
    script.act(Step::write(1, 7));
    // Its record has a value already, but nothing was sent.
    assert_eq!(script.world.client(1).entry, Entry::new(0, 0, 7));
    assert_eq!(run::<Sound>(&script.journal).operations[0].entry, None);
    script.exchange(1, &[1]);
    let unfinished = run::<Sound>(&script.journal);
    assert_eq!(unfinished.operations[0].entry, Some(Entry::new(1, 1, 7)));
    // It takes part in the order only once a read returned it.
    assert!(ordered(&unfinished.operations).is_empty());
    script.answer(1, script.request(1));
    script.read(2, &[1]);
    assert_eq!(ordered(&run::<Sound>(&script.journal).operations).len(), 2);
    // An unfinished read has no entry, even while it writes back.
    let mut script = Script::new(0b111, 0);
    script.write(1, 7, &[1, 2]);
    script.act(Step::read(2));
    script.exchange(script.request(2), &[2, 3]);
    assert_eq!(script.world.client(2).phase, phase::WRITING);
    assert_eq!(run::<Sound>(&script.journal).operations[1].entry, None);
}

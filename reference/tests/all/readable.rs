//! The readable rule: each clause alone, and what it leaves open.

use reference::codec::{decode, encode, image_of};
use reference::entry::Entry;
use reference::generate::specimen::specimen;
use reference::generate::spoils::{change_byte, spoiled};
use reference::generate::worlds::world;
use reference::layout::IMAGE_SIZE;
use reference::operations;
use reference::premise::faulty_holders;
use reference::readable::{broken, readable, Clause};
use reference::record::Step;
use reference::refusal::Reason;
use reference::script::Script;
use reference::world::{bit, message_kind, Message, Server, World};
use reference::xorshift::Draws;

#[test]
fn specimen_is_readable() {
    assert_eq!(broken(&specimen()), []);
    assert!(readable(&specimen()));
}

#[test]
fn each_clause_has_images_that_only_it_refuses() {
    for clause in Clause::ALL {
        let worlds = spoiled(*clause);
        assert!(!worlds.is_empty(), "{clause:?}");
        for (number, world) in worlds.iter().enumerate() {
            assert_eq!(broken(world), [*clause], "number {number}");
            assert!(!readable(world));
            refuses_all(world);
        }
    }
}

/// Every operation on the image says 2 and leaves it.
fn refuses_all(world: &World) {
    let mut image = image_of(world);
    let before = image.clone();
    let step = Step::read(5).bytes();
    assert_eq!(
        operations::step(&mut image[..], &step),
        Err(Reason::Unreadable)
    );
    assert_eq!(operations::premise(&image[..]), Err(Reason::Unreadable));
    assert_eq!(operations::replay(&mut image[..], &step).refusal(), 2);
    assert!(image == before);
}

#[test]
fn decoding_and_encoding_lose_no_byte() {
    let mut draws = Draws::new(1);
    for _ in 0..50 {
        let mut image = Box::new([0; IMAGE_SIZE]);
        image.iter_mut().for_each(|byte| *byte = draws.word() as u8);
        let mut again = Box::new([0; IMAGE_SIZE]);
        let world = decode(&image);
        encode(&world, &mut again);
        assert!(image == again);
        // The test also ends on images of any bytes.
        assert!(!readable(&world) && broken(&world).len() > 5);
    }
}

#[test]
fn both_forms_of_the_test_agree_on_changed_bytes() {
    let mut draws = Draws::new(2);
    let (mut yes, mut no) = (0, 0);
    for _ in 0..200 {
        let world = world(&mut draws);
        assert_eq!(broken(&world), []);
        for _ in 0..20 {
            let mut image = image_of(&world);
            change_byte(&mut image, world.header.used, &mut draws);
            let changed = decode(&image);
            assert_eq!(readable(&changed), broken(&changed).is_empty());
            *(if readable(&changed) {
                &mut yes
            } else {
                &mut no
            }) += 1;
        }
    }
    assert!(yes > 100 && no > 1000, "{yes} readable, {no} not");
}

/// Changes the specimen and says whether it is still readable.
fn still(change: impl FnOnce(&mut World)) -> bool {
    let mut world = specimen();
    change(&mut world);
    readable(&world)
}

#[test]
fn a_phase_2_entry_is_that_of_its_write() {
    assert!(still(|world| {
        let entry = Entry::new(9, 16, 3);
        world.client_mut(1).entry = entry;
        world.messages[5].entry = entry;
    }));
    for change in [
        Entry::new(2, 1, 70),
        Entry::new(1, 2, 70),
        Entry::new(1, 1, 71),
    ] {
        assert!(!still(|world| world.client_mut(1).entry = change));
    }
}

#[test]
fn an_idle_client_remembers_any_entry() {
    assert!(still(
        |world| world.client_mut(4).entry = Entry::new(0, 16, 5)
    ));
    assert!(still(
        |world| world.client_mut(4).entry = Entry::new(u32::MAX, 0, 0)
    ));
    assert!(still(|world| world.client_mut(4).kind = 1));
    assert!(!still(|world| world.client_mut(4).kind = 0));
}

#[test]
fn count_0_may_go_with_a_writer_and_a_value() {
    let odd = Entry::new(0, 3, 9);
    assert!(still(|world| world.server_mut(9).entry = odd));
    assert!(still(|world| world.messages[9].entry = odd));
    assert!(still(|world| world.messages[4].entry = odd));
}

#[test]
fn the_value_of_a_reading_write_is_free() {
    let reading_write = |value| {
        move |world: &mut World| {
            world.client_mut(2).kind = 1;
            world.client_mut(2).entry.value = value;
        }
    };
    assert!(still(reading_write(0)));
    assert!(still(reading_write(u32::MAX)));
    assert!(!still(|world| {
        world.client_mut(2).kind = 1;
        world.client_mut(2).entry.count = 1;
    }));
}

#[test]
fn header_ranges() {
    assert!(!still(|world| world.header.newest = 0));
    assert!(!still(|world| world.header.ending = 0));
    assert!(!still(|world| world.header.end = 0));
    assert!(!still(|world| world.header.version = 0));
    let fresh = World::fresh(0b1, 0, 0).unwrap();
    assert!(readable(&fresh) && fresh.header.used == 0);
}

#[test]
fn an_open_phase_may_name_an_older_request() {
    assert!(still(|world| {
        world.send(Message {
            kind: message_kind::READ,
            sender: 2,
            ..Message::default()
        });
    }));
    // It must be a message of this client all the same.
    assert!(!still(|world| world.client_mut(2).request = 1));
}

#[test]
fn views_of_messages_end_at_the_newest_also_while_ending() {
    assert!(still(|world| world.messages[4].view = 2));
    assert!(!still(|world| world.messages[4].view = 3));
    assert!(!still(|world| world.messages[4].view = 0));
    assert!(!still(|world| world.messages[6].view = 0));
    assert!(!still(|world| world.server_mut(9).view = 3));
}

#[test]
fn starts_are_free() {
    // START of view 1, two STARTs of one view, or none.
    assert!(still(|world| world.messages[9].view = 1));
    assert!(still(|world| {
        world.send(world.messages[9]);
    }));
    assert!(still(|world| {
        world.messages[9] = Message {
            kind: message_kind::READ,
            sender: 9,
            ..Message::default()
        };
    }));
}

#[test]
fn an_answer_may_have_a_later_request_and_any_view() {
    assert!(still(|world| world.messages[4].request = 11));
    assert!(still(|world| {
        world.messages[4].request = 6;
        world.messages[4].view = 2;
    }));
    assert!(!still(|world| world.messages[4].request = 4));
    assert!(still(|world| world.messages[4].request = 12));
    assert!(!still(|world| world.messages[4].request = 13));
    assert!(!still(|world| world.messages[4].request = 0));
}

#[test]
fn senders_need_no_membership() {
    assert!(still(|world| world.messages[4].sender = 32));
    assert!(!still(|world| world.messages[4].sender = 0));
    assert!(still(|world| world.messages[1].sender = 16));
    assert!(!still(|world| world.messages[1].sender = 17));
    assert!(!still(|world| world.messages[1].sender = 0));
    assert!(!still(|world| world.messages[6].sender = 1));
    assert!(!still(|world| world.messages[9].sender = 1));
}

#[test]
fn chains_may_run_in_any_order() {
    assert!(still(|world| {
        // 1 leads to 3, then 2; turn it round.
        world.messages[1].next = 2;
        world.messages[2].next = 3;
        world.messages[3].next = 0;
    }));
    // An answer of another request, a request, or a number beyond.
    for next in [7, 5, 13, 1024, u16::MAX] {
        assert!(!still(|world| world.messages[2].next = next), "{next}");
    }
    // A taken answer that nobody links.
    assert!(!still(|world| world.messages[4].taken = 1));
    // The chain of a request whose phase is long closed is tested too.
    assert!(!still(|world| world.messages[6].next = 0));
}

#[test]
fn keys_of_servers() {
    let server = |server: Server| {
        move |world: &mut World| {
            *world.server_mut(9) = server;
            world.holders = faulty_holders(world);
        }
    };
    let correct = Server::default();
    assert!(still(server(Server {
        view: 2,
        keys: bit(2),
        ..correct
    })));
    assert!(still(server(Server { view: 2, ..correct })));
    assert!(!still(server(Server {
        view: 2,
        keys: bit(1),
        ..correct
    })));
    assert!(!still(server(Server {
        view: 0,
        keys: bit(1),
        ..correct
    })));
    let faulty = Server {
        faulty: 1,
        ..correct
    };
    assert!(still(server(Server {
        view: 0,
        keys: 0b11,
        ..faulty
    })));
    assert!(still(server(Server {
        view: 2,
        keys: bit(1),
        ..faulty
    })));
    assert!(!still(server(Server {
        keys: bit(3),
        ..faulty
    })));
}

#[test]
fn the_pending_view_obeys_the_size_rule() {
    assert!(still(|world| world.views[2].members = 0b1111));
    assert!(!still(|world| world.views[2].f = 2));
    assert!(!still(|world| world.views[2].members = 0));
    assert!(!still(|world| world.views[0].members = 0));
    assert!(!still(|world| world.views[3].members = 1));
    assert!(!still(|world| world.views[1].f = 255));
}

#[test]
fn an_open_phase_may_have_its_quorum_already() {
    let mut script = Script::new(0b111, 0);
    script.act(Step::read(1));
    for server in 1..=3 {
        script.answer(server, 1);
    }
    let mut world = script.world;
    for answer in 2..=3 {
        world.messages[answer].taken = 1;
        world.messages[answer].next = world.messages[1].next;
        world.messages[1].next = answer as u16;
    }
    assert!(readable(&world));
}

#[test]
fn drawn_worlds_are_readable_and_different() {
    let mut draws = Draws::new(3);
    let (mut ending, mut full, mut last, mut strangers) = (0, 0, 0, 0);
    for _ in 0..400 {
        let world = world(&mut draws);
        assert_eq!(broken(&world), []);
        ending += u32::from(world.is_ending());
        full += u32::from(world.header.used == 1023);
        last += u32::from(world.header.newest == 32);
        let stranger = |message: &Message| {
            message.kind == message_kind::ANSWER
                && !world.view(message.view).has_member(message.sender)
        };
        strangers += u32::from(world.messages.iter().any(stranger));
    }
    assert!(ending > 50 && full > 20 && last > 20 && strangers > 50);
}

//! The types: each record is exactly one value, and what they name is what the
//! library left.

use zemawulo::bytes::{self, IMAGE, STEP};
use zemawulo::machines::{Administrator, Closing};
use zemawulo::{
    load, quorum, Client, Entry, Image, Kind, Message, MessageKind, Numbers, Phase, Refusal,
    Server, Sizes, Step, View, World,
};

fn members(bits: u32, f: u8, r: u8) -> World {
    World {
        members: Numbers::from_bits(bits),
        f,
        r,
    }
}

#[test]
fn every_record_is_one_step() {
    let steps = load(7, 2000).unwrap();
    for (place, step) in steps.iter().enumerate() {
        let mut bytes = step.to_bytes();
        assert!(!matches!(step, Step::Raw(_)));
        assert_eq!(Step::from_bytes(bytes), *step);
        bytes[place % STEP] ^= 1 << (place % 8);
        assert_eq!(Step::from_bytes(bytes).to_bytes(), bytes);
    }
    assert_eq!(Step::from_bytes([0; STEP]), Step::Raw([0; STEP]));
    assert_eq!(Step::journal(&steps).len(), 2000 * STEP);
}

#[test]
fn first_records() {
    let world = members(0b1111, 1, 0);
    assert_eq!(World::from_bytes(world.to_bytes()), Some(world));
    let mut other = world.to_bytes();
    for place in [0, 2, 4, 5, 6, 7] {
        other[place] = 1;
        assert_eq!(World::from_bytes(other), None);
        other[place] = 0;
    }
}

#[test]
fn refusals_have_their_numbers_and_words() {
    assert_eq!(Refusal::from_number(0), None);
    assert_eq!(Refusal::all().count(), 16);
    for (number, refusal) in (1..).zip(Refusal::all()) {
        assert_eq!(refusal.number(), number);
        assert_eq!(Refusal::from_number(number), Some(refusal));
        assert!(refusal
            .to_string()
            .starts_with(&format!("refusal {number}: ")));
    }
    assert_eq!(Refusal::from_number(200), Some(Refusal::Other(200)));
    assert_eq!(Refusal::Other(200).number(), 200);
    let error: Box<dyn std::error::Error> = Box::new(quorum(0, 0, 0).unwrap_err());
    assert!(error.to_string().starts_with("refusal 8"));
}

#[test]
fn an_image_tells_what_it_holds() {
    let mut image = Image::fresh(members(0b1111, 1, 0)).unwrap();
    assert_eq!((image.newest(), image.used(), image.ending()), (1, 0, None));
    assert_eq!(image.views().count(), 1);
    image
        .step(Step::Write {
            client: 3,
            value: 9,
        })
        .unwrap();
    for server in 1..=3 {
        image.step(Step::Deliver { server, message: 1 }).unwrap();
    }
    for message in 2..=4 {
        image.step(Step::Take { message }).unwrap();
    }
    let client = image.client(3).unwrap();
    assert_eq!(client.phase(), Phase::Writing(5));
    assert_eq!(
        (client.kind(), client.largest_count()),
        (Some(Kind::Write), 1)
    );
    assert_eq!(client.entry(), Entry::new(1, 3, 9));
    assert_eq!(image.chain(1).collect::<Vec<_>>(), [4, 3, 2]);
    assert_eq!(image.chain(5).count(), 0);
    let write = image.message(5).unwrap();
    assert_eq!(
        (write.kind(), write.sender()),
        (Some(MessageKind::Write), 3)
    );
    let answer = image.message(4).unwrap();
    assert_eq!(
        (answer.kind(), answer.sender()),
        (Some(MessageKind::Answer), 3)
    );
    assert_eq!(
        (answer.view(), answer.request(), answer.taken()),
        (1, 1, true)
    );
    assert_eq!((image.message(0), image.message(6)), (None, None));
    assert_eq!(
        (image.view(0), image.view(2), image.server(33)),
        (None, None, None)
    );
}

#[test]
fn an_image_tells_what_changes() {
    let mut image = Image::fresh(members(0b1111, 1, 0)).unwrap();
    let next = Step::NewView {
        members: Numbers::from_bits(0b111_1000),
        f: 1,
        r: 0,
    };
    image.step(next).unwrap();
    assert_eq!(image.ending(), Some(1));
    assert_eq!(
        image.view(2).map(View::members),
        Some(Numbers::from_bits(0b111_1000))
    );
    image.step(Step::Fault { server: 4 }).unwrap();
    assert!(image.server(4).unwrap().faulty());
    assert_eq!(
        (image.faulty_holders(1), image.faulty_holders(2)),
        (Some(1), Some(0))
    );
    assert_eq!(
        (image.faulty_holders(0), image.faulty_holders(33)),
        (None, None)
    );
    assert_eq!(image.premise(), Ok(true));
    let again = Image::from_bytes(image.as_bytes()).unwrap();
    assert_eq!(again, image);
    assert_eq!(Image::from_bytes(&[]), Err(Refusal::Length));
    assert_eq!(Image::from_bytes(&[7; IMAGE]), Err(Refusal::Unreadable));
}

#[test]
fn a_step_of_an_image_is_that_of_its_bytes() {
    let mut image = Image::fresh(members(0b111, 0, 0)).unwrap();
    let mut lent = image.as_bytes().to_vec();
    for step in load(3, 500).unwrap() {
        assert_eq!(image.step(step), bytes::step(&mut lent, &step.to_bytes()));
        assert_eq!(image.as_bytes(), lent);
    }
}

#[test]
fn one_machine() {
    let mut server = Server::new(1, Entry::default());
    let start = Message::start(2, Entry::new(4, 1, 7));
    assert_eq!(server.receive(start, false), Err(Refusal::NoRule));
    assert_eq!(server.receive(start, true), Ok(false));
    assert_eq!((server.view(), server.entry()), (2, Entry::new(4, 1, 7)));
    let read = Message::read(1);
    assert_eq!(server.may_answer(read, 2, true), Err(Refusal::Faulty));

    let mut client = Client::default();
    client.begin_write(1, 7).unwrap();
    assert_eq!(client.begin_read(2), Err(Refusal::Busy));
    let close = Closing {
        client: 3,
        number: 2,
        entry: Entry::new(5, 2, 9),
        one: true,
    };
    assert_eq!(client.close(close), Ok(false));
    assert_eq!(client.entry(), Entry::new(6, 3, 7));
    client.give_up().unwrap();
    assert_eq!((client.phase(), client.kind()), (Phase::Idle, None));
    assert_eq!(client.give_up(), Err(Refusal::Idle));

    let mut administrator = Administrator::default();
    assert_eq!(administrator.close(), Err(Refusal::NoRule));
    let small = View::new(Numbers::from_bits(0b111), 1, 0);
    assert_eq!(administrator.call(1, small), Err(Refusal::Size));
    assert_eq!(administrator.restart(None), Err(Refusal::NoRule));
    let view = View::new(Numbers::from_bits(0b1111), 1, 0);
    administrator.call(1, view).unwrap();
    let ending = administrator;
    assert_eq!(administrator.restart(Some(small)), Err(Refusal::Size));
    let bare = View::new(Numbers::default(), 1, 0);
    assert_eq!(administrator.restart(Some(bare)), Err(Refusal::Range));
    assert_eq!(administrator.restart(Some(view)), Ok(()));
    assert_eq!(administrator.restart(None), Ok(()));
    assert_eq!(administrator, ending);
}

/// Delivers a request to the first servers and takes their answers.
fn exchange(image: &mut Image, request: u16, servers: u16) -> Option<u8> {
    let before = image.used();
    for server in 1..=servers {
        let server = server as u8;
        let message = request;
        image.step(Step::Deliver { server, message }).unwrap();
    }
    let answers = before + 1..=before + servers;
    let taken = answers.map(|message| image.step(Step::Take { message }).unwrap());
    taken.last().flatten()
}

#[test]
fn two_sizes() {
    // Ten servers, three of which close READ and nine WRITE.
    let mut image = Image::fresh(members(1023, 1, 3)).unwrap();
    let view = image.view(1).unwrap();
    assert_eq!(
        (view.r(), view.sizes()),
        (3, Ok(Sizes { read: 3, write: 9 }))
    );
    let write = Step::Write {
        client: 1,
        value: 7,
    };
    image.step(write).unwrap();
    assert_eq!(exchange(&mut image, 1, 3), None);
    assert_eq!(exchange(&mut image, 5, 9), Some(1));
    // The answers agree, but a read size below the write size writes back.
    image.step(Step::Read { client: 2 }).unwrap();
    assert_eq!(exchange(&mut image, 15, 3), None);
    assert_eq!(image.client(2).map(Client::phase), Some(Phase::Writing(19)));
    assert_eq!(exchange(&mut image, 19, 9), Some(2));
    let world = World::from_bytes(members(1023, 1, 3).to_bytes());
    assert_eq!(world, Some(members(1023, 1, 3)));
    assert_eq!(Image::fresh(members(1023, 1, 2)), Err(Refusal::Size));
    let next = |r| Step::NewView {
        members: Numbers::from_bits(1023),
        f: 1,
        r,
    };
    assert_eq!(image.step(next(7)), Err(Refusal::Size));
    assert_eq!(image.step(next(6)), Ok(None));
    assert_eq!(image.view(2).map(View::r), Some(6));
}

#[test]
fn equal_sizes_read_in_one_exchange() {
    // Of 10 servers with f 1, n+f+1 is 12, and an r of 6 leaves 6; of 9 it is 11.
    for (bits, r, read, write) in [(1023, 0, 6, 6), (1023, 6, 6, 6), (511, 5, 5, 6)] {
        let mut image = Image::fresh(members(bits, 1, r)).unwrap();
        assert_eq!(image.view(1).unwrap().sizes(), Ok(Sizes { read, write }));
        image.step(Step::Read { client: 2 }).unwrap();
        let completed = exchange(&mut image, 1, read as u16);
        assert_eq!(completed, (read == write).then_some(2));
    }
}

/// Takes these answers.
fn take(image: &mut Image, answers: impl Iterator<Item = u16>) {
    for message in answers {
        image.step(Step::Take { message }).unwrap();
    }
}

#[test]
fn a_restart() {
    let restart = |bits, f, r| Step::Restart {
        members: Numbers::from_bits(bits),
        f,
        r,
    };
    let mut image = Image::fresh(members(0b1111, 1, 0)).unwrap();
    assert_eq!(image.step(restart(0, 0, 0)), Err(Refusal::NoRule));
    let next = Step::NewView {
        members: Numbers::from_bits(0b11_1100),
        f: 1,
        r: 0,
    };
    image.step(next).unwrap();
    for server in 1..=3 {
        let deliver = Step::Deliver { server, message: 1 };
        image.step(deliver).unwrap();
    }
    take(&mut image, 2..=3);
    for (step, refusal) in [
        (restart(0, 1, 0), Refusal::Range),
        (restart(0, 0, 1), Refusal::Range),
        (restart(0b111, 1, 0), Refusal::Size),
        (restart(0b1111, 0, 3), Refusal::Size),
    ] {
        assert_eq!(image.step(step), Err(refusal));
        assert_eq!(Step::from_bytes(step.to_bytes()), step);
    }
    // Without a restart the third answer closes END.
    let mut straight = image.clone();
    take(&mut straight, 4..=4);
    assert_eq!(straight.newest(), 2);
    let mut other = image.clone();
    image.step(restart(0, 0, 0)).unwrap();
    assert!((2..=4).all(|number| !image.message(number).unwrap().taken()));
    take(&mut image, 2..=4);
    assert_eq!(image, straight);
    assert_eq!(image.step(restart(0, 0, 0)), Err(Refusal::NoRule));
    // With new members the same START, and another view.
    other.step(restart(0b111_1100, 0, 2)).unwrap();
    assert_eq!((other.newest(), other.ending()), (1, Some(1)));
    take(&mut other, 2..=4);
    assert_eq!((other.newest(), other.message(5)), (2, straight.message(5)));
    let view = View::new(Numbers::from_bits(0b111_1100), 0, 2);
    assert_eq!(other.view(2), Some(view));
}

#[test]
fn a_watched_run() {
    let mut image = Image::fresh(members(0b1111, 1, 0)).unwrap();
    let mut plain = image.clone();
    let faults = [1, 2, 3, 3].map(|server| Step::Fault { server });
    let journal = Step::journal(&faults);
    let (replayed, first) = image.watch(&journal);
    assert_eq!((replayed.steps, replayed.stop), (3, Some(Refusal::Faulty)));
    assert_eq!(first, Some(2));
    assert_eq!((plain.replay(&journal), &plain), (replayed, &image));
    assert_eq!(image.faulty_holders(1), Some(3));
    assert_eq!(image.premise(), Ok(false));
    let (replayed, first) = image.watch(&journal[1..]);
    assert_eq!((replayed.stop, first), (Some(Refusal::Length), None));
}

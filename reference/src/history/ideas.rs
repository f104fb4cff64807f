//! The wrong ideas that look sound, each with a journal written by hand that
//! shows it wrong, and a hunt for drawn journals that do.

use crate::generate::journals::journal;
use crate::generate::profile::{Profile, GLIMPSE, RESTARTS, STILL, STORM, WRECK};
use crate::history::operations::run;
use crate::history::verdict::{examine, Verdict};
use crate::journal::Journal;
use crate::judge::{log_of, Line};
use crate::record::Step;
use crate::rules::{
    AddsUpViews, CountsAnswers, EndsReadsEarly, ForgetsLeftViews, ForgetsOwnCount, Rules,
    SkipsWriteBack, StartReturnsKey,
};

/// A wrong idea: what it is, how a journal fares under it, and where drawn
/// journals are likely to show it.
pub struct Idea {
    pub name: &'static str,
    pub by_hand: fn() -> Journal,
    pub examine: fn(&Journal) -> Verdict,
    pub profile: &'static Profile,
    /// The log of a journal's operations.
    pub log: fn(&Journal) -> Vec<Line>,
    draw: fn(u64, &Profile) -> Journal,
}

/// Within so many drawn journals each idea is found out.
pub const LIMIT: u64 = 2000;

pub const IDEAS: [Idea; 7] = [
    idea::<ForgetsLeftViews>(
        "counting faults only until a quorum has left",
        old_quorum_turns_faulty,
        &WRECK,
    ),
    idea::<CountsAnswers>(
        "counting answers instead of servers",
        faulty_server_answers_often,
        &STILL,
    ),
    idea::<AddsUpViews>(
        "adding up answers of different views",
        one_of_each_view,
        &STORM,
    ),
    idea::<StartReturnsKey>(
        "a START that comes again returns the key",
        retired_server_starts_again,
        &STORM,
    ),
    idea::<ForgetsOwnCount>(
        "a given-up write's stamp is given again",
        stamp_given_again,
        &RESTARTS,
    ),
    idea::<SkipsWriteBack>("skipping the write-back", second_reader_sees_less, &GLIMPSE),
    idea::<EndsReadsEarly>(
        "one exchange below the write size",
        second_reader_asks_another,
        &GLIMPSE,
    ),
];

const fn idea<R: Rules>(
    name: &'static str,
    by_hand: fn() -> Journal,
    profile: &'static Profile,
) -> Idea {
    Idea {
        name,
        by_hand,
        examine: examine::<R>,
        profile,
        log: logged::<R>,
        draw: journal::<R>,
    }
}

fn logged<R: Rules>(journal: &Journal) -> Vec<Line> {
    log_of(&run::<R>(journal).operations)
}

impl Idea {
    /// The journal of this seed, drawn while the idea is in force.
    pub fn drawn(&self, seed: u64) -> Journal {
        (self.draw)(seed, self.profile)
    }

    /// How many journals, drawn from this seed on, it takes until one shows the
    /// idea wrong; none if the limit does not suffice.
    pub fn hunt(&self, seed: u64, limit: u64) -> Option<u64> {
        (1..=limit).find(|run| (self.examine)(&self.drawn(seed + run)).is_wrong())
    }
}

/// Document 01's own example. The write ends on 1, 3, 4; 2 has answered the
/// read with the old entry; 1, 2, 3 have left when 4 turns faulty; 1 and 4 show
/// the read the old entry too.
pub fn old_quorum_turns_faulty() -> Journal {
    Journal::new(0b1111, 1)
        .then(Step::fault(1))
        .then(Step::write(1, 7)) // 1
        .then(Step::deliver(3, 1)) // 2
        .then(Step::deliver(4, 1)) // 3
        .then(Step::false_answer(1, 1, 1, 0)) // 4
        .then(Step::take(2))
        .then(Step::take(3))
        .then(Step::take(4)) // 5, WRITE
        .then(Step::deliver(3, 5)) // 6
        .then(Step::deliver(4, 5)) // 7
        .then(Step::false_answer(1, 1, 5, 0)) // 8
        .then(Step::take(6))
        .then(Step::take(7))
        .then(Step::take(8)) // the write ends
        .then(Step::read(2)) // 9
        .then(Step::deliver(2, 9)) // 10
        .then(Step::new_view(0b0110, 0)) // 11, END
        .then(Step::false_answer(1, 1, 11, 0)) // 12
        .then(Step::deliver(2, 11)) // 13
        .then(Step::deliver(3, 11)) // 14
        .then(Step::fault(4))
        .then(Step::false_answer(1, 1, 9, 0)) // 15
        .then(Step::false_answer(4, 1, 9, 0)) // 16
        .then(Step::take(10))
        .then(Step::take(15))
        .then(Step::take(16)) // the read ends
}

/// The write ends on 1, 2, 3; the read hears the faulty server 4 alone, three
/// times.
pub fn faulty_server_answers_often() -> Journal {
    let mut journal = Journal::new(0b1111, 1)
        .then(Step::fault(4))
        .then(Step::write(1, 7)); // 1
    for request in [1, 5] {
        for server in 1..=3 {
            journal.push(Step::deliver(server, request));
        }
        for answer in request + 1..=request + 3 {
            journal.push(Step::take(answer));
        }
    }
    journal.push(Step::read(2)); // 9
    for _ in 0..3 {
        journal.push(Step::false_answer(4, 1, 9, 0));
    }
    for answer in 10..=12 {
        journal.push(Step::take(answer));
    }
    journal
}

/// Views {1, 2, 3} and {4, 5, 6}. The write ends on 4 and 5 in the second; the
/// read hears 3, which never left the first, and 6.
pub fn one_of_each_view() -> Journal {
    Journal::new(0b111, 0)
        .then(Step::new_view(0b111000, 0)) // 1, END
        .then(Step::deliver(1, 1)) // 2
        .then(Step::deliver(2, 1)) // 3
        .then(Step::take(2))
        .then(Step::take(3)) // 4, START
        .then(Step::deliver(4, 4))
        .then(Step::deliver(5, 4))
        .then(Step::deliver(6, 4))
        .then(Step::write(1, 7)) // 5
        .then(Step::deliver(4, 5)) // 6
        .then(Step::deliver(5, 5)) // 7
        .then(Step::take(6))
        .then(Step::take(7)) // 8, WRITE
        .then(Step::deliver(4, 8)) // 9
        .then(Step::deliver(5, 8)) // 10
        .then(Step::take(9))
        .then(Step::take(10)) // the write ends
        .then(Step::read(2)) // 11
        .then(Step::deliver(3, 11)) // 12
        .then(Step::deliver(6, 11)) // 13
        .then(Step::take(12))
        .then(Step::take(13)) // the read ends
}

/// Views {1}, {2}, {3}. Server 2 has ended its view when START comes again; the
/// write then ends on it alone, and the read on 3.
pub fn retired_server_starts_again() -> Journal {
    Journal::new(0b1, 0)
        .then(Step::new_view(0b10, 0)) // 1, END
        .then(Step::deliver(1, 1)) // 2
        .then(Step::take(2)) // 3, START
        .then(Step::deliver(2, 3))
        .then(Step::new_view(0b100, 0)) // 4, END
        .then(Step::deliver(2, 4)) // 5
        .then(Step::take(5)) // 6, START
        .then(Step::deliver(3, 6))
        .then(Step::deliver(2, 3)) // START comes again
        .then(Step::write(1, 7)) // 7
        .then(Step::deliver(2, 7)) // 8
        .then(Step::take(8)) // 9, WRITE
        .then(Step::deliver(2, 9)) // 10
        .then(Step::take(10)) // the write ends
        .then(Step::read(2)) // 11
        .then(Step::deliver(3, 11)) // 12
        .then(Step::take(12)) // the read ends
}

/// The first write has reached server 1 alone when it is given up. The second
/// hears 2 and 3, and ends there; a read hears 1 and 2, a later one 2 and 3.
pub fn stamp_given_again() -> Journal {
    Journal::new(0b111, 0)
        .then(Step::write(1, 7)) // 1
        .then(Step::deliver(1, 1)) // 2
        .then(Step::deliver(2, 1)) // 3
        .then(Step::take(2))
        .then(Step::take(3)) // 4, WRITE
        .then(Step::deliver(1, 4)) // 5
        .then(Step::give_up(1))
        .then(Step::write(1, 8)) // 6
        .then(Step::deliver(2, 6)) // 7
        .then(Step::deliver(3, 6)) // 8
        .then(Step::take(7))
        .then(Step::take(8)) // 9, WRITE
        .then(Step::deliver(2, 9)) // 10
        .then(Step::deliver(3, 9)) // 11
        .then(Step::take(10))
        .then(Step::take(11)) // the write ends
        .then(Step::read(2)) // 12
        .then(Step::deliver(1, 12)) // 13
        .then(Step::deliver(2, 12)) // 14
        .then(Step::take(13))
        .then(Step::take(14)) // 15, WRITE
        .then(Step::deliver(1, 15)) // 16
        .then(Step::deliver(2, 15)) // 17
        .then(Step::take(16))
        .then(Step::take(17)) // the read ends
        .then(Step::read(2)) // 18
        .then(Step::deliver(2, 18)) // 19
        .then(Step::deliver(3, 18)) // 20
        .then(Step::take(19))
        .then(Step::take(20)) // the second read ends
}

/// The write has reached server 1 only. A first read hears 1 and 2, a second
/// one, later, 2 and 3.
pub fn second_reader_sees_less() -> Journal {
    Journal::new(0b111, 0)
        .then(Step::write(1, 7)) // 1
        .then(Step::deliver(1, 1)) // 2
        .then(Step::deliver(2, 1)) // 3
        .then(Step::take(2))
        .then(Step::take(3)) // 4, WRITE
        .then(Step::deliver(1, 4)) // 5
        .then(Step::read(2)) // 6
        .then(Step::deliver(1, 6)) // 7
        .then(Step::deliver(2, 6)) // 8
        .then(Step::take(7))
        .then(Step::take(8)) // the first read ends
        .then(Step::read(3)) // 9
        .then(Step::deliver(2, 9)) // 10
        .then(Step::deliver(3, 9)) // 11
        .then(Step::take(10))
        .then(Step::take(11)) // the second read ends
}

/// Read size 1 and write size 3. The write has reached server 1 alone; a reader
/// asks 1, and after it another asks 2.
pub fn second_reader_asks_another() -> Journal {
    Journal::sized(0b111, 0, 1)
        .then(Step::write(1, 7)) // 1
        .then(Step::deliver(2, 1)) // 2
        .then(Step::take(2)) // 3, WRITE
        .then(Step::deliver(1, 3)) // 4
        .then(Step::read(2)) // 5
        .then(Step::deliver(1, 5)) // 6
        .then(Step::take(6))
        .then(Step::read(3)) // 7
        .then(Step::deliver(2, 7)) // 8
        .then(Step::take(8))
}

//! The readable test, clause by clause.
//!
//! Each record has a function that shows a judge its clauses one after another,
//! with whether they hold. The readable test stops at the first that does not;
//! `broken` names them all. A clause that speaks of another field holds wherever
//! that field is spoiled itself, so that one spoiled field breaks one clause.

use std::ops::ControlFlow;

use crate::entry::Entry;
use crate::layout::{LAST_CLIENT, LAST_MESSAGE, LAST_SERVER, LAST_VIEW, MESSAGES, VERSION, VIEWS};
use crate::premise::faulty_holders;
use crate::refusal::Reason;
use crate::world::{
    bit, message_kind, operation_kind, phase, Client, Message, Server, View, World,
};

macro_rules! clauses {
    ($($(#[$text:meta])* $name:ident,)*) => {
        /// One sentence of the readable rule.
        #[derive(Clone, Copy, Debug, PartialEq, Eq, Hash, PartialOrd, Ord)]
        pub enum Clause { $($(#[$text])* $name,)* }

        impl Clause {
            pub const ALL: &'static [Clause] = &[$(Clause::$name,)*];
        }
    };
}

clauses! {
    /// The version is 3.
    Version,
    /// At most 1,023 messages are used.
    Used,
    /// The newest view is 1 to 32.
    Newest,
    /// Ending is 0 or 1.
    Ending,
    /// The header's last eight bytes are zero.
    HeaderSpare,
    /// The END number is 0 unless ending.
    EndUnlessEnding,
    /// While ending, newest is below 32.
    EndingBelowLast,
    /// While ending, the END number names an END.
    EndNamed,
    /// While ending, that END is the newest view's.
    EndOfNewest,
    /// A view's last three bytes are zero.
    ViewSpare,
    /// Views up to the newest, or to the pending one, obey the size rule.
    ViewSize,
    /// Their read sizes are within the bounds.
    ViewReadSize,
    /// Views beyond are zero.
    ViewBeyond,
    /// Each view's byte is the number of its faulty key holders; beyond the
    /// newest view it is 0.
    Holders,
    /// A server's view does not exceed the newest.
    ServerView,
    /// Faulty is 0 or 1.
    ServerFaulty,
    /// A server's two spare bytes are zero.
    ServerSpare,
    /// Keys are of views that do not exceed the newest.
    ServerKeys,
    /// A correct server has no key but its own view's.
    CorrectKeys,
    /// The writer of a server's entry is at most 16.
    ServerWriter,
    /// The spare bytes of a server's entry are zero.
    ServerEntrySpare,
    /// A phase is 0 to 2.
    ClientPhase,
    /// A client's kind is 0 to 2.
    ClientKind,
    /// An idle client has no request.
    IdleRequest,
    /// Kind 0 goes with phase 0.
    KindlessPhase,
    /// Kind 0 goes with the empty entry.
    KindlessEntry,
    /// In phase 1 of a write the entry's count and writer are zero.
    WriteReading,
    /// In phase 1 of a read the entry is zero.
    ReadReading,
    /// Phase 1 names a READ of this client.
    ReadingNamed,
    /// Phase 2 names a WRITE of this client.
    WritingNamed,
    /// In phase 2 the entry is that of the WRITE.
    WritingEntry,
    /// The writer of a client's entry is at most 16.
    ClientWriter,
    /// The spare bytes of a client's entry are zero.
    ClientEntrySpare,
    /// Message 0 is zero.
    MessageZero,
    /// Messages beyond the used ones are zero.
    MessageBeyond,
    /// A message's kind is 1 to 5.
    MessageKind,
    /// The sender is a client, the administrator or a server, by kind.
    MessageSender,
    /// READ and WRITE have view 0.
    NoMessageView,
    /// END, START and answers have a view of 1 to newest.
    MessageView,
    /// Taken is 0 or 1 in an answer.
    AnswerTaken,
    /// Taken is 0 in other messages.
    OtherTaken,
    /// An answer's request is a message of kind 1 to 3.
    AnswerRequest,
    /// Other messages have request 0.
    OtherRequest,
    /// Next is 0 in a START.
    StartNext,
    /// Next is 0 in an untaken answer.
    UntakenNext,
    /// READ and END have the zero entry.
    NoMessageEntry,
    /// The writer of a message's entry is at most 16.
    MessageWriter,
    /// The spare bytes of a message's entry are zero.
    MessageEntrySpare,
    /// A chain holds only taken answers of its request.
    ChainOnly,
    /// A chain holds none of them two times: it ends.
    ChainOnce,
    /// A chain holds all of them.
    ChainAll,
}

/// Goes on, or stops at a broken clause.
type Flow = ControlFlow<Clause>;

/// Is shown each clause and whether it holds, and says whether to go on.
trait Judge {
    fn clause(&mut self, clause: Clause, holds: bool) -> Flow;
}

/// Stops at the first clause that does not hold.
struct First;

impl Judge for First {
    fn clause(&mut self, clause: Clause, holds: bool) -> Flow {
        if holds {
            Flow::Continue(())
        } else {
            Flow::Break(clause)
        }
    }
}

/// Collects the clauses that do not hold.
struct All(Vec<Clause>);

impl Judge for All {
    fn clause(&mut self, clause: Clause, holds: bool) -> Flow {
        if !holds {
            self.0.push(clause);
        }
        Flow::Continue(())
    }
}

/// True if the world's image is readable.
pub fn readable(world: &World) -> bool {
    judge(world, &mut First).is_continue()
}

/// The clauses that do not hold, each named one time.
pub fn broken(world: &World) -> Vec<Clause> {
    let mut all = All(Vec::new());
    let _ = judge(world, &mut all);
    let mut broken = all.0;
    broken.sort();
    broken.dedup();
    broken
}

fn judge(world: &World, judge: &mut impl Judge) -> Flow {
    let used = usize::from(world.header.used.min(LAST_MESSAGE));
    header(world, judge)?;
    for (number, record) in (1..).zip(&world.views) {
        view(world, number, record, judge)?;
    }
    judge.clause(Clause::Holders, world.holders == counted(world))?;
    for record in &world.servers {
        server(world, record, judge)?;
    }
    for (number, record) in (1..).zip(&world.clients) {
        client(world, number, record, judge)?;
    }
    judge.clause(Clause::MessageZero, world.messages[0] == Message::default())?;
    for record in &world.messages[1..=used] {
        message(world, record, judge)?;
    }
    judge.clause(Clause::MessageBeyond, zero(&world.messages[used + 1..]))?;
    chains(world, used, judge)
}

fn zero(messages: &[Message]) -> bool {
    messages
        .iter()
        .all(|message| *message == Message::default())
}

fn header(world: &World, judge: &mut impl Judge) -> Flow {
    let header = &world.header;
    let ending = header.ending == 1;
    let end = world.message(header.end);
    let named = end.is_some_and(|message| message.kind == message_kind::END && message.sender == 0);
    let of_newest = end.is_some_and(|message| message.view == header.newest);
    judge.clause(Clause::Version, header.version == VERSION)?;
    judge.clause(Clause::Used, header.used <= LAST_MESSAGE)?;
    judge.clause(Clause::Newest, (1..=LAST_VIEW).contains(&header.newest))?;
    judge.clause(Clause::Ending, header.ending <= 1)?;
    judge.clause(Clause::HeaderSpare, header.spare == [0; 8])?;
    judge.clause(
        Clause::EndUnlessEnding,
        header.ending != 0 || header.end == 0,
    )?;
    judge.clause(
        Clause::EndingBelowLast,
        !ending || header.newest != LAST_VIEW,
    )?;
    judge.clause(Clause::EndNamed, !ending || named)?;
    judge.clause(Clause::EndOfNewest, !(ending && named) || of_newest)
}

/// The last view that is recorded: the newest, or the pending one.
fn last_recorded(world: &World) -> u8 {
    world
        .header
        .newest
        .saturating_add(u8::from(world.header.ending == 1))
}

fn view(world: &World, number: u8, view: &View, judge: &mut impl Judge) -> Flow {
    let recorded = number <= last_recorded(world);
    judge.clause(Clause::ViewSpare, view.spare == [0; 2])?;
    let size_rule = if recorded { view.size_rule() } else { Ok(()) };
    judge.clause(Clause::ViewSize, size_rule != Err(Reason::SizeRule))?;
    judge.clause(Clause::ViewReadSize, size_rule != Err(Reason::ReadSize))?;
    judge.clause(
        Clause::ViewBeyond,
        recorded || (view.members == 0 && view.f == 0 && view.r == 0),
    )
}

/// The faulty key holders of views 1 to newest, as the servers have it.
fn counted(world: &World) -> [u8; VIEWS] {
    let mut counts = faulty_holders(world);
    for (number, count) in (1..).zip(&mut counts) {
        if number > world.header.newest {
            *count = 0;
        }
    }
    counts
}

/// The bits of the keys of views 1 to newest.
fn keys_to_newest(world: &World) -> u32 {
    match world.header.newest {
        newest @ 0..=31 => (1 << newest) - 1,
        _ => u32::MAX,
    }
}

fn server(world: &World, server: &Server, judge: &mut impl Judge) -> Flow {
    let keys = keys_to_newest(world);
    let others = server.keys & keys & !bit(server.view);
    judge.clause(Clause::ServerView, server.view <= world.header.newest)?;
    judge.clause(Clause::ServerFaulty, server.faulty <= 1)?;
    judge.clause(Clause::ServerSpare, server.spare == [0; 2])?;
    judge.clause(Clause::ServerKeys, server.keys & !keys == 0)?;
    judge.clause(Clause::CorrectKeys, server.faulty != 0 || others == 0)?;
    judge.clause(Clause::ServerWriter, server.entry.writer <= LAST_CLIENT)?;
    judge.clause(Clause::ServerEntrySpare, server.entry.spare == [0; 3])
}

/// What a client's open phase names, if it is a message of this kind and
/// client.
fn named(world: &World, number: u8, client: &Client, kind: u8) -> Option<Entry> {
    let request = world.message(client.request)?;
    (request.kind == kind && request.sender == number).then_some(request.entry)
}

fn client(world: &World, number: u8, client: &Client, judge: &mut impl Judge) -> Flow {
    let entry = &client.entry;
    judge.clause(Clause::ClientPhase, client.phase <= phase::WRITING)?;
    judge.clause(Clause::ClientKind, client.kind <= operation_kind::READ)?;
    judge.clause(Clause::ClientWriter, entry.writer <= LAST_CLIENT)?;
    judge.clause(Clause::ClientEntrySpare, entry.spare == [0; 3])?;
    if client.kind == operation_kind::NONE {
        judge.clause(Clause::KindlessPhase, !matches!(client.phase, 1..=2))?;
        judge.clause(Clause::KindlessEntry, entry.is_empty())?;
    }
    match client.phase {
        phase::IDLE => judge.clause(Clause::IdleRequest, client.request == 0),
        phase::READING => reading(world, number, client, judge),
        phase::WRITING => writing(world, number, client, judge),
        _ => Flow::Continue(()),
    }
}

fn reading(world: &World, number: u8, client: &Client, judge: &mut impl Judge) -> Flow {
    let entry = &client.entry;
    if client.kind == operation_kind::WRITE {
        judge.clause(Clause::WriteReading, entry.count == 0 && entry.writer == 0)?;
    }
    if client.kind == operation_kind::READ {
        judge.clause(Clause::ReadReading, entry.is_empty())?;
    }
    let read = named(world, number, client, message_kind::READ);
    judge.clause(Clause::ReadingNamed, read.is_some())
}

fn writing(world: &World, number: u8, client: &Client, judge: &mut impl Judge) -> Flow {
    let written = named(world, number, client, message_kind::WRITE);
    judge.clause(Clause::WritingNamed, written.is_some())?;
    let same = written.is_none_or(|written| written == client.entry);
    judge.clause(Clause::WritingEntry, same)
}

fn message(world: &World, message: &Message, judge: &mut impl Judge) -> Flow {
    judge.clause(Clause::MessageWriter, message.entry.writer <= LAST_CLIENT)?;
    judge.clause(Clause::MessageEntrySpare, message.entry.spare == [0; 3])?;
    judge.clause(
        Clause::MessageSender,
        sender_fits(message.kind, message.sender),
    )?;
    match message.kind {
        message_kind::ANSWER => answer(world, message, judge),
        message_kind::READ..=message_kind::START => request(world, message, judge),
        _ => judge.clause(Clause::MessageKind, false),
    }
}

/// READ, WRITE, END or START.
fn request(world: &World, message: &Message, judge: &mut impl Judge) -> Flow {
    judge.clause(Clause::OtherTaken, message.taken == 0)?;
    judge.clause(Clause::OtherRequest, message.request == 0)?;
    if matches!(message.kind, message_kind::READ | message_kind::WRITE) {
        judge.clause(Clause::NoMessageView, message.view == 0)?;
    } else {
        judge.clause(Clause::MessageView, is_view(world, message.view))?;
    }
    if matches!(message.kind, message_kind::READ | message_kind::END) {
        let entry = &message.entry;
        let zero = entry.count == 0 && entry.writer == 0 && entry.value == 0;
        judge.clause(Clause::NoMessageEntry, zero)?;
    }
    let start = message.kind == message_kind::START;
    judge.clause(Clause::StartNext, !start || message.next == 0)
}

fn answer(world: &World, message: &Message, judge: &mut impl Judge) -> Flow {
    judge.clause(Clause::MessageView, is_view(world, message.view))?;
    judge.clause(Clause::AnswerTaken, message.taken <= 1)?;
    judge.clause(Clause::AnswerRequest, is_request(world, message.request))?;
    judge.clause(Clause::UntakenNext, message.taken != 0 || message.next == 0)
}

fn is_view(world: &World, view: u8) -> bool {
    (1..=world.header.newest).contains(&view)
}

/// Who may send a message of this kind.
pub fn sender_fits(kind: u8, sender: u8) -> bool {
    match kind {
        message_kind::READ | message_kind::WRITE => (1..=LAST_CLIENT).contains(&sender),
        message_kind::END | message_kind::START => sender == 0,
        message_kind::ANSWER => (1..=LAST_SERVER).contains(&sender),
        _ => true,
    }
}

/// True for a used message of kind 1 to 3.
fn is_request(world: &World, number: u16) -> bool {
    world.message(number).is_some_and(Message::asks)
}

fn taken_answer(message: &Message) -> bool {
    message.kind == message_kind::ANSWER && message.taken == 1
}

/// How the walk along a chain ended.
enum Walk {
    Whole,
    Stranger,
    Repetition,
}

/// The chain of every request is walked, and what is met is marked. All are
/// whole if in the end every taken answer is marked.
fn chains(world: &World, used: usize, judge: &mut impl Judge) -> Flow {
    let mut met = [false; MESSAGES];
    for number in 1..=used {
        if world.messages[number].asks() {
            let end = walk(world, number as u16, &mut met);
            judge.clause(Clause::ChainOnly, !matches!(end, Walk::Stranger))?;
            judge.clause(Clause::ChainOnce, !matches!(end, Walk::Repetition))?;
        }
    }
    let all = (1..=used).all(|number| met[number] || !owed(world, number));
    judge.clause(Clause::ChainAll, all)
}

/// A taken answer that some chain owes: one with a request that can have a
/// chain.
fn owed(world: &World, number: usize) -> bool {
    let message = &world.messages[number];
    taken_answer(message) && is_request(world, message.request)
}

/// Follows the links from a request until zero, or until a link that does not
/// belong there.
fn walk(world: &World, request: u16, met: &mut [bool; MESSAGES]) -> Walk {
    let mut next = world.messages[usize::from(request)].next;
    while next != 0 {
        match world.message(next) {
            Some(link) if taken_answer(link) && link.request == request => {
                if std::mem::replace(&mut met[usize::from(next)], true) {
                    return Walk::Repetition;
                }
                next = link.next;
            }
            _ => return Walk::Stranger,
        }
    }
    Walk::Whole
}

//! Sessions of the program: what is fed to it. What it must print is the
//! reference's own output.

use crate::generate::journals::journal;
use crate::generate::profile::{Profile, FULL, RUSH, STORM};
use crate::journal::Journal;
use crate::layout::{LAST_MESSAGE, STEP_SIZE};
use crate::program::run;
use crate::record::{step_kind, Step};
use crate::rules::Sound;
use crate::script::Script;

/// A session: its name and the program's input.
pub struct Session {
    pub name: String,
    pub input: Vec<u8>,
}

impl Session {
    fn new(name: &str, input: Vec<u8>) -> Session {
        Session {
            name: name.to_string(),
            input,
        }
    }

    /// What the program prints.
    pub fn output(&self) -> String {
        run(&self.input)
    }
}

/// The sessions that are always written.
pub fn sessions() -> Vec<Session> {
    let mut sessions = vec![
        Session::new("worked", worked().input()),
        Session::new("write-back", write_back().input()),
        Session::new("one-exchange", one_exchange().input()),
        Session::new("two-sizes", two_sizes().input()),
        Session::new("restart", restart().input()),
        Session::new("restart-same-view", restart_same_view().input()),
        Session::new("retired-server", retired_server().input()),
        Session::new("replaced-entry", replaced_entry().input()),
        Session::new("stale-read", stale_read().input()),
        Session::new("unfinished-write", unfinished_write().input()),
        Session::new("given-up", given_up().input()),
        Session::new("given-up-surfaces", given_up_surfaces().input()),
        Session::new("many-views", drawn(53, &RUSH).input()),
        Session::new("many-clients", drawn(239, &STORM).input()),
        Session::new("full-year", drawn(88, &FULL).input()),
        Session::new("full-table", full_table().input()),
        Session::new("empty", Vec::new()),
        Session::new("first-cut-short", worked().input()[..7].to_vec()),
        Session::new("cut-short", cut(worked().input()[..9 * STEP_SIZE].to_vec())),
        Session::new(
            "first-of-other-kind",
            worked().input()[STEP_SIZE..].to_vec(),
        ),
        Session::new("first-with-read-size", with_byte(worked().input(), 1, 1)),
        Session::new("first-with-view", with_byte(worked().input(), 2, 1)),
        Session::new("first-with-source", with_byte(worked().input(), 7, 1)),
        Session::new("no-members", Journal::new(0, 0).input()),
        Session::new("too-few-members", Journal::new(0b111, 1).input()),
        Session::new("read-size-too-large", Journal::sized(0b1111, 0, 3).input()),
        Session::new("read-size-too-small", Journal::sized(0b1111, 1, 2).input()),
        Session::new("world-alone", Journal::new(0b111, 0).input()),
    ];
    sessions.extend(refused_steps());
    sessions
}

/// Sessions drawn from seeds, of every profile with few steps.
pub fn drawn_sessions(seed: u64, count: u64) -> Vec<Session> {
    (seed..seed + count)
        .map(|seed| Session::new(&format!("drawn-{seed}"), drawn(seed, &STORM).input()))
        .collect()
}

/// A drawn journal without its odd steps, so that nothing stops it.
fn drawn(seed: u64, profile: &Profile) -> Journal {
    journal::<Sound>(seed, &profile.with_odd(false))
}

fn cut(mut input: Vec<u8>) -> Vec<u8> {
    input.truncate(input.len() - 5);
    input
}

fn with_byte(mut input: Vec<u8>, place: usize, byte: u8) -> Vec<u8> {
    input[place] = byte;
    input
}

/// Document 01's session. The read ends with its first exchange, so what
/// follows finds no message 7.
pub fn worked() -> Journal {
    Journal::new(0b1, 0)
        .then(Step::write(1, 7))
        .then(Step::deliver(1, 1))
        .then(Step::take(2))
        .then(Step::deliver(1, 3))
        .then(Step::take(4))
        .then(Step::read(2))
        .then(Step::deliver(1, 5))
        .then(Step::take(6))
        .then(Step::deliver(1, 7))
        .then(Step::take(8))
}

/// Read size 1 and write size 4: a filing reads from one server, and a read
/// always writes back. The next view has read size 2 of 3 servers, which is a
/// quorum, so that a read may end in one exchange.
pub fn two_sizes() -> Journal {
    let mut script = Script::sized(0b1111, 0, 1);
    let servers = [1, 2, 3, 4];
    script.act(Step::write(1, 7));
    script.finish_in_turn(1, &servers);
    script.act(Step::read(2));
    script.finish_in_turn(2, &[4, 3, 2, 1]);
    script.act(Step::sized_view(0b0111, 0, 2));
    script.exchange(script.world.header.end, &servers);
    let start = script.last();
    for server in [1, 2, 3] {
        script.act(Step::deliver(server, start));
    }
    script.act(Step::read(2));
    script.finish_in_turn(2, &[3, 2]);
    script.journal
}

/// Servers 3 to 6 are to follow 1 to 4. 1, 2 and 3 answer END, and all answers
/// but the last that closes it are taken. Returns the answers.
fn almost_ended() -> (Script, Vec<u16>) {
    let mut script = Script::new(0b1111, 1);
    script.write(1, 7, &[1, 2, 3]);
    script.read(2, &[1, 2, 3]);
    script.act(Step::new_view(0b11_1100, 1));
    let end = script.world.header.end;
    let answers: Vec<u16> = [1, 2, 3]
        .into_iter()
        .map(|server| script.answer(server, end))
        .collect();
    script.act(Step::take(answers[0]));
    script.act(Step::take(answers[1]));
    (script, answers)
}

/// The administrator's PC restarts with all answers taken but the last. The next
/// view is to be of servers 3 to 7 then, with f 0 and read size 2. The answers
/// are taken again and close END; the read before and the read after are equal.
pub fn restart() -> Journal {
    let (mut script, answers) = almost_ended();
    script.act(Step::restart(0b111_1100, 0, 2));
    for answer in answers {
        script.act(Step::take(answer));
    }
    let start = script.last();
    for server in 3..=6 {
        script.act(Step::deliver(server, start));
    }
    script.act(Step::read(2));
    script.finish_in_turn(2, &[3, 4, 5, 6]);
    script.journal
}

/// The same with the pending view as it was, and two restarts, the second of
/// which finds nothing taken; an answer of server 4 comes late.
pub fn restart_same_view() -> Journal {
    let (mut script, answers) = almost_ended();
    script.act(Step::restart(0, 0, 0));
    script.act(Step::restart(0, 0, 0));
    script.exchange(script.world.header.end, &[4]);
    script.act(Step::take(answers[2]));
    script.act(Step::take(answers[0]));
    let start = script.last();
    for server in [4, 5, 6] {
        script.act(Step::deliver(server, start));
    }
    script.read(2, &[4, 5, 6]);
    script.journal
}

/// The write has reached two of three servers; the read hears one of them and
/// the third, and writes back.
pub fn write_back() -> Journal {
    let mut script = Script::new(0b111, 0);
    script.write(1, 7, &[1, 2]);
    script.act(Step::read(2));
    script.exchange(script.request(2), &[1, 3]);
    script.exchange(script.request(2), &[1, 3]);
    script.journal
}

/// A read ends in one exchange. Then the view changes and a server turns faulty,
/// which shows what was before the write; a second read ends with the same entry.
pub fn one_exchange() -> Journal {
    let mut script = Script::new(0b1111, 1);
    script.write(1, 1500, &[1, 2, 3]);
    script.read(2, &[1, 2, 3]);
    script.act(Step::fault(1));
    script.act(Step::new_view(0b111100, 1));
    let end = script.world.header.end;
    script.lie(1, 1, end, 0);
    script.exchange(end, &[3, 4]);
    let start = script.last();
    for server in [3, 5, 6] {
        script.act(Step::deliver(server, start));
    }
    script.read(2, &[3, 5, 6]);
    script.journal
}

/// Server 3 never heard that its view ended. It shows the reader the replaced
/// certificate for the 1.0 m set; the servers of the new view show the other.
pub fn retired_server() -> Journal {
    let mut script = Script::new(0b111, 0);
    script.write(1, 1000, &[1, 3]);
    script.change_view(0b11010, 0, &[1, 2], &[2, 4, 5]);
    script.write(1, 1500, &[4, 5]);
    script.act(Step::read(2));
    let read = script.request(2);
    script.exchange(read, &[3]);
    script.exchange(read, &[2, 4]);
    let write = script.request(2);
    script.exchange(write, &[3]);
    script.exchange(write, &[5, 2]);
    // A read by the retired server and one new one does not end.
    script.act(Step::read(3));
    let read = script.request(3);
    script.exchange(read, &[3, 4]);
    // Old requests reach new servers and change nothing.
    script.act(Step::deliver(4, 1));
    script.journal
}

/// A faulty server shows an entry that was replaced, first to a reader, then to
/// the administrator; within its threshold nobody is misled.
pub fn replaced_entry() -> Journal {
    let mut script = Script::new(0b1111, 1);
    let old = script.write(1, 1000, &[1, 2, 3]);
    script.write(2, 1500, &[1, 3, 4]);
    script.act(Step::fault(1));
    script.act(Step::read(3));
    let read = script.request(3);
    script.lie(1, 1, read, old);
    script.lie(1, 1, read, 0);
    script.exchange(read, &[2, 4]);
    let write = script.request(3);
    script.lie(1, 1, write, old);
    script.exchange(write, &[2, 3]);
    script.act(Step::new_view(0b11110, 1));
    let end = script.world.header.end;
    script.lie(1, 1, end, old);
    script.exchange(end, &[2, 3]);
    let start = script.last();
    for server in [2, 3, 5] {
        script.act(Step::deliver(server, start));
    }
    script.read(4, &[2, 3, 5]);
    script.journal
}

/// Two faulty servers where one is allowed: the reader gets the replaced entry.
pub fn stale_read() -> Journal {
    let mut script = Script::new(0b1111, 1);
    let old = script.write(1, 1000, &[1, 2, 3]);
    script.write(1, 1500, &[1, 2, 3]);
    script.act(Step::fault(1));
    script.act(Step::fault(2));
    script.act(Step::read(2));
    for _ in 0..2 {
        let request = script.request(2);
        script.lie(1, 1, request, old);
        script.lie(2, 1, request, old);
        script.exchange(request, &[4]);
    }
    script.journal
}

/// A write that stops half way surfaces in a read.
pub fn unfinished_write() -> Journal {
    let mut script = Script::new(0b111, 0);
    script.write(1, 1, &[1, 2]);
    script.act(Step::write(2, 2));
    script.exchange(script.request(2), &[2, 3]);
    script.answer(3, script.request(2));
    script.read(3, &[1, 2]);
    script.read(3, &[2, 3]);
    script.read(4, &[1, 2]);
    script.journal
}

/// A bench PC restarts during a filing, which never reached a server. Its
/// client gives up and files again, under a stamp that was never given.
pub fn given_up() -> Journal {
    let mut script = Script::new(0b111, 0);
    script.act(Step::write(1, 1000));
    script.exchange(script.request(1), &[1, 2]);
    script.act(Step::give_up(1));
    script.write(1, 1500, &[2, 3]);
    // A read is given up while it writes back.
    script.act(Step::read(2));
    script.exchange(script.request(2), &[1, 2]);
    script.act(Step::give_up(2));
    script.read(2, &[1, 3]);
    // Given up again, in its first phase.
    script.act(Step::write(1, 2000));
    script.act(Step::give_up(1));
    script.write(1, 2500, &[1, 2]);
    script.read(2, &[2, 3]);
    script.journal
}

/// The write that was given up had reached one server. It surfaces in a read;
/// what its client files afterwards stands above it.
pub fn given_up_surfaces() -> Journal {
    let mut script = Script::new(0b111, 0);
    script.act(Step::write(1, 1000));
    script.exchange(script.request(1), &[1, 2]);
    let write = script.request(1);
    script.answer(3, write);
    script.act(Step::give_up(1));
    script.read(2, &[1, 2]);
    script.read(2, &[2, 3]);
    script.write(1, 1500, &[1, 2]);
    // The old WRITE arrives late everywhere.
    script.answer(1, write);
    script.answer(2, write);
    script.read(3, &[1, 2]);
    script.journal
}

/// All message numbers used by answers; taking still works, until a close must
/// send.
fn full_table() -> Journal {
    let mut script = Script::new(0b111, 0);
    script.write(1, 9, &[1, 2]);
    script.act(Step::write(2, 8));
    script.exchange(script.request(2), &[1, 3]);
    script.act(Step::read(3));
    let (write, read) = (script.request(2), script.request(3));
    let mut answers = Vec::new();
    let mut server = 1;
    while script.last() < LAST_MESSAGE {
        let request = if answers.len() % 2 == 0 { write } else { read };
        answers.push(script.answer(server, request));
        server = server % 3 + 1;
    }
    // The write ends without a message.
    script.act(Step::take(answers[0]));
    script.act(Step::take(answers[2]));
    // The read would have to send its WRITE.
    script.act(Step::take(answers[1]));
    script.journal.then(Step::take(answers[3]))
}

/// Client 1 has written, on servers 1 to 3. Their answers to its READ are 2, 3
/// and 4; its WRITE is 5, with the answers 6, 7 and 8.
fn begun() -> Script {
    let mut script = Script::new(0b1111, 1);
    script.write(1, 5, &[1, 2, 3]);
    script
}

/// Then server 4 has turned faulty and the view is being ended: END is 9.
fn ending() -> Script {
    let mut script = begun();
    script.act(Step::fault(4));
    script.act(Step::new_view(0b1111, 1));
    script.act(Step::deliver(1, script.world.header.end));
    script
}

/// Then the view has changed.
fn changed() -> Script {
    let mut script = begun();
    script.change_view(0b1111, 1, &[1, 2, 3], &[1, 2]);
    script
}

/// A session for each way to be refused that a short run can meet.
fn refused_steps() -> Vec<Session> {
    let start = changed().last();
    let cases: Vec<(&str, fn() -> Script, Step)> = vec![
        (
            "3-kind",
            begun,
            Step {
                kind: step_kind::LAST + 1,
                ..Step::default()
            },
        ),
        ("3-client", begun, Step::read(17)),
        ("3-server", begun, Step::fault(0)),
        ("3-view", begun, Step::false_answer(1, 33, 1, 0)),
        ("3-message", begun, Step::take(1024)),
        (
            "3-unused",
            begun,
            Step {
                value: 1,
                ..Step::read(1)
            },
        ),
        (
            "3-restart-view",
            ending,
            Step {
                view: 1,
                ..Step::restart(0, 0, 0)
            },
        ),
        ("3-restart-f", ending, Step::restart(0, 1, 0)),
        ("3-restart-r", ending, Step::restart(0, 0, 3)),
        ("4-busy", busy, Step::write(2, 1)),
        ("4-ending", ending, Step::new_view(0b1, 0)),
        ("5-deliver-unused", begun, Step::deliver(1, 9)),
        ("5-deliver-answer", begun, Step::deliver(1, 2)),
        ("5-take-request", begun, Step::take(5)),
        ("5-source", begun, Step::false_answer(1, 1, 1, 1)),
        ("6-deliver", ending, Step::deliver(4, 1)),
        ("6-fault", ending, Step::fault(4)),
        ("6-false-answer", ending, Step::false_answer(3, 1, 1, 0)),
        ("7-key-given-up", ending, Step::deliver(1, 1)),
        ("7-no-view", begun, Step::deliver(9, 1)),
        ("7-other-end", changed, Step::deliver(1, 9)),
        ("7-start-again", changed, Step::deliver(1, start)),
        ("7-not-a-member", changed, Step::deliver(5, start)),
        ("7-taken", busy, Step::take(2)),
        ("7-closed", late, Step::take(9)),
        ("7-restart", begun, Step::restart(0, 0, 0)),
        ("7-restart-started", changed, Step::restart(0b1111, 1, 0)),
        // Nothing is being ended comes before the size rule.
        ("7-restart-size", begun, Step::restart(0b111, 1, 0)),
        ("8-restart-size", ending, Step::restart(0b111, 1, 0)),
        ("8-restart-read-size", ending, Step::restart(0b1111, 0, 3)),
        ("8-size", begun, Step::new_view(0b111, 1)),
        ("8-read-size", begun, Step::sized_view(0b111, 0, 3)),
        ("8-largest-f", begun, Step::new_view(u32::MAX, 255)),
        ("9-no-key", ending, Step::false_answer(4, 2, 1, 5)),
        ("12-idle", begun, Step::give_up(1)),
        ("7-given-up", restarted, Step::take(10)),
    ];
    cases
        .into_iter()
        .map(|(name, begin, step)| {
            // What follows a refused step is not read.
            let journal = begin().journal.then(step).then(Step::read(9));
            Session::new(&format!("refused-{name}"), cut(journal.input()))
        })
        .collect()
}

/// Client 2 has a write open.
fn busy() -> Script {
    let mut script = begun();
    script.act(Step::write(2, 6));
    script
}

/// Client 2 has given its write up; its READ was answered.
fn restarted() -> Script {
    let mut script = begun();
    script.act(Step::write(2, 6));
    script.answer(1, 9);
    script.act(Step::give_up(2));
    script
}

/// Server 4 answers the first READ long after it closed.
fn late() -> Script {
    let mut script = begun();
    script.act(Step::deliver(4, 1));
    script
}

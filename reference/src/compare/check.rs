//! One call to both sides, compared: the answer, the image after it and every
//! byte around the image and the step.

use crate::codec::decode;
use crate::compare::counts::{Counts, Operation};
use crate::compare::library::{pack, pack_result, Library};
use crate::generate::answers::List;
use crate::judge::{is_judged, judge, lines, PLACE_SIZE};
use crate::layout::STEP_SIZE;
use crate::load::load;
use crate::operations;
use crate::phase;
use crate::quorum::{packed, quorum_size};
use crate::readable::broken;
use crate::refusal::Reason;
use crate::shorten::shorten;
use crate::single;
use crate::vouch::{vouch, vouch_threshold};
use crate::world::View;

/// Bytes before and after a lent buffer, which nobody may write.
const MARGIN: usize = 64;
const MARK: u8 = 0xa5;

/// How many differences are told in words.
const TOLD: usize = 20;

/// A buffer with margins, so that writing beside it shows.
struct Lent {
    bytes: Vec<u8>,
}

impl Lent {
    fn new(content: &[u8]) -> Lent {
        let mut bytes = vec![MARK; content.len() + 2 * MARGIN];
        bytes[MARGIN..MARGIN + content.len()].copy_from_slice(content);
        Lent { bytes }
    }

    fn content(&mut self) -> &mut [u8] {
        let end = self.bytes.len() - MARGIN;
        &mut self.bytes[MARGIN..end]
    }

    fn margins_whole(&self) -> bool {
        let (before, rest) = self.bytes.split_at(MARGIN);
        let after = &rest[rest.len() - MARGIN..];
        before.iter().chain(after).all(|byte| *byte == MARK)
    }
}

/// Compares a library with the reference and keeps the score.
pub struct Comparison<'a> {
    library: &'a dyn Library,
    pub counts: Counts,
    pub passed: u64,
    pub failed: u64,
    pub steps: u64,
    pub journals: u64,
    pub replays: u64,
    /// Calls of single machines.
    pub singles: u64,
    pub logs: u64,
    /// Lists of answers to choose from.
    pub lists: u64,
    pub watched: u64,
    /// Journals shortened.
    pub shortened: u64,
    /// Answers given to phases.
    pub given: u64,
    /// The first differences, in words.
    pub told: Vec<String>,
}

impl<'a> Comparison<'a> {
    pub fn new(library: &'a dyn Library) -> Comparison<'a> {
        Comparison {
            library,
            counts: Counts::default(),
            passed: 0,
            failed: 0,
            steps: 0,
            journals: 0,
            replays: 0,
            singles: 0,
            logs: 0,
            watched: 0,
            shortened: 0,
            given: 0,
            lists: 0,
            told: Vec::new(),
        }
    }

    fn score(&mut self, good: bool, what: impl FnOnce() -> String) {
        if good {
            self.passed += 1;
            return;
        }
        self.failed += 1;
        if self.told.len() < TOLD {
            self.told.push(what());
        }
    }

    /// The reference has written to `ours`; the library's call goes to a copy of
    /// what was there before.
    fn compare_image(
        &mut self,
        before: &[u8],
        ours: &[u8],
        answer: u64,
        what: &str,
        call: impl FnOnce(&dyn Library, &mut [u8]) -> u64,
    ) {
        let mut lent = Lent::new(before);
        let theirs = call(self.library, lent.content());
        let margins = lent.margins_whole();
        let differs = lent.content().iter().zip(ours).position(|(a, b)| a != b);
        self.score(theirs == answer && differs.is_none() && margins, || {
            format!(
                "{what}: answer {}, the reference {}; first byte that differs: {differs:?}{}",
                unpacked(theirs),
                unpacked(answer),
                if margins {
                    ""
                } else {
                    "; bytes beside the buffer were written"
                },
            )
        });
    }

    pub fn quorum(&mut self, n: u32, f: u32, r: u32) {
        let ours = quorum_size(n, f, r);
        match ours {
            Ok(_) => self.counts.accept(Operation::Quorum),
            Err(reason) => self.counts.refuse(Operation::Quorum, reason),
        }
        let ours = pack_result(ours.map(packed));
        let theirs = self.library.quorum(n, f, r);
        self.score(theirs == ours, || {
            format!(
                "quorum({n}, {f}, {r}): {}, the reference {}",
                unpacked(theirs),
                unpacked(ours)
            )
        });
    }

    /// A fresh world over this buffer; the buffer after it.
    pub fn fresh(&mut self, buffer: &[u8], members: u32, f: u8, r: u8) -> Vec<u8> {
        let mut after = buffer.to_vec();
        let ours = operations::fresh(&mut after, members, f, r);
        match ours {
            Ok(()) => self.counts.accept(Operation::Fresh),
            Err(reason) => self.counts.refuse(Operation::Fresh, reason),
        }
        let what = format!("fresh({} bytes, {members:#x}, {f}, {r})", buffer.len());
        let answer = pack_result(ours.map(|()| 0));
        self.compare_image(buffer, &after, answer, &what, |library, image| {
            library.fresh(image, members, f, r)
        });
        after
    }

    /// One step on this image; the image after it.
    pub fn step(&mut self, image: &[u8], step: &[u8]) -> Vec<u8> {
        self.steps += 1;
        let operation = Operation::of_step(step);
        let mut after = image.to_vec();
        let ours = operations::step(&mut after, step);
        match ours {
            Ok(done) => {
                self.counts.accept(operation);
                self.counts.did(done.deed);
            }
            Err(reason) => self.counts.refuse(operation, reason),
        }
        let what = format!("step {step:?} ({ours:?})");
        let answer = pack_result(ours.map(|done| u64::from(done.completed)));
        let mut lent = Lent::new(step);
        let expected = lent.bytes.clone();
        self.compare_image(image, &after, answer, &what, |library, image| {
            library.step(image, lent.content())
        });
        self.unwritten(&lent, &expected, &what);
        after
    }

    /// The premise of this image.
    pub fn premise(&mut self, image: &[u8]) {
        let ours = operations::premise(image);
        match ours {
            Ok(_) => self.counts.accept(Operation::Premise),
            Err(reason) => self.counts.refuse(Operation::Premise, reason),
        }
        if ours == Err(Reason::Unreadable) {
            self.count_clauses(image);
        }
        let what = format!("premise ({ours:?})");
        let answer = pack_result(ours.map(u64::from));
        self.compare_image(image, image, answer, &what, |library, image| {
            library.premise(image)
        });
    }

    fn count_clauses(&mut self, image: &[u8]) {
        let image = image
            .try_into()
            .expect("an unreadable image has the right length");
        self.counts.unreadable(&broken(&decode(image)));
    }

    /// A journal on this image; the image after it, and the steps done.
    pub fn replay(&mut self, image: &[u8], journal: &[u8]) -> (Vec<u8>, usize) {
        self.replays += 1;
        let mut after = image.to_vec();
        let ours = operations::replay(&mut after, journal);
        match ours.stopped {
            None => self.counts.accept(Operation::Replay),
            Some(reason) => self.counts.refuse(Operation::Replay, reason),
        }
        let what = format!("replay of {} bytes ({ours:?})", journal.len());
        let answer = pack(ours.refusal(), ours.done as u64);
        let mut lent = Lent::new(journal);
        let expected = lent.bytes.clone();
        self.compare_image(image, &after, answer, &what, |library, image| {
            library.replay(image, lent.content())
        });
        self.unwritten(&lent, &expected, &what);
        (after, ours.done)
    }

    /// The part of a journal after so many steps, on this image; the image
    /// after it.
    pub fn resume(&mut self, image: &[u8], journal: &[u8], steps: u64) -> Vec<u8> {
        self.replays += 1;
        let mut after = image.to_vec();
        let ours = operations::resume(&mut after, journal, steps);
        match ours.stopped {
            None => self.counts.accept(Operation::Resume),
            Some(reason) => self.counts.refuse(Operation::Resume, reason),
        }
        let what = format!("resume of {} bytes after {steps} ({ours:?})", journal.len());
        let answer = pack(ours.refusal(), ours.done as u64);
        let mut lent = Lent::new(journal);
        let expected = lent.bytes.clone();
        self.compare_image(image, &after, answer, &what, |library, image| {
            library.resume(image, lent.content(), steps)
        });
        self.unwritten(&lent, &expected, &what);
        after
    }

    /// A load over this buffer; the buffer after it.
    pub fn load(&mut self, buffer: &[u8], seed: u32, steps: u32) -> Vec<u8> {
        let mut after = buffer.to_vec();
        let ours = load(&mut after, seed, steps);
        match ours {
            Ok(()) => self.counts.accept(Operation::Load),
            Err(reason) => self.counts.refuse(Operation::Load, reason),
        }
        let what = format!("load({} bytes, {seed}, {steps})", buffer.len());
        let answer = pack_result(ours.map(|()| 0));
        self.compare_image(buffer, &after, answer, &what, |library, journal| {
            library.load(journal, seed, steps)
        });
        after
    }

    /// A log, judged into an order's buffer of this length. Which order is
    /// shown is free; it must be one.
    pub fn judge(&mut self, log: &[u8], length: usize) {
        self.logs += 1;
        let ours = judge(log, &mut vec![0; length]);
        match ours {
            Ok(_) => self.counts.accept(Operation::Judge),
            Err(reason) => self.counts.refuse(Operation::Judge, reason),
        }
        let answer = pack_result(ours.map(|count| count as u64));
        let mut order = Lent::new(&vec![MARK; length]);
        let mut lent = Lent::new(log);
        let expected = lent.bytes.clone();
        let theirs = self.library.judge(lent.content(), order.content());
        let shown = match ours {
            Ok(count) => shows_order(log, order.content(), count),
            Err(_) => order.content().iter().all(|byte| *byte == MARK),
        };
        let what = format!("judge of {} bytes ({ours:?})", log.len());
        let good = theirs == answer && shown && order.margins_whole();
        self.score(good, || {
            format!(
                "{what}: {}, the reference {}; the buffer {}",
                unpacked(theirs),
                unpacked(answer),
                if shown { "is right" } else { "is not" },
            )
        });
        self.unwritten(&lent, &expected, &what);
    }

    /// A journal shortened over these buffers.
    pub fn shorten(&mut self, image: &[u8], view: View, journal: &[u8], shorter: &[u8]) {
        let View { members, f, r, .. } = view;
        self.shortened += 1;
        let mut short = shorter.to_vec();
        let mut after = image.to_vec();
        let ours = shorten(&mut after, members, f, r, journal, &mut short);
        match ours {
            Ok(_) => self.counts.accept(Operation::Shorten),
            Err(reason) => self.counts.refuse(Operation::Shorten, reason),
        }
        let what = format!("shorten of {} bytes ({ours:?})", journal.len());
        let answer = pack_result(ours.map(|steps| steps as u64));
        let mut lent = Lent::new(journal);
        let expected = lent.bytes.clone();
        let mut buffer = Lent::new(shorter);
        self.compare_image(image, &after, answer, &what, |library, image| {
            library.shorten(image, members, f, r, lent.content(), buffer.content())
        });
        let same = buffer.content() == short && buffer.margins_whole();
        self.score(same, || format!("{what}: another short journal"));
        self.unwritten(&lent, &expected, &what);
    }

    /// Both choices from this list, into buffers of this length.
    pub fn vouch(&mut self, list: &List, answers: &[u8], length: usize) {
        let List { n, b, largest, .. } = *list;
        self.lists += 1;
        self.choice(
            Operation::Vouch,
            answers,
            length,
            |entry| vouch(answers, n, b, entry),
            |library, answers, entry| library.vouch(answers, n, b, entry),
        );
        self.choice(
            Operation::VouchThreshold,
            answers,
            length,
            |entry| vouch_threshold(answers, n, b, largest, entry),
            |library, answers, entry| library.vouch_threshold(answers, n, b, largest, entry),
        );
    }

    fn choice(
        &mut self,
        operation: Operation,
        answers: &[u8],
        length: usize,
        ours: impl FnOnce(&mut [u8]) -> Result<(), Reason>,
        theirs: impl FnOnce(&dyn Library, &[u8], &mut [u8]) -> u64,
    ) {
        let before = vec![MARK; length];
        let mut after = before.clone();
        let ours = ours(&mut after);
        match ours {
            Ok(()) => self.counts.accept(operation),
            Err(reason) => self.counts.refuse(operation, reason),
        }
        let what = format!("{operation:?} of {} bytes ({ours:?})", answers.len());
        let mut lent = Lent::new(answers);
        let expected = lent.bytes.clone();
        let answer = pack_result(ours.map(|()| 0));
        self.compare_image(&before, &after, answer, &what, |library, entry| {
            theirs(library, lent.content(), entry)
        });
        self.unwritten(&lent, &expected, &what);
    }

    /// A journal watched on this image, with a buffer of this length for the
    /// step's number.
    pub fn watch(&mut self, image: &[u8], journal: &[u8], length: usize) {
        self.watched += 1;
        let held = operations::premise(image) == Ok(true);
        let mut after = image.to_vec();
        let mut first = vec![MARK; length];
        let ours = operations::watch(&mut after, journal, &mut first);
        match ours.replayed.stopped {
            None => self.counts.accept(Operation::Watch),
            Some(reason) => self.counts.refuse(Operation::Watch, reason),
        }
        if held && ours.first != 0 {
            let at = (ours.first as usize - 1) * STEP_SIZE;
            self.counts.broke(Operation::of_step(&journal[at..]));
        }
        let what = format!("watch of {} bytes ({ours:?})", journal.len());
        let answer = pack(ours.replayed.refusal(), ours.replayed.done as u64);
        let mut lent = Lent::new(journal);
        let expected = lent.bytes.clone();
        let mut number = Lent::new(&vec![MARK; length]);
        self.compare_image(image, &after, answer, &what, |library, image| {
            library.watch(image, lent.content(), number.content())
        });
        let same = number.content() == first && number.margins_whole();
        self.score(same, || format!("{what}: another step is named"));
        self.unwritten(&lent, &expected, &what);
    }

    /// A server's rule on its record.
    pub fn server(&mut self, record: &[u8], asked: &[u8]) {
        self.single(
            Operation::Server,
            record,
            asked,
            |record, asked| single::server_call(record, asked).map(u64::from),
            |library, record, asked| library.server(record, asked),
        );
    }

    /// A client's rule on its record.
    pub fn client(&mut self, record: &[u8], asked: &[u8]) {
        self.single(
            Operation::Client,
            record,
            asked,
            |record, asked| single::client_call(record, asked).map(u64::from),
            |library, record, asked| library.client(record, asked),
        );
    }

    /// The administrator's rule on its record.
    pub fn administrator(&mut self, record: &[u8], asked: &[u8]) {
        self.single(
            Operation::Administrator,
            record,
            asked,
            |record, asked| single::administrator_call(record, asked).map(|()| 0),
            |library, record, asked| library.administrator(record, asked),
        );
    }

    /// A phase opened over this buffer; the buffer after it.
    pub fn open(&mut self, buffer: &[u8], kind: u8, view: u8, request: u16) -> Vec<u8> {
        let mut after = buffer.to_vec();
        let ours = phase::open(&mut after, kind, view, request);
        match ours {
            Ok(()) => self.counts.accept(Operation::Open),
            Err(reason) => self.counts.refuse(Operation::Open, reason),
        }
        let what = format!("open({} bytes, {kind}, {view}, {request})", buffer.len());
        let answer = pack_result(ours.map(|()| 0));
        self.compare_image(buffer, &after, answer, &what, |library, record| {
            library.open(record, kind, view, request)
        });
        after
    }

    /// An answer with its view given to a phase, with a buffer of this length for
    /// the entry; whether it is taken.
    pub fn answer(&mut self, record: &mut [u8], given: &[u8], length: usize) -> bool {
        self.given += 1;
        let before = record.to_vec();
        let mut entry = vec![MARK; length];
        let ours = phase::answer(record, given, &mut entry);
        match ours {
            Ok(verdict) => {
                self.counts.accept(Operation::Answer);
                self.counts.gave(before[0], verdict.number());
            }
            Err(reason) => self.counts.refuse(Operation::Answer, reason),
        }
        let what = format!("answer {given:?} ({ours:?})");
        let answer = pack_result(ours.map(|verdict| verdict.number()));
        let mut lent = Lent::new(given);
        let expected = lent.bytes.clone();
        let mut written = Lent::new(&vec![MARK; length]);
        self.compare_image(&before, record, answer, &what, |library, record| {
            library.answer(record, lent.content(), written.content())
        });
        let same = written.content() == entry && written.margins_whole();
        self.score(same, || format!("{what}: another entry"));
        self.unwritten(&lent, &expected, &what);
        ours.is_ok()
    }

    fn single(
        &mut self,
        operation: Operation,
        record: &[u8],
        asked: &[u8],
        ours: impl FnOnce(&mut [u8], &[u8]) -> Result<u64, Reason>,
        theirs: impl FnOnce(&dyn Library, &mut [u8], &[u8]) -> u64,
    ) {
        self.singles += 1;
        let mut after = record.to_vec();
        let ours = ours(&mut after, asked);
        match ours {
            Ok(_) => self.counts.accept(operation),
            Err(reason) => self.counts.refuse(operation, reason),
        }
        if let Some(rule) = asked.first() {
            let number = ours.map_or_else(|reason| reason.number(), |_| 0);
            self.counts.asked(operation, *rule, number);
        }
        let what = format!("{operation:?} {record:?} asked {asked:?} ({ours:?})");
        let mut lent = Lent::new(asked);
        let expected = lent.bytes.clone();
        self.compare_image(
            record,
            &after,
            pack_result(ours),
            &what,
            |library, record| theirs(library, record, lent.content()),
        );
        self.unwritten(&lent, &expected, &what);
    }

    /// A buffer that is only lent to be read is as it was.
    fn unwritten(&mut self, lent: &Lent, expected: &[u8], what: &str) {
        if lent.bytes != expected {
            self.score(false, || {
                format!("{what}: bytes lent to be read were written")
            });
        }
    }

    /// A comparison of two images that ought to be equal.
    pub fn same_end(&mut self, one: &[u8], other: &[u8], what: &str) {
        self.score(one == other, || format!("{what}: other bytes"));
    }
}

/// Whether the buffer shows an order of so many of the log's operations.
fn shows_order(log: &[u8], buffer: &[u8], count: usize) -> bool {
    let places: Vec<usize> = buffer
        .chunks(PLACE_SIZE)
        .map(|place| usize::from(u16::from_le_bytes([place[0], place[1]])))
        .collect();
    let (order, rest) = places.split_at(count);
    let order: Option<Vec<usize>> = order.iter().map(|line| line.checked_sub(1)).collect();
    rest.iter().all(|line| *line == 0) && order.is_some_and(|order| is_judged(&lines(log), &order))
}

fn unpacked(answer: u64) -> String {
    format!("{} with {}", answer % 256, answer / 256)
}

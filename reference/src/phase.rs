//! The answers to one request, kept as a list in the order in which they were
//! taken. Whether they close it is asked of the whole list each time, with the
//! servers as a set. The record that is lent has a tally for each view instead;
//! `Phase::record` makes it of the list.

use std::collections::BTreeSet;

use crate::codec::Record;
use crate::entry::Entry;
use crate::layout::{ENTRY_SIZE, LAST_MESSAGE, LAST_VIEW, MESSAGE_SIZE, VIEWS, VIEW_SIZE};
use crate::refusal::Reason;
use crate::single::{ask, entry_fits, message_fits};
use crate::world::{bit, message_kind, Message, View};

/// Bytes of the head, of a tally and of the whole record.
pub const HEAD_SIZE: usize = 4;
pub const TALLY_SIZE: usize = 20;
pub const PHASE_SIZE: usize = HEAD_SIZE + VIEWS * TALLY_SIZE;
/// Bytes of an answer with its view.
pub const GIVEN_SIZE: usize = MESSAGE_SIZE + VIEW_SIZE;

const _: () = assert!(PHASE_SIZE == 644);

/// What is open; all zero where nothing is.
#[derive(Clone, Copy, Debug, Default, PartialEq, Eq)]
pub struct Head {
    pub kind: u8,
    pub view: u8,
    pub request: u16,
}

impl Head {
    fn load(bytes: &[u8]) -> Head {
        Head {
            kind: bytes[0],
            view: bytes[1],
            request: u16::from_le_bytes([bytes[2], bytes[3]]),
        }
    }

    fn bytes(&self) -> [u8; HEAD_SIZE] {
        let [low, high] = self.request.to_le_bytes();
        [self.kind, self.view, low, high]
    }

    fn is_open(&self) -> bool {
        let view = match self.kind {
            message_kind::READ | message_kind::WRITE => self.view == 0,
            message_kind::END => (1..LAST_VIEW).contains(&self.view),
            _ => false,
        };
        view && (1..=LAST_MESSAGE).contains(&self.request)
    }
}

/// What an answer did.
#[derive(Clone, Copy, Debug, PartialEq, Eq)]
pub enum Verdict {
    Open,
    Closed { entry: Entry, may_end: bool },
}

impl Verdict {
    pub fn number(&self) -> u64 {
        match self {
            Verdict::Open => 0,
            Verdict::Closed { may_end, .. } => 1 + u64::from(*may_end),
        }
    }
}

/// What is open, and every answer taken to it, the oldest first.
#[derive(Clone, Debug, PartialEq, Eq)]
pub struct Phase {
    pub head: Head,
    pub answers: Vec<Message>,
}

impl Phase {
    pub fn open(kind: u8, view: u8, request: u16) -> Result<Phase, Reason> {
        let head = Head {
            kind,
            view,
            request,
        };
        ask(head.is_open(), Reason::CallRange)?;
        Ok(Phase {
            head,
            answers: Vec::new(),
        })
    }

    fn of_view(&self, view: u8) -> impl Iterator<Item = &Message> {
        self.answers
            .iter()
            .filter(move |answer| answer.view == view)
    }

    fn servers(&self, view: u8) -> BTreeSet<u8> {
        self.of_view(view).map(|answer| answer.sender).collect()
    }

    /// The first of the largest stamps.
    fn largest(&self, view: u8) -> Entry {
        let entries: Vec<Entry> = self.of_view(view).map(|answer| answer.entry).collect();
        let stamp = entries.iter().map(Entry::stamp).max();
        let first = entries.iter().find(|entry| Some(entry.stamp()) == stamp);
        first.copied().unwrap_or(Entry::EMPTY)
    }

    fn one_entry(&self, view: u8) -> bool {
        let mut entries = self.of_view(view).map(|answer| answer.entry);
        match entries.next() {
            Some(first) => entries.all(|entry| entry == first),
            None => true,
        }
    }

    /// An answer with its view; both fit, and so does the head.
    pub fn take(&mut self, answer: &Message, view: &View) -> Result<Verdict, Reason> {
        ask(answer.kind == message_kind::ANSWER, Reason::NotAnAnswer)?;
        ask(answer.taken == 0, Reason::TakenBefore)?;
        ask(answer.request == self.head.request, Reason::NobodyWaits)?;
        view.size_rule()?;
        self.answers.push(*answer);
        let verdict = self.verdict(answer.view, view);
        if verdict != Verdict::Open {
            self.head = Head::default();
        }
        Ok(verdict)
    }

    fn verdict(&self, number: u8, view: &View) -> Verdict {
        let sizes = view.sizes();
        let reads = self.head.kind == message_kind::READ;
        let size = if reads { sizes.read } else { sizes.write };
        let counts = self.head.kind != message_kind::END || self.head.view == number;
        if !counts || (self.servers(number).len() as u32) < size {
            return Verdict::Open;
        }
        Verdict::Closed {
            entry: self.largest(number),
            may_end: reads && self.one_entry(number) && sizes.read >= sizes.write,
        }
    }

    fn tally(&self, view: u8) -> [u8; TALLY_SIZE] {
        let heard = self.servers(view).into_iter().map(bit).sum::<u32>();
        let mut bytes = [0; TALLY_SIZE];
        bytes[..4].copy_from_slice(&heard.to_le_bytes());
        bytes[4..4 + ENTRY_SIZE].copy_from_slice(&self.largest(view).bytes());
        bytes[4 + ENTRY_SIZE] = u8::from(!self.one_entry(view));
        bytes
    }

    /// The record of this list.
    pub fn record(&self) -> Vec<u8> {
        let mut bytes = self.head.bytes().to_vec();
        bytes.extend((1..=LAST_VIEW).flat_map(|view| self.tally(view)));
        bytes
    }
}

/// Answers that a tally in its range can be of: each server with the entry, and
/// where some differ one more with another value.
fn answers_of(tally: &[u8], view: u8, request: u16) -> Option<Vec<Message>> {
    let heard = u32::from_le_bytes(tally[..4].try_into().expect("four bytes"));
    let entry = Entry::load(tally[4..4 + ENTRY_SIZE].try_into().expect("an entry"));
    let (differ, spare) = (tally[4 + ENTRY_SIZE], &tally[5 + ENTRY_SIZE..]);
    let unheard = heard == 0 && !(entry.is_empty() && differ == 0);
    if differ > 1 || spare != [0; 3] || !entry_fits(&entry) || unheard {
        return None;
    }
    let answer = |sender, entry| Message {
        kind: message_kind::ANSWER,
        sender,
        view,
        request,
        entry,
        ..Message::default()
    };
    let servers = (1..=32).filter(|server| heard & bit(*server) != 0);
    let mut answers: Vec<Message> = servers.map(|server| answer(server, entry)).collect();
    if let (1, Some(first)) = (differ, answers.first().copied()) {
        let value = entry.value.wrapping_add(1);
        answers.push(answer(first.sender, Entry { value, ..entry }));
    }
    Some(answers)
}

/// The record of a phase is opened.
pub fn open(record: &mut [u8], kind: u8, view: u8, request: u16) -> Result<(), Reason> {
    ask(record.len() == PHASE_SIZE, Reason::RecordLength)?;
    let phase = Phase::open(kind, view, request)?;
    record.copy_from_slice(&phase.record());
    Ok(())
}

/// The answer and its view of these bytes, which are as many as they are.
pub fn answer_and_view(given: &[u8]) -> (Message, View) {
    let message = given[..MESSAGE_SIZE].try_into().expect("a message");
    let view = given[MESSAGE_SIZE..].try_into().expect("a view");
    (Message::load(message), View::load(view))
}

/// One answer is given to it.
pub fn answer(record: &mut [u8], given: &[u8], entry: &mut [u8]) -> Result<Verdict, Reason> {
    ask(record.len() == PHASE_SIZE, Reason::RecordLength)?;
    ask(given.len() == GIVEN_SIZE, Reason::RecordLength)?;
    ask(entry.len() == ENTRY_SIZE, Reason::EntryLength)?;
    let (message, view) = answer_and_view(given);
    let head = Head::load(record);
    let fits = head.is_open() || head == Head::default();
    ask(fits, Reason::RecordRange)?;
    ask(message_fits(&message), Reason::CallRange)?;
    ask(view.spare == [0; 2], Reason::CallRange)?;
    let mut phase = Phase {
        head,
        answers: Vec::new(),
    };
    let number = usize::from(message.view);
    let place = HEAD_SIZE + TALLY_SIZE * number.saturating_sub(1);
    let tally = place..place + TALLY_SIZE;
    if number != 0 {
        let answers = answers_of(&record[tally.clone()], message.view, head.request);
        phase.answers = answers.ok_or(Reason::RecordRange)?;
    }
    let verdict = phase.take(&message, &view)?;
    record[tally].copy_from_slice(&phase.tally(message.view));
    record[..HEAD_SIZE].copy_from_slice(&phase.head.bytes());
    if let Verdict::Closed { entry: chosen, .. } = verdict {
        entry.copy_from_slice(&chosen.bytes());
    }
    Ok(verdict)
}

//! The operations of a run, and what the library's judge says of them.

use zemawulo::{judge, Entry, Image, Kind, LogLine, Phase, Refusal, Step};

use super::changes::entry;
use super::json;

/// An operation: the steps at which it began, ended and was given up, or 0; and
/// its entry, where it has one.
#[derive(Clone)]
pub struct Operation {
    pub client: u8,
    pub kind: Kind,
    pub begin: usize,
    pub end: usize,
    pub given_up: usize,
    pub entry: Option<Entry>,
}

#[derive(Default)]
pub struct Operations {
    pub all: Vec<Operation>,
}

impl Operations {
    fn open(&mut self, client: u8) -> Option<&mut Operation> {
        let open = |one: &&mut Operation| one.client == client && one.end == 0 && one.given_up == 0;
        self.all.iter_mut().rev().find(open)
    }

    /// An accepted step at a place, which left an image and completed the
    /// operation of a client, or none.
    pub fn add(&mut self, place: usize, step: Step, image: &Image, completed: Option<u8>) {
        match step {
            Step::Write { client, .. } => self.begin(client, Kind::Write, place),
            Step::Read { client } => self.begin(client, Kind::Read, place),
            Step::GiveUp { client } => {
                if let Some(open) = self.open(client) {
                    open.given_up = place;
                }
            }
            _ => {}
        }
        for (number, client) in image.clients() {
            let Some(open) = self.open(number) else {
                continue;
            };
            if completed == Some(number) {
                open.end = place;
                open.entry = Some(client.entry());
            } else if open.kind == Kind::Write && matches!(client.phase(), Phase::Writing(_)) {
                open.entry = Some(client.entry());
            }
        }
    }

    fn begin(&mut self, client: u8, kind: Kind, begin: usize) {
        self.all.push(Operation {
            client,
            kind,
            begin,
            end: 0,
            given_up: 0,
            entry: None,
        });
    }

    /// The write whose entry an operation returned.
    fn source(&self, read: &Operation) -> Option<usize> {
        let returned = read.entry.filter(|_| read.kind == Kind::Read)?;
        let wrote = |one: &Operation| one.kind == Kind::Write && one.entry == Some(returned);
        self.all.iter().position(wrote)
    }

    /// What the judge says of the operations up to a step: an order of their
    /// places, or the refusal. Begin and end are told by their rank.
    fn judged(&self, until: usize) -> Result<Vec<usize>, Refusal> {
        let ended = |one: &Operation| if one.end <= until { one.end } else { 0 };
        let logged = |one: &Operation| {
            let known = one.entry.is_some() && (one.kind == Kind::Write || ended(one) != 0);
            one.begin <= until && known
        };
        let places: Vec<usize> = (0..self.all.len())
            .filter(|&at| logged(&self.all[at]))
            .collect();
        let numbers = places
            .iter()
            .flat_map(|&at| [self.all[at].begin, ended(&self.all[at])]);
        let mut numbers: Vec<usize> = numbers.filter(|&number| number != 0).collect();
        numbers.sort_unstable();
        let rank = |step: usize| match numbers.binary_search(&step) {
            Ok(rank) => u16::try_from(rank + 1).unwrap_or(u16::MAX),
            Err(_) => 0,
        };
        let log = places.iter().map(|&at| {
            let one = &self.all[at];
            let entry = one.entry.unwrap_or_default();
            LogLine::new(rank(one.begin), rank(ended(one)), one.kind, entry)
        });
        let order = judge(&log.collect::<Vec<_>>())?;
        let place = |line: u16| places.get(usize::from(line).wrapping_sub(1)).copied();
        Ok(order.into_iter().filter_map(place).collect())
    }

    /// The first step from which on no order exists, by the judge.
    fn lost(&self) -> usize {
        let mut ends: Vec<usize> = self
            .all
            .iter()
            .map(|one| one.end)
            .filter(|&end| end != 0)
            .collect();
        ends.sort_unstable();
        let lost = |end: &&usize| self.judged(**end) == Err(Refusal::NoOrder);
        ends.iter().find(lost).copied().unwrap_or(0)
    }

    /// The write that ended last before an operation began.
    fn before(&self, one: &Operation) -> Option<usize> {
        let ended = |at: &usize| {
            let other = &self.all[*at];
            other.kind == Kind::Write && other.end != 0 && other.end < one.begin
        };
        (0..self.all.len())
            .filter(ended)
            .max_by_key(|&at| self.all[at].end)
    }

    pub fn json(&self) -> String {
        let place = |at: Option<usize>| at.map_or("null".to_string(), |at| at.to_string());
        let operations = self.all.iter().map(|one| {
            json::object(&[
                ("client", one.client.to_string()),
                ("kind", json::string(&one.kind.letter().to_string())),
                ("begin", one.begin.to_string()),
                ("end", one.end.to_string()),
                ("givenUp", one.given_up.to_string()),
                ("known", one.entry.is_some().to_string()),
                ("entry", one.entry.map_or("null".to_string(), entry)),
                ("source", place(self.source(one))),
                ("before", place(self.before(one))),
            ])
        });
        json::list(operations)
    }

    pub fn verdict(&self) -> String {
        let judged = self.judged(usize::MAX);
        let refusal = judged.as_ref().err().map_or(0, |refusal| refusal.number());
        let lost = if judged == Err(Refusal::NoOrder) {
            self.lost()
        } else {
            0
        };
        json::object(&[
            ("refusal", refusal.to_string()),
            ("order", json::list(judged.unwrap_or_default())),
            ("lost", lost.to_string()),
        ])
    }
}

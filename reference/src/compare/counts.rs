//! What the compared calls met: refusals by operation and by path, and what
//! the accepted steps did.

use std::collections::BTreeMap;

use crate::readable::Clause;
use crate::record::step_kind;
use crate::refusal::Reason;
use crate::step::Deed;

/// A public operation; steps are told apart by kind.
#[derive(Clone, Copy, Debug, PartialEq, Eq, PartialOrd, Ord)]
pub enum Operation {
    Fresh,
    Quorum,
    Write,
    Read,
    Deliver,
    Take,
    Fault,
    FalseAnswer,
    NewView,
    GiveUp,
    Restart,
    /// A step of a kind that does not exist, or of no byte at all.
    OtherKind,
    Premise,
    Replay,
    Resume,
    Load,
    Judge,
    Shorten,
    Watch,
    Vouch,
    VouchThreshold,
    /// The rules of single machines.
    Server,
    Client,
    Administrator,
    /// The record of a phase: opened, and an answer given to it.
    Open,
    Answer,
}

pub const OPERATIONS: [Operation; 26] = [
    Operation::Fresh,
    Operation::Quorum,
    Operation::Write,
    Operation::Read,
    Operation::Deliver,
    Operation::Take,
    Operation::Fault,
    Operation::FalseAnswer,
    Operation::NewView,
    Operation::GiveUp,
    Operation::Restart,
    Operation::OtherKind,
    Operation::Premise,
    Operation::Replay,
    Operation::Resume,
    Operation::Load,
    Operation::Judge,
    Operation::Shorten,
    Operation::Watch,
    Operation::Vouch,
    Operation::VouchThreshold,
    Operation::Server,
    Operation::Client,
    Operation::Administrator,
    Operation::Open,
    Operation::Answer,
];

impl Operation {
    /// The operation that a step of these bytes asks for.
    pub fn of_step(bytes: &[u8]) -> Operation {
        match bytes.first() {
            Some(&step_kind::WRITE) => Operation::Write,
            Some(&step_kind::READ) => Operation::Read,
            Some(&step_kind::DELIVER) => Operation::Deliver,
            Some(&step_kind::TAKE) => Operation::Take,
            Some(&step_kind::FAULT) => Operation::Fault,
            Some(&step_kind::FALSE_ANSWER) => Operation::FalseAnswer,
            Some(&step_kind::NEW_VIEW) => Operation::NewView,
            Some(&step_kind::GIVE_UP) => Operation::GiveUp,
            Some(&step_kind::RESTART) => Operation::Restart,
            _ => Operation::OtherKind,
        }
    }
}

/// What is met around a restart of the administrator.
#[derive(Clone, Copy, Debug, PartialEq, Eq, PartialOrd, Ord)]
pub enum Around {
    /// The restart itself.
    Restarted,
    /// An answer that it marked untaken is taken again, and END stays open.
    TakenAgain,
    /// The same of an answer with another view than the newest, which counts for
    /// nothing.
    ForNothing,
    /// An answer that was not taken before is taken, and END stays open.
    Late,
    /// An answer closes END.
    Closed,
    /// An answer that would close END is refused: no number is left for START.
    NoNumber,
    /// An answer after END has closed is refused.
    TooLate,
    /// A restart after END has closed is refused.
    RefusedAfter,
}

/// The last refusal's number.
pub const LAST_REFUSAL: u8 = 16;

/// Counts of what was met.
#[derive(Clone, Debug, Default)]
pub struct Counts {
    pub accepted: BTreeMap<Operation, u64>,
    pub refused: BTreeMap<(Operation, Reason), u64>,
    pub deeds: BTreeMap<Deed, u64>,
    /// Unreadable images that one clause alone refuses, by that clause.
    pub clauses: BTreeMap<Clause, u64>,
    /// Answers given to phases, by the request's kind and what they did: 0 open,
    /// 1 closed, 2 closed, and a read may end.
    pub given: BTreeMap<(u8, u64), u64>,
    /// Steps after which the premise first did not hold, by what was asked.
    pub broke: BTreeMap<Operation, u64>,
    /// What was met around a restart, by whether the pending view is a new one
    /// and by the length of the chain that it emptied.
    pub around: BTreeMap<(Around, bool, usize), u64>,
    /// Calls of single machines, by rule and refusal; number 0 is acceptance.
    pub rules: BTreeMap<(Operation, u8, u8), u64>,
}

impl Counts {
    pub fn accept(&mut self, operation: Operation) {
        *self.accepted.entry(operation).or_default() += 1;
    }

    pub fn refuse(&mut self, operation: Operation, reason: Reason) {
        *self.refused.entry((operation, reason)).or_default() += 1;
    }

    pub fn did(&mut self, deed: Deed) {
        *self.deeds.entry(deed).or_default() += 1;
    }

    /// An answer to a request of this kind was taken, and did this.
    pub fn gave(&mut self, kind: u8, verdict: u64) {
        *self.given.entry((kind, verdict)).or_default() += 1;
    }

    /// The premise held before this step and not after it.
    pub fn broke(&mut self, operation: Operation) {
        *self.broke.entry(operation).or_default() += 1;
    }

    /// This was met around a restart that emptied a chain of this length.
    pub fn around(&mut self, met: Around, renewed: bool, length: usize) {
        *self.around.entry((met, renewed, length)).or_default() += 1;
    }

    /// A single machine was asked for this rule.
    pub fn asked(&mut self, operation: Operation, rule: u8, number: u8) {
        *self.rules.entry((operation, rule, number)).or_default() += 1;
    }

    /// An image was unreadable by these clauses.
    pub fn unreadable(&mut self, broken: &[Clause]) {
        if let [alone] = broken {
            *self.clauses.entry(*alone).or_default() += 1;
        }
    }

    /// How often an operation met this refusal; number 0 is acceptance.
    pub fn of(&self, operation: Operation, number: u8) -> u64 {
        if number == 0 {
            return self.accepted.get(&operation).copied().unwrap_or(0);
        }
        self.refused
            .iter()
            .filter(|((met, reason), _)| *met == operation && reason.number() == number)
            .map(|(_, count)| count)
            .sum()
    }

    /// How often all operations together met it.
    pub fn total(&self, number: u8) -> u64 {
        OPERATIONS
            .iter()
            .map(|operation| self.of(*operation, number))
            .sum()
    }

    /// The refusals that were met fewer times than asked.
    pub fn rare(&self, least: u64) -> Vec<u8> {
        (1..=LAST_REFUSAL)
            .filter(|number| self.total(*number) < least)
            .collect()
    }
}

//! What kind of run a generated journal is.

/// Which servers may turn faulty.
#[derive(Clone, Copy, Debug, PartialEq, Eq)]
pub enum Faults {
    /// Any, until the premise would fail.
    Within,
    /// Any.
    Beyond,
}

/// What a journal does next, drawn by weight.
#[derive(Clone, Copy, Debug, PartialEq, Eq)]
pub enum Move {
    /// An idle client begins to write or read.
    Begin,
    /// An open request reaches a server that serves.
    Deliver,
    /// Any message reaches any server, however late.
    DeliverLate,
    /// A START reaches a member of its view.
    Start,
    /// An answer that somebody waits for is taken.
    Take,
    /// A server turns faulty.
    Fault,
    /// A faulty server answers, with an old entry for preference.
    Lie,
    /// The administrator ends the newest view.
    NewView,
    /// A client gives its open operation up.
    GiveUp,
    /// The administrator restarts while it ends a view.
    Restart,
    /// A step drawn with no care, most often refused.
    Odd,
}

pub const MOVES: [Move; 11] = [
    Move::Begin,
    Move::Deliver,
    Move::DeliverLate,
    Move::Start,
    Move::Take,
    Move::Fault,
    Move::Lie,
    Move::NewView,
    Move::GiveUp,
    Move::Restart,
    Move::Odd,
];

/// The place of the odd steps among the moves.
const ODD: usize = MOVES.len() - 1;

#[derive(Clone, Debug)]
pub struct Profile {
    pub name: &'static str,
    /// Clients 1 to this one take part.
    pub clients: u8,
    /// Servers 1 to this one take part.
    pub servers: u8,
    /// The most members of a view.
    pub largest_view: u8,
    /// The most steps, refused ones included.
    pub steps: usize,
    /// The most operations begun.
    pub operations: usize,
    pub faults: Faults,
    /// The weight of each move, in the order of `MOVES`.
    pub weights: [u32; MOVES.len()],
    /// In how many of a hundred steps the network parts anew into servers that
    /// are reached and servers that are not; 0: all are always reached.
    pub partings: usize,
}

impl Profile {
    /// The same with odd steps, or without.
    pub fn with_odd(&self, odd: bool) -> Profile {
        let mut weights = self.weights;
        weights[ODD] = u32::from(odd);
        Profile {
            weights,
            ..self.clone()
        }
    }
}

/// Few servers, few operations, much goes wrong: for histories.
pub const STORM: Profile = Profile {
    name: "storm",
    clients: 3,
    servers: 6,
    largest_view: 5,
    steps: 220,
    operations: 8,
    faults: Faults::Within,
    weights: [6, 30, 4, 10, 30, 2, 14, 3, 2, 3, 1],
    partings: 5,
};

/// The same without views changing: phases of one view against each other.
pub const STILL: Profile = Profile {
    name: "still",
    clients: 3,
    servers: 4,
    largest_view: 4,
    steps: 160,
    operations: 8,
    faults: Faults::Within,
    weights: [6, 30, 4, 0, 30, 2, 12, 0, 2, 0, 1],
    partings: 8,
};

/// As a storm, and any server may turn faulty.
pub const WRECK: Profile = Profile {
    name: "wreck",
    faults: Faults::Beyond,
    weights: [6, 30, 4, 10, 30, 5, 20, 3, 2, 3, 1],
    ..STORM
};

/// Many clients in a hurry on one sound view: reads that see a write half done.
pub const GLIMPSE: Profile = Profile {
    name: "glimpse",
    clients: 5,
    servers: 5,
    largest_view: 5,
    steps: 220,
    operations: 12,
    faults: Faults::Within,
    weights: [20, 15, 0, 0, 30, 0, 0, 0, 2, 0, 1],
    partings: 20,
};

/// A year at the bench: concurrent clients, views that change now and then,
/// every message number used in the end.
pub const FULL: Profile = Profile {
    name: "full",
    clients: 16,
    servers: 12,
    largest_view: 7,
    steps: 6000,
    operations: usize::MAX,
    faults: Faults::Within,
    weights: [20, 120, 3, 25, 130, 1, 6, 1, 2, 1, 0],
    partings: 1,
};

/// As many servers as there are, large quorums, long chains.
pub const WIDE: Profile = Profile {
    name: "wide",
    clients: 16,
    servers: 32,
    largest_view: 32,
    steps: 6000,
    operations: usize::MAX,
    faults: Faults::Beyond,
    weights: [8, 150, 10, 40, 150, 4, 20, 1, 1, 1, 0],
    partings: 0,
};

/// One server and one client.
pub const TINY: Profile = Profile {
    name: "tiny",
    clients: 1,
    servers: 1,
    largest_view: 1,
    steps: 60,
    operations: usize::MAX,
    faults: Faults::Beyond,
    weights: [10, 20, 4, 8, 20, 1, 4, 2, 3, 2, 1],
    partings: 0,
};

/// View after view, up to the last.
pub const RUSH: Profile = Profile {
    name: "rush",
    clients: 3,
    servers: 5,
    largest_view: 3,
    steps: 3000,
    operations: usize::MAX,
    faults: Faults::Within,
    weights: [3, 40, 4, 40, 40, 1, 6, 20, 1, 20, 0],
    partings: 2,
};

/// Clients that restart again and again: several unfinished operations each.
pub const RESTARTS: Profile = Profile {
    name: "restarts",
    clients: 3,
    servers: 4,
    largest_view: 4,
    steps: 320,
    operations: 16,
    faults: Faults::Within,
    weights: [10, 30, 2, 6, 30, 1, 4, 1, 3, 1, 1],
    partings: 20,
};

/// Views that take in servers which turned faulty before: a START breaks the
/// premise more often than a fault.
pub const LATECOMERS: Profile = Profile {
    name: "latecomers",
    clients: 2,
    servers: 16,
    largest_view: 4,
    steps: 250,
    operations: usize::MAX,
    faults: Faults::Beyond,
    weights: [3, 30, 2, 40, 40, 4, 3, 12, 1, 2, 0],
    partings: 0,
};

pub const PROFILES: [&Profile; 10] = [
    &STORM,
    &STILL,
    &WRECK,
    &GLIMPSE,
    &FULL,
    &WIDE,
    &TINY,
    &RUSH,
    &RESTARTS,
    &LATECOMERS,
];

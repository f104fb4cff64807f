//! The moves of a generated run: each is proposed in view of the world, and
//! may still be refused by it.

use crate::generate::journals::draw_view;
use crate::generate::profile::{Faults, Move, Profile};
use crate::generate::steps::odd_step;
use crate::layout::{LAST_CLIENT, LAST_SERVER, STEP_SIZE};
use crate::record::{step_kind, Step};
use crate::rules::Rules;
use crate::step::step;
use crate::world::{bit, message_kind, phase, View, World};
use crate::xorshift::Draws;

/// A run so far: the world, and lists that spare looking through all messages.
pub struct Run {
    pub world: World,
    pub draws: Draws,
    untaken: Vec<u16>,
    starts: Vec<u16>,
    writes: Vec<u16>,
    seen: u16,
    begun: usize,
    reached: u32,
    /// The last END that saw a restart, and how many it saw.
    restarted: (u16, usize),
}

/// An END sees no more restarts than that, so that a run gets somewhere and one
/// that is stuck ends.
const RESTARTS_OF_AN_END: usize = 3;

impl Run {
    pub fn new(world: World, draws: Draws) -> Run {
        Run {
            world,
            draws,
            untaken: Vec::new(),
            starts: Vec::new(),
            writes: Vec::new(),
            seen: 0,
            begun: 0,
            reached: u32::MAX,
            restarted: (0, 0),
        }
    }

    /// From time to time other servers are reached.
    pub fn part_network(&mut self, profile: &Profile) {
        if profile.partings > 0 && self.draws.chance(profile.partings) {
            self.reached = self.draws.word() as u32 | self.draws.word() as u32;
        }
    }

    /// Does the step; true if it was accepted.
    pub fn apply<R: Rules>(&mut self, bytes: &[u8]) -> bool {
        let Ok(bytes): Result<&[u8; STEP_SIZE], _> = bytes.try_into() else {
            return false;
        };
        let record = Step::load(bytes);
        if step::<R>(&mut self.world, &record).is_err() {
            return false;
        }
        if matches!(record.kind, 1 | 2) {
            self.begun += 1;
        }
        if record.kind == step_kind::RESTART {
            self.note_untaken();
        }
        self.note_messages();
        true
    }

    /// After a restart the answers to END wait to be taken again.
    fn note_untaken(&mut self) {
        let end = self.world.header.end;
        self.restarted = (end, self.restarts_of(end) + 1);
        for number in 1..=self.seen {
            let message = &self.world.messages[usize::from(number)];
            let answers = message.kind == message_kind::ANSWER && message.request == end;
            if answers && !self.untaken.contains(&number) {
                self.untaken.push(number);
            }
        }
    }

    fn restarts_of(&self, end: u16) -> usize {
        if self.restarted.0 == end {
            self.restarted.1
        } else {
            0
        }
    }

    fn note_messages(&mut self) {
        while self.seen < self.world.header.used {
            self.seen += 1;
            match self.world.messages[usize::from(self.seen)].kind {
                message_kind::WRITE => self.writes.push(self.seen),
                message_kind::START => self.starts.push(self.seen),
                message_kind::ANSWER => self.untaken.push(self.seen),
                _ => {}
            }
        }
    }

    /// A step for this move, or none if the world has no room for it.
    pub fn propose(&mut self, drawn: Move, profile: &Profile) -> Option<Vec<u8>> {
        let record = match drawn {
            Move::Begin => self.begin(profile)?,
            Move::Deliver => self.deliver(profile)?,
            Move::DeliverLate => self.deliver_late(profile)?,
            Move::Start => self.start()?,
            Move::Take => self.take()?,
            Move::Fault => self.fault(profile)?,
            Move::Lie => self.lie()?,
            Move::NewView => self.new_view(profile)?,
            Move::GiveUp => self.give_up()?,
            Move::Restart => self.restart(profile)?,
            Move::Odd => return Some(odd_step(&self.world, &mut self.draws)),
        };
        Some(record.bytes().to_vec())
    }

    fn begin(&mut self, profile: &Profile) -> Option<Step> {
        if self.begun >= profile.operations {
            return None;
        }
        let idle: Vec<u8> = (1..=profile.clients)
            .filter(|client| self.world.client(*client).phase == phase::IDLE)
            .collect();
        let client = *self.draws.pick(&idle)?;
        if self.draws.chance(45) {
            // Few values, so that different writes often agree in theirs.
            let value = self.draws.below(4) as u32;
            return Some(Step::write(client, value));
        }
        Some(Step::read(client))
    }

    fn give_up(&mut self) -> Option<Step> {
        // One that is writing for preference: its WRITE may still surface.
        let least = if self.draws.chance(70) {
            phase::WRITING
        } else {
            phase::READING
        };
        let busy: Vec<u8> = (1..=LAST_CLIENT)
            .filter(|client| self.world.client(*client).phase >= least)
            .collect();
        self.draws.pick(&busy).map(|client| Step::give_up(*client))
    }

    /// The requests that somebody waits for answers to.
    fn open_requests(&self) -> Vec<u16> {
        let mut open: Vec<u16> = self
            .world
            .clients
            .iter()
            .filter(|client| client.phase != phase::IDLE)
            .map(|client| client.request)
            .collect();
        if self.world.is_ending() {
            open.push(self.world.header.end);
        }
        open
    }

    fn deliver(&mut self, profile: &Profile) -> Option<Step> {
        let open = self.open_requests();
        let request = *self.draws.pick(&open)?;
        let serving = (1..=profile.servers)
            .filter(|number| {
                let server = self.world.server(*number);
                !server.is_faulty() && server.serves()
            })
            .fold(0, |bits, number| bits | bit(number));
        let server = self.draws.pick_bit(serving & self.reached);
        (server != 0).then(|| Step::deliver(server, request))
    }

    fn deliver_late(&mut self, profile: &Profile) -> Option<Step> {
        let message = self.any_request()?;
        Some(Step::deliver(self.any_server(profile), message))
    }

    /// Any message but an answer; old ones as often as new ones.
    fn any_request(&mut self) -> Option<u16> {
        let used = usize::from(self.world.header.used);
        if used == 0 {
            return None;
        }
        (0..8)
            .map(|_| self.draws.between(1, used) as u16)
            .find(|number| self.world.messages[usize::from(*number)].kind != message_kind::ANSWER)
    }

    fn any_server(&mut self, profile: &Profile) -> u8 {
        // Now and then one that no view has.
        let last = if self.draws.chance(3) {
            LAST_SERVER
        } else {
            profile.servers
        };
        self.draws.between(1, usize::from(last)) as u8
    }

    fn start(&mut self) -> Option<Step> {
        // The last one for preference.
        let start = match self.starts.last() {
            Some(last) if self.draws.chance(70) => *last,
            _ => *self.draws.pick(&self.starts)?,
        };
        let view = self.world.messages[usize::from(start)].view;
        let members = self.world.view(view).members & self.reached;
        let server = self.draws.pick_bit(members);
        (server != 0).then(|| Step::deliver(server, start))
    }

    /// An untaken answer that somebody waits for. Others are mostly forgotten
    /// on the way, so that the list stays short.
    fn take(&mut self) -> Option<Step> {
        let open = self.open_requests();
        for _ in 0..12 {
            if self.untaken.is_empty() {
                return None;
            }
            let place = self.draws.below(self.untaken.len());
            let number = self.untaken[place];
            let answer = &self.world.messages[usize::from(number)];
            if answer.taken == 0 && open.contains(&answer.request) {
                return Some(Step::take(number));
            }
            self.untaken.swap_remove(place);
        }
        None
    }

    fn lie(&mut self) -> Option<Step> {
        let faulty: Vec<u8> = (1..=LAST_SERVER)
            .filter(|number| {
                let server = self.world.server(*number);
                server.is_faulty() && server.keys != 0
            })
            .collect();
        let server = *self.draws.pick(&faulty)?;
        let view = self.draws.pick_bit(self.world.server(server).keys);
        let open = self.open_requests();
        let message = match self.draws.pick(&open) {
            Some(request) if self.draws.chance(85) => *request,
            _ => self.any_request()?,
        };
        Some(Step::false_answer(server, view, message, self.old_write()))
    }

    /// A WRITE, the older the likelier, or 0.
    fn old_write(&mut self) -> u16 {
        if self.writes.is_empty() || self.draws.chance(35) {
            return 0;
        }
        let bound = self.draws.between(1, self.writes.len());
        self.writes[self.draws.below(bound)]
    }

    fn new_view(&mut self, profile: &Profile) -> Option<Step> {
        if self.world.is_ending() {
            return None;
        }
        let View { members, f, r, .. } = draw_view(&mut self.draws, profile);
        let stuck = (self.faulty() & members).count_ones() > u32::from(f);
        (!stuck || self.allows_stuck(profile)).then(|| Step::sized_view(members, f, r))
    }

    /// A restart while END is open, with a new pending view half of the times.
    fn restart(&mut self, profile: &Profile) -> Option<Step> {
        let end = self.world.header.end;
        if !self.world.is_ending() || self.restarts_of(end) == RESTARTS_OF_AN_END {
            return None;
        }
        if self.draws.chance(50) {
            return Some(Step::restart(0, 0, 0));
        }
        let View { members, f, r, .. } = draw_view(&mut self.draws, profile);
        let stuck = (self.faulty() & members).count_ones() > u32::from(f);
        (!stuck || self.allows_stuck(profile)).then(|| Step::restart(members, f, r))
    }

    fn fault(&mut self, profile: &Profile) -> Option<Step> {
        let server = self.any_server(profile);
        let faulty = self.faulty() | bit(server);
        let last = self.world.header.newest + self.world.header.ending;
        let stuck = (self.world.header.newest..=last).any(|number| {
            let view = self.world.view(number);
            (faulty & view.members).count_ones() > u32::from(view.f)
        });
        (!stuck || self.allows_stuck(profile)).then(|| Step::fault(server))
    }

    fn faulty(&self) -> u32 {
        (1..=LAST_SERVER)
            .filter(|number| self.world.server(*number).is_faulty())
            .fold(0, |bits, number| bits | bit(number))
    }

    /// A view with more than f faulty members may never close anything again.
    /// A run within the premise seldom goes there, so that it gets somewhere.
    fn allows_stuck(&mut self, profile: &Profile) -> bool {
        profile.faults == Faults::Beyond || self.draws.chance(3)
    }
}

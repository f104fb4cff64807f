//! A world in its image.

use std::fmt;

use crate::bytes::{self, Replayed, CLIENT, IMAGE, MESSAGE, SERVER, STEP, VIEW};
use crate::numbers::{part, u16_at, u8_at};
use crate::{Client, Message, Refusal, Server, Step, View, World};

/// Where the records begin.
const VIEWS: usize = 16;
const HOLDERS: usize = VIEWS + VIEW * LAST_VIEW as usize;
const SERVERS: usize = HOLDERS + LAST_VIEW as usize;
const CLIENTS: usize = SERVERS + SERVER * LAST_SERVER as usize;
const MESSAGES: usize = CLIENTS + CLIENT * LAST_CLIENT as usize;

/// The last number of a view.
pub const LAST_VIEW: u8 = 32;
/// The last number of a server.
pub const LAST_SERVER: u8 = 32;
/// The last number of a client.
pub const LAST_CLIENT: u8 = 16;
/// The last number of a message.
pub const LAST_MESSAGE: u16 = 1023;

/// The image of a world: servers, views, clients, the administrator and every
/// message. It is always readable: it is made fresh or from bytes that the
/// library can read, and only the library's steps change it.
///
/// ```
/// use zemawulo::{Image, Refusal, Step, World};
///
/// let mut image = Image::fresh(World { members: [1].into_iter().collect(), f: 0, r: 0 })?;
/// image.step(Step::Write { client: 1, value: 7 })?;
/// for request in [1, 3] {
///     image.step(Step::Deliver { server: 1, message: request })?;
///     let completed = image.step(Step::Take { message: request + 1 })?;
///     assert_eq!(completed, (request == 3).then_some(1));
/// }
/// let client = image.client(1).expect("clients 1 to 16");
/// assert_eq!(client.entry().to_string(), "count=1 writer=1 value=7");
/// assert!(image.premise()?);
/// assert_eq!(image.step(Step::Take { message: 4 }), Err(Refusal::NoRule));
/// # Ok::<(), Refusal>(())
/// ```
#[derive(Clone, PartialEq, Eq)]
pub struct Image {
    bytes: Box<[u8]>,
}

impl Image {
    /// The fresh world. Refused with 8.
    pub fn fresh(world: World) -> Result<Image, Refusal> {
        let mut bytes = vec![0; IMAGE].into_boxed_slice();
        bytes::fresh(&mut bytes, world.members.bits(), world.f, world.r)?;
        Ok(Image { bytes })
    }

    /// The image in these bytes. Refused with 1 and 2.
    pub fn from_bytes(bytes: &[u8]) -> Result<Image, Refusal> {
        bytes::premise(bytes)?;
        Ok(Image {
            bytes: bytes.into(),
        })
    }

    /// Its bytes.
    pub fn as_bytes(&self) -> &[u8] {
        &self.bytes
    }

    /// One step. Gives the client whose operation it completed, if it did; the
    /// result is in that client's record. Refused with 3 to 12.
    pub fn step(&mut self, step: Step) -> Result<Option<u8>, Refusal> {
        bytes::step(&mut self.bytes, &step.to_bytes())
    }

    /// The steps of a journal up to the first that is refused; refused with 1
    /// if its length is no multiple of 12.
    pub fn replay(&mut self, journal: &[u8]) -> Replayed {
        bytes::replay(&mut self.bytes, journal)
    }

    /// The rest of a journal behind steps that were done on this image before.
    pub fn resume(&mut self, journal: &[u8], steps: u64) -> Replayed {
        bytes::resume(&mut self.bytes, journal, steps)
    }

    /// A replay that watches the premise: what it did, and the first step after
    /// which some view has more faulty servers with its key than its threshold.
    /// The first step of the journal is 1.
    ///
    /// ```
    /// use zemawulo::{Image, Step, World};
    ///
    /// let mut image = Image::fresh(World { members: [1].into_iter().collect(), f: 0, r: 0 })?;
    /// let journal = Step::journal(&[Step::Read { client: 1 }, Step::Fault { server: 1 }]);
    /// let (replayed, first) = image.watch(&journal);
    /// assert_eq!((replayed.steps, first), (2, Some(2)));
    /// assert_eq!(image.faulty_holders(1), Some(1));
    /// # Ok::<(), zemawulo::Refusal>(())
    /// ```
    pub fn watch(&mut self, journal: &[u8]) -> (Replayed, Option<u64>) {
        bytes::watch(&mut self.bytes, journal)
    }

    /// Whether no view has more faulty servers with its key than its threshold.
    pub fn premise(&self) -> Result<bool, Refusal> {
        bytes::premise(&self.bytes)
    }

    /// The last message number used, 0 to 1,023.
    pub fn used(&self) -> u16 {
        u16_at(&self.bytes, 2)
    }

    /// The newest view.
    pub fn newest(&self) -> u8 {
        u8_at(&self.bytes, 4)
    }

    /// The number of the END by which the newest view is being ended.
    pub fn ending(&self) -> Option<u16> {
        (u8_at(&self.bytes, 5) != 0).then(|| u16_at(&self.bytes, 6))
    }

    /// A view that was recorded: 1 to the newest, and the next one while the
    /// newest is being ended.
    pub fn view(&self, number: u8) -> Option<View> {
        let last = self.newest() + u8::from(self.ending().is_some());
        let record = numbered(number.into(), last.into(), VIEWS, VIEW)?;
        Some(View::from_bytes(part(&self.bytes, record)))
    }

    /// How many faulty servers hold the key of a view, 1 to 32: the byte that the
    /// image keeps of it, which is 0 beyond the newest view.
    pub fn faulty_holders(&self, view: u8) -> Option<u8> {
        let record = numbered(view.into(), LAST_VIEW.into(), HOLDERS, 1)?;
        Some(u8_at(&self.bytes, record))
    }

    /// A server, 1 to 32.
    pub fn server(&self, number: u8) -> Option<Server> {
        let record = numbered(number.into(), LAST_SERVER.into(), SERVERS, SERVER)?;
        Some(Server::from_bytes(part(&self.bytes, record)))
    }

    /// A client, 1 to 16.
    pub fn client(&self, number: u8) -> Option<Client> {
        let record = numbered(number.into(), LAST_CLIENT.into(), CLIENTS, CLIENT)?;
        Some(Client::from_bytes(part(&self.bytes, record)))
    }

    /// A message that was sent.
    pub fn message(&self, number: u16) -> Option<Message> {
        // Message 0 has a record too, which is never used.
        let record = numbered(number, self.used(), MESSAGES + MESSAGE, MESSAGE)?;
        Some(Message::from_bytes(part(&self.bytes, record)))
    }

    /// All views with their numbers.
    pub fn views(&self) -> impl Iterator<Item = (u8, View)> + '_ {
        (1..=LAST_VIEW).filter_map(|number| Some((number, self.view(number)?)))
    }

    /// All servers with their numbers.
    pub fn servers(&self) -> impl Iterator<Item = (u8, Server)> + '_ {
        (1..=LAST_SERVER).filter_map(|number| Some((number, self.server(number)?)))
    }

    /// All clients with their numbers.
    pub fn clients(&self) -> impl Iterator<Item = (u8, Client)> + '_ {
        (1..=LAST_CLIENT).filter_map(|number| Some((number, self.client(number)?)))
    }

    /// All messages with their numbers.
    pub fn messages(&self) -> impl Iterator<Item = (u16, Message)> + '_ {
        (1..=self.used()).filter_map(|number| Some((number, self.message(number)?)))
    }

    /// The answers to a request that were taken, from the newest to the oldest.
    pub fn chain(&self, request: u16) -> impl Iterator<Item = u16> + '_ {
        let next = |number: &u16| self.message(*number).map(|message| message.next());
        std::iter::successors(next(&request), next)
            .take_while(|number| *number != 0)
            .take(LAST_MESSAGE.into())
    }
}

/// Where record `number` of 1 to `last` begins.
fn numbered(number: u16, last: u16, first: usize, width: usize) -> Option<usize> {
    let place = usize::from(number).checked_sub(1)?;
    (number <= last).then_some(first + width * place)
}

impl AsRef<[u8]> for Image {
    fn as_ref(&self) -> &[u8] {
        &self.bytes
    }
}

impl fmt::Debug for Image {
    fn fmt(&self, f: &mut fmt::Formatter<'_>) -> fmt::Result {
        f.debug_struct("Image")
            .field("newest", &self.newest())
            .field("used", &self.used())
            .finish_non_exhaustive()
    }
}

/// The short journal behind the refusal that stops a journal's replay from a
/// fresh world: its replay stops with the same refusal, and no longer does when
/// any single step is dropped. Refused with 1, 8 and 15.
///
/// ```
/// use zemawulo::{shorten, Refusal, Step, World};
///
/// let world = World { members: [1].into_iter().collect(), f: 0, r: 0 };
/// let journal = [Step::Read { client: 2 }, Step::GiveUp { client: 1 }];
/// assert_eq!(shorten(world, &journal), Ok(vec![Step::GiveUp { client: 1 }]));
/// assert_eq!(shorten(world, &journal[..1]), Err(Refusal::NoRefusal));
/// ```
pub fn shorten(world: World, journal: &[Step]) -> Result<Vec<Step>, Refusal> {
    let mut image = vec![0; IMAGE];
    let journal = Step::journal(journal);
    let mut shorter = vec![0; journal.len()];
    let (members, f, r) = (world.members.bits(), world.f, world.r);
    let steps = bytes::shorten(&mut image, members, f, r, &journal, &mut shorter)?;
    let records = shorter.chunks_exact(STEP).map(|bytes| part(bytes, 0));
    let steps = usize::try_from(steps).unwrap_or(usize::MAX);
    Ok(records.take(steps).map(Step::from_bytes).collect())
}

/// The load of a seed: a journal of so many steps, each of which passes check 3.
/// The two inputs fix it everywhere.
///
/// ```
/// use zemawulo::{load, Step};
///
/// assert_eq!(load(1, 1), Ok(vec![Step::Read { client: 2 }]));
/// ```
pub fn load(seed: u32, steps: u32) -> Result<Vec<Step>, Refusal> {
    let mut journal = vec![0; STEP.saturating_mul(steps as usize)];
    bytes::load(&mut journal, seed, steps)?;
    let records = journal.chunks_exact(STEP).map(|bytes| part(bytes, 0));
    Ok(records.map(Step::from_bytes).collect())
}

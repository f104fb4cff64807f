//! From the bytes of an image to a world and back, little-endian.

use crate::entry::Entry;
use crate::layout::{
    CLIENTS_AT, CLIENT_SIZE, ENTRY_SIZE, HEADER_SIZE, HOLDERS_AT, IMAGE_SIZE, MESSAGES_AT,
    MESSAGE_SIZE, SERVERS_AT, SERVER_SIZE, VIEWS_AT, VIEW_SIZE,
};
use crate::world::{Client, Fresh, Header, Message, Server, View, World};

/// The bytes of a whole image.
pub type Image = [u8; IMAGE_SIZE];

/// A record of N bytes in the image.
pub trait Record<const N: usize>: Sized {
    fn load(bytes: &[u8; N]) -> Self;
    fn bytes(&self) -> [u8; N];
}

impl Record<ENTRY_SIZE> for Entry {
    fn load(bytes: &[u8; ENTRY_SIZE]) -> Entry {
        let [c0, c1, c2, c3, writer, s0, s1, s2, v0, v1, v2, v3] = *bytes;
        Entry {
            count: u32::from_le_bytes([c0, c1, c2, c3]),
            writer,
            spare: [s0, s1, s2],
            value: u32::from_le_bytes([v0, v1, v2, v3]),
        }
    }

    fn bytes(&self) -> [u8; ENTRY_SIZE] {
        let [c0, c1, c2, c3] = self.count.to_le_bytes();
        let [s0, s1, s2] = self.spare;
        let [v0, v1, v2, v3] = self.value.to_le_bytes();
        [c0, c1, c2, c3, self.writer, s0, s1, s2, v0, v1, v2, v3]
    }
}

impl Record<HEADER_SIZE> for Header {
    fn load(bytes: &[u8; HEADER_SIZE]) -> Header {
        let [v0, v1, u0, u1, newest, ending, e0, e1, spare @ ..] = *bytes;
        Header {
            version: u16::from_le_bytes([v0, v1]),
            used: u16::from_le_bytes([u0, u1]),
            newest,
            ending,
            end: u16::from_le_bytes([e0, e1]),
            spare,
        }
    }

    fn bytes(&self) -> [u8; HEADER_SIZE] {
        let [v0, v1] = self.version.to_le_bytes();
        let [u0, u1] = self.used.to_le_bytes();
        let [e0, e1] = self.end.to_le_bytes();
        let head = [v0, v1, u0, u1, self.newest, self.ending, e0, e1];
        joined(head, self.spare)
    }
}

impl Record<VIEW_SIZE> for View {
    fn load(bytes: &[u8; VIEW_SIZE]) -> View {
        let [m0, m1, m2, m3, f, r, spare @ ..] = *bytes;
        View {
            members: u32::from_le_bytes([m0, m1, m2, m3]),
            f,
            r,
            spare,
        }
    }

    fn bytes(&self) -> [u8; VIEW_SIZE] {
        let [m0, m1, m2, m3] = self.members.to_le_bytes();
        let [s0, s1] = self.spare;
        [m0, m1, m2, m3, self.f, self.r, s0, s1]
    }
}

impl Record<SERVER_SIZE> for Server {
    fn load(bytes: &[u8; SERVER_SIZE]) -> Server {
        let [view, faulty, s0, s1, k0, k1, k2, k3, entry @ ..] = *bytes;
        Server {
            view,
            faulty,
            spare: [s0, s1],
            keys: u32::from_le_bytes([k0, k1, k2, k3]),
            entry: Entry::load(&entry),
        }
    }

    fn bytes(&self) -> [u8; SERVER_SIZE] {
        let [s0, s1] = self.spare;
        let [k0, k1, k2, k3] = self.keys.to_le_bytes();
        let head = [self.view, self.faulty, s0, s1, k0, k1, k2, k3];
        joined(head, self.entry.bytes())
    }
}

impl Record<CLIENT_SIZE> for Client {
    fn load(bytes: &[u8; CLIENT_SIZE]) -> Client {
        let [phase, kind, r0, r1, entry @ .., l0, l1, l2, l3] = *bytes;
        Client {
            phase,
            kind,
            request: u16::from_le_bytes([r0, r1]),
            entry: Entry::load(&entry),
            largest: u32::from_le_bytes([l0, l1, l2, l3]),
        }
    }

    fn bytes(&self) -> [u8; CLIENT_SIZE] {
        let [r0, r1] = self.request.to_le_bytes();
        let head = [self.phase, self.kind, r0, r1];
        let entry: [u8; CLIENT_SIZE - 4] = joined(self.entry.bytes(), self.largest.to_le_bytes());
        joined(head, entry)
    }
}

impl Record<MESSAGE_SIZE> for Message {
    fn load(bytes: &[u8; MESSAGE_SIZE]) -> Message {
        let [kind, sender, view, taken, r0, r1, n0, n1, entry @ ..] = *bytes;
        Message {
            kind,
            sender,
            view,
            taken,
            request: u16::from_le_bytes([r0, r1]),
            next: u16::from_le_bytes([n0, n1]),
            entry: Entry::load(&entry),
        }
    }

    fn bytes(&self) -> [u8; MESSAGE_SIZE] {
        let [r0, r1] = self.request.to_le_bytes();
        let [n0, n1] = self.next.to_le_bytes();
        let head = [
            self.kind,
            self.sender,
            self.view,
            self.taken,
            r0,
            r1,
            n0,
            n1,
        ];
        joined(head, self.entry.bytes())
    }
}

/// The bytes of the one after those of the other.
fn joined<const A: usize, const B: usize, const N: usize>(one: [u8; A], other: [u8; B]) -> [u8; N] {
    const { assert!(A + B == N) };
    let mut bytes = [0; N];
    bytes[..A].copy_from_slice(&one);
    bytes[A..].copy_from_slice(&other);
    bytes
}

fn load_all<const N: usize, R: Record<N>>(bytes: &[u8], records: &mut [R]) {
    for (bytes, record) in bytes.as_chunks().0.iter().zip(records) {
        *record = R::load(bytes);
    }
}

fn store_all<const N: usize, R: Record<N>>(records: &[R], bytes: &mut [u8]) {
    for (record, bytes) in records.iter().zip(bytes.as_chunks_mut().0) {
        *bytes = record.bytes();
    }
}

/// Every field of the image, whatever it holds.
pub fn decode(image: &Image) -> World {
    let mut world = World::ZERO;
    load_all(&image[..VIEWS_AT], std::slice::from_mut(&mut world.header));
    load_all(&image[VIEWS_AT..HOLDERS_AT], &mut world.views);
    world
        .holders
        .copy_from_slice(&image[HOLDERS_AT..SERVERS_AT]);
    load_all(&image[SERVERS_AT..CLIENTS_AT], &mut world.servers);
    load_all(&image[CLIENTS_AT..MESSAGES_AT], &mut world.clients);
    load_all(&image[MESSAGES_AT..], &mut world.messages);
    world
}

/// The image of the world: every byte of it is written.
pub fn encode(world: &World, image: &mut Image) {
    store_all(std::slice::from_ref(&world.header), &mut image[..VIEWS_AT]);
    store_all(&world.views, &mut image[VIEWS_AT..HOLDERS_AT]);
    image[HOLDERS_AT..SERVERS_AT].copy_from_slice(&world.holders);
    store_all(&world.servers, &mut image[SERVERS_AT..CLIENTS_AT]);
    store_all(&world.clients, &mut image[CLIENTS_AT..MESSAGES_AT]);
    store_all(&world.messages, &mut image[MESSAGES_AT..]);
}

/// The image of the fresh world, without a world in between.
pub fn encode_fresh(fresh: &Fresh, image: &mut Image) {
    image.fill(0);
    store_all(std::slice::from_ref(&fresh.header), &mut image[..VIEWS_AT]);
    store_all(&fresh.views, &mut image[VIEWS_AT..HOLDERS_AT]);
    store_all(&fresh.servers, &mut image[SERVERS_AT..CLIENTS_AT]);
}

/// The image of the world in a buffer of its own.
pub fn image_of(world: &World) -> Box<Image> {
    let mut image = Box::new([0; IMAGE_SIZE]);
    encode(world, &mut image);
    image
}

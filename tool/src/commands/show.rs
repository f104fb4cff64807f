//! `zemawulo show`: an image as tables.

use zemawulo::{
    Client, Entry, Image, Kind, Message, MessageKind, Numbers, Phase, Server, Sizes, View,
};

use super::replay::image;
use super::Command;
use crate::failure::Failure;
use crate::files;
use crate::options::Options;

pub const SHOW: Command = Command {
    name: "show",
    summary: "show an image as tables",
    help: "
usage: zemawulo show IMAGE

Shows what an image holds: whether the premise holds, the views with both sizes and who holds their keys, the servers and clients
that have something to tell, and the messages, each request with the chain of its taken answers, from the newest to the oldest.

IMAGE  an image, as `fresh`, `run` and `replay` write it; - is standard input
",
    flags: &[],
    run,
};

fn run(options: &Options) -> Result<(), Failure> {
    let [name] = options.files(["IMAGE"])?;
    let image = image(name)?;
    let holds = image
        .premise()
        .map_err(|refusal| Failure::refused(name, refusal))?;
    let parts = [
        head(&image, holds),
        table("views", &VIEWS, views(&image)),
        table("servers", &SERVERS, servers(&image)),
        table("clients", &CLIENTS, clients(&image)),
        table("messages", &MESSAGES, messages(&image)),
    ];
    files::say(parts.join("\n").trim_end())
}

fn head(image: &Image, holds: bool) -> String {
    let ending = match image.ending() {
        Some(number) => format!("view {} is being ended by END {number}", image.newest()),
        None => "no view is being ended".to_string(),
    };
    let premise = match holds {
        true => "the premise holds",
        false => "the premise does not hold",
    };
    let (newest, used) = (image.newest(), image.used());
    format!("newest view {newest}, {ending}\n{used} of 1023 messages used\n{premise}\n")
}

const VIEWS: [&str; 10] = [
    "view",
    "servers",
    "n",
    "f",
    "r",
    "read",
    "write",
    "keys held by",
    "faulty of these",
    "count",
];
const SERVERS: [&str; 5] = ["server", "view", "state", "keys", "entry"];
const CLIENTS: [&str; 6] = [
    "client",
    "phase",
    "request",
    "operation",
    "entry",
    "largest own count",
];
const MESSAGES: [&str; 7] = [
    "message", "kind", "from", "view", "answers", "entry", "taken",
];

/// The servers that hold the key of a view.
pub fn holders(image: &Image, view: u8) -> Numbers {
    let with_key = image
        .servers()
        .filter(|(_, server)| server.keys().contains(view));
    with_key.map(|(number, _)| number).collect()
}

fn faulty(image: &Image) -> Numbers {
    let faulty = image.servers().filter(|(_, server)| server.faulty());
    faulty.map(|(number, _)| number).collect()
}

/// One of the sizes of a view.
pub fn size(view: View, of: fn(Sizes) -> u32) -> String {
    view.sizes()
        .map_or("-".to_string(), |sizes| of(sizes).to_string())
}

fn views(image: &Image) -> Vec<[String; 10]> {
    let row = |(number, view): (u8, View)| {
        let keys = holders(image, number);
        let faulty = Numbers::from_bits(keys.bits() & faulty(image).bits());
        [
            number.to_string(),
            view.members().to_string(),
            view.members().len().to_string(),
            view.f().to_string(),
            view.r().to_string(),
            size(view, |sizes| sizes.read),
            size(view, |sizes| sizes.write),
            keys.to_string(),
            faulty.to_string(),
            image.faulty_holders(number).unwrap_or(0).to_string(),
        ]
    };
    image.views().map(row).collect()
}

/// What a server is: retired if its view is below the newest.
pub fn state(image: &Image, server: Server) -> &'static str {
    match (server.faulty(), server.view()) {
        (true, view) if view < image.newest() => "faulty, retired",
        (true, _) => "faulty",
        (false, 0) => "not started",
        (false, view) if view < image.newest() => "retired",
        (false, _) => "correct",
    }
}

fn servers(image: &Image) -> Vec<[String; 5]> {
    let members = image
        .views()
        .fold(0, |bits, (_, view)| bits | view.members().bits());
    let members = Numbers::from_bits(members);
    let told = |number: u8, server: Server| members.contains(number) || server.faulty();
    let row = |(number, server): (u8, Server)| {
        [
            number.to_string(),
            number_or_dash(server.view().into()),
            state(image, server).to_string(),
            server.keys().to_string(),
            entry(server.entry()),
        ]
    };
    let servers = image
        .servers()
        .filter(|(number, server)| told(*number, *server));
    servers.map(row).collect()
}

fn entry(entry: Entry) -> String {
    match entry.is_empty() {
        true => "empty".to_string(),
        false => entry.to_string(),
    }
}

fn number_or_dash(number: u16) -> String {
    match number {
        0 => "-".to_string(),
        number => number.to_string(),
    }
}

fn clients(image: &Image) -> Vec<[String; 6]> {
    let row = |(number, client): (u8, Client)| {
        let (phase, request) = match client.phase() {
            Phase::Idle => ("idle", 0),
            Phase::Reading(request) => ("reading", request),
            Phase::Writing(request) => ("writing", request),
        };
        let operation = match client.kind() {
            Some(Kind::Write) => "write",
            Some(Kind::Read) => "read",
            None => "-",
        };
        [
            number.to_string(),
            phase.to_string(),
            number_or_dash(request),
            operation.to_string(),
            entry(client.entry()),
            client.largest_count().to_string(),
        ]
    };
    let clients = image
        .clients()
        .filter(|(_, client)| *client != Client::default());
    clients.map(row).collect()
}

/// Who sent a message.
pub fn sender(message: Message) -> String {
    match message.kind() {
        Some(MessageKind::Read | MessageKind::Write) => format!("client {}", message.sender()),
        Some(MessageKind::Answer) => format!("server {}", message.sender()),
        _ => "administrator".to_string(),
    }
}

fn messages(image: &Image) -> Vec<[String; 7]> {
    let row = |(number, message): (u16, Message)| {
        let answer = message.kind() == Some(MessageKind::Answer);
        let carries = match message.kind() {
            Some(MessageKind::Read | MessageKind::End) => "-".to_string(),
            _ => entry(message.entry()),
        };
        let chain: Vec<String> = image.chain(number).map(|link| link.to_string()).collect();
        let taken = match (answer, message.taken()) {
            (true, true) => "yes".to_string(),
            (true, false) => "no".to_string(),
            (false, _) if chain.is_empty() => "-".to_string(),
            (false, _) => format!("chain {}", chain.join(" ")),
        };
        [
            number.to_string(),
            message.kind().map_or("-", |kind| kind.name()).to_string(),
            sender(message),
            number_or_dash(message.view().into()),
            number_or_dash(message.request()),
            carries,
            taken,
        ]
    };
    image.messages().map(row).collect()
}

/// Rows under their heads, each column as wide as its widest word.
fn table<const N: usize>(title: &str, heads: &[&str; N], rows: Vec<[String; N]>) -> String {
    if rows.is_empty() {
        return format!("{title}: none\n");
    }
    let heads = heads.map(str::to_string);
    let all = || std::iter::once(&heads).chain(&rows);
    let mut widths = [0; N];
    for row in all() {
        for (width, word) in widths.iter_mut().zip(row) {
            *width = (*width).max(word.len());
        }
    }
    let mut lines = format!("{title}\n");
    for row in all() {
        let words = row
            .iter()
            .zip(widths)
            .map(|(word, width)| format!("{word:<width$}"));
        let line = words.collect::<Vec<_>>().join("  ");
        lines += &format!("  {}\n", line.trim_end());
    }
    lines
}

//! A run told step by step.

use zemawulo::bytes::STEP;
use zemawulo::{Image, Message, MessageKind, Numbers, Refusal, Step};

use super::changes::changes;
use super::json;
use super::operations::Operations;
use super::MOST;
use crate::commands::show::holders;
use crate::failure::Failure;
use crate::records::{self, step_of, Next, Records};
use crate::text::{print, JOURNAL};

pub struct Story {
    world: String,
    fresh: String,
    steps: Vec<String>,
    operations: Operations,
    accepted: usize,
    stop: u8,
    broken: Option<(usize, String)>,
}

/// Runs an input, and notes what each step does.
pub fn tell(records: &mut Records, all: bool) -> Result<Story, Failure> {
    let world = records::world(records)?.map_err(|stop| stop.failure())?;
    let line = print(&JOURNAL, &world.to_bytes());
    let image = Image::fresh(world)
        .map_err(|refusal| Failure::refused(format!("the first record, {line}"), refusal))?;
    let mut teller = Teller {
        sent: Vec::new(),
        story: Story {
            world: line,
            fresh: changes(None, &image),
            steps: Vec::new(),
            operations: Operations::default(),
            accepted: 0,
            stop: 0,
            broken: None,
        },
        image,
    };
    loop {
        let refusal = match records.next()? {
            Next::End => break,
            Next::Cut(length) => {
                teller.refused(format!("{length} of {STEP} bytes"), Refusal::Length)
            }
            Next::Record(record) => teller.step(&record),
        };
        if refusal.is_some() && !all {
            break;
        }
        if teller.story.steps.len() > MOST {
            let what = format!("a page shows at most {MOST} steps, and there are more");
            return Err(Failure::Usage(what));
        }
    }
    Ok(teller.story)
}

/// The run so far: the image, and for each message the step that sent it and
/// whether it is a false answer.
struct Teller {
    image: Image,
    sent: Vec<(usize, bool)>,
    story: Story,
}

impl Teller {
    fn refused(&mut self, line: String, refusal: Refusal) -> Option<Refusal> {
        if self.story.stop == 0 {
            self.story.stop = refusal.number();
        }
        let premise = self.image.premise().unwrap_or(false);
        self.story.steps.push(json::object(&[
            ("text", json::string(&line)),
            ("refusal", refusal.number().to_string()),
            ("words", json::string(refusal.words())),
            ("premise", premise.to_string()),
        ]));
        Some(refusal)
    }

    fn step(&mut self, record: &[u8]) -> Option<Refusal> {
        let (line, step) = (print(&JOURNAL, record), step_of(record));
        let before = self.image.clone();
        let completed = match self.image.step(step) {
            Ok(completed) => completed,
            Err(refusal) => return self.refused(line, refusal),
        };
        let place = self.story.steps.len() + 1;
        self.story.accepted += 1;
        let lie = matches!(step, Step::FalseAnswer { .. });
        self.sent.resize(self.image.used().into(), (place, lie));
        self.story
            .operations
            .add(place, step, &self.image, completed);
        let premise = self.image.premise().unwrap_or(false);
        if !premise && self.story.broken.is_none() {
            self.story.broken = Some((place, why_broken(&self.image)));
        }
        self.story.steps.push(json::object(&[
            ("text", json::string(&line)),
            ("refusal", "0".to_string()),
            ("premise", premise.to_string()),
            ("completed", completed.unwrap_or(0).to_string()),
            ("arrow", self.arrow(step).unwrap_or("null".to_string())),
            ("changes", changes(Some(&before), &self.image)),
        ]));
        None
    }

    /// The message that a step brings to a lane, from where it was sent.
    fn arrow(&self, step: Step) -> Option<String> {
        let (number, to) = match step {
            Step::Deliver { server, message } => (message, format!("s{server}")),
            Step::Take { message } => {
                let request = self.image.message(message)?.request();
                (message, lane(self.image.message(request)?))
            }
            _ => return None,
        };
        let message = self.image.message(number)?;
        let (sent, lie) = *self.sent.get(usize::from(number).checked_sub(1)?)?;
        Some(json::object(&[
            ("message", number.to_string()),
            (
                "kind",
                json::string(message.kind().map_or("", MessageKind::name)),
            ),
            ("from", json::string(&lane(message))),
            ("at", sent.to_string()),
            ("to", json::string(&to)),
            ("lie", lie.to_string()),
        ]))
    }
}

/// The lane of a message's sender.
fn lane(message: Message) -> String {
    match message.kind() {
        Some(MessageKind::Read | MessageKind::Write) => format!("c{}", message.sender()),
        Some(MessageKind::Answer) => format!("s{}", message.sender()),
        _ => "a".to_string(),
    }
}

/// The views with more faulty servers that hold their key than their f.
fn why_broken(image: &Image) -> String {
    let views = image.views().filter_map(|(number, view)| {
        let holders = holders(image, number).iter();
        let faulty = holders.filter(|&s| image.server(s).is_some_and(|server| server.faulty()));
        let faulty: Numbers = faulty.collect();
        let (many, f) = (image.faulty_holders(number)?, view.f());
        (many > f).then(|| {
            format!("servers {faulty} are faulty and hold the key of view {number}, whose f is {f}")
        })
    });
    views.collect::<Vec<_>>().join("; ")
}

impl Story {
    pub fn json(&self, title: &str) -> String {
        let (broken, why) = self.broken.clone().unwrap_or_default();
        json::object(&[
            ("title", json::string(title)),
            ("world", json::string(&self.world)),
            ("fresh", self.fresh.clone()),
            ("steps", json::list(&self.steps)),
            ("operations", self.operations.json()),
            ("verdict", self.operations.verdict()),
            ("accepted", self.accepted.to_string()),
            ("stop", self.stop.to_string()),
            ("broken", broken.to_string()),
            ("why", json::string(&why)),
        ])
    }
}

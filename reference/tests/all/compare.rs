//! The comparison finds what differs: a library with one thing changed fails.

use reference::codec::{decode, encode};
use reference::compare::cases::{run_all, short_journals};
use reference::compare::check::Comparison;
use reference::compare::library::{Library, Reference};
use reference::compare::report::{is_good, report};
use reference::entry::Entry;
use reference::judge::{bytes, Line};
use reference::layout::{ADMINISTRATOR_SIZE, CLIENT_SIZE, IMAGE_SIZE, SERVER_SIZE};

type ChangeImage = dyn Fn(&mut [u8]);

/// The reference, with its answers and images passed through changes.
struct Changed {
    answer: Box<dyn Fn(u64) -> u64>,
    image: Box<ChangeImage>,
    /// What becomes of a single machine's record.
    record: Box<ChangeImage>,
    only_if_accepted: bool,
    /// How many steps a resume leaves out.
    steps: fn(u64) -> u64,
    /// The seed of a load.
    seed: fn(u32) -> u32,
    /// What becomes of an order that is shown, beside its answer.
    order: fn(u64, &mut [u8]),
    /// What becomes of the image and of the short journal, beside the answer.
    short: fn(u64, &mut [u8], &mut [u8]),
    /// What becomes of the step that a watched replay names.
    first: fn(u64, &mut [u8]),
    /// What becomes of the entry chosen, by the second choice or the first,
    /// beside the answer.
    entry: fn(bool, u64, &mut [u8]),
    /// The answer of one given to a phase, and what becomes of the record and of
    /// the entry.
    given: fn(u64, &mut [u8], &mut [u8]) -> u64,
    /// What becomes of a phase that is opened.
    opened: fn(&mut [u8]),
}

/// Nothing changed yet.
fn same() -> Changed {
    Changed {
        answer: Box::new(|answer| answer),
        image: Box::new(|_| {}),
        record: Box::new(|_| {}),
        only_if_accepted: true,
        steps: |steps| steps,
        seed: |seed| seed,
        order: |_, _| {},
        short: |_, _, _| {},
        first: |_, _| {},
        entry: |_, _, _| {},
        given: |answer, _, _| answer,
        opened: |_| {},
    }
}

impl Changed {
    fn change(&self, answer: u64, image: &mut [u8]) -> u64 {
        if !self.only_if_accepted || answer.is_multiple_of(256) {
            (self.image)(image);
        }
        (self.answer)(answer)
    }

    fn machine(&self, answer: u64, record: &mut [u8]) -> u64 {
        (self.record)(record);
        answer
    }
}

impl Library for Changed {
    fn fresh(&self, image: &mut [u8], members: u32, f: u8, r: u8) -> u64 {
        Reference.fresh(image, members, f, r)
    }

    fn quorum(&self, n: u32, f: u32, r: u32) -> u64 {
        Reference.quorum(n, f, r)
    }

    fn step(&self, image: &mut [u8], step: &[u8]) -> u64 {
        let answer = Reference.step(image, step);
        self.change(answer, image)
    }

    fn premise(&self, image: &[u8]) -> u64 {
        Reference.premise(image)
    }

    fn replay(&self, image: &mut [u8], journal: &[u8]) -> u64 {
        let answer = Reference.replay(image, journal);
        self.change(answer, image)
    }

    fn resume(&self, image: &mut [u8], journal: &[u8], steps: u64) -> u64 {
        let steps = (self.steps)(steps);
        Reference.resume(image, journal, steps)
    }

    fn load(&self, journal: &mut [u8], seed: u32, steps: u32) -> u64 {
        Reference.load(journal, (self.seed)(seed), steps)
    }

    fn judge(&self, log: &[u8], order: &mut [u8]) -> u64 {
        let answer = Reference.judge(log, order);
        (self.order)(answer, order);
        answer
    }

    fn shorten(
        &self,
        image: &mut [u8],
        members: u32,
        f: u8,
        r: u8,
        journal: &[u8],
        shorter: &mut [u8],
    ) -> u64 {
        let answer = Reference.shorten(image, members, f, r, journal, shorter);
        (self.short)(answer, image, shorter);
        answer
    }

    fn vouch(&self, answers: &[u8], n: u32, b: u32, entry: &mut [u8]) -> u64 {
        let answer = Reference.vouch(answers, n, b, entry);
        (self.entry)(false, answer, entry);
        answer
    }

    fn vouch_threshold(
        &self,
        answers: &[u8],
        n: u32,
        b: u32,
        largest: u32,
        entry: &mut [u8],
    ) -> u64 {
        let answer = Reference.vouch_threshold(answers, n, b, largest, entry);
        (self.entry)(true, answer, entry);
        answer
    }

    fn watch(&self, image: &mut [u8], journal: &[u8], first: &mut [u8]) -> u64 {
        let answer = Reference.watch(image, journal, first);
        (self.first)(answer, first);
        answer
    }

    fn server(&self, record: &mut [u8], asked: &[u8]) -> u64 {
        self.machine(Reference.server(record, asked), record)
    }

    fn client(&self, record: &mut [u8], asked: &[u8]) -> u64 {
        self.machine(Reference.client(record, asked), record)
    }

    fn administrator(&self, record: &mut [u8], asked: &[u8]) -> u64 {
        self.machine(Reference.administrator(record, asked), record)
    }

    fn open(&self, phase: &mut [u8], kind: u8, view: u8, request: u16) -> u64 {
        let answer = Reference.open(phase, kind, view, request);
        (self.opened)(phase);
        answer
    }

    fn answer(&self, phase: &mut [u8], given: &[u8], entry: &mut [u8]) -> u64 {
        let answer = Reference.answer(phase, given, entry);
        (self.given)(answer, phase, entry)
    }
}

/// The same for shortened journals alone, which take long.
fn shortens(library: &dyn Library) -> bool {
    let mut comparison = Comparison::new(library);
    short_journals(&mut comparison, 4, 1);
    comparison.failed == 0
}

fn passes(library: &dyn Library) -> bool {
    let mut comparison = Comparison::new(library);
    run_all(&mut comparison, 2000, 24, 1);
    comparison.failed == 0 && shortens(library)
}

#[test]
fn the_same_library_passes() {
    assert!(passes(&Reference));
    assert!(passes(&same()));
}

#[test]
fn another_refusal_fails() {
    for (from, to) in [
        (4, 5),
        (5, 7),
        (6, 7),
        (7, 6),
        (8, 3),
        (9, 5),
        (10, 7),
        (11, 10),
    ] {
        let swap = move |answer| {
            if answer % 256 == from {
                answer - from + to
            } else {
                answer
            }
        };
        let library = Changed {
            answer: Box::new(swap),
            ..same()
        };
        assert!(!passes(&library), "{from} instead of {to}");
    }
}

#[test]
fn another_result_fails() {
    let library = Changed {
        answer: Box::new(|answer| answer % 256),
        ..same()
    };
    assert!(!passes(&library));
}

#[test]
fn another_byte_after_an_accepted_step_fails() {
    let library = Changed {
        image: Box::new(|image| image[IMAGE_SIZE - 1] ^= 1),
        ..same()
    };
    assert!(!passes(&library));
}

#[test]
fn a_byte_written_beside_a_refusal_fails() {
    let library = Changed {
        image: Box::new(|image| {
            if let Some(byte) = image.last_mut() {
                *byte ^= 1;
            }
        }),
        only_if_accepted: false,
        ..same()
    };
    assert!(!passes(&library));
}

#[test]
fn another_byte_of_a_single_record_fails() {
    for (length, place) in [(SERVER_SIZE, 8), (CLIENT_SIZE, 4), (ADMINISTRATOR_SIZE, 2)] {
        let library = Changed {
            record: Box::new(move |record| {
                if record.len() == length {
                    record[place] ^= 1;
                }
            }),
            ..same()
        };
        assert!(!passes(&library), "a record of {length} bytes");
    }
}

#[test]
fn a_resume_from_elsewhere_fails() {
    let others: [fn(u64) -> u64; 3] = [
        |_| 0,
        |steps| steps.saturating_sub(1),
        |steps| steps.saturating_add(1),
    ];
    for steps in others {
        assert!(!passes(&Changed { steps, ..same() }));
    }
}

#[test]
fn a_load_of_another_seed_fails() {
    let others: [fn(u32) -> u32; 2] = [|seed| seed ^ 1, |seed| if seed == 0 { 2 } else { seed }];
    for seed in others {
        assert!(!passes(&Changed { seed, ..same() }));
    }
}

#[test]
fn another_order_fails_unless_it_is_one() {
    let others: [fn(u64, &mut [u8]); 4] = [
        // The last operation first, the last one again, no zero after, and a
        // byte beside a refusal.
        |answer, order| {
            if answer % 256 == 0 {
                order.rotate_right(order.len().min(2));
            }
        },
        |answer, order| {
            if answer >= 512 {
                order[0] = order[2];
            }
        },
        |answer, order| {
            let count = (answer / 256) as usize;
            if 2 * count < order.len() {
                order[2 * count] = 1;
            }
        },
        |answer, order| {
            if answer % 256 != 0 && !order.is_empty() {
                order[0] ^= 1;
            }
        },
    ];
    for order in others {
        assert!(!passes(&Changed { order, ..same() }));
    }
    // Two reads that are open to either order may be shown in either.
    let reads = [
        Line::read(1, 3, Entry::EMPTY),
        Line::read(2, 4, Entry::EMPTY),
    ];
    let swapped = Changed {
        order: |_, order| order.copy_from_slice(&[2, 0, 1, 0]),
        ..same()
    };
    let mut comparison = Comparison::new(&swapped);
    comparison.judge(&bytes(&reads), 4);
    assert_eq!((comparison.passed, comparison.failed), (1, 0));
}

#[test]
fn another_short_journal_fails() {
    let others: [fn(u64, &mut [u8], &mut [u8]); 4] = [
        // A step changed, a byte after the steps, the image, and the buffer
        // beside 15.
        |answer, _, short| {
            if answer % 256 == 0 {
                short[0] ^= 1;
            }
        },
        |answer, _, short| {
            let end = (answer / 256) as usize * 12;
            if answer % 256 == 0 && end < short.len() {
                short[end] = 1;
            }
        },
        |answer, image, _| {
            if answer % 256 == 15 {
                image.fill(0);
            }
        },
        |answer, _, short| {
            if answer % 256 == 15 {
                short.fill(0);
            }
        },
    ];
    for short in others {
        assert!(!shortens(&Changed { short, ..same() }));
    }
}

#[test]
fn another_entry_chosen_fails() {
    let others: [fn(bool, u64, &mut [u8]); 3] = [
        |second, answer, entry| {
            if !second && answer == 0 {
                entry[8] ^= 1;
            }
        },
        |second, answer, entry| {
            if second && answer == 0 {
                entry[0] ^= 1;
            }
        },
        |_, answer, entry| {
            if answer == 16 {
                entry[0] ^= 1;
            }
        },
    ];
    for entry in others {
        assert!(!passes(&Changed { entry, ..same() }));
    }
}

#[test]
fn another_phase_fails() {
    let others: [fn(u64, &mut [u8], &mut [u8]) -> u64; 5] = [
        // A read may never end, a closed phase stays open, a server is not heard,
        // another entry, and a byte beside a refusal.
        |answer, _, _| answer.min(256),
        |answer, phase, _| {
            if answer == 256 || answer == 512 {
                phase[0] = 1;
            }
            answer
        },
        |answer, phase, _| {
            if answer == 0 {
                phase[4] &= 0xfe;
            }
            answer
        },
        |answer, _, entry| {
            if answer == 256 {
                entry[8] ^= 1;
            }
            answer
        },
        |answer, _, entry| {
            if answer % 256 == 7 {
                entry[0] ^= 1;
            }
            answer
        },
    ];
    for given in others {
        assert!(!passes(&Changed { given, ..same() }));
    }
    let opened: fn(&mut [u8]) = |phase| {
        if let Some(last) = phase.last_mut() {
            *last ^= 1;
        }
    };
    assert!(!passes(&Changed { opened, ..same() }));
}

#[test]
fn another_step_named_fails() {
    let others: [fn(u64, &mut [u8]); 3] = [
        |_, first| first.fill(0),
        |_, first| {
            if let [low, ..] = first {
                *low = low.saturating_sub(1);
            }
        },
        // Not beside a stop.
        |answer, first| {
            if answer % 256 > 2 {
                first.fill(0);
            }
        },
    ];
    for first in others {
        assert!(!passes(&Changed { first, ..same() }));
    }
}

#[test]
fn a_rule_changed_in_one_place_fails() {
    // A server that performs END keeps its key.
    let library = Changed {
        image: Box::new(|image| {
            let image: &mut [u8; IMAGE_SIZE] = image.try_into().unwrap();
            let mut world = decode(image);
            for server in &mut world.servers {
                if server.faulty == 0 && server.view != 0 && server.keys == 0 {
                    server.keys = 1 << (server.view - 1);
                }
            }
            encode(&world, image);
        }),
        ..same()
    };
    assert!(!passes(&library));
}

#[test]
fn the_report_ends_with_the_score() {
    let mut comparison = Comparison::new(&Reference);
    run_all(&mut comparison, 500, 8, 1);
    let text = report(&comparison);
    let last = text.lines().last().unwrap();
    let rare = comparison
        .counts
        .rare(reference::compare::report::LEAST)
        .len();
    assert_eq!(last, format!("{} passed, {rare} failed", comparison.passed));
    // Too few cases meet too few refusals, and that counts as failed.
    assert!(rare > 0 && !is_good(&comparison));
}

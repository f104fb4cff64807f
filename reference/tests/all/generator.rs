//! The generator: the same seed gives the same journal, and together the cases
//! reach every refusal by every path and every kind of close.

use std::collections::BTreeSet;

use reference::compare::cases::{run_all, short_journals, JOURNALS, STEPS};
use reference::compare::check::Comparison;
use reference::compare::counts::{Around, Counts, Operation};
use reference::compare::library::Reference;
use reference::compare::report::{is_good, LEAST};
use reference::compare::restarts::{LONGEST, LONGEST_MIXED};
use reference::generate::journals::journal;
use reference::generate::profile::{FULL, PROFILES, RUSH, STORM, WRECK};
use reference::history::operations::{run, stamps_differ};
use reference::layout::{IMAGE_SIZE, STEP_SIZE};
use reference::operations;
use reference::premise::premise;
use reference::readable::{readable, Clause};
use reference::record::{Field, FIELDS};
use reference::refusal::{Flaw, Reason};
use reference::rules::Sound;
use reference::step::{Close, Deed, Differ};
use reference::world::message_kind;

#[test]
fn a_seed_gives_one_journal() {
    for profile in PROFILES {
        assert_eq!(journal::<Sound>(7, profile), journal::<Sound>(7, profile));
        assert_ne!(journal::<Sound>(7, profile), journal::<Sound>(8, profile));
    }
}

#[test]
fn journals_end_in_readable_worlds() {
    for profile in PROFILES {
        for seed in 0..10 {
            let run = run::<Sound>(&journal::<Sound>(seed, profile));
            assert!(readable(&run.world), "{} {seed}", profile.name);
        }
    }
}

#[test]
fn a_replay_does_what_single_steps_do() {
    for profile in PROFILES {
        for seed in 0..3 {
            let mut drawn = journal::<Sound>(seed, profile);
            drawn.steps.retain(|step| step.len() == STEP_SIZE);
            let mut one = vec![0; IMAGE_SIZE];
            operations::fresh(&mut one, drawn.members, drawn.f, drawn.r).unwrap();
            let mut other = one.clone();
            let replayed = operations::replay(&mut one, &drawn.bytes());
            let accepted = drawn
                .steps
                .iter()
                .take_while(|step| operations::step(&mut other, step).is_ok())
                .count();
            assert_eq!(replayed.done, accepted, "{} {seed}", profile.name);
            assert!(one == other, "{} {seed}", profile.name);
        }
    }
}

/// No two writes of a run have one stamp, whether or not the premise holds.
#[test]
fn a_stamp_is_never_given_again() {
    for profile in PROFILES {
        let mut unfinished = 0;
        for seed in 0..60 {
            let operations = run::<Sound>(&journal::<Sound>(seed, profile)).operations;
            assert!(stamps_differ(&operations), "{} {seed}", profile.name);
            let open = operations.iter().filter(|operation| {
                operation.client == 1 && !operation.is_completed() && operation.entry.is_some()
            });
            unfinished += u32::from(open.count() > 1);
        }
        assert!(unfinished > 5 || profile.name != "restarts", "{unfinished}");
    }
}

/// Every WRITE of a run; equal stamps of them must go with equal entries.
#[test]
fn within_the_premise_a_stamp_is_given_one_time() {
    for seed in 0..300 {
        let world = run::<Sound>(&journal::<Sound>(seed, &STORM)).world;
        let mut entries: Vec<_> = world
            .messages
            .iter()
            .filter(|message| message.kind == message_kind::WRITE)
            .map(|message| message.entry)
            .collect();
        entries.sort_by_key(|entry| entry.stamp());
        for pair in entries.windows(2) {
            assert!(pair[0].stamp() != pair[1].stamp() || pair[0] == pair[1]);
        }
    }
}

#[test]
fn profiles_do_what_they_are_for() {
    let full = (0..20)
        .filter(|seed| {
            run::<Sound>(&journal::<Sound>(*seed, &FULL))
                .world
                .header
                .used
                == 1023
        })
        .count();
    assert!(full >= 15, "{full} of 20 use every message number");
    let last = (0..40)
        .filter(|seed| {
            run::<Sound>(&journal::<Sound>(*seed, &RUSH))
                .world
                .header
                .newest
                == 32
        })
        .count();
    assert!(last >= 1, "{last} of 40 reach the last view");
    for seed in 0..100 {
        let within = run::<Sound>(&journal::<Sound>(seed, &STORM)).world;
        assert!(premise::<Sound>(&within));
    }
    let beyond = (0..100)
        .filter(|seed| !premise::<Sound>(&run::<Sound>(&journal::<Sound>(*seed, &WRECK)).world))
        .count();
    assert!(beyond >= 50, "{beyond} of 100 go beyond the premise");
}

/// The fields that a step of this operation uses, with whether they have a
/// bounded range.
fn used_fields(operation: Operation) -> &'static [(Field, bool)] {
    use Field::{Message, Source, Value, View, Who, F};
    match operation {
        Operation::Write => &[(Who, true), (Value, false)],
        Operation::Read | Operation::Fault | Operation::GiveUp => &[(Who, true)],
        Operation::Deliver => &[(Who, true), (Message, true)],
        Operation::Take => &[(Message, true)],
        Operation::FalseAnswer => &[(Who, true), (View, true), (Message, true), (Source, true)],
        Operation::NewView | Operation::Restart => &[(Who, false), (F, false), (Value, false)],
        _ => &[],
    }
}

/// The refusals that a step of this operation can meet by its own rule.
fn own_refusals(operation: Operation) -> Vec<Reason> {
    use Reason::*;
    match operation {
        Operation::Write | Operation::Read => vec![ClientBusy, NoNumber],
        Operation::Deliver => vec![
            NoSuchMessage,
            AnswerDelivered,
            ServerFaulty,
            NoViewYet,
            KeyGivenUp,
            EndOfOtherView,
            NotAMember,
            ViewNotBelow,
            KeyHeldAlready,
            NoNumber,
        ],
        Operation::Take => vec![
            NoSuchMessage,
            NotAnAnswer,
            TakenBefore,
            NobodyWaits,
            CountTooLarge,
            OwnCountTooLarge,
            NoNumberToClose(Close::ReadOfWrite),
            NoNumberToClose(Close::ReadOfRead),
            NoNumberToClose(Close::End),
        ],
        Operation::Fault => vec![FaultyAlready],
        Operation::FalseAnswer => vec![
            NoSuchMessage,
            NotARequest,
            NoSuchSource,
            SourceNotWrite,
            ServerCorrect,
            LacksKey,
            NoNumber,
        ],
        Operation::GiveUp => vec![ClientIdle],
        Operation::Restart => vec![
            Unused(Field::Who),
            Unused(Field::F),
            NothingEnding,
            SizeRule,
            ReadSize,
        ],
        Operation::NewView => vec![EndingAlready, SizeRule, ReadSize, LastView, NoNumber],
        _ => vec![],
    }
}

/// The refusals of single machines.
fn single_paths() -> Vec<(Operation, Reason)> {
    use Reason::*;
    let machines: [(Operation, &[Reason]); 3] = [
        (
            Operation::Server,
            &[
                AnswerDelivered,
                ServerFaulty,
                NoViewYet,
                KeyGivenUp,
                EndOfOtherView,
                NotAMember,
                ViewNotBelow,
                KeyHeldAlready,
                NotARequest,
                SourceNotWrite,
                ServerCorrect,
                LacksKey,
            ],
        ),
        (
            Operation::Client,
            &[
                ClientBusy,
                NothingOpen,
                CountTooLarge,
                OwnCountTooLarge,
                ClientIdle,
            ],
        ),
        (
            Operation::Administrator,
            &[EndingAlready, SizeRule, ReadSize, LastView, NothingEnding],
        ),
    ];
    machines
        .into_iter()
        .flat_map(|(operation, own)| {
            let shared = [RecordLength, RecordRange, CallRange];
            let all = shared.into_iter().chain(own.iter().copied());
            all.map(move |reason| (operation, reason))
        })
        .collect()
}

/// The refusals of both choices from a list of answers.
fn list_paths() -> Vec<(Operation, Reason)> {
    use Flaw::*;
    let flaws = [
        Servers,
        Spare,
        Writer,
        ServerRange,
        ServerTwice,
        TooFewAnswers,
    ];
    let shared: Vec<Reason> = [
        Reason::AnswersLength,
        Reason::EntryLength,
        Reason::NotVouched,
    ]
    .into_iter()
    .chain(flaws.map(Reason::Malformed))
    .collect();
    let second = (Operation::VouchThreshold, Reason::Malformed(Flaw::LargestB));
    [Operation::Vouch, Operation::VouchThreshold]
        .into_iter()
        .flat_map(|operation| shared.iter().map(move |reason| (operation, *reason)))
        .chain([second])
        .collect()
}

/// The refusals of a log.
fn log_paths() -> Vec<(Operation, Reason)> {
    use Flaw::*;
    let flaws = [
        TooManyLines,
        Begin,
        Kind,
        Spare,
        Writer,
        EndNotAfter,
        NumberTwice,
        CountZero,
        StampTwice,
    ];
    [Reason::LogLength, Reason::OrderLength, Reason::NoOrder]
        .into_iter()
        .chain(flaws.map(Reason::Malformed))
        .map(|reason| (Operation::Judge, reason))
        .collect()
}

/// The refusals of the record of a phase.
fn phase_paths() -> Vec<(Operation, Reason)> {
    use Reason::*;
    let opens = [RecordLength, CallRange].map(|reason| (Operation::Open, reason));
    let given = [
        RecordLength,
        EntryLength,
        RecordRange,
        CallRange,
        NotAnAnswer,
        TakenBefore,
        NobodyWaits,
        SizeRule,
        ReadSize,
    ];
    let given = given.map(|reason| (Operation::Answer, reason));
    opens.into_iter().chain(given).collect()
}

/// Every path to a refusal that exists.
fn every_path() -> BTreeSet<(Operation, Reason)> {
    let mut paths = BTreeSet::from([
        (Operation::Fresh, Reason::ImageLength),
        (Operation::Fresh, Reason::SizeRule),
        (Operation::Fresh, Reason::ReadSize),
        (Operation::Quorum, Reason::SizeRule),
        (Operation::Quorum, Reason::ReadSize),
        (Operation::OtherKind, Reason::ImageLength),
        (Operation::OtherKind, Reason::StepLength),
        (Operation::OtherKind, Reason::Unreadable),
        (Operation::OtherKind, Reason::UnknownKind),
        (Operation::Premise, Reason::ImageLength),
        (Operation::Premise, Reason::Unreadable),
        (Operation::Replay, Reason::ImageLength),
        (Operation::Replay, Reason::JournalLength),
        (Operation::Replay, Reason::Unreadable),
        (Operation::Replay, Reason::UnknownKind),
        (Operation::Load, Reason::JournalLength),
        (Operation::Watch, Reason::ImageLength),
        (Operation::Watch, Reason::JournalLength),
        (Operation::Watch, Reason::FirstLength),
        (Operation::Watch, Reason::Unreadable),
        (Operation::Watch, Reason::UnknownKind),
        (Operation::Shorten, Reason::ImageLength),
        (Operation::Shorten, Reason::JournalLength),
        (Operation::Shorten, Reason::TooManySteps),
        (Operation::Shorten, Reason::ShorterLength),
        (Operation::Shorten, Reason::SizeRule),
        (Operation::Shorten, Reason::ReadSize),
        (Operation::Shorten, Reason::NoStop),
        (Operation::Resume, Reason::ImageLength),
        (Operation::Resume, Reason::JournalLength),
        (Operation::Resume, Reason::Unreadable),
        (Operation::Resume, Reason::UnknownKind),
    ]);
    paths.extend(single_paths());
    paths.extend(log_paths());
    paths.extend(list_paths());
    paths.extend(phase_paths());
    let steps = [
        Operation::Write,
        Operation::Read,
        Operation::Deliver,
        Operation::Take,
        Operation::Fault,
        Operation::FalseAnswer,
        Operation::NewView,
        Operation::GiveUp,
        Operation::Restart,
    ];
    for operation in steps {
        for reason in [Reason::ImageLength, Reason::StepLength, Reason::Unreadable] {
            paths.insert((operation, reason));
        }
        let used = used_fields(operation);
        for field in FIELDS {
            match used.iter().find(|(name, _)| *name == field) {
                None => paths.insert((operation, Reason::Unused(field))),
                Some((_, true)) => paths.insert((operation, Reason::OutOfRange(field))),
                Some((_, false)) => false,
            };
        }
        for reason in own_refusals(operation) {
            paths.insert((operation, reason));
        }
    }
    paths
}

/// Everything an accepted step can do.
fn every_deed() -> BTreeSet<Deed> {
    let waits = [
        Close::ReadOfWrite,
        Close::ReadOfRead,
        Close::WriteOfWrite,
        Close::WriteOfRead,
        Close::End,
    ];
    let mut deeds = BTreeSet::from([
        Deed::Began,
        Deed::Answered(1),
        Deed::Answered(2),
        Deed::Answered(3),
        Deed::Started,
        Deed::KeyAdded,
        Deed::CountsForNothing,
        Deed::Faulted,
        Deed::Lied,
        Deed::Ending,
        Deed::GaveUp,
        Deed::Restarted { renewed: false },
        Deed::Restarted { renewed: true },
    ]);
    deeds.extend(waits.map(Deed::Closed));
    deeds.extend(waits.map(Deed::LeftOpen));
    // When the READ phase of a read closes, it is said how.
    deeds.remove(&Deed::Closed(Close::ReadOfRead));
    deeds.extend([
        Deed::OneExchange,
        Deed::WroteBackOne,
        Deed::WroteBack(Differ::Stamp),
        Deed::WroteBack(Differ::Value),
    ]);
    deeds
}

/// Restarts at every length of the chain, with a new pending view and without,
/// followed by takes again and by late answers; each of their refusals, in the
/// world and of the administrator alone.
fn restarts_are_met(counts: &Counts) {
    let lengths = [
        (Around::Restarted, 0..=LONGEST),
        (Around::TakenAgain, 1..=LONGEST),
        (Around::ForNothing, 1..=LONGEST_MIXED),
        // Late answers: END stays open, closes, or finds no number for START.
        (Around::Late, 0..=30),
        (Around::Closed, 0..=LONGEST - 2),
        (Around::NoNumber, LONGEST - 1..=LONGEST - 1),
        // Once END has closed.
        (Around::TooLate, 0..=LONGEST - 3),
        (Around::RefusedAfter, 0..=LONGEST - 2),
    ];
    for (around, lengths) in lengths {
        for (length, renewed) in lengths.flat_map(|length| [(length, false), (length, true)]) {
            let met = counts.around.contains_key(&(around, renewed, length));
            assert!(met, "never met: {around:?} {renewed} {length}");
        }
    }
    for reason in own_refusals(Operation::Restart) {
        let met = counts.refused[&(Operation::Restart, reason)];
        assert!(met >= LEAST, "{reason:?} {met} times");
    }
    for number in [0, 1, 3, 7, 8] {
        let met = counts.rules.get(&(Operation::Administrator, 9, number));
        assert!(met.is_some_and(|met| *met >= LEAST), "{number} {met:?}");
    }
}

#[test]
fn the_cases_reach_every_refusal_by_every_path_and_every_close() {
    let mut comparison = Comparison::new(&Reference);
    run_all(&mut comparison, STEPS, JOURNALS, 1);
    short_journals(&mut comparison, 40, 1);
    let counts = &comparison.counts;
    assert!(is_good(&comparison), "{:?}", comparison.told);
    assert!(counts.rare(LEAST).is_empty());
    for path in every_path() {
        assert!(counts.refused.contains_key(&path), "never met: {path:?}");
    }
    // A replay may stop with whatever a step can meet.
    let replays = [Operation::Replay, Operation::Resume, Operation::Watch];
    for path in counts.refused.keys() {
        let known = replays.contains(&path.0) || every_path().contains(path);
        assert!(known, "not thought of: {path:?}");
    }
    let deeds: BTreeSet<Deed> = counts.deeds.keys().copied().collect();
    assert_eq!(deeds, every_deed());
    // A phase of each kind stays open and closes; only of READ a read may end.
    let given: Vec<(u8, u64)> = counts.given.keys().copied().collect();
    assert_eq!(
        given,
        [(1, 0), (1, 1), (1, 2), (2, 0), (2, 1), (3, 0), (3, 1)]
    );
    // The premise breaks by faults and by STARTs, and by nothing else.
    let broke: Vec<_> = counts.broke.iter().collect();
    assert!(
        matches!(broke[..], [(Operation::Deliver, a), (Operation::Fault, b)] if *a >= LEAST && *b >= LEAST),
        "{broke:?}"
    );
    // Both choices, and each of their refusals, are met often.
    for path in list_paths() {
        assert!(counts.refused[&path] >= LEAST, "{path:?}");
    }
    for operation in [Operation::Vouch, Operation::VouchThreshold] {
        assert!(counts.accepted[&operation] >= LEAST);
    }
    for (deed, count) in &counts.deeds {
        assert!(*count >= 20, "{deed:?} {count} times");
    }
    restarts_are_met(counts);
    for clause in Clause::ALL {
        assert!(
            counts.clauses.contains_key(clause),
            "{clause:?} never refused alone"
        );
    }
    assert!(comparison.steps >= STEPS as u64 && comparison.journals >= JOURNALS as u64);
}

//! The wrong ideas that look sound are found out, by hand and by chance.

use reference::history::ideas::{
    faulty_server_answers_often, old_quorum_turns_faulty, one_of_each_view,
    retired_server_starts_again, second_reader_asks_another, second_reader_sees_less,
    stamp_given_again, Idea, IDEAS, LIMIT,
};
use reference::history::verdict::examine;
use reference::premise::premise;
use reference::rules::{
    AddsUpViews, CountsAnswers, EndsReadsEarly, ForgetsLeftViews, ForgetsOwnCount, Rules,
    SkipsWriteBack, Sound, StartReturnsKey,
};

#[test]
fn there_are_seven() {
    let names: Vec<&str> = IDEAS.iter().map(|idea| idea.name).collect();
    assert_eq!(names.len(), 7);
}

#[test]
fn journals_by_hand_show_each_wrong() {
    for idea in &IDEAS {
        let verdict = (idea.examine)(&(idea.by_hand)());
        assert!(verdict.premise, "{}", idea.name);
        assert!(!verdict.order, "{}", idea.name);
        assert!(!verdict.is_at_odds(), "{}", idea.name);
    }
}

#[test]
fn under_the_rules_the_same_journals_do_no_harm() {
    for idea in &IDEAS {
        assert!(
            !examine::<Sound>(&(idea.by_hand)()).is_violation(),
            "{}",
            idea.name
        );
    }
}

#[test]
fn the_example_of_document_01_is_a_stale_read() {
    // The steps are those of the rules; only the premise differs.
    let journal = old_quorum_turns_faulty();
    let sound = examine::<Sound>(&journal);
    assert!(!sound.premise && !sound.order);
    let wrong = examine::<ForgetsLeftViews>(&journal);
    assert!(wrong.premise && !wrong.order);
    assert_eq!(sound.operations, wrong.operations);
    let world = reference::history::operations::run::<Sound>(&journal).world;
    assert!(!premise::<Sound>(&world) && premise::<ForgetsLeftViews>(&world));
}

fn violates<R: Rules>(journal: &reference::journal::Journal) -> bool {
    examine::<R>(journal).is_violation()
}

#[test]
fn each_flag_alone_does_it() {
    assert!(violates::<CountsAnswers>(&faulty_server_answers_often()));
    assert!(violates::<AddsUpViews>(&one_of_each_view()));
    assert!(violates::<StartReturnsKey>(&retired_server_starts_again()));
    assert!(violates::<SkipsWriteBack>(&second_reader_sees_less()));
    assert!(violates::<ForgetsOwnCount>(&stamp_given_again()));
    assert!(violates::<EndsReadsEarly>(&second_reader_asks_another()));
    // Another flag does not.
    assert!(!violates::<AddsUpViews>(&faulty_server_answers_often()));
    assert!(!violates::<CountsAnswers>(&one_of_each_view()));
    assert!(!violates::<SkipsWriteBack>(&retired_server_starts_again()));
    assert!(!violates::<StartReturnsKey>(&second_reader_sees_less()));
}

#[test]
fn a_stamp_given_again_is_seen_as_such() {
    let journal = stamp_given_again();
    assert!(!examine::<ForgetsOwnCount>(&journal).never_again);
    assert!(examine::<Sound>(&journal).never_again);
}

fn hunt(idea: &Idea) {
    let run = idea.hunt(0, LIMIT);
    assert!(
        run.is_some(),
        "{} was not found in {LIMIT} journals",
        idea.name
    );
}

#[test]
fn drawn_journals_show_each_wrong() {
    IDEAS.iter().for_each(hunt);
}

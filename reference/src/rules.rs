//! The rules, and the wrong ideas that can be switched on in their place.
//!
//! Each wrong idea is one flag. The flags are constants of a type, so the sound
//! rules carry no trace of them once compiled.

/// What a step and the premise ask of the rules in force.
pub trait Rules {
    /// A phase closes on q(t) answers, not on answers of q(t) servers.
    const COUNTS_ANSWERS: bool = false;
    /// A client's phase adds up the answers of different views.
    const ADDS_UP_VIEWS: bool = false;
    /// A START that comes again gives back the key that was given up.
    const START_RETURNS_KEY: bool = false;
    /// A read ends with its READ phase, whatever its answers carry.
    const SKIPS_WRITE_BACK: bool = false;
    /// A read whose answers carry one entry ends with its READ phase, also where
    /// the read size is below the write size.
    const ENDS_READS_EARLY: bool = false;
    /// A write's count is one above the count read, whatever its client gave
    /// before.
    const FORGETS_OWN_COUNT: bool = false;
    /// The premise stops counting faults in a view once a quorum has left it.
    const FORGETS_LEFT_VIEWS: bool = false;
}

/// The rules, with no wrong idea in their place.
pub struct Sound;
impl Rules for Sound {}

pub struct CountsAnswers;
impl Rules for CountsAnswers {
    const COUNTS_ANSWERS: bool = true;
}

pub struct AddsUpViews;
impl Rules for AddsUpViews {
    const ADDS_UP_VIEWS: bool = true;
}

pub struct StartReturnsKey;
impl Rules for StartReturnsKey {
    const START_RETURNS_KEY: bool = true;
}

pub struct SkipsWriteBack;
impl Rules for SkipsWriteBack {
    const SKIPS_WRITE_BACK: bool = true;
}

pub struct EndsReadsEarly;
impl Rules for EndsReadsEarly {
    const ENDS_READS_EARLY: bool = true;
}

pub struct ForgetsOwnCount;
impl Rules for ForgetsOwnCount {
    const FORGETS_OWN_COUNT: bool = true;
}

pub struct ForgetsLeftViews;
impl Rules for ForgetsLeftViews {
    const FORGETS_LEFT_VIEWS: bool = true;
}

//! Why a call is refused, and the number that the rules give it.
//!
//! The rules give one number to several situations. A reason is finer: it says
//! by which path the number came about, so that tests can count the paths.

use crate::record::Field;
use crate::step::Close;

#[derive(Clone, Copy, Debug, PartialEq, Eq, Hash, PartialOrd, Ord)]
pub enum Reason {
    /// 1: the image is not 21,744 bytes long.
    ImageLength,
    /// 1: a step is not 12 bytes long.
    StepLength,
    /// 1: a journal is not a multiple of 12 bytes long.
    JournalLength,
    /// 1: a machine's record, or what is asked of it, is not as long as it is.
    RecordLength,
    /// 1: a log is not made of whole lines.
    LogLength,
    /// 1: an order's buffer has not the length of the log's.
    OrderLength,
    /// 1: a journal to be shortened has over 512 steps.
    TooManySteps,
    /// 1: the short journal's buffer is not as long as the journal.
    ShorterLength,
    /// 1: the number of a step has not eight bytes.
    FirstLength,
    /// 1: a list is not made of whole answers.
    AnswersLength,
    /// 1: the buffer for an entry is not as long as one.
    EntryLength,
    /// 2: no world has this image.
    Unreadable,
    /// 3: no step has this kind.
    UnknownKind,
    /// 3: a field that the kind uses is outside its range.
    OutOfRange(Field),
    /// 3: a field that the kind does not use is set.
    Unused(Field),
    /// 3: a machine's record is out of range.
    RecordRange,
    /// 3: what is asked of a machine is out of range.
    CallRange,
    /// 4: the client has an operation open.
    ClientBusy,
    /// 4: the newest view is being ended already.
    EndingAlready,
    /// 5: the message number is not used.
    NoSuchMessage,
    /// 5: an answer is delivered to nobody.
    AnswerDelivered,
    /// 5: the message taken is not an answer.
    NotAnAnswer,
    /// 5: a false answer is to a START or to an answer.
    NotARequest,
    /// 5: the source's number is not used.
    NoSuchSource,
    /// 5: the source is not a WRITE.
    SourceNotWrite,
    /// 6: a faulty server performs no request of kind 1 to 3.
    ServerFaulty,
    /// 6: the server that is to turn faulty is faulty.
    FaultyAlready,
    /// 6: a correct server gives no false answer.
    ServerCorrect,
    /// 7: the server is in no view yet.
    NoViewYet,
    /// 7: the server has given the key of its view up.
    KeyGivenUp,
    /// 7: the END is that of another view.
    EndOfOtherView,
    /// 7: the START is for others.
    NotAMember,
    /// 7: the server's view is not below that of the START.
    ViewNotBelow,
    /// 7: the faulty server has the key of the START.
    KeyHeldAlready,
    /// 7: the answer was taken before.
    TakenBefore,
    /// 7: nobody waits for answers to its request.
    NobodyWaits,
    /// 7: the client has no open phase to close.
    NothingOpen,
    /// 7: the administrator ends no view.
    NothingEnding,
    /// 8: too few servers for that many faults.
    SizeRule,
    /// 8: the read size is outside its bounds.
    ReadSize,
    /// 8: view 32 is the last.
    LastView,
    /// 9: the faulty server lacks the key of the view it would show.
    LacksKey,
    /// 10: all message numbers are used.
    NoNumber,
    /// 10: the close must send and all message numbers are used.
    NoNumberToClose(Close),
    /// 11: the closing write would need a count over 4,294,967,295, above the
    /// count read.
    CountTooLarge,
    /// 11: it would need one above the largest that its client gave, though not
    /// above the count read.
    OwnCountTooLarge,
    /// 12: the client has no operation to give up.
    ClientIdle,
    /// 13: the log's operations have no order.
    NoOrder,
    /// 14: what is lent is no log, or no list of answers.
    Malformed(Flaw),
    /// 15: the journal to be shortened stops on no refusal.
    NoStop,
    /// 16: no entry qualifies.
    NotVouched,
}

/// What makes a log or a list of answers malformed.
#[derive(Clone, Copy, Debug, PartialEq, Eq, Hash, PartialOrd, Ord)]
pub enum Flaw {
    /// It has over 256 lines.
    TooManyLines,
    /// A begin number is 0.
    Begin,
    /// A kind is neither write nor read.
    Kind,
    /// A spare byte is not zero.
    Spare,
    /// A writer is over 16.
    Writer,
    /// An end is not after its begin.
    EndNotAfter,
    /// A begin or end number is used twice.
    NumberTwice,
    /// A write has count 0.
    CountZero,
    /// Two writes have one stamp.
    StampTwice,
    /// There are over 32 servers, or fewer than 4b+1.
    Servers,
    /// The largest b is under b or over (n-1)/4.
    LargestB,
    /// A server is not in 1 to n.
    ServerRange,
    /// A server answers twice.
    ServerTwice,
    /// There are too few answers.
    TooFewAnswers,
}

impl Reason {
    /// The number that the rules give to this reason.
    pub fn number(self) -> u8 {
        use Reason::*;
        match self {
            ImageLength | StepLength | JournalLength | RecordLength | LogLength | OrderLength
            | TooManySteps | ShorterLength | FirstLength | AnswersLength | EntryLength => 1,
            Unreadable => 2,
            UnknownKind | OutOfRange(_) | Unused(_) | RecordRange | CallRange => 3,
            ClientBusy | EndingAlready => 4,
            NoSuchMessage | AnswerDelivered | NotAnAnswer | NotARequest | NoSuchSource
            | SourceNotWrite => 5,
            ServerFaulty | FaultyAlready | ServerCorrect => 6,
            NoViewYet | KeyGivenUp | EndOfOtherView | NotAMember | ViewNotBelow
            | KeyHeldAlready | TakenBefore | NobodyWaits | NothingOpen | NothingEnding => 7,
            SizeRule | ReadSize | LastView => 8,
            LacksKey => 9,
            NoNumber | NoNumberToClose(_) => 10,
            CountTooLarge | OwnCountTooLarge => 11,
            ClientIdle => 12,
            NoOrder => 13,
            Malformed(_) => 14,
            NoStop => 15,
            NotVouched => 16,
        }
    }
}

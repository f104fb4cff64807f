//! The rules of the administrator: what a new view, a restart and the close of
//! its END make of the header.

use crate::layout::LAST_VIEW;
use crate::refusal::Reason;
use crate::world::{Header, View};

/// The next view is called, with an END of this number.
pub fn call(header: &Header, pending: &View, end: u16) -> Result<Header, Reason> {
    if header.ending != 0 {
        return Err(Reason::EndingAlready);
    }
    pending.size_rule()?;
    if header.newest >= LAST_VIEW {
        return Err(Reason::LastView);
    }
    Ok(Header {
        ending: 1,
        end,
        ..*header
    })
}

/// It restarted: the header stays. Without members the pending view does too.
pub fn restart(header: &Header, pending: &View) -> Result<Header, Reason> {
    if header.ending == 0 {
        return Err(Reason::NothingEnding);
    }
    if pending.members != 0 {
        pending.size_rule()?;
    }
    Ok(*header)
}

/// The END closes: the pending view becomes the newest.
pub fn advance(header: &Header) -> Result<Header, Reason> {
    if header.ending == 0 {
        return Err(Reason::NothingEnding);
    }
    Ok(Header {
        newest: header.newest + 1,
        ending: 0,
        end: 0,
        ..*header
    })
}

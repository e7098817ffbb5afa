//! Why a call is refused.

use crate::raw;
use std::fmt;

/// Why a call was refused. Nothing changed.
#[derive(Clone, Copy, PartialEq, Eq, Debug)]
pub enum Error {
    /// The core made 2^64 - 1 turns, or was handed 2^64 - 1 jobs, new shares and wakes: it takes no more of that.
    Spent,
    /// A job of this core runs.
    Busy,
    /// No job of this core runs.
    NoJob,
    /// The core holds as many jobs as it has room for, or as many submissions are outstanding as the link has places.
    Full,
    /// There is no memory.
    NoMemory,
    /// Shares are 1 to 10000.
    BadShares,
    /// The core has no queue of that number.
    NoQueue,
    /// The queue or the core is closed, or was closed before.
    Closed,
    /// The core has 256 queues.
    TooMany,
    /// Room is for 1 to 131070 jobs; or a number of a `Config` is out of its range; or tasks have links of one place.
    BadNumber,
    /// No job of that number is inside.
    Absent,
    /// The journal has too few notes free for the call.
    JournalFull,
    /// The house has no core of that number.
    UnknownCore,
    /// The house has no actor of that number, or it isn't ended with each of its own once.
    NoActor,
    /// The submission is another actor's, or its number was never given.
    Unknown,
    /// The submission was redeemed or detached before.
    Gone,
    /// Its outcome wasn't collected yet. Of `wait_for`: the core was dropped.
    Pending,
    /// The core isn't closed.
    Open,
    /// The gate was shut before.
    Shut,
    /// The core isn't drained, or a job of it runs, or a turn of it is open.
    NotDrained,
    /// The journals can't be those of one house.
    Mixed,
    /// Notes were passed on, so the house can't judge its journals.
    PassedOn,
    /// The actor has ended: its house has its journal.
    Ended,
}

impl Error {
    #[cold]
    pub(crate) fn of(code: u32) -> Error {
        match code {
            raw::FX_SPENT => Error::Spent,
            raw::FX_BUSY => Error::Busy,
            raw::FX_NO_JOB => Error::NoJob,
            raw::FX_FULL => Error::Full,
            raw::FX_NO_MEMORY => Error::NoMemory,
            raw::FX_BAD_SHARES => Error::BadShares,
            raw::FX_NO_QUEUE => Error::NoQueue,
            raw::FX_CLOSED => Error::Closed,
            raw::FX_TOO_MANY => Error::TooMany,
            raw::FX_BAD_NUMBER => Error::BadNumber,
            raw::FX_ABSENT => Error::Absent,
            raw::FX_JOURNAL_FULL => Error::JournalFull,
            raw::FX_UNKNOWN_CORE => Error::UnknownCore,
            raw::FX_NO_ACTOR => Error::NoActor,
            raw::FX_UNKNOWN => Error::Unknown,
            raw::FX_GONE => Error::Gone,
            raw::FX_PENDING => Error::Pending,
            raw::FX_OPEN => Error::Open,
            raw::FX_SHUT => Error::Shut,
            raw::FX_NOT_DRAINED => Error::NotDrained,
            raw::FX_MIXED => Error::Mixed,
            raw::FX_PASSED_ON => Error::PassedOn,
            // Handles are open but those of actors that have ended.
            raw::FX_EMPTY => Error::Ended,
            // No open handle is handed in for an empty one, so FX_OCCUPIED doesn't come here. FX_SHORT ends in a call with more room.
            _ => unreachable!("the library answered code {code}"),
        }
    }
}

impl fmt::Display for Error {
    fn fmt(&self, f: &mut fmt::Formatter<'_>) -> fmt::Result {
        f.write_str(match self {
            Error::Spent => "the core did as much as it may",
            Error::Busy => "a job of this core runs",
            Error::NoJob => "no job of this core runs",
            Error::Full => "no place is free in the core or on the link",
            Error::NoMemory => "there is no memory",
            Error::BadShares => "shares are 1 to 10000",
            Error::NoQueue => "the core has no queue of that number",
            Error::Closed => "the queue or the core is closed",
            Error::TooMany => "the core has 256 queues",
            Error::BadNumber => "a number is out of its range: 1 to 131070 jobs, 1 to 16 cores, 1 to 1024 places and 2 for tasks, a burst of 1 to 64, at most 2^24 notes",
            Error::Absent => "no job of that number is inside",
            Error::JournalFull => "the journal has too few notes free",
            Error::UnknownCore => "the house has no core of that number",
            Error::NoActor => "the house has no such actor, or one of its own is missing at the end",
            Error::Unknown => "no such submission",
            Error::Gone => "redeemed or detached before",
            Error::Pending => "the outcome isn't there yet",
            Error::Open => "the core isn't closed",
            Error::Shut => "the gate was shut before",
            Error::NotDrained => "the core isn't drained",
            Error::Mixed => "the journals can't be those of one house",
            Error::PassedOn => "notes were passed on",
            Error::Ended => "the actor has ended",
        })
    }
}

impl std::error::Error for Error {}

#[inline]
pub(crate) fn refused(code: u32) -> Result<(), Error> {
    match code {
        raw::FX_OK => Ok(()),
        code => Err(Error::of(code)),
    }
}

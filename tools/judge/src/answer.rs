//! What a watch answers: refusals, convictions, notices and counts.

/// Why a call is refused.
#[derive(Clone, Copy, Debug, PartialEq, Eq, Hash)]
pub enum Refusal {
    Threads,
    Convicted,
    Closed,
    NoThread,
    NoClass,
    NoPlace,
    Past,
    NotOutstanding,
    PlaceInUse,
    NotOpen,
    NotOwed,
    Limit(u8),
    Unfinished,
}

impl Refusal {
    pub fn code(self) -> u64 {
        match self {
            Refusal::Threads => 1,
            Refusal::Convicted => 2,
            Refusal::Closed => 3,
            Refusal::NoThread => 4,
            Refusal::NoClass => 5,
            Refusal::NoPlace => 6,
            Refusal::Past => 7,
            Refusal::NotOutstanding => 8,
            Refusal::PlaceInUse => 9,
            Refusal::NotOpen => 10,
            Refusal::NotOwed => 11,
            Refusal::Limit(_) => 12,
            Refusal::Unfinished => 13,
        }
    }

    /// The limit that the call would pass, and 0 for other refusals.
    pub fn limit(self) -> u64 {
        match self {
            Refusal::Limit(limit) => u64::from(limit),
            _ => 0,
        }
    }
}

/// A broken law: who broke it, and the numbers that the law tells.
#[derive(Clone, Copy, Debug, PartialEq, Eq, Hash)]
pub struct Conviction {
    pub law: u64,
    pub thread: u64,
    pub number: u64,
    pub other: u64,
}

/// Why a call is not taken.
#[derive(Clone, Copy, Debug, PartialEq, Eq)]
pub enum Fault {
    Refused(Refusal),
    Convicted(Conviction),
}

impl From<Refusal> for Fault {
    fn from(refusal: Refusal) -> Fault {
        Fault::Refused(refusal)
    }
}

/// What a watch says of the calls so far.
#[derive(Clone, Copy, Debug, PartialEq, Eq)]
pub enum Verdict {
    Running,
    Clean,
    Convicted(Conviction),
}

/// What an epoch allows.
#[derive(Clone, Copy, Debug, PartialEq, Eq, Hash, PartialOrd, Ord)]
pub enum Kind {
    Read,
    Write,
}

impl Kind {
    pub fn from_number(number: u64) -> Option<Kind> {
        match number {
            0 => Some(Kind::Read),
            1 => Some(Kind::Write),
            _ => None,
        }
    }
}

/// Where a performed operation's value came from or went.
#[derive(Clone, Copy, Debug, PartialEq, Eq)]
pub enum Performed {
    Other,
    FromStore,
    FromCopy,
}

/// The duty to report or drop an ended epoch.
#[must_use]
#[derive(Debug, PartialEq, Eq)]
pub struct Notice {
    pub(crate) number: u64,
}

impl Notice {
    pub fn number(&self) -> u64 {
        self.number
    }
}

/// How many epochs are in each account.
#[derive(Clone, Copy, Debug, PartialEq, Eq)]
pub struct Counts {
    pub open: u64,
    pub owed: u64,
    pub waiting: u64,
    pub judged: u64,
    pub dropped: u64,
}

//! The watch: calls, refusals, laws and limits.

pub use crate::answer::{Conviction, Counts, Fault, Kind, Notice, Performed, Refusal, Verdict};
use crate::rule::{Class, Rule};
use std::cmp::Reverse;
use std::collections::BinaryHeap;

pub const MAX_THREADS: u64 = 4;
pub const PLACES: u64 = 512;
pub const MAX_OUTSTANDING: usize = 64;
pub const MAX_COMMITS: u64 = 1_000_000;
pub const MAX_OPEN: usize = 32;
pub const MAX_BEGINS: u64 = 1_000_000;
pub const MAX_OWED: usize = 32;
pub const MAX_WAITING: usize = 128;

#[derive(Clone, Copy, Debug, PartialEq, Eq, Hash)]
struct Operation {
    number: u64,
    class: Class,
    place: u64,
    value: u64,
}

#[derive(Clone, Copy, Debug, PartialEq, Eq, Hash, PartialOrd, Ord)]
struct Open {
    kind: Kind,
    place: u64,
    begin: u64,
    begin_value: u64,
    copy: u64,
    last_use: u64,
}

/// An ended epoch. The first two fields are the order in which epochs are judged.
#[derive(Clone, Copy, Debug, PartialEq, Eq, PartialOrd, Ord, Hash)]
pub struct Span {
    pub begin: u64,
    pub notice: u64,
    pub end: u64,
    pub thread: u64,
    pub kind: Kind,
    pub place: u64,
    pub begin_value: u64,
    pub end_value: u64,
}

#[derive(Clone, Copy, Debug, Default)]
struct Home {
    value: u64,
    read_end: u64,
    write_end: u64,
    begun: bool,
}

/// What a watch knows of a thread.
#[derive(Clone, Debug, Default, PartialEq, Eq, Hash)]
pub struct Thread {
    clock: u64,
    commits: u64,
    outstanding: Vec<Operation>,
    open: Vec<Open>,
}

/// A watch over the calls of a recorder.
#[derive(Clone, Debug)]
pub struct Watch {
    rule: Rule,
    verdict: Verdict,
    threads: Vec<Thread>,
    homes: Vec<Home>,
    begins: u64,
    ends: u64,
    owed: Vec<Span>,
    waiting: BinaryHeap<Reverse<Span>>,
    judged: u64,
    dropped: u64,
}

impl Watch {
    pub fn new(rule: Rule, threads: u64) -> Result<Watch, Refusal> {
        Watch::with_places(rule, threads, PLACES)
    }

    /// A watch that has only the first places, so that a search can copy it cheaply.
    pub fn with_places(rule: Rule, threads: u64, places: u64) -> Result<Watch, Refusal> {
        if threads == 0 || threads > MAX_THREADS {
            return Err(Refusal::Threads);
        }
        Ok(Watch {
            rule,
            verdict: Verdict::Running,
            threads: vec![Thread::default(); threads as usize],
            homes: vec![Home::default(); places.min(PLACES) as usize],
            begins: 0,
            ends: 0,
            owed: Vec::new(),
            waiting: BinaryHeap::new(),
            judged: 0,
            dropped: 0,
        })
    }

    pub fn verdict(&self) -> Verdict {
        self.verdict
    }

    pub fn counts(&self) -> Counts {
        Counts {
            open: self.threads.iter().map(|thread| thread.open.len() as u64).sum(),
            owed: self.owed.len() as u64,
            waiting: self.waiting.len() as u64,
            judged: self.judged,
            dropped: self.dropped,
        }
    }

    /// How many more operations the thread can have outstanding.
    pub fn spare(&self, thread: u64) -> Result<u64, Refusal> {
        Ok((MAX_OUTSTANDING - self.threads[self.thread(thread)?].outstanding.len()) as u64)
    }

    /// The clock of a thread.
    pub fn clock(&self, thread: u64) -> Result<u64, Refusal> {
        Ok(self.threads[self.thread(thread)?].clock)
    }

    /// The spans that wait to be judged, in no order.
    pub fn waiting(&self) -> impl Iterator<Item = &Span> {
        self.waiting.iter().map(|span| &span.0)
    }

    /// What is known of the thread, equal for threads to which the same can happen.
    pub fn thread_state(&self, thread: u64) -> Option<Thread> {
        let mut state = self.threads.get(thread as usize)?.clone();
        state.open.sort_unstable();
        Some(state)
    }

    /// Judges these spans as a close judges waiting notices.
    pub fn judge_spans(&mut self, spans: impl Iterator<Item = Span>) -> Result<u64, Fault> {
        self.waiting.extend(spans.map(Reverse));
        self.judge_while(|_| true)
    }

    /// The numbers of the thread's outstanding operations.
    pub fn outstanding(&self, thread: u64) -> impl Iterator<Item = u64> {
        self.threads
            .get(thread as usize)
            .into_iter()
            .flat_map(|thread| thread.outstanding.iter().map(|operation| operation.number))
    }

    /// The places of the thread's open epochs, each with the copy that it has now.
    pub fn open(&self, thread: u64) -> impl Iterator<Item = (u64, u64)> {
        self.threads
            .get(thread as usize)
            .into_iter()
            .flat_map(|thread| thread.open.iter().map(|open| (open.place, open.copy)))
    }

    pub fn preset(&mut self, place: u64, value: u64) -> Result<(), Fault> {
        self.running()?;
        let at = self.place(place)?;
        let home = &mut self.homes[at];
        if home.begun {
            return Err(Refusal::PlaceInUse.into());
        }
        home.value = value;
        Ok(())
    }

    pub fn commit(&mut self, thread: u64, class: u64, place: u64, value: u64) -> Result<u64, Fault> {
        self.running()?;
        let index = self.thread(thread)?;
        let class = Class::from_number(class).ok_or(Refusal::NoClass)?;
        if class.is_access() {
            self.place(place)?;
        }
        let thread = &mut self.threads[index];
        if thread.outstanding.len() >= MAX_OUTSTANDING {
            return Err(Refusal::Limit(1).into());
        }
        if thread.commits >= MAX_COMMITS {
            return Err(Refusal::Limit(2).into());
        }
        let number = thread.commits;
        thread.commits += 1;
        thread.outstanding.push(Operation { number, class, place, value });
        Ok(number)
    }

    pub fn perform(&mut self, thread: u64, number: u64, time: u64) -> Result<Performed, Fault> {
        self.running()?;
        let index = self.thread(thread)?;
        self.not_past(index, time)?;
        let at = self.threads[index]
            .outstanding
            .binary_search_by_key(&number, |operation| operation.number)
            .map_err(|_| Refusal::NotOutstanding)?;
        match self.threads[index].perform(&self.rule, at, time) {
            Ok(performed) => Ok(performed),
            Err((law, other)) => self.convict(Conviction { law, thread, number, other }),
        }
    }

    pub fn advance(&mut self, thread: u64, time: u64) -> Result<(), Fault> {
        self.running()?;
        let index = self.thread(thread)?;
        self.not_past(index, time)?;
        self.threads[index].clock = time;
        Ok(())
    }

    pub fn begin(&mut self, thread: u64, kind: u64, place: u64, value: u64, time: u64) -> Result<(), Fault> {
        self.running()?;
        let index = self.thread(thread)?;
        let kind = Kind::from_number(kind).ok_or(Refusal::NoClass)?;
        let at = self.place(place)?;
        self.not_past(index, time)?;
        let thread = &mut self.threads[index];
        if thread.open_at(place).is_some() {
            return Err(Refusal::PlaceInUse.into());
        }
        if thread.open.len() >= MAX_OPEN {
            return Err(Refusal::Limit(3).into());
        }
        if self.begins >= MAX_BEGINS {
            return Err(Refusal::Limit(4).into());
        }
        self.begins += 1;
        self.homes[at].begun = true;
        thread.clock = time;
        thread.open.push(Open { kind, place, begin: time, begin_value: value, copy: value, last_use: time });
        Ok(())
    }

    pub fn end(&mut self, thread: u64, place: u64, value: u64, time: u64) -> Result<Notice, Fault> {
        self.running()?;
        let index = self.thread(thread)?;
        self.place(place)?;
        self.not_past(index, time)?;
        let at = self.threads[index].open_at(place).ok_or(Refusal::NotOpen)?;
        if self.owed.len() >= MAX_OWED {
            return Err(Refusal::Limit(5).into());
        }
        let open = self.threads[index].open[at];
        if time <= open.last_use {
            return self.convict(Conviction { law: 25, thread, number: place, other: open.last_use });
        }
        if value != open.copy {
            return self.convict(Conviction { law: 26, thread, number: place, other: open.copy });
        }
        self.threads[index].open.swap_remove(at);
        self.threads[index].clock = time;
        let notice = self.ends;
        self.ends += 1;
        self.owed.push(Span {
            begin: open.begin,
            notice,
            end: time,
            thread,
            kind: open.kind,
            place,
            begin_value: open.begin_value,
            end_value: value,
        });
        Ok(Notice { number: notice })
    }

    /// A refused report hands the notice back.
    pub fn report(&mut self, notice: Notice) -> Result<(), (Refusal, Notice)> {
        if let Err(refusal) = self.running() {
            return Err((refusal, notice));
        }
        let Some(at) = self.owed_at(notice.number) else {
            return Err((Refusal::NotOwed, notice));
        };
        if self.waiting.len() >= MAX_WAITING {
            return Err((Refusal::Limit(6), notice));
        }
        self.waiting.push(Reverse(self.owed.swap_remove(at)));
        Ok(())
    }

    #[allow(clippy::needless_pass_by_value)]
    pub fn drop_notice(&mut self, notice: Notice) -> Result<(), Fault> {
        let at = self.owed_at(notice.number).ok_or(Refusal::NotOwed)?;
        let span = self.owed.swap_remove(at);
        self.dropped += 1;
        if self.verdict != Verdict::Running {
            return Ok(());
        }
        self.convict(Conviction { law: 29, thread: span.thread, number: span.notice, other: span.place })
    }

    pub fn settle(&mut self) -> Result<u64, Fault> {
        self.running()?;
        let safe = self.safe_time();
        self.judge_while(|span| span.begin < safe)
    }

    pub fn close(&mut self) -> Result<(), Fault> {
        self.running()?;
        let busy = |thread: &Thread| !thread.outstanding.is_empty() || !thread.open.is_empty();
        if !self.owed.is_empty() || self.threads.iter().any(busy) {
            return Err(Refusal::Unfinished.into());
        }
        self.judge_while(|_| true)?;
        self.verdict = Verdict::Clean;
        Ok(())
    }

    /// Whether a judging of all waiting notices would convict nobody.
    pub fn would_be_clean(&self) -> bool {
        self.clone().judge_while(|_| true).is_ok()
    }

    /// The least of all clocks and of the begins of open and owed epochs.
    fn safe_time(&self) -> u64 {
        let clocks = self.threads.iter().map(|thread| thread.clock);
        let open = self.threads.iter().flat_map(|thread| thread.open.iter().map(|open| open.begin));
        let owed = self.owed.iter().map(|span| span.begin);
        clocks.chain(open).chain(owed).min().unwrap_or(0)
    }

    /// Judges the waiting notices in their order as long as the next one is wanted.
    fn judge_while(&mut self, wanted: impl Fn(&Span) -> bool) -> Result<u64, Fault> {
        let mut judged = 0;
        while let Some(Reverse(span)) = self.waiting.peek().copied().filter(|span| wanted(&span.0)) {
            if let Err((law, other)) = self.homes[span.place as usize].judge(&span) {
                return self.convict(Conviction { law, thread: span.thread, number: span.notice, other });
            }
            self.waiting.pop();
            self.judged += 1;
            judged += 1;
        }
        Ok(judged)
    }

    fn convict<T>(&mut self, conviction: Conviction) -> Result<T, Fault> {
        self.verdict = Verdict::Convicted(conviction);
        Err(Fault::Convicted(conviction))
    }

    fn running(&self) -> Result<(), Refusal> {
        match self.verdict {
            Verdict::Running => Ok(()),
            Verdict::Convicted(_) => Err(Refusal::Convicted),
            Verdict::Clean => Err(Refusal::Closed),
        }
    }

    fn thread(&self, thread: u64) -> Result<usize, Refusal> {
        if thread < self.threads.len() as u64 { Ok(thread as usize) } else { Err(Refusal::NoThread) }
    }

    fn place(&self, place: u64) -> Result<usize, Refusal> {
        if place < self.homes.len() as u64 { Ok(place as usize) } else { Err(Refusal::NoPlace) }
    }

    fn not_past(&self, index: usize, time: u64) -> Result<(), Refusal> {
        if time < self.threads[index].clock { Err(Refusal::Past) } else { Ok(()) }
    }

    fn owed_at(&self, number: u64) -> Option<usize> {
        self.owed.iter().position(|span| span.notice == number)
    }
}

impl Thread {
    fn open_at(&self, place: u64) -> Option<usize> {
        self.open.iter().position(|open| open.place == place)
    }

    /// Performs the outstanding operation at this index, or answers the broken law and its other number.
    fn perform(&mut self, rule: &Rule, at: usize, time: u64) -> Result<Performed, (u64, u64)> {
        let operation = self.outstanding[at];
        let earlier = &self.outstanding[..at];
        let same_place = |other: &&Operation| other.class.is_access() && other.place == operation.place;
        if operation.class == Class::Store
            && let Some(oldest) = earlier.iter().find(same_place)
        {
            return Err((21, oldest.number));
        }
        if let Some(oldest) = earlier.iter().find(|other| rule.ordered(other.class, operation.class)) {
            return Err((22, oldest.number));
        }
        let performed = match operation.class {
            Class::Barrier(_) => Performed::Other,
            Class::Store => self.store(&operation, time)?,
            Class::Load => self.load(&operation, at, time)?,
        };
        self.outstanding.remove(at);
        self.clock = time;
        Ok(performed)
    }

    fn store(&mut self, operation: &Operation, time: u64) -> Result<Performed, (u64, u64)> {
        let open = self.open.iter_mut().find(|open| open.place == operation.place && open.kind == Kind::Write);
        let open = open.ok_or((23, operation.place))?;
        open.copy = operation.value;
        open.last_use = time;
        Ok(Performed::Other)
    }

    fn load(&mut self, operation: &Operation, at: usize, time: u64) -> Result<Performed, (u64, u64)> {
        let is_source = |other: &&Operation| other.class == Class::Store && other.place == operation.place;
        if let Some(store) = self.outstanding[..at].iter().rev().find(is_source) {
            return if store.value == operation.value { Ok(Performed::FromStore) } else { Err((24, store.value)) };
        }
        let open = self.open.iter_mut().find(|open| open.place == operation.place);
        let open = open.ok_or((23, operation.place))?;
        if open.copy != operation.value {
            return Err((24, open.copy));
        }
        open.last_use = time;
        Ok(Performed::FromCopy)
    }
}

impl Home {
    /// Judges an epoch of this place, or answers the broken law and its other number.
    fn judge(&mut self, span: &Span) -> Result<(), (u64, u64)> {
        let bound = match span.kind {
            Kind::Read => self.write_end,
            Kind::Write => self.write_end.max(self.read_end),
        };
        if span.begin < bound {
            return Err((27, bound));
        }
        if span.begin_value != self.value {
            return Err((28, self.value));
        }
        match span.kind {
            Kind::Read => self.read_end = self.read_end.max(span.end),
            Kind::Write => {
                self.write_end = span.end;
                self.value = span.end_value;
            }
        }
        Ok(())
    }
}

//! Honest records to which events are added.

use crate::machine::{Shape, random_run};
use crate::record::{Style, record};
use crate::rng::Rng;
use crate::text::{Event, Trace, Word};

/// A short honest record.
pub fn honest_trace(rng: &mut Rng) -> Trace {
    let steps = rng.between(1, 40) as usize;
    let shape = Shape::random(rng, steps);
    let run = random_run(rng, &shape);
    let style = Style::random(rng);
    record(rng, &run, style)
}

/// An honest record without its close, to which events are added at later times.
pub struct Scene<'a> {
    pub rng: &'a mut Rng,
    pub trace: Trace,
    pub time: u64,
    pub committed: Vec<u64>,
    pub used: Vec<u64>,
}

impl<'a> Scene<'a> {
    pub fn new(rng: &'a mut Rng) -> Scene<'a> {
        let mut trace = honest_trace(rng);
        trace.events.pop();
        let time = 1 + trace.events.iter().map(|event| event.time).max().unwrap_or(0);
        let commits = |thread: u64| {
            let own = |event: &&Event| event.word == Word::Commit && event.thread == thread;
            trace.events.iter().filter(own).count() as u64
        };
        let committed = (0..4).map(commits).collect();
        let used = trace.events.iter().map(|event| event.place).collect();
        Scene { rng, trace, time, committed, used }
    }

    /// A scene of a rule in which nothing has happened yet.
    pub fn start_anew(&mut self, rules: &[&str]) {
        self.trace.rule = self.rng.pick(rules).to_string();
        self.trace.threads = self.rng.between(1, 4);
        self.trace.events.clear();
        self.committed = vec![0; 4];
        self.used.clear();
    }

    pub fn push(&mut self, event: Event) {
        self.trace.events.push(event);
    }

    pub fn thread(&mut self) -> u64 {
        self.rng.below(self.trace.threads)
    }

    /// A place that no event has named so far.
    pub fn place(&mut self) -> u64 {
        loop {
            let place = self.rng.below(512);
            if !self.used.contains(&place) {
                self.used.push(place);
                return place;
            }
        }
    }

    /// A time later than the one before.
    pub fn later(&mut self) -> u64 {
        self.time += self.rng.between(1, 3);
        self.time
    }

    pub fn commit(&mut self, thread: u64, class: u64, place: u64, value: u64) -> u64 {
        self.push(Event::commit(thread, class, place, value));
        self.committed[thread as usize] += 1;
        self.committed[thread as usize] - 1
    }

    pub fn perform(&mut self, thread: u64, number: u64) {
        let time = self.later();
        self.push(Event::perform(thread, number, time));
    }

    pub fn begin(&mut self, thread: u64, kind: u64, place: u64, value: u64) {
        let time = self.later();
        self.push(Event::begin(thread, kind, place, value, time));
    }

    pub fn end(&mut self, thread: u64, place: u64, value: u64) {
        let time = self.later();
        self.push(Event::end(thread, place, value, time));
    }

    /// An epoch that is used by nobody.
    pub fn epoch(&mut self, thread: u64, kind: u64, place: u64, value: u64) {
        self.begin(thread, kind, place, value);
        self.end(thread, place, value);
    }

    /// Lets all clocks pass the time of the last event, and settles.
    pub fn settle_all(&mut self) {
        let time = self.later();
        for thread in 0..self.trace.threads {
            self.push(Event::advance(thread, time));
        }
        self.push(Event::settle());
    }

    /// Sometimes settles, and sometimes leaves all to the close.
    pub fn maybe_settle(&mut self) {
        if self.rng.one_in(2) {
            self.settle_all();
        }
    }
}

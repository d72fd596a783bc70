//! A search through all small recordings of a litmus test's outcome.

use crate::litmus::{Found, Op, Test};
use crate::rule::Rule;
use crate::text::{Event, Word};
use crate::verdict::call;
use crate::watch::{Conviction, Fault, Kind, Span, Watch};
use std::collections::{HashMap, HashSet};

/// All that one thread can be recorded with so that its own calls are taken: the spans, and calls that lead to them.
type Locals = Vec<(Vec<Span>, Vec<Event>)>;

/// Looks through all small recordings of the outcome for a clean one.
///
/// Small means: times from 0 to the given one, values up to the test's highest, and for each thread
/// at most as many begins as it has loads and stores. Commits stand first, since they carry no time
/// and only earlier operations are looked at; threads stand one after the other, since without a settle
/// the calls of different threads meet only in the close. What one thread can be recorded with is
/// found by making all its calls on a watch, and all combinations of that are judged as a close does.
pub fn search_recordings(test: &Test, rule: &str, last_time: u64, cache: &mut LocalCache) -> Found {
    let locals: Vec<Locals> =
        (0..test.threads.len()).map(|thread| cache.locals(test, rule, thread, last_time)).collect();
    let named = Rule::named(rule.as_bytes()).expect("a named rule");
    let watch = Watch::with_places(named, test.threads.len() as u64, test.places()).expect("one to four threads");
    let observed: Vec<Span> = test
        .finals
        .iter()
        .map(|(place, value)| span(0, Kind::Read, *place, (last_time, last_time + 1), (*value, *value)))
        .collect();
    let mut search = Combine { locals: &locals, watch, observed, chosen: Vec::new(), looked_at: 0 };
    let found = search.combine(0, &Vec::new());
    let events = found.then(|| {
        let paths = search.chosen.iter().zip(&locals).map(|(chosen, locals)| &locals[*chosen].1);
        paths.flatten().copied().collect()
    });
    Found { trace: events.map(|events| test.trace(rule, events)), looked_at: search.looked_at }
}

fn span(thread: u64, kind: Kind, place: u64, (begin, end): (u64, u64), (begin_value, end_value): (u64, u64)) -> Span {
    Span { begin, notice: 0, end, thread, kind, place, begin_value, end_value }
}

struct Combine<'a> {
    locals: &'a [Locals],
    watch: Watch,
    observed: Vec<Span>,
    chosen: Vec<usize>,
    looked_at: u64,
}

impl Combine<'_> {
    /// Tries all recordings of this thread and the ones after it, together with the spans chosen so far.
    fn combine(&mut self, thread: usize, spans: &[Span]) -> bool {
        if thread == self.locals.len() {
            self.looked_at += 1;
            let all = spans.iter().chain(&self.observed).copied();
            return self.watch.clone().judge_spans(all).is_ok();
        }
        for choice in 0..self.locals[thread].len() {
            let own = &self.locals[thread][choice].0;
            let all: Vec<Span> = spans.iter().chain(own).copied().collect();
            // Spans that overlap are convicted with more spans too, so nothing is lost here.
            let judged = self.watch.clone().judge_spans(all.iter().copied());
            if matches!(judged, Err(Fault::Convicted(Conviction { law: 27, .. }))) {
                self.looked_at += 1;
                continue;
            }
            self.chosen.push(choice);
            if self.combine(thread + 1, &all) {
                return true;
            }
            self.chosen.pop();
        }
        false
    }
}

/// What single threads can be recorded with, kept since many tests have the same threads.
#[derive(Default)]
pub struct LocalCache {
    known: HashMap<(Vec<Op>, String, u64, u64, u64), Locals>,
}

impl LocalCache {
    fn locals(&mut self, test: &Test, rule: &str, thread: usize, last_time: u64) -> Locals {
        let ops = &test.threads[thread];
        let (places, values) = (test.places(), test.highest_value());
        let key = (ops.clone(), rule.to_string(), places, values, last_time);
        let known = self.known.entry(key).or_insert_with(|| local_recordings(ops, rule, places, values, last_time));
        let renamed = |span: &Span| Span { thread: thread as u64, ..*span };
        let moved = |event: &Event| Event { thread: thread as u64, ..*event };
        let local = |(spans, events): &(Vec<Span>, Vec<Event>)| {
            (spans.iter().map(renamed).collect(), events.iter().map(moved).collect())
        };
        known.iter().map(local).collect()
    }
}

fn local_recordings(ops: &[Op], rule: &str, places: u64, values: u64, last_time: u64) -> Locals {
    let named = Rule::named(rule.as_bytes()).expect("a named rule");
    let mut watch = Watch::with_places(named, 1, places).expect("one thread");
    let mut events = Vec::new();
    for op in ops {
        let (place, value) = op.place_and_value();
        events.push(Event::commit(0, op.class().number(), place, value));
        call(&mut watch, events.last().expect("just pushed")).expect("commits are taken");
    }
    let begins = ops.iter().filter(|op| op.class().is_access()).count();
    let mut search = LocalSearch { places, values, last_time, begins, seen: HashSet::new(), found: HashMap::new() };
    search.explore(&watch, &mut events);
    let mut found: Locals = search.found.into_iter().collect();
    found.sort_by(|one, other| one.0.cmp(&other.0));
    found
}

struct LocalSearch {
    places: u64,
    values: u64,
    last_time: u64,
    begins: usize,
    seen: HashSet<(crate::watch::Thread, Vec<Span>, usize)>,
    found: HashMap<Vec<Span>, Vec<Event>>,
}

impl LocalSearch {
    /// Tries every call that may come next, unless all that follows was tried before.
    fn explore(&mut self, watch: &Watch, events: &mut Vec<Event>) {
        let mut spans: Vec<Span> = watch.waiting().map(|span| Span { notice: 0, ..*span }).collect();
        spans.sort_unstable();
        let begun = events.iter().filter(|event| event.word == Word::Begin).count();
        let state = watch.thread_state(0).expect("there is a thread 0");
        if !self.seen.insert((state, spans.clone(), begun)) {
            return;
        }
        if watch.outstanding(0).next().is_none() && watch.open(0).next().is_none() {
            self.found.entry(spans).or_insert_with(|| events.clone());
        }
        for event in self.next_events(watch, begun) {
            let mut tried = watch.clone();
            if call(&mut tried, &event).is_ok() {
                events.push(event);
                self.explore(&tried, events);
                events.pop();
            }
        }
    }

    fn next_events(&self, watch: &Watch, begun: usize) -> Vec<Event> {
        let mut events = Vec::new();
        for time in watch.clock(0).unwrap_or(0)..=self.last_time {
            events.extend(watch.outstanding(0).map(|number| Event::perform(0, number, time)));
            for (place, value) in (0..self.places).flat_map(|place| (0..=self.values).map(move |value| (place, value)))
            {
                events.push(Event::end(0, place, value, time));
                if begun < self.begins {
                    events.push(Event::begin(0, 0, place, value, time));
                    events.push(Event::begin(0, 1, place, value, time));
                }
            }
        }
        events
    }
}

//! Records of runs: the run's steps as events, threads mixed, with settles and advances in between.

use crate::machine::{Run, Step};
use crate::rng::Rng;
use crate::text::{Event, Trace};
use crate::watch::Kind;

/// How the events of the threads are mixed.
#[derive(Clone, Copy, Debug)]
pub enum Mix {
    /// As they happened.
    Run,
    /// At each event a random thread.
    Random,
    /// A random thread for a while, then another one.
    Bursts,
    /// One thread after the other.
    Whole,
}

/// How a record is made of a run.
#[derive(Clone, Copy, Debug)]
pub struct Style {
    pub mix: Mix,
    /// One settle in so many events, none if 0.
    pub settles: u64,
    /// One advance in so many events, none if 0.
    pub advances: u64,
}

impl Style {
    pub fn random(rng: &mut Rng) -> Style {
        Style {
            mix: rng.pick(&[Mix::Run, Mix::Run, Mix::Random, Mix::Bursts, Mix::Whole]),
            settles: rng.pick(&[0, 2, 8, 30]),
            advances: rng.pick(&[0, 3, 10]),
        }
    }

    /// The run's own order with nothing in between.
    pub fn plain() -> Style {
        Style { mix: Mix::Run, settles: 0, advances: 0 }
    }
}

/// The event of a step.
pub fn event(step: &Step) -> Event {
    match *step {
        Step::Commit { thread, class, place, value } => Event::commit(thread as u64, class.number(), place, value),
        Step::Perform { thread, number, time } => Event::perform(thread as u64, number, time),
        Step::Take { thread, kind, place, value, time } => {
            Event::begin(thread as u64, u64::from(kind == Kind::Write), place, value, time)
        }
        Step::Give { thread, place, value, time } => Event::end(thread as u64, place, value, time),
    }
}

/// A record of the run.
pub fn record(rng: &mut Rng, run: &Run, style: Style) -> Trace {
    let order = thread_order(rng, run, style.mix);
    let mut queues: Vec<std::collections::VecDeque<Event>> = vec![Default::default(); run.threads];
    for step in &run.steps {
        queues[step.thread()].push_back(event(step));
    }
    let mut events = Vec::new();
    for (place, value) in &run.presets {
        if style.settles > 0 && rng.one_in(style.settles) {
            events.push(Event::settle());
        }
        events.push(Event::preset(*place, *value));
    }
    let mut clocks = vec![0; run.threads];
    for thread in order {
        if style.settles > 0 && rng.one_in(style.settles) {
            events.push(Event::settle());
        }
        if style.advances > 0 && rng.one_in(style.advances) {
            let next = queues[thread].iter().find(|event| event.word.uses()[4]).map(|event| event.time);
            clocks[thread] = rng.between(clocks[thread], next.unwrap_or(clocks[thread].saturating_add(3)));
            events.push(Event::advance(thread as u64, clocks[thread]));
        }
        let event = queues[thread].pop_front().expect("as many as steps");
        if event.word.uses()[4] {
            clocks[thread] = event.time;
        }
        events.push(event);
    }
    events.push(Event::close());
    Trace { rule: run.rule.clone(), threads: run.threads as u64, events }
}

/// Whose event comes next, for all events.
fn thread_order(rng: &mut Rng, run: &Run, mix: Mix) -> Vec<usize> {
    let mut order: Vec<usize> = run.steps.iter().map(Step::thread).collect();
    match mix {
        Mix::Run => order,
        Mix::Random => {
            rng.shuffle(&mut order);
            order
        }
        Mix::Whole => {
            let mut ranks: Vec<usize> = (0..run.threads).collect();
            rng.shuffle(&mut ranks);
            order.sort_by_key(|thread| ranks[*thread]);
            order
        }
        Mix::Bursts => bursts(rng, &order, run.threads),
    }
}

fn bursts(rng: &mut Rng, order: &[usize], threads: usize) -> Vec<usize> {
    let mut left = vec![0; threads];
    for thread in order {
        left[*thread] += 1;
    }
    let mut mixed = Vec::with_capacity(order.len());
    while mixed.len() < order.len() {
        let thread = rng.index(threads);
        let count = rng.between(1, 12).min(left[thread]);
        left[thread] -= count;
        mixed.extend(std::iter::repeat_n(thread, count as usize));
    }
    mixed
}

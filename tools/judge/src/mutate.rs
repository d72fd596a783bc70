//! Random changes of a trace's events.

use crate::rng::Rng;
use crate::rule::NAMES;
use crate::text::{Event, Trace, Word};

/// Changes the trace in one random way.
pub fn mutate(rng: &mut Rng, trace: &mut Trace) {
    if trace.events.is_empty() {
        trace.events.push(random_event(rng));
        return;
    }
    let at = rng.index(trace.events.len());
    let to = rng.index(trace.events.len());
    match rng.below(16) {
        0..=6 => trace.events[at] = change_number(rng, &trace.events, at),
        7 => drop(trace.events.remove(at)),
        8 => {
            let event = trace.events[at];
            trace.events.insert(to, event);
        }
        9 => trace.events.swap(at, to),
        10 => {
            let next = (at + 1) % trace.events.len();
            trace.events.swap(at, next);
        }
        11 => {
            let event = trace.events.remove(at);
            trace.events.insert(to, event);
        }
        12 => exchange_fields(rng, &mut trace.events, at, to),
        13 => trace.events.insert(at, random_event(rng)),
        14 => trace.rule = rng.pick(&NAMES).to_string(),
        _ => trace.threads = rng.pick(&[0, 1, 2, 3, 4, 4, 5, u64::MAX]),
    }
}

/// The event with one of the numbers that it uses changed.
fn change_number(rng: &mut Rng, events: &[Event], at: usize) -> Event {
    let event = events[at];
    let used: Vec<usize> = (0..5).filter(|field| event.word.uses()[*field]).collect();
    if used.is_empty() {
        return event;
    }
    let field = rng.pick(&used);
    let mut numbers = event.numbers();
    let old = numbers[field];
    numbers[field] = match rng.below(9) {
        0 | 1 => old.wrapping_add(1),
        2 | 3 => old.wrapping_sub(1),
        4 => old ^ (1 << rng.below(64)),
        5 => rng.below(4),
        6 => rng.pick(&[0, 17, 18, 63, 64, 511, 512, u64::MAX]),
        _ => rng.pick(events).numbers()[field],
    };
    event.with_numbers(numbers)
}

/// Exchanges one field of two events.
fn exchange_fields(rng: &mut Rng, events: &mut [Event], at: usize, to: usize) {
    let field = rng.index(5);
    let (mut first, mut second) = (events[at].numbers(), events[to].numbers());
    if events[at].word.uses()[field] && events[to].word.uses()[field] {
        std::mem::swap(&mut first[field], &mut second[field]);
        events[at] = events[at].with_numbers(first);
        events[to] = events[to].with_numbers(second);
    }
}

/// An event with small numbers in the fields that it uses.
pub fn random_event(rng: &mut Rng) -> Event {
    let word = rng.pick(&Word::ALL[..7]);
    let uses = word.uses();
    let bounds = [4, 4, 4, 3, 20];
    let numbers = std::array::from_fn(|field| if uses[field] { rng.below(bounds[field]) } else { 0 });
    let event = Event { word, thread: 0, what: 0, place: 0, value: 0, time: 0 };
    event.with_numbers(numbers)
}

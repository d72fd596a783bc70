//! Texts made for one verdict and code each, so that every code which a text can reach occurs.

use crate::rng::Rng;
use crate::scene::{Scene, honest_trace};
use crate::target_bytes::BYTES;
use crate::target_events::EVENTS;
use crate::text::Event;

/// A text and the verdict that it is made for.
pub struct Target {
    pub label: &'static str,
    make: Make,
}

enum Make {
    Events(fn(&mut Scene)),
    Bytes(fn(&mut Rng, Vec<u8>) -> Vec<u8>),
}

impl Target {
    pub fn text(&self, rng: &mut Rng) -> Vec<u8> {
        match self.make {
            Make::Events(make) => {
                let mut scene = Scene::new(rng);
                make(&mut scene);
                scene.trace.events.push(Event::close());
                scene.trace.to_string().into_bytes()
            }
            Make::Bytes(make) => {
                let text = honest_text(rng);
                make(rng, text)
            }
        }
    }
}

/// The text of a short honest record.
fn honest_text(rng: &mut Rng) -> Vec<u8> {
    honest_trace(rng).to_string().into_bytes()
}

/// All targets, several for many codes.
pub fn all() -> Vec<Target> {
    let events = EVENTS.iter().map(|(label, make)| Target { label, make: Make::Events(*make) });
    let bytes = BYTES.iter().map(|(label, make)| Target { label, make: Make::Bytes(*make) });
    events.chain(bytes).collect()
}

/// The verdicts and codes that a text can reach.
pub fn reachable() -> Vec<&'static str> {
    let mut labels: Vec<&str> = EVENTS.iter().map(|(label, _)| *label).collect();
    labels.extend(BYTES.iter().map(|(label, _)| *label));
    labels.sort_unstable();
    labels.dedup();
    labels
}

pub type ByEvents = (&'static str, fn(&mut Scene));
pub type ByBytes = (&'static str, fn(&mut Rng, Vec<u8>) -> Vec<u8>);

#[cfg(test)]
mod tests {
    use super::*;
    use crate::verdict::judge;

    #[test]
    fn targets_get_the_verdict_that_they_are_made_for() {
        for (at, target) in all().iter().enumerate() {
            for round in 0..200 {
                let text = target.text(&mut Rng::part(7, at as u64 * 1000 + round));
                let verdict = judge(&text);
                assert_eq!(verdict.label(), target.label, "{}", String::from_utf8_lossy(&text));
            }
        }
    }
}

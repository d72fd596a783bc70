//! The texts that the judge is compared on: kinds of texts, each made from a seed.

use crate::damage::damage;
use crate::machine::{Run, Shape, Step, random_run};
use crate::mutate::{mutate, random_event};
use crate::record::{Style, record};
use crate::rng::Rng;
use crate::rule::{CLASSES, NAMES, Rule};
use crate::targets;
use crate::text::{Event, LONGEST_TEXT, Trace, Word};
use crate::verdict::call;
use crate::watch::Watch;

/// The kinds of texts.
pub const KINDS: [&str; 7] = ["honest", "mutated", "damaged", "target", "wild", "long", "pair"];

/// A text of this kind, if there is such a kind. A number after "target" or "pair" picks one of them.
pub fn text(seed: u64, kind: &str) -> Option<Vec<u8>> {
    let mut rng = Rng::part(seed, 1);
    let rng = &mut rng;
    Some(match kind {
        "honest" => honest(rng, 120).to_string().into_bytes(),
        "long" => long(rng),
        "mutated" => mutated(rng).to_string().into_bytes(),
        "damaged" => damaged(rng),
        "wild" => wild(rng).to_string().into_bytes(),
        "target" => targets::all()[rng.index(targets::all().len())].text(rng),
        "pair" => pair(rng.draw()).to_string().into_bytes(),
        _ => {
            let word = kind.trim_end_matches(|last: char| last.is_ascii_digit());
            let at: u64 = kind.strip_prefix(word)?.parse().ok()?;
            match word {
                "target" => targets::all().get(at as usize)?.text(rng),
                "pair" => pair(at).to_string().into_bytes(),
                _ => return None,
            }
        }
    })
}

/// How many pairs there are: all classes first and second under all named rules.
const PAIRS: u64 = 4 * (CLASSES * CLASSES) as u64;

/// Two operations of all combinations of classes and rules in turn, of which the second performs first.
fn pair(number: u64) -> Trace {
    let (rule, rest) = (NAMES[(number % 4) as usize], number / 4);
    let (first, second) = (rest % CLASSES as u64, rest / CLASSES as u64 % CLASSES as u64);
    let places = [number % 256, 256 + number % 256];
    let mut events = vec![Event::begin(0, 1, places[0], 0, 1), Event::begin(0, 1, places[1], 0, 1)];
    events.push(Event::commit(0, first, places[0], 0));
    events.push(Event::commit(0, second, places[1], 0));
    events.extend([Event::perform(0, 1, 2), Event::perform(0, 0, 3)]);
    events.extend(places.map(|place| Event::end(0, place, 0, 4)));
    events.push(Event::close());
    Trace { rule: rule.to_string(), threads: 1 + number % 4, events }
}

/// The kind of the text of this number among many: all kinds and all targets come in turn.
pub fn kind_in_turn(number: u64) -> String {
    let turn = number / 8;
    match number % 8 {
        0 | 1 => "honest".to_string(),
        2 | 3 => "mutated".to_string(),
        4 => "damaged".to_string(),
        5 => format!("target{}", turn % targets::all().len() as u64),
        6 => "wild".to_string(),
        _ if turn.is_multiple_of(8) => "long".to_string(),
        _ => format!("pair{}", (turn - turn / 8 - 1) % PAIRS),
    }
}

/// How many texts it takes until every target had its turn.
pub fn turns_for_all() -> u64 {
    8 * targets::all().len() as u64
}

fn honest(rng: &mut Rng, most: u64) -> Trace {
    let steps = rng.between(1, most) as usize;
    let shape = Shape::random(rng, steps);
    let mut run = random_run(rng, &shape);
    if rng.one_in(16) {
        move_to_the_end_of_time(&mut run);
    }
    let style = Style::random(rng);
    record(rng, &run, style)
}

/// Moves all times up so that the last one is the highest number.
fn move_to_the_end_of_time(run: &mut Run) {
    let by = u64::MAX - run.steps.iter().filter_map(Step::time).max().unwrap_or(0);
    for step in &mut run.steps {
        if let Step::Perform { time, .. } | Step::Take { time, .. } | Step::Give { time, .. } = step {
            *time += by;
        }
    }
}

/// A record about as long as a text may be, sometimes a little longer.
fn long(rng: &mut Rng) -> Vec<u8> {
    let mut shape = Shape::random(rng, 1900);
    shape.gap = 1;
    shape.values = 10;
    if rng.one_in(2) {
        shape.places = (0..60).map(|_| rng.below(512)).collect();
        shape.depth = 70;
    }
    let run = random_run(rng, &shape);
    let style = Style::random(rng);
    let mut trace = record(rng, &run, style);
    if rng.one_in(2) {
        while trace.to_string().len() > LONGEST_TEXT {
            trace.events.truncate(trace.events.len() - 20);
        }
    }
    trace.to_string().into_bytes()
}

fn mutated(rng: &mut Rng) -> Trace {
    let mut trace = honest(rng, 60);
    for _ in 0..rng.pick(&[1, 1, 1, 2, 3, 6]) {
        mutate(rng, &mut trace);
    }
    trace
}

fn damaged(rng: &mut Rng) -> Vec<u8> {
    let mut text = honest(rng, 20).to_string().into_bytes();
    for _ in 0..rng.pick(&[1, 1, 2]) {
        damage(rng, &mut text);
    }
    text
}

/// A trace that no machine need have made: events of which a watch takes most, and perhaps one that it does not.
fn wild(rng: &mut Rng) -> Trace {
    let threads = rng.between(1, 4);
    let rule = rng.pick(&NAMES).to_string();
    let watch = Watch::new(Rule::named(rule.as_bytes()).expect("a named rule"), threads).expect("one to four");
    let careful = rng.one_in(2);
    let mut wild = Wild { watch, trace: Trace { rule, threads, events: Vec::new() }, memory: [0; 4], careful };
    let patience = rng.pick(&[20, 100, 1000, u64::MAX]);
    for _ in 0..rng.between(5, 200) {
        let event = wild.next_event(rng);
        if !wild.offer(event) && rng.one_in(patience) {
            wild.trace.events.push(event);
            break;
        }
    }
    wild.tidy(rng);
    wild.trace.events.push(Event::close());
    wild.trace
}

struct Wild {
    watch: Watch,
    trace: Trace,
    /// What the last ended epoch of each of the first four places left there.
    memory: [u64; 4],
    /// Whether begins and ends are left out that would be convicted later.
    careful: bool,
}

impl Wild {
    /// Whether the epochs so far would be judged well if this begun one ended now.
    fn is_judged_well(&self, event: &Event, mut watch: Watch) -> bool {
        let (Event { thread, place, value, time, .. }, begun) = (*event, event.word == Word::Begin);
        if begun && call(&mut watch, &Event::end(thread, place, value, time + 1)).is_err() {
            return false;
        }
        watch.would_be_clean()
    }

    /// Adds the event to the trace if the watch takes it.
    fn offer(&mut self, event: Event) -> bool {
        let mut tried = self.watch.clone();
        let mut taken = call(&mut tried, &event).is_ok();
        if self.careful && taken && matches!(event.word, Word::Begin | Word::End) {
            taken = self.is_judged_well(&event, tried.clone());
        }
        if taken {
            self.watch = tried;
            self.trace.events.push(event);
            if event.word == Word::End {
                self.memory[event.place as usize] = event.value;
            }
        }
        taken
    }

    /// An event that has a good chance to be taken.
    fn next_event(&mut self, rng: &mut Rng) -> Event {
        let thread = rng.below(self.trace.threads);
        let time = self.watch.clock(thread).unwrap_or(0) + rng.pick(&[0, 0, 1, 1, 2]);
        let place = rng.below(4);
        let outstanding: Vec<u64> = self.watch.outstanding(thread).collect();
        let open: Vec<(u64, u64)> = self.watch.open(thread).collect();
        match rng.below(12) {
            0..=2 if outstanding.len() < 6 => {
                let class = if rng.one_in(4) { rng.between(2, 17) } else { rng.below(2) };
                let copy =
                    open.iter().find(|(at, _)| *at == place).map_or(self.memory[place as usize], |(_, copy)| *copy);
                let known = class == 0 && (self.careful || rng.one_in(2));
                let value = if known { copy } else { rng.below(3) };
                Event::commit(thread, class, place, value)
            }
            3..=6 if !outstanding.is_empty() => Event::perform(thread, rng.pick(&outstanding), time),
            7 | 8 => {
                let value = if rng.one_in(6) { rng.below(3) } else { self.memory[place as usize] };
                Event::begin(thread, rng.below(2), place, value, time)
            }
            9 | 10 if !open.is_empty() => {
                let (place, copy) = rng.pick(&open);
                Event::end(thread, place, copy, time)
            }
            11 if rng.one_in(2) => Event::settle(),
            _ => random_event(rng),
        }
    }

    /// Performs and ends what is left, as far as the watch takes it.
    fn tidy(&mut self, rng: &mut Rng) {
        for round in 0..60 {
            let thread = round % self.trace.threads;
            let time = self.watch.clock(thread).unwrap_or(0) + 1;
            for event in self.useful_events(rng, thread, time, round < 50) {
                self.offer(event);
            }
        }
    }

    /// Events that bring a thread nearer to having nothing outstanding and open.
    fn useful_events(&self, rng: &mut Rng, thread: u64, time: u64, early: bool) -> Vec<Event> {
        if !early || rng.one_in(3) {
            return self.watch.open(thread).map(|(place, copy)| Event::end(thread, place, copy, time)).collect();
        }
        let value = |place: u64| if time.is_multiple_of(3) { time / 3 % 3 } else { self.memory[place as usize] };
        let begins = (0..4).map(|place| Event::begin(thread, 1, place, value(place), time));
        let performs = self.watch.outstanding(thread).map(|number| Event::perform(thread, number, time));
        begins.chain(performs).collect()
    }
}

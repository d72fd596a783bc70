//! Events that lead to one verdict and code each.

use crate::rule::{CLASSES, NAMES};
use crate::scene::Scene;
use crate::targets::ByEvents;
use crate::text::Event;
use crate::watch::{MAX_OPEN, MAX_OUTSTANDING, MAX_WAITING};

/// What the events lead to, and how they are added to a scene.
pub const EVENTS: &[ByEvents] = &[
    ("clean", |_| ()),
    ("clean", clean_with_full_tables),
    ("clean", clean_with_room_made_by_ends),
    ("convicted 21", law_21),
    ("convicted 22", law_22_of_barriers),
    ("convicted 22", law_22_of_accesses),
    ("convicted 23", law_23_of_loads),
    ("convicted 23", law_23_of_stores),
    ("convicted 24", law_24_of_copies),
    ("convicted 24", law_24_of_stores),
    ("convicted 25", law_25),
    ("convicted 26", law_26),
    ("convicted 27", law_27),
    ("convicted 27", law_27_in_an_end),
    ("convicted 27", law_27_after_two_reads),
    ("convicted 28", law_28),
    ("refused 1", refusal_1),
    ("refused 4", refusal_4),
    ("refused 5", refusal_5),
    ("refused 6", refusal_6),
    ("refused 7", refusal_7),
    ("refused 8", refusal_8),
    ("refused 9", refusal_9),
    ("refused 10", refusal_10),
    ("refused 12, limit 1", limit_1),
    ("refused 12, limit 3", limit_3),
    ("refused 12, limit 6", limit_6),
    ("refused 12, limit 6", limit_6_by_its_own_begin),
    ("refused 13", refusal_13),
];

/// As many outstanding operations and open epochs as there may be.
fn clean_with_full_tables(scene: &mut Scene) {
    scene.start_anew(&["rmo", "pso"]);
    let thread = scene.thread();
    let place = scene.place();
    for value in 0..MAX_OUTSTANDING as u64 {
        scene.commit(thread, 1, place, value);
    }
    scene.begin(thread, 1, place, 0);
    let others: Vec<u64> = (1..MAX_OPEN).map(|_| scene.place()).collect();
    for other in &others {
        scene.begin(thread, 1, *other, 0);
    }
    for number in 0..MAX_OUTSTANDING as u64 {
        scene.perform(thread, number);
    }
    for other in &others {
        scene.end(thread, *other, 0);
    }
    scene.end(thread, place, MAX_OUTSTANDING as u64 - 1);
}

/// More epochs than may wait, without a settle but those of the ends.
fn clean_with_room_made_by_ends(scene: &mut Scene) {
    scene.start_anew(&NAMES);
    let place = scene.place();
    for _ in 0..MAX_WAITING / 2 * 3 {
        let kind = scene.rng.below(2);
        for thread in 0..scene.trace.threads {
            scene.epoch(thread, kind, place, 0);
        }
    }
}

fn law_21(scene: &mut Scene) {
    let (thread, place) = (scene.thread(), scene.place());
    if scene.rng.one_in(2) {
        scene.begin(thread, 1, place, 0);
    }
    let other = scene.place();
    let (class, mask) = (scene.rng.below(2), scene.rng.below(16));
    scene.commit(thread, class, other, 3);
    scene.commit(thread, 2 + mask, place, 3);
    for _ in 0..scene.rng.between(1, 3) {
        let class = scene.rng.below(2);
        scene.commit(thread, class, place, 0);
    }
    let store = scene.commit(thread, 1, place, 1);
    scene.perform(thread, store);
}

fn law_22_of_barriers(scene: &mut Scene) {
    let (thread, place, other) = (scene.thread(), scene.place(), scene.place());
    let mask = scene.rng.below(16);
    let first = scene.rng.below(2);
    scene.commit(thread, first, place, 0);
    scene.commit(thread, 2 + mask, 0, 0);
    // With an empty mask nothing is ordered, so a full one is added.
    let last = scene.commit(thread, CLASSES as u64 - 1, 0, 0);
    let class = scene.rng.below(2);
    let access = scene.commit(thread, class, other, 0);
    let number = if scene.rng.one_in(2) { last } else { access };
    scene.perform(thread, number);
}

fn law_22_of_accesses(scene: &mut Scene) {
    let pairs: &[(&str, u64, u64)] = &[
        ("sc", 0, 0),
        ("sc", 0, 1),
        ("sc", 1, 0),
        ("sc", 1, 1),
        ("tso", 0, 0),
        ("tso", 0, 1),
        ("tso", 1, 1),
        ("pso", 0, 0),
        ("pso", 0, 1),
    ];
    let (rule, first, second) = scene.rng.pick(pairs);
    scene.start_anew(&[rule]);
    let (thread, place, other) = (scene.thread(), scene.place(), scene.place());
    scene.begin(thread, 1, other, 0);
    scene.commit(thread, 2, 0, 0);
    scene.commit(thread, first, place, 0);
    scene.commit(thread, first, place, 0);
    let number = scene.commit(thread, second, other, 0);
    scene.perform(thread, number);
}

fn law_23_of_loads(scene: &mut Scene) {
    let (thread, place) = (scene.thread(), scene.place());
    if scene.rng.one_in(2) {
        scene.epoch(thread, 1, place, 0);
    }
    let load = scene.commit(thread, 0, place, 0);
    scene.perform(thread, load);
}

fn law_23_of_stores(scene: &mut Scene) {
    let (thread, place) = (scene.thread(), scene.place());
    match scene.rng.below(3) {
        0 => scene.begin(thread, 0, place, 0),
        1 => {
            let other = (thread + 1) % scene.trace.threads.max(2);
            scene.begin(other, 1, place, 0);
        }
        _ => scene.epoch(thread, 1, place, 0),
    }
    if scene.trace.threads == 1 {
        scene.trace.threads = 2;
    }
    let store = scene.commit(thread, 1, place, 0);
    scene.perform(thread, store);
}

fn law_24_of_copies(scene: &mut Scene) {
    let (thread, place) = (scene.thread(), scene.place());
    scene.begin(thread, 1, place, 0);
    let mut copy = 0;
    for _ in 0..scene.rng.below(3) {
        copy = scene.rng.between(1, 4);
        let store = scene.commit(thread, 1, place, copy);
        scene.perform(thread, store);
    }
    let load = scene.commit(thread, 0, place, copy + 1);
    scene.perform(thread, load);
}

fn law_24_of_stores(scene: &mut Scene) {
    scene.start_anew(&["tso", "pso", "rmo"]);
    let (thread, place) = (scene.thread(), scene.place());
    if scene.rng.one_in(2) {
        scene.begin(thread, 1, place, 0);
    }
    scene.commit(thread, 1, place, 5);
    scene.commit(thread, 1, place, 6);
    let load = scene.commit(thread, 0, place, 5);
    scene.commit(thread, 1, place, 5);
    scene.perform(thread, load);
}

fn law_25(scene: &mut Scene) {
    let (thread, place) = (scene.thread(), scene.place());
    scene.begin(thread, 1, place, 0);
    if scene.rng.one_in(2) {
        let class = scene.rng.below(2);
        let number = scene.commit(thread, class, place, 0);
        scene.perform(thread, number);
    }
    let time = scene.time;
    let value = scene.rng.below(2);
    scene.push(Event::end(thread, place, value, time));
}

fn law_26(scene: &mut Scene) {
    let (thread, place) = (scene.thread(), scene.place());
    let kind = scene.rng.below(2);
    scene.begin(thread, kind, place, 0);
    if kind == 1 && scene.rng.one_in(2) {
        let number = scene.commit(thread, 1, place, 9);
        scene.perform(thread, number);
    }
    scene.end(thread, place, 4);
}

fn law_27(scene: &mut Scene) {
    if scene.trace.threads == 1 {
        scene.trace.threads = 2;
    }
    let (thread, place) = (scene.thread(), scene.place());
    let other = (thread + 1) % scene.trace.threads;
    let (first, second) = scene.rng.pick(&[(0, 1), (1, 0), (1, 1)]);
    scene.begin(thread, first, place, 0);
    scene.begin(other, second, place, 0);
    let threads = if scene.rng.one_in(2) { [thread, other] } else { [other, thread] };
    for thread in threads {
        scene.end(thread, place, 0);
    }
    scene.maybe_settle();
}

/// A write that begins after the later of two reads has ended, and before the earlier one has.
fn law_27_after_two_reads(scene: &mut Scene) {
    if scene.trace.threads == 1 {
        scene.trace.threads = 2;
    }
    let (thread, place) = (scene.thread(), scene.place());
    let other = (thread + 1) % scene.trace.threads;
    scene.begin(thread, 0, place, 0);
    scene.epoch(other, 0, place, 0);
    scene.begin(other, 1, place, 0);
    scene.end(thread, place, 0);
    scene.end(other, place, 0);
    scene.maybe_settle();
}

/// A conviction in the settle that an end makes when 128 notices wait.
fn law_27_in_an_end(scene: &mut Scene) {
    scene.start_anew(&NAMES);
    scene.trace.threads = 2;
    let (place, other) = (scene.place(), scene.place());
    scene.begin(0, 1, place, 0);
    let kind = scene.rng.below(2);
    scene.begin(1, kind, place, 0);
    scene.end(1, place, 0);
    scene.end(0, place, 0);
    let time = scene.later();
    scene.push(Event::advance(1, time));
    for _ in 2..=MAX_WAITING {
        scene.epoch(0, 0, other, 0);
    }
}

fn law_28(scene: &mut Scene) {
    let (thread, place) = (scene.thread(), scene.place());
    match scene.rng.below(3) {
        0 => scene.push(Event::preset(place, 5)),
        1 => scene.epoch(thread, 0, place, 0),
        _ => {
            scene.begin(thread, 1, place, 0);
            let store = scene.commit(thread, 1, place, 5);
            scene.perform(thread, store);
            scene.end(thread, place, 5);
        }
    }
    let (thread, kind) = (scene.thread(), scene.rng.below(2));
    scene.epoch(thread, kind, place, 6);
    scene.maybe_settle();
}

fn refusal_1(scene: &mut Scene) {
    scene.trace.threads = scene.rng.pick(&[0, 5, 6, 255, 256, 1 << 32, u64::MAX]);
}

/// A thread number that the watch has not.
fn stranger(scene: &mut Scene) -> u64 {
    let threads = scene.trace.threads;
    scene.rng.pick(&[threads, threads, threads + 1, 1 << 32, u64::MAX])
}

fn refusal_4(scene: &mut Scene) {
    let thread = stranger(scene);
    let event = match scene.rng.below(5) {
        0 => Event::commit(thread, 18, 512, 0),
        1 => Event::perform(thread, 0, 0),
        2 => Event::advance(thread, 0),
        3 => Event::begin(thread, 2, 512, 0, 0),
        _ => Event::end(thread, 512, 0, 0),
    };
    scene.push(event);
}

fn refusal_5(scene: &mut Scene) {
    let thread = scene.thread();
    let event = match scene.rng.below(2) {
        0 => Event::commit(thread, scene.rng.pick(&[18, 19, 256, 257, u64::MAX]), 512, 0),
        _ => Event::begin(thread, scene.rng.pick(&[2, 3, 256, 257, u64::MAX]), 512, 0, 0),
    };
    scene.push(event);
}

fn refusal_6(scene: &mut Scene) {
    let thread = scene.thread();
    let place = scene.rng.pick(&[512, 513, 1024, 1 << 32, u64::MAX]);
    let event = match scene.rng.below(4) {
        0 => Event::preset(place, 0),
        1 => Event::commit(thread, scene.rng.below(2), place, 0),
        2 => Event::begin(thread, 0, place, 0, 0),
        _ => Event::end(thread, place, 0, 0),
    };
    scene.push(event);
}

fn refusal_7(scene: &mut Scene) {
    let (thread, place) = (scene.thread(), scene.place());
    let time = scene.later();
    scene.push(Event::advance(thread, time));
    let event = match scene.rng.below(4) {
        0 => Event::perform(thread, u64::MAX, time - 1),
        1 => Event::advance(thread, time - 1),
        2 => Event::begin(thread, 0, place, 0, time - 1),
        _ => Event::end(thread, place, 0, time - 1),
    };
    scene.push(event);
}

fn refusal_8(scene: &mut Scene) {
    let (thread, place) = (scene.thread(), scene.place());
    let number = if scene.rng.one_in(2) {
        scene.begin(thread, 0, place, 0);
        let number = scene.commit(thread, 0, place, 0);
        scene.perform(thread, number);
        number
    } else {
        let next = scene.committed[thread as usize];
        scene.rng.pick(&[next, next + 1, u64::MAX])
    };
    scene.perform(thread, number);
}

fn refusal_9(scene: &mut Scene) {
    let (thread, place) = (scene.thread(), scene.place());
    let kind = scene.rng.below(2);
    scene.begin(thread, kind, place, 0);
    match scene.rng.below(3) {
        0 => scene.begin(thread, kind, place, 0),
        1 => scene.push(Event::preset(place, 0)),
        _ => {
            scene.end(thread, place, 0);
            scene.push(Event::preset(place, 0));
        }
    }
}

fn refusal_10(scene: &mut Scene) {
    let (thread, place) = (scene.thread(), scene.place());
    if scene.rng.one_in(2) {
        scene.epoch(thread, 0, place, 0);
    }
    scene.end(thread, place, 0);
}

fn limit_1(scene: &mut Scene) {
    let (thread, place) = (scene.thread(), scene.place());
    for _ in 0..=MAX_OUTSTANDING {
        let class = scene.rng.below(CLASSES as u64);
        scene.commit(thread, class, place, 0);
    }
}

fn limit_3(scene: &mut Scene) {
    let thread = scene.thread();
    for _ in 0..=MAX_OPEN {
        let (place, kind) = (scene.place(), scene.rng.below(2));
        scene.begin(thread, kind, place, 0);
    }
}

/// More notices than may wait, with a thread that keeps the safe time back.
fn limit_6(scene: &mut Scene) {
    scene.start_anew(&NAMES);
    scene.trace.threads = scene.trace.threads.max(2);
    let place = scene.place();
    if scene.rng.one_in(2) {
        scene.begin(1, 0, place, 0);
        let time = scene.time + 1000;
        scene.push(Event::advance(1, time));
    }
    for _ in 0..=MAX_WAITING {
        scene.epoch(0, 0, place, 0);
    }
}

/// More notices than may wait, where only the ending epoch itself keeps the safe time back.
fn limit_6_by_its_own_begin(scene: &mut Scene) {
    scene.start_anew(&NAMES);
    let (thread, place, other) = (scene.thread(), scene.place(), scene.place());
    scene.begin(thread, 0, place, 0);
    for _ in 0..MAX_WAITING {
        let thread = scene.thread();
        scene.epoch(thread, 0, other, 0);
    }
    scene.settle_all();
    scene.trace.events.pop();
    scene.end(thread, place, 0);
}

fn refusal_13(scene: &mut Scene) {
    let (thread, place) = (scene.thread(), scene.place());
    if scene.rng.one_in(2) {
        let class = scene.rng.below(CLASSES as u64);
        scene.commit(thread, class, place, 0);
    } else {
        let kind = scene.rng.below(2);
        scene.begin(thread, kind, place, 0);
    }
}

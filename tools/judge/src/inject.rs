//! Errors of a memory system or of a recorder, put into the steps of an honest run.

use crate::machine::{Run, Step};
use crate::replay::{Fault, Operation, performs, replay, value_of};
use crate::rng::Rng;
use crate::rule::Class;
use crate::watch::Kind;

/// A kind of error: its name, and how it is put into a run, if the run has room for it.
pub struct Error {
    pub name: &'static str,
    pub put: fn(&mut Rng, &Run) -> Option<Vec<Step>>,
}

pub const ERRORS: &[Error] = &[
    Error { name: "flipped bit in a load's value", put: |rng, run| flip(rng, run, is_load) },
    Error { name: "flipped bit in a store's value, as recorded", put: |rng, run| flip(rng, run, is_store) },
    Error { name: "flipped bit in a store's value, as written", put: store_flips },
    Error { name: "flipped bit in an end's value", put: |rng, run| flip(rng, run, is_give) },
    Error { name: "flipped bit in a begin's value", put: |rng, run| flip(rng, run, is_take) },
    Error { name: "flipped bit in a granted copy", put: grant_flips },
    Error { name: "flipped bit in memory between epochs", put: memory_flips },
    Error { name: "changed place of a load", put: |rng, run| change_place(rng, run, is_load) },
    Error { name: "changed place of a store", put: |rng, run| change_place(rng, run, is_store) },
    Error { name: "changed place of a grant", put: change_place_of_grant },
    Error { name: "stale value of a load after another's write", put: stale_load },
    Error { name: "stale value of a grant after another's write", put: stale_grant },
    Error { name: "epoch that outlives an invalidation", put: outlive },
    Error { name: "lost grant", put: lose_grant },
    Error { name: "lost begin", put: lose_begin },
    Error { name: "duplicated grant to the same thread", put: duplicate_begin },
    Error { name: "duplicated grant to another thread", put: duplicate_grant },
    Error { name: "misrouted grant", put: misroute_grant },
    Error { name: "exchanged performs of two loads", put: |rng, run| exchange(rng, run, two_loads) },
    Error { name: "exchanged performs of stores to two places", put: |rng, run| exchange(rng, run, stores_apart) },
    Error { name: "exchanged performs of stores to one place", put: |rng, run| exchange(rng, run, stores_together) },
    Error { name: "load from an older store than the last", put: wrong_forwarding },
    Error { name: "load that misses its thread's outstanding store", put: missing_forwarding },
    Error { name: "lost store", put: lose_store },
    Error { name: "lost perform", put: lose_perform },
    Error { name: "corrupted time of a perform", put: |rng, run| corrupt_time(rng, run, is_perform) },
    Error { name: "corrupted time of a begin", put: |rng, run| corrupt_time(rng, run, is_take) },
    Error { name: "corrupted time of an end", put: |rng, run| corrupt_time(rng, run, is_give) },
];

fn is_load(step: &Step) -> bool {
    matches!(step, Step::Commit { class: Class::Load, .. })
}

fn is_store(step: &Step) -> bool {
    matches!(step, Step::Commit { class: Class::Store, .. })
}

fn is_perform(step: &Step) -> bool {
    matches!(step, Step::Perform { .. })
}

fn is_take(step: &Step) -> bool {
    matches!(step, Step::Take { .. })
}

fn is_give(step: &Step) -> bool {
    matches!(step, Step::Give { .. })
}

/// A random one of the steps of which this is true.
fn some_step(rng: &mut Rng, steps: &[Step], wanted: impl Fn(&Step) -> bool) -> Option<usize> {
    let found: Vec<usize> = (0..steps.len()).filter(|at| wanted(&steps[*at])).collect();
    if found.is_empty() { None } else { Some(rng.pick(&found)) }
}

fn time_of(step: &mut Step) -> Option<&mut u64> {
    match step {
        Step::Perform { time, .. } | Step::Take { time, .. } | Step::Give { time, .. } => Some(time),
        Step::Commit { .. } => None,
    }
}

fn place_of(step: &mut Step) -> Option<&mut u64> {
    match step {
        Step::Commit { place, .. } | Step::Take { place, .. } | Step::Give { place, .. } => Some(place),
        Step::Perform { .. } => None,
    }
}

fn flip(rng: &mut Rng, run: &Run, wanted: fn(&Step) -> bool) -> Option<Vec<Step>> {
    let mut steps = run.steps.clone();
    let at = some_step(rng, &steps, wanted)?;
    *value_of(&mut steps[at])? ^= 1 << rng.below(64);
    Some(steps)
}

fn another_place(rng: &mut Rng, run: &Run, place: u64) -> Option<u64> {
    let mut places: Vec<u64> = run.steps.iter().filter_map(|step| place_of(&mut step.clone()).copied()).collect();
    places.retain(|other| *other != place && *other < 512);
    if places.is_empty() { None } else { Some(rng.pick(&places)) }
}

fn change_place(rng: &mut Rng, run: &Run, wanted: fn(&Step) -> bool) -> Option<Vec<Step>> {
    let mut steps = run.steps.clone();
    let at = some_step(rng, &steps, wanted)?;
    let place = place_of(&mut steps[at])?;
    *place = another_place(rng, run, *place)?;
    Some(steps)
}

/// The index of the giving back that belongs to a taking.
fn give_of(steps: &[Step], take: usize) -> Option<usize> {
    let Step::Take { thread, place, .. } = steps[take] else {
        return None;
    };
    let same = |step: &Step| matches!(*step, Step::Give { thread: by, place: at, .. } if by == thread && at == place);
    (take..steps.len()).find(|at| same(&steps[*at]))
}

/// A random taking with the index of its giving back.
fn some_grant(rng: &mut Rng, steps: &[Step]) -> Option<(usize, usize)> {
    let take = some_step(rng, steps, is_take)?;
    Some((take, give_of(steps, take)?))
}

fn change_place_of_grant(rng: &mut Rng, run: &Run) -> Option<Vec<Step>> {
    let mut steps = run.steps.clone();
    let (take, give) = some_grant(rng, &steps)?;
    let place = another_place(rng, run, *place_of(&mut steps[take])?)?;
    *place_of(&mut steps[take])? = place;
    *place_of(&mut steps[give])? = place;
    Some(steps)
}

fn lose_grant(rng: &mut Rng, run: &Run) -> Option<Vec<Step>> {
    let mut steps = run.steps.clone();
    let (take, give) = some_grant(rng, &steps)?;
    steps.remove(give);
    steps.remove(take);
    Some(steps)
}

fn lose_begin(rng: &mut Rng, run: &Run) -> Option<Vec<Step>> {
    let mut steps = run.steps.clone();
    let take = some_step(rng, &steps, is_take)?;
    steps.remove(take);
    Some(steps)
}

fn lose_perform(rng: &mut Rng, run: &Run) -> Option<Vec<Step>> {
    let mut steps = run.steps.clone();
    let perform = some_step(rng, &steps, is_perform)?;
    steps.remove(perform);
    Some(steps)
}

fn duplicate_begin(rng: &mut Rng, run: &Run) -> Option<Vec<Step>> {
    let mut steps = run.steps.clone();
    let take = some_step(rng, &steps, is_take)?;
    steps.insert(take, steps[take]);
    Some(steps)
}

fn another_thread(rng: &mut Rng, run: &Run, thread: usize) -> Option<usize> {
    let others: Vec<usize> = (0..run.threads).filter(|other| *other != thread).collect();
    if others.is_empty() { None } else { Some(rng.pick(&others)) }
}

fn by_thread(step: Step, to: usize) -> Step {
    match step {
        Step::Commit { class, place, value, .. } => Step::Commit { thread: to, class, place, value },
        Step::Perform { number, time, .. } => Step::Perform { thread: to, number, time },
        Step::Take { kind, place, value, time, .. } => Step::Take { thread: to, kind, place, value, time },
        Step::Give { place, value, time, .. } => Step::Give { thread: to, place, value, time },
    }
}

/// The taking and the giving back happen to another thread as well.
fn duplicate_grant(rng: &mut Rng, run: &Run) -> Option<Vec<Step>> {
    let mut steps = run.steps.clone();
    let (take, give) = some_grant(rng, &steps)?;
    let to = another_thread(rng, run, steps[take].thread())?;
    steps.insert(give, by_thread(steps[give], to));
    steps.insert(take, by_thread(steps[take], to));
    Some(steps)
}

/// The taking and the giving back happen to another thread instead.
fn misroute_grant(rng: &mut Rng, run: &Run) -> Option<Vec<Step>> {
    let mut steps = run.steps.clone();
    let (take, give) = some_grant(rng, &steps)?;
    let to = another_thread(rng, run, steps[take].thread())?;
    steps[take] = by_thread(steps[take], to);
    steps[give] = by_thread(steps[give], to);
    Some(steps)
}

/// Puts a giving back after the next taking of the place by another thread that it had to come before.
fn outlive(rng: &mut Rng, run: &Run) -> Option<Vec<Step>> {
    let mut steps = run.steps.clone();
    let (take, give) = some_grant(rng, &steps)?;
    let Step::Take { thread, kind, place, .. } = steps[take] else {
        return None;
    };
    let conflicts = |step: &Step| match *step {
        Step::Take { thread: by, kind: other, place: at, time, .. } if by != thread && at == place => {
            (kind == Kind::Write || other == Kind::Write).then_some(time)
        }
        _ => None,
    };
    let time = steps[give..].iter().find_map(conflicts)? + 1;
    let mut late = steps.remove(give);
    *time_of(&mut late)? = time;
    let is_later = |step: &Step| time_of(&mut step.clone()).is_some_and(|other| *other > time);
    let at = (give..steps.len()).find(|at| is_later(&steps[*at])).unwrap_or(steps.len());
    steps.insert(at, late);
    Some(steps)
}

fn corrupt_time(rng: &mut Rng, run: &Run, wanted: fn(&Step) -> bool) -> Option<Vec<Step>> {
    let mut steps = run.steps.clone();
    let at = some_step(rng, &steps, wanted)?;
    let width = rng.pick(&[3, 6, 64]);
    *time_of(&mut steps[at])? ^= 1 << rng.below(width);
    Some(steps)
}

fn two_loads(first: &Operation, second: &Operation) -> bool {
    first.class == Class::Load && second.class == Class::Load
}

fn stores_apart(first: &Operation, second: &Operation) -> bool {
    first.class == Class::Store && second.class == Class::Store && first.place != second.place
}

fn stores_together(first: &Operation, second: &Operation) -> bool {
    first.class == Class::Store && second.class == Class::Store && first.place == second.place
}

/// Exchanges two performs of a thread whose operations were both pending, and lets values follow.
fn exchange(rng: &mut Rng, run: &Run, wanted: fn(&Operation, &Operation) -> bool) -> Option<Vec<Step>> {
    let performs = performs(&run.steps);
    let mut pairs = Vec::new();
    for (at, first) in performs.iter().enumerate() {
        let fits = |second: &&Operation| second.thread == first.thread && second.commit < first.perform;
        let next = performs[at + 1..].iter().find(|second| second.thread == first.thread);
        pairs.extend(next.filter(fits).filter(|second| wanted(first, second)).map(|second| (*first, *second)));
    }
    if pairs.is_empty() {
        return None;
    }
    let (first, second) = rng.pick(&pairs);
    let mut steps = run.steps.clone();
    if let (Step::Perform { number: a, .. }, Step::Perform { number: b, .. }) =
        (run.steps[first.perform], run.steps[second.perform])
    {
        set_number(&mut steps[first.perform], b);
        set_number(&mut steps[second.perform], a);
    }
    Some(replay(run, &steps, &Fault::None))
}

fn set_number(step: &mut Step, to: u64) {
    if let Step::Perform { number, .. } = step {
        *number = to;
    }
}

/// The index of a random perform of a store.
fn some_store_perform(rng: &mut Rng, run: &Run) -> Option<usize> {
    let stores: Vec<Operation> =
        performs(&run.steps).into_iter().filter(|operation| operation.class == Class::Store).collect();
    if stores.is_empty() { None } else { Some(rng.pick(&stores).perform) }
}

fn lose_store(rng: &mut Rng, run: &Run) -> Option<Vec<Step>> {
    let at = some_store_perform(rng, run)?;
    Some(replay(run, &run.steps, &Fault::LostStore(at)))
}

fn store_flips(rng: &mut Rng, run: &Run) -> Option<Vec<Step>> {
    let at = some_store_perform(rng, run)?;
    Some(replay(run, &run.steps, &Fault::FlippedStore(at, 1 << rng.below(64))))
}

fn grant_flips(rng: &mut Rng, run: &Run) -> Option<Vec<Step>> {
    let mut steps = run.steps.clone();
    let at = some_step(rng, &steps, is_take)?;
    let value = *value_of(&mut steps[at])? ^ (1 << rng.below(64));
    Some(replay(run, &steps, &Fault::Granted(at, value)))
}

/// How many threads hold the place of a step before it.
fn holders(run: &Run, at: usize) -> usize {
    let place = place_of(&mut run.steps[at].clone()).copied();
    let here = |step: &&Step| place_of(&mut (*step).clone()).copied() == place;
    let count = |wanted: fn(&Step) -> bool| run.steps[..at].iter().filter(here).filter(|step| wanted(step)).count();
    count(is_take) - count(is_give)
}

/// A bit flips in a place that nobody holds, before a taking of it.
fn memory_flips(rng: &mut Rng, run: &Run) -> Option<Vec<Step>> {
    let starts_use = |at: usize| is_take(&run.steps[at]) && holders(run, at) == 0;
    let found: Vec<usize> = (0..run.steps.len()).filter(|at| starts_use(*at)).collect();
    if found.is_empty() {
        return None;
    }
    let at = rng.pick(&found);
    let place = *place_of(&mut run.steps[at].clone())?;
    Some(replay(run, &run.steps, &Fault::FlippedMemory(at, place, 1 << rng.below(64))))
}

/// The value that a place had before the last store to it, if another thread made that store.
fn stale_value(run: &Run, upto: usize, thread: usize, place: u64) -> Option<u64> {
    let mut values =
        vec![run.presets.iter().filter(|(at, _)| *at == place).map(|(_, value)| *value).next_back().unwrap_or(0)];
    let mut by = thread;
    for operation in performs(&run.steps[..upto]) {
        if operation.class == Class::Store
            && operation.place == place
            && let Step::Commit { value, .. } = run.steps[operation.commit]
        {
            values.push(value);
            by = operation.thread;
        }
    }
    let (last, before) = (values.pop()?, values.pop()?);
    (by != thread && last != before).then_some(before)
}

/// A load gets what the place held before another thread's last write.
fn stale_load(rng: &mut Rng, run: &Run) -> Option<Vec<Step>> {
    let mut found = Vec::new();
    for load in performs(&run.steps).iter().filter(|operation| operation.class == Class::Load) {
        found.extend(stale_value(run, load.perform, load.thread, load.place).map(|value| (load.commit, value)));
    }
    if found.is_empty() {
        return None;
    }
    let (commit, value) = rng.pick(&found);
    let mut steps = run.steps.clone();
    *value_of(&mut steps[commit])? = value;
    Some(steps)
}

/// A taking gets what the place held before another thread's last write, and values follow.
fn stale_grant(rng: &mut Rng, run: &Run) -> Option<Vec<Step>> {
    let mut found = Vec::new();
    for (at, step) in run.steps.iter().enumerate() {
        if let Step::Take { thread, place, .. } = *step {
            found.extend(stale_value(run, at, thread, place).map(|value| (at, value)));
        }
    }
    if found.is_empty() {
        return None;
    }
    let (at, value) = rng.pick(&found);
    Some(replay(run, &run.steps, &Fault::Granted(at, value)))
}

/// For each load that was served by a pending store: its commit, and what else it could have got.
fn forwarded_loads(run: &Run, from_older: bool) -> Vec<(usize, u64)> {
    let operations = performs(&run.steps);
    let mut found = Vec::new();
    for load in operations.iter().filter(|operation| operation.class == Class::Load) {
        let earlier = |store: &&Operation| {
            let own = store.thread == load.thread && store.commit < load.commit;
            own && store.class == Class::Store && store.place == load.place
        };
        let mut stores: Vec<&Operation> = operations.iter().filter(earlier).collect();
        stores.sort_by_key(|store| store.commit);
        let Some((last, older)) = stores.split_last().filter(|(last, _)| last.perform > load.perform) else {
            continue;
        };
        let stored = |at: usize| value_of(&mut run.steps[at].clone()).copied();
        let older = older.last().and_then(|store| stored(store.commit));
        let memory = memory_before(run, load.perform, load.place);
        let value = if from_older { older } else { Some(memory) };
        found.extend(value.filter(|value| stored(last.commit) != Some(*value)).map(|value| (load.commit, value)));
    }
    found
}

/// What the memory holds at a place before this step.
fn memory_before(run: &Run, upto: usize, place: u64) -> u64 {
    let preset = run.presets.iter().filter(|(at, _)| *at == place).map(|(_, value)| *value).next_back().unwrap_or(0);
    let performs = performs(&run.steps[..upto]);
    let mut stores = performs.iter().filter(|operation| operation.class == Class::Store && operation.place == place);
    let last = stores.next_back().and_then(|store| value_of(&mut run.steps[store.commit].clone()).copied());
    last.unwrap_or(preset)
}

fn wrong_forwarding(rng: &mut Rng, run: &Run) -> Option<Vec<Step>> {
    put_value(rng, run, &forwarded_loads(run, true))
}

fn missing_forwarding(rng: &mut Rng, run: &Run) -> Option<Vec<Step>> {
    put_value(rng, run, &forwarded_loads(run, false))
}

fn put_value(rng: &mut Rng, run: &Run, found: &[(usize, u64)]) -> Option<Vec<Step>> {
    if found.is_empty() {
        return None;
    }
    let (commit, value) = rng.pick(found);
    let mut steps = run.steps.clone();
    *value_of(&mut steps[commit])? = value;
    Some(steps)
}

//! The memory machine, and random runs of it.

use crate::rng::Rng;
use crate::rule::{Class, NAMES, Rule};
use crate::watch::Kind;
use std::collections::BTreeMap;

/// One step of a run.
#[derive(Clone, Copy, Debug, PartialEq, Eq)]
pub enum Step {
    Commit { thread: usize, class: Class, place: u64, value: u64 },
    Perform { thread: usize, number: u64, time: u64 },
    Take { thread: usize, kind: Kind, place: u64, value: u64, time: u64 },
    Give { thread: usize, place: u64, value: u64, time: u64 },
}

impl Step {
    pub fn thread(&self) -> usize {
        match *self {
            Step::Commit { thread, .. }
            | Step::Perform { thread, .. }
            | Step::Take { thread, .. }
            | Step::Give { thread, .. } => thread,
        }
    }

    /// The time of a step that has one.
    pub fn time(&self) -> Option<u64> {
        match *self {
            Step::Commit { .. } => None,
            Step::Perform { time, .. } | Step::Take { time, .. } | Step::Give { time, .. } => Some(time),
        }
    }
}

/// A whole run: what the machine was like, and its steps in their order.
#[derive(Clone, Debug)]
pub struct Run {
    pub rule: String,
    pub threads: usize,
    pub presets: Vec<(u64, u64)>,
    pub steps: Vec<Step>,
}

/// A pending operation. A load's value is found when it performs.
#[derive(Clone, Copy, Debug, PartialEq, Eq, Hash)]
pub struct Pending {
    pub number: u64,
    pub class: Class,
    pub place: u64,
    pub value: u64,
}

/// A place that a thread holds.
#[derive(Clone, Copy, Debug, PartialEq, Eq, Hash)]
pub struct Hold {
    pub kind: Kind,
    pub last_use: u64,
}

/// What one thread of the machine has.
#[derive(Clone, Debug, Default, PartialEq, Eq, Hash)]
pub struct Thread {
    pub committed: u64,
    pub pending: Vec<Pending>,
    pub holds: BTreeMap<u64, Hold>,
}

/// The machine: memory, pending operations and holds.
#[derive(Clone, Debug)]
pub struct Machine {
    pub rule: Rule,
    pub memory: BTreeMap<u64, u64>,
    pub threads: Vec<Thread>,
}

impl Machine {
    pub fn new(rule: Rule, threads: usize, presets: &[(u64, u64)]) -> Machine {
        Machine { rule, memory: presets.iter().copied().collect(), threads: vec![Thread::default(); threads] }
    }

    pub fn value(&self, place: u64) -> u64 {
        self.memory.get(&place).copied().unwrap_or(0)
    }

    pub fn commit(&mut self, thread: usize, class: Class, place: u64, value: u64) -> u64 {
        let thread = &mut self.threads[thread];
        let number = thread.committed;
        thread.committed += 1;
        thread.pending.push(Pending { number, class, place, value });
        number
    }

    /// Whether the thread's pending operation at this index can perform now.
    pub fn can_perform(&self, thread: usize, at: usize) -> bool {
        let pending = &self.threads[thread].pending;
        let (earlier, operation) = (&pending[..at], pending[at]);
        if earlier.iter().any(|other| self.rule.ordered(other.class, operation.class)) {
            return false;
        }
        let here = |other: &Pending| other.class.is_access() && other.place == operation.place;
        let hold = self.threads[thread].holds.get(&operation.place);
        match operation.class {
            Class::Barrier(_) => true,
            Class::Store => !earlier.iter().any(here) && hold.is_some_and(|hold| hold.kind == Kind::Write),
            Class::Load => self.forwarded(thread, at).is_some() || hold.is_some(),
        }
    }

    /// The value of the last earlier pending store to the place of the operation at this index.
    fn forwarded(&self, thread: usize, at: usize) -> Option<u64> {
        let pending = &self.threads[thread].pending;
        let source = |other: &&Pending| other.class == Class::Store && other.place == pending[at].place;
        pending[..at].iter().rev().find(source).map(|store| store.value)
    }

    /// Performs an operation that can perform, and answers it with its value.
    pub fn perform(&mut self, thread: usize, at: usize, time: u64) -> Pending {
        let forwarded = self.forwarded(thread, at);
        let mut operation = self.threads[thread].pending.remove(at);
        let from_memory = operation.class == Class::Load && forwarded.is_none();
        if operation.class == Class::Load {
            operation.value = forwarded.unwrap_or_else(|| self.value(operation.place));
        }
        if operation.class == Class::Store {
            self.memory.insert(operation.place, operation.value);
        }
        if operation.class == Class::Store || from_memory {
            let hold = self.threads[thread].holds.get_mut(&operation.place).expect("held");
            hold.last_use = time;
        }
        operation
    }

    pub fn can_take(&self, thread: usize, kind: Kind, place: u64) -> bool {
        let blocks = |hold: &Hold| kind == Kind::Write || hold.kind == Kind::Write;
        !self.threads[thread].holds.contains_key(&place)
            && !self.threads.iter().filter_map(|other| other.holds.get(&place)).any(blocks)
    }

    pub fn take(&mut self, thread: usize, kind: Kind, place: u64, time: u64) {
        self.threads[thread].holds.insert(place, Hold { kind, last_use: time });
    }

    pub fn give(&mut self, thread: usize, place: u64) {
        self.threads[thread].holds.remove(&place);
    }
}

/// What random runs look like.
#[derive(Clone, Debug)]
pub struct Shape {
    pub rule: String,
    pub threads: usize,
    pub places: Vec<u64>,
    pub steps: usize,
    /// How many operations a thread may have pending.
    pub depth: usize,
    /// The largest step of the time between two steps.
    pub gap: u64,
    /// Values are below this.
    pub values: u64,
    /// One operation in so many is a barrier.
    pub barriers: u64,
}

impl Shape {
    /// A random shape with about this many steps.
    pub fn random(rng: &mut Rng, steps: usize) -> Shape {
        let count = rng.between(1, 6);
        let place = |rng: &mut Rng| if rng.one_in(3) { rng.pick(&[0, 1, 2, 3, 510, 511]) } else { rng.below(512) };
        Shape {
            rule: rng.pick(&NAMES).to_string(),
            threads: rng.between(1, 4) as usize,
            places: (0..count).map(|_| place(rng)).collect(),
            steps,
            depth: rng.pick(&[1, 2, 4, 8, 16]),
            gap: rng.pick(&[1, 1, 2, 5, 1000]),
            values: rng.pick(&[2, 3, 10, u64::MAX]),
            barriers: rng.pick(&[3, 6, 20]),
        }
    }
}

/// A machine that writes down its own run.
pub struct Runner<'a> {
    machine: Machine,
    shape: &'a Shape,
    rng: &'a mut Rng,
    run: Run,
    /// For each thread, at which step each of its operations was committed.
    commits: Vec<Vec<usize>>,
    time: u64,
}

/// A random run that ends with nothing pending or held.
pub fn random_run(rng: &mut Rng, shape: &Shape) -> Run {
    let mut presets = Vec::new();
    for _ in 0..rng.below(4) {
        presets.push((rng.pick(&shape.places), rng.below(shape.values)));
    }
    let rule = Rule::named(shape.rule.as_bytes()).expect("a named rule");
    let mut runner = Runner {
        machine: Machine::new(rule, shape.threads, &presets),
        run: Run { rule: shape.rule.clone(), threads: shape.threads, presets, steps: Vec::new() },
        commits: vec![Vec::new(); shape.threads],
        time: if rng.one_in(8) { rng.below(1 << 40) } else { rng.below(2) },
        shape,
        rng,
    };
    while runner.run.steps.len() < shape.steps {
        let thread = runner.rng.index(shape.threads);
        runner.act(thread);
    }
    runner.finish();
    runner.run
}

impl Runner<'_> {
    /// One random step of a thread, if the one thought of is possible.
    fn act(&mut self, thread: usize) {
        if self.rng.one_in(3) {
            self.time += self.rng.below(self.shape.gap + 1);
        }
        let place = self.rng.pick(&self.shape.places);
        match self.rng.below(10) {
            0..=2 => self.commit(thread),
            3..=6 => self.perform_some(thread),
            7 | 8 => self.take_wanted(thread),
            _ => self.give(thread, place),
        }
    }

    fn commit(&mut self, thread: usize) {
        if self.machine.threads[thread].pending.len() >= self.shape.depth {
            return;
        }
        let class = match self.rng.one_in(self.shape.barriers) {
            true => Class::Barrier(self.rng.below(16) as u8),
            false => self.rng.pick(&[Class::Load, Class::Store]),
        };
        let mut place = self.rng.pick(&self.shape.places);
        let mut value = if class == Class::Load { 0 } else { self.rng.below(self.shape.values) };
        if !class.is_access() {
            place = self.rng.pick(&[0, place, 512, u64::MAX]);
            value = self.rng.pick(&[0, value, u64::MAX]);
        }
        self.commits[thread].push(self.run.steps.len());
        self.machine.commit(thread, class, place, value);
        self.run.steps.push(Step::Commit { thread, class, place, value });
    }

    /// Performs a random one of the operations that can perform.
    fn perform_some(&mut self, thread: usize) {
        let pending = self.machine.threads[thread].pending.len();
        let ready: Vec<usize> = (0..pending).filter(|at| self.machine.can_perform(thread, *at)).collect();
        if !ready.is_empty() {
            let at = self.rng.pick(&ready);
            self.perform(thread, at);
        }
    }

    fn perform(&mut self, thread: usize, at: usize) {
        let operation = self.machine.perform(thread, at, self.time);
        let commit = self.commits[thread][operation.number as usize];
        if let Step::Commit { class: Class::Load, value, .. } = &mut self.run.steps[commit] {
            *value = operation.value;
        }
        self.run.steps.push(Step::Perform { thread, number: operation.number, time: self.time });
    }

    /// Takes a place: mostly one that a pending operation needs.
    fn take_wanted(&mut self, thread: usize) {
        let pending = &self.machine.threads[thread].pending;
        let wanted: Vec<Pending> = pending.iter().copied().filter(|pending| pending.class.is_access()).collect();
        let (mut kind, mut place) = (self.rng.pick(&[Kind::Read, Kind::Write]), self.rng.pick(&self.shape.places));
        if !wanted.is_empty() && !self.rng.one_in(5) {
            let operation = self.rng.pick(&wanted);
            place = operation.place;
            kind = if operation.class == Class::Store { Kind::Write } else { kind };
        }
        if self.machine.can_take(thread, kind, place) {
            self.take(thread, kind, place);
        }
    }

    fn take(&mut self, thread: usize, kind: Kind, place: u64) {
        self.machine.take(thread, kind, place, self.time);
        let value = self.machine.value(place);
        self.run.steps.push(Step::Take { thread, kind, place, value, time: self.time });
    }

    /// Gives a place back if the thread holds it.
    fn give(&mut self, thread: usize, place: u64) {
        if let Some(hold) = self.machine.threads[thread].holds.get(&place) {
            self.time = self.time.max(hold.last_use + 1);
            self.machine.give(thread, place);
            let value = self.machine.value(place);
            self.run.steps.push(Step::Give { thread, place, value, time: self.time });
        }
    }

    /// Performs all that is pending and gives back all that is held.
    fn finish(&mut self) {
        while let Some(thread) = self.busy_thread() {
            self.serve_oldest(thread);
            self.perform_some(thread);
        }
        for thread in 0..self.shape.threads {
            for place in self.shape.places.clone() {
                self.give(thread, place);
            }
        }
    }

    fn busy_thread(&mut self) -> Option<usize> {
        let busy = |thread: &usize| !self.machine.threads[*thread].pending.is_empty();
        let busy: Vec<usize> = (0..self.shape.threads).filter(busy).collect();
        if busy.is_empty() { None } else { Some(self.rng.pick(&busy)) }
    }

    /// Gets the thread what its oldest pending operation needs.
    fn serve_oldest(&mut self, thread: usize) {
        let oldest = self.machine.threads[thread].pending[0];
        if !oldest.class.is_access() || self.machine.can_perform(thread, 0) {
            return;
        }
        for other in 0..self.shape.threads {
            self.give(other, oldest.place);
        }
        let kind = if oldest.class == Class::Store { Kind::Write } else { Kind::Read };
        self.take(thread, kind, oldest.place);
    }
}

//! Litmus tests: small programs with a weak outcome, and searches for traces of that outcome.

use crate::consistency::{Operation, Setting};
use crate::machine::{Machine, Run, Step, Thread};
use crate::record::event;
use crate::rule::{Class, LOAD_LOAD, LOAD_STORE, NAMES, Rule, STORE_LOAD, STORE_STORE};
use crate::text::{Event, Trace};
use crate::watch::Kind;
use std::collections::{BTreeMap, HashSet};

/// An operation of a litmus test. A load has the value of the weak outcome.
#[derive(Clone, Copy, Debug, PartialEq, Eq, Hash)]
pub enum Op {
    Load(u64, u64),
    Store(u64, u64),
    Barrier(u8),
}

impl Op {
    pub fn class(self) -> Class {
        match self {
            Op::Load(..) => Class::Load,
            Op::Store(..) => Class::Store,
            Op::Barrier(mask) => Class::Barrier(mask),
        }
    }

    pub fn place_and_value(self) -> (u64, u64) {
        match self {
            Op::Load(place, value) | Op::Store(place, value) => (place, value),
            Op::Barrier(_) => (0, 0),
        }
    }
}

/// A program, its weak outcome, and under which of sc, tso, pso and rmo the literature allows the outcome.
#[derive(Clone, Debug)]
pub struct Test {
    pub name: &'static str,
    pub threads: Vec<Vec<Op>>,
    /// The values that places have in the end, where the outcome says something of them.
    pub finals: Vec<(u64, u64)>,
    pub published: [bool; 4],
}

const X: u64 = 0;
const Y: u64 = 1;
const NOWHERE: [bool; 4] = [false; 4];
const RMO: [bool; 4] = [false, false, false, true];
const PSO_RMO: [bool; 4] = [false, false, true, true];
const TSO_PSO_RMO: [bool; 4] = [false, true, true, true];

/// The tests without barriers, classified as in the literature on the SPARC memory models.
pub fn tests() -> Vec<Test> {
    use Op::{Load, Store};
    let test = |name, threads: &[&[Op]], finals: &[(u64, u64)], published| Test {
        name,
        threads: threads.iter().map(|thread| thread.to_vec()).collect(),
        finals: finals.to_vec(),
        published,
    };
    vec![
        test("SB", &[&[Store(X, 1), Load(Y, 0)], &[Store(Y, 1), Load(X, 0)]], &[], TSO_PSO_RMO),
        test("MP", &[&[Store(X, 1), Store(Y, 1)], &[Load(Y, 1), Load(X, 0)]], &[], PSO_RMO),
        test("LB", &[&[Load(X, 1), Store(Y, 1)], &[Load(Y, 1), Store(X, 1)]], &[], RMO),
        test("S", &[&[Store(X, 2), Store(Y, 1)], &[Load(Y, 1), Store(X, 1)]], &[(X, 2)], PSO_RMO),
        test("R", &[&[Store(X, 1), Store(Y, 1)], &[Store(Y, 2), Load(X, 0)]], &[(Y, 2)], TSO_PSO_RMO),
        test("2+2W", &[&[Store(X, 1), Store(Y, 2)], &[Store(Y, 1), Store(X, 2)]], &[(X, 1), (Y, 1)], PSO_RMO),
        test("WRC", &[&[Store(X, 1)], &[Load(X, 1), Store(Y, 1)], &[Load(Y, 1), Load(X, 0)]], &[], RMO),
        test("IRIW", &[&[Store(X, 1)], &[Store(Y, 1)], &[Load(X, 1), Load(Y, 0)], &[Load(Y, 1), Load(X, 0)]], &[], RMO),
        test("CoRR", &[&[Store(X, 1)], &[Load(X, 1), Load(X, 0)]], &[], RMO),
        test("CoWW", &[&[Store(X, 1), Store(X, 2)]], &[(X, 1)], NOWHERE),
        test("CoRW1", &[&[Load(X, 1), Store(X, 1)]], &[], NOWHERE),
        test("CoRW2", &[&[Load(X, 2), Store(X, 1)], &[Store(X, 2)]], &[(X, 2)], NOWHERE),
        test("CoWR", &[&[Store(X, 1), Load(X, 2)], &[Store(X, 2)]], &[(X, 1)], NOWHERE),
        test("CoWR0", &[&[Store(X, 1), Load(X, 0)]], &[], NOWHERE),
    ]
}

/// The tests with the weakest barriers between a thread's two operations that forbid the outcome everywhere.
pub fn tests_with_barriers() -> Vec<Test> {
    let fenced = |test: Test, name| Test {
        name,
        threads: test.threads.iter().map(|thread| with_barrier(thread)).collect(),
        published: NOWHERE,
        ..test
    };
    let names = [
        "SB with barriers",
        "MP with barriers",
        "LB with barriers",
        "S with barriers",
        "R with barriers",
        "2+2W with barriers",
        "WRC with barriers",
        "IRIW with barriers",
        "CoRR with barriers",
    ];
    tests().into_iter().zip(names).map(|(test, name)| fenced(test, name)).collect()
}

/// The thread's two operations with the barrier between them whose mask has just their pair.
fn with_barrier(thread: &[Op]) -> Vec<Op> {
    let [first, second] = *thread else {
        return thread.to_vec();
    };
    let mask = match (first.class(), second.class()) {
        (Class::Load, Class::Load) => LOAD_LOAD,
        (Class::Store, Class::Load) => STORE_LOAD,
        (Class::Load, _) => LOAD_STORE,
        (_, _) => STORE_STORE,
    };
    vec![first, Op::Barrier(mask), second]
}

impl Test {
    pub fn places(&self) -> u64 {
        let highest = self.threads.iter().flatten().map(|op| op.place_and_value().0).max();
        1 + highest.unwrap_or(0)
    }

    pub fn highest_value(&self) -> u64 {
        self.threads.iter().flatten().map(|op| op.place_and_value().1).max().unwrap_or(0)
    }

    /// The test in words, as "x = 1; y -> 0 | y = 1; x -> 0".
    pub fn program(&self) -> String {
        let place = |place: u64| ["x", "y"][place as usize];
        let barrier = |mask: u8| match mask {
            LOAD_LOAD => "#LoadLoad",
            STORE_LOAD => "#StoreLoad",
            LOAD_STORE => "#LoadStore",
            _ => "#StoreStore",
        };
        let op = |op: &Op| match *op {
            Op::Load(at, value) => format!("{} is {value}", place(at)),
            Op::Store(at, value) => format!("{} := {value}", place(at)),
            Op::Barrier(mask) => barrier(mask).to_string(),
        };
        let thread = |thread: &Vec<Op>| thread.iter().map(op).collect::<Vec<String>>().join("; ");
        let mut text = self.threads.iter().map(thread).collect::<Vec<String>>().join(" ∥ ");
        for (at, value) in &self.finals {
            text += &format!("; in the end {} is {value}", place(*at));
        }
        text
    }

    /// Events by which the outcome's final values are seen after all else.
    fn observation(&self, time: u64) -> Vec<Event> {
        let see = |(place, value): &(u64, u64)| {
            [Event::begin(0, 0, *place, *value, time), Event::end(0, *place, *value, time + 1)]
        };
        let (begins, ends): (Vec<Event>, Vec<Event>) =
            self.finals.iter().map(see).map(|[begin, end]| (begin, end)).unzip();
        begins.into_iter().chain(ends).collect()
    }

    pub fn trace(&self, rule: &str, mut events: Vec<Event>) -> Trace {
        let time = events.iter().map(|event| event.time).max().unwrap_or(0);
        events.extend(self.observation(time));
        events.push(Event::close());
        Trace { rule: rule.to_string(), threads: self.threads.len() as u64, events }
    }
}

/// What a search found: a trace of the outcome if there is one, and how much was looked at.
#[derive(Clone, Debug)]
pub struct Found {
    pub trace: Option<Trace>,
    pub looked_at: u64,
}

/// Whether some order of the test's operations explains the outcome by the definition of consistency.
pub fn search_orders(test: &Test, rule: &str) -> (bool, u64) {
    let mut operations = Vec::new();
    for (thread, ops) in test.threads.iter().enumerate() {
        for (number, op) in ops.iter().enumerate() {
            let (place, value) = op.place_and_value();
            operations.push(Operation {
                thread: thread as u64,
                number: number as u64,
                class: op.class(),
                place,
                value,
            });
        }
    }
    let setting = Setting { rule: Rule::named(rule.as_bytes()).expect("a named rule"), presets: BTreeMap::new() };
    let mut wanted = |order: &[Operation]| {
        let last = |place: u64| order.iter().rfind(|op| op.class == Class::Store && op.place == place);
        test.finals.iter().all(|(place, value)| last(*place).is_some_and(|store| store.value == *value))
    };
    let found = setting.some_order(&operations, &mut wanted);
    (found, (1..=operations.len() as u64).product())
}

/// Looks through all honest runs of the test for one with the outcome, shortest first.
///
/// All operations are committed at the start: the machine looks at earlier pending operations only,
/// so committing early takes no run away. Each step has a time of its own.
pub fn search_runs(test: &Test, rule: &str) -> Found {
    let start = Machine::new(Rule::named(rule.as_bytes()).expect("a named rule"), test.threads.len(), &[]);
    let (machine, commits) = commit_all(test, start);
    let mut search = RunSearch { test, nodes: vec![Node { machine, parent: 0, step: None }], seen: HashSet::new() };
    let mut at = 0;
    while at < search.nodes.len() {
        if search.is_goal(at) {
            let run = search.run_to(at, rule, &commits);
            let events = run.steps.iter().map(event).collect();
            return Found { trace: Some(test.trace(rule, events)), looked_at: search.seen.len() as u64 };
        }
        search.expand(at);
        at += 1;
    }
    Found { trace: None, looked_at: search.seen.len() as u64 }
}

fn commit_all(test: &Test, mut machine: Machine) -> (Machine, Vec<Step>) {
    let mut commits = Vec::new();
    for (thread, ops) in test.threads.iter().enumerate() {
        for op in ops {
            let (place, value) = op.place_and_value();
            machine.commit(thread, op.class(), place, value);
            commits.push(Step::Commit { thread, class: op.class(), place, value });
        }
    }
    (machine, commits)
}

/// A machine that can be reached, and by which step from where.
struct Node {
    machine: Machine,
    parent: usize,
    step: Option<Step>,
}

struct RunSearch<'a> {
    test: &'a Test,
    nodes: Vec<Node>,
    seen: HashSet<(BTreeMap<u64, u64>, Vec<Thread>)>,
}

impl RunSearch<'_> {
    fn is_goal(&self, at: usize) -> bool {
        let machine = &self.nodes[at].machine;
        machine.threads.iter().all(|thread| thread.pending.is_empty() && thread.holds.is_empty())
            && self.test.finals.iter().all(|(place, value)| machine.value(*place) == *value)
    }

    fn expand(&mut self, at: usize) {
        for thread in 0..self.test.threads.len() {
            for place in 0..self.test.places() {
                self.take_or_give(at, thread, place);
            }
            for index in 0..self.nodes[at].machine.threads[thread].pending.len() {
                self.perform(at, thread, index);
            }
        }
    }

    fn take_or_give(&mut self, at: usize, thread: usize, place: u64) {
        for kind in [Kind::Read, Kind::Write] {
            let mut machine = self.nodes[at].machine.clone();
            if machine.can_take(thread, kind, place) {
                machine.take(thread, kind, place, 0);
                let value = machine.value(place);
                self.reach(at, machine, Step::Take { thread, kind, place, value, time: 0 });
            }
        }
        let mut machine = self.nodes[at].machine.clone();
        if machine.threads[thread].holds.contains_key(&place) {
            machine.give(thread, place);
            let value = machine.value(place);
            self.reach(at, machine, Step::Give { thread, place, value, time: 0 });
        }
    }

    /// Performs an operation if it can perform and gets the value of the outcome.
    fn perform(&mut self, at: usize, thread: usize, index: usize) {
        let mut machine = self.nodes[at].machine.clone();
        if !machine.can_perform(thread, index) {
            return;
        }
        let wanted = machine.threads[thread].pending[index];
        if machine.perform(thread, index, 0) == wanted {
            self.reach(at, machine, Step::Perform { thread, number: wanted.number, time: 0 });
        }
    }

    fn reach(&mut self, parent: usize, machine: Machine, step: Step) {
        if self.seen.insert((machine.memory.clone(), machine.threads.clone())) {
            self.nodes.push(Node { machine, parent, step: Some(step) });
        }
    }

    fn run_to(&self, mut at: usize, rule: &str, commits: &[Step]) -> Run {
        let mut steps = Vec::new();
        while let Some(step) = self.nodes[at].step {
            steps.push(step);
            at = self.nodes[at].parent;
        }
        steps.reverse();
        for (index, step) in steps.iter_mut().enumerate() {
            if let Step::Perform { time, .. } | Step::Take { time, .. } | Step::Give { time, .. } = step {
                *time = index as u64;
            }
        }
        let steps = commits.iter().copied().chain(steps).collect();
        Run { rule: rule.to_string(), threads: self.test.threads.len(), presets: Vec::new(), steps }
    }
}

/// The names of the rules, in the order in which a test's classification has them.
pub fn rules() -> [&'static str; 4] {
    NAMES
}

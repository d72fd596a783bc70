//! Replays of a run's steps in which something may go wrong.

use crate::machine::{Run, Step};
use crate::rule::Class;
use std::collections::BTreeMap;

/// The value of a step that has one.
pub fn value_of(step: &mut Step) -> Option<&mut u64> {
    match step {
        Step::Commit { value, .. } | Step::Take { value, .. } | Step::Give { value, .. } => Some(value),
        Step::Perform { .. } => None,
    }
}

/// An operation with the steps that commit and perform it.
#[derive(Clone, Copy)]
pub struct Operation {
    pub thread: usize,
    pub class: Class,
    pub place: u64,
    pub commit: usize,
    pub perform: usize,
}

/// The performed operations in the order of performing.
pub fn performs(steps: &[Step]) -> Vec<Operation> {
    let mut commits: BTreeMap<usize, Vec<Operation>> = BTreeMap::new();
    let mut performs = Vec::new();
    for (at, step) in steps.iter().enumerate() {
        match *step {
            Step::Commit { thread, class, place, .. } => {
                commits.entry(thread).or_default().push(Operation { thread, class, place, commit: at, perform: at });
            }
            Step::Perform { thread, number, .. } => {
                performs.extend(commits[&thread].get(number as usize).map(|found| Operation { perform: at, ..*found }));
            }
            _ => (),
        }
    }
    performs
}

/// Something that goes wrong in a replay at one step.
pub enum Fault {
    None,
    /// The perform's store does not reach its copy.
    LostStore(usize),
    /// The perform's store reaches its copy with these bits flipped.
    FlippedStore(usize, u64),
    /// The taking gets this value.
    Granted(usize, u64),
    /// Before this step the memory of the place gets these bits flipped.
    FlippedMemory(usize, u64, u64),
}

/// The steps with the values that a machine without checks gives them.
pub fn replay(run: &Run, steps: &[Step], fault: &Fault) -> Vec<Step> {
    let mut replay = Replay { steps: steps.to_vec(), ..Replay::default() };
    replay.memory.extend(run.presets.iter().copied());
    for at in 0..steps.len() {
        replay.step(at, fault);
    }
    replay.steps
}

#[derive(Default)]
struct Replay {
    steps: Vec<Step>,
    memory: BTreeMap<u64, u64>,
    copies: BTreeMap<(usize, u64), u64>,
    /// The steps at which the operations of a thread were committed.
    commits: BTreeMap<usize, Vec<usize>>,
    /// Which of them are pending.
    pending: BTreeMap<usize, Vec<usize>>,
}

impl Replay {
    fn step(&mut self, at: usize, fault: &Fault) {
        if let Fault::FlippedMemory(step, place, bits) = fault
            && *step == at
        {
            *self.memory.entry(*place).or_default() ^= bits;
        }
        match self.steps[at] {
            Step::Commit { thread, .. } => {
                self.commits.entry(thread).or_default().push(at);
                self.pending.entry(thread).or_default().push(at);
            }
            Step::Perform { thread, number, .. } => self.perform(at, thread, number, fault),
            Step::Take { thread, place, .. } => {
                let mut value = self.memory.get(&place).copied().unwrap_or(0);
                if let Fault::Granted(step, granted) = fault
                    && *step == at
                {
                    value = *granted;
                }
                self.copies.insert((thread, place), value);
                self.set_value(at, value);
            }
            Step::Give { thread, place, .. } => {
                let value = self.copies.remove(&(thread, place)).unwrap_or(0);
                self.set_value(at, value);
            }
        }
    }

    fn set_value(&mut self, at: usize, to: u64) {
        if let Some(value) = value_of(&mut self.steps[at]) {
            *value = to;
        }
    }

    fn perform(&mut self, at: usize, thread: usize, number: u64, fault: &Fault) {
        let Some(commit) = self.commits.get(&thread).and_then(|commits| commits.get(number as usize)).copied() else {
            return;
        };
        let Step::Commit { class, place, value, .. } = self.steps[commit] else {
            return;
        };
        let pending = self.pending.entry(thread).or_default();
        pending.retain(|other| *other != commit);
        match class {
            Class::Barrier(_) => (),
            Class::Load => {
                let forwarded = last_store(&self.steps, pending, commit, place);
                let copy = self.copies.get(&(thread, place)).or(self.memory.get(&place)).copied().unwrap_or(0);
                self.set_value(commit, forwarded.unwrap_or(copy));
            }
            Class::Store => match fault {
                Fault::LostStore(step) if *step == at => (),
                Fault::FlippedStore(step, bits) if *step == at => self.store(thread, place, value ^ bits),
                _ => self.store(thread, place, value),
            },
        }
    }

    fn store(&mut self, thread: usize, place: u64, value: u64) {
        self.memory.insert(place, value);
        self.copies.insert((thread, place), value);
    }
}

/// The value of the last pending store to the place that was committed before this step.
fn last_store(steps: &[Step], pending: &[usize], commit: usize, place: u64) -> Option<u64> {
    let stored = |at: &usize| match steps[*at] {
        Step::Commit { class: Class::Store, place: to, value, .. } if to == place => Some(value),
        _ => None,
    };
    pending.iter().filter(|at| **at < commit).filter_map(stored).next_back()
}

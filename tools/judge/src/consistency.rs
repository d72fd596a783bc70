//! The definition of consistency, checked by going through all pairs, and through all orders of few operations.

use crate::rule::{Class, Rule};
use crate::text::{Trace, Word};
use std::collections::BTreeMap;

/// A performed operation. In a list of them those of one thread stand in program order.
#[derive(Clone, Copy, Debug, PartialEq, Eq)]
pub struct Operation {
    pub thread: u64,
    pub number: u64,
    pub class: Class,
    pub place: u64,
    pub value: u64,
}

/// What operations are judged by: the rule and what the places hold at first.
pub struct Setting {
    pub rule: Rule,
    pub presets: BTreeMap<u64, u64>,
}

/// Whether the trace's performed operations are consistent in the order of time, thread and performing.
pub fn is_consistent(trace: &Trace) -> bool {
    let Some(rule) = Rule::named(trace.rule.as_bytes()) else {
        return false;
    };
    let presets = trace.events.iter().filter(|event| event.word == Word::Preset);
    let setting = Setting { rule, presets: presets.map(|event| (event.place, event.value)).collect() };
    setting.allows(&performed(trace))
}

/// The trace's performed operations by time, then thread, then the order in which the thread performed them.
pub fn performed(trace: &Trace) -> Vec<Operation> {
    let mut committed: BTreeMap<(u64, u64), Operation> = BTreeMap::new();
    let mut counts: BTreeMap<u64, u64> = BTreeMap::new();
    let mut order = Vec::new();
    for event in &trace.events {
        let thread = event.thread;
        if event.word == Word::Commit
            && let Some(class) = Class::from_number(event.what)
        {
            let number = counts.entry(thread).or_default();
            let operation = Operation { thread, number: *number, class, place: event.place, value: event.value };
            committed.insert((thread, *number), operation);
            *number += 1;
        }
        if event.word == Word::Perform
            && let Some(operation) = committed.get(&(thread, event.what))
        {
            order.push((event.time, thread, *operation));
        }
    }
    order.sort_by_key(|(time, thread, _)| (*time, *thread));
    order.into_iter().map(|(_, _, operation)| operation).collect()
}

impl Setting {
    /// Whether this order keeps what the rule and the places want, and explains each load's value.
    pub fn allows(&self, order: &[Operation]) -> bool {
        let kept = |at: usize| order[..at].iter().all(|before| !self.must_follow(before, &order[at]));
        (0..order.len()).all(|at| kept(at) && self.explains(order, at))
    }

    /// Whether the first operation has to come after the second.
    fn must_follow(&self, first: &Operation, second: &Operation) -> bool {
        let by_rule = self.rule.ordered(second.class, first.class);
        let by_place = first.class == Class::Store && second.class.is_access() && first.place == second.place;
        first.thread == second.thread && second.number < first.number && (by_rule || by_place)
    }

    /// Whether the operation at this index is no load, or has the value of the latest store that it can see.
    fn explains(&self, order: &[Operation], at: usize) -> bool {
        let load = order[at];
        if load.class != Class::Load {
            return true;
        }
        let seen = |(index, store): &(usize, &Operation)| {
            let in_program = store.thread == load.thread && store.number < load.number;
            store.class == Class::Store && store.place == load.place && (*index < at || in_program)
        };
        let latest = order.iter().enumerate().rfind(seen).map(|(_, store)| store.value);
        load.value == latest.unwrap_or_else(|| self.presets.get(&load.place).copied().unwrap_or(0))
    }

    /// All orders of the operations that the setting allows, handed to a question one by one until it says yes.
    pub fn some_order(&self, operations: &[Operation], wanted: &mut impl FnMut(&[Operation]) -> bool) -> bool {
        let mut order = operations.to_vec();
        self.permute(&mut order, 0, wanted)
    }

    fn permute(&self, order: &mut [Operation], fixed: usize, wanted: &mut impl FnMut(&[Operation]) -> bool) -> bool {
        if fixed == order.len() {
            return self.allows(order) && wanted(order);
        }
        for next in fixed..order.len() {
            order.swap(fixed, next);
            let found = self.permute(order, fixed + 1, wanted);
            order.swap(fixed, next);
            if found {
                return true;
            }
        }
        false
    }
}

#[cfg(test)]
mod tests {
    use super::*;
    use crate::generate::text;
    use crate::text::read_trace;
    use crate::verdict::{Verdict, judge};

    #[test]
    fn clean_traces_are_consistent() {
        let mut clean = 0;
        for seed in 0..3000 {
            for kind in ["honest", "mutated", "wild"] {
                let text = text(seed, kind).unwrap();
                if let Verdict::Clean { .. } = judge(&text) {
                    clean += 1;
                    assert!(is_consistent(&read_trace(&text).unwrap()), "seed {seed} kind {kind}");
                }
            }
        }
        assert!(clean > 3000);
    }

    #[test]
    fn a_load_of_a_value_that_nobody_stored_is_inconsistent() {
        let operation = Operation { thread: 0, number: 0, class: Class::Load, place: 3, value: 1 };
        let setting = Setting { rule: Rule::table(&[]), presets: BTreeMap::new() };
        assert!(!setting.allows(&[operation]));
        assert!(setting.allows(&[Operation { value: 0, ..operation }]));
    }
}

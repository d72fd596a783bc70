//! Classes of operations and the ordering rules over them.

/// How many classes there are.
pub const CLASSES: usize = 18;

/// The pairs that a barrier's mask is made of, by what each adds to the mask's number.
pub const LOAD_LOAD: u8 = 1;
pub const STORE_LOAD: u8 = 2;
pub const LOAD_STORE: u8 = 4;
pub const STORE_STORE: u8 = 8;

/// The names of the four named rules, from the strictest to the loosest.
pub const NAMES: [&str; 4] = ["sc", "tso", "pso", "rmo"];

/// What an operation is.
#[derive(Clone, Copy, Debug, PartialEq, Eq, Hash)]
pub enum Class {
    Load,
    Store,
    Barrier(u8),
}

impl Class {
    /// The class that a number stands for, if it stands for one.
    pub fn from_number(number: u64) -> Option<Class> {
        match number {
            0 => Some(Class::Load),
            1 => Some(Class::Store),
            2..=17 => Some(Class::Barrier((number - 2) as u8)),
            _ => None,
        }
    }

    /// The number that a trace writes for the class.
    pub fn number(self) -> u64 {
        match self {
            Class::Load => 0,
            Class::Store => 1,
            Class::Barrier(mask) => 2 + u64::from(mask),
        }
    }

    /// Whether the class reads or writes a place.
    pub fn is_access(self) -> bool {
        !matches!(self, Class::Barrier(_))
    }
}

/// An ordering rule: the set of ordered pairs of classes.
#[derive(Clone, Debug, PartialEq, Eq)]
pub struct Rule {
    ordered: [[bool; CLASSES]; CLASSES],
}

impl Rule {
    /// The rule of a name, if the name has one.
    pub fn named(name: &[u8]) -> Option<Rule> {
        let (load_first, store_store, store_load) = match name {
            b"sc" => (true, true, true),
            b"tso" => (true, true, false),
            b"pso" => (true, false, false),
            b"rmo" => (false, false, false),
            _ => return None,
        };
        Some(Rule::from_pairs(|first, second| match (first, second) {
            (Class::Load, Class::Load | Class::Store) => load_first,
            (Class::Store, Class::Store) => store_store,
            (Class::Store, Class::Load) => store_load,
            (Class::Load, Class::Barrier(mask)) => mask & (LOAD_LOAD | LOAD_STORE) != 0,
            (Class::Store, Class::Barrier(mask)) => mask & (STORE_LOAD | STORE_STORE) != 0,
            (Class::Barrier(mask), Class::Load) => mask & (LOAD_LOAD | STORE_LOAD) != 0,
            (Class::Barrier(mask), Class::Store) => mask & (LOAD_STORE | STORE_STORE) != 0,
            (Class::Barrier(_), Class::Barrier(_)) => false,
        }))
    }

    /// The rule that a table of bytes writes: a missing byte orders its pair.
    pub fn table(bytes: &[u8]) -> Rule {
        Rule::from_pairs(|first, second| {
            let at = CLASSES * first.number() as usize + second.number() as usize;
            bytes.get(at).is_none_or(|byte| *byte != 0)
        })
    }

    fn from_pairs(holds: impl Fn(Class, Class) -> bool) -> Rule {
        let class = |number: usize| Class::from_number(number as u64).expect("below 18");
        let row = |first: usize| std::array::from_fn(|second| holds(class(first), class(second)));
        Rule { ordered: std::array::from_fn(row) }
    }

    /// Whether the first operation has to perform before the second, committed after it.
    pub fn ordered(&self, first: Class, second: Class) -> bool {
        self.ordered[first.number() as usize][second.number() as usize]
    }
}

#[cfg(test)]
mod tests {
    use super::*;

    fn all() -> impl Iterator<Item = Class> {
        (0..CLASSES as u64).filter_map(Class::from_number)
    }

    #[test]
    fn numbers_name_classes() {
        assert_eq!(all().count(), CLASSES);
        assert!(all().enumerate().all(|(at, class)| class.number() == at as u64));
        assert_eq!(Class::from_number(18), None);
        assert_eq!(Class::from_number(10), Some(Class::Barrier(STORE_STORE)));
        assert_eq!(Class::from_number(17), Some(Class::Barrier(15)));
    }

    #[test]
    fn named_rules_nest() {
        let rules: Vec<Rule> = NAMES.iter().filter_map(|name| Rule::named(name.as_bytes())).collect();
        assert_eq!(rules.len(), 4);
        for pair in rules.windows(2) {
            for (first, second) in all().flat_map(|first| all().map(move |second| (first, second))) {
                assert!(!pair[1].ordered(first, second) || pair[0].ordered(first, second));
            }
        }
        assert!(Rule::named(b"SC").is_none() && Rule::named(b"").is_none());
    }

    #[test]
    fn named_rules_differ_in_loads_and_stores() {
        let orders = |name: &str, first, second| Rule::named(name.as_bytes()).unwrap().ordered(first, second);
        use Class::{Load, Store};
        let asked = |first, second| NAMES.map(|name| orders(name, first, second));
        assert_eq!(asked(Load, Load), [true, true, true, false]);
        assert_eq!(asked(Load, Store), [true, true, true, false]);
        assert_eq!(asked(Store, Store), [true, true, false, false]);
        assert_eq!(asked(Store, Load), [true, false, false, false]);
    }

    #[test]
    fn tables_are_strict_about_what_they_lack() {
        assert!(all().all(|first| all().all(|second| Rule::table(&[]).ordered(first, second))));
        let rule = Rule::table(&[0, 0, 3]);
        assert!(!rule.ordered(Class::Load, Class::Load));
        assert!(!rule.ordered(Class::Load, Class::Store));
        assert!(rule.ordered(Class::Load, Class::Barrier(0)));
        assert!(rule.ordered(Class::Barrier(15), Class::Barrier(15)));
        assert!(!Rule::table(&[0; 400]).ordered(Class::Barrier(15), Class::Barrier(15)));
    }
}

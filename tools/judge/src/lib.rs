//! An independent judge of memory traces, written from docs/semantics.md and docs/trace-format.md alone.

pub mod answer;
pub mod consistency;
pub mod damage;
pub mod generate;
pub mod inject;
pub mod litmus;
pub mod machine;
pub mod mutate;
pub mod program;
pub mod record;
pub mod recordings;
pub mod replay;
pub mod rng;
pub mod rule;
pub mod scene;
pub mod target_bytes;
pub mod target_events;
pub mod targets;
pub mod text;
pub mod verdict;
pub mod watch;

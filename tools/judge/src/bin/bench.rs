//! Drives the judge's rules through calls and prints events per second: `bench [OPERATIONS [REPEATS]]`.
//!
//! The work, for OPERATIONS operations per thread (a multiple of 8, at most 1,000,000):
//!
//! - A watch with the rule tso and 4 threads.
//! - `preset(p, p)` for p = 0, 1, ..., 511.
//! - Rounds i = 0, 1, ..., OPERATIONS / 8 - 1. In a round, for each thread t = 0, 1, 2, 3 in turn, with
//!   w = (i + t) mod 512, r = (i + 256) mod 512, n = 8 i and T = 16 i, these 22 calls:
//!
//!   ```text
//!    1  commit(t, 1, w, i)            store, number n
//!    2  commit(t, 0, w, i)            load, number n + 1, served by the store n
//!    3  commit(t, 0, r, r)            load, number n + 2
//!    4  commit(t, 1, w, w)            store, number n + 3
//!    5  commit(t, 17, 0, 0)           barrier with all pairs, number n + 4
//!    6  commit(t, 0, w, w)            load, number n + 5
//!    7  commit(t, 0, r, r)            load, number n + 6
//!    8  commit(t, 1, w, w)            store, number n + 7
//!    9  begin(t, 0, r, r, T + 1)
//!   10  perform(t, n + 1, T + 2)
//!   11  perform(t, n + 2, T + 3)
//!   12  begin(t, 1, w, w, T + 4)
//!   13  perform(t, n, T + 5)
//!   14  perform(t, n + 3, T + 6)
//!   15  perform(t, n + 4, T + 7)
//!   16  perform(t, n + 5, T + 8)
//!   17  perform(t, n + 6, T + 9)
//!   18  perform(t, n + 7, T + 10)
//!   19  end(t, r, r, T + 11)          answers a notice a
//!   20  end(t, w, w, T + 12)          answers a notice b
//!   21  report(b)
//!   22  report(a)
//!   ```
//!
//!   After the four threads, if i mod 8 = 7: `settle()`.
//! - `close()`. The verdict is clean.
//!
//! Every call is taken, so a call that is not taken ends the program. The events are all calls: for a
//! million operations per thread 512 + 125,000 * 88 + 15,625 + 1 = 11,016,138. They begin 1,000,000 epochs,
//! which is as many as a watch takes. At a settle 64 notices are waiting, and all of them are judged.

use judge::rule::Rule;
use judge::watch::{Fault, Notice, Refusal, Verdict, Watch};
use std::hint::black_box;
use std::process::ExitCode;
use std::time::Instant;

const THREADS: u64 = 4;
const PLACES: u64 = 512;
const LOAD: u64 = 0;
const STORE: u64 = 1;
const FULL_BARRIER: u64 = 17;
const READ: u64 = 0;
const WRITE: u64 = 1;

/// Makes all calls on a new watch, and answers how many they were.
fn work(operations: u64) -> Result<u64, Fault> {
    let rule = Rule::named(b"tso").expect("a named rule");
    let mut watch = Watch::new(rule, black_box(THREADS))?;
    let mut events = 0;
    for place in 0..PLACES {
        watch.preset(place, place)?;
        events += 1;
    }
    for round in 0..operations / 8 {
        for thread in 0..THREADS {
            events += turn(&mut watch, thread, round)?;
        }
        if round % 8 == 7 {
            watch.settle()?;
            events += 1;
        }
    }
    watch.close()?;
    assert_eq!(black_box(&watch).verdict(), Verdict::Clean);
    Ok(events + 1)
}

/// The calls of one thread in one round.
fn turn(watch: &mut Watch, thread: u64, round: u64) -> Result<u64, Fault> {
    let (w, r) = ((round + thread) % PLACES, (round + PLACES / 2) % PLACES);
    let (first, time) = (8 * round, 16 * round);
    watch.commit(thread, STORE, w, round)?;
    watch.commit(thread, LOAD, w, round)?;
    watch.commit(thread, LOAD, r, r)?;
    watch.commit(thread, STORE, w, w)?;
    watch.commit(thread, FULL_BARRIER, 0, 0)?;
    watch.commit(thread, LOAD, w, w)?;
    watch.commit(thread, LOAD, r, r)?;
    watch.commit(thread, STORE, w, w)?;
    watch.begin(thread, READ, r, r, time + 1)?;
    watch.perform(thread, first + 1, time + 2)?;
    watch.perform(thread, first + 2, time + 3)?;
    watch.begin(thread, WRITE, w, w, time + 4)?;
    watch.perform(thread, first, time + 5)?;
    watch.perform(thread, first + 3, time + 6)?;
    watch.perform(thread, first + 4, time + 7)?;
    watch.perform(thread, first + 5, time + 8)?;
    watch.perform(thread, first + 6, time + 9)?;
    watch.perform(thread, first + 7, time + 10)?;
    let of_read = watch.end(thread, r, r, time + 11)?;
    let of_write = watch.end(thread, w, w, time + 12)?;
    watch.report(of_write).map_err(refused)?;
    watch.report(of_read).map_err(refused)?;
    Ok(22)
}

fn refused((refusal, _): (Refusal, Notice)) -> Fault {
    Fault::Refused(refusal)
}

fn main() -> ExitCode {
    let given: Vec<String> = std::env::args().skip(1).collect();
    let operations: u64 = given.first().and_then(|count| count.parse().ok()).unwrap_or(1_000_000);
    let repeats: u64 = given.get(1).and_then(|count| count.parse().ok()).unwrap_or(1);
    let start = Instant::now();
    let mut events = 0;
    for _ in 0..repeats {
        match work(black_box(operations)) {
            Ok(count) => events += count,
            Err(fault) => {
                eprintln!("a call was not taken: {fault:?}");
                return ExitCode::FAILURE;
            }
        }
    }
    let seconds = start.elapsed().as_secs_f64();
    let rate = events as f64 / seconds;
    println!("{operations} operations per thread, {events} events, {seconds:.3} s, {rate:.0} events per second");
    ExitCode::SUCCESS
}

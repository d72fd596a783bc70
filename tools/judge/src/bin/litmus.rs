//! Tables which weak outcomes have a clean trace under which rule: `litmus [LAST_TIME [FOLDER [PROGRAM]]]`.

use judge::litmus::{Test, rules, search_orders, search_runs, tests, tests_with_barriers};
use judge::program::Program;
use judge::recordings::{LocalCache, search_recordings};
use judge::text::Trace;
use judge::verdict::{Verdict, judge};
use std::path::{Path, PathBuf};
use std::process::ExitCode;

struct Options {
    last_time: u64,
    folder: Option<PathBuf>,
    program: Option<Program>,
}

/// What was found of one test under one rule.
struct Cell {
    published: bool,
    by_runs: bool,
    by_recordings: bool,
    by_orders: bool,
    runs: u64,
    recordings: u64,
    witnesses_clean: bool,
}

impl Cell {
    fn agrees(&self) -> bool {
        [self.by_runs, self.by_recordings, self.by_orders].iter().all(|found| *found == self.published)
            && self.witnesses_clean
    }

    fn words(&self) -> String {
        let word = |allowed: bool| if allowed { "allowed" } else { "forbidden" };
        match self.agrees() {
            true => format!("{} = {}", word(self.published), if self.by_runs { "clean trace" } else { "none" }),
            false => format!(
                "**{} ≠ runs {}, recordings {}, orders {}, witnesses {}**",
                word(self.published),
                self.by_runs,
                self.by_recordings,
                self.by_orders,
                self.witnesses_clean
            ),
        }
    }
}

fn main() -> ExitCode {
    let given: Vec<String> = std::env::args().skip(1).collect();
    let options = Options {
        last_time: given.first().and_then(|time| time.parse().ok()).unwrap_or(3),
        folder: given.get(1).filter(|folder| *folder != "-").map(PathBuf::from),
        program: given.get(2).map(|path| Program::new(Path::new(path))),
    };
    match tables(&options) {
        Ok(true) => ExitCode::SUCCESS,
        Ok(false) => ExitCode::FAILURE,
        Err(error) => {
            eprintln!("{error}");
            ExitCode::from(2)
        }
    }
}

fn tables(options: &Options) -> std::io::Result<bool> {
    let mut cache = LocalCache::default();
    let plain = table(options, &tests(), &mut cache)?;
    println!();
    let fenced = table(options, &tests_with_barriers(), &mut cache)?;
    println!("\nall as published: {}", plain && fenced);
    Ok(plain && fenced)
}

fn table(options: &Options, tests: &[Test], cache: &mut LocalCache) -> std::io::Result<bool> {
    println!("| test | program and weak outcome | {} | runs' states | recordings | orders |", rules().join(" | "));
    println!("|---|---|---|---|---|---|---|---|---|");
    let mut good = true;
    for test in tests {
        let mut cells = Vec::new();
        for (at, rule) in rules().iter().enumerate() {
            cells.push(search(options, test, rule, test.published[at], cache)?);
        }
        let words: Vec<String> = cells.iter().map(Cell::words).collect();
        let runs: u64 = cells.iter().map(|cell| cell.runs).sum();
        let recordings: u64 = cells.iter().map(|cell| cell.recordings).sum();
        let orders = 4 * search_orders(test, "sc").1;
        println!("| {} | {} | {} | {runs} | {recordings} | {orders} |", test.name, test.program(), words.join(" | "));
        good &= cells.iter().all(Cell::agrees);
    }
    Ok(good)
}

fn search(
    options: &Options,
    test: &Test,
    rule: &str,
    published: bool,
    cache: &mut LocalCache,
) -> std::io::Result<Cell> {
    let runs = search_runs(test, rule);
    let recordings = search_recordings(test, rule, options.last_time, cache);
    let mut witnesses_clean = true;
    for trace in runs.trace.iter().chain(&recordings.trace) {
        witnesses_clean &= is_clean(options, trace)?;
    }
    if let (Some(folder), Some(trace)) = (&options.folder, &runs.trace) {
        std::fs::create_dir_all(folder)?;
        let name = test.name.to_lowercase().replace(' ', "-");
        std::fs::write(folder.join(format!("{name}-{rule}.trace")), trace.to_string())?;
    }
    Ok(Cell {
        published,
        by_runs: runs.trace.is_some(),
        by_recordings: recordings.trace.is_some(),
        by_orders: search_orders(test, rule).0,
        runs: runs.looked_at,
        recordings: recordings.looked_at,
        witnesses_clean,
    })
}

/// Whether the judge, and the program if there is one, call the trace clean.
fn is_clean(options: &Options, trace: &Trace) -> std::io::Result<bool> {
    let text = trace.to_string();
    let verdict = judge(text.as_bytes());
    let same = match &options.program {
        Some(program) => program.judge(text.as_bytes())?.output == verdict.to_string().as_bytes(),
        None => true,
    };
    Ok(same && matches!(verdict, Verdict::Clean { .. }))
}

//! Injects errors into records of honest runs and tables the verdicts: `inject [N [SEED [PROGRAM]]]`.

use judge::consistency::is_consistent;
use judge::damage::flip_bit;
use judge::inject::ERRORS;
use judge::machine::{Run, Shape, random_run};
use judge::program::Program;
use judge::record::{Style, record};
use judge::rng::Rng;
use judge::text::{Trace, read_trace};
use judge::verdict::{Verdict, judge};
use std::path::Path;
use std::process::ExitCode;

const LAWS: std::ops::RangeInclusive<u64> = 21..=28;

/// How often each verdict was told of the texts with one kind of error.
#[derive(Default)]
struct Row {
    injected: u64,
    by_law: [u64; 8],
    refused: u64,
    garbled: u64,
    clean: u64,
    consistent: u64,
    differences: u64,
}

impl Row {
    /// Judges a text with an error in it.
    fn add(&mut self, text: &[u8], program: Option<&Program>) -> std::io::Result<()> {
        let verdict = judge(text);
        self.injected += 1;
        if let Some(program) = program
            && program.judge(text)?.output != verdict.to_string().as_bytes()
        {
            self.differences += 1;
        }
        match verdict {
            Verdict::Convicted { conviction, .. } => self.by_law[(conviction.law - LAWS.start()) as usize] += 1,
            Verdict::Refused { .. } => self.refused += 1,
            Verdict::Garbled { .. } => self.garbled += 1,
            Verdict::Clean { .. } => {
                self.clean += 1;
                let consistent = read_trace(text).is_some_and(|trace| is_consistent(&trace));
                self.consistent += u64::from(consistent);
                if !consistent {
                    eprintln!("clean but not consistent:\n{}", String::from_utf8_lossy(text));
                }
            }
        }
        Ok(())
    }

    fn print(&self, name: &str) {
        let laws: Vec<String> = self.by_law.iter().map(u64::to_string).collect();
        let convicted: u64 = self.by_law.iter().sum();
        println!(
            "| {name} | {} | {convicted} | {} | {} | {} | {} | {} |",
            self.injected,
            laws.join(" | "),
            self.refused,
            self.garbled,
            self.clean,
            self.consistent
        );
    }
}

/// A small honest run in which threads meet at few places.
fn small_run(rng: &mut Rng) -> Run {
    let steps = rng.between(10, 60) as usize;
    let mut shape = Shape::random(rng, steps);
    shape.places = (0..rng.between(1, 3)).map(|_| rng.below(512)).collect();
    shape.values = rng.pick(&[3, 10, u64::MAX]);
    shape.depth = rng.pick(&[2, 4, 8]);
    random_run(rng, &shape)
}

/// The texts of a run's record, and of the same record with the error.
fn pair(
    rng: &mut Rng,
    run: &Run,
    put: fn(&mut Rng, &Run) -> Option<Vec<judge::machine::Step>>,
) -> Option<(Trace, Trace)> {
    let style = Style::random(rng);
    let faulty = Run { steps: put(rng, run)?, ..run.clone() };
    let mixing = rng.clone();
    Some((record(&mut mixing.clone(), run, style), record(&mut mixing.clone(), &faulty, style)))
}

fn main() -> ExitCode {
    let given: Vec<String> = std::env::args().skip(1).collect();
    let count: u64 = given.first().and_then(|count| count.parse().ok()).unwrap_or(1000);
    let seed: u64 = given.get(1).and_then(|seed| seed.parse().ok()).unwrap_or(1);
    let program = given.get(2).map(|path| Program::new(Path::new(path)));
    match table(count, seed, program.as_ref()) {
        Ok(true) => ExitCode::SUCCESS,
        Ok(false) => ExitCode::FAILURE,
        Err(error) => {
            eprintln!("{error}");
            ExitCode::from(2)
        }
    }
}

/// Prints the table, and answers whether all is as it should be.
fn table(count: u64, seed: u64, program: Option<&Program>) -> std::io::Result<bool> {
    let laws: Vec<String> = LAWS.map(|law| law.to_string()).collect();
    println!(
        "| error | injected | convicted | {} | refused | garbled | clean | of them consistent |",
        laws.join(" | ")
    );
    println!("|---|---|---|{}---|---|---|---|", "---|".repeat(laws.len()));
    let mut good = true;
    for (at, error) in ERRORS.iter().enumerate() {
        let mut row = Row::default();
        let mut rng = Rng::part(seed, at as u64);
        while row.injected < count {
            let run = small_run(&mut rng);
            if let Some((honest, faulty)) = pair(&mut rng, &run, error.put)
                && honest != faulty
            {
                good &= matches!(judge(honest.to_string().as_bytes()), Verdict::Clean { .. });
                row.add(faulty.to_string().as_bytes(), program)?;
            }
        }
        row.print(error.name);
        good &= row.clean == row.consistent && row.differences == 0;
    }
    let mut row = Row::default();
    let mut rng = Rng::part(seed, ERRORS.len() as u64);
    while row.injected < count {
        let run = small_run(&mut rng);
        let mut text = record(&mut rng, &run, Style::plain()).to_string().into_bytes();
        flip_bit(&mut rng, &mut text);
        row.add(&text, program)?;
    }
    row.print("flipped bit in the text");
    good &= row.clean == row.consistent && row.differences == 0;
    println!("\nall honest records clean, all clean ones consistent, no differences: {good}");
    Ok(good)
}

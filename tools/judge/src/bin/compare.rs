//! Compares a program with the judge on many texts: `compare PROGRAM N SEED [FOLDER]`, with - for no program.

use judge::generate::{kind_in_turn, text, turns_for_all};
use judge::program::Program;
use judge::targets::reachable;
use judge::verdict::judge;
use std::collections::BTreeMap;
use std::path::{Path, PathBuf};
use std::process::ExitCode;

struct Arguments {
    program: Option<Program>,
    count: u64,
    seed: u64,
    folder: PathBuf,
}

fn arguments() -> Option<Arguments> {
    let given: Vec<String> = std::env::args().skip(1).collect();
    let program = given.first()?;
    Some(Arguments {
        program: (program != "-").then(|| Program::new(Path::new(program))),
        count: given.get(1)?.parse().ok()?,
        seed: given.get(2)?.parse().ok()?,
        folder: given.get(3).map_or("target/differences", String::as_str).into(),
    })
}

/// What was found: how often each verdict occurred, and how many texts had different verdicts.
#[derive(Default)]
struct Findings {
    by_label: BTreeMap<String, BTreeMap<String, u64>>,
    statuses: BTreeMap<String, BTreeMap<i32, u64>>,
    differences: u64,
}

fn main() -> ExitCode {
    let Some(arguments) = arguments() else {
        eprintln!(
            "usage: compare PROGRAM N SEED [FOLDER]; FOLDER gets the texts with different verdicts; - is no program"
        );
        return ExitCode::from(2);
    };
    let mut findings = Findings::default();
    for number in 0..arguments.count {
        if let Err(error) = compare_one(&arguments, number, &mut findings) {
            eprintln!("text {number}: {error}");
            return ExitCode::from(2);
        }
    }
    print_table(&findings);
    let missing: Vec<&str> = reachable().into_iter().filter(|label| !findings.by_label.contains_key(*label)).collect();
    println!("\n{} texts, {} differences, missing verdicts: {}", arguments.count, findings.differences, missing.len());
    for label in &missing {
        println!("missing: {label}");
    }
    let too_few = !missing.is_empty() && arguments.count >= turns_for_all();
    if findings.differences > 0 || too_few { ExitCode::FAILURE } else { ExitCode::SUCCESS }
}

fn compare_one(arguments: &Arguments, number: u64, findings: &mut Findings) -> std::io::Result<()> {
    let kind = kind_in_turn(number);
    let text = text(arguments.seed.wrapping_add(number), &kind).expect("a kind");
    let verdict = judge(&text);
    let group: String = kind.trim_end_matches(|byte: char| byte.is_ascii_digit()).to_string();
    *findings.by_label.entry(verdict.label()).or_default().entry(group).or_default() += 1;
    let Some(program) = &arguments.program else {
        return Ok(());
    };
    let answer = program.judge(&text)?;
    let word = verdict.label().split(' ').next().unwrap_or_default().to_string();
    *findings.statuses.entry(word).or_default().entry(answer.status.unwrap_or(-1)).or_default() += 1;
    let wanted = verdict.to_string();
    if answer.output != wanted.as_bytes() {
        findings.differences += 1;
        std::fs::create_dir_all(&arguments.folder)?;
        let path = arguments.folder.join(format!("{}-{number}-{kind}.txt", arguments.seed));
        std::fs::write(&path, &text)?;
        println!("difference: {}", path.display());
        println!("  judge:   {}", wanted.lines().last().unwrap_or_default());
        println!("  program: {}", String::from_utf8_lossy(&answer.output).lines().last().unwrap_or_default());
    }
    Ok(())
}

fn print_table(findings: &Findings) {
    let kinds = ["honest", "long", "mutated", "damaged", "target", "wild", "pair"];
    println!("| verdict | all | {} |", kinds.join(" | "));
    println!("|---|---|{}", "---|".repeat(kinds.len()));
    for (label, counts) in &findings.by_label {
        let cells: Vec<String> = kinds.iter().map(|kind| counts.get(*kind).unwrap_or(&0).to_string()).collect();
        println!("| {label} | {} | {} |", counts.values().sum::<u64>(), cells.join(" | "));
    }
    for (word, statuses) in &findings.statuses {
        println!("exit status of the program for {word}: {statuses:?}");
    }
}

//! Holds the proved program replay against the Rust, case by case, and against the model of the rules in oracle/model where the Rust cannot be asked,
//! and for the place of a refusal 1, which the Rust has not:
//! - `answers answer`: cases on standard input, the Rust's answers on standard output;
//! - `answers compare PROGRAM SECONDS SEED`: PROGRAM, which is replay, against the Rust and the model;
//! - `answers record FOLDER [--check]`: the recorded cases of test_replay in FOLDER, which is crates, and the Rust's answers to them, with the places
//!   that the model gives, written anew or only held against what is there.
mod built;
mod case;
mod compare;
mod domain;
mod generate;
mod model;
mod notation;
mod record;
mod rows;
mod rules;
mod rust;
mod say;
mod value;
mod verdict;
mod walk;

use case::Case;
use rust::Answer;
use std::io::{Read, Write};
use std::process::ExitCode;

/// Every line of the input, with the Rust's answer behind each case.
fn answers(input: &str) -> String {
    let mut text = String::new();
    for line in input.lines() {
        text += line;
        if !line.is_empty() && !line.starts_with('#') {
            text += " = ";
            text += &match Case::read(line).map(|case| rust::answer(&case)) {
                Some(Answer::Said(said)) => said,
                Some(Answer::Panicked) => "panicked".into(),
                Some(Answer::Unasked) | None => "unasked".into(),
            };
        }
        text.push('\n');
    }
    text
}

fn answer() -> Result<u8, String> {
    let mut input = String::new();
    std::io::stdin().read_to_string(&mut input).map_err(|e| e.to_string())?;
    std::io::stdout().write_all(answers(&input).as_bytes()).map_err(|e| e.to_string())?;
    Ok(0)
}

/// A number with commas between its thousands.
fn grouped(x: u64) -> String {
    let digits = x.to_string();
    let mut text = String::new();
    for (i, c) in digits.chars().enumerate() {
        if i > 0 && (digits.len() - i) % 3 == 0 {
            text.push(',');
        }
        text.push(c);
    }
    text
}

/// Compares, and answers the exit status.
fn compare(program: &str, seconds: &str, seed: &str) -> Result<u8, String> {
    let seconds = seconds.parse().map_err(|_| format!("not a number of seconds: {seconds}"))?;
    let seed = seed.parse().map_err(|_| format!("not a seed: {seed}"))?;
    rows::consistent()?;
    case::consistent()?;
    println!("SEED {seed}, {seconds} s");
    let started = std::time::Instant::now();
    let (counts, fixed_done) = compare::run(program, seconds, seed)?;
    let listed: u64 = counts.listed.values().sum();
    let rows: Vec<String> = counts.listed.iter().map(|(row, n)| format!("row {row}: {}", grouped(*n))).collect();
    println!("the cases that do not depend on the seed: {}", if fixed_done { "all" } else { "not all, for want of time" });
    println!("equal and on the domain: {}", grouped(counts.on_domain));
    println!("compared with the model: {}, {} of them since the Rust cannot be asked", grouped(counts.ruled), grouped(counts.unasked));
    println!(
        "SEED {seed}: {} cases compared in {} s: {} equal, {} listed differences ({}), {} by the model alone, {} unlisted",
        grouped(counts.equal + listed + counts.unasked + counts.wrongs),
        started.elapsed().as_secs(),
        grouped(counts.equal),
        grouped(listed),
        rows.join(", "),
        grouped(counts.unasked),
        grouped(counts.wrongs)
    );
    // 77 says that something was left out, as of cabi/test and bench/run.
    Ok(match (counts.wrongs, fixed_done) {
        (0, true) => 0,
        (0, false) => 77,
        _ => 1,
    })
}

fn main() -> ExitCode {
    rust::silence();
    let args: Vec<String> = std::env::args().skip(1).collect();
    let args: Vec<&str> = args.iter().map(String::as_str).collect();
    let result = match args[..] {
        ["answer"] => answer(),
        ["compare", program, seconds, seed] => compare(program, seconds, seed),
        ["record", folder] => record::run(folder, false).map(|same| u8::from(!same)),
        ["record", folder, "--check"] => record::run(folder, true).map(|same| u8::from(!same)),
        _ => Err("usage: answers answer | compare PROGRAM SECONDS SEED | record FOLDER [--check]".into()),
    };
    match result {
        Ok(status) => ExitCode::from(status),
        Err(text) => {
            eprintln!("oracle: {text}");
            ExitCode::from(2)
        }
    }
}

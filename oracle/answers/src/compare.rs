//! Compares the proved program with the Rust and with the model of the rules on many cases, by two workers, until the time is up.
use crate::generate;
use crate::model;
use crate::verdict::{self, Verdict};
use std::collections::BTreeMap;
use std::io::Write;
use std::process::{Command, Stdio};
use std::sync::Mutex;
use std::time::{Duration, Instant};

/// The proved program's input has fewer bytes.
const MOST_INPUT: usize = 131_072;

/// Of so many cases that the Rust answers the model is asked one too, beside those with a refusal 1.
const EVERY: usize = 17;

/// How many wrong cases are printed.
const MOST_PRINTED: usize = 20;

#[derive(Default)]
pub struct Counts {
    pub equal: u64,
    /// Those of the equal ones that are on document 01's domain.
    pub on_domain: u64,
    pub unasked: u64,
    /// Those that the model was asked, which all of the unasked ones are among.
    pub ruled: u64,
    pub listed: BTreeMap<u8, u64>,
    pub wrong: Vec<String>,
    pub wrongs: u64,
}

/// A program's answers to cases, in their order: those of the proved program, or of the model.
pub fn answers(program: &str, cases: &[String]) -> Result<Vec<String>, String> {
    let mut child = Command::new(program).stdin(Stdio::piped()).stdout(Stdio::piped()).spawn().map_err(|e| format!("cannot start {program}: {e}"))?;
    let mut input = child.stdin.take().ok_or("no standard input")?;
    let text = cases.join("\n") + "\n";
    // The program reads all of its input before it answers.
    input.write_all(text.as_bytes()).map_err(|e| format!("{program} does not read: {e}"))?;
    drop(input);
    let output = child.wait_with_output().map_err(|e| format!("{program}: {e}"))?;
    if !output.status.success() {
        return Err(format!("{program}: {}", output.status));
    }
    let text = String::from_utf8(output.stdout).map_err(|e| format!("{program}: {e}"))?;
    parted(cases, &text).map_err(|e| format!("{program} {e}"))
}

/// What stands behind the first call of a case: its answer, and where there are more calls also these, each with its answer.
fn behind<'a>(case: &str, line: &'a str) -> Option<&'a str> {
    line.strip_prefix(case.split(';').next()?)?.strip_prefix(" = ")
}

/// The answers in a program's output. An answer may have several lines: it ends where the next case stands.
fn parted(cases: &[String], text: &str) -> Result<Vec<String>, String> {
    let mut lines = text.lines().peekable();
    let mut answers = vec![];
    for (i, case) in cases.iter().enumerate() {
        let line = lines.next().unwrap_or("");
        let mut answer = behind(case, line).ok_or(format!("answers '{line}' to '{case}'"))?.to_string();
        let next = cases.get(i + 1);
        while let Some(line) = lines.next_if(|line| next.is_none_or(|next| behind(next, line).is_none())) {
            answer.push('\n');
            answer += line;
        }
        answers.push(answer);
    }
    Ok(answers)
}

/// The next cases that fit one run of the program.
fn batch(cases: &mut (dyn Iterator<Item = String> + Send)) -> Vec<String> {
    let mut taken = vec![];
    let mut bytes = 0;
    // A case has fewer than 4,096 bytes.
    while bytes < MOST_INPUT - 4096 {
        let Some(case) = cases.next() else { break };
        bytes += case.len() + 1;
        taken.push(case);
    }
    taken
}

/// Judges each case by the Rust, and by the model those that the Rust cannot be asked, those with a refusal 1, whose place the Rust has not, and some
/// of the others.
fn judged(cases: &[String], answers: &[String]) -> Result<Counts, String> {
    let mut verdicts: Vec<Verdict> = cases.iter().zip(answers).map(|(case, ours)| verdict::judge(case, ours)).collect();
    let is_ruled = |i: &usize| match verdicts[*i] {
        Verdict::Unasked => true,
        Verdict::Wrong(_) => false,
        _ => verdict::has_short(&answers[*i]) || i % EVERY == 0,
    };
    let ruled: Vec<usize> = (0..cases.len()).filter(is_ruled).collect();
    let rules = model::answers(&ruled.iter().map(|i| cases[*i].clone()).collect::<Vec<_>>())?;
    let mut counts = Counts { ruled: ruled.len() as u64, ..Counts::default() };
    for (i, rule) in ruled.into_iter().zip(rules) {
        if let Some(wrong) = verdict::by_rules(&cases[i], &answers[i], &rule) {
            verdicts[i] = wrong;
        }
    }
    verdicts.into_iter().for_each(|verdict| count(&mut counts, verdict));
    Ok(counts)
}

fn count(counts: &mut Counts, verdict: Verdict) {
    match verdict {
        Verdict::Equal(on_domain) => {
            counts.equal += 1;
            counts.on_domain += on_domain as u64;
        }
        Verdict::Unasked => counts.unasked += 1,
        Verdict::Listed(row) => *counts.listed.entry(row).or_default() += 1,
        Verdict::Wrong(text) => {
            counts.wrongs += 1;
            if counts.wrong.len() < MOST_PRINTED {
                counts.wrong.push(text);
            }
        }
    }
}

fn add(all: &mut Counts, part: Counts) {
    all.equal += part.equal;
    all.on_domain += part.on_domain;
    all.unasked += part.unasked;
    all.ruled += part.ruled;
    all.wrongs += part.wrongs;
    for (row, n) in part.listed {
        *all.listed.entry(row).or_default() += n;
    }
    for text in part.wrong {
        if all.wrong.len() < MOST_PRINTED {
            println!("{text}");
            all.wrong.push(text);
        }
    }
}

/// Runs for so many seconds, and answers what was counted and whether all fixed cases were among it.
pub fn run(program: &str, seconds: u64, seed: u64) -> Result<(Counts, bool), String> {
    let end = Instant::now() + Duration::from_secs(seconds);
    let fixed_left = Mutex::new(true);
    let cases: Mutex<Box<dyn Iterator<Item = String> + Send>> = Mutex::new(Box::new(generate::added().chain(generate::fixed())));
    let all = Mutex::new(Counts::default());
    let worker = || -> Result<(), String> {
        while Instant::now() < end {
            let taken = {
                let mut cases = cases.lock().expect("no worker panics");
                let mut taken = batch(&mut *cases);
                if taken.is_empty() {
                    *cases = generate::random(seed);
                    *fixed_left.lock().expect("no worker panics") = false;
                    taken = batch(&mut *cases);
                }
                taken
            };
            let part = judged(&taken, &answers(program, &taken)?)?;
            add(&mut all.lock().expect("no worker panics"), part);
        }
        Ok(())
    };
    std::thread::scope(|scope| {
        let workers = [scope.spawn(worker), scope.spawn(worker)];
        workers.into_iter().try_for_each(|w| w.join().map_err(|_| "a worker panicked".to_string())?)
    })?;
    let fixed_done = !*fixed_left.lock().expect("no worker panics");
    Ok((all.into_inner().expect("no worker panics"), fixed_done))
}

//! Judges a case by the two answers to it.
use crate::case::Case;
use crate::domain;
use crate::rows;
use crate::rust::{self, Answer};

pub enum Verdict {
    /// The answers are equal; whether the case is on the domain.
    Equal(bool),
    /// The answers differ as this row of docs/DIFFERENCES.md says.
    Listed(u8),
    /// The Rust cannot be asked: the model alone answers.
    Unasked,
    /// What is wrong, with both answers.
    Wrong(String),
}

fn text(answer: &Answer) -> &str {
    match answer {
        Answer::Said(said) => said,
        Answer::Panicked => "panicked",
        Answer::Unasked => "unasked",
    }
}

/// What a refusal 1 begins with, up to its found.
const SHORT: &str = "refused 1 (";

/// Whether an answer has a refusal 1.
pub fn has_short(answer: &str) -> bool {
    answer.contains(SHORT)
}

/// An answer of ours, or of the model, without the places of its refusals 1: the Rust has found and expected alone, and demand 2 compares these only
/// (document 02, Q-2). None where a refusal 1 has no place behind it.
pub fn without_places(answer: &str) -> Option<String> {
    let mut parts = answer.split(SHORT);
    let mut text = parts.next()?.to_string();
    for part in parts {
        let (values, behind) = part.split_once(')')?;
        let place = behind.strip_prefix(" at ")?;
        let rest = place.trim_start_matches(|c: char| c.is_ascii_digit());
        if rest.len() == place.len() {
            return None;
        }
        text += &format!("{SHORT}{values}){rest}");
    }
    Some(text)
}

/// By the model of the rules: what is wrong, with both answers, where they differ.
pub fn by_rules(line: &str, ours: &str, rules: &str) -> Option<Verdict> {
    (ours != rules).then(|| Verdict::Wrong(format!("{line}\n  ours      {ours}\n  the rules {rules}\n  a difference from the model of the rules")))
}

/// By the Rust, with the places of ours left out; that they are there is looked at. A row applies exactly where the answers differ, both are what it
/// says, ours with its place, and no row is of a case on the domain. The Rust is not asked several calls of one line, which have a state.
pub fn judge(line: &str, ours: &str) -> Verdict {
    let Some(cases) = Case::read_all(line) else {
        return Verdict::Wrong(format!("{line}\n  no case"));
    };
    let [case] = &cases[..] else { return Verdict::Unasked };
    let rust = rust::answer(case);
    if rust == Answer::Unasked {
        return Verdict::Unasked;
    }
    let wrong = |what: &str| {
        let place = if domain::on(case) { "on the domain" } else { "off the domain" };
        Verdict::Wrong(format!("{line}\n  ours     {ours}\n  the Rust {}\n  {what}, {place}", text(&rust)))
    };
    let Some(compared) = without_places(ours) else { return wrong("a refusal 1 of ours has no place") };
    let equal = rust == Answer::Said(compared);
    match rows::of(case) {
        None if equal => Verdict::Equal(domain::on(case)),
        None => wrong("a difference that no row lists"),
        Some(row) if domain::on(case) => wrong(&format!("row {} lists it", row.number)),
        Some(row) if equal => wrong(&format!("equal, and row {} lists a difference", row.number)),
        Some(row) if row.ours != ours => wrong(&format!("row {} says of ours: {}", row.number, row.ours)),
        Some(row) if row.rust != rust => wrong(&format!("row {} says of the Rust: {}", row.number, text(&row.rust))),
        Some(row) => Verdict::Listed(row.number),
    }
}

//! Writes the recorded part of the list that the tests replay with no Rust at hand: cases, and the Rust's own answers to them. The Rust has no place
//! of a refusal 1: behind its found and expected stands the place that the rules give.
use crate::case::{self, Case};
use crate::generate;
use crate::model;
use crate::rows;
use crate::rust::{self, Answer};
use crate::verdict::{self, Verdict};
use std::collections::{BTreeMap, HashSet};
use std::fs;
use std::path::Path;

/// The files, in a folder of crates.
const STDIN: &str = "test_replay/stdin";
const STDOUT: &str = "test_replay/stdout";

const SEED: u64 = 1;

/// How many random cases are looked through, beside all the fixed ones.
const RANDOM_CASES: usize = 300_000;

/// The recorded part has at most so many bytes.
const MOST_BYTES: usize = 129_000;

/// A generated case that only adds to the spread is no longer.
const SHORT: usize = 80;

/// What the first line of the recorded part begins with.
const RECORDED: &str = "# Recorded";

/// What the line above its generated cases begins with.
const GENERATED: &str = "# Generated";

fn header() -> String {
    format!(
        "{RECORDED} by oracle/record: the cases from here on have the Rust's own answers (spacepackets 0.19.0). Of a refusal 1 found and expected\n\
         # are the Rust's, and the place, which it has not, is the rules'. With --check it tells whether it would write others. Those up to the\n\
         # line that begins with '{GENERATED}' are chosen by hand: to add one, put it there, and run oracle/record.\n"
    )
}

fn generated_line() -> String {
    let met = format!("that all fixed cases and {RANDOM_CASES} random ones met, then a spread of more");
    format!("{GENERATED} by oracle/record, seed {SEED}: a case for each answer of each call {met}")
}

/// The Rust's answer to a case, where both answers are to be equal, but for the place of a refusal 1: where the Rust is asked and docs/DIFFERENCES.md
/// has no row.
fn agreed(line: &str) -> Option<String> {
    let case = Case::read(line)?;
    match rust::answer(&case) {
        Answer::Said(text) if rows::of(&case).is_none() => Some(text),
        _ => None,
    }
}

fn call(line: &str) -> &str {
    line.split(' ').next().unwrap_or("")
}

/// What sort of answer it is: the call, and the answer without its numbers and bytes. A refusal's number stays. Of a listing only the last record
/// and the end count, since records follow one another in any order.
fn class(line: &str, answer: &str) -> String {
    let mut text = call(line).to_string();
    let from = answer.rmatch_indices("; ").nth(1).map_or(0, |(at, _)| at + 2);
    let answer = &answer[from..];
    let mut refused = false;
    for word in answer.split(' ') {
        text.push(' ');
        text += &match word.starts_with('x') {
            true => "x".into(),
            false if refused => word.to_string(),
            false => word.replace(|c: char| c.is_ascii_digit(), ""),
        };
        refused = word == "refused";
    }
    text
}

/// What stands above the recorded part of a file, and that part.
fn parted<'a>(name: &str, text: &'a str) -> Result<(&'a str, &'a str), String> {
    let above = text.split_inclusive('\n').take_while(|line| !line.starts_with(RECORDED)).map(str::len).sum();
    match text.split_at(above) {
        (_, "") => Err(format!("crates/{name} has no line that begins with '{RECORDED}'")),
        parts => Ok(parts),
    }
}

/// The hand-chosen lines of the list as it is, without its header.
fn chosen(list: &str) -> Vec<String> {
    let body = list.split_once("\n\n").map_or("", |(_, body)| body);
    let mut lines: Vec<String> = body.lines().take_while(|line| !line.starts_with(GENERATED)).map(String::from).collect();
    while lines.last().is_some_and(|line| line.is_empty()) {
        lines.pop();
    }
    lines
}

fn is_case(line: &str) -> bool {
    !line.is_empty() && !line.starts_with('#')
}

/// The generated cases: the shortest of each class, then others of each call in turn, as far as there is room.
fn generated(mut room: usize, known: &[String]) -> Vec<String> {
    let known: HashSet<&str> = known.iter().map(String::as_str).collect();
    let mut classes: BTreeMap<String, String> = BTreeMap::new();
    let mut others: BTreeMap<String, Vec<String>> = BTreeMap::new();
    for line in generate::fixed().chain(generate::Random::new(SEED).take(RANDOM_CASES)) {
        let Some(answer) = agreed(&line) else { continue };
        let shortest = classes.entry(class(&line, &answer)).or_insert_with(|| line.clone());
        if line.len() < shortest.len() {
            shortest.clone_from(&line);
        }
        if line.len() < SHORT {
            others.entry(call(&line).into()).or_default().push(line);
        }
    }
    let mut taken = vec![];
    let mut seen = HashSet::new();
    for line in classes.values().chain(spread(&others)) {
        if line.len() < room && !known.contains(line.as_str()) && seen.insert(line) {
            room -= line.len() + 1;
            taken.push(line.clone());
        }
    }
    taken
}

/// From each call's cases some that lie far from one another, in turn.
fn spread(others: &BTreeMap<String, Vec<String>>) -> impl Iterator<Item = &String> {
    const PARTS: usize = 64;
    (0..PARTS).flat_map(move |part| others.values().map(move |lines| &lines[(part * 2 + 1) * lines.len() / (2 * PARTS)]))
}

/// The answers to recorded cases: the Rust's own. Where one has a refusal 1, the rules are asked too: without its places their answer has to be the
/// Rust's, and then theirs is taken.
fn recorded(lines: &[String]) -> Result<Vec<String>, String> {
    let mut answers: Vec<String> = lines.iter().map(|line| agreed(line).ok_or(format!("no answer to {line}"))).collect::<Result<_, _>>()?;
    let short: Vec<usize> = (0..lines.len()).filter(|i| verdict::has_short(&answers[*i])).collect();
    let rules = model::answers(&short.iter().map(|i| lines[*i].clone()).collect::<Vec<_>>())?;
    for (i, rule) in short.into_iter().zip(rules) {
        if verdict::without_places(&rule).as_ref() != Some(&answers[i]) {
            return Err(format!("the rules do not answer this case as the Rust does: {}\n  the Rust  {}\n  the rules {rule}", lines[i], answers[i]));
        }
        answers[i] = rule;
    }
    Ok(answers)
}

/// The recorded cases anew, and the answers to them, from the cases as they are.
fn renewed(list: &str) -> Result<(String, String), String> {
    let chosen = chosen(list);
    for line in chosen.iter().filter(|line| is_case(line)) {
        agreed(line).ok_or(format!(
            "the Rust does not answer this case as the library does; it belongs above the recorded part of crates/test_replay/stdin: {line}"
        ))?;
    }
    let mut cases = format!("{}\n", header());
    cases.extend(chosen.iter().map(|line| format!("{line}\n")));
    cases += &format!("\n{}\n", generated_line());
    let room = MOST_BYTES.checked_sub(cases.len()).ok_or("the recorded cases that are chosen by hand leave no room")?;
    cases.extend(generated(room, &chosen).iter().map(|line| format!("{line}\n")));
    let mut said = recorded(&cases.lines().filter(|line| is_case(line)).map(String::from).collect::<Vec<_>>())?.into_iter();
    let mut answers = String::new();
    for line in cases.lines() {
        answers += line;
        if is_case(line) {
            answers += &format!(" = {}", said.next().ok_or(format!("no answer to {line}"))?);
        }
        answers.push('\n');
    }
    Ok((cases, answers))
}

/// Looks at the answers above the recorded part, which are the model's: the Rust gives none of them to a line of one call, the place of a refusal 1
/// left out, and where it answers otherwise both answers are as docs/DIFFERENCES.md has them. Answers how many of them the Rust answers otherwise.
fn ruled(cases: &str, answers: &str) -> Result<usize, String> {
    let mut listed = 0;
    let mut lines = answers.lines();
    for case in cases.lines().filter(|line| Case::read(line).is_some()) {
        // The lines of the cases between that are none of one call, and the further lines of an answer, are passed over.
        let ours = lines.find_map(|line| line.strip_prefix(case)?.strip_prefix(" = "));
        match verdict::judge(case, ours.ok_or(format!("crates/test_replay/stdout has above its recorded part no answer to: {case}"))?) {
            Verdict::Equal(_) => {
                return Err(format!("the Rust answers this case so too; it belongs in the recorded part of crates/test_replay/stdin: {case}"));
            }
            Verdict::Wrong(text) => return Err(format!("an answer above the recorded part of crates/test_replay/stdout is wrong: {text}")),
            Verdict::Listed(_) => listed += 1,
            Verdict::Unasked => {}
        }
    }
    Ok(listed)
}

/// Writes the recorded part of stdin and stdout of the program test_replay, in a folder of crates, or only says whether it is what would be written.
pub fn run(crates: &str, check: bool) -> Result<bool, String> {
    let path = |name: &str| Path::new(crates).join(name);
    let read = |name: &str| fs::read_to_string(path(name)).map_err(|e| format!("cannot read {name} in {crates}: {e}"));
    case::consistent()?;
    let (stdin, stdout) = (read(STDIN)?, read(STDOUT)?);
    let (cases_above, old_cases) = parted(STDIN, &stdin)?;
    let (answers_above, old_answers) = parted(STDOUT, &stdout)?;
    let listed = ruled(cases_above, answers_above)?;
    let (cases, answers) = renewed(old_cases)?;
    let count = cases.lines().filter(|line| is_case(line)).count();
    println!("crates/test_replay: {listed} cases that the Rust answers otherwise, as docs/DIFFERENCES.md has it");
    if check {
        let same = old_cases == cases && old_answers == answers;
        println!("crates/test_replay, recorded part: {count} cases, {}", if same { "as they are recorded" } else { "not as they are recorded" });
        return Ok(same);
    }
    for (name, text) in [(STDIN, cases_above.to_owned() + &cases), (STDOUT, answers_above.to_owned() + &answers)] {
        fs::write(path(name), text).map_err(|e| format!("cannot write {name} in {crates}: {e}"))?;
    }
    println!("crates/test_replay, recorded part: {count} cases recorded");
    Ok(true)
}

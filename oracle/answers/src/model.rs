//! The model of the rules in oracle/model, asked by oracle/rules: its calls, and its answers to cases.
use crate::compare;
use std::collections::BTreeMap;
use std::process::Command;

const RULES: &str = concat!(env!("CARGO_MANIFEST_DIR"), "/../rules");

/// The calls with the letters of their arguments.
pub fn calls() -> Result<BTreeMap<String, String>, String> {
    let output = Command::new(RULES).arg("--calls").output().map_err(|e| format!("cannot start oracle/rules: {e}"))?;
    if !output.status.success() {
        return Err(format!("oracle/rules --calls: {}", String::from_utf8_lossy(&output.stderr)));
    }
    let text = String::from_utf8(output.stdout).map_err(|e| format!("oracle/rules --calls: {e}"))?;
    Ok(text.lines().map(|line| line.split_once(' ').unwrap_or((line, ""))).map(|(call, letters)| (call.into(), letters.into())).collect())
}

/// The answers to cases, in their order.
pub fn answers(cases: &[String]) -> Result<Vec<String>, String> {
    compare::answers(RULES, cases)
}

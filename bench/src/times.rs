//! Times, in nanoseconds: of a call, and of a program that lists. What else the machine does makes a run longer, never shorter, so that each is the
//! least of many runs.
use crate::cases::Case;
use std::fs::File;
use std::process::{Command, Stdio};
use std::time::Instant;

/// One call or record, ours and the Rust's: runs of some 10 microseconds, one side after the other.
pub fn call(case: &Case) -> [f64; 2] {
    let calls = (2000 / case.per).max(1);
    let mut least = [f64::MAX; 2];
    for _ in 0..125 {
        for (side, least) in [&case.ours, &case.rust].into_iter().zip(&mut least) {
            let start = Instant::now();
            (side.run)(calls);
            *least = least.min(start.elapsed().as_nanos() as f64 / (calls * case.per) as f64);
        }
    }
    least
}

/// A program, from its start to its end. The journal is its standard input, and nothing keeps what it lists.
pub fn listing(rounds: usize, journal: &str, program: &str, args: &[&str]) -> u128 {
    let mut command = Command::new(program);
    command.args(args).stdout(Stdio::null());
    let run = |_| {
        command.stdin(File::open(journal).unwrap());
        let start = Instant::now();
        let status = command.status().unwrap();
        let time = start.elapsed().as_nanos();
        assert!(status.success(), "{program}: {status}");
        time
    };
    (0..rounds).map(run).min().unwrap()
}

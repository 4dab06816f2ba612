//! The same inputs through the static library and through the Rust, in one program. bench/run builds it twice, calls it and makes the tables.
//!
//!   bench check              compares the two sides' answers, and the bytes that they write; status 1 where they differ
//!   bench calls              a line for each case: its number, how many calls a count takes, how many records a call walks, its goals, its name
//!   bench growth             the same for the walks of more and more records
//!   bench run N SIDE ROUNDS  makes the calls of case N on the side ours or rust
//!   bench times              a line for each of the calls: its number, and nanoseconds, ours and the Rust's, for a call or a record
//!   bench journal WHICH      writes a journal: the wild one, or one of so many records with no value
//!   bench listing ROUNDS JOURNAL COMMAND
//!                            the nanoseconds of a command, with its arguments, that lists a journal: the least of so many runs
mod cases;
mod journals;
mod rust;
mod times;
mod walks;

use cases::Case;
use std::io::Write;
use std::{arch::global_asm, env, io, process::exit};

// Stands first in the program's code, and moves all that follows by PLACE bytes. Where a function lies within 64 bytes changed a ratio by up to a half,
// so that bench/run builds the program at four places and takes each side where it is quickest.
global_asm!(".pushsection .text.place, \"axR\", @progbits", concat!(".skip ", env!("PLACE"), ", 0x90"), ".popsection");

fn check(cases: &[Case]) {
    let mut differ = false;
    for case in cases {
        let (ours, rust) = ((case.ours.says)(), (case.rust.says)());
        if ours != rust {
            println!("{}: ours is {ours:?}, the Rust's {rust:?}", case.name);
            differ = true;
        }
    }
    if differ {
        exit(1);
    }
}

/// Tells cases, with the number that the first one has. The calls of a count make some 100,000 instructions or more.
fn tell(cases: &[Case], first: usize) {
    for (number, case) in (first..).zip(cases) {
        let rounds = if case.per == 1 { 2000 } else { 2 };
        println!("{number} {rounds} {} {} {} {}", case.per, case.goal, case.time_goal, case.name);
    }
}

fn journal(which: &str) {
    let bytes = if which == "wild" { journals::wild() } else { journals::empty(which.parse().unwrap()) };
    io::stdout().write_all(&bytes).unwrap();
}

fn main() {
    let mut cases = cases::calls();
    let calls = cases.len();
    cases.extend(walks::growth());
    let words: Vec<String> = env::args().skip(1).collect();
    match words.iter().map(String::as_str).collect::<Vec<_>>()[..] {
        ["check"] => check(&cases),
        ["calls"] => tell(&cases[..calls], 1),
        ["growth"] => tell(&cases[calls..], calls + 1),
        ["run", number, side, rounds] => {
            let case = &cases[number.parse::<usize>().unwrap() - 1];
            let side = if side == "ours" { &case.ours } else { &case.rust };
            (side.run)(rounds.parse().unwrap());
        }
        ["times"] => {
            for (number, case) in (1..).zip(&cases[..calls]) {
                let [ours, rust] = times::call(case);
                println!("{number} {ours:.3} {rust:.3}");
            }
        }
        ["journal", which] => journal(which),
        ["listing", rounds, journal, program, ref arguments @ ..] => {
            println!("{}", times::listing(rounds.parse().unwrap(), journal, program, arguments));
        }
        _ => {
            eprintln!("usage: bench check | calls | growth | run N ours|rust ROUNDS | times | journal wild|RECORDS | listing ROUNDS JOURNAL COMMAND");
            exit(2);
        }
    }
}

//! The cases of the walk: a whole journal in one call, and record by record.
use crate::cases::{Case, Room, Side, given, kept, side};
use crate::{journals, rust};
use balunduwa::raw;
use std::hint::black_box;

/// A journal that is there as long as the program runs, and how many records it has.
type Journal = (&'static [u8], usize);

pub fn filled(least: usize) -> Journal {
    let (bytes, count) = journals::filled(least);
    (kept(bytes), count)
}

/// The walk in one call: a summary, against the Rust's loop.
pub fn walk(name: &'static str, (journal, count): Journal) -> Case {
    Case {
        name,
        goal: 1.0,
        time_goal: 0.5,
        per: count,
        ours: side(
            journal,
            |journal, _| raw::walk_summary(journal),
            |_, a| {
                given(a.refusal);
                assert_eq!(a.behind, 0);
                vec![a.count as u64, a.place as u64]
            },
        ),
        rust: side(journal, |journal, _| rust::walk(journal), |_, (count, place)| vec![*count as u64, *place as u64]),
    }
}

/// An answer, each field of which the optimiser takes for read.
fn seen<A>(answer: A) -> A {
    black_box(&answer);
    answer
}

/// A side that goes over a journal record by record, and gives the number of records and the place of the end.
fn by_record(journal: &'static [u8], walk: impl Fn(&&'static [u8], &mut Room) -> (usize, usize) + Copy + 'static) -> Side {
    side(journal, walk, |_, (count, place)| vec![*count as u64, *place as u64])
}

/// The Rust's side of a walk record by record: its reader, behind a call.
fn by_reader(journal: &'static [u8]) -> Side {
    by_record(journal, |journal, _| {
        let (mut count, mut place) = (0, 0);
        let mut step = seen(rust::tlv_read(&journal[place..]));
        while let Ok(tlv) = step {
            count += 1;
            place += tlv.len_full();
            step = seen(rust::tlv_read(&journal[place..]));
        }
        (count, place)
    })
}

/// The walk record by record: a step, against the Rust's reader, each behind a call. Both give the caller every record.
pub fn steps(name: &'static str, (journal, count): Journal) -> Case {
    let ours = by_record(journal, |journal, _| {
        let mut count = 0;
        let mut step = seen(raw::walk_step(journal, 0));
        while step.refusal.number == 0 && step.what == raw::RECORD {
            count += 1;
            step = seen(raw::walk_step(journal, step.next));
        }
        (count, step.next)
    });
    Case { name, goal: 1.0, time_goal: 1.0, per: count, ours, rust: by_reader(journal) }
}

/// The same by the step that answers in registers. What black_box takes is a copy, so that the next place does not go through memory.
pub fn steps_in_registers(name: &'static str, (journal, count): Journal) -> Case {
    let next = |journal: &[u8], place| {
        let step = raw::walk_next(journal, place);
        black_box(step);
        step
    };
    let ours = by_record(journal, move |journal, _| {
        let mut count = 0;
        let mut step = next(journal, 0);
        while step.what == raw::RECORD {
            count += 1;
            step = next(journal, step.next);
        }
        (count, step.next)
    });
    Case { name, goal: 1.0, time_goal: 1.0, per: count, ours, rust: by_reader(journal) }
}

/// Journals of more and more records with no value, up to the limit: what a record costs is to stay as it is.
pub fn growth() -> Vec<Case> {
    let journals = [8_192, 16_384, 32_768].map(|records| (kept(journals::empty(records)), records));
    let at_once = journals.map(|journal| walk("walk in one call", journal));
    let by_steps = journals.map(|journal| steps("steps", journal));
    at_once.into_iter().chain(by_steps).collect()
}

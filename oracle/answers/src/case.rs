//! A case: the name of a call and its arguments, read from a line.
use crate::model;
use crate::notation::{self, Field};
use std::collections::BTreeMap;
use std::sync::OnceLock;

/// An argument, by its letter in the list of calls.
#[derive(Clone, PartialEq, Eq, Debug)]
pub enum Arg {
    Number(usize),
    Field(Field),
    Second(Option<(usize, usize)>),
    Bytes(Vec<u8>),
}

#[derive(Clone, Debug)]
pub struct Case {
    pub call: &'static str,
    pub args: Vec<Arg>,
}

/// The sources of replay that have rows: a row is a call's name and, behind a space, a letter for each of its arguments.
const SOURCES: [&str; 12] = [
    include_str!("../../../crates/test_formats/src/entity_rows.rt"),
    include_str!("../../../crates/test_formats/src/ground_rows.rt"),
    include_str!("../../../crates/test_formats/src/lv_rows.rt"),
    include_str!("../../../crates/test_formats/src/tlv_rows.rt"),
    include_str!("../../../crates/test_formats/src/writers.rt"),
    include_str!("../../../crates/test_filestore/src/action_rows.rt"),
    include_str!("../../../crates/test_filestore/src/request_rows.rt"),
    include_str!("../../../crates/test_filestore/src/response_rows.rt"),
    include_str!("../../../crates/test_filestore/src/writers.rt"),
    include_str!("../../../crates/test_journal/src/lib.rt"),
    include_str!("../../../crates/test_replay/src/tables.rt"),
    include_str!("../../../crates/test_replay/src/walker_rows.rt"),
];

/// The calls with the letters of their arguments, as replay's own rows have them.
pub fn calls() -> &'static BTreeMap<&'static str, &'static str> {
    static CALLS: OnceLock<BTreeMap<&str, &str>> = OnceLock::new();
    CALLS.get_or_init(|| {
        let rows = SOURCES.iter().flat_map(|source| source.split("call.is(b\"").skip(1)).filter_map(|row| row.split('"').next());
        rows.map(|row| row.split_once(' ').unwrap_or((row, ""))).collect()
    })
}

/// Whether the model has these calls and no others, with the same arguments: so a source above that is missing is noticed.
pub fn consistent() -> Result<(), String> {
    let mut theirs = model::calls()?;
    for (call, letters) in calls() {
        match theirs.remove(*call) {
            Some(others) if others == *letters => {}
            Some(others) => return Err(format!("{call} takes '{letters}' by its row, and '{others}' by the model")),
            None => return Err(format!("{call} has a row, and the model has it not")),
        }
    }
    theirs.keys().next().map_or(Ok(()), |call| Err(format!("the model has {call}, and the sources in oracle/answers/src/case.rs have no row of it")))
}

fn arg(letter: char, word: &str) -> Option<Arg> {
    let below = |limit: usize| notation::number(word).filter(|x| *x < limit).map(Arg::Number);
    match letter {
        'X' => notation::bytes(word).map(Arg::Bytes),
        'N' => notation::number(word).map(Arg::Number),
        'O' => below(256),
        'A' => below(9),
        'F' => notation::field(word).map(Arg::Field),
        'T' => notation::field(word).filter(|f| matches!(f, Field::Standard(_))).map(Arg::Field),
        'M' => notation::second(word).map(Arg::Second),
        _ => None,
    }
}

impl Case {
    /// Reads a line that is one call; None where it is none.
    pub fn read(line: &str) -> Option<Case> {
        let mut words = line.split(' ');
        let (call, letters) = calls().get_key_value(words.next()?)?;
        let mut args = Vec::new();
        for letter in letters.chars() {
            args.push(arg(letter, words.next()?)?);
        }
        words.next().is_none().then_some(Case { call, args })
    }

    /// Reads a line of one or more calls with a semicolon between them; a space before each does not count. None where one is no call.
    pub fn read_all(line: &str) -> Option<Vec<Case>> {
        line.split(';').map(|call| Case::read(call.strip_prefix(' ').unwrap_or(call))).collect()
    }

    /// The part of the name before the dot, and the one behind it.
    pub fn kind(&self) -> &'static str {
        self.call.split('.').next().unwrap_or("")
    }

    pub fn method(&self) -> &'static str {
        self.call.split('.').nth(1).unwrap_or("")
    }

    /// The argument at a place, where the list of calls says that it is a number, bytes, a type field or a second name.
    pub fn number(&self, at: usize) -> usize {
        match &self.args[at] {
            Arg::Number(x) => *x,
            other => panic!("{}: argument {at} is {other:?}", self.call),
        }
    }

    pub fn bytes(&self, at: usize) -> &[u8] {
        match &self.args[at] {
            Arg::Bytes(x) => x,
            other => panic!("{}: argument {at} is {other:?}", self.call),
        }
    }

    pub fn field(&self, at: usize) -> Field {
        match &self.args[at] {
            Arg::Field(x) => *x,
            other => panic!("{}: argument {at} is {other:?}", self.call),
        }
    }

    pub fn second(&self, at: usize) -> Option<(usize, usize)> {
        match &self.args[at] {
            Arg::Second(x) => *x,
            other => panic!("{}: argument {at} is {other:?}", self.call),
        }
    }
}

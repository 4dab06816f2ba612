//! The values that a case hands to a call: what its arguments stand for, with the bytes that their spans lie in.
use crate::case::Case;
use crate::notation::Field;

#[derive(Clone, Copy, PartialEq, Eq, Debug)]
pub struct Span {
    pub start: usize,
    pub len: usize,
}

/// A filestore request, or with a message a response. A request has no status; it stands as 0.
#[derive(Clone, Copy, Debug)]
pub struct Filestore {
    pub action: u8,
    pub status: u8,
    pub first: Span,
    pub second: Option<Span>,
    pub message: Option<Span>,
}

#[derive(Clone, Copy, Debug)]
pub enum Value {
    Lv(Span),
    Tlv(Field, Span),
    Entity(usize, u64),
    Filestore(Filestore),
}

/// A value and the bytes that its spans lie in, where the call is lent any.
#[derive(Clone, Copy, Debug)]
pub struct Lent<'a> {
    pub value: Value,
    pub source: Option<&'a [u8]>,
}

impl Value {
    /// Its spans in writing order.
    pub fn spans(&self) -> Vec<Span> {
        match self {
            Value::Lv(span) | Value::Tlv(_, span) => vec![*span],
            Value::Entity(..) => vec![],
            Value::Filestore(f) => [Some(f.first), f.second, f.message].into_iter().flatten().collect(),
        }
    }
}

impl Filestore {
    /// Whether the action has a second name (document 01: RenameFile, AppendFile, ReplaceFile).
    pub fn second_due(&self) -> bool {
        (2..=4).contains(&self.action)
    }

    /// The count of bytes of the names as LVs: of the first, and of the second where one is due.
    pub fn names_due(&self) -> usize {
        let second = self.second.filter(|_| self.second_due());
        self.first.len + 1 + second.map_or(0, |s| s.len + 1)
    }

    /// The count of bytes of the whole value: action byte, all names there are, message.
    pub fn value_len(&self) -> usize {
        let lvs = [Some(self.first), self.second, self.message];
        1 + lvs.into_iter().flatten().map(|s| s.len + 1).sum::<usize>()
    }
}

/// Reads arguments from a place on.
struct Reader<'a> {
    case: &'a Case,
    at: usize,
}

impl<'a> Reader<'a> {
    fn number(&mut self) -> usize {
        self.at += 1;
        self.case.number(self.at - 1)
    }

    fn span(&mut self) -> Span {
        let start = self.number();
        Span { start, len: self.number() }
    }

    fn second(&mut self) -> Option<Span> {
        self.at += 1;
        self.case.second(self.at - 1).map(|(start, len)| Span { start, len })
    }

    fn tlv(&mut self) -> Value {
        self.at += 1;
        let field = self.case.field(self.at - 1);
        Value::Tlv(field, self.span())
    }

    fn value(&mut self) -> Value {
        match self.case.kind() {
            "lv" => Value::Lv(self.span()),
            "tlv" => self.tlv(),
            "entity" => {
                let width = self.number();
                Value::Entity(width, self.number() as u64)
            }
            kind => {
                let action = self.number() as u8;
                let status = if kind == "response" { self.number() as u8 } else { 0 };
                let (first, second) = (self.span(), self.second());
                let message = (kind == "response").then(|| self.span());
                Value::Filestore(Filestore { action, status, first, second, message })
            }
        }
    }

    fn lent(&mut self) -> Lent<'a> {
        let value = self.value();
        let source = (self.at < self.case.args.len()).then(|| {
            self.at += 1;
            self.case.bytes(self.at - 1)
        });
        Lent { value, source }
    }
}

const NO_SPAN: Span = Span { start: 0, len: 0 };

/// The actions of the request builders of one action each, by name.
const BUILDERS: [(&str, u8); 9] = [
    ("new_create_file", 0),
    ("new_delete_file", 1),
    ("new_rename_file", 2),
    ("new_append_file", 3),
    ("new_replace_file", 4),
    ("new_create_directory", 5),
    ("new_remove_directory", 6),
    ("new_deny_file", 7),
    ("new_deny_directory", 8),
];

/// The value that a builder is to make; its spans lie nowhere.
pub fn to_build(case: &Case) -> Value {
    let mut args = Reader { case, at: 0 };
    match (case.kind(), case.method()) {
        ("lv", "new_empty") => Value::Lv(NO_SPAN),
        ("tlv", "new_empty") => Value::Tlv(case.field(0), NO_SPAN),
        ("tlv", "new_with_custom_type") => {
            let label = args.number() as u8;
            Value::Tlv(Field::Custom(label), args.span())
        }
        ("request", method) if method != "new" => {
            let (_, action) = BUILDERS.into_iter().find(|(name, _)| *name == method).expect("a builder of one action");
            let first = args.span();
            let second = (2..=4).contains(&action).then(|| args.span());
            Value::Filestore(Filestore { action, status: 0, first, second, message: None })
        }
        ("response", "new_no_filestore_message") => {
            let (action, status) = (args.number() as u8, args.number() as u8);
            let (first, second) = (args.span(), args.second());
            Value::Filestore(Filestore { action, status, first, second, message: Some(NO_SPAN) })
        }
        _ => args.value(),
    }
}

/// The value that the case hands to a call, with its source where it has one.
pub fn handed(case: &Case) -> Lent<'_> {
    let mut args = Reader { case, at: 0 };
    if case.call == "entity.from_tlv" {
        return Lent { value: args.tlv(), source: Some(case.bytes(3)) };
    }
    if case.kind() == "entity" {
        return Lent { value: args.value(), source: None };
    }
    args.lent()
}

/// The two values of a comparison.
pub fn both(case: &Case) -> (Lent<'_>, Lent<'_>) {
    let mut args = Reader { case, at: 0 };
    if case.kind() == "entity" {
        let left = Lent { value: args.value(), source: None };
        return (left, Lent { value: args.value(), source: None });
    }
    (args.lent(), args.lent())
}

/// What a call does, as far as it counts for what is compared.
#[derive(Clone, Copy, PartialEq, Eq, Debug)]
pub enum Role {
    /// Reads bytes: a reader, or the walk.
    Read,
    Build,
    /// Tells something of a value, and refuses nothing.
    Tell,
    /// Tells a length; the building refusals come first.
    Length,
    Write,
    Compare,
    /// An entity ID from a generic TLV.
    FromTlv,
    /// A number, type field or action, told by a table.
    Table,
    /// The Rust has no such call.
    Added,
}

/// The role of a call. A call that is not named here counts as added, so nothing is compared that was not thought of.
pub fn role(case: &Case) -> Role {
    match (case.kind(), case.method()) {
        ("lv" | "tlv" | "entity" | "request" | "response", "from_bytes") => Role::Read,
        ("walk", "step_at" | "summary_of" | "listing" | "prefixes") | ("kind", "kind_at") | ("walker", "first") => Role::Read,
        ("entity", "from_tlv") => Role::FromTlv,
        ("type" | "action", _) | ("response", "has_second_filename") => Role::Table,
        ("lv" | "tlv" | "entity" | "request" | "response", method) if method == "new" || method.starts_with("new_") => Role::Build,
        ("request" | "response", "len_value") | (_, "len_full" | "len_written") => Role::Length,
        (_, "write_to_slice" | "to_tlv") if case.kind() != "record" => Role::Write,
        ("lv" | "tlv" | "entity" | "request" | "response", "same") => Role::Compare,
        ("lv", "value" | "len_value" | "is_empty") => Role::Tell,
        ("tlv", "value" | "len_value" | "is_empty" | "tlv_type_field" | "tlv_type" | "is_standard_tlv") => Role::Tell,
        ("entity", "entity_id" | "len_value" | "tlv_type_field" | "tlv_type" | "is_standard_tlv") => Role::Tell,
        (
            "request" | "response",
            "action_code" | "status_code" | "first_name" | "second_name" | "filestore_message" | "tlv_type_field" | "tlv_type" | "is_standard_tlv",
        ) => Role::Tell,
        _ => Role::Added,
    }
}

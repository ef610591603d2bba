//! Why a request was not done, and where.
use crate::value::Value;
use std::fmt;

/// How a request ended.
#[derive(Clone, Copy, Debug, PartialEq, Eq)]
pub enum Status {
    /// The render ended with an error.
    Render,
    /// A setting says nothing that it can say, or the syntax is refused.
    Request,
    /// The context was refused.
    Context,
    /// A template was refused, or the main one does not stand.
    Template,
    /// Memory was refused.
    Memory,
}

impl Status {
    /// What a number stands for; none where all is done.
    pub(crate) fn of(status: u8) -> Option<Status> {
        match status {
            0 => None,
            1 => Some(Status::Render),
            2 => Some(Status::Request),
            4 => Some(Status::Context),
            5 => Some(Status::Template),
            _ => Some(Status::Memory),
        }
    }
}

/// A place in a template: lines and columns from 1 on, and bytes from 0 on.
#[derive(Clone, Debug, PartialEq, Eq)]
pub struct Place {
    /// The template's name.
    pub name: String,
    /// The line.
    pub line: u64,
    /// The column, in characters.
    pub column: u64,
    /// The first byte.
    pub start: u64,
    /// The byte behind the last; as `start`, where only the line is known.
    pub end: u64,
}

impl fmt::Display for Place {
    fn fmt(&self, f: &mut fmt::Formatter<'_>) -> fmt::Result {
        write!(f, "{}:{}:{}", self.name, self.line, self.column)
    }
}

/// Why a request was not done.
#[derive(Clone, Debug, PartialEq, Eq)]
pub struct Error {
    /// How it ended.
    pub status: Status,
    /// The kinds of the error, outermost first.
    pub kinds: Vec<String>,
    /// The places where it happened: of what was refused, then of the calls around it, and so for each kind.
    pub places: Vec<Place>,
    /// The text that was written before.
    pub text: String,
    /// The member of the request that is malformed, if one is.
    pub member: Option<String>,
}

impl Error {
    /// The error that a reply tells; of an empty one, which comes where no memory is left, only the status is known.
    pub(crate) fn of_reply(status: Status, reply: &str) -> Error {
        let told: Value = reply.parse().unwrap_or_default();
        let each = |name: &str| told.get(name).map_or(&[][..], Value::items).iter();
        let text = |name: &str| told.get(name).and_then(Value::as_str).map(str::to_owned);
        Error {
            status,
            kinds: each("kinds").filter_map(Value::as_str).map(str::to_owned).collect(),
            places: each("places").map(place_of).collect(),
            text: text("text").unwrap_or_default(),
            member: text("member"),
        }
    }
}

fn place_of(told: &Value) -> Place {
    let number = |name: &str| told.get(name).and_then(Value::as_u64).unwrap_or_default();
    Place {
        name: told.get("name").and_then(Value::as_str).unwrap_or_default().to_owned(),
        line: number("line"),
        column: number("column"),
        start: number("start"),
        end: number("end"),
    }
}

impl fmt::Display for Error {
    fn fmt(&self, f: &mut fmt::Formatter<'_>) -> fmt::Result {
        match (&self.member, self.kinds.as_slice()) {
            (Some(member), _) => write!(f, "malformed request: {member}")?,
            (None, []) => write!(f, "no memory")?,
            (None, kinds) => write!(f, "{}", kinds.join(": "))?,
        }
        match self.places.first() {
            Some(place) => write!(f, " at {place}"),
            None => Ok(()),
        }
    }
}

impl std::error::Error for Error {}

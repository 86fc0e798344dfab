//! Validation of GraphQL schemas and documents.
//!
//! `Schema` reads a schema once, and validates documents against it. The functions read a schema at each call. Each call
//! needs 2 MiB of stack, which a thread of Rust has, or less with a lower depth (`Options`).

#![deny(unsafe_code, missing_docs)]

#[allow(unsafe_code)]
mod calls;
mod errors;
mod json;
mod schemas;

pub use calls::validate_json;
pub use errors::Error;
use json::Value;
pub use schemas::{File, Options, Schema};

/// What is wrong with a text.
#[derive(Clone, Debug, PartialEq, Eq)]
pub struct Report {
    /// What is wrong.
    pub message: String,
    /// The name of the broken rule; `Syntax` where the text is no document.
    pub rule: String,
    /// Where it is, if it has a place: one location.
    pub locations: Vec<Location>,
    /// The bytes of the text that it is about, if it has a place.
    pub span: Option<std::ops::Range<usize>>,
    /// Whether it is about the schema. No document was then looked at.
    pub in_schema: bool,
    /// The file of the schema, if it has a name; `<built-in>` for the definitions that every schema has.
    pub file: Option<String>,
    /// Notes on other places.
    pub related: Vec<Note>,
    /// What helps, in words.
    pub help: Vec<String>,
}

/// A note on another place of a report.
#[derive(Clone, Debug, PartialEq, Eq)]
pub struct Note {
    /// What is there.
    pub message: String,
    /// Where it is.
    pub location: Location,
    /// The bytes of the text that it is about.
    pub span: std::ops::Range<usize>,
    /// Its file, as of a report.
    pub file: Option<String>,
}

/// A line and a column, from 1. A column counts characters.
#[derive(Clone, Copy, Debug, PartialEq, Eq)]
pub struct Location {
    /// The line.
    pub line: usize,
    /// The column.
    pub column: usize,
}

/// What is reported of a document against a schema: nothing, where both are valid.
pub fn validate(schema: &str, document: &str) -> Result<Vec<Report>, Error> {
    let (answer, in_schema) = calls::document(schema, document)?;
    read(&answer).and_then(|value| reports(&value, in_schema))
}

/// What is reported of a schema.
pub fn validate_schema(schema: &str) -> Result<Vec<Report>, Error> {
    let (answer, in_schema) = calls::schema(schema)?;
    read(&answer).and_then(|value| reports(&value, in_schema))
}

/// What is reported of each of these documents against one schema, which is read once.
pub fn validate_all(schema: &str, documents: &[&str]) -> Result<Vec<Vec<Report>>, Error> {
    let (answer, in_schema) = calls::documents(schema, documents)?;
    let value = read(&answer)?;
    if in_schema {
        return Err(Error::SchemaReported(reports(&value, true)?));
    }
    let each = value.items().ok_or(Error::UnknownAnswer)?;
    each.iter().map(|it| reports(it, false)).collect()
}

fn read(answer: &str) -> Result<Value, Error> {
    json::read(answer).ok_or(Error::UnknownAnswer)
}

fn reports(value: &Value, in_schema: bool) -> Result<Vec<Report>, Error> {
    let errors = value.member("errors").and_then(Value::items);
    let each = errors.ok_or(Error::UnknownAnswer)?.iter();
    each.map(|it| report(it, in_schema).ok_or(Error::UnknownAnswer))
        .collect()
}

fn report(error: &Value, in_schema: bool) -> Option<Report> {
    let extensions = error.member("extensions")?;
    Some(Report {
        message: error.member("message")?.text()?.to_owned(),
        rule: extensions.member("rule")?.text()?.to_owned(),
        locations: items(error, "locations").iter().map(location).collect::<Option<_>>()?,
        span: match extensions.member("span") {
            Some(span) => Some(range(span)?),
            None => None,
        },
        in_schema,
        file: file(extensions),
        related: items(extensions, "related").iter().map(note).collect::<Option<_>>()?,
        help: items(extensions, "help")
            .iter()
            .map(|it| it.text().map(str::to_owned))
            .collect::<Option<_>>()?,
    })
}

fn note(value: &Value) -> Option<Note> {
    Some(Note {
        message: value.member("message")?.text()?.to_owned(),
        location: location(value)?,
        span: range(value.member("span")?)?,
        file: file(value),
    })
}

fn items<'a>(value: &'a Value, name: &str) -> &'a [Value] {
    value.member(name).and_then(Value::items).unwrap_or(&[])
}

fn file(value: &Value) -> Option<String> {
    value.member("file").and_then(Value::text).map(str::to_owned)
}

fn range(span: &Value) -> Option<std::ops::Range<usize>> {
    Some(span.member("start")?.number()?..span.member("end")?.number()?)
}

fn location(value: &Value) -> Option<Location> {
    Some(Location {
        line: value.member("line")?.number()?,
        column: value.member("column")?.number()?,
    })
}

//! Schemas that are read once.

use crate::calls::Kept;
use crate::{read, reports, Error, Report};
use std::sync::{Arc, Mutex, MutexGuard, PoisonError};

/// A schema that is read once, and documents against it.
///
/// Threads may share it, by reference or by clones, and call it at once; the schema is in memory once. Calls need 2 MiB of
/// stack, which a thread of Rust has, or less with a lower depth.
///
/// ```
/// let schema = graphql_validation::Schema::read("type Query { a: Int }")?;
/// assert!(schema.validate("{ a }")?.is_empty());
/// assert_eq!(schema.validate("{ b }")?[0].rule, "UndefinedField");
/// # Ok::<(), graphql_validation::Error>(())
/// ```
///
/// ```
/// let schema = graphql_validation::Schema::read("type Query { a: Int }")?;
/// let clone = schema.clone();
/// let other = std::thread::spawn(move || clone.validate("{ a }"));
/// assert_eq!(other.join().unwrap(), schema.validate("{ a }"));
/// # Ok::<(), graphql_validation::Error>(())
/// ```
#[derive(Clone)]
pub struct Schema {
    handles: Arc<Mutex<Handles>>,
    options: Options,
}

/// Handles over one schema. Each call has one of its own.
struct Handles {
    /// The others share its schema.
    root: Kept,
    /// Those that no call has.
    idle: Vec<Kept>,
}

/// A file of a schema.
#[derive(Clone, Copy, Debug)]
pub struct File<'a> {
    /// What reports call it. Reports do not name a file whose name is empty.
    pub name: &'a str,
    /// What it has.
    pub text: &'a str,
}

/// What a call may take. 0 says the default, which `include/graphql_validation.h` states.
#[derive(Clone, Copy, Debug, Default, PartialEq, Eq)]
pub struct Options {
    /// How many brackets and braces open in one another. A thread with a small stack passes a lower one.
    pub depth: usize,
    /// How many tokens a text has.
    pub tokens: usize,
    /// How many bytes the operations of a document reach for each byte of it.
    pub reach: usize,
    /// How much work the search for fields takes that cannot be merged.
    pub work: usize,
    /// How many reports a call gives: the first ones.
    pub max_reports: usize,
}

impl Schema {
    /// Reads a schema. If something is reported of it, the error is `SchemaReported`.
    pub fn read(text: &str) -> Result<Schema, Error> {
        Schema::read_files(&[File { name: "", text }], &Options::default())
    }

    /// Reads a schema from files. The options hold for this call, and for the documents that are validated without options.
    pub fn read_files(files: &[File<'_>], options: &Options) -> Result<Schema, Error> {
        let (kept, (answer, in_schema)) = Kept::read(files, options)?;
        if in_schema {
            return Err(Error::SchemaReported(reports(&read(&answer)?, true)?));
        }
        let handles = Handles {
            root: kept,
            idle: Vec::new(),
        };
        Ok(Schema {
            handles: Arc::new(Mutex::new(handles)),
            options: *options,
        })
    }

    /// What is reported of a document: nothing, if it is valid.
    pub fn validate(&self, document: &str) -> Result<Vec<Report>, Error> {
        self.validate_within(document, &self.options)
    }

    /// What is reported of a document within these bounds.
    pub fn validate_within(&self, document: &str, options: &Options) -> Result<Vec<Report>, Error> {
        match self.by_handle(|kept| kept.reported(document, options))? {
            Some((answer, _)) => reports(&read(&answer)?, false),
            None => Ok(Vec::new()),
        }
    }

    /// The answer on a document as it is: a JSON object, `{"errors":[..]}`.
    pub fn validate_json(&self, document: &str) -> Result<String, Error> {
        let (answer, _) = self.by_handle(|kept| kept.validate(document, &self.options))?;
        Ok(answer)
    }

    /// Calls with a handle that no other call has. The lock is held to take it and to give it back, and not for the call.
    fn by_handle<T>(&self, call: impl FnOnce(&mut Kept) -> Result<T, Error>) -> Result<T, Error> {
        let mut kept = self.handles().take()?;
        let result = call(&mut kept);
        self.handles().idle.push(kept);
        result
    }

    fn handles(&self) -> MutexGuard<'_, Handles> {
        self.handles.lock().unwrap_or_else(PoisonError::into_inner)
    }
}

impl Handles {
    fn take(&mut self) -> Result<Kept, Error> {
        match self.idle.pop() {
            Some(kept) => Ok(kept),
            None => self.root.share(),
        }
    }
}

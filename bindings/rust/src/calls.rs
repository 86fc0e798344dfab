//! The calls of `include/graphql_validation.h`. No other module has unsafe code.

use crate::{Error, File, Options};
use std::ffi::c_void;
use std::ptr::null_mut;

/// The version of the calls that are declared here.
const VERSION: u32 = 2;

const IN_SCHEMA: u32 = 1;
/// The status of a call that reports nothing.
const ACCEPTED: u32 = 0;

/// How many bytes an answer has, before more room is asked for.
const ROOM: usize = 4096;

#[repr(C)]
struct Outcome {
    status: u32,
    reported: u32,
    length: usize,
}

#[repr(C)]
struct SchemaHandle {
    at: *mut c_void,
}

#[repr(C)]
struct CFile {
    name: *const u8,
    name_length: usize,
    text: *const u8,
    text_length: usize,
}

#[repr(C)]
struct COptions {
    size: usize,
    depth: usize,
    tokens: usize,
    reach: usize,
    work: usize,
    max_reports: usize,
}

extern "C" {
    fn graphql_validate(
        schema: *const u8,
        schema_length: usize,
        document: *const u8,
        document_length: usize,
        out: *mut u8,
        out_length: usize,
    ) -> Outcome;
    fn graphql_validate_schema(
        schema: *const u8,
        schema_length: usize,
        out: *mut u8,
        out_length: usize,
    ) -> Outcome;
    fn graphql_validate_all(
        schema: *const u8,
        schema_length: usize,
        documents: *const u8,
        documents_length: usize,
        ends: *const usize,
        count: usize,
        out: *mut u8,
        out_length: usize,
    ) -> Outcome;
    fn graphql_schema_read(
        files: *const CFile,
        count: usize,
        options: *const COptions,
        schema: *mut SchemaHandle,
        out: *mut u8,
        out_length: usize,
    ) -> Outcome;
    fn graphql_schema_validate(
        schema: *mut SchemaHandle,
        document: *const u8,
        document_length: usize,
        options: *const COptions,
        out: *mut u8,
        out_length: usize,
    ) -> Outcome;
    fn graphql_schema_share(schema: *mut SchemaHandle, other: *mut SchemaHandle) -> u32;
    fn graphql_schema_answer(
        schema: *mut SchemaHandle,
        from: usize,
        out: *mut u8,
        out_length: usize,
    ) -> usize;
    fn graphql_schema_free(schema: *mut SchemaHandle);
    fn graphql_abi_version() -> u32;
}

/// An answer, and whether it is about the schema.
pub(crate) type Answer = (String, bool);

/// A handle of the library, which keeps a schema and the last answer.
pub(crate) struct Kept {
    handle: SchemaHandle,
}

// SAFETY: a handle may go to another thread, and what handles share is shared among threads.
unsafe impl Send for Kept {}

impl Kept {
    fn new() -> Kept {
        Kept {
            handle: SchemaHandle { at: null_mut() },
        }
    }

    /// Reads the schema of these files, and answers what is reported of it.
    pub(crate) fn read(files: &[File<'_>], options: &Options) -> Result<(Kept, Answer), Error> {
        check_version()?;
        let given: Vec<CFile> = files.iter().map(c_file).collect();
        let mut kept = Kept::new();
        let mut out = [0; ROOM];
        // SAFETY: pointers and lengths are those of slices that are borrowed for the call; the handle is zeroed, and it and
        // `out` are no part of the others.
        let outcome = unsafe {
            graphql_schema_read(
                given.as_ptr(),
                given.len(),
                &c_options(options),
                &mut kept.handle,
                out.as_mut_ptr(),
                out.len(),
            )
        };
        let answer = kept.answer(outcome, &out)?;
        Ok((kept, answer))
    }

    /// Another handle over the schema that is kept, which is in memory once.
    pub(crate) fn share(&mut self) -> Result<Kept, Error> {
        let mut other = Kept::new();
        // SAFETY: two handles, which are borrowed for this call alone.
        check_status(unsafe { graphql_schema_share(&mut self.handle, &mut other.handle) })?;
        Ok(other)
    }

    /// Validates a document against the schema that is kept.
    pub(crate) fn validate(&mut self, document: &str, options: &Options) -> Result<Answer, Error> {
        let mut out = [0; ROOM];
        let outcome = self.call(document, options, &mut out);
        self.answer(outcome, &out)
    }

    /// The answer on a document, if something is reported of it.
    pub(crate) fn reported(&mut self, document: &str, options: &Options) -> Result<Option<Answer>, Error> {
        let mut out = [0; ROOM];
        let outcome = self.call(document, options, &mut out);
        if outcome.status == ACCEPTED {
            return Ok(None);
        }
        self.answer(outcome, &out).map(Some)
    }

    fn call(&mut self, document: &str, options: &Options, out: &mut [u8]) -> Outcome {
        // SAFETY: as in `read`; the handle is borrowed for this call alone.
        unsafe {
            graphql_schema_validate(
                &mut self.handle,
                document.as_ptr(),
                document.len(),
                &c_options(options),
                out.as_mut_ptr(),
                out.len(),
            )
        }
    }

    /// The whole answer of the last call, of which the beginning was written to `out`.
    fn answer(&mut self, outcome: Outcome, out: &[u8]) -> Result<Answer, Error> {
        check_status(outcome.status)?;
        let written = outcome.length.min(out.len());
        let mut answer = out[..written].to_vec();
        answer.resize(outcome.length, 0);
        let rest = &mut answer[written..];
        if !rest.is_empty() {
            // SAFETY: as in `validate`.
            unsafe {
                graphql_schema_answer(&mut self.handle, written, rest.as_mut_ptr(), rest.len());
            }
        }
        text(answer, &outcome)
    }
}

impl Drop for Kept {
    fn drop(&mut self) {
        // SAFETY: no call uses the handle.
        unsafe { graphql_schema_free(&mut self.handle) }
    }
}

fn c_file(file: &File<'_>) -> CFile {
    CFile {
        name: file.name.as_ptr(),
        name_length: file.name.len(),
        text: file.text.as_ptr(),
        text_length: file.text.len(),
    }
}

fn c_options(options: &Options) -> COptions {
    COptions {
        size: std::mem::size_of::<COptions>(),
        depth: options.depth,
        tokens: options.tokens,
        reach: options.reach,
        work: options.work,
        max_reports: options.max_reports,
    }
}

/// The answer to `graphql_validate` as it is: a JSON object, `{"errors":[..]}`.
pub fn validate_json(schema: &str, document: &str) -> Result<String, Error> {
    Ok(self::document(schema, document)?.0)
}

/// The answer on a document, and whether the schema is reported.
pub(crate) fn document(schema: &str, document: &str) -> Result<Answer, Error> {
    // SAFETY: pointers and lengths are those of slices that are borrowed for the call; `out` is no part of the others.
    answer(|out| unsafe {
        graphql_validate(
            schema.as_ptr(),
            schema.len(),
            document.as_ptr(),
            document.len(),
            out.as_mut_ptr(),
            out.len(),
        )
    })
}

/// The answer on a schema, and whether it is reported.
pub(crate) fn schema(schema: &str) -> Result<Answer, Error> {
    // SAFETY: as in `document`.
    answer(|out| unsafe {
        graphql_validate_schema(
            schema.as_ptr(),
            schema.len(),
            out.as_mut_ptr(),
            out.len(),
        )
    })
}

/// The answer on documents, and whether the schema is reported.
pub(crate) fn documents(schema: &str, documents: &[&str]) -> Result<Answer, Error> {
    let whole = documents.concat();
    let ends: Vec<usize> = documents
        .iter()
        .scan(0, |end, it| {
            *end += it.len();
            Some(*end)
        })
        .collect();
    // SAFETY: as in `document`, and of `ends` the same.
    answer(|out| unsafe {
        graphql_validate_all(
            schema.as_ptr(),
            schema.len(),
            whole.as_ptr(),
            whole.len(),
            ends.as_ptr(),
            ends.len(),
            out.as_mut_ptr(),
            out.len(),
        )
    })
}

/// Calls with as much room as the answer needs.
fn answer(call: impl Fn(&mut [u8]) -> Outcome) -> Result<Answer, Error> {
    check_version()?;
    let mut out = vec![0; ROOM];
    loop {
        let outcome = call(&mut out);
        check_status(outcome.status)?;
        if outcome.length <= out.len() {
            out.truncate(outcome.length);
            return text(out, &outcome);
        }
        out.resize(outcome.length, 0);
    }
}

fn check_version() -> Result<(), Error> {
    // SAFETY: the call takes nothing.
    if unsafe { graphql_abi_version() } == VERSION {
        Ok(())
    } else {
        Err(Error::OtherVersion)
    }
}

fn check_status(status: u32) -> Result<(), Error> {
    match status {
        0 | 1 => Ok(()),
        3 => Err(Error::OutOfMemory),
        _ => Err(Error::UnknownAnswer),
    }
}

fn text(answer: Vec<u8>, outcome: &Outcome) -> Result<Answer, Error> {
    let text = String::from_utf8(answer).map_err(|_| Error::UnknownAnswer)?;
    Ok((text, outcome.reported == IN_SCHEMA))
}

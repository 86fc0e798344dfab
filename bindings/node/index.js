"use strict";

const library = require("./graphql_validation.node");

const ACCEPTED = 0;
const REPORTED = 1;
const OUT_OF_MEMORY = 3;

class SchemaReported extends Error {
  constructor(reports) {
    super(reports.map((report) => report.message).join("; "));
    this.name = "SchemaReported";
    this.reports = reports;
  }
}

function noteOf({ message, file = null, line, column, span }) {
  return { message, file, line, column, span };
}

function reportOf(error, inSchema) {
  const { rule, span = null, file = null, related = [], help = [] } = error.extensions;
  return { message: error.message, rule, locations: error.locations || [], span, file, inSchema, related: related.map(noteOf), help };
}

function reportsOf(answer, inSchema) {
  if (answer.status === ACCEPTED) return [];
  if (answer.status === OUT_OF_MEMORY) throw new RangeError("graphql-validation: out of memory");
  if (answer.status > REPORTED) throw new Error(`graphql-validation: status ${answer.status}`);
  return JSON.parse(answer.json).errors.map((error) => reportOf(error, inSchema));
}

function checked(text, what) {
  if (typeof text !== "string") throw new TypeError(`${what} is a string`);
  return text;
}

class Schema {
  #handle;
  #options;

  constructor(source, options = {}) {
    const files = typeof source === "string" ? [["", source]] : Object.entries(source);
    const parts = files.flatMap(([name, text]) => [name, checked(text, "the text of a file")]);
    const answer = library.read(parts, options);
    const reports = reportsOf(answer, true);
    if (reports.length > 0) throw new SchemaReported(reports);
    this.#handle = answer.handle;
    this.#options = options;
  }

  validate(document, options = this.#options) {
    return reportsOf(library.validate(this.#handle, checked(document, "a document"), options), false);
  }
}

module.exports = { Schema, SchemaReported };

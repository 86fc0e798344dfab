/** A line and a column, from 1. A column counts characters. */
export interface Location {
  line: number;
  column: number;
}

/** What is wrong with a text. */
export interface Report {
  message: string;
  /** The name of the broken rule; `Syntax` where the text is no document. */
  rule: string;
  /** Where it is, if it has a place: one location. */
  locations: Location[];
  /** The bytes of the text, in UTF-8, that it is about. */
  span: { start: number; end: number } | null;
  /** The file of the schema, if it has a name; `<built-in>` for the definitions that every schema has. */
  file: string | null;
  /** Whether it is about the schema. */
  inSchema: boolean;
  /** Notes on other places. */
  related: Note[];
  /** What helps, in words. */
  help: string[];
}

/** A note on another place of a report. */
export interface Note extends Location {
  message: string;
  /** Its file, as of a report. */
  file: string | null;
  /** The bytes of the text, in UTF-8, that it is about. */
  span: { start: number; end: number };
}

/** What a call may take. 0 and a missing number say the default, which `include/graphql_validation.h` states. */
export interface Options {
  /** How many brackets and braces open in one another. A worker with a small stack passes a lower one. */
  depth?: number;
  tokens?: number;
  reach?: number;
  work?: number;
  /** How many reports a call gives: the first ones. */
  maxReports?: number;
}

/** Something is reported of a schema. */
export class SchemaReported extends Error {
  readonly reports: Report[];
}

/** A schema that is read once, and documents against it. */
export class Schema {
  /**
   * Reads a schema from one text, or from files, by their names. The options hold for this call, and for each document that is
   * validated without options of its own.
   * @throws SchemaReported if something is reported of it.
   */
  constructor(source: string | Record<string, string>, options?: Options);

  /** What is reported of a document: nothing, if it is valid. */
  validate(document: string, options?: Options): Report[];
}

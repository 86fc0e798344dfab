"use strict";

const assert = require("node:assert");
const { test } = require("node:test");
const { Worker } = require("node:worker_threads");
const { Schema, SchemaReported } = require("graphql-validation");

const TEXT = "type Query { pet(id: ID!): Pet } type Pet { name: String }";
const REPEATED = "{\n\tpet(id: 1,\r\n\tid: 2) { name }\n}\n";

test("documents are validated as often as wanted", () => {
  const schema = new Schema(TEXT);
  for (let k = 0; k < 100; k++) {
    assert.deepStrictEqual(schema.validate("{ pet(id: 1) { name } }"), []);
    assert.deepStrictEqual(schema.validate(REPEATED), [
      {
        message: "the argument `id` is provided multiple times",
        rule: "UniqueArgument",
        locations: [{ line: 3, column: 2 }],
        span: { start: 16, end: 21 },
        file: null,
        inSchema: false,
        related: [{ message: "first here", file: null, line: 2, column: 6, span: { start: 7, end: 12 } }],
        help: [],
      },
    ]);
  }
});

test("a report has help", () => {
  const [report] = new Schema(TEXT).validate("{ pet(id: 1) { nama } }");
  assert.deepStrictEqual(report.help, ["did you mean `name`?"]);
});

test("answers longer than the room are whole", () => {
  const fields = Array.from({ length: 500 }, (_, k) => `a${k}`).join(" ");
  const reports = new Schema(TEXT).validate(`{ ${fields} }`);
  assert.strictEqual(reports.length, 500);
  assert.strictEqual(reports[499].message, "type `Query` does not have a field `a499`");
});

test("a schema that does not hold is thrown, and reports name its files", () => {
  const files = { "query.graphql": "type Query { a: Int }", "pet.graphql": "type Pet { a: Int } type Pet { b: Int }" };
  assert.throws(() => new Schema(files), (error) => {
    assert.ok(error instanceof SchemaReported);
    assert.strictEqual(error.reports.length, 1);
    assert.strictEqual(error.reports[0].file, "pet.graphql");
    assert.strictEqual(error.reports[0].related[0].file, "pet.graphql");
    return error.reports[0].inSchema;
  });
});

test("options are bounds", () => {
  const schema = new Schema("type Query { a: Query b: Int }");
  const deep = "{ a { a { a { b } } } }";
  assert.deepStrictEqual(schema.validate(deep), []);
  assert.strictEqual(schema.validate(deep, { depth: 3 })[0].rule, "Syntax");
  const all = schema.validate("{ c d e }");
  assert.strictEqual(all.length, 3);
  assert.deepStrictEqual(schema.validate("{ c d e }", { maxReports: 2 }), all.slice(0, 2));
});

test("what is no text is refused before the call", () => {
  assert.throws(() => new Schema({ a: 1 }), TypeError);
  assert.throws(() => new Schema(TEXT).validate(1), TypeError);
});

test("workers have schemas of their own", async () => {
  const run = `const { parentPort, workerData } = require("node:worker_threads");
    const { Schema } = require(workerData.from);
    const schema = new Schema(workerData.text);
    let found = 0;
    for (let k = 0; k < 50; k++) found += schema.validate(workerData.document).length;
    parentPort.postMessage(found);`;
  const workerData = { from: require.resolve("graphql-validation"), text: TEXT, document: REPEATED };
  const workers = Array.from({ length: 4 }, () => new Worker(run, { eval: true, workerData }));
  const found = await Promise.all(workers.map((it) => new Promise((done, fail) => it.on("message", done).on("error", fail))));
  assert.deepStrictEqual(found, [50, 50, 50, 50]);
});

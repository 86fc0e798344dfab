// Prints the microseconds that each document takes against a schema that is kept: node measure.js SCHEMA DOCUMENT..

"use strict";

const { readFileSync } = require("node:fs");
const { Schema } = require("graphql-validation");

const ROUNDS = 20;
const CALLS = 200;

const [text, ...documents] = process.argv.slice(2).map((path) => readFileSync(path, "utf8"));
const schema = new Schema(text);
for (const document of documents) {
  let least = Infinity;
  for (let round = 0; round < ROUNDS; round++) {
    const begun = performance.now();
    for (let call = 0; call < CALLS; call++) {
      schema.validate(document);
    }
    least = Math.min(least, ((performance.now() - begun) * 1e3) / CALLS);
  }
  console.log(least.toFixed(2));
}

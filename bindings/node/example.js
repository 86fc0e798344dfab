// Validates documents against a schema, and prints what is reported of each: node example.js SCHEMA DOCUMENT..

"use strict";

const { readFileSync } = require("node:fs");
const { Schema } = require("./index.js");

const [text, ...documents] = process.argv.slice(2).map((path) => readFileSync(path, "utf8"));
const schema = new Schema(text);
for (const document of documents) {
  for (const { message, locations } of schema.validate(document)) {
    console.log(`${locations[0].line}:${locations[0].column}: ${message}`);
  }
}

// Builds the addon: over libgraphql_validation.a of the folder that GRAPHQL_VALIDATION_FOLDER names, or of out/library of the
// checkout. It needs a C compiler and the headers of Node.

"use strict";

const { execFileSync } = require("node:child_process");
const { existsSync } = require("node:fs");
const path = require("node:path");

const checkout = path.join(__dirname, "../..");
const folder = path.resolve(process.env.GRAPHQL_VALIDATION_FOLDER || path.join(checkout, "out/library"));
const beside = path.join(path.dirname(process.execPath), "../include/node");
const headers = [process.env.NODE_HEADERS, beside, "/usr/include/node"].find((it) => it && existsSync(path.join(it, "node_api.h")));
if (!headers) throw new Error("no headers of Node: NODE_HEADERS names their folder");

execFileSync(
  process.env.CC || "cc",
  [
    "-std=c11", "-O2", "-Wall", "-Wextra", "-Werror", "-fPIC", "-shared",
    `-I${headers}`, `-I${path.join(checkout, "include")}`,
    "-o", path.join(__dirname, "graphql_validation.node"),
    path.join(__dirname, "addon.c"), path.join(folder, "libgraphql_validation.a"),
    `-Wl,--version-script=${path.join(__dirname, "exports.map")}`,
  ],
  { stdio: "inherit" },
);

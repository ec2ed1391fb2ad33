"use strict";

const { appendFileSync } = require("node:fs");
const table = require("./table.cjs");

exports.keep = (report) => appendFileSync("archive.txt", table(report));
exports.ofYear = (year) => require("./years/" + year + ".cjs");
exports.plugin = (name) => require(name);

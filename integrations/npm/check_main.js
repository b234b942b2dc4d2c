#!/usr/bin/env node
// Runs the program check_main, which lies beside this file, with the words of the command line; ends as it ends.
"use strict";

const { spawnSync } = require("node:child_process");
const { constants } = require("node:os");
const { join } = require("node:path");

const USAGE = 2;
const SIGNAL = 128;

const ended = spawnSync(join(__dirname, "check_main"), process.argv.slice(2), { stdio: "inherit" });
if (ended.error) {
  console.error(`check_main: ${ended.error.message}`);
  process.exitCode = USAGE;
} else {
  process.exitCode = ended.status ?? SIGNAL + constants.signals[ended.signal];
}

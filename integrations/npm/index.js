// The verdict on a knitout text, as a program in JavaScript asks for it; and conversations, by serve.js.
"use strict";

const { spawnSync } = require("node:child_process");
const { join } = require("node:path");

const SOUND = 0;
const BROKEN = 1;
// More than the program writes of the longest file.
const MOST_BYTES = 2 ** 30;

/**
 * The verdict on a text: the object that `check_main check --json` writes, by docs/FORMATS.md of the repository.
 * `words` are more of its words, as `["--loops", "--rack=4"]`. A text that is refused is an Error, whose `status`
 * is the program's.
 */
function check(text, words = []) {
  const ran = spawnSync(join(__dirname, "check_main"), ["check", "--json", ...words], {
    input: text,
    maxBuffer: MOST_BYTES,
  });
  if (ran.error) {
    throw ran.error;
  }
  if (ran.status !== SOUND && ran.status !== BROKEN) {
    const said = `${ran.stdout}${ran.stderr}`.trim();
    throw Object.assign(new Error(said || `check_main ended with ${ran.status ?? ran.signal}`), { status: ran.status });
  }
  return JSON.parse(ran.stdout);
}

module.exports = { check, ...require("./serve.js") };

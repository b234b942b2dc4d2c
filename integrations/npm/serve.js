// Conversations with check_main: a document that one process keeps, edited block by block, and judged at each edit.
"use strict";

const { spawn } = require("node:child_process");
const { join } = require("node:path");

const MOST_TEXT_BYTES = 4095;
const MOST_SESSIONS = 64;
const MOST_EDITS = 64;
const MOST_TEXT_LINES = 4096;
// The id that is no block's.
const NO_BLOCK = 4294967295;
// The words with which a command is refused; every other reply is a value.
const REFUSALS = new Set(
  "stale gone noblock unseen blocklong full nomemory noversion norange noundo badinput refused".split(" "),
);

/** What was asked isn't accepted, and nothing has changed: `reply` is what check_main said, `kind` its word, as `stale`. */
class Refused extends Error {
  constructor(reply) {
    super(`check_main says ${JSON.stringify(reply)}`);
    this.name = "Refused";
    this.reply = reply;
    this.kind = reply.reply;
  }
}

/**
 * The process has ended, or was closed; whether what was asked has been done isn't known. `status` is its exit status, or
 * the name of the signal, or null; `words` are check_main's own, where it refused a text.
 */
class ProcessGone extends Error {
  constructor(status, words = "") {
    super(words || (status === null ? "the conversation is closed" : `check_main is gone, status ${status}`));
    this.name = "ProcessGone";
    this.status = status;
    this.words = words;
  }
}

// ---------------------------------------------------------------- what is said

function number(value) {
  if (!Number.isInteger(value) || value < 0 || value >= NO_BLOCK) {
    throw new RangeError(`a number is 0 to ${NO_BLOCK - 1}, not ${value}`);
  }
  return value;
}

function textLine(line) {
  // (half a surrogate would become another sign)
  if (typeof line !== "string" || line.includes("\n") || /\p{Surrogate}/u.test(line)) {
    throw new RangeError(`no line of a text: ${JSON.stringify(line)}`);
  }
  if (Buffer.byteLength(line) > MOST_TEXT_BYTES) {
    throw new RangeError(`a line of ${Buffer.byteLength(line)} bytes; there may be ${MOST_TEXT_BYTES}`);
  }
  // (of two carriage returns at the end one is no part of the line)
  return line.endsWith("\r") ? `|${line}\r\n` : `|${line}\n`;
}

function textLines(lines) {
  return Array.from(lines, textLine).join("");
}

function editWords(edit) {
  if ("cut" in edit) return [`cut ${number(edit.cut)}`, []];
  const lines = Array.from(edit.lines);
  if ("put" in edit) return [`put ${number(edit.put)} lines ${lines.length}`, lines];
  const behind = edit.add === "start" ? "start" : number(edit.add);
  return [`add ${behind} lines ${lines.length}`, lines];
}

function piecesOf(text) {
  const pieces = text.split("\n");
  if (pieces.at(-1) === "") pieces.pop();
  return pieces;
}

function opening(text) {
  const pieces = piecesOf(text);
  return `serve 1 lines ${pieces.length}\n${pieces.map((piece) => `|${piece}\n`).join("")}`;
}

function openingBy(saved) {
  const pieces = piecesOf(saved);
  // (a saved text's carriage returns are all a part of it)
  const lines = pieces.map((piece) => (piece.endsWith("\r") ? `${piece}\r\n` : `${piece}\n`));
  return `serve 1 journal ${pieces.length}\n${lines.join("")}`;
}

function options(limits = {}, blockLines = 64) {
  return ["serve", "--json", ...Object.entries(limits).map(([name, value]) => `--${name}=${value}`), `--block=${blockLines}`];
}

// ---------------------------------------------------------------- the process

/** check_main with a pipe to each side. Replies come in the order of commands: who waits longest gets the next. */
class Pipes {
  constructor(program, words) {
    this.child = spawn(program, words, { stdio: ["pipe", "pipe", "inherit"] });
    this.ahead = [];
    this.waiting = [];
    this.last = "";
    this.isClosed = false;
    this.isGone = false;
    this.status = null;
    this.ended = new Promise((resolve) => {
      this.child.on("error", (trouble) => resolve(this.end(null, trouble.message)));
      this.child.on("close", (status, signal) => resolve(this.end(status ?? signal)));
    });
    // (one that has ended hears no more; those who wait are told so when it is seen to have ended)
    this.child.stdin.on("error", () => {});
    this.child.stdout.setEncoding("utf8").on("data", (piece) => this.take(piece));
  }

  take(piece) {
    const lines = piece.split("\n");
    this.ahead.push(lines.shift());
    for (const line of lines) {
      this.last = this.ahead.join("");
      this.ahead = [line];
      this.waiting.shift()?.resolve(this.last);
    }
  }

  end(status, words = "") {
    this.isGone = true;
    this.status = status;
    for (const each of this.waiting.splice(0)) each.reject(new ProcessGone(status, words));
  }

  ask(data) {
    if (this.isClosed || this.isGone) return Promise.reject(new ProcessGone(this.status));
    return new Promise((resolve, reject) => {
      this.waiting.push({ resolve, reject });
      this.child.stdin.write(data);
    });
  }

  async close() {
    const isFirst = !this.isClosed && !this.isGone;
    this.isClosed = true;
    this.child.stdin.end();
    await this.ended;
    return isFirst && this.status === 0 ? JSON.parse(this.last) : null;
  }
}

// ---------------------------------------------------------------- sessions

/**
 * One of a document's designers: it may put over a block, or cut it, only as it knows it. It knows the blocks of the
 * opening, and afterwards what its last look, or its last edit, told. Each call gives a promise of check_main's reply,
 * as docs/FORMATS.md of the repository has it, or rejects with a `Refused`; with a RangeError where it can't be said.
 * Calls may be made without waiting for those before: they are carried out in their order.
 */
class Session {
  constructor(pipes, session) {
    this.pipes = pipes;
    this.number = session;
  }

  async ask(words, lines = "") {
    const reply = JSON.parse(await this.pipes.ask(`session ${this.number} ${words}\n${lines}`));
    if (REFUSALS.has(reply.reply)) throw new Refused(reply);
    return reply;
  }

  async edit(edit) {
    const [words, lines] = editWords(edit);
    return this.ask(words, textLines(lines));
  }

  /** Gives a block other lines. */
  put(block, lines) {
    return this.edit({ put: block, lines });
  }

  /** Adds a block behind another, or first where `behind` is `"start"`; the reply's `block` is the new one. */
  add(behind, lines) {
    return this.edit({ add: behind, lines });
  }

  /** Takes a block out. */
  cut(block) {
    return this.edit({ cut: block });
  }

  /** Makes up to 64 edits, all or none: each is `{put, lines}`, `{add, lines}` or `{cut}`. */
  async group(edits) {
    if (edits.length < 1 || edits.length > MOST_EDITS) throw new RangeError(`a group has 1 to ${MOST_EDITS} edits`);
    const parts = edits.map((edit) => {
      const [words, lines] = editWords(edit);
      if (lines.length > MOST_TEXT_LINES) throw new RangeError(`a text in a group has at most ${MOST_TEXT_LINES} lines`);
      return `session ${this.number} ${words}\n${textLines(lines)}`;
    });
    return this.ask("group", `${parts.join("")}session ${this.number} end\n`);
  }

  /** Undoes the session's last accepted step, if that was one put or one add. */
  undo() {
    return this.ask("undo");
  }

  /** A block's lines, which the session then knows. */
  async look(block) {
    return this.ask(`look ${number(block)}`);
  }

  /** The text that a block got from an entry, or from the opening for 0: `text`, or `notext`. */
  async textAt(block, stamp) {
    return this.ask(`look ${number(block)} at ${number(stamp)}`);
  }

  /** The header's line that names the carriers, which the session then knows. */
  lookHead() {
    return this.ask("look head");
  }

  /** Gives the header these names of carriers. */
  async putHead(names) {
    if (names.some((name) => !name || /[ \t\r\n]/.test(name)) || new Set(names).size < names.length || names.length > 64) {
      throw new RangeError("names of carriers differ and have no blanks, and there are at most 64");
    }
    return this.ask("put head lines 1", textLine([";;Carriers:", ...names].join(" ")));
  }

  /** The loop that a line of the file makes. */
  async loop(line) {
    return this.ask(`loop ${number(line)}`);
  }

  /** The verdict on the whole. */
  verdict() {
    return this.ask("verdict");
  }

  /** The blocks in their order. */
  blocks() {
    return this.ask("blocks");
  }

  /** What all sessions did behind a version. */
  async since(version) {
    return this.ask(`since ${number(version)}`);
  }

  /** The saved text of the document and its journal, which `check_main replay` takes: in `lines`. */
  save() {
    return this.ask("save");
  }

  /** What the blocks at the places from `first` to `end`, which isn't counted, come to. */
  async tally(first, end) {
    return this.ask(`tally ${number(first)} ${number(end)}`);
  }
}

/** A document that one process of check_main keeps, and its session 0. `opened` is what was said first. */
class Conversation extends Session {
  constructor(pipes, opened) {
    super(pipes, 0);
    this.opened = opened;
  }

  /**
   * A conversation over a text, whose body is cut into blocks of `blockLines` lines. `limits` are options as
   * `{rack: 4, high: 252}`, `program` is another check_main than that beside this file. A text that is refused is a
   * `ProcessGone`, with check_main's own `words` and its `status`.
   */
  static open(text, { limits, blockLines, program } = {}) {
    return Conversation.begun(opening(text), options(limits, blockLines), program);
  }

  /**
   * A conversation that goes on from a saved text, with its blocks, its limits, its version and its journal:
   *
   *     const saved = (await served.save()).lines.join("\n");
   *     const again = await Conversation.openSaved(saved);
   *
   * Its sessions begin anew: they know what the saved text began with, so that a block which was changed since has to be
   * looked at first, and undo nothing that was done before.
   */
  static openSaved(saved, { program } = {}) {
    return Conversation.begun(openingBy(saved), options(), program);
  }

  static async begun(opening, words, program = join(__dirname, "check_main")) {
    const pipes = new Pipes(program, words);
    const line = await pipes.ask(opening);
    if (line.startsWith("{")) return new Conversation(pipes, JSON.parse(line));
    pipes.child.stdin.end();
    await pipes.ended;
    throw new ProcessGone(pipes.status, line);
  }

  /** Session `session`, 0 to 63. It is there from the start, and the same whenever it is asked for. */
  session(session) {
    if (!(Number.isInteger(session) && session >= 0 && session < MOST_SESSIONS)) {
      throw new RangeError(`sessions are 0 to ${MOST_SESSIONS - 1}, not ${session}`);
    }
    return new Session(this.pipes, session);
  }

  /** Ends the conversation: what is said last, with the verdict at its end; null where it was closed or gone before. */
  close() {
    return this.pipes.close();
  }
}

module.exports = { Conversation, Session, Refused, ProcessGone };

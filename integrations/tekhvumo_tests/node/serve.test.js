// The class of conversations, with the program that TEKHVUMO_PROGRAM names: node --test
"use strict";

const assert = require("node:assert/strict");
const { writeFileSync, mkdtempSync, rmSync } = require("node:fs");
const { tmpdir } = require("node:os");
const { join } = require("node:path");
const { test } = require("node:test");
const { Conversation, ProcessGone, Refused } = require("../../npm/serve.js");

const program = process.env.TEKHVUMO_PROGRAM;
const HEAD = ";!knitout-2\n;;Carriers: 1 2 3\n";
const SOUND = `${HEAD}in 1\ntuck + f1 1\nout 1\n`;

async function served(t, text = SOUND, more = {}) {
  const conversation = await Conversation.open(text, { program, ...more });
  t.after(() => conversation.close());
  return conversation;
}

function refused(kind) {
  return (trouble) => trouble instanceof Refused && trouble.kind === kind && trouble.reply.reply === kind;
}

test("edits and questions", async (t) => {
  const it = await served(t, SOUND, { blockLines: 2 });
  assert.deepEqual([it.opened.blocks, it.opened.brief.made], [2, 1]);
  const broken = await it.put(1, ["out 1", "out 1"]);
  assert.deepEqual([broken.version, broken.brief.rule, broken.broken], [1, "CarrierIsOut", { block: 1, line: 2 }]);
  assert.equal((await it.add(0, ["knit - f1 1"])).block, 2);
  assert.deepEqual((await it.loop(5)).loop.through, [4]);
  assert.equal((await it.loop(3)).loop, null);
  assert.deepEqual((await it.blocks()).blocks.map((each) => each.block), [0, 2, 1]);
  assert.deepEqual((await it.look(2)).lines, ["knit - f1 1"]);
  assert.deepEqual((await it.textAt(1, 0)).lines, ["out 1"]);
  assert.equal((await it.textAt(0, 2)).reply, "notext");
  assert.equal((await it.verdict()).verdict.line, 7);
  assert.equal((await it.cut(1)).brief.lines, 3);
  assert.deepEqual((await it.since(0)).entries.map((entry) => entry.edit), ["put", "add", "cut"]);
  assert.equal((await it.save()).lines[0], "journal 1");
  assert.equal((await it.tally(0, 1)).form, 1);
  assert.equal((await it.undo().catch((trouble) => trouble)).kind, "noundo");
  const last = await it.close();
  assert.deepEqual([last.reply, last.version, last.verdict.in], ["final", 3, ["1"]]);
  assert.equal(await it.close(), null);
  await assert.rejects(it.verdict(), ProcessGone);
});

test("groups, undo and the header", async (t) => {
  const it = await served(t, SOUND, { blockLines: 2 });
  const done = await it.group([{ put: 0, lines: ["in 2"] }, { add: "start", lines: ["; a"] }, { add: 0, lines: [] }, { cut: 1 }]);
  assert.deepEqual([done.from, done.version, done.brief.lines], [1, 4, 2]);
  await assert.rejects(it.group([{ put: 0, lines: [] }, { put: 0, lines: [] }]), refused("refused"));
  await it.put(2, ["in 3"]);
  assert.equal((await it.undo()).version, 6);
  assert.deepEqual((await it.look(2)).lines, ["; a"]);
  assert.equal((await it.putHead(["2"])).block, "head");
  assert.deepEqual((await it.lookHead()).lines, [";;Carriers: 2"]);
});

test("a conversation that goes on from a saved text", async (t) => {
  const before = await served(t, SOUND, { blockLines: 2, limits: { high: 7 } });
  await before.put(1, ["out 1", "x\r"]);
  const { lines } = await before.save();
  for (const saved of [lines.join("\n"), lines.map((line) => `${line}\n`).join("")]) {
    const it = await Conversation.openSaved(saved, { program });
    t.after(() => it.close());
    assert.deepEqual([it.opened.version, it.opened.blocks, it.opened.broken], [1, 2, { block: 1, line: 2 }]);
    await assert.rejects(it.undo(), refused("noundo"));
    await assert.rejects(it.put(1, []), refused("stale"));
    assert.deepEqual((await it.look(1)).lines, ["out 1", "x\r"]);
    assert.equal((await it.put(1, ["tuck + f8 1"])).brief.rule, "OffBed");
    assert.deepEqual((await it.since(0)).entries.map((entry) => entry.seen), [0, 1]);
  }
  const late = Conversation.openSaved(lines.join("\n").replace("seen 0", "seen 1"), { program });
  await assert.rejects(late, (trouble) => trouble.status === 3 && trouble.words === "bad input: journal line 13 NoFit");
});

test("two sessions, one too late", async (t) => {
  const it = await served(t);
  const [one, other] = [it.session(1), it.session(63)];
  await one.put(0, ["in 1"]);
  await assert.rejects(other.put(0, []), refused("stale"));
  const shown = await other.look(0);
  assert.equal((await other.put(0, [...shown.lines, "out 1"])).version, 2);
  await other.cut(0);
  await assert.rejects(one.look(0), refused("gone"));
  await assert.rejects(one.look(9), refused("noblock"));
  await assert.rejects(one.put(9, []), refused("unseen"));
  await assert.rejects(one.since(9), refused("noversion"));
  await assert.rejects(one.tally(0, 9), refused("norange"));
  await assert.rejects(one.add("start", Array(4097).fill("in 1")), refused("blocklong"));
});

test("calls that don't wait for each other", async (t) => {
  const it = await served(t, HEAD + "pause\n".repeat(64 * 50));
  const asked = [];
  for (let count = 0; count < 2000; count += 1) asked.push(it.put(count % 50, Array(60).fill(`; ${count}`)), it.look(count % 50));
  const told = await Promise.all(asked);
  told.forEach((reply, at) => assert.equal(reply.version, Math.floor(at / 2) + 1));
  assert.equal(told.at(-1).lines[0], "; 1999");
});

test("lines of all kinds", async (t) => {
  const it = await served(t);
  const lines = ["", " ", "|", "#", '; \u{1f9f6} \u2028 "\\\0', "session 1", "x\r", "\r", `;${"x".repeat(4094)}`];
  await it.put(0, lines);
  assert.deepEqual((await it.look(0)).lines, lines);
  for (const bad of ["a\nb", "\ud800", "x".repeat(4096), 7]) await assert.rejects(it.put(0, [bad]), RangeError);
  for (const bad of [-1, 1.5, "0", 2 ** 32]) await assert.rejects(it.look(bad), RangeError);
  await assert.rejects(it.group([]), RangeError);
  await assert.rejects(it.group(Array(65).fill({ cut: 0 })), RangeError);
  await assert.rejects(it.putHead(["a b"]), RangeError);
  assert.throws(() => it.session(64), RangeError);
  assert.equal((await it.verdict()).version, 1);
});

test("openings that are refused, and limits", async (t) => {
  for (const [text, words] of [["", "bad input: head BadMagic"], [";!knitout-2\n", "bad input: head NoCarriers"]]) {
    await assert.rejects(Conversation.open(text, { program }), (trouble) => trouble.status === 3 && trouble.words === words);
  }
  await assert.rejects(Conversation.open(SOUND, { program, limits: { high: 9999 } }), (trouble) => trouble.status === 2);
  await assert.rejects(Conversation.open(SOUND, { program: "/absent" }), ProcessGone);
  assert.equal((await served(t, SOUND, { limits: { high: 0 } })).opened.brief.rule, "OffBed");
});

test("a process that is killed", async (t) => {
  const it = await served(t);
  it.pipes.child.kill("SIGKILL");
  await assert.rejects(it.verdict(), (trouble) => trouble instanceof ProcessGone && trouble.status === "SIGKILL");
  await assert.rejects(it.verdict(), ProcessGone);
  assert.equal(await it.close(), null);
});

test("a program of another kind", async (t) => {
  const folder = mkdtempSync(join(tmpdir(), "tekhvumo-"));
  t.after(() => rmSync(folder, { recursive: true }));
  writeFileSync(join(folder, "other"), "#!/bin/sh\nread line\necho what\n", { mode: 0o755 });
  await assert.rejects(Conversation.open(SOUND, { program: join(folder, "other") }), ProcessGone);
});

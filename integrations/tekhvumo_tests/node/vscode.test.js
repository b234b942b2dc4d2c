// The extension for VS Code, with the command `tekhvumo` of the PATH and no more of VS Code than it uses: node --test
"use strict";

const assert = require("node:assert/strict");
const { spawn } = require("node:child_process");
const fs = require("node:fs");
const os = require("node:os");
const path = require("node:path");
const { test } = require("node:test");
const { Document, Range, editor, extension } = require("./vscode.js");

const made = (text, languageId) => new Document("file:///room/a%20b.k", text, languageId);

const LINES = [";!knitout-2", ";;Carriers: 1 2", "in 1", "tuck + f1 1", "knit  - f1 1", "knit + f1 2", "out 1", ""];
const token = { onCancellationRequested() {} };

test("a document is opened, changed and closed", async () => {
  const { vscode, seen } = editor(["tekhvumo", "lsp"]);
  const document = made(LINES.join("\n"));
  vscode.workspace.textDocuments.push(document, made("else", "plaintext"));
  const { activate, deactivate } = extension(vscode);
  await activate({ subscriptions: [] });
  const found = () => seen.found.get("file:///room/a%20b.k") ?? [];
  await seen.until(() => found()[0]?.message.includes("; "));
  assert.deepEqual([found()[0].code, found()[0].severity, found()[0].range.start.line], ["CarrierIsOut", 0, 5]);

  const { hover, definition, formatting, symbols, actions } = seen.providers;
  const place = { line: 4, character: 2 };
  assert.match((await hover(document, place, token)).contents.text, /f1 holds the loop of line 4/);
  assert.equal((await definition(document, place, token))[0].range.start.line, 3);
  assert.deepEqual((await formatting(document, {}, token)).map((it) => it.newText), ["knit - f1 1"]);
  assert.deepEqual((await symbols(document, token)).map((it) => [it.name, it.kind])[0], ["course 1 + with 1", 17]);
  const [cure] = await actions(document, new Range(5, 0, 5, 3), {}, token);
  assert.deepEqual([cure.title, cure.isPreferred], ["write `1` for `2`", true]);
  const [[uri, [edit]]] = cure.edit.sets;
  assert.deepEqual([uri, edit.newText], ["file:///room/a%20b.k", "knit + f1 1\n"]);

  seen.type(document, [edit]);
  await seen.until(() => found().length === 0);
  seen.events.save(document);
  seen.found.delete(uri);
  seen.events.close(document);
  await seen.until(() => seen.found.has(uri));
  await deactivate();
  assert.deepEqual(seen.errors, []);
});

test("a server that isn't there", async () => {
  const { vscode, seen } = editor(["/absent"]);
  const { activate } = extension(vscode);
  await activate({ subscriptions: [] });
  assert.equal(await seen.providers.hover(made(""), { line: 0, character: 0 }, token), null);
  assert.match(seen.errors[0], /is gone: spawn \/absent ENOENT/);
});

test("edits of a server are taken for the version that they were made for", async () => {
  const { vscode, seen } = editor([process.execPath, path.join(__dirname, "asking.js")]);
  const document = made("in 1\n");
  vscode.workspace.textDocuments.push(document);
  const { activate, deactivate } = extension(vscode);
  await activate({ subscriptions: [] });
  await seen.until(() => seen.told.length > 0);
  const [older, another, taken] = [false, false, true].map((applied) => ({ applied }));
  assert.deepEqual(JSON.parse(seen.told[0]), { older, another, this: taken, else: -32601 });
  assert.equal(document.text, "; this\nin 1\n");
  await deactivate();
});

/** An editor that has joined the bridge of a file. */
async function partner(t, file, text) {
  const { vscode, seen } = editor(["tekhvumo", "lsp"]);
  const document = new Document(`file://${file}`, text);
  vscode.workspace.textDocuments.push(document);
  const { activate, deactivate } = extension(vscode);
  t.after(deactivate);
  await activate({ subscriptions: [] });
  await seen.until(() => seen.told.length > 0);
  assert.match(seen.told[0], /is shared, as session [01]$/);
  return { document, seen, deactivate, has: (line) => seen.until(() => document.text.includes(`${line}\n`)) };
}

test("two editors on one shared file", async (t) => {
  const room = fs.mkdtempSync(path.join(os.tmpdir(), "shared-"));
  const file = path.join(room, "scarf.k");
  const text = [...LINES.slice(0, 4), ...Array.from({ length: 50 }, (_, at) => `; ${at}`), ""].join("\n");
  fs.writeFileSync(file, text);
  const bridge = spawn("tekhvumo", ["share", file], { stdio: ["ignore", "pipe", "inherit"] });
  t.after(() => bridge.kill());
  const ended = new Promise((go) => bridge.on("close", go));
  await new Promise((go) => bridge.stdout.once("data", go));
  const [anna, ben] = await Promise.all([partner(t, file, text), partner(t, file, text)]);
  anna.seen.type(anna.document, [{ range: new Range(5, 0, 5, 0), newText: "; of anna\n" }]);
  ben.seen.type(ben.document, [{ range: new Range(40, 0, 41, 0), newText: "; of ben\n" }]);
  await Promise.all([anna, ben].flatMap((it) => [it.has("; of anna"), it.has("; of ben")]));
  assert.equal(anna.document.text, ben.document.text);
  for (const it of [anna, ben]) {
    await it.deactivate();
    assert.deepEqual(it.seen.errors, []);
  }
  bridge.kill();
  assert.equal(await ended, 0);
  assert.equal(fs.readFileSync(file, "utf8"), anna.document.text);
  assert.equal(anna.document.text.split("\n").length, text.split("\n").length + 1);
  fs.rmSync(room, { recursive: true });
});

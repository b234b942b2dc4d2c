// A language server that asks for edits of the document that is opened, and tells what it was answered.
"use strict";

let ahead = Buffer.alloc(0);
const answers = [];
const write = (message) => {
  const data = JSON.stringify({ jsonrpc: "2.0", ...message });
  process.stdout.write(`Content-Length: ${Buffer.byteLength(data)}\r\n\r\n${data}`);
};

function ask(id, uri, version) {
  const place = { line: 0, character: 0 };
  const edits = [{ range: { start: place, end: place }, newText: `; ${id}\n` }];
  const edit = { documentChanges: [{ textDocument: { uri, version }, edits }] };
  write({ id, method: "workspace/applyEdit", params: { label: "shared", edit } });
}

function hear({ id, method, params, result, error }) {
  if (method === "initialize") write({ id, result: params.capabilities });
  if (method === "shutdown") write({ id, result: null });
  if (method === "exit") process.exit(0);
  if (method === "textDocument/didOpen") {
    const { uri, version } = params.textDocument;
    ask("older", uri, version - 1);
    ask("another", `${uri}.k`, version);
    ask("this", uri, version);
    write({ id: "else", method: "workspace/other", params: {} });
  }
  if (method === undefined && answers.push([id, result ?? error.code]) === 4) {
    write({ method: "window/showMessage", params: { type: 3, message: JSON.stringify(Object.fromEntries(answers)) } });
  }
}

process.stdin.on("data", (piece) => {
  ahead = Buffer.concat([ahead, piece]);
  for (let at; (at = ahead.indexOf("\r\n\r\n")) >= 0; ) {
    const end = at + 4 + Number(/[0-9]+/.exec(ahead.toString("latin1", 0, at))[0]);
    if (ahead.length < end) return;
    const message = JSON.parse(ahead.toString("utf8", at + 4, end));
    ahead = ahead.subarray(end);
    hear(message);
  }
});

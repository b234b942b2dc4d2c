// A client of the language server protocol: messages of JSON, each behind a head that tells its length.
"use strict";

const { spawn } = require("node:child_process");

const HEAD_END = Buffer.from("\r\n\r\n");

/**
 * A server in a process of its own. `told` is called with the method and the parameters of each notification, and `asked` with those of
 * each request: it gives the result, or undefined for a method that isn't known.
 */
class Client {
  constructor(words, told, asked, ended) {
    this.told = told;
    this.asked = asked;
    this.waiting = new Map();
    this.numbers = 0;
    this.ahead = Buffer.alloc(0);
    this.errors = "";
    this.isGone = false;
    this.child = spawn(words[0], words.slice(1), { stdio: ["pipe", "pipe", "pipe"] });
    this.child.stdin.on("error", () => {});
    this.child.stdout.on("data", (piece) => this.take(piece));
    this.child.stderr.setEncoding("utf8").on("data", (piece) => (this.errors += piece));
    this.child.on("error", (trouble) => this.end(trouble.message, ended));
    this.child.on("close", (status, signal) => this.end(this.errors.trim() || `it ended with ${status ?? signal}`, ended));
  }

  take(piece) {
    this.ahead = Buffer.concat([this.ahead, piece]);
    for (let at; (at = this.ahead.indexOf(HEAD_END)) >= 0; ) {
      const length = Number(/content-length: *([0-9]+)/i.exec(this.ahead.toString("latin1", 0, at))[1]);
      const begin = at + HEAD_END.length;
      if (this.ahead.length < begin + length) return;
      const message = JSON.parse(this.ahead.toString("utf8", begin, begin + length));
      this.ahead = this.ahead.subarray(begin + length);
      this.hear(message);
    }
  }

  hear(message) {
    if (message.method !== undefined && message.id !== undefined) {
      this.answer(message);
    } else if (message.method !== undefined) {
      this.told(message.method, message.params);
    } else {
      const waits = this.waiting.get(message.id);
      this.waiting.delete(message.id);
      // (what can't be answered any more, as the text has changed, is asked again by the editor)
      waits?.(message.result ?? null);
    }
  }

  async answer({ id, method, params }) {
    const result = await this.asked(method, params);
    this.write(result === undefined ? { id, error: { code: -32601, message: `there is no ${method}` } } : { id, result });
  }

  end(words, ended) {
    if (this.isGone) return;
    this.isGone = true;
    for (const waits of this.waiting.values()) waits(null);
    this.waiting.clear();
    ended(words);
  }

  write(message) {
    if (this.isGone) return;
    const data = Buffer.from(JSON.stringify({ jsonrpc: "2.0", ...message }));
    this.child.stdin.write(`Content-Length: ${data.length}\r\n\r\n`);
    this.child.stdin.write(data);
  }

  notify(method, params) {
    this.write({ method, params });
  }

  /** The result of a request; null where there is none. `token` may cancel it. */
  ask(method, params, token) {
    if (this.isGone) return Promise.resolve(null);
    this.numbers += 1;
    const id = this.numbers;
    return new Promise((resolve) => {
      this.waiting.set(id, resolve);
      this.write({ id, method, params });
      token?.onCancellationRequested(() => this.notify("$/cancelRequest", { id }));
    });
  }

  /** Asks the server to end. */
  async stop() {
    await this.ask("shutdown");
    this.notify("exit");
  }
}

module.exports = { Client };

// No more of VS Code than the extension uses, as its tests see it.
"use strict";

const Module = require("node:module");

class Range {
  constructor(...ends) {
    [this.start, this.end] = [0, 2].map((at) => ({ line: ends[at], character: ends[at + 1] }));
  }
}
class Uri {
  static parse = (text) => Object.assign(new Uri(), { text });
  toString = () => this.text;
}
class WorkspaceEdit {
  sets = [];
  set = (uri, edits) => this.sets.push([uri.text, edits]);
}
class MarkdownString {
  appendCodeblock = (text) => Object.assign(this, { text });
}
const record = (...names) =>
  class {
    constructor(...values) {
      names.forEach((name, at) => (this[name] = values[at]));
    }
  };

/** A document that is open. */
class Document {
  version = 1;

  constructor(uri, text, languageId = "knitout") {
    Object.assign(this, { uri: Uri.parse(uri), text, languageId });
  }

  getText = () => this.text;

  place({ line, character }) {
    const lines = this.text.split("\n");
    return lines.slice(0, line).reduce((sum, it) => sum + it.length + 1, 0) + character;
  }

  /** Carries edits out, which all count by the text as it is, and gives them as VS Code tells of them: the last one first. */
  change(edits) {
    const told = [...edits].sort((one, other) => this.place(other.range.start) - this.place(one.range.start));
    for (const { range, newText } of told) {
      this.text = this.text.slice(0, this.place(range.start)) + newText + this.text.slice(this.place(range.end));
    }
    this.version += 1;
    return told.map((it) => ({ range: it.range, text: it.newText }));
  }
}

/** What the extension uses of VS Code, and what a test sees of it. `seen.until` waits until something holds. */
function editor(command) {
  const seen = { found: new Map(), providers: {}, events: {}, errors: [], told: [], waiting: [] };
  const stir = () => seen.waiting.splice(0).forEach((go) => go());
  seen.until = async (holds) => {
    while (!holds()) await new Promise((go) => seen.waiting.push(go));
  };
  seen.type = (document, edits) => {
    seen.events.change({ document, contentChanges: document.change(edits) });
    stir();
  };
  const event = (name) => (call) => ((seen.events[name] = call), { dispose() {} });
  const provider = (name) => (selector, it) => ((seen.providers[name] = Object.values(it)[0]), { dispose() {} });
  const set = (uri, diagnostics) => (seen.found.set(uri.text, diagnostics), stir());
  const show = (list) => (words) => (list.push(words), stir());
  const textDocuments = [];
  const applyEdit = async ({ sets }) => {
    for (const [uri, edits] of sets) seen.type(textDocuments.find((it) => it.uri.text === uri), edits);
    return true;
  };
  const vscode = {
    Range, Uri, WorkspaceEdit, MarkdownString,
    Diagnostic: record("range", "message", "severity"),
    TextEdit: record("range", "newText"),
    CodeAction: record("title", "kind"),
    CodeActionKind: { QuickFix: "quickfix" },
    DocumentSymbol: record("name", "detail", "kind", "range", "selectionRange"),
    Hover: record("contents", "range"),
    Location: record("uri", "range"),
    languages: {
      createDiagnosticCollection: () => ({ set, clear: () => seen.found.clear(), dispose() {} }),
      registerHoverProvider: provider("hover"),
      registerDefinitionProvider: provider("definition"),
      registerDocumentFormattingEditProvider: provider("formatting"),
      registerDocumentSymbolProvider: provider("symbols"),
      registerCodeActionsProvider: provider("actions"),
    },
    window: {
      showErrorMessage: show(seen.errors),
      showWarningMessage: show(seen.told),
      showInformationMessage: show(seen.told),
    },
    workspace: {
      getConfiguration: () => ({ get: () => command }),
      textDocuments,
      applyEdit,
      onDidOpenTextDocument: event("open"),
      onDidChangeTextDocument: event("change"),
      onDidSaveTextDocument: event("save"),
      onDidCloseTextDocument: event("close"),
    },
  };
  return { vscode, seen };
}

/** The extension, as VS Code reads it in. */
function extension(vscode) {
  const load = Module._load;
  Module._load = (name, ...more) => (name === "vscode" ? vscode : load(name, ...more));
  try {
    const path = require.resolve("../../vscode/knitout/extension.js");
    delete require.cache[path];
    return require(path);
  } finally {
    Module._load = load;
  }
}

module.exports = { Document, Range, editor, extension };

// Starts the language server `tekhvumo lsp`, and shows in VS Code what it tells. Plain JavaScript, which nothing builds.
"use strict";

const vscode = require("vscode");
const { Client } = require("./client.js");

const SELECTOR = { language: "knitout" };
let client;
let found;

// ---------------------------------------------------------------- values of VS Code

function range(told) {
  return new vscode.Range(told.start.line, told.start.character, told.end.line, told.end.character);
}

function plain(asked) {
  const place = (position) => ({ line: position.line, character: position.character });
  return { start: place(asked.start), end: place(asked.end) };
}

function diagnostic(told) {
  const made = new vscode.Diagnostic(range(told.range), told.message, told.severity - 1);
  made.code = told.code;
  made.source = told.source;
  return made;
}

function edits(told) {
  return told.map((it) => new vscode.TextEdit(range(it.range), it.newText));
}

function action(told) {
  const made = new vscode.CodeAction(told.title, vscode.CodeActionKind.QuickFix);
  made.edit = new vscode.WorkspaceEdit();
  for (const [uri, changes] of Object.entries(told.edit.changes)) made.edit.set(vscode.Uri.parse(uri), edits(changes));
  made.diagnostics = told.diagnostics.map(diagnostic);
  made.isPreferred = told.isPreferred === true;
  return made;
}

function symbol(told) {
  const ranges = [range(told.range), range(told.selectionRange)];
  const made = new vscode.DocumentSymbol(told.name, told.detail ?? "", told.kind - 1, ...ranges);
  made.children = (told.children ?? []).map(symbol);
  return made;
}

// ---------------------------------------------------------------- documents

function named(document) {
  return { uri: document.uri.toString() };
}

function open(document) {
  if (document.languageId !== "knitout") return;
  const textDocument = { ...named(document), languageId: "knitout", version: document.version, text: document.getText() };
  client.notify("textDocument/didOpen", { textDocument });
}

function change({ document, contentChanges }) {
  if (document.languageId !== "knitout" || contentChanges.length === 0) return;
  client.notify("textDocument/didChange", {
    textDocument: { ...named(document), version: document.version },
    contentChanges: contentChanges.map((it) => ({ range: plain(it.range), text: it.text })),
  });
}

function save(document) {
  if (document.languageId === "knitout") client.notify("textDocument/didSave", { textDocument: named(document) });
}

function close(document) {
  if (document.languageId === "knitout") client.notify("textDocument/didClose", { textDocument: named(document) });
}

function told(method, params) {
  if (method === "textDocument/publishDiagnostics") {
    found.set(vscode.Uri.parse(params.uri), params.diagnostics.map(diagnostic));
  } else if (method === "window/showMessage") {
    show(params.type, params.message);
  }
}

function show(type, message) {
  if (type === 1) vscode.window.showErrorMessage(message);
  else if (type === 2) vscode.window.showWarningMessage(message);
  else vscode.window.showInformationMessage(message);
}

function ended(words) {
  found.clear();
  if (client !== undefined) vscode.window.showErrorMessage(`The language server of tekhvumo is gone: ${words}`);
}

// ---------------------------------------------------------------- what the server asks

async function asked(method, params) {
  return method === "workspace/applyEdit" ? { applied: await take(params.edit.documentChanges) } : undefined;
}

/** Takes edits of texts that are open in the versions that they were made for, all or none, and says whether it did. */
async function take(changes) {
  const made = new vscode.WorkspaceEdit();
  for (const { textDocument, edits: told } of changes) {
    const document = vscode.workspace.textDocuments.find((it) => it.uri.toString() === textDocument.uri);
    if (document?.version !== textDocument.version) return false;
    made.set(document.uri, edits(told));
  }
  // (VS Code takes none where somebody types meanwhile)
  return vscode.workspace.applyEdit(made);
}

// ---------------------------------------------------------------- what is asked

function at(document, position) {
  return { textDocument: named(document), position: { line: position.line, character: position.character } };
}

async function hover(document, position, token) {
  const said = await client.ask("textDocument/hover", at(document, position), token);
  return said && new vscode.Hover(new vscode.MarkdownString().appendCodeblock(said.contents.value, "text"), range(said.range));
}

async function definition(document, position, token) {
  const places = await client.ask("textDocument/definition", at(document, position), token);
  return places?.map((it) => new vscode.Location(vscode.Uri.parse(it.uri), range(it.range)));
}

async function formatting(document, options, token) {
  const asked = { textDocument: named(document), options: { tabSize: options.tabSize, insertSpaces: options.insertSpaces } };
  return edits((await client.ask("textDocument/formatting", asked, token)) ?? []);
}

async function symbols(document, token) {
  return ((await client.ask("textDocument/documentSymbol", { textDocument: named(document) }, token)) ?? []).map(symbol);
}

async function actions(document, where, context, token) {
  const asked = { textDocument: named(document), range: plain(where), context: { diagnostics: [] } };
  return ((await client.ask("textDocument/codeAction", asked, token)) ?? []).map(action);
}

function provide() {
  const { languages } = vscode;
  return [
    languages.registerHoverProvider(SELECTOR, { provideHover: hover }),
    languages.registerDefinitionProvider(SELECTOR, { provideDefinition: definition }),
    languages.registerDocumentFormattingEditProvider(SELECTOR, { provideDocumentFormattingEdits: formatting }),
    languages.registerDocumentSymbolProvider(SELECTOR, { provideDocumentSymbols: symbols }),
    languages.registerCodeActionsProvider(SELECTOR, { provideCodeActions: actions }),
  ];
}

// ---------------------------------------------------------------- the extension

/** Called by VS Code when the first knitout file is opened. */
async function activate(context) {
  const words = vscode.workspace.getConfiguration("tekhvumo").get("command");
  found = vscode.languages.createDiagnosticCollection("tekhvumo");
  client = new Client(words, told, asked, ended);
  const { workspace } = vscode;
  const capabilities = { workspace: { applyEdit: true, workspaceEdit: { documentChanges: true } } };
  await client.ask("initialize", { processId: process.pid, rootUri: null, capabilities });
  client.notify("initialized", {});
  workspace.textDocuments.forEach(open);
  context.subscriptions.push(
    found,
    workspace.onDidOpenTextDocument(open),
    workspace.onDidChangeTextDocument(change),
    workspace.onDidSaveTextDocument(save),
    workspace.onDidCloseTextDocument(close),
    ...provide(),
  );
}

/** Called by VS Code at its end. */
async function deactivate() {
  const ending = client;
  client = undefined;
  await ending?.stop();
}

module.exports = { activate, deactivate };

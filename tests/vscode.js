// Runs editors/vscode/client.js with an editor that notes what comes, and a server as HB names it.
//
//     HB=./hb node tests/vscode.js
//
// What comes is written as JSON, and compared by tests/driven.py.
"use strict";
const Module = require("module");
const path = require("path");

const made = (...names) => class { constructor(...values) { names.forEach((name, at) => { this[name] = values[at]; }); } };
const uri = (text) => ({ toString: () => text, toJSON: () => text });
const events = {};
const providers = {};
const noted = { diagnostics: [], warnings: [] };
let wake = () => {};

const on = (name) => (act) => { events[name] = act; return { dispose() {} }; };
const register = (name) => (language, provider) => { providers[name] = provider[`provide${name}`]; return { dispose() {} }; };
const text = {
  uri: uri("file:///my%20a.hb"), languageId: "hbird", version: 1, said: process.env.TEXT, getText() { return this.said; } };

const vscode = {
  Range: made("line", "first", "lastLine", "last"), Location: made("uri", "range"), Hover: made("contents"),
  Diagnostic: made("range", "message", "severity"), DiagnosticRelatedInformation: made("location", "message"),
  DocumentSymbol: made("name", "detail", "kind", "range", "selection"), MarkdownString: made("value"),
  TextEdit: { replace: (range, newText) => ({ range, newText }) }, Uri: { parse: uri },
  window: { showWarningMessage: (message) => noted.warnings.push(message) },
  workspace: {
    textDocuments: [text], getConfiguration: () => ({ get: () => process.env.HB }),
    onDidOpenTextDocument: on("open"), onDidSaveTextDocument: on("save"), onDidCloseTextDocument: on("close"),
    onDidChangeTextDocument: on("change"),
  },
  languages: {
    createDiagnosticCollection: () => ({ set: (at, shown) => { noted.diagnostics.push([at, shown]); wake(); } }),
    registerHoverProvider: register("Hover"), registerDefinitionProvider: register("Definition"),
    registerTypeDefinitionProvider: register("TypeDefinition"), registerDeclarationProvider: register("Declaration"),
    registerDocumentSymbolProvider: register("DocumentSymbols"),
    registerDocumentFormattingEditProvider: register("DocumentFormattingEdits"),
  },
};

const load = Module._load;
Module._load = (name, ...more) => (name === "vscode" ? vscode : load(name, ...more));
const client = require(path.join(__dirname, "../editors/vscode/client.js"));

async function main() {
  const shown = () => new Promise((resolve) => { wake = resolve; });
  let waits = shown();
  await client.activate({ subscriptions: [] });
  await waits;
  const at = { line: Number(process.env.LINE), character: Number(process.env.CHARACTER) };
  for (const name of ["Hover", "Definition", "TypeDefinition", "Declaration", "DocumentSymbols", "DocumentFormattingEdits"]) {
    noted[name] = await providers[name](text, at);
  }
  text.said = process.env.NEWER;
  events.change({ document: text });
  waits = shown();
  events.save(text);
  await waits;
  waits = shown();
  events.save({ ...text, languageId: "other" });
  events.close(text);
  await waits;
  await client.deactivate();
  console.log(JSON.stringify(noted));
}

main().catch((error) => { console.log(JSON.stringify({ error: error.message })); process.exit(1); });

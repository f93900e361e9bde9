// The client of `hb lsp` for VS Code, which has none of its own. Positions are the editor's: lines, and units of UTF-16.
"use strict";
const { spawn } = require("child_process");
const vscode = require("vscode");

const LANGUAGE = "hbird";

// The server as a process: requests are promises, and what it tells goes to `told`.
class Server {
  constructor(command, told) {
    this.asked = new Map();
    this.number = 0;
    this.bytes = Buffer.alloc(0);
    this.told = told;
    this.process = spawn(command, ["lsp"], { stdio: ["pipe", "pipe", "ignore"] });
    this.process.stdout.on("data", (bytes) => this.read(bytes));
    this.process.stdin.on("error", () => {});
    this.process.on("error", (error) => vscode.window.showWarningMessage(`${command} lsp: ${error.message}`));
    this.process.on("close", () => this.asked.forEach(({ reject }) => reject(new Error("the server has ended"))));
  }

  write(message) {
    const body = Buffer.from(JSON.stringify({ jsonrpc: "2.0", ...message }));
    this.process.stdin.write(Buffer.concat([Buffer.from(`Content-Length: ${body.length}\r\n\r\n`), body]));
  }

  tell(method, params) {
    this.write({ method, params });
  }

  ask(method, params) {
    const id = ++this.number;
    this.write({ id, method, params });
    return new Promise((resolve, reject) => this.asked.set(id, { resolve, reject }));
  }

  read(bytes) {
    this.bytes = Buffer.concat([this.bytes, bytes]);
    for (;;) {
      const head = this.bytes.indexOf("\r\n\r\n");
      if (head < 0) return;
      const ends = head + 4 + Number(/\d+/.exec(this.bytes.toString("latin1", 0, head))[0]);
      if (this.bytes.length < ends) return;
      const message = JSON.parse(this.bytes.toString("utf8", head + 4, ends));
      this.bytes = this.bytes.subarray(ends);
      this.take(message);
    }
  }

  take(message) {
    if (message.method) return this.told(message);
    const { resolve, reject } = this.asked.get(message.id) || {};
    this.asked.delete(message.id);
    if (message.error && reject) reject(new Error(message.error.message));
    else if (resolve) resolve(message.result);
  }
}

const range = ({ start, end }) => new vscode.Range(start.line, start.character, end.line, end.character);
const location = (one) => new vscode.Location(vscode.Uri.parse(one.uri), range(one.range));

function diagnostic(one) {
  // The protocol counts severities from 1, and kinds of symbols too.
  const shown = new vscode.Diagnostic(range(one.range), one.message, one.severity - 1);
  shown.source = one.source;
  shown.code = one.code;
  shown.relatedInformation = (one.relatedInformation || []).map(
    (other) => new vscode.DiagnosticRelatedInformation(location(other.location), other.message));
  return shown;
}

function symbol(one) {
  const shown = new vscode.DocumentSymbol(one.name, one.detail, one.kind - 1, range(one.range), range(one.selectionRange));
  shown.children = one.children.map(symbol);
  return shown;
}

// Tells the server of each text of the language, now and later.
function follow(server, keep) {
  const item = (text) => ({ uri: text.uri.toString() });
  const opened = (text) => server.tell("textDocument/didOpen", {
    textDocument: { ...item(text), languageId: LANGUAGE, version: text.version, text: text.getText() } });
  const each = (event, act) => keep(event((text) => text.languageId === LANGUAGE && act(text)));
  each(vscode.workspace.onDidOpenTextDocument, opened);
  each(vscode.workspace.onDidSaveTextDocument,
    (text) => server.tell("textDocument/didSave", { textDocument: item(text) }));
  each(vscode.workspace.onDidCloseTextDocument,
    (text) => server.tell("textDocument/didClose", { textDocument: item(text) }));
  keep(vscode.workspace.onDidChangeTextDocument(({ document }) => {
    if (document.languageId !== LANGUAGE) return;
    server.tell("textDocument/didChange", {
      textDocument: { ...item(document), version: document.version }, contentChanges: [{ text: document.getText() }] });
  }));
  vscode.workspace.textDocuments.filter((text) => text.languageId === LANGUAGE).forEach(opened);
}

// Asks the server where the editor asks.
function provide(server, keep) {
  const at = (method) => (text, position) => server.ask(`textDocument/${method}`, {
    textDocument: { uri: text.uri.toString() }, position: { line: position.line, character: position.character } });
  const of = (method) => (text) => server.ask(`textDocument/${method}`, { textDocument: { uri: text.uri.toString() } });
  const places = (method) => async (...words) => (await at(method)(...words)).map(location);
  keep(vscode.languages.registerHoverProvider(LANGUAGE, {
    provideHover: async (...words) => {
      const found = await at("hover")(...words);
      return found && new vscode.Hover(new vscode.MarkdownString(found.contents.value));
    } }));
  keep(vscode.languages.registerDefinitionProvider(LANGUAGE, { provideDefinition: places("definition") }));
  keep(vscode.languages.registerTypeDefinitionProvider(LANGUAGE, { provideTypeDefinition: places("typeDefinition") }));
  keep(vscode.languages.registerDeclarationProvider(LANGUAGE, { provideDeclaration: places("declaration") }));
  keep(vscode.languages.registerDocumentSymbolProvider(LANGUAGE, {
    provideDocumentSymbols: async (text) => (await of("documentSymbol")(text)).map(symbol) }));
  keep(vscode.languages.registerDocumentFormattingEditProvider(LANGUAGE, {
    provideDocumentFormattingEdits: async (text) =>
      (await of("formatting")(text)).map((edit) => vscode.TextEdit.replace(range(edit.range), edit.newText)) }));
}

let server;

async function activate(context) {
  const keep = (one) => context.subscriptions.push(one);
  const shown = vscode.languages.createDiagnosticCollection("hb");
  keep(shown);
  server = new Server(vscode.workspace.getConfiguration("hbird").get("command", "hb"), ({ params }) =>
    shown.set(vscode.Uri.parse(params.uri), params.diagnostics.map(diagnostic)));
  await server.ask("initialize", { processId: process.pid, rootUri: null, capabilities: {
    textDocument: { documentSymbol: { hierarchicalDocumentSymbolSupport: true } } } });
  server.tell("initialized", {});
  follow(server, keep);
  provide(server, keep);
}

async function deactivate() {
  await server.ask("shutdown");
  server.tell("exit");
}

module.exports = { activate, deactivate };
